#!/bin/bash
# Counts the lines of src/ that may read like an older language, point by point; docs/DESIGN-PASS.md says what was found behind them.
#
# usage: tools/count_places.sh [-v] [ROOT]      (-v prints the lines too)
verbose=
if [ "$1" = -v ]; then verbose=1; shift; fi
cd "${1:-.}" || exit 1
all=$(find crates/*/src -name '*.rt' | sort)
code=$(echo "$all" | grep -v '/tests\.rt$')

count() { # NAME FILES PATTERN
    local lines
    lines=$(grep -nE "$3" $2)
    echo "$1: $(printf '%s' "$lines" | grep -c .)"
    [ -n "$verbose" ] && [ -n "$lines" ] && echo "$lines" | sed 's/^/    /'
}

facts() { # facts of requires, ensures of one name and ghost fields that stand in three and more places of a crate
    for crate in crates/*/; do
        grep -hoE '^ *(requires|ghost) ?[a-z_]*:? ?\{.*\}' $(find "$crate"src -name '*.rt') |
            sed -E 's/^ *(requires|ghost) ?[a-z_]*:? ?\{//; s/\}$//; s/\.(now|old|new)//g; s/ × /\n/g' |
            sed -E 's/^[ (]*//; s/[ )]*$//; s/\b(standing|coming|walked|other|weights|targets)\b/WEIGHTS/g; s/\b(weight|target|number|cut)\b/N/g' |
            grep -v '→' | sort | uniq -c | awk -v c="$(basename "$crate")" '$1 >= 3 { n = $1; $1 = ""; print "    " c ": " n " x" $0 }'
    done
}

count '1 enums' "$all" '^ *(pub(\(crate\))? )?enum '
count '1 flags' "$all" ': bool\b[,)]|\(.*: bool,'
count '1 numbers for cases' "$all" '=> [0-9]+,$| (refusal|complete): u32,'
count '3 counted indices' "$all" '\b[a-z_]+ (\+|-)= 1;|\b(at|used) \+= |\bfor [a-z_]+ in [0-9a-z_.()]*\.\.|\.enumerate\(\)'
count '3 loops' "$code" '^ +(for|while|loop) '
count '4 by hand, by name' "$all" 'fn (is|same_[a-z]+|number|settled|from|refused|written|counted|server_numbered|seen|[a-z_]*_text|[a-z_]*digits?[a-z_]*)\b'
count '4 by hand, by number' "$all" 'number\(\) ==| as (u8|u16|u32|u64)\b'
echo '5 facts:'
facts
count '6 arrays, lengths, vectors' "$code" '\[[A-Za-z0-9<>]+; ?[A-Z0-9]+\]|len: usize|Vec<'
count '7 choices of a step' "$code" 'dyn |\bfn\(|\bpass\b|Pass::'
