#!/usr/bin/env python3
"""Leaves out of a crate's Answers.antt files the answers that the check finds alone.

usage: tools/prune_answers.py CRATE_FOLDER      (proofs/ must be committed; git checkout gives them back)

Deletes every Answers.antt, runs `rt check --margin` and then `rt check`, puts back the answers of the goals that either leaves open,
and checks again until the crate proves. Prints what went.
"""
import os, re, subprocess, sys

crate = os.path.abspath(sys.argv[1])
os.chdir(crate)
if subprocess.run(["git", "status", "--porcelain", "proofs"], capture_output=True, text=True).stdout.strip():
    sys.exit("commit proofs/ first")

files = {}
for d, _, names in os.walk("proofs"):
    if "Answers.antt" in names:
        p = os.path.join(d, "Answers.antt")
        files[p] = open(p, encoding="utf-8").read()


def blocks(text):
    """The header (uses, comments) and the declarations: (name, is a goal, text)."""
    lines = text.split("\n")
    head, decls, cur, pend = [], [], None, []
    sig = re.compile(r"^(?:pub |abbrev |unfoldable )*([^\s:(){}]+)\s*:(?!\S)")
    for ln in lines:
        if ln.startswith("use "):
            head.append(ln)
            continue
        m = sig.match(ln)
        if m and not ln.startswith("--"):
            if cur is not None:
                decls.append(cur)
            cur = [m.group(1), ": goal." in ln, pend + [ln]]
            pend = []
        elif ln.startswith("--"):
            pend.append(ln)
        elif cur is None:
            if ln.strip():
                pend.append(ln)
        else:
            if pend and ln.strip():
                cur[2].extend(pend)
                pend = []
            cur[2].append(ln)
    if cur is not None:
        decls.append(cur)
    return head, [(n, g, "\n".join(b).rstrip("\n")) for n, g, b in decls]


parsed = {p: blocks(t) for p, t in files.items()}
keep = {p: set() for p in files}


def write():
    for p, (head, decls) in parsed.items():
        wanted = [d for d in decls if d[1] and d[0] in keep[p]]
        if not wanted:
            if os.path.exists(p):
                os.remove(p)
            continue
        names = {d[0] for d in wanted}
        while True:
            body = "\n".join(d[2] for d in decls if d[0] in names)
            more = {d[0] for d in decls if not d[1] and d[0] not in names
                    and re.search(r"(?<![\w'-])" + re.escape(d[0]) + r"(?![\w'-])", body)}
            if not more:
                break
            names |= more
        if names == {d[0] for d in decls}:
            open(p, "w", encoding="utf-8").write(files[p])
        else:
            open(p, "w", encoding="utf-8").write("\n".join(head) + "\n\n" + "\n\n".join(d[2] for d in decls if d[0] in names) + "\n")


def check(*flags):
    r = subprocess.run(["rt", "check", *flags], capture_output=True, text=True)
    out = r.stdout + r.stderr
    opened = {(m.group(2), m.group(1)) for m in re.finditer(r"note: `([^`]+)` of (proofs/\S+/Answers\.antt) must prove", out)}
    opened |= {(m.group(1), g) for m in re.finditer(r"(?:write|add to) \./(proofs/\S+/Answers\.antt)[^\n]*\n((?:    [^\n]*\n)+)", out)
               for g in re.findall(r"^    pub (\S+) : goal\.", m.group(2), re.M)}
    return r.returncode, opened, out


def put_back(opened):
    new = 0
    for p, g in opened:
        if p not in parsed:
            print("open, never answered:", p, g)
            continue
        hit = False
        for n, is_goal, _ in parsed[p][1]:
            if is_goal and (n == g or g.startswith(n + "-clause-") or n.startswith(g + "-clause-")):
                hit = True
                if n not in keep[p]:
                    keep[p].add(n)
                    new += 1
        if not hit:
            print("no answer fits:", p, g)
            for n, is_goal, _ in parsed[p][1]:
                if is_goal and n not in keep[p]:
                    keep[p].add(n)
                    new += 1
    return new


write()
for flags in (["--margin"], []):
    code, opened, out = check(*flags)
    print("rt check", *flags, "->", code, len(opened), "open", flush=True)
    put_back(opened)
for turn in range(6):
    write()
    code, opened, out = check()
    print("rt check ->", code, len(opened), "open", flush=True)
    if code == 0:
        break
    if not put_back(opened):
        bad = re.findall(r"(proofs/\S+/Answers\.antt)", out)
        back = 0
        for p in set(bad) & set(parsed):
            for n, is_goal, _ in parsed[p][1]:
                if is_goal and n not in keep[p]:
                    keep[p].add(n)
                    back += 1
        if not back:
            print(out[-3000:])
            for p, t in files.items():
                open(p, "w", encoding="utf-8").write(t)
            sys.exit("given up: all put back")
gone = [(p, d[0]) for p, (h, ds) in parsed.items() for d in ds if d[1] and d[0] not in keep[p]]
print("answers before:", sum(1 for h, ds in parsed.values() for d in ds if d[1]), "gone:", len(gone))
for p, n in gone:
    print("  ", p, n)
