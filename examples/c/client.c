/* A small client: asks for the table of weight 51 at width 8, prints and counts it, and shows two refusals. */
#include "splitter.h"

#include <stdio.h>
#include <string.h>

static uint32_t start_of(const uint8_t *record) {
    return (uint32_t)record[0] << 24 | (uint32_t)record[1] << 16 | (uint32_t)record[2] << 8 | record[3];
}

int main(void) {
    uint8_t table[SPLITTER_RECORD * SPLITTER_TABLE_MOST];
    uint8_t back[sizeof table];

    splitter_table_answer made = splitter_table(8, 51, table, sizeof table);
    if (made.refusal != SPLITTER_DONE) {
        return 1;
    }
    for (size_t i = 0; i < made.rules; i++) {
        const uint8_t *record = table + SPLITTER_RECORD * i;
        printf("%u/%u:%u\n", (unsigned)start_of(record), (unsigned)record[4], (unsigned)record[5]);
    }

    /* In a table the longest prefix decides, and the counter lets the first match decide: from the last record to the first both are the same. */
    for (size_t i = 0; i < made.rules; i++) {
        memcpy(back + SPLITTER_RECORD * i, table + SPLITTER_RECORD * (made.rules - 1 - i), SPLITTER_RECORD);
    }
    splitter_count_answer count = splitter_count(8, back, SPLITTER_RECORD * made.rules);
    printf("refusal %u one %u two %u unmatched %u complete %u excess %u\n", (unsigned)count.refusal, (unsigned)count.one, (unsigned)count.two,
           (unsigned)count.unmatched, (unsigned)count.complete, (unsigned)count.excess);

    /* The last record alone leaves addresses out. */
    count = splitter_count(8, back, SPLITTER_RECORD);
    printf("refusal %u one %u two %u unmatched %u complete %u excess %u\n", (unsigned)count.refusal, (unsigned)count.one, (unsigned)count.two,
           (unsigned)count.unmatched, (unsigned)count.complete, (unsigned)count.excess);

    /* One byte too few, and a record that is cut short. */
    memset(table, 7, sizeof table);
    made = splitter_table(8, 51, table, 39);
    printf("refusal %u rules %u first byte %u\n", (unsigned)made.refusal, (unsigned)made.rules, (unsigned)table[0]);
    count = splitter_count(8, back, 39);
    printf("refusal %u\n", (unsigned)count.refusal);
    return 0;
}
