/* A table in plain, as 01 lays a checkpoint's text out: an entry of 24 bytes for each meter. */
#include <string.h>

#include "paviluko.h"

enum {
    ENTRY = PAVILUKO_TABLE_LEN / PAVILUKO_METERS,
    NUMBER_AT = 8,
    READING_AT = 16,
    CODE_AT = 20,
    LANE_AT = 21,
    PRESENT_AT = 22,
    ZERO_AT = 23,
    TABLES_LEN = 2 * PAVILUKO_TABLE_LEN, /* two of them, the start's first */
    HEAT = 3
};

/* Writes a meter's reading into a table. */
static inline void put_entry(uint8_t *table, int meter, uint8_t code, int32_t reading)
{
    uint8_t *to = table + ENTRY * meter;
    memset(to, 0, ENTRY);
    memcpy(to + READING_AT, &reading, sizeof reading);
    to[CODE_AT] = code;
    to[PRESENT_AT] = 1;
}

/* A state's table as a checkpoint's text has it. */
static inline void table_text(const paviluko_state *s, uint8_t *text)
{
    memset(text, 0, PAVILUKO_TABLE_LEN);
    for (size_t i = 0; i < PAVILUKO_METERS; i++) {
        const paviluko_entry *e = &s->table.entries[i];
        uint8_t *to = text + ENTRY * i;
        if (e->present) {
            memcpy(to, &e->stamp, 8);
            memcpy(to + NUMBER_AT, &e->number, 8);
            memcpy(to + READING_AT, &e->reading, 4);
            to[CODE_AT] = e->code;
            to[LANE_AT] = e->lane;
            to[PRESENT_AT] = 1;
        }
    }
}

/* The two tables of the request's example, which both have nothing else, and its lines. */
static const char example_lines[] = "meter,used,share\n4,1,333334\n9,1,333333\n12,-2,0\n200,1,333333\n";

static inline void put_example(uint8_t *tables)
{
    memset(tables, 0, TABLES_LEN);
    static const int ones[] = {4, 9, 200};
    for (int i = 0; i < 3; i++) {
        put_entry(tables, ones[i], HEAT, 10);
        put_entry(tables + PAVILUKO_TABLE_LEN, ones[i], HEAT, 11);
    }
    put_entry(tables, 12, HEAT, 5);
    put_entry(tables + PAVILUKO_TABLE_LEN, 12, HEAT, 3);
}
