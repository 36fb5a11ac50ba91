/* Equality of states field by field: what stands between the fields is nobody's. */
#include <string.h>

#include "paviluko.h"

static int same_entry(const paviluko_entry *a, const paviluko_entry *b)
{
    return a->stamp == b->stamp && a->number == b->number && a->reading == b->reading && a->code == b->code &&
           a->lane == b->lane && a->present == b->present;
}

static int same_point(const paviluko_point_item *a, const paviluko_point_item *b)
{
    return a->position == b->position && memcmp(a->counts, b->counts, sizeof a->counts) == 0 && a->covered == b->covered;
}

static int same_due(const paviluko_due *a, const paviluko_due *b)
{
    return a->position == b->position && a->kind == b->kind && a->lane == b->lane && a->second == b->second;
}

static int same_state(const paviluko_state *a, const paviluko_state *b)
{
    int same = memcmp(&a->vault, &b->vault, sizeof a->vault) == 0 && same_due(&a->due, &b->due);
    for (int i = 0; i < PAVILUKO_METERS; i++) {
        same = same && same_entry(&a->table.entries[i], &b->table.entries[i]);
    }
    same = same && memcmp(a->journal.positions, b->journal.positions, sizeof a->journal.positions) == 0 &&
           memcmp(a->journal.lanes, b->journal.lanes, sizeof a->journal.lanes) == 0 &&
           a->journal.count == b->journal.count && a->journal.used == b->journal.used && a->journal.last == b->journal.last;
    for (int i = 0; i < PAVILUKO_POINTS; i++) {
        same = same && same_point(&a->points.items[i], &b->points.items[i]);
    }
    same = same && a->points.count == b->points.count && a->points.any == b->points.any &&
           a->points.newest == b->points.newest;
    same = same && memcmp(a->held.text, b->held.text, sizeof a->held.text) == 0 && a->held.len == b->held.len &&
           a->held.lane == b->held.lane && a->held.position == b->held.position;
    return same && memcmp(a->key, b->key, sizeof a->key) == 0 && a->phase == b->phase;
}
