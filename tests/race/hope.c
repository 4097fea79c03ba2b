/* Whether a place in the search is past hope: the reader is yet to see, or a change was answered by, something that isn't there and
 * that no change left over can bring about in time.
 *
 * Only what a change may touch is looked at, not whether it would be done: so a place that is given up is rightly given up. */
#include "race.h"
#include <stdlib.h>
#include <string.h>

static bool bring(const struct means *m, const struct model *from, const struct model *to)
{
    static struct flip flip[FLIPS];
    int flips = flips_between(from, to, flip);
    for (int k = 0; k < flips; k++)
        if (!may_flip(m, &flip[k])) return false;
    return true;
}

/* A part of an edge can be there, or not be there, sooner or later. */
static bool part_can(const struct means *m, const struct model *from, int x, int y, int bit, bool stand)
{
    return in(from->kind[x][y], bit) == stand || may_flip(m, &(struct flip){PART, x, y, bit, stand});
}

/* ---- to a board where a command has this answer */

static bool live_can(const struct means *m, const struct model *from, int x, bool live)
{
    return from->live[x] == live || in(live ? m->live_up : m->live_down, x);
}

/* All roles that must exist can be live, or one of them can be not. */
static bool roles_can(const struct means *m, const struct model *from, const struct command *c, bool live)
{
    uint64_t named = 1ull << c->actor;
    if (c->code == ADD_ROLE) named |= c->a_seniors | c->i_seniors | c->a_juniors | c->i_juniors;
    else named |= 1ull << c->role;
    if (on_edge(c)) named |= 1ull << c->junior;
    for (uint64_t left = named; left; left &= left - 1)
        if (live_can(m, from, __builtin_ctzll(left), live) != live) return !live;
    return live;
}

/* All parts named can be there (or not be there), or some one can. */
static bool parts_can(const struct means *m, const struct model *from, const struct command *c, bool stand, bool all)
{
    for (int part = 0; part < 2; part++)
        if (in(c->kind, part) && part_can(m, from, c->role, c->junior, part, stand) != all) return !all;
    return all;
}

static bool edge_can(const struct means *m, const struct model *from, const struct command *c, int number)
{
    struct command any = *c;
    any.kind = 3;
    if (c->code == ADD_EDGE) return number == 4 ? parts_can(m, from, c, true, true) : parts_can(m, from, c, false, false);
    if (c->code == REMOVE_EDGE) return number == 5 ? parts_can(m, from, c, false, false) : parts_can(m, from, c, true, true);
    return number == 5 ? parts_can(m, from, &any, false, true) : parts_can(m, from, &any, true, false);
}

static bool rights_can(const struct means *m, const struct model *from, const struct command *c)
{
    uint8_t held = m->given, asked = on_rights(c) ? c->rights : 1u << (c->code - 1);
    for (int x = 0; x < ROLES; x++) held |= from->rights[x];
    return (asked & ~held) == 0;
}

static bool can_answer(const struct means *m, const struct model *from, const struct command *c, int number)
{
    if (number == 2 || c->role >= ROLES) return number == 2;
    if (number == 3) return roles_can(m, from, c, false);
    if (!roles_can(m, from, c, true)) return false;
    if (c->code == ADD_ROLE && !live_can(m, from, c->role, number == 4)) return false;
    if (on_edge(c) && !edge_can(m, from, c, number)) return false;
    return number == 4 || number == 5 || number == 13 || rights_can(m, from, c);
}

/* ---- past hope */

static const struct event *left[WORKERS * OF_ONE], *next[LANES];

static int by_last_gap(const void *x, const void *y)
{
    const struct event *a = *(const struct event *const *)x, *b = *(const struct event *const *)y;
    return a->hi - b->hi;
}

static int by_first_gap(const void *x, const void *y)
{
    const struct event *a = *(const struct event *const *)x, *b = *(const struct event *const *)y;
    return a->lo - b->lo;
}

static int find_left(const struct race *race, const uint16_t *taken, const uint64_t *killed)
{
    int count = 0;
    for (int lane = 0; lane < LANES - 1; lane++)
        for (int k = taken[lane]; k < race->lane[lane].count; k++) left[count++] = &race->lane[lane].event[k];
    for (int k = 0; k < race->perhaps; k++)
        if (!in(killed[k / 64], k % 64)) left[count++] = &race->killed[k];
    qsort(left, count, sizeof *left, by_first_gap);
    return count;
}

static int find_next(const struct race *race, const uint16_t *taken)
{
    int count = 0;
    for (int lane = 0; lane < LANES; lane++)
        if (taken[lane] < race->lane[lane].count) next[count++] = &race->lane[lane].event[taken[lane]];
    qsort(next, count, sizeof *next, by_last_gap);
    return count;
}

/* What may come before an event is what may lie in a gap up to its last. Of a run only the first answer counts here: the others hang on
 * what it did itself. */
bool hopeless(const struct race *race, const uint16_t *taken, const uint64_t *killed, const struct model *from, const struct model *seen)
{
    static struct means m;
    int lefts = find_left(race, taken, killed), nexts = find_next(race, taken), added = 0;
    memset(&m, 0, sizeof m);
    for (int k = 0; k < nexts; k++) {
        const struct event *e = next[k];
        while (added < lefts && left[added]->lo <= e->hi) add_event(&m, left[added++]);
        if (e->look ? !bring(&m, from, seen)
                    : e->asked->reply.given > 0 && !can_answer(&m, from, &e->asked->change.command[0], e->asked->reply.of[0] & 255))
            return true;
    }
    return false;
}
