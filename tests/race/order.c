/* An order of the changes that explains every answer, everything that the reader saw and, as its last look, the final file.
 *
 * Each worker's changes come in the order in which it gave them, and a change that ended before another began comes before it.
 * The search goes depth first. A refusal or a look leaves the board as it is, and is taken as soon as it fits: whatever order there
 * is from here, there is one with that first. Of changes that were done, those come first that change nothing here (a right given
 * twice) and either show in no look to come or would be shut out; then those that lead towards what the reader sees next; then the
 * rest, those that ended first before others. A place met before, with the same changes taken and the same board, isn't gone into
 * again, and one that is past hope isn't either.
 *
 * A change ends soon after it had the lock, however long it waited for that. So an order is looked for first in which each change lies
 * in the last few milliseconds of its time, where few can come next; such an order is one for the whole times, too. */
#include "race.h"
#include <stdlib.h>
#include <string.h>

/* A place in the search: how many of each lane are taken, which of the killed ones, and the board. */
struct node {
    uint16_t taken[LANES];
    uint64_t killed[(WORKERS * OF_ONE + 63) / 64];
    int64_t latest_start; /* of those taken */
    struct view view;
    uint8_t file[FILE_MAX];
    size_t len;
    uint64_t hash; /* of the file */
};

struct choice {
    const struct event *event;
    int lane, killed; /* killed: which, where lane is LANES */
    enum { AT_ONCE, AHEAD, ASIDE } way; /* changes nothing; leads towards what the reader sees next; doesn't */
    bool idle;
    int away; /* how far the board is then from what the reader sees next */
};

enum { MEMO = 1 << 17, FITTING = 1 << 18, DEEP = WORKERS * OF_ONE + 2 };
static const struct race *race;
static uint64_t memo[MEMO], fitting[FITTING];
static struct node *path[DEEP];
static struct view views[2];
static struct found_order result;
static const struct look *goal; /* the look that was read last */
static bool hasty;
static long most; /* places that the search may come to */
static int deepest;
static struct node stuck; /* the deepest place where it didn't go on */

/* FNV's, for places and boards. */
static uint64_t mix(uint64_t h, const void *bytes, size_t len)
{
    for (const uint8_t *b = bytes; len > 0; len--) h = (h ^ *b++) * 0x100000001b3u;
    return h ^ h >> 29;
}

/* ---- what may come next */

static const struct event *next_of(const struct node *n, int lane)
{
    const struct lane *l = &race->lane[lane];
    return n->taken[lane] < l->count ? &l->event[n->taken[lane]] : NULL;
}

static int64_t first_end(const struct node *n)
{
    int64_t end = INT64_MAX;
    for (int lane = 0; lane < LANES; lane++) {
        const struct event *e = next_of(n, lane);
        if (e && e->ended < end) end = e->ended;
    }
    return end;
}

static bool is_taken(const struct node *n, int killed) { return n->killed[killed / 64] >> killed % 64 & 1; }

/* How many looks are behind us: the next is the one of this number. */
static int gap_of(const struct node *n) { return n->taken[LANES - 1]; }

static bool in_gap(const struct node *n, const struct event *e) { return e->lo <= gap_of(n) && gap_of(n) <= e->hi; }

/* Something must still come before the next look. */
static bool something_due(const struct node *n)
{
    for (int lane = 0; lane < LANES - 1; lane++) {
        const struct event *e = next_of(n, lane);
        if (e && e->hi <= gap_of(n)) return true;
    }
    for (int k = 0; k < race->perhaps; k++)
        if (race->killed[k].needed && race->killed[k].hi <= gap_of(n) && !is_taken(n, k)) return true;
    return false;
}

/* ---- what a change does here */

/* NULL where the answers differ; else the board afterwards, good until the next call; it is `v` where nothing is changed. */
static const struct view *made(const struct asked *a, const struct view *v)
{
    const struct view *at = v;
    if (a->reply.kind == BUSY) return v;
    for (int k = 0; k < a->change.commands; k++) {
        struct view *after = &views[at == &views[0]];
        uint64_t answer = packed_answer(at, &a->change.command[k], after);
        if (k < a->reply.given && answer != a->reply.of[k]) return NULL;
        if (answer == 0) at = after;
    }
    return at;
}

/* One that may change the board: a right given twice is done and changes nothing here, but may elsewhere. */
static bool has_done(const struct reply *r)
{
    for (int k = 0; k < r->given; k++)
        if (r->of[k] == 0) return true;
    return r->kind == CUT_SHORT;
}

/* Whether it has its answers here: worked out once for each board, as long as it is remembered. */
static bool fits(const struct node *n, const struct event *e)
{
    uint64_t key = (n->hash ^ (uintptr_t)e * 0x9e3779b97f4a7c15u) & ~1ull;
    uint64_t *place = &fitting[key / 2 % FITTING];
    if ((*place & ~1ull) != key) *place = key | (made(e->asked, &n->view) != NULL);
    return *place & 1;
}

static bool fits_idle(const struct node *n, const struct event *e)
{
    if (e->look) return n->len == e->look->len && memcmp(n->file, e->look->bytes, n->len) == 0 && !something_due(n);
    return !has_done(&e->asked->reply) && in_gap(n, e) && fits(n, e);
}

static void note_start(struct node *n, const struct event *e)
{
    if (e->began > n->latest_start) n->latest_start = e->began;
}

static void take_idle(struct node *n)
{
    for (bool again = true; again;) {
        int64_t end = first_end(n);
        again = false;
        for (int lane = 0; lane < LANES; lane++) {
            const struct event *e = next_of(n, lane);
            if (!e || e->began > end || !fits_idle(n, e)) continue;
            n->taken[lane]++;
            note_start(n, e);
            again = true;
        }
    }
}

/* ---- choices */

static int away(const struct model *m, const struct model *seen)
{
    const uint8_t *x = (const uint8_t *)m, *y = (const uint8_t *)seen;
    int count = 0;
    for (size_t k = 0; k < sizeof *m; k++) count += x[k] != y[k];
    return count;
}

static const struct model *goal_of(const struct node *n)
{
    static struct view v;
    const struct event *e = next_of(n, LANES - 1);
    if (!e) return NULL;
    if (goal != e->look) read_file(e->look->bytes, e->look->len, &v);
    goal = e->look;
    return &v.board;
}

static void lay_file(struct node *n)
{
    n->len = put_file(&n->view.board, n->file);
    n->hash = mix(0xcbf29ce484222325u, n->file, n->len);
}

static int by_hope(const void *x, const void *y)
{
    const struct choice *a = x, *b = y;
    if (a->way != b->way) return (int)a->way - (int)b->way;
    if (a->away != b->away) return a->away - b->away;
    if (a->lane / LANES != b->lane / LANES) return a->lane / LANES - b->lane / LANES;
    return a->event->ended < b->event->ended ? -1 : a->event->ended > b->event->ended;
}

static int weigh(const struct node *n, struct choice c, struct choice *choice, int count)
{
    const struct model *seen = goal_of(n);
    if (!fits(n, c.event)) return count;
    const struct view *after = made(c.event->asked, &n->view);
    c.idle = memcmp(&after->board, &n->view.board, sizeof after->board) == 0;
    if (c.idle && c.lane == LANES) return count; /* made or not is the same here */
    c.away = seen ? away(&after->board, seen) : 0;
    c.way = seen && c.away < away(&n->view.board, seen) ? AHEAD : ASIDE;
    if (c.idle && c.event->shows < gap_of(n)) c.way = AT_ONCE;
    choice[count] = c;
    return count + 1;
}

/* What changes nothing and would be shut out by the best choice comes before that. */
static void heed_harm(const struct node *n, struct choice *choice, int count)
{
    static struct node then;
    qsort(choice, count, sizeof *choice, by_hope);
    if (count == 0 || choice[0].way != AHEAD) return;
    then.view = *made(choice[0].event->asked, &n->view);
    lay_file(&then);
    for (int k = 1; k < count; k++)
        if (choice[k].idle && !choice[k].event->needed && !fits(&then, choice[k].event)) choice[k].way = AT_ONCE;
    qsort(choice, count, sizeof *choice, by_hope);
}

static int choices_of(const struct node *n, struct choice *choice)
{
    int count = 0;
    int64_t end = first_end(n);
    for (int lane = 0; lane < LANES; lane++) {
        const struct event *e = next_of(n, lane);
        if (!e || e->look || e->began > end || !in_gap(n, e) || !has_done(&e->asked->reply)) continue;
        count = weigh(n, (struct choice){.event = e, .lane = lane}, choice, count);
    }
    for (int k = 0; k < race->perhaps; k++) {
        const struct event *e = &race->killed[k];
        if (is_taken(n, k) || e->began > end || e->ended < n->latest_start || !in_gap(n, e)) continue;
        count = weigh(n, (struct choice){.event = e, .lane = LANES, .killed = k}, choice, count);
    }
    heed_harm(n, choice, count);
    return count;
}

static void take(const struct node *from, const struct choice *c, struct node *to)
{
    *to = *from;
    to->view = *made(c->event->asked, &from->view);
    lay_file(to);
    if (c->lane < LANES) to->taken[c->lane]++;
    else to->killed[c->killed / 64] |= 1ull << c->killed % 64;
    note_start(to, c->event);
}

/* ---- the search */

/* True where it was met before; else it is met now. */
static bool met(const struct node *n)
{
    uint64_t h = mix(0xcbf29ce484222325u, n->taken, sizeof n->taken);
    h = mix(h, n->killed, sizeof n->killed);
    h = mix(h, &n->hash, sizeof n->hash) | 1;
    for (size_t at = h % MEMO;; at = (at + 1) % MEMO) {
        if (memo[at] == h) return true;
        if (memo[at] != 0) continue;
        memo[at] = h;
        return false;
    }
}

static bool all_taken(const struct node *n)
{
    for (int lane = 0; lane < LANES; lane++)
        if (next_of(n, lane)) return false;
    return true;
}

static bool search(int depth)
{
    struct choice choice[LANES + WORKERS * OF_ONE];
    struct node *n = path[depth];
    take_idle(n);
    if (all_taken(n)) return true;
    if (hopeless(race, n->taken, n->killed, &n->view.board, goal_of(n)) || met(n)) return false;
    if (++result.nodes > most) {
        result.too_long = true;
        return false;
    }
    int count = choices_of(n, choice);
    if (depth >= deepest) deepest = depth, stuck = *n;
    if (depth + 1 < DEEP && !path[depth + 1]) path[depth + 1] = malloc(sizeof *n);
    if (hasty && count > 0 && choice[0].way == AT_ONCE) count = 1;
    for (int k = 0; k < count && depth + 1 < DEEP && !result.too_long; k++) {
        take(n, &choice[k], path[depth + 1]);
        if (!search(depth + 1)) continue;
        result.made += choice[k].lane == LANES;
        return true;
    }
    return false;
}

/* ---- where it stopped */

static void explain_change(FILE *out, const struct event *e, const struct view *v)
{
    char line[TEXT], words[SAID];
    static struct view turn[2];
    const struct view *at = v;
    fprintf(out, "  a change with these answers, where the model has others:\n");
    for (int k = 0; k < e->asked->change.commands; k++) {
        struct view *after = &turn[at == &turn[0]];
        const struct command *c = &e->asked->change.command[k];
        uint64_t answer = packed_answer(at, c, after);
        if (answer == 0) at = after;
        line_of(c, line);
        sprintf(words, "refused %lu", answer & 255);
        if (answer == 0) strcpy(words, "done");
        if ((answer & 255) == 6) six_in_words(c->actor, answer, words);
        fprintf(out, "    %s: answered %lu (role %lu, cause %lu, by %lu); model: %s\n", line, e->asked->reply.of[k] & 255,
                e->asked->reply.of[k] >> 32 & 255, e->asked->reply.of[k] >> 40 & 255, e->asked->reply.of[k] >> 48 & 255, words);
    }
}

static void explain(FILE *out)
{
    int64_t end = first_end(&stuck);
    fprintf(out, "%s after %ld places; the furthest had made %d changes. What could come next there:\n",
            result.too_long ? "no order found" : "there is no order", result.nodes, deepest);
    for (int lane = 0; lane < LANES; lane++) {
        const struct event *e = next_of(&stuck, lane);
        if (!e || e->began > end) continue;
        if (e->look) fprintf(out, "  the reader sees a board of %zu bytes, where there are %zu\n", e->look->len, stuck.len);
        else explain_change(out, e, &stuck.view);
    }
}

/* So long before its end a change may lie at the earliest; 0: from its beginning on. Of one that was killed nobody knows when it ended. */
static void narrow(struct race *r, int64_t span)
{
    for (int lane = 0; lane < LANES - 1; lane++)
        for (int k = 0; k < r->lane[lane].count; k++) {
            struct event *e = &r->lane[lane].event[k];
            const struct answer *a = &e->asked->answer;
            e->began = span > 0 && !a->killed && a->ended - span > a->began ? a->ended - span : a->began;
        }
}

static void search_all(bool in_haste)
{
    hasty = in_haste;
    most = result.nodes + (in_haste ? NODES / 10 : NODES);
    deepest = 0;
    memset(memo, 0, sizeof memo);
    memset(path[0], 0, sizeof *path[0]);
    path[0]->view = *race->first;
    lay_file(path[0]);
    result = (struct found_order){.nodes = result.nodes};
    result.found = search(0);
}

/* First without going back on what changes nothing and shows nowhere; where that leads to no order, with all choices. */
struct found_order find_order(struct race *r, FILE *out)
{
    static const int64_t spans[] = {5000000, 20000000, 80000000, 0};
    race = r;
    memset(fitting, 0, sizeof fitting);
    if (!path[0]) path[0] = malloc(sizeof *path[0]);
    result = (struct found_order){.nodes = 0};
    for (size_t k = 0; k < sizeof spans / sizeof *spans && !result.found; k++) {
        goal = NULL;
        narrow(r, spans[k]);
        find_gaps(r);
        search_all(true);
    }
    if (!result.found) search_all(false);
    if (!result.found && out) explain(out);
    return result;
}
