#include "boards.h"
#include <stdbool.h>
#include <stdio.h>
#include <stdlib.h>
#include <string.h>

/* ---- boards */

static void edge(struct board *b, unsigned senior, unsigned junior, unsigned kind)
{
    b->live |= 1ull << senior | 1ull << junior;
    if (kind & 1) b->i[senior] |= 1ull << junior;
    if (kind & 2) b->a[senior] |= 1ull << junior;
}

static void put16(uint8_t *at, size_t n) { at[0] = n & 255, at[1] = n >> 8; }

static void finish(struct sample *s, unsigned last)
{
    const struct board *b = &s->board;
    uint8_t *at = s->file;
    for (unsigned x = 0; x < 64; x++)
        if (b->live >> x & 1) *at++ = x;
    const uint8_t *edges = at;
    for (unsigned x = 0; x < 64; x++)
        for (unsigned y = 0; y < 64; y++) {
            unsigned kind = (b->i[x] >> y & 1) | (b->a[x] >> y & 1) << 1;
            if (kind == 0) continue;
            *at++ = x, *at++ = y, *at++ = kind;
        }
    size_t roles = edges - s->file, from_edges = at - edges;
    int hr = b->rights[0] != BOARD_RIGHTS_ALL;
    for (unsigned x = 1; x < 64; x++) hr |= b->rights[x] != 0;
    for (unsigned x = 0; x < 64 && hr; x++)
        if (b->live >> x & 1) *at++ = b->rights[x];
    const size_t all = at - s->file;
    if (hr) put16(at, roles), at += 2;
    put16(at, from_edges == 0 ? 0 : all - roles);
    put16(at + 2, all);
    memcpy(at + 4, hr ? "HR" : "HH", 2);
    s->len = at + 6 - s->file;
    s->last = last;
    if (plain_read(s->file, s->len, &s->board) == 0) return; /* which adds the stored values */
    printf("%s is no board\n", s->name);
    exit(1);
}

static void begin(struct sample *s)
{
    memset(s, 0, sizeof *s);
    s->board.live = 1;
    s->board.rights[0] = BOARD_RIGHTS_ALL;
}

static void founding(struct sample *s)
{
    begin(s);
    strcpy(s->name, "founding board");
    finish(s, 0);
}

void tree(struct sample *s, unsigned roles)
{
    begin(s);
    sprintf(s->name, "tree of %u", roles);
    for (unsigned x = 1; x < roles; x++) edge(&s->board, (x - 1) / 2, x, 1 + x % 3);
    finish(s, roles - 1);
}

void chain(struct sample *s, unsigned roles)
{
    begin(s);
    sprintf(s->name, "chain of %u", roles);
    for (unsigned x = 1; x < roles; x++) edge(&s->board, x - 1, x, 3);
    finish(s, roles - 1);
}

/* A chain, or a tree, of 64 with its roles in another order: behind 0 and 1 the others follow in steps of `stride` among
 * themselves. */
static unsigned at_place(unsigned place, unsigned stride) { return place < 2 ? place : 2 + (place - 2) * stride % 62; }

static void renumbered(struct sample *s, int is_tree, unsigned stride, const char *how)
{
    begin(s);
    sprintf(s->name, "%s of 64, %s", is_tree ? "tree" : "chain", how);
    for (unsigned k = 1; k < 64; k++)
        edge(&s->board, at_place(is_tree ? (k - 1) / 2 : k - 1, stride), at_place(k, stride), 3);
    finish(s, at_place(63, stride));
}

/* Role 1 below 0, 2 to 62 below 1, and 63 below them all: each of those has the others in its way to 63. */
static void crossed(struct sample *s)
{
    begin(s);
    strcpy(s->name, "crossed, 64 roles");
    edge(&s->board, 0, 1, 1);
    for (unsigned x = 2; x < 63; x++) edge(&s->board, 1, x, 2), edge(&s->board, x, 63, 1);
    s->board.rights[62] = BOARD_RIGHTS_ALL; /* or it would have 13 before 6 */
    finish(s, 63);
}

void dense(struct sample *s, unsigned roles, unsigned edges)
{
    unsigned put = 0;
    begin(s);
    sprintf(s->name, "%u roles, %u edges", roles, edges);
    for (unsigned span = 1; span < roles; span++)
        for (unsigned x = 0; x + span < roles && put < edges; x++, put++) edge(&s->board, x, x + span, 3);
    finish(s, roles - 1);
}

/* The same with rights everywhere: nobody may change an edge's kind, and role 1 may not remove an edge. */
static void with_rights(struct sample *s)
{
    for (unsigned x = 0; x < 64; x++) s->board.rights[x] = s->board.live >> x & 1 ? 3 : 0;
    s->board.rights[0] = 15;
    s->board.rights[1] = 7;
    strcat(s->name, ", HR");
    finish(s, s->last);
}

void choose(struct sample *s, int board)
{
    switch (board) {
    case TREE_20_HR: tree(s, 20), with_rights(s); break;
    case CHAIN_64_HR: chain(s, 64), with_rights(s); break;
    case FULL_HR: dense(s, 64, 2016), with_rights(s); break;
    case FOUNDING: founding(s); break;
    case TREE_20: tree(s, 20); break;
    case CHAIN_64: chain(s, 64); break;
    case FULL: dense(s, 64, 2016); break;
    case TREE_64: tree(s, 64); break;
    case CHAIN_UPWARDS: renumbered(s, 0, 61, "upwards"); break;
    case TREE_MIXED: renumbered(s, 1, 37, "mixed"); break;
    case CROSSED: crossed(s); break;
    default: renumbered(s, 0, 37, "mixed");
    }
}

/* ---- calls */

const char *const deed_name[DEEDS] = {"apply, done", "apply, refused 6", "apply, refused 7", "command, done",
                                      "check",       "derives",          "scope",            "manager",
                                      "steps",       "stretch",          "read",             "write",
                                      "apply, barred", "scope, barred",  "apply, given",     "apply, refused 13",
                                      "command, given", "view, stored",  "view, by calls",  "run of 30",
                                      "30 by apply", "claim, done",      "claim, taken 14",  "claim, 15",
                                      "release, holder", "release, other", "release, 15",   "start of 1,024",
                                      "job",         "found"};

const struct table tables[TABLES] = {
    {"Each call", 4, CALLS, {FOUNDING, TREE_20, CHAIN_64, FULL},
     {DONE, REFUSED_6, REFUSED_7, COMMAND, CHECK, DERIVES, SCOPE, MANAGER, STEPS, STRETCH, READ, WRITE}},
    {"Numbered another way", 3, 4, {CHAIN_UPWARDS, TREE_MIXED, CHAIN_MIXED}, {DONE, REFUSED_7, CHECK, STEPS}},
    {"With roles in the way", 1, 2, {CROSSED}, {BARRED_6, BARRED_SCOPE}},
    {"With rights, and so HR files", 3, 5, {TREE_20_HR, CHAIN_64_HR, FULL_HR}, {GIVEN, REFUSED_13, GIVEN_COMMAND, READ, WRITE}},
    {"The tree view", 3, 2, {CHAIN_64, TREE_64, FULL}, {VIEW_STORED, VIEW_BY_CALLS}},
    {"An evening of thirty commands", 3, 2, {TREE_20, CHAIN_64, FULL}, {EVENING_RUN, EVENING_APPLIED}},
    {"The job list", 4, 4, {FOUNDING, TREE_20, CHAIN_64, FULL}, {CLAIM_DONE, CLAIM_14, GIVEN_BACK, TAKEN_BACK}},
    {"The job list, by who may not", 3, 2, {TREE_20, CHAIN_64, FULL}, {CLAIM_15, RELEASE_15}},
    {"The job list without a board", 1, 2, {FOUNDING}, {LIST_START, LIST_JOB}},
};

/* That the answers are right is the comparison's business; here it is enough that a call did what is measured. */
static void expect(enum deed deed, const struct sample *s, uint64_t answer, uint8_t number)
{
    if (BOARD_NUMBER(answer) == number) return;
    printf("%s on %s gave %u, not %u\n", deed_name[deed], s->name, BOARD_NUMBER(answer), number);
    exit(1);
}

/* What a view came to, so that it is worked out. */
static volatile unsigned seen;

static void view_stored(const struct calls *c, const struct sample *s)
{
    struct board b;
    unsigned sum = 0;
    expect(VIEW_STORED, s, c->read(s->file, s->len, &b), 0);
    for (unsigned r = 0; r < BOARD_ROLES; r++) {
        if (!(b.live >> r & 1)) continue;
        sum += b.manager[r];
        for (unsigned x = r; x != 0; x = b.manager[x]) sum++;
    }
    seen = sum;
}

static void view_by_calls(const struct calls *c, const struct sample *s)
{
    unsigned sum = 0;
    for (unsigned r = 0; r < BOARD_ROLES; r++) {
        if (!(s->board.live >> r & 1)) continue;
        uint64_t manager = c->manager(s->file, s->len, r), steps = c->steps(s->file, s->len, r);
        expect(VIEW_BY_CALLS, s, manager, 0);
        expect(VIEW_BY_CALLS, s, steps, 0);
        sum += BOARD_VALUE(manager) + BOARD_VALUE(steps);
    }
    seen = sum;
}

/* Ten commands three times: an edge changes its kind and back, a right is given and taken, a role goes and comes back, and four
 * are refused. That role is the highest without juniors in the scope of role 0. */
enum { THIRTY = 30 };
static void evening(const struct sample *s, struct command c[THIRTY], uint8_t number[THIRTY])
{
    const struct board *b = &s->board;
    const uint64_t related = b->derives[0] | b->derivers[0];
    const unsigned kind = (b->i[0] >> 1 & 1) | (b->a[0] >> 1 & 1) << 1;
    struct command back = {.code = 1};
    for (unsigned x = 1; x < 64; x++)
        if ((b->derives[0] >> x & 1) && (b->derivers[x] & ~related) == 0 && (b->i[x] | b->a[x]) == 0) back.role = x;
    for (unsigned x = 0; x < 64; x++) {
        back.i_seniors |= (b->i[x] >> back.role & 1) << x;
        back.a_seniors |= (b->a[x] >> back.role & 1) << x;
    }
    const struct {
        struct command command;
        uint8_t number;
    } ten[] = {
        {{.code = 5, .junior = 1, .kind = kind % 3 + 1}, 0},
        {{.code = 2}, 6}, /* the founding role itself */
        {{.code = 5, .junior = 1, .kind = kind}, 0},
        {{.code = 3, .role = 1, .kind = 1}, 7}, /* 1 above 0 */
        {{.code = 6, .role = 1, .rights = 8}, 0},
        {{.code = 2, .actor = 1, .role = back.role}, 13}, /* which is another right */
        {{.code = 2, .role = back.role}, 0},
        {back, 0},
        {{.code = 7, .role = 1, .rights = 8}, 0},
        {{.code = 1, .role = 1}, 4},
    };
    for (int k = 0; k < THIRTY; k++) c[k] = ten[k % 10].command, number[k] = ten[k % 10].number;
}

/* Each claim and each release that is done has a job of its own. After 1,024 of them the list is as it was again, by a copy,
 * which is nothing beside so many calls: so all that is timed is claims, or releases, and no call has to undo another. */
static void on_jobs(enum deed deed, const struct calls *c, struct sample *s, long times)
{
    static struct jobs list, fresh;
    static uint8_t roles[JOBS_MOST];
    const struct board *b = &s->board;
    const unsigned last = s->last, manager = last == 0 ? 0 : b->manager[last];
    const bool held = deed != CLAIM_DONE && deed != CLAIM_15 && deed != LIST_START;
    memset(roles, deed == CLAIM_15 || deed == RELEASE_15 ? 0 : last, sizeof roles);
    plain_jobs_start(&fresh, roles, JOBS_MOST);
    for (int j = 0; j < JOBS_MOST && held; j++) fresh.mark[j] = 1, fresh.member[j] = 1;
    for (long k = 0; k < times; k++) {
        const uint32_t job = k % JOBS_MOST;
        if (job == 0) list = fresh;
        switch (deed) {
        case CLAIM_DONE: expect(deed, s, c->jobs_claim(&list, b, job, 1, manager), 0); break;
        case CLAIM_14: expect(deed, s, c->jobs_claim(&list, b, job, 2, manager), 14); break;
        case CLAIM_15: expect(deed, s, c->jobs_claim(&list, b, job, 1, last), 15); break;
        case GIVEN_BACK: expect(deed, s, c->jobs_release(&list, b, job, 1, last), 0); break;
        case TAKEN_BACK: expect(deed, s, c->jobs_release(&list, b, job, 2, manager), 0); break;
        case RELEASE_15: expect(deed, s, c->jobs_release(&list, b, job, 2, last), 15); break;
        case LIST_START: expect(deed, s, c->jobs_start(&list, roles, JOBS_MOST), 0); break;
        default: expect(deed, s, c->jobs_job(&list, job), 0); break;
        }
    }
}

#define REPEAT(call, number)                                                                                           \
    for (long k = 0; k < times; k++) expect(deed, s, call, number)

long perform(enum deed deed, const struct calls *c, struct sample *s, long times)
{
    static uint8_t out[BOARD_FILE];
    static struct board other;
    static struct command thirty[THIRTY];
    static uint64_t answers[THIRTY];
    static uint8_t numbers[THIRTY];
    struct board *b = &s->board;
    const uint8_t *file = s->file, last = s->last, kind = (b->i[0] >> 1 & 1) | (b->a[0] >> 1 & 1) << 1;
    const size_t len = s->len;
    const struct command come = {.code = 1, .role = 1, .i_seniors = 1}, go = {.code = 2, .role = 1};
    const struct command turn = {.code = 5, .junior = 1, .kind = kind % 3 + 1};
    const struct command keep = {.code = 5, .junior = 1, .kind = kind};
    const struct command barred = {.code = 5, .actor = 62, .role = 62, .junior = 63, .kind = 1};
    const struct command give = {.code = 6, .role = 1, .rights = 8}, take = {.code = 7, .role = 1, .rights = 8};
    const struct command founder_goes = {.code = 2}, loop = {.code = 3, .role = last == 0 ? 0 : 1, .kind = 1};

    switch (deed) {
    case DONE: /* a role comes and goes, or an edge changes its kind and back */
        for (long k = 0; k < times; k++) {
            expect(deed, s, c->apply(b, last == 0 ? &come : &turn), 0);
            expect(deed, s, c->apply(b, last == 0 ? &go : &keep), 0);
        }
        return 2 * times;
    case REFUSED_6: REPEAT(c->apply(b, &founder_goes), 6); break;
    case REFUSED_7: REPEAT(c->apply(b, &loop), 7); break;
    case COMMAND: REPEAT(c->command(file, len, last == 0 ? &come : &keep, out, sizeof out), 0); break;
    case CHECK: REPEAT(c->check(file, len), 0); break;
    case DERIVES: REPEAT(c->derives(file, len, 0, last), 0); break;
    case SCOPE: REPEAT(c->scope(file, len, 0, last), 0); break;
    case MANAGER: REPEAT(c->manager(file, len, last), 0); break;
    case STEPS: REPEAT(c->steps(file, len, last), 0); break;
    case STRETCH: REPEAT(c->stretch(file, len, last), 0); break;
    case READ: REPEAT(c->read(file, len, &other), 0); break;
    case WRITE: REPEAT(c->write(b, out, sizeof out, 0), 0); break;
    case FOUND: REPEAT(c->found(&other), 0); break;
    case BARRED_6: REPEAT(BOARD_CAUSE(c->apply(b, &barred)), BOARD_CAUSE_IN_THE_WAY); break;
    case GIVEN:
        for (long k = 0; k < times; k++) {
            expect(deed, s, c->apply(b, &give), 0);
            expect(deed, s, c->apply(b, &take), 0);
        }
        return 2 * times;
    case REFUSED_13: REPEAT(c->apply(b, &turn), 13); break;
    case GIVEN_COMMAND: REPEAT(c->command(file, len, &give, out, sizeof out), 0); break;
    case BARRED_SCOPE: REPEAT(BOARD_CAUSE(c->scope(file, len, 62, 63)), BOARD_CAUSE_IN_THE_WAY); break;
    case VIEW_STORED:
        for (long k = 0; k < times; k++) view_stored(c, s);
        break;
    case VIEW_BY_CALLS:
        for (long k = 0; k < times; k++) view_by_calls(c, s);
        break;
    case EVENING_RUN:
        evening(s, thirty, numbers);
        for (long k = 0; k < times; k++) {
            expect(deed, s, c->run(b, thirty, THIRTY, answers, THIRTY), 0);
            for (int n = 0; n < THIRTY; n++) expect(deed, s, answers[n], numbers[n]);
        }
        return THIRTY * times;
    case CLAIM_DONE:
    case CLAIM_14:
    case CLAIM_15:
    case GIVEN_BACK:
    case TAKEN_BACK:
    case RELEASE_15:
    case LIST_START:
    case LIST_JOB: on_jobs(deed, c, s, times); break;
    default:
        evening(s, thirty, numbers);
        for (long k = 0; k < times; k++)
            for (int n = 0; n < THIRTY; n++) expect(deed, s, c->apply(b, &thirty[n]), numbers[n]);
        return THIRTY * times;
    }
    return times;
}
