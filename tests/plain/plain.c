/* board.h's and jobs.h's contracts in plain C, quick and unproved: what the library is measured against.
 *
 * Sets of roles are words. The values that a board keeps are worked out from its tables as a whole: once for the board
 * handed in, to be compared with its own, and once for the board that a command leaves, in their place there. `down` of a
 * role is what it derives, `up` what derives it. */
#include "calls.h"
#include <stdbool.h>
#include <string.h>

enum { ADD_ROLE = 1, REMOVE_ROLE, ADD_EDGE, REMOVE_EDGE, CHANGE_EDGE, GIVE_RIGHTS, TAKE_RIGHTS };
enum { ASKED, IN_FILE, IN_WRITING };

typedef uint64_t set;

static inline set only(unsigned r) { return 1ull << r; }
static inline bool has(set s, unsigned r) { return s >> r & 1; }
static inline unsigned lowest(set s) { return __builtin_ctzll(s); }
static inline unsigned highest(set s) { return 63 - __builtin_clzll(s); }
static inline unsigned size(set s) { return __builtin_popcountll(s); }

/* r = each member of s in turn, lowest first */
#define EACH(r, s) for (set r##_left = (s), r; r##_left != 0 && (r = lowest(r##_left), true); r##_left &= r##_left - 1)

static bool joins_live(const struct board *b)
{
    for (unsigned x = 0; x < 64; x++)
        if ((b->i[x] | b->a[x]) & (has(b->live, x) ? ~b->live : ~0ull)) return false;
    return has(b->live, 0);
}

#ifndef PLAIN_BY_WALKS

/* Depth first over all edges; a role is settled once its juniors are. A step to a role still on the path is a loop. */
static bool descend(const struct board *b, set down[64])
{
    set i_down[64], on_path = 0, settled = 0;
    unsigned path[64], depth = 0;
    while (settled != b->live || depth > 0) {
        if (depth == 0) {
            path[depth++] = lowest(b->live & ~settled);
            on_path = only(path[0]);
        }
        unsigned x = path[depth - 1];
        set juniors = b->i[x] | b->a[x];
        if (juniors & on_path) return false;
        if (juniors & ~settled) {
            path[depth++] = lowest(juniors & ~settled);
            on_path |= only(path[depth - 1]);
            continue;
        }
        set reached = only(x);
        EACH(y, b->i[x]) reached |= i_down[y];
        i_down[x] = reached;
        EACH(y, b->a[x]) reached |= down[y];
        down[x] = reached;
        on_path &= ~only(x);
        settled |= only(x);
        depth--;
    }
    return true;
}

#else

/* The same by a walk from each role, to tell an algorithm's cost from a compiler's. */
static set walk(const set rows[64], set from)
{
    set done = 0;
    while (from != 0) {
        unsigned x = lowest(from);
        done |= only(x);
        from = (from | rows[x]) & ~done;
    }
    return done;
}

static bool descend(const struct board *b, set down[64])
{
    set both[64];
    for (unsigned x = 0; x < 64; x++) both[x] = b->i[x] | b->a[x];
    EACH(x, b->live) if (has(walk(both, both[x]), x)) return false;
    EACH(x, b->live) down[x] = walk(b->i, walk(b->a, only(x)));
    return true;
}

#endif

/* ---- stored values */

/* Who derives whom. False, with nothing of use worked out, where there is a loop. */
static bool derive(const struct board *b, set down[64], set up[64])
{
    memset(down, 0, 64 * sizeof *down);
    if (!descend(b, down)) return false;
    memset(up, 0, 64 * sizeof *up);
    EACH(x, b->live) EACH(y, down[x]) up[y] |= only(x);
    return true;
}

/* The line managers. False where a role but 0 has no administrator. */
static bool manage(set live, const set down[64], const set up[64], uint8_t manager[64])
{
    set related[64];
    EACH(x, live) related[x] = down[x] | up[x];
    memset(manager, BOARD_NO_MANAGER, 64);
    EACH(r, live & ~1ull) {
        set administrators = up[r] & ~only(r);
        EACH(x, up[r] & ~only(r)) administrators &= related[x];
        if (administrators == 0) return false;
        /* the nearest derives no other: from any of them on to those it derives, until none is left */
        unsigned nearest = highest(administrators);
        while ((administrators &= down[nearest] & ~only(nearest)) != 0) nearest = highest(administrators);
        manager[r] = nearest;
    }
    return true;
}

/* No byte above 31, and none but 0 where the role isn't live. */
static bool rights_in_place(const struct board *b)
{
    uint8_t wrong = 0;
    for (unsigned x = 0; x < 64; x++) wrong |= b->rights[x] & (has(b->live, x) ? ~BOARD_RIGHTS_ALL : ~0);
    return wrong == 0;
}

static bool sound(const struct board *b)
{
    set down[64], up[64];
    uint8_t manager[64];
    return joins_live(b) && rights_in_place(b) && derive(b, down, up) && memcmp(down, b->derives, sizeof down) == 0 &&
           memcmp(up, b->derivers, sizeof up) == 0 && manage(b->live, down, up, manager) &&
           memcmp(manager, b->manager, sizeof manager) == 0;
}

static inline bool in_scope(const struct board *b, unsigned a, unsigned r)
{
    return has(b->derives[a], r) && (b->derivers[r] & ~(b->derivers[a] | b->derives[a])) == 0;
}

static inline bool in_strict_scope(const struct board *b, unsigned a, unsigned r)
{
    return a != r && in_scope(b, a, r);
}

/* ---- commands */

/* A kind is a set of parts, bit 0 for I and bit 1 for A. */
static inline unsigned kind_of(const struct board *b, unsigned senior, unsigned junior)
{
    return has(b->i[senior], junior) | has(b->a[senior], junior) << 1;
}

static bool allowed(const struct board *b, const struct command *c)
{
    switch (c->code) {
    case ADD_ROLE:
        EACH(x, c->a_seniors | c->i_seniors) if (!in_scope(b, c->actor, x)) return false;
        EACH(x, c->a_juniors | c->i_juniors) if (!in_strict_scope(b, c->actor, x)) return false;
        return true;
    case REMOVE_ROLE: return in_strict_scope(b, c->actor, c->role);
    case GIVE_RIGHTS:
    case TAKE_RIGHTS: return in_scope(b, c->actor, c->role);
    default: return in_scope(b, c->actor, c->role) && in_scope(b, c->actor, c->junior);
    }
}

/* Has a all these rights, its own or those of roles that it derives. */
static bool may_use(const struct board *b, unsigned a, unsigned rights)
{
    unsigned lacking = rights & ~b->rights[a];
    for (set left = b->derives[a]; lacking != 0 && left != 0; left &= left - 1) lacking &= ~b->rights[lowest(left)];
    return lacking == 0;
}

/* Why r is out of a's scope, where it stands in an answer; 0 for a role in scope. */
static uint64_t cause(const struct board *b, unsigned a, unsigned r)
{
    set unrelated = b->derivers[r] & ~(b->derivers[a] | b->derives[a]);
    if (!has(b->derives[a], r)) return (uint64_t)BOARD_CAUSE_NOT_DERIVED << 40;
    return unrelated != 0 ? (uint64_t)BOARD_CAUSE_IN_THE_WAY << 40 | (uint64_t)lowest(unrelated) << 48 : 0;
}

/* The lowest of these that offends, and why; 0 where none does. */
static uint64_t offending(const struct board *b, unsigned a, set named, bool strict)
{
    EACH(r, named) {
        uint64_t why = strict && r == a ? (uint64_t)BOARD_CAUSE_ITSELF << 40 : cause(b, a, r);
        if (why != 0) return r << 32 | why;
    }
    return 0;
}

/* The first that offends, of a command that isn't allowed. */
static uint64_t first_offending(const struct board *b, const struct command *c)
{
    unsigned a = c->actor;
    uint64_t found;
    switch (c->code) {
    case ADD_ROLE:
        found = offending(b, a, c->a_seniors, false);
        if (found == 0) found = offending(b, a, c->i_seniors, false);
        if (found == 0) found = offending(b, a, c->a_juniors, true);
        if (found == 0) found = offending(b, a, c->i_juniors, true);
        return found;
    case REMOVE_ROLE: return offending(b, a, only(c->role), true);
    case GIVE_RIGHTS:
    case TAKE_RIGHTS: return offending(b, a, only(c->role), false);
    default:
        found = offending(b, a, only(c->role), false);
        return found != 0 ? found : offending(b, a, only(c->junior), false);
    }
}

/* What refuses a command on a sound board before it is changed, or 0. */
static uint64_t before(const struct board *b, const struct command *c)
{
    bool on_rights = c->code >= GIVE_RIGHTS, on_edge = c->code >= ADD_EDGE && !on_rights;
    set named = only(c->actor & 63);

    if (c->code < ADD_ROLE || c->code > TAKE_RIGHTS || c->actor > 63 || c->role > 63) return 2;
    if (on_rights && c->rights > BOARD_RIGHTS_ALL) return 2;
    if (on_edge && (c->junior > 63 || c->kind < 1 || c->kind > 3)) return 2;

    if (c->code == ADD_ROLE) named |= c->a_seniors | c->i_seniors | c->a_juniors | c->i_juniors;
    else named |= only(c->role);
    if (on_edge) named |= only(c->junior);
    if (named & ~b->live) return 3;

    if (c->code == ADD_ROLE && has(b->live, c->role)) return 4;
    if (on_edge) {
        unsigned stands = kind_of(b, c->role, c->junior), missing = c->kind & ~stands;
        if (c->code == ADD_EDGE && missing == 0) return 4;
        if (c->code == REMOVE_EDGE && missing != 0) return 5;
        if (c->code == CHANGE_EDGE && stands == 0) return 5;
    }
    if (!may_use(b, c->actor, on_rights ? c->rights : BOARD_RIGHT(c->code))) return 13;
    return allowed(b, c) ? 0 : 6 | first_offending(b, c);
}

static void put_kind(struct board *b, unsigned senior, unsigned junior, unsigned kind)
{
    b->i[senior] = (b->i[senior] & ~only(junior)) | (set)(kind & 1) << junior;
    b->a[senior] = (b->a[senior] & ~only(junior)) | (set)(kind >> 1) << junior;
}

static void change(struct board *b, const struct command *c)
{
    unsigned r = c->role;
    switch (c->code) {
    case ADD_ROLE: /* which has no rights, as no dead role has */
        b->live |= only(r);
        b->i[r] = c->i_juniors;
        b->a[r] = c->a_juniors;
        EACH(x, c->i_seniors) b->i[x] |= only(r);
        EACH(x, c->a_seniors) b->a[x] |= only(r);
        break;
    case REMOVE_ROLE:
        b->live &= ~only(r);
        b->i[r] = b->a[r] = b->rights[r] = 0;
        EACH(x, b->live) {
            b->i[x] &= ~only(r);
            b->a[x] &= ~only(r);
        }
        break;
    case ADD_EDGE: put_kind(b, r, c->junior, kind_of(b, r, c->junior) | c->kind); break;
    case REMOVE_EDGE: put_kind(b, r, c->junior, kind_of(b, r, c->junior) & ~c->kind); break;
    default: put_kind(b, r, c->junior, c->kind);
    }
}

/* Commands 6 and 7 leave the tables and all that follows from them. */
static bool change_rights(struct board *b, const struct command *c)
{
    if (c->code < GIVE_RIGHTS) return false;
    if (c->code == GIVE_RIGHTS) b->rights[c->role] |= c->rights;
    else b->rights[c->role] &= ~c->rights;
    return true;
}

/* The change, and then the values of the board it leaves. That board must be dropped where the number isn't 0. */
static uint8_t after(struct board *b, const struct command *c)
{
    change(b, c);
    if (!derive(b, b->derives, b->derivers)) return 7;
    if (c->code == ADD_ROLE && !in_strict_scope(b, c->actor, c->role)) return 8;
    return manage(b->live, b->derives, b->derivers, b->manager) ? 0 : 9;
}

/* Kept whole, or what a command costs by itself would hang on there being runs. */
__attribute__((noinline)) uint64_t plain_apply(struct board *b, const struct command *c)
{
    struct board next;
    if (!sound(b)) return 1;
    uint64_t refusal = before(b, c);
    if (refusal != 0) return refusal;
    if (change_rights(b, c)) return 0;
    memcpy(&next, b, offsetof(struct board, derives)); /* the tables alone: the rest is worked out */
    memcpy(next.rights, b->rights, sizeof next.rights);
    uint8_t number = after(&next, c);
    if (number == 0) *b = next;
    return number;
}

/* ---- the board file */

enum { HH_TRAILER = 6, HR_TRAILER = 8, HH_MOST = 6118, HR_MOST = BOARD_FILE };

static inline size_t distance(const uint8_t *t) { return t[0] | t[1] << 8; }

/* How many roles a file has and where its edge records end; 0 roles for a bad frame. HR has the rights bytes behind them. */
static size_t frame(const uint8_t *file, size_t len, const uint8_t **end)
{
    if (len < HH_TRAILER || file[len - 2] != 'H') return 0;
    if (file[len - 1] == 'H') {
        const uint8_t *t = *end = file + len - HH_TRAILER;
        size_t edges = distance(t), all = distance(t + 2), roles = all - edges;
        return len > HH_MOST || all != len - HH_TRAILER || edges > all || edges % 3 != 0 || roles > 64 ? 0 : roles;
    }
    if (file[len - 1] != 'R' || len < HR_TRAILER || len > HR_MOST) return 0;
    const uint8_t *t = file + len - HR_TRAILER;
    size_t roles = distance(t), from_edges = distance(t + 2), all = distance(t + 4);
    if (all != len - HR_TRAILER || roles < 1 || roles > 64 || 2 * roles > all) return 0;
    size_t edges = all - 2 * roles;
    if (edges % 3 != 0 || from_edges != (edges == 0 ? 0 : edges + roles)) return 0;
    *end = t - roles;
    return roles;
}

/* The rights that HH means, which HR must not hold. */
static const uint8_t founders_alone[64] = {BOARD_RIGHTS_ALL};

static inline bool is_hh(const struct board *b) { return memcmp(b->rights, founders_alone, 64) == 0; }

static uint8_t read_file(const uint8_t *file, size_t len, struct board *b)
{
    const uint8_t *t;
    size_t roles = frame(file, len, &t);
    if (roles == 0) return 10;

    memset(b, 0, offsetof(struct board, derives));
    if (file[0] != 0) return 11;
    int last = -1;
    for (size_t k = 0; k < roles; last = file[k++]) {
        if (file[k] > 63 || file[k] <= last) return 11;
        b->live |= only(file[k]);
    }
    last = -1;
    for (const uint8_t *e = file + roles; e < t; e += 3) {
        if (e[0] > 63 || e[1] > 63 || !has(b->live, e[0]) || !has(b->live, e[1])) return 11;
        if (e[0] == e[1] || e[2] < 1 || e[2] > 3 || e[0] * 64 + e[1] <= last) return 11;
        last = e[0] * 64 + e[1];
        b->i[e[0]] |= (set)(e[2] & 1) << e[1];
        b->a[e[0]] |= (set)(e[2] >> 1) << e[1];
    }
    if (file[len - 1] == 'H') memcpy(b->rights, founders_alone, 64);
    else {
        memset(b->rights, 0, 64);
        EACH(x, b->live) if ((b->rights[x] = *t++) > BOARD_RIGHTS_ALL) return 11;
        if (is_hh(b)) return 11;
    }
    if (!derive(b, b->derives, b->derivers)) return 7;
    return manage(b->live, b->derives, b->derivers, b->manager) ? 0 : 9;
}

static inline uint8_t *put_distance(uint8_t *out, size_t n)
{
    out[0] = n & 255;
    out[1] = n >> 8;
    return out + 2;
}

/* The length, or 0 and nothing written where there is no room. */
static size_t write_file(const struct board *b, uint8_t *out, size_t room)
{
    bool hh = is_hh(b);
    size_t roles = size(b->live), edges = 0;
    EACH(x, b->live) edges += 3 * size(b->i[x] | b->a[x]);
    size_t rights = hh ? 0 : roles, all = roles + edges + rights, len = all + (hh ? HH_TRAILER : HR_TRAILER);
    if (room < len) return 0;
    EACH(x, b->live) *out++ = x;
    EACH(x, b->live) EACH(y, b->i[x] | b->a[x]) {
        *out++ = x;
        *out++ = y;
        *out++ = has(b->i[x], y) | has(b->a[x], y) << 1;
    }
    if (!hh) {
        EACH(x, b->live) *out++ = b->rights[x];
        out = put_distance(out, rights);
    }
    out = put_distance(out, edges == 0 ? 0 : edges + rights);
    out = put_distance(out, all);
    out[0] = 'H';
    out[1] = hh ? 'H' : 'R';
    return len;
}

/* ---- answers */

static uint64_t answer(uint8_t number, unsigned place, uint64_t value) { return number | place << 8 | value << 16; }

/* A board read from a file and asked about x and y: 0, or the whole refusal with no value. */
static uint64_t ask(const uint8_t *file, size_t len, struct board *b, uint32_t x, uint32_t y)
{
    uint8_t number = read_file(file, len, b);
    if (number != 0) return answer(number, IN_FILE, 0);
    if (x > 63 || y > 63) return answer(2, ASKED, 0);
    return has(b->live, x) && has(b->live, y) ? 0 : answer(3, ASKED, 0);
}

uint64_t plain_check(const uint8_t *file, size_t len)
{
    struct board b;
    return ask(file, len, &b, 0, 0);
}

uint64_t plain_derives(const uint8_t *file, size_t len, uint32_t x, uint32_t y)
{
    struct board b;
    uint64_t refusal = ask(file, len, &b, x, y);
    return refusal != 0 ? refusal : answer(0, ASKED, has(b.derives[x], y));
}

uint64_t plain_scope(const uint8_t *file, size_t len, uint32_t a, uint32_t r)
{
    struct board b;
    uint64_t refusal = ask(file, len, &b, a, r), count = 0;
    if (refusal != 0) return refusal;
    EACH(x, b.derives[a]) count += in_scope(&b, a, x);
    uint64_t why = cause(&b, a, r);
    return answer(0, ASKED, (why == 0) | count << 1) | why;
}

uint64_t plain_manager(const uint8_t *file, size_t len, uint32_t r)
{
    struct board b;
    uint64_t refusal = ask(file, len, &b, r, r);
    return refusal != 0 ? refusal | BOARD_NO_MANAGER << 16 : answer(0, ASKED, b.manager[r]);
}

uint64_t plain_steps(const uint8_t *file, size_t len, uint32_t r)
{
    struct board b;
    uint64_t refusal = ask(file, len, &b, r, r), n = 0;
    if (refusal != 0) return refusal;
    for (unsigned x = r; x != 0; x = b.manager[x]) n++;
    return answer(0, ASKED, n);
}

uint64_t plain_stretch(const uint8_t *file, size_t len, uint32_t role)
{
    struct board b;
    uint64_t refusal = ask(file, len, &b, role, role);
    if (refusal != 0) return refusal;
    uint64_t start = size(b.live), count = size(b.i[role] | b.a[role]);
    if (count == 0) return 0;
    EACH(x, b.live & (only(role) - 1)) start += 3 * size(b.i[x] | b.a[x]);
    return start << 16 | 3 * count << 32;
}

uint64_t plain_command(const uint8_t *file, size_t len, const struct command *c, uint8_t *out, size_t room)
{
    struct board b;
    uint8_t number = read_file(file, len, &b);
    if (number != 0) return answer(number, IN_FILE, 0);
    uint64_t refusal = before(&b, c);
    if (refusal == 0 && !change_rights(&b, c)) refusal = after(&b, c);
    if (refusal != 0) return refusal;
    size_t written = write_file(&b, out, room);
    return written != 0 ? answer(0, ASKED, written) : answer(12, IN_WRITING, 0);
}

/* Each command looks at the board that it is handed, as one that comes alone does. */
uint64_t plain_run(struct board *b, const struct command *commands, size_t n, uint64_t *answers, size_t m)
{
    if (m < n) return answer(12, IN_WRITING, 0);
    for (size_t k = 0; k < n; k++) answers[k] = plain_apply(b, &commands[k]);
    return 0;
}

uint64_t plain_found(struct board *b)
{
    memset(b, 0, offsetof(struct board, manager));
    b->live = b->derives[0] = b->derivers[0] = 1;
    memset(b->manager, BOARD_NO_MANAGER, sizeof b->manager);
    memcpy(b->rights, founders_alone, sizeof b->rights);
    return 0;
}

uint64_t plain_read(const uint8_t *file, size_t len, struct board *b)
{
    struct board next;
    uint8_t number = read_file(file, len, &next);
    if (number != 0) return answer(number, IN_FILE, 0);
    *b = next;
    return 0;
}

uint64_t plain_write(const struct board *b, uint8_t *out, size_t room, size_t at)
{
    if (!sound(b)) return answer(1, ASKED, 0);
    size_t written = at <= room ? write_file(b, out + at, room - at) : 0;
    return written != 0 ? answer(0, ASKED, written) : answer(12, IN_WRITING, 0);
}

/* ---- the job list */

uint64_t plain_jobs_start(struct jobs *list, const uint8_t *roles, size_t n)
{
    uint8_t high = 0;
    memset(list->role, 64, sizeof list->role);
    memset(list->mark, 0, sizeof list->mark);
    memset(list->member, 0, sizeof list->member);
    if (n > JOBS_MOST) return 2;
    for (size_t j = 0; j < n; j++) high |= roles[j] & 0xc0;
    if (high != 0) return 2;
    memcpy(list->role, roles, n);
    return 0;
}

/* What refuses a claim and a release alike, or 0. */
static uint8_t unasked(const struct jobs *list, const struct board *b, uint32_t job, uint32_t role)
{
    if (!sound(b)) return 1;
    if (role > 63 || job >= JOBS_MOST || list->role[job] > 63) return 2;
    return has(b->live, role) && has(b->live, list->role[job]) ? 0 : 3;
}

uint64_t plain_jobs_claim(struct jobs *list, const struct board *b, uint32_t job, uint32_t member, uint32_t role)
{
    uint8_t number = unasked(list, b, job, role);
    if (number != 0) return number;
    if (list->mark[job] != 0) return 14;
    if (!has(b->derives[role], list->role[job])) return 15;
    list->mark[job] = 1;
    list->member[job] = member;
    return 0;
}

uint64_t plain_jobs_release(struct jobs *list, const struct board *b, uint32_t job, uint32_t member, uint32_t role)
{
    uint8_t number = unasked(list, b, job, role);
    if (number != 0) return number;
    if (list->mark[job] == 0) return 14;
    if (list->member[job] != member && !in_scope(b, role, list->role[job])) return 15;
    list->mark[job] = 0;
    list->member[job] = 0;
    return 0;
}

uint64_t plain_jobs_job(const struct jobs *list, uint32_t job)
{
    if (job >= JOBS_MOST || list->role[job] > 63) return 2;
    return list->mark[job] != 0 ? (uint64_t)list->member[job] << 32 | 1 << 16 : 0;
}
