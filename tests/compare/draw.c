/* Boards drawn as graphs, with rights, and commands that stand a fair chance of each number. */
#include "compare.h"
#include <string.h>

/* ---- boards */

/* Every board leans to some kinds, so that all-I, all-A and mixed boards all come up. */
static int lean;
static uint8_t draw_kind(void) { return lean < 3 && chance(75) ? lean + 1 : 1 + below(3); }
static void draw_edge(struct model *m, int senior, int junior) { m->kind[senior][junior] = draw_kind(); }

void other_drawing(void)
{
    static int others;
    int was = lean;
    lean = others, others = was;
    other_chance();
}

void fresh_drawing(uint64_t seed)
{
    lean = 0;
    seed_with(seed);
}

/* The founding board's role 0 first, then other roles in any order. */
static void draw_order(int order[ROLES])
{
    for (int k = 0; k < ROLES; k++) order[k] = k;
    for (int k = 1; k < ROLES - 1; k++) {
        int other = k + below(ROLES - k), role = order[k];
        order[k] = order[other];
        order[other] = role;
    }
}

static void draw_edges(struct model *m, const int order[ROLES], int roles, int percent)
{
    found(m);
    lean = below(5);
    for (int k = 1; k < roles; k++) {
        m->live[order[k]] = true;
        if (chance(95)) draw_edge(m, order[below(k)], order[k]);
        for (int s = 0; s < k; s++)
            if (chance(percent)) draw_edge(m, order[s], order[k]);
    }
}

void draw_tree(struct view *v, int roles)
{
    int order[ROLES], reach = 1 + below(roles);
    draw_order(order);
    found(&v->board);
    lean = below(5);
    for (int k = 1; k < roles; k++) {
        int senior = k - 1 - below(k < reach ? k : reach);
        v->board.live[order[k]] = true;
        draw_edge(&v->board, order[senior], order[k]);
    }
    draw_rights(&v->board);
    look(v);
}

void draw_full(struct view *v, bool mixed)
{
    int order[ROLES];
    draw_order(order);
    found(&v->board);
    for (int k = 1; k < ROLES; k++) {
        v->board.live[order[k]] = true;
        for (int s = 0; s < k; s++) v->board.kind[order[s]][order[k]] = mixed ? 1 + below(3) : 3;
    }
    draw_rights(&v->board);
    look(v);
}

/* Roles 0 derives by I, and below one of them roles it doesn't derive, with two A-seniors each: one more A edge from
 * another side, and such a role has no administrator. Chance alone makes few of these. */
static void draw_knot(struct model *m, const int order[ROLES])
{
    int tops = 2 + below(2), middles = 2 + below(2), bottoms = 1 + below(2), roles = 1 + tops + middles + bottoms;
    found(m);
    lean = 3;
    for (int k = 1; k < roles; k++) {
        int r = order[k], manager = order[1], middle = 1 + tops, bottom = middle + middles;
        m->live[r] = true;
        if (k < middle) m->kind[0][r] = chance(85) ? 1 : 3;
        else if (k < bottom) {
            m->kind[manager][r] = 2;
            if (chance(60)) m->kind[0][r] = 1;
            if (chance(25)) m->kind[order[2]][r] = 1;
        } else {
            m->kind[order[middle]][r] = m->kind[order[middle + 1]][r] = 2;
            if (middles == 3 && chance(50)) m->kind[order[middle + 2]][r] = 2;
        }
    }
    if (chance(40)) {
        int k = 1 + below(roles - 1);
        draw_edge(m, order[below(k)], order[k]);
    }
}

/* All by I from 0, and below it a chain of A and I by turns: closed to a ring it derives nothing of itself. */
static void draw_chain(struct model *m, const int order[ROLES])
{
    int roles = 5 + below(4), turn = below(2);
    found(m);
    lean = 3;
    for (int k = 1; k < roles; k++) {
        m->live[order[k]] = true;
        m->kind[0][order[k]] = 1;
        if (k > 1) m->kind[order[k - 1]][order[k]] = 1 + (k + turn) % 2;
    }
}

/* Unrelated roles below 0, one of them by IA, the others by I, and each above the same role by A: take the A part of
 * that one edge, and the role has no administrator. */
static void draw_fork(struct model *m, const int order[ROLES])
{
    int tops = 2 + below(2), bottom = order[1 + tops];
    found(m);
    lean = 3;
    m->live[bottom] = true;
    for (int k = 1; k <= tops; k++) {
        m->live[order[k]] = true;
        m->kind[0][order[k]] = k == 1 ? 3 : 1;
        m->kind[order[k]][bottom] = 2;
    }
}

/* Roles below 0 by I, below the first of them more by A, and below several of those the same roles: each of the several
 * is in the others' way, and so is 0 where it has such a role by I. The first administers them all. */
static void draw_cross(struct model *m, const int order[ROLES])
{
    int middle = 2 + below(3), bottom = middle + 2 + below(3), leaf = bottom + 1 + below(3);
    found(m);
    lean = 3;
    for (int k = 1; k < leaf; k++) {
        int r = order[k];
        m->live[r] = true;
        if (k < middle) m->kind[0][r] = 1;
        else if (k < bottom) {
            m->kind[order[1]][r] = 2;
            if (k > middle && chance(20)) m->kind[order[k - 1]][r] = 3;
        } else {
            for (int s = middle; s < bottom; s++)
                if (s < middle + 2 || chance(60)) draw_edge(m, order[s], r);
            if (chance(40)) m->kind[0][r] = 1;
        }
    }
    m->live[order[leaf]] = true;
    draw_edge(m, order[leaf - 1], order[leaf]);
}

void draw_any(struct view *v, int most)
{
    int order[ROLES], roles = 2 + below(most - 1);
    draw_order(order);
    if (most > 8 && chance(30)) draw_knot(&v->board, order);
    else if (most > 8 && chance(15)) draw_chain(&v->board, order);
    else draw_edges(&v->board, order, roles, 5 + below(60));
    draw_rights(&v->board);
    look(v);
}

bool draw_unmanaged(struct view *v, int most)
{
    for (int k = 0; k < 30; k++) {
        draw_any(v, most);
        if (unmanaged(v)) return true;
    }
    return false;
}

static void drop_role(struct model *m, int r)
{
    m->live[r] = false;
    m->rights[r] = 0;
    for (int x = 0; x < ROLES; x++) m->kind[x][r] = m->kind[r][x] = 0;
}

/* Roles without an administrator go, one at a time, until none is left. */
static void make_sound(struct view *v)
{
    look(v);
    while (unmanaged(v)) {
        int r = 1 + below(ROLES - 1);
        for (;; r = r % (ROLES - 1) + 1) {
            bool managed = false;
            if (!v->board.live[r]) continue;
            for (int a = 0; a < ROLES && !managed; a++) managed = administers(v, a, r);
            if (!managed) break;
        }
        drop_role(&v->board, r);
        look(v);
    }
}

void draw_sound(struct view *v, int most)
{
    if (chance(20)) {
        draw_tree(v, 1 + below(most));
        return;
    }
    draw_any(v, most);
    make_sound(v);
}

void draw_tied(struct view *v)
{
    int order[ROLES];
    draw_order(order);
    draw_knot(&v->board, order);
    draw_rights(&v->board);
    make_sound(v);
}

void draw_chained(struct view *v)
{
    int order[ROLES];
    draw_order(order);
    draw_chain(&v->board, order);
    draw_rights(&v->board);
    look(v);
}

void draw_forked(struct view *v)
{
    int order[ROLES];
    draw_order(order);
    draw_fork(&v->board, order);
    draw_rights(&v->board);
    look(v);
}

void draw_crossed(struct view *v)
{
    int order[ROLES];
    draw_order(order);
    draw_cross(&v->board, order);
    draw_rights(&v->board);
    look(v);
}

/* ---- picking roles of a board */

static int pick(const bool among[ROLES])
{
    int r = below(ROLES);
    for (int k = 0; k < ROLES; k++, r = (r + 1) % ROLES)
        if (among[r]) return r;
    return NONE;
}

/* A dead role, or NONE. The walk from a random number favours some roles; it matters to nobody here. */
static int pick_dead(const struct model *m)
{
    bool dead[ROLES];
    for (int x = 0; x < ROLES; x++) dead[x] = !m->live[x];
    return pick(dead);
}

static int pick_live(const struct model *m)
{
    int live[ROLES], count = 0;
    for (int x = 0; x < ROLES; x++)
        if (m->live[x]) live[count++] = x;
    return count > 0 ? live[below(count)] : 0;
}

static int roles_in_scope(const struct view *v, int a, int scope[ROLES])
{
    int count = 0;
    for (int r = 0; r < ROLES; r++)
        if (in_scope(v, a, r)) scope[count++] = r;
    return count;
}

static bool pick_edge(const struct model *m, uint32_t *senior, uint32_t *junior)
{
    int x = below(ROLES), y = below(ROLES);
    for (int k = 0; k < ROLES; k++, x = (x + 1) % ROLES) {
        if (!m->live[x]) continue;
        for (int l = 0; l < ROLES; l++, y = (y + 1) % ROLES) {
            if (m->kind[x][y] == 0) continue;
            *senior = x, *junior = y;
            return true;
        }
    }
    return false;
}

/* ---- rights */

static uint8_t any_rights(void) { return below(ALL_RIGHTS + 1); }
static uint8_t any_right(void) { return 1 << below(RIGHTS); }

/* Many at most roles, as a rule, or few commands would get past 13. */
void draw_rights(struct model *m)
{
    int way = below(100), percent = chance(50) ? 100 : 70;
    for (int x = 0; x < ROLES; x++) {
        m->rights[x] = 0;
        if (!m->live[x]) continue;
        if (way < 65) m->rights[x] = chance(percent) ? ALL_RIGHTS : any_rights();
        else if (way < 75) m->rights[x] = any_rights();
        else if (way < 80) m->rights[x] = chance(25) ? any_right() | any_right() : 0;
        else if (way < 85) m->rights[x] = x == 0 ? 0 : any_rights(); /* all that role 0 may use is others' */
        else if (way < 98) m->rights[x] = x == 0 ? ALL_RIGHTS : 0;   /* HH */
    }
}

void all_rights(struct model *m)
{
    for (int x = 0; x < ROLES; x++) m->rights[x] = m->live[x] ? ALL_RIGHTS : 0;
}

void hh_rights(struct model *m)
{
    memset(m->rights, 0, sizeof m->rights);
    m->rights[0] = ALL_RIGHTS;
}

void nearly_hh_rights(struct model *m)
{
    hh_rights(m);
    m->rights[pick_live(m)] ^= any_right();
}

void hr_rights(struct model *m)
{
    while (founders_alone(m))
        if (chance(50)) nearly_hh_rights(m);
        else draw_rights(m);
}

const char *const source_name[SOURCES] = {"its own", "of one it derives", "one above", "one it only reaches",
                                          "one aside", "nobody"};

/* x stands so to a. */
bool stands(const struct view *v, int source, int a, int x)
{
    if (!v->board.live[x]) return false;
    if (x == a) return source == ITS_OWN;
    if (v->derives[a][x]) return source == OF_ONE_DERIVED;
    if (v->derives[x][a]) return source == ONE_ABOVE;
    return source == (v->reaches[a][x] ? ONE_REACHED : ONE_ASIDE);
}

bool place_rights(struct view *v, const struct command *c, int source)
{
    bool among[ROLES];
    int asked[RIGHTS], count = 0;
    for (int x = 0; x < ROLES; x++) among[x] = stands(v, source, c->actor, x);
    int holder = pick(among);
    if (holder == NONE && source != NOBODY) return false;
    for (int right = 1; right <= RIGHTS; right++)
        if (asks_for(c, right)) asked[count++] = right;
    /* all that are asked for, or one of them, and the actor has the others */
    int from = below(count + 1), only = from < count && chance(60);
    for (int k = 0; k < count; k++) {
        uint8_t bit = 1 << (asked[k] - 1);
        if (only && k != from) {
            v->board.rights[c->actor] |= bit;
            continue;
        }
        for (int x = 0; x < ROLES; x++) v->board.rights[x] &= ~bit;
        if (source != NOBODY) v->board.rights[holder] |= bit;
    }
    return count > 0;
}

const char *const rights_way[RIGHTS_WAYS] = {"a right at a role that isn't live", "above 31, of a live role",
                                             "above 31, of one that isn't", "32 at role 63", "noise"};

bool draw_bad_rights(int way, struct view *v, struct board *b)
{
    if (chance(5)) draw_tree(v, ROLES - below(2));
    else draw_sound(v, chance(90) ? 10 : 30);
    keep(v);
    struct model *m = &v->board;
    int live = chance(20) ? 0 : pick_live(m), dead = pick_dead(m);
    if (chance(15) && !m->live[ROLES - 1]) dead = ROLES - 1;
    if (dead == NONE && (way == 0 || way == 2)) return false;
    uint8_t above = chance(40) ? ALL_RIGHTS + 1 : 32 << below(3) | any_rights();
    switch (way) {
    case 0: m->rights[dead] = chance(50) ? any_right() : 1 + below(ALL_RIGHTS); break;
    case 1: m->rights[live] = chance(30) ? m->rights[live] | 32 << below(3) : above; break;
    case 2: m->rights[dead] = above; break;
    case 3: m->rights[ROLES - 1] |= ALL_RIGHTS + 1; break;
    default:
        for (int x = 0; x < ROLES; x++) m->rights[x] = below(256);
    }
    to_board(v, b);
    return true;
}

/* ---- unsound boards */

const char *const unsound_way[UNSOUND_WAYS] = {
    "entry from a role that isn't live", "entry to a role that isn't live", "a loop", "a role's edge to itself",
    "role 0 isn't live", "a role without an administrator", "an entry on an empty board", "noise"};

/* A role and one that it reaches; small boards have few such pairs. */
static bool pick_reached(const struct view *v, int *x, int *y)
{
    for (int k = 0; k < 30; k++) {
        *x = pick_live(&v->board), *y = pick_live(&v->board);
        if (v->reaches[*x][*y]) return true;
    }
    return false;
}

static void noisy_values(struct stored *s)
{
    for (int x = 0; x < ROLES; x++) s->derives[x] = draw64(), s->derivers[x] = draw64(), s->manager[x] = below(256);
}

bool draw_unsound(int way, struct view *v, struct board *b)
{
    struct model *m = &v->board;
    int x, y;
    draw_sound(v, 10);
    keep(v);
    switch (way) {
    case 0:
        x = pick_dead(m), y = chance(80) ? pick_live(m) : pick_dead(m);
        draw_edge(m, x, y);
        break;
    case 1:
        x = pick_live(m), y = pick_dead(m);
        draw_edge(m, x, y);
        break;
    case 2:
        if (!pick_reached(v, &x, &y)) return false;
        draw_edge(m, y, x);
        break;
    case 3:
        x = chance(70) ? pick_live(m) : below(ROLES);
        draw_edge(m, x, x);
        break;
    case 4:
        if (chance(50)) drop_role(m, 0);
        else m->live[0] = false;
        break;
    case 5:
        if (chance(50)) m->live[pick_dead(m)] = true;
        else if (!draw_unmanaged(v, 10)) return false;
        break;
    case 6:
        memset(m, 0, sizeof *m);
        x = below(ROLES), y = below(ROLES);
        if (chance(70)) draw_edge(m, x, y);
        break;
    default: break;
    }
    to_board(v, b);
    if (way == 7) {
        b->live = draw64() | chance(50);
        for (x = 0; x < ROLES; x++) b->i[x] = draw64(), b->a[x] = draw64() & draw64();
    }
    from_board(b, v);
    for (x = 0; x < ROLES; x++)
        if (!m->live[x]) m->rights[x] = 0;
    /* mostly the values that belong to these tables, so that the tables alone are at fault; or what stood before */
    if (chance(70)) keep(v);
    else if (chance(30)) noisy_values(&v->stored);
    to_board(v, b);
    return true;
}

/* ---- wrong stored values */

const char *const wrong_way[WRONG_WAYS] = {
    "derives, of a live role", "derives, of one that isn't", "derivers, of a live role", "derivers, of one that isn't",
    "manager, of a live role", "manager, of one that isn't", "manager, of role 0", "manager above 64",
    "manager not the nearest", "manager none, of a live role", "values of the board before", "derives for derivers"};

static uint64_t any_bit(void) { return 1ull << below(64); }

/* Another administrator of some role than its line manager. */
static bool farther_manager(struct view *v)
{
    for (int k = 0; k < 30; k++) {
        int r = pick_live(&v->board), a = pick_live(&v->board);
        if (!administers(v, a, r) || a == line_manager(v, r)) continue;
        v->stored.manager[r] = a;
        return true;
    }
    return false;
}

/* The tables go on by a command, and the values stay. */
static bool stale_values(struct view *v)
{
    static struct view after;
    struct command c;
    for (int k = 0; k < 30; k++) {
        draw_command(v, &c);
        if (decide(v, &c, &after) != 0) continue;
        if (memcmp(&after.stored, &v->stored, sizeof after.stored) == 0) continue;
        after.stored = v->stored;
        *v = after;
        return true;
    }
    return false;
}

bool draw_wrong(int way, struct view *v, struct board *b)
{
    struct stored *s = &v->stored, was;
    if (chance(5)) draw_tree(v, ROLES - below(2));
    else draw_sound(v, chance(90) ? 10 : 30);
    keep(v);
    was = *s;
    int live = pick_live(&v->board), dead = pick_dead(&v->board), low = pick_live(&v->board);
    if (chance(15) && !v->board.live[ROLES - 1]) dead = ROLES - 1;
    if (dead == NONE && (way == 1 || way == 3 || way == 5)) return false;
    int either = dead == NONE || chance(70) ? live : dead;
    switch (way) {
    case 0: s->derives[live] ^= any_bit(); break;
    case 1: s->derives[dead] ^= any_bit(); break;
    case 2: s->derivers[live] ^= any_bit(); break;
    case 3: s->derivers[dead] ^= any_bit(); break;
    case 4:
        if (live == 0) return false;
        s->manager[live] ^= 1 << below(6);
        break;
    case 5: s->manager[dead] = chance(50) ? low : s->manager[dead] ^ 1 << below(8); break;
    case 6: s->manager[0] = chance(50) ? low : s->manager[0] ^ 1 << below(8); break;
    case 7:
        if (chance(50)) s->manager[either] = chance(50) ? NONE + 1 : NONE + 1 + below(255 - NONE);
        else s->manager[either] |= 128; /* right in its lowest 7 bits */
        break;
    case 8:
        if (!farther_manager(v)) return false;
        break;
    case 9: s->manager[live] = NONE; break;
    case 10:
        if (!stale_values(v)) return false;
        break;
    default: memcpy(s->derivers, s->derives, sizeof s->derives);
    }
    to_board(v, b);
    return way == 10 || memcmp(s, &was, sizeof was) != 0;
}

/* ---- places to write to */

const struct place places[PLACES] = {
    {"at 0, room to spare", true},         {"at 0, just fitting", true},   {"in the middle", true},
    {"in the middle, just fitting", true}, {"at 0, a byte short", false},  {"in the middle, a byte short", false},
    {"no room at all", false},             {"at the end", false},          {"one past the end", false},
    {"at the last place there is", false}, {"far, and the end wraps", false},
};

void choose_place(int place, size_t len, size_t *room, size_t *at)
{
    *at = 1 + below(200);
    *room = *at + len + 1 + below(200);
    switch (place) {
    case 0: *at = 0; break;
    case 1: *at = 0, *room = len; break;
    case 2: break;
    case 3: *room = *at + len; break;
    case 4: *at = 0, *room = len - 1; break;
    case 5: *room = *at + len - 1; break;
    case 6: *at = *room = 0; break;
    case 7: *at = *room; break;
    case 8: *at = *room + 1; break;
    case 9: *at = SIZE_MAX; break;
    default: *at = SIZE_MAX - below(HH_TRAILER); /* with the length of any file it comes to a place within */
    }
}

/* ---- commands */

static uint64_t one(uint32_t r) { return r < ROLES ? 1ull << r : 0; }

/* Into the first set, the second or both. */
static void name(uint32_t r, uint64_t *i, uint64_t *a)
{
    int kind = draw_kind();
    if (kind != 2) *i |= one(r);
    if (kind != 1) *a |= one(r);
}

static void fair_add_role(const struct view *v, struct command *c)
{
    int scope[ROLES], count = roles_in_scope(v, c->actor, scope), dead = pick_dead(&v->board);
    c->role = dead == NONE ? below(ROLES) : dead;
    c->a_seniors = c->i_seniors = c->a_juniors = c->i_juniors = 0;
    for (int k = chance(5) ? 0 : 1 + below(2); k > 0; k--) name(scope[below(count)], &c->i_seniors, &c->a_seniors);
    if (chance(40)) c->i_seniors |= one(c->actor);
    for (int k = chance(50) ? 0 : 1 + below(2); k > 0; k--) {
        uint32_t junior = scope[below(count)];
        if (junior != c->actor) name(junior, &c->i_juniors, &c->a_juniors);
    }
    /* most juniors that are above a senior go, or nearly all would end in a loop */
    if (chance(80))
        for (int s = 0; s < ROLES; s++)
            for (int j = 0; j < ROLES && in(c->a_seniors | c->i_seniors, s); j++)
                if (j == s || v->reaches[j][s]) c->a_juniors &= ~one(j), c->i_juniors &= ~one(j);
}

static void fair_remove_role(const struct view *v, struct command *c)
{
    int scope[ROLES], count = roles_in_scope(v, c->actor, scope);
    c->role = scope[below(count)];
}

static void fair_new_edge(const struct view *v, struct command *c)
{
    int scope[ROLES], count = roles_in_scope(v, c->actor, scope);
    bool upward = chance(20); /* a loop, mostly */
    for (int k = 0; k < 12; k++) {
        c->role = scope[below(count)], c->junior = scope[below(count)];
        if (v->board.kind[c->role][c->junior] != 0) continue;
        if (upward || (c->role != c->junior && !v->reaches[c->junior][c->role])) break;
    }
}

static void fair_old_edge(const struct view *v, struct command *c)
{
    if (!pick_edge(&v->board, &c->role, &c->junior)) {
        c->role = c->junior = 0;
        return;
    }
    if (v->board.kind[c->role][c->junior] != 3 && chance(30)) pick_edge(&v->board, &c->role, &c->junior); /* IA is the rarest */
    for (int k = 0; k < 8; k++) {
        if (in_scope(v, c->actor, c->role) && in_scope(v, c->actor, c->junior) && !lacks_right(v, c)) break;
        c->actor = k == 0 ? c->role : (uint32_t)pick_live(&v->board);
    }
}

static void fair_edge(const struct view *v, struct command *c)
{
    if (chance(c->code == ADD_EDGE ? 50 : 10)) fair_new_edge(v, c);
    else fair_old_edge(v, c);
    c->kind = 1 + below(3);
    uint32_t standing = c->kind & v->board.kind[c->role][c->junior];
    if (c->code == REMOVE_EDGE && standing != 0 && chance(40)) c->kind = standing; /* or too many would give 5 */
}

/* Mostly what the actor may use, and mostly something that is changed by it. */
static void fair_rights(const struct view *v, struct command *c)
{
    int scope[ROLES], count = roles_in_scope(v, c->actor, scope);
    c->role = scope[below(count)];
    uint8_t held = v->board.rights[c->role], usable = 0;
    for (int right = 1; right <= RIGHTS; right++) usable |= may_use(v, c->actor, right) << (right - 1);
    c->rights = chance(5) ? 0 : chance(40) ? any_right() : chance(15) ? ALL_RIGHTS : any_rights();
    if (chance(75)) c->rights &= usable;
    uint8_t changed = c->code == GIVE_RIGHTS ? c->rights & ~held : c->rights & held;
    if (changed != 0 && chance(40)) c->rights = changed;
}

static uint32_t out_of_range(void) { return chance(40) ? ROLES : ROLES + below(256 - ROLES); }

static uint32_t bad_rights(void)
{
    int least = ALL_RIGHTS + 1;
    return chance(40) ? least : chance(50) ? least << below(3) | any_rights() : chance(50) ? 255 : least + below(224);
}

static uint32_t bad_kind(void) { return chance(50) ? 0 : 4 + below(chance(50) ? 1 : 252); }

static void spoil_range(struct command *c)
{
    if (on_rights(c) && chance(40)) c->rights = bad_rights();
    else if (on_edge(c) && chance(40)) c->kind = bad_kind();
    else *field_of(c, ACTOR + below(on_edge(c) ? 3 : 2)) = out_of_range();
}

uint32_t *field_of(struct command *c, int field)
{
    uint32_t *const at[FIELDS] = {&c->code, &c->actor, &c->role, &c->junior, &c->kind, &c->rights};
    return at[field];
}

bool uses_field(const struct command *c, int field)
{
    if (field == JUNIOR || field == KIND) return on_edge(c);
    return field != THE_RIGHTS || on_rights(c);
}

/* A number that is used, and right but for its bits above the lowest 8. */
static void spoil_width(struct command *c)
{
    int field = below(FIELDS);
    if (!uses_field(c, field)) field = on_rights(c) ? THE_RIGHTS : !on_edge(c) ? ROLE : chance(50) ? JUNIOR : KIND;
    *field_of(c, field) = wide(*field_of(c, field));
}

static void spoil_live(const struct view *v, struct command *c)
{
    int dead = pick_dead(&v->board);
    if (dead == NONE) return;
    if (chance(30)) {
        c->actor = dead;
        return;
    }
    switch (c->code == ADD_ROLE ? below(5) : 5 + below(2)) {
    case 0: c->a_seniors |= one(dead); break;
    case 1: c->i_seniors |= one(dead); break;
    case 2: c->a_juniors |= one(dead); break;
    case 3: c->i_juniors |= one(dead); break;
    case 4: *(chance(50) ? &c->i_seniors : &c->a_juniors) |= one(c->role); break; /* the new role in its own sets */
    case 5: c->role = dead; break;
    default: *(on_edge(c) ? &c->junior : &c->role) = dead;
    }
    if (c->code == ADD_ROLE && chance(20)) c->role = pick_live(&v->board); /* 4 holds too */
}

static void spoil_scope(const struct view *v, struct command *c)
{
    const struct model *m = &v->board;
    switch (below(c->code == ADD_ROLE ? 4 : 3)) {
    case 0: c->actor = pick_live(m); break;
    case 1:
        if (c->code == ADD_ROLE) name(pick_live(m), &c->i_seniors, &c->a_seniors);
        else if (c->code == REMOVE_ROLE || c->code == ADD_EDGE || on_rights(c)) c->role = pick_live(m);
        else c->actor = pick_live(m);
        break;
    case 2:
        if (c->code == ADD_ROLE) name(pick_live(m), &c->i_juniors, &c->a_juniors);
        else if (c->code == ADD_EDGE) c->junior = pick_live(m);
        else c->actor = pick_live(m);
        break;
    default: name(c->actor, &c->i_juniors, &c->a_juniors); /* the actor is not in its strict scope */
    }
}

static void spoil_standing(const struct view *v, struct command *c)
{
    const struct model *m = &v->board;
    uint32_t turned = c->role;
    switch (c->code) {
    case ADD_ROLE: c->role = pick_live(m); break;
    case ADD_EDGE: pick_edge(m, &c->role, &c->junior); break;
    case REMOVE_EDGE:
    case CHANGE_EDGE:
        if (chance(50)) c->role = c->junior, c->junior = turned;
        else if (chance(30)) c->junior = c->role;
        else c->role = pick_live(m), c->junior = pick_live(m);
    }
}

/* An actor, or for 6 and 7 a byte, for which a right is lacking, where there is one. */
static void spoil_right(const struct view *v, struct command *c)
{
    for (int k = 0; k < 10 && !lacks_right(v, c); k++) {
        if (on_rights(c) && chance(50)) c->rights |= any_right();
        else c->actor = pick_live(&v->board);
    }
}

static uint32_t any_number(void) { return chance(50) ? wide(below(256)) : (uint32_t)below(256); }

/* What a command doesn't use may hold anything, so every field starts as noise. */
static void noise(struct command *c)
{
    c->code = any_number(), c->actor = any_number(), c->role = any_number();
    c->junior = any_number(), c->kind = any_number(), c->rights = any_number();
    c->a_seniors = draw64(), c->i_seniors = draw64(), c->a_juniors = draw64(), c->i_juniors = draw64();
    if (chance(50)) c->junior &= 63, c->kind &= 3;
    if (chance(30)) c->rights &= ALL_RIGHTS;
    if (chance(30)) c->a_seniors = c->i_seniors = c->a_juniors = c->i_juniors = 0;
}

static void draw_of_code(const struct view *v, int code, struct command *c)
{
    noise(c);
    c->code = code;
    c->actor = chance(30) ? 0 : pick_live(&v->board);
    if (!v->board.live[c->actor]) return; /* an empty board: no fair command */
    for (int k = 0; k < 6 && !on_rights(c) && lacks_right(v, c); k++) c->actor = pick_live(&v->board);
    switch (c->code) {
    case ADD_ROLE: fair_add_role(v, c); break;
    case REMOVE_ROLE: fair_remove_role(v, c); break;
    case GIVE_RIGHTS:
    case TAKE_RIGHTS: fair_rights(v, c); break;
    default: fair_edge(v, c);
    }
}

void draw_command(const struct view *v, struct command *c)
{
    static const uint8_t codes[] = {1, 1, 1, 2, 2, 3, 3, 3, 4, 4, 4, 5, 5, 6, 6, 7, 7};
    if (chance(3)) { /* a code outside 1 to 7: all else is right for some code, or is not */
        uint32_t code = chance(40) ? 0 : chance(60) ? 8 : any_number();
        if (chance(50)) noise(c);
        else draw_of_code(v, codes[below(sizeof codes)], c);
        c->code = code >= ADD_ROLE && code <= TAKE_RIGHTS ? 8 : code;
        return;
    }
    draw_of_code(v, codes[below(sizeof codes)], c);
    if (chance(65)) return;
    switch (below(7)) {
    case 0: spoil_range(c); break;
    case 1: spoil_live(v, c); break;
    case 2: spoil_standing(v, c); break;
    case 3: spoil_width(c); break;
    case 4: spoil_right(v, c); break;
    default: spoil_scope(v, c);
    }
    if (chance(20)) spoil_scope(v, c); /* two faults at once: the order counts */
    if (chance(5) && c->actor < ROLES) spoil_right(v, c);
    if (chance(10)) spoil_range(c);
    if (chance(10)) spoil_live(v, c);
    if (chance(5)) spoil_width(c);
}

void draw_spoilt(const struct view *v, int number, struct command *c)
{
    if (number == 3) spoil_live(v, c);
    else if (number > 3) spoil_standing(v, c);
    else if (chance(50)) spoil_range(c);
    else spoil_width(c);
}

static void draw_until(const struct view *v, int code, int number, bool part, struct command *c)
{
    struct command done;
    int draws = part || code == ADD_ROLE ? 60 : 30; /* many of these are passed over */
    draw_of_code(v, code, &done);
    for (int k = 0; k < draws; k++) {
        draw_of_code(v, code, c);
        uint32_t standing = part ? v->board.kind[c->role][c->junior] : 0;
        if (part && (standing == 0 || standing == c->kind)) continue;
        if (code == ADD_ROLE && number == 9 && (c->a_juniors | c->i_juniors) == 0) continue; /* never a 9 */
        uint8_t given = decide_on_sound(v, c);
        if (given == number) return;
        if (given == 0) done = *c;
    }
    *c = done;
}

void draw_refused(const struct view *v, int code, int number, struct command *c)
{
    draw_until(v, code, number, false, c);
}

void draw_part_refused(const struct view *v, int code, int number, struct command *c)
{
    draw_until(v, code, number, true, c);
}

bool draw_hidden_loop(const struct view *v, struct command *c)
{
    for (int k = 0; k < 200; k++) {
        draw_of_code(v, ADD_EDGE, c);
        c->actor = 0, c->role = pick_live(&v->board), c->junior = pick_live(&v->board);
        if (v->reaches[c->junior][c->role] && !v->derives[c->junior][c->role]) return true;
    }
    return false;
}

/* ---- commands that give 6 */

static int pick_in_scope(const struct view *v, int a)
{
    int scope[ROLES], count = roles_in_scope(v, a, scope);
    return scope[below(count)];
}

/* A live role; half the time one that the actor derives, and another bars, where there is one. */
static int pick_barred(const struct view *v, int a)
{
    bool barred[ROLES];
    for (int r = 0; r < ROLES; r++) barred[r] = v->derives[a][r] && !in_scope(v, a, r);
    int r = chance(50) ? pick(barred) : NONE;
    return r != NONE ? r : pick_live(&v->board);
}

/* Before that set only roles in scope; in it and behind it any. */
static void any_from(const struct view *v, enum named named, struct command *c)
{
    uint64_t *const set[NAMED] = {[A_SENIORS] = &c->a_seniors, &c->i_seniors, &c->a_juniors, &c->i_juniors};
    for (int k = A_SENIORS; k < NAMED; k++) {
        *set[k] = 0;
        for (int n = (k == (int)named) + below(3); n > 0; n--)
            *set[k] |= one(k < (int)named ? pick_in_scope(v, c->actor) : pick_barred(v, c->actor));
    }
    if (named == I_JUNIORS) c->a_juniors &= ~one(c->actor);
}

/* False where the senior offends and the junior is wanted, or the other way about, and where 4 would come first. */
static bool edge_to_offend(const struct view *v, enum named named, struct command *c)
{
    c->kind = 1 + below(3);
    if (c->code == ADD_EDGE) {
        c->role = named == THE_JUNIOR ? pick_in_scope(v, c->actor) : pick_barred(v, c->actor);
        c->junior = pick_barred(v, c->actor);
        if ((c->kind & ~v->board.kind[c->role][c->junior]) == 0) return false;
    } else if (!pick_edge(&v->board, &c->role, &c->junior)) return false;
    if (c->code == REMOVE_EDGE) c->kind = v->board.kind[c->role][c->junior];
    return in_scope(v, c->actor, c->role) == (named == THE_JUNIOR);
}

static enum named some_field(int code)
{
    if (code == ADD_ROLE) return (chance(60) ? A_JUNIORS : A_SENIORS) + below(2); /* juniors offend by one cause more */
    if (code == GIVE_RIGHTS || code == TAKE_RIGHTS) return THE_TARGET;
    return code == REMOVE_ROLE ? THE_REMOVED : chance(50) ? THE_SENIOR : THE_JUNIOR;
}

/* The cause of the lowest role there that offends, or 0. */
static int cause_at(const struct view *v, const struct command *c, enum named named, bool strict)
{
    const uint64_t roles[NAMED] = {one(c->role), one(c->role), one(c->role), one(c->junior),
                                   c->a_seniors, c->i_seniors, c->a_juniors, c->i_juniors};
    int cause = 0;
    for (int r = 0; r < ROLES && cause == 0; r++)
        if (in(roles[named], r)) cause = why(v, c->actor, r, strict).cause;
    return cause;
}

/* Nothing offends before the place that is drawn, which is then looked at by itself: a model that has the order wrong still
 * gets the commands that show it. */
void draw_offence(const struct view *v, int code, struct command *c)
{
    enum named named = some_field(code);
    bool strict = named == THE_REMOVED || named >= A_JUNIORS;
    int cause = 1 + below(strict ? 3 : 2);
    for (int k = 0; k < 60; k++) {
        noise(c);
        c->code = code, c->actor = pick_live(&v->board);
        if (named == THE_TARGET) {
            fair_rights(v, c);
            c->role = pick_barred(v, c->actor);
        } else if (code == ADD_ROLE) c->role = pick_dead(&v->board), any_from(v, named, c);
        else if (code == REMOVE_ROLE) c->role = cause == ITSELF ? c->actor : (uint32_t)pick_barred(v, c->actor);
        else if (!edge_to_offend(v, named, c)) continue;
        if (cause_at(v, c, named, strict) == cause && (k > 40 || !lacks_right(v, c))) return;
    }
}
