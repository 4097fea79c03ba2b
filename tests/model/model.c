/* Roles, edges, paths, scopes, rights and the seven commands, by their definitions. */
#include "model.h"
#include <string.h>

bool in(uint64_t set, int role) { return set >> role & 1; }

/* ---- kinds: sets of the parts I and A */

static bool has_i(uint32_t kind) { return kind == 1 || kind == 3; }
static bool has_a(uint32_t kind) { return kind == 2 || kind == 3; }
static uint8_t kind_of(bool i, bool a) { return (i ? 1 : 0) + (a ? 2 : 0); }
static uint8_t united(uint32_t h, uint32_t k) { return kind_of(has_i(h) || has_i(k), has_a(h) || has_a(k)); }
static uint8_t less(uint32_t h, uint32_t k) { return kind_of(has_i(h) && !has_i(k), has_a(h) && !has_a(k)); }
static bool within(uint32_t k, uint32_t h) { return (!has_i(k) || has_i(h)) && (!has_a(k) || has_a(h)); }

/* ---- board records */

void from_board(const struct board *b, struct view *v)
{
    struct model *m = &v->board;
    for (int x = 0; x < ROLES; x++) {
        m->live[x] = in(b->live, x);
        for (int y = 0; y < ROLES; y++)
            m->kind[x][y] = kind_of(in(b->i[x], y), in(b->a[x], y));
        v->stored.derives[x] = b->derives[x];
        v->stored.derivers[x] = b->derivers[x];
        v->stored.manager[x] = b->manager[x];
        m->rights[x] = b->rights[x];
    }
    look(v);
}

void to_board(const struct view *v, struct board *b)
{
    const struct model *m = &v->board;
    memset(b, 0, sizeof *b);
    for (int x = 0; x < ROLES; x++) {
        b->derives[x] = v->stored.derives[x];
        b->derivers[x] = v->stored.derivers[x];
        b->manager[x] = v->stored.manager[x];
        b->rights[x] = m->rights[x];
        b->live |= (uint64_t)m->live[x] << x;
        for (int y = 0; y < ROLES; y++) {
            uint8_t kind = m->kind[x][y];
            if (kind == 0) continue;
            b->i[x] |= (uint64_t)has_i(kind) << y;
            b->a[x] |= (uint64_t)has_a(kind) << y;
        }
    }
}

void found(struct model *m)
{
    memset(m, 0, sizeof *m);
    m->live[0] = true;
    m->rights[0] = ALL_RIGHTS;
}

/* ---- paths */

/* First step down the side, second across; 4 = conditioned, 0 = none. */
static const uint8_t join[5][5] = {
    {0, 0, 0, 0, 0},
    {0, 1, 0, 1, 0},
    {0, 4, 2, 2, 4},
    {0, 1, 2, 3, 4},
    {0, 4, 0, 4, 0},
};

bool join_associates(void)
{
    for (int a = 0; a < 5; a++)
        for (int b = 0; b < 5; b++)
            for (int c = 0; c < 5; c++)
                if (join[join[a][b]][c] != join[a][join[b][c]]) return false;
    return true;
}

struct juniors {
    int count;
    uint8_t role[ROLES], kind[ROLES];
};

/* Every (role, joined kind) that a path from `from` comes to, each followed once.
 * Kind 0 is followed too: such a path derives nothing, but it reaches. */
static void explore(const struct juniors below[ROLES], int from, bool met[ROLES][5])
{
    struct { uint8_t role, kind; } state[ROLES * 5];
    int count = 0;
    memset(met, 0, ROLES * sizeof met[0]);
    for (int next = -1; next < count; next++) {
        const struct juniors *j = &below[next < 0 ? from : state[next].role];
        for (int k = 0; k < j->count; k++) {
            uint8_t kind = next < 0 ? j->kind[k] : join[state[next].kind][j->kind[k]];
            if (met[j->role[k]][kind]) continue;
            met[j->role[k]][kind] = true;
            state[count].role = j->role[k];
            state[count++].kind = kind;
        }
    }
}

void look(struct view *v)
{
    const struct model *m = &v->board;
    static struct juniors below[ROLES];
    static bool met[ROLES][5];

    for (int x = 0; x < ROLES; x++) {
        below[x].count = 0;
        for (int y = 0; y < ROLES; y++) {
            if (m->kind[x][y] == 0) continue;
            below[x].role[below[x].count] = y;
            below[x].kind[below[x].count++] = m->kind[x][y];
        }
    }
    memset(v->reaches, 0, sizeof v->reaches);
    memset(v->derives, 0, sizeof v->derives);
    for (int x = 0; x < ROLES; x++) {
        if (below[x].count > 0) {
            explore(below, x, met);
            for (int y = 0; y < ROLES; y++) {
                bool derived = met[y][1] || met[y][2] || met[y][3] || met[y][4];
                v->reaches[x][y] = derived || met[y][0];
                v->derives[x][y] = derived && m->live[x] && m->live[y];
            }
        }
        if (m->live[x]) v->derives[x][x] = true;
    }
}

/* ---- scope and line manager */

bool in_scope(const struct view *v, int a, int r)
{
    if (!v->derives[a][r]) return false;
    for (int x = 0; x < ROLES; x++) {
        if (!v->board.live[x] || !v->derives[x][r]) continue;
        if (!v->derives[x][a] && !v->derives[a][x]) return false;
    }
    return true;
}

bool administers(const struct view *v, int a, int r) { return a != r && in_scope(v, a, r); }

int scope_count(const struct view *v, int a)
{
    int count = 0;
    for (int r = 0; r < ROLES; r++)
        if (in_scope(v, a, r)) count++;
    return count;
}

int line_manager(const struct view *v, int r)
{
    bool admin[ROLES];
    for (int a = 0; a < ROLES; a++) admin[a] = administers(v, a, r);
    for (int m = 0; m < ROLES; m++) {
        bool nearest = admin[m];
        for (int a = 0; a < ROLES && nearest; a++)
            if (a != m && admin[a] && !v->derives[a][m]) nearest = false;
        if (nearest) return m;
    }
    return NONE;
}

/* On a sound board the walk ends at role 0; the bound is for boards that a broken model takes for sound. */
int steps(const struct view *v, int r)
{
    int n = 0;
    while (r != 0 && r != NONE && n < ROLES) {
        r = line_manager(v, r);
        n++;
    }
    return n;
}

bool loops(const struct view *v)
{
    for (int x = 0; x < ROLES; x++)
        if (v->reaches[x][x]) return true;
    return false;
}

static bool managed(const struct view *v, int r)
{
    for (int a = 0; a < ROLES; a++)
        if (administers(v, a, r)) return true;
    return false;
}

bool unmanaged(const struct view *v)
{
    for (int r = 1; r < ROLES; r++)
        if (v->board.live[r] && !managed(v, r)) return true;
    return false;
}

static bool joined(const struct model *m)
{
    for (int x = 0; x < ROLES; x++)
        for (int y = 0; y < ROLES; y++)
            if (m->kind[x][y] != 0 && !(m->live[x] && m->live[y])) return false;
    return true;
}

bool sound_tables(const struct view *v)
{
    if (!joined(&v->board)) return false;
    if (loops(v)) return false;
    if (!v->board.live[0]) return false;
    return !unmanaged(v);
}

/* ---- stored values */

/* A role that isn't live has empty sets and no manager. */
static void values_of(const struct view *v, struct stored *s)
{
    memset(s, 0, sizeof *s);
    for (int x = 0; x < ROLES; x++) {
        s->manager[x] = NONE;
        if (!v->board.live[x]) continue;
        for (int y = 0; y < ROLES; y++) {
            if (v->derives[x][y]) s->derives[x] |= 1ull << y;
            if (v->derives[y][x]) s->derivers[x] |= 1ull << y;
        }
        s->manager[x] = line_manager(v, x);
    }
}

void keep(struct view *v) { values_of(v, &v->stored); }

static bool right_for(const struct stored *s, const struct stored *right, int x)
{
    if (s->derives[x] != right->derives[x]) return false;
    if (s->derivers[x] != right->derivers[x]) return false;
    return s->manager[x] == right->manager[x];
}

bool right_values(const struct view *v)
{
    struct stored right;
    values_of(v, &right);
    for (int x = 0; x < ROLES; x++)
        if (!right_for(&v->stored, &right, x)) return false;
    return true;
}

/* ---- rights */

bool holds(const struct model *m, int x, int right) { return in(m->rights[x], right - 1); }

bool may_use(const struct view *v, int a, int right)
{
    for (int x = 0; x < ROLES; x++)
        if (v->derives[a][x] && holds(&v->board, x, right)) return true;
    return false;
}

bool sound_rights(const struct model *m)
{
    for (int x = 0; x < ROLES; x++) {
        if (m->rights[x] > ALL_RIGHTS) return false;
        if (m->rights[x] != 0 && !m->live[x]) return false;
    }
    return true;
}

bool sound(const struct view *v) { return sound_tables(v) && right_values(v) && sound_rights(&v->board); }

/* ---- commands */

struct change {
    const struct view *before;
    const struct command *c;
    struct view *after;
    bool made;
};

bool on_edge(const struct command *c) { return c->code >= ADD_EDGE && c->code <= CHANGE_EDGE; }
bool on_rights(const struct command *c) { return c->code == GIVE_RIGHTS || c->code == TAKE_RIGHTS; }
static bool is_senior(const struct command *c, int x) { return in(c->a_seniors, x) || in(c->i_seniors, x); }
static bool is_junior(const struct command *c, int x) { return in(c->a_juniors, x) || in(c->i_juniors, x); }
static uint8_t kind_in(uint64_t i, uint64_t a, int x) { return kind_of(in(i, x), in(a, x)); }

static void effect(struct model *m, const struct command *c)
{
    int r = c->role;
    switch (c->code) {
    case ADD_ROLE:
        m->live[r] = true;
        m->rights[r] = 0; /* a new role has none */
        for (int x = 0; x < ROLES; x++) {
            if (is_senior(c, x)) m->kind[x][r] = kind_in(c->i_seniors, c->a_seniors, x);
            if (is_junior(c, x)) m->kind[r][x] = kind_in(c->i_juniors, c->a_juniors, x);
        }
        break;
    case REMOVE_ROLE:
        m->live[r] = false;
        m->rights[r] = 0; /* they go with it */
        for (int x = 0; x < ROLES; x++) {
            m->kind[r][x] = 0;
            m->kind[x][r] = 0;
        }
        break;
    case ADD_EDGE: m->kind[r][c->junior] = united(m->kind[r][c->junior], c->kind); break;
    case REMOVE_EDGE: m->kind[r][c->junior] = less(m->kind[r][c->junior], c->kind); break;
    case CHANGE_EDGE: m->kind[r][c->junior] = c->kind; break;
    case GIVE_RIGHTS: m->rights[r] |= c->rights; break;
    case TAKE_RIGHTS: m->rights[r] &= ~c->rights; break;
    }
}

/* Only the last three rules look at the board afterwards. */
static const struct view *after(struct change *g)
{
    if (!g->made) {
        g->after->board = g->before->board;
        effect(&g->after->board, g->c);
        look(g->after);
        g->made = true;
    }
    return g->after;
}

static bool unsound(struct change *g) { return !sound(g->before); }

static bool malformed(struct change *g)
{
    const struct command *c = g->c;
    if (c->code < ADD_ROLE || c->code > TAKE_RIGHTS) return true;
    if (c->actor >= ROLES || c->role >= ROLES) return true;
    if (on_rights(c) && c->rights > ALL_RIGHTS) return true;
    if (on_edge(c) && c->junior >= ROLES) return true;
    return on_edge(c) && (c->kind < 1 || c->kind > 3);
}

static bool missing(struct change *g)
{
    const struct command *c = g->c;
    const bool *live = g->before->board.live;
    if (!live[c->actor]) return true;
    if (c->code != ADD_ROLE && !live[c->role]) return true;
    if (on_edge(c) && !live[c->junior]) return true;
    for (int x = 0; x < ROLES && c->code == ADD_ROLE; x++)
        if ((is_senior(c, x) || is_junior(c, x)) && !live[x]) return true;
    return false;
}

/* The kind that stands between the roles of an edge command, 0 where there is no edge. */
static uint8_t kind_there(struct change *g) { return g->before->board.kind[g->c->role][g->c->junior]; }

static bool standing(struct change *g)
{
    if (g->c->code == ADD_ROLE) return g->before->board.live[g->c->role];
    return g->c->code == ADD_EDGE && within(g->c->kind, kind_there(g));
}

static bool not_there(struct change *g)
{
    if (g->c->code == REMOVE_EDGE) return !within(g->c->kind, kind_there(g));
    return g->c->code == CHANGE_EDGE && kind_there(g) == 0;
}

/* Commands 1 to 5 ask for the right of their number, 6 and 7 for each that they name. */
bool asks_for(const struct command *c, int right)
{
    if (on_rights(c)) return in(c->rights, right - 1);
    return (int)c->code == right;
}

bool lacks_right(const struct view *v, const struct command *c)
{
    for (int right = 1; right <= RIGHTS; right++)
        if (asks_for(c, right) && !may_use(v, c->actor, right)) return true;
    return false;
}

static bool no_right(struct change *g) { return lacks_right(g->before, g->c); }

static bool out_of_scope(struct change *g)
{
    const struct view *v = g->before;
    const struct command *c = g->c;
    if (on_edge(c)) return !(in_scope(v, c->actor, c->role) && in_scope(v, c->actor, c->junior));
    if (c->code == REMOVE_ROLE) return !administers(v, c->actor, c->role);
    if (on_rights(c)) return !in_scope(v, c->actor, c->role);
    for (int x = 0; x < ROLES; x++) {
        if (is_senior(c, x) && !in_scope(v, c->actor, x)) return true;
        if (is_junior(c, x) && !administers(v, c->actor, x)) return true;
    }
    return false;
}

static bool would_loop(struct change *g) { return loops(after(g)); }
static bool new_outside(struct change *g)
{
    return g->c->code == ADD_ROLE && !administers(after(g), g->c->actor, g->c->role);
}
static bool would_unmanage(struct change *g) { return unmanaged(after(g)); }

static const struct {
    uint8_t number;
    bool (*holds)(struct change *);
} refusals[] = {
    {1, unsound},
    {2, malformed},
    {3, missing},
    {4, standing},
    {5, not_there},
    {13, no_right},
    {6, out_of_scope},
    {7, would_loop},
    {8, new_outside},
    {9, would_unmanage},
};

static uint8_t first_refusal(size_t from, const struct view *before, const struct command *c, struct view *after_board)
{
    struct change g = {before, c, after_board, false};
    for (size_t k = from; k < sizeof refusals / sizeof refusals[0]; k++)
        if (refusals[k].holds(&g)) return refusals[k].number;
    return 0;
}

uint8_t decide(const struct view *before, const struct command *c, struct view *after_board)
{
    uint8_t number = first_refusal(0, before, c, after_board);
    if (number != 0) return number;
    keep(after_board);
    return 0;
}

uint8_t decide_on_sound(const struct view *before, const struct command *c)
{
    static struct view after_board;
    return step_on_sound(before, c, &after_board);
}

uint8_t step_on_sound(const struct view *before, const struct command *c, struct view *after_board)
{
    return first_refusal(1, before, c, after_board);
}
