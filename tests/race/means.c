/* What a change may add to a board and what it may take away, whether or not it would be done. */
#include "race.h"

static void add_edge_means(struct means *m, const struct command *c)
{
    for (int part = 0; part < 2; part++) {
        uint64_t junior = 1ull << c->junior;
        bool named = in(c->kind, part);
        if (named && c->code != REMOVE_EDGE) m->part_up[part][c->role] |= junior;
        if (named == (c->code == REMOVE_EDGE) && c->code != ADD_EDGE) m->part_down[part][c->role] |= junior;
    }
}

static void add_role_means(struct means *m, const struct command *c)
{
    const uint64_t seniors[2] = {c->i_seniors, c->a_seniors}, juniors[2] = {c->i_juniors, c->a_juniors};
    m->live_up |= 1ull << c->role;
    for (int part = 0; part < 2; part++) {
        m->part_up[part][c->role] |= juniors[part];
        for (uint64_t left = seniors[part]; left; left &= left - 1) m->part_up[part][__builtin_ctzll(left)] |= 1ull << c->role;
    }
}

static void add_means(struct means *m, const struct command *c)
{
    if (c->role >= ROLES) return;
    if (c->code == ADD_ROLE) add_role_means(m, c);
    else if (c->code == REMOVE_ROLE) m->live_down |= 1ull << c->role;
    else if (c->code == GIVE_RIGHTS) m->rights_up[c->role] |= c->rights, m->given |= c->rights;
    else if (c->code == TAKE_RIGHTS) m->rights_down[c->role] |= c->rights;
    else add_edge_means(m, c);
}

void add_event(struct means *m, const struct event *e)
{
    const struct reply *r = &e->asked->reply;
    for (int k = 0; k < e->asked->change.commands; k++)
        if (k < r->given ? r->of[k] == 0 : r->kind == CUT_SHORT) add_means(m, &e->asked->change.command[k]);
}

/* ---- what differs between two boards */

static int flip_parts(const struct model *from, const struct model *to, int x, struct flip *flip, int count)
{
    for (int y = 0; y < ROLES; y++)
        for (int bit = 0; bit < 2; bit++)
            if (in(from->kind[x][y], bit) != in(to->kind[x][y], bit) && count < FLIPS)
                flip[count++] = (struct flip){PART, x, y, bit, in(to->kind[x][y], bit)};
    return count;
}

int flips_between(const struct model *from, const struct model *to, struct flip *flip)
{
    int count = 0;
    for (int x = 0; x < ROLES; x++) {
        if (from->live[x] != to->live[x] && count < FLIPS) flip[count++] = (struct flip){LIVE, x, 0, 0, to->live[x]};
        for (int bit = 0; bit < RIGHTS; bit++)
            if (in(from->rights[x], bit) != in(to->rights[x], bit) && count < FLIPS)
                flip[count++] = (struct flip){RIGHT, x, 0, bit, in(to->rights[x], bit)};
        count = flip_parts(from, to, x, flip, count);
    }
    return count;
}

/* Edges and rights go with their roles. */
bool may_flip(const struct means *m, const struct flip *f)
{
    if (f->of == LIVE) return in(f->up ? m->live_up : m->live_down, f->x);
    if (f->of == RIGHT) return f->up ? in(m->rights_up[f->x], f->bit) : in(m->rights_down[f->x], f->bit) || in(m->live_down, f->x);
    if (f->up) return in(m->part_up[f->bit][f->x], f->y);
    return in(m->part_down[f->bit][f->x], f->y) || in(m->live_down, f->x) || in(m->live_down, f->y);
}
