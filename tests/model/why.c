/* Why a role is out of scope, and which role of a command offends first, by their definitions. */
#include "model.h"

static bool unrelated(const struct view *v, int x, int a)
{
    if (v->derives[x][a]) return false;
    if (v->derives[a][x]) return false;
    return true;
}

bool bars(const struct view *v, int x, int a, int r)
{
    if (!v->board.live[x]) return false;
    if (!v->derives[x][r]) return false;
    return unrelated(v, x, a);
}

static int in_the_way(const struct view *v, int a, int r)
{
    for (int x = 0; x < ROLES; x++)
        if (bars(v, x, a, r)) return x;
    return NONE;
}

struct why why(const struct view *v, int a, int r, bool strict)
{
    if (!v->derives[a][r]) return (struct why){NOT_DERIVED, 0};
    int x = in_the_way(v, a, r);
    if (x != NONE) return (struct why){IN_THE_WAY, x};
    if (strict && r == a) return (struct why){ITSELF, 0};
    return (struct why){0, 0};
}

/* ---- the roles of a command that must be in scope */

static bool removed(const struct command *c, uint32_t r) { return c->code == REMOVE_ROLE && c->role == r; }
static bool target(const struct command *c, uint32_t r) { return on_rights(c) && c->role == r; }
static bool senior(const struct command *c, uint32_t r) { return on_edge(c) && c->role == r; }
static bool junior(const struct command *c, uint32_t r) { return on_edge(c) && c->junior == r; }
static bool a_senior(const struct command *c, uint32_t r) { return c->code == ADD_ROLE && in(c->a_seniors, r); }
static bool i_senior(const struct command *c, uint32_t r) { return c->code == ADD_ROLE && in(c->i_seniors, r); }
static bool a_junior(const struct command *c, uint32_t r) { return c->code == ADD_ROLE && in(c->a_juniors, r); }
static bool i_junior(const struct command *c, uint32_t r) { return c->code == ADD_ROLE && in(c->i_juniors, r); }

/* In the order in which they are looked through, and whether it is strict scope that is asked. */
static const struct {
    enum named named;
    bool (*names)(const struct command *, uint32_t);
    bool strict;
} fields[] = {
    {THE_REMOVED, removed, true},
    {THE_TARGET, target, false},
    {THE_SENIOR, senior, false},
    {THE_JUNIOR, junior, false},
    {A_SENIORS, a_senior, false},
    {I_SENIORS, i_senior, false},
    {A_JUNIORS, a_junior, true},
    {I_JUNIORS, i_junior, true},
};

struct offence first_offence(const struct view *v, const struct command *c)
{
    for (size_t k = 0; k < sizeof fields / sizeof fields[0]; k++)
        for (int r = 0; r < ROLES; r++) {
            if (!fields[k].names(c, r)) continue;
            struct why w = why(v, c->actor, r, fields[k].strict);
            if (w.cause != 0) return (struct offence){fields[k].named, r, w};
        }
    return (struct offence){NAMED, 0, {0, 0}};
}
