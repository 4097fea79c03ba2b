/* Boards to begin with, and changes of which some are in each other's way. */
#include "race.h"
#include <string.h>

enum { NUMBERS = 48 }; /* new roles have low numbers, so that two often ask for the same */

/* ---- commands */

static int draw_live(const struct view *v)
{
    int r;
    do r = below(ROLES);
    while (!v->board.live[r]);
    return r;
}

/* Mostly one who may do something. */
static int draw_actor(const struct view *v)
{
    for (int tries = 0; tries < 20; tries++) {
        int a = chance(25) ? 0 : draw_live(v);
        if (may_use(v, a, 1 + below(RIGHTS))) return a;
    }
    return chance(20) ? below(NUMBERS) : draw_live(v);
}

static int draw_in_scope(const struct view *v, int a)
{
    if (!v->board.live[a]) return draw_live(v);
    for (int tries = 0; tries < 40; tries++) {
        int r = draw_live(v);
        if (in_scope(v, a, r)) return r;
    }
    return chance(70) ? a : draw_live(v);
}

static void draw_new_role(const struct view *v, struct command *c)
{
    c->role = 1 + below(NUMBERS);
    for (int seniors = 1 + chance(25); seniors > 0; seniors--) {
        uint64_t senior = 1ull << draw_in_scope(v, c->actor);
        if (chance(75)) c->i_seniors |= senior;
        if (chance(35)) c->a_seniors |= senior;
    }
    if (chance(10)) c->i_juniors = 1ull << draw_in_scope(v, c->actor);
    if (chance(7)) c->a_juniors = 1ull << draw_in_scope(v, c->actor);
}

/* One that stands, where chance meets it. */
static void draw_pair(const struct view *v, struct command *c)
{
    c->kind = 1 + below(3);
    for (int tries = 0; tries < 60; tries++) {
        c->role = draw_in_scope(v, c->actor), c->junior = draw_in_scope(v, c->actor);
        if (c->role != c->junior && (c->code == ADD_EDGE) == (v->board.kind[c->role][c->junior] == 0)) break;
    }
    if (c->code == REMOVE_EDGE && chance(80)) c->kind = v->board.kind[c->role][c->junior];
    if (c->kind == 0) c->kind = 3;
}

static void draw_one(const struct view *v, struct command *c)
{
    static const uint8_t code[] = {1, 1, 1, 1, 1, 1, 1, 2, 3, 3, 3, 3, 3, 4, 4, 5, 6, 6, 6, 7};
    memset(c, 0, sizeof *c);
    c->code = code[below(sizeof code)];
    c->actor = draw_actor(v);
    if (c->code == ADD_ROLE) draw_new_role(v, c);
    else if (on_edge(c)) draw_pair(v, c);
    else c->role = draw_in_scope(v, c->actor);
    if (on_rights(c)) c->rights = chance(c->code == GIVE_RIGHTS ? 60 : 10) ? ALL_RIGHTS : 1u << below(RIGHTS) | 1u << below(RIGHTS);
    if (c->code == TAKE_RIGHTS && c->role == 0 && chance(95)) c->code = GIVE_RIGHTS; /* or soon nobody may do anything */
    if (chance(1)) c->role = ROLES + below(1000);
}

static void draw_done(const struct view *v, struct command *c)
{
    int tries = 0;
    do draw_one(v, c);
    while (decide_on_sound(v, c) != 0 && ++tries < 40);
}

/* What takes back, or shuts out, what another asked for. */
static void draw_opposite(const struct view *v, const struct command *other, struct command *c)
{
    *c = *other;
    if (chance(30)) c->actor = draw_actor(v);
    if (c->code == ADD_ROLE) c->code = REMOVE_ROLE;
    else if (c->code == REMOVE_ROLE) {
        uint32_t lost = c->role;
        draw_one(v, c); /* something that needs the role */
        if (c->code == ADD_ROLE) c->i_seniors |= 1ull << lost % ROLES;
        else c->role = lost;
    } else if (c->code == ADD_EDGE && chance(60)) c->role = other->junior, c->junior = other->role; /* a loop of two */
    else if (on_edge(c)) c->code = chance(50) ? REMOVE_EDGE : ADD_EDGE;
    else c->code = c->code == GIVE_RIGHTS && c->role != 0 ? TAKE_RIGHTS : GIVE_RIGHTS;
}

/* ---- boards */

void draw_board(struct view *v)
{
    static struct view next;
    struct command c;
    found(&v->board);
    look(v);
    for (int done = chance(10) ? 0 : 30 + below(50), tries = 0; done > 0 && tries < 400; tries++) {
        draw_one(v, &c);
        if (c.code == REMOVE_ROLE || c.code == TAKE_RIGHTS || step_on_sound(v, &c, &next) != 0) continue;
        *v = next;
        done--;
    }
    keep(v);
}

/* ---- changes */

void as_command(struct change *c, struct command command)
{
    c->way = IN_WORDS;
    c->commands = 1;
    c->command[0] = command;
}

/* With lines between that are no commands: they count as lines, and nothing is answered. */
void as_run(struct change *c, const struct command *command, int commands)
{
    char *at = c->text;
    int line = 1;
    c->way = ON_STANDARD_INPUT;
    c->commands = commands;
    for (int k = 0; k < commands; k++) {
        for (; chance(20); line++) at += sprintf(at, chance(50) ? "\n" : "# and then\n");
        c->command[k] = command[k];
        c->line[k] = line++;
        line_of(&command[k], at);
        at += strlen(at);
        *at++ = '\n';
        *at = 0;
    }
}

enum { LAST = 48 };
static struct command last[LAST]; /* what was asked for of late */
static int lasts;

static struct command draw_next(struct view *v)
{
    static struct view next;
    struct command c;
    int way = below(100);
    if (way < 62 || lasts == 0) draw_done(v, &c);
    else if (way < 74) c = last[below(lasts)];
    else if (way < 90) draw_opposite(v, &last[below(lasts)], &c);
    else draw_one(v, &c);
    last[lasts < LAST ? lasts++ : below(LAST)] = c;
    if (step_on_sound(v, &c, &next) == 0) *v = next;
    return c;
}

/* What workers ask for at the same time is drawn on one board. Of that they leave, one after the other, the board that the next are
 * drawn on: so what is asked for fits, more or less, what is there by then. */
static void draw_turn(struct view *plan, struct asked *asked)
{
    static struct view mine, next;
    struct command command[LINES];
    for (int w = 0; w < WORKERS; w++) {
        struct change *c = &asked[w * OF_ONE].change;
        int commands = chance(25) ? 1 + below(LINES) : 0;
        mine = *plan;
        for (int k = 0; k < commands; k++) command[k] = draw_next(&mine);
        if (commands > 0) as_run(c, command, commands);
        else as_command(c, draw_next(&mine));
    }
    for (int w = 0; w < WORKERS; w++)
        for (int k = 0; k < asked[w * OF_ONE].change.commands; k++)
            if (step_on_sound(plan, &asked[w * OF_ONE].change.command[k], &next) == 0) *plan = next;
}

void draw_changes(const struct view *first, struct asked *asked, int changes)
{
    static struct view plan;
    plan = *first;
    lasts = 0;
    for (int k = 0; k < changes; k++) draw_turn(&plan, asked + k);
}
