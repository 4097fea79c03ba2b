/* board.h's answers, from the model. */
#include "model.h"
#include <string.h>

static uint64_t answer(uint8_t number, uint8_t place, uint64_t value)
{
    return number | (uint64_t)place << 8 | value << 16;
}

/* The answer with a role that offends, and why. */
static uint64_t because(uint64_t reply, uint64_t role, struct why w)
{
    return reply | role << 32 | (uint64_t)w.cause << 40 | (uint64_t)w.in_the_way << 48;
}

void open_file(struct opened *o, const uint8_t *file, size_t len)
{
    o->file = file;
    o->len = len;
    o->number = read_file(file, len, &o->view);
}

/* The first refusal of a question about x and y: the file's own come first. */
static bool refused(const struct opened *o, uint32_t x, uint32_t y, uint64_t none, uint64_t *reply)
{
    const bool *live = o->view.board.live;
    if (o->number != 0) *reply = answer(o->number, IN_FILE, none);
    else if (x >= ROLES || y >= ROLES) *reply = answer(2, ASKED, none);
    else if (!live[x] || !live[y]) *reply = answer(3, ASKED, none);
    else return false;
    return true;
}

uint64_t answer_check(const struct opened *o)
{
    return answer(o->number, o->number != 0 ? IN_FILE : ASKED, 0);
}

uint64_t answer_derives(const struct opened *o, uint32_t x, uint32_t y)
{
    uint64_t reply;
    if (refused(o, x, y, 0, &reply)) return reply;
    return answer(0, ASKED, o->view.derives[x][y]);
}

uint64_t answer_scope(const struct opened *o, uint32_t a, uint32_t r)
{
    uint64_t reply;
    if (refused(o, a, r, 0, &reply)) return reply;
    bool yes = in_scope(&o->view, a, r);
    reply = answer(0, ASKED, yes + 2 * scope_count(&o->view, a));
    if (yes) return reply;
    return because(reply, 0, why(&o->view, a, r, false));
}

uint64_t answer_manager(const struct opened *o, uint32_t r)
{
    uint64_t reply;
    if (refused(o, r, r, NONE, &reply)) return reply;
    return answer(0, ASKED, line_manager(&o->view, r));
}

uint64_t answer_steps(const struct opened *o, uint32_t r)
{
    uint64_t reply;
    if (refused(o, r, r, 0, &reply)) return reply;
    return answer(0, ASKED, steps(&o->view, r));
}

uint64_t answer_stretch(const struct opened *o, uint32_t role)
{
    uint64_t reply;
    if (refused(o, role, role, 0, &reply)) return reply;
    struct parts p;
    bad_frame(o->file, o->len, &p); /* which it isn't */
    uint64_t start = 0, len = 0;
    for (const uint8_t *e = p.edge; e < p.edge + 3 * p.edges; e += 3) {
        if (e[0] != role) continue;
        if (len == 0) start = e - o->file;
        len += 3;
    }
    return answer(0, ASKED, start + (len << 16));
}

/* Of a command, but for what is written. Only a 6 says why. */
uint64_t answer_apply(const struct view *before, const struct command *c, struct view *after)
{
    uint8_t number = decide(before, c, after);
    if (number != 6) return answer(number, ASKED, 0);
    struct offence first = first_offence(before, c);
    return because(answer(number, ASKED, 0), first.role, first.why);
}

uint64_t answer_command(const struct opened *o, const struct command *c, uint8_t *out, size_t room)
{
    static struct view after;
    size_t len;
    if (o->number != 0) return answer(o->number, IN_FILE, 0);
    uint64_t applied = answer_apply(&o->view, c, &after);
    if (applied != 0) return applied;
    uint8_t number = write_file(&after, out, room, 0, &len);
    return answer(number, number != 0 ? IN_WRITING : ASKED, len);
}

uint64_t answer_found(struct board *b)
{
    static struct view v;
    found(&v.board);
    look(&v);
    keep(&v);
    to_board(&v, b);
    return answer(0, ASKED, 0);
}

uint64_t answer_read(const struct opened *o, struct board *b)
{
    if (o->number == 0) to_board(&o->view, b);
    return answer_check(o);
}

uint64_t answer_write(const struct view *v, uint8_t *out, size_t room, size_t at)
{
    size_t len;
    uint8_t number = write_file(v, out, room, at, &len);
    return answer(number, number == 12 ? IN_WRITING : ASKED, len);
}

/* Nothing is tried where the row is too short; else one by one, whatever those before were answered. */
uint64_t answer_run(const struct view *before, const struct command *commands, size_t n, uint64_t *answers, size_t m,
                    const struct view **left)
{
    static struct view boards[2]; /* by turns */
    uint64_t done = answer(0, ASKED, 0); /* the run's own answer */
    *left = before;
    if (m < n) return answer(12, IN_WRITING, 0);
    for (size_t k = 0; k < n; k++) {
        struct view *after = &boards[*left == &boards[0]];
        uint64_t applied = answer_apply(*left, &commands[k], after);
        answers[k] = applied;
        if (applied == 0) *left = after;
    }
    return done;
}

/* ---- the same with board.h's signatures, each reading the file anew */

static struct opened *opened(const uint8_t *file, size_t len)
{
    static struct opened o;
    open_file(&o, file, len);
    return &o;
}

uint64_t model_apply(struct board *b, const struct command *c)
{
    static struct view before, after;
    from_board(b, &before);
    uint64_t applied = answer_apply(&before, c, &after);
    if (applied == 0) to_board(&after, b);
    return applied;
}

uint64_t model_command(const uint8_t *file, size_t len, const struct command *c, uint8_t *out, size_t room)
{
    return answer_command(opened(file, len), c, out, room);
}

uint64_t model_check(const uint8_t *file, size_t len) { return answer_check(opened(file, len)); }
uint64_t model_derives(const uint8_t *file, size_t len, uint32_t x, uint32_t y)
{
    return answer_derives(opened(file, len), x, y);
}
uint64_t model_scope(const uint8_t *file, size_t len, uint32_t a, uint32_t r)
{
    return answer_scope(opened(file, len), a, r);
}
uint64_t model_manager(const uint8_t *file, size_t len, uint32_t r) { return answer_manager(opened(file, len), r); }
uint64_t model_steps(const uint8_t *file, size_t len, uint32_t r) { return answer_steps(opened(file, len), r); }
uint64_t model_stretch(const uint8_t *file, size_t len, uint32_t role)
{
    return answer_stretch(opened(file, len), role);
}

uint64_t model_found(struct board *b) { return answer_found(b); }
uint64_t model_read(const uint8_t *file, size_t len, struct board *b) { return answer_read(opened(file, len), b); }
uint64_t model_write(const struct board *b, uint8_t *out, size_t room, size_t at)
{
    static struct view v;
    from_board(b, &v);
    return answer_write(&v, out, room, at);
}

uint64_t model_run(struct board *b, const struct command *commands, size_t n, uint64_t *answers, size_t m)
{
    static struct view before;
    const struct view *left;
    from_board(b, &before);
    uint64_t reply = answer_run(&before, commands, n, answers, m, &left);
    to_board(left, b);
    return reply;
}
