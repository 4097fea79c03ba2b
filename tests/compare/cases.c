/* One call on both sides: guarded memory for the subject, the model's answer, and a line that replays the case. */
#include "compare.h"
#include <signal.h>
#include <stdarg.h>
#include <stdio.h>
#include <stdlib.h>
#include <string.h>
#include <sys/mman.h>

static const struct calls subject = CALLS_OF(SUBJECT);

const char *const call_name[CALL_COUNT] = {"apply", "command", "check",   "derives", "scope", "manager",
                                           "steps", "stretch", "found",   "read",    "write", "run",
                                           "start", "claim",   "release", "job"};

/* The case in hand, for messages. */
static struct {
    enum call call;
    const struct board *board;
    const uint8_t *file;
    size_t len, room, at;
    const struct command *command; /* one, or those of a run */
    size_t commands, places;
    uint64_t fill;
    uint32_t x, y;
} now;

void in_hand(enum call call) { now.call = call; }

/* ---- the line that replays a case */

/* Rows that are empty, managers that are none and rights that are none are left out. */
void print_board(const struct board *b)
{
    printf(" live=%llx", (unsigned long long)b->live);
    for (int x = 0; x < ROLES; x++) {
        if (b->i[x]) printf(" i%d=%llx", x, (unsigned long long)b->i[x]);
        if (b->a[x]) printf(" a%d=%llx", x, (unsigned long long)b->a[x]);
        if (b->derives[x]) printf(" down%d=%llx", x, (unsigned long long)b->derives[x]);
        if (b->derivers[x]) printf(" up%d=%llx", x, (unsigned long long)b->derivers[x]);
        if (b->manager[x] != NONE) printf(" m%d=%u", x, b->manager[x]);
        if (b->rights[x]) printf(" r%d=%u", x, b->rights[x]);
    }
}

static void print_command(const struct command *c)
{
    printf(" numbers=%u,%u,%u,%u,%u,%u,%llx,%llx,%llx,%llx", c->code, c->actor, c->role, c->junior, c->kind, c->rights,
           (unsigned long long)c->a_seniors, (unsigned long long)c->i_seniors, (unsigned long long)c->a_juniors,
           (unsigned long long)c->i_juniors);
}

static bool on_board(enum call call) { return call == APPLY || call == WRITE || call == RUN; }

static void print_case(void)
{
    print_history();
    printf("replay: %s", call_name[now.call]);
    if (now.call >= START) print_job_case();
    else if (on_board(now.call)) print_board(now.board);
    else if (now.call != FOUND) {
        printf(" file=");
        for (size_t k = 0; k < now.len; k++) printf("%02x", now.file[k]);
    }
    if (now.call == APPLY || now.call == COMMAND) print_command(now.command);
    for (size_t k = 0; now.call == RUN && k < now.commands; k++) print_command(&now.command[k]);
    if (now.call == RUN) printf(" places=%zu fill=%llx", now.places, (unsigned long long)now.fill);
    if (now.call == COMMAND || now.call == WRITE) printf(" room=%zu", now.room);
    if (now.call == WRITE) printf(" at=%zu", now.at);
    if (now.call >= DERIVES && now.call <= STRETCH) printf(" x=%u y=%u", now.x, now.y);
    printf("\n");
}

void disagree(const char *what, ...)
{
    va_list args;
    va_start(args, what);
    printf("DISAGREEMENT at call %ld (%s): ", tally.calls, call_name[now.call]);
    vprintf(what, args);
    printf("\n");
    va_end(args);
    print_case();
    exit(1);
}

static void died(int signal)
{
    printf("DISAGREEMENT at call %ld (%s): the " SUBJECT_NAME " died of signal %d\n", tally.calls,
           call_name[now.call], signal);
    print_case();
    fflush(stdout);
    _Exit(1);
}

void watch_for_crashes(void)
{
    static const int fatal[] = {SIGSEGV, SIGBUS, SIGILL, SIGFPE, SIGABRT, SIGTRAP};
    for (size_t k = 0; k < sizeof fatal / sizeof fatal[0]; k++) signal(fatal[k], died);
}

/* ---- memory lent to the subject */

enum { WALL = 65536 }; /* a wall is as long as the longest page of a kernel we may meet */

/* Unreadable memory, with memory before it that can be lent. */
static uint8_t *build_wall(void)
{
    uint8_t *place = mmap(NULL, 4 * WALL, PROT_READ | PROT_WRITE, MAP_PRIVATE | MAP_ANONYMOUS, -1, 0);
    if (place == MAP_FAILED) abort();
    uint8_t *wall = place + 2 * WALL + (WALL - (uintptr_t)place % WALL) % WALL;
    if (mprotect(wall, WALL, PROT_NONE) != 0) abort();
    return wall;
}

void *lend(enum lending what, const void *from, size_t len)
{
    static uint8_t *wall[LENDINGS];
    if (wall[what] == NULL) wall[what] = build_wall();
    return memcpy(wall[what] - len, from, len);
}

/* Any pattern serves that a byte moved or cleared would break. */
void paint(uint8_t *at, size_t len)
{
    static uint8_t pattern[GUARD + ROOM + GUARD];
    for (size_t k = 0; pattern[0] == 0 && k < sizeof pattern; k++) pattern[sizeof pattern - 1 - k] = 11 + 37 * k;
    memcpy(at, pattern, len);
}

/* ---- tries */

static int code_class(const struct command *c) { return c->code >= ADD_ROLE && c->code <= TAKE_RIGHTS ? c->code : 0; }

/* A number above 255 is all that is out of range where the command with it cut to 8 bits isn't refused with 2. */
static void tally_wide(enum call call, const struct view *v, const struct command *c, uint8_t number)
{
    for (int field = 0; field < FIELDS; field++) {
        struct command cut = *c;
        if (*field_of(&cut, field) <= 255) continue;
        *field_of(&cut, field) &= 255;
        if (number == 0) tally.wide_unused[call][c->code][field]++;
        else if (number == 2 && decide_on_sound(v, &cut) != 2) tally.wide_used[call][field]++;
    }
}

/* What is named and what stands counts where 4 and 5 are decided, so not where 1, 2 or 3 came first. */
static void tally_parts(enum call call, const struct view *v, const struct command *c, uint8_t number)
{
    if (!on_edge(c)) return;
    int code = c->code - ADD_EDGE;
    if (number == 0 || number > 3) {
        int stands = v->board.kind[c->role][c->junior];
        tally.parts[call][code][c->kind][stands]++;
        if (number == 9 && c->code == ADD_EDGE && stands != 0) tally.part_added++;
        if (number == 9 && c->code == REMOVE_EDGE && stands != (int)c->kind) tally.part_taken++;
    } else if (number == 2 && c->actor < ROLES && c->role < ROLES && c->junior < ROLES)
        tally.kind_range[code][c->kind == 0 ? 0 : c->kind <= 255 ? 1 : 2]++;
}

/* The role in the way of a at r, and the lower numbers it was found behind. */
static void tally_way(enum call call, const struct view *v, int a, int r, int in_the_way)
{
    bool met[WAYS] = {[ROLE_0] = in_the_way == 0};
    for (int x = 0; x < ROLES; x++) {
        if (bars(v, x, a, r)) met[OF_SEVERAL] |= x != in_the_way;
        else if (x > in_the_way || x == a || x == r) continue;
        else if (!v->board.live[x]) met[PAST_DEAD] = true;
        else if (!v->derives[x][r]) met[PAST_ASIDE] |= !v->derives[x][a] && !v->derives[a][x];
        else met[v->derives[x][a] ? PAST_ABOVE : PAST_BELOW] = true;
    }
    for (int k = 0; k < WAYS; k++) tally.way[call][k] += met[k];
}

static uint64_t *set_of(struct command *c, enum named named)
{
    uint64_t *const at[] = {&c->a_seniors, &c->i_seniors, &c->a_juniors, &c->i_juniors};
    return at[named - A_SENIORS];
}

/* The command as if its roles were looked for there first. */
static struct command from(const struct command *c, enum named named)
{
    struct command rest = *c;
    if (named == THE_JUNIOR) rest.role = c->junior;
    for (int other = A_SENIORS; other < NAMED && named >= A_SENIORS; other++)
        if (other != (int)named) *set_of(&rest, other) = 0;
    return rest;
}

static void tally_offence(enum call call, const struct view *v, const struct command *c, uint8_t number)
{
    if (c->actor >= ROLES || code_class(c) == 0) return;
    struct offence first = first_offence(v, c);
    int named = first.named;
    if (number != 0 && number != 6 && first.why.cause != 0) tally.unnamed[call][number]++;
    if (number != 6) return;
    if (first.why.cause == 0) disagree("both give 6, and by the model no role offends");
    tally.cause[call][c->code][named][first.why.cause]++;
    if (first.why.cause == IN_THE_WAY) tally_way(call, v, c->actor, first.role, first.why.in_the_way);

    for (int there = named; there < NAMED; there++) {
        struct command rest = from(c, there);
        if (there == named && named >= A_SENIORS) *set_of(&rest, named) &= ~(1ull << first.role);
        struct offence other = first_offence(v, &rest);
        if (other.why.cause != 0 && other.role != first.role) tally.beside[call][named][there]++;
    }
    if (named == THE_JUNIOR && c->role == c->actor) tally.actor_named[call][THE_SENIOR]++;
    if (named > A_SENIORS && in(c->a_seniors, c->actor)) tally.actor_named[call][A_SENIORS]++;
    if (named > I_SENIORS && in(c->i_seniors, c->actor)) tally.actor_named[call][I_SENIORS]++;
}

/* Whose the rights are that a command asks for, where 13 was tried; and what else holds beside it. */
static void tally_rights(enum call call, const struct view *v, const struct command *c, uint8_t number)
{
    static struct view able;
    int code = code_class(c);
    bool asks = false, own = true, lacks = false, usable = false;
    if (code == 0 || c->actor >= ROLES || !v->board.live[c->actor] || number == 1) return;
    for (int right = 1; right <= RIGHTS; right++) {
        if (!asks_for(c, right)) continue;
        asks = true;
        if (!holds(&v->board, c->actor, right)) own = false;
        if (may_use(v, c->actor, right)) usable = true;
        else lacks = true;
    }
    if (number >= 2 && number <= 5) {
        tally.first[call][code][number] += lacks;
        return;
    }
    if (number != 13) {
        if (asks) tally.source[call][code][own ? ITS_OWN : OF_ONE_DERIVED]++;
        return;
    }
    bool met[SOURCES] = {false}, held = false;
    for (int right = 1; right <= RIGHTS; right++) {
        if (!asks_for(c, right) || may_use(v, c->actor, right)) continue;
        for (int x = 0; x < ROLES; x++) {
            if (!holds(&v->board, x, right)) continue;
            held = true;
            for (int source = ONE_ABOVE; source <= ONE_ASIDE; source++) met[source] |= stands(v, source, c->actor, x);
        }
    }
    met[NOBODY] = !held;
    for (int source = 0; source < SOURCES; source++) tally.source[call][code][source] += met[source];
    if (on_rights(c) && usable) tally.outcome[call][code - GIVE_RIGHTS][SOME_USABLE]++;
    able = *v;
    able.board.rights[c->actor] = ALL_RIGHTS;
    tally.later[call][code][decide_on_sound(&able, c)]++;
}

/* Of 6 and 7: what changed, and a byte that is out of range alone. */
static void tally_effect(enum call call, const struct view *v, const struct command *c, uint8_t number)
{
    if (!on_rights(c)) return;
    int code = c->code - GIVE_RIGHTS;
    if (number == 2 && c->actor < ROLES && c->role < ROLES)
        tally.rights_range[call][code][c->rights == ALL_RIGHTS + 1 ? 0 : c->rights <= 255 ? 1 : 2]++;
    if (number != 0) return;
    uint8_t held = v->board.rights[c->role], new = c->code == GIVE_RIGHTS ? c->rights & ~held : c->rights & held;
    long *outcome = tally.outcome[call][code];
    bool left = c->code == GIVE_RIGHTS || held != new;
    for (int x = 0; x < ROLES; x++) left |= x != (int)c->role && v->board.rights[x] != 0;
    outcome[c->rights == 0 ? NONE_NAMED : new == 0 ? NONE_CHANGED : new == c->rights ? ALL_CHANGED : SOME_CHANGED]++;
    outcome[AT_ITSELF] += c->role == c->actor && new != 0;
    outcome[AT_ROLE_0] += c->role == 0 && new != 0;
    outcome[NONE_LEFT] += !left && new != 0;
}

static void tally_command(enum call call, const struct view *v, const struct command *c, uint8_t number)
{
    tally_wide(call, v, c, number);
    tally_parts(call, v, c, number);
    tally_offence(call, v, c, number);
    tally_rights(call, v, c, number);
    tally_effect(call, v, c, number);
    if (number == 0 && c->code == REMOVE_ROLE) tally.removed_with_rights += v->board.rights[c->role] != 0;
}

/* A board that is lent to be changed: behind it is the wall. */
struct lent_board {
    uint8_t before[GUARD];
    struct board board;
};

static void same_board(const struct lent_board *lent, const struct lent_board *want, uint8_t number)
{
    if (memcmp(&lent->board, &want->board, offsetof(struct board, derives)) != 0)
        disagree("number %u, another board afterwards", number);
    if (memcmp(&lent->board, &want->board, offsetof(struct board, rights)) != 0)
        disagree("number %u, other stored values afterwards", number);
    if (memcmp(&lent->board, &want->board, sizeof want->board) != 0)
        disagree("number %u, other rights afterwards", number);
    if (memcmp(lent, want, sizeof *want) != 0) disagree("bytes before the board were touched");
}

uint8_t apply_uncounted(const struct view *v, const struct board *b, const struct command *c, struct view *after)
{
    static struct lent_board want;
    const struct command *command = lend(THE_COMMAND, c, sizeof *c);

    now.call = APPLY, now.board = b, now.command = c;
    tally.calls++;
    paint((uint8_t *)&want, sizeof want);
    want.board = *b;
    struct lent_board *lent = lend(THE_BOARD, &want, sizeof want);
    unsigned long long answer = answer_apply(v, c, after);
    uint8_t number = BOARD_NUMBER(answer);
    if (number == 0) to_board(after, &want.board);

    unsigned long long said = subject.apply(&lent->board, command);
    if (said != answer) disagree("answer %#llx, the model %#llx", said, answer);
    same_board(lent, &want, number);
    if (memcmp(command, c, sizeof *c) != 0) disagree("the command was touched");
    return number;
}

uint8_t try_apply(const struct view *v, const struct board *b, const struct command *c, struct view *after)
{
    uint8_t number = apply_uncounted(v, b, c, after);
    tally.commands++;
    tally_command(APPLY, v, c, number);
    tally.apply[code_class(c)][number]++;
    if (number == 0 && c->code == CHANGE_EDGE && v->board.kind[c->role][c->junior] == c->kind) tally.idle_change++;
    if (number == 7 && c->code == ADD_EDGE && !v->derives[c->junior][c->role]) tally.hidden_loop++;
    return number;
}

static bool seniors_in_scope(const struct view *v, int a, int r)
{
    int seniors = 0;
    for (int s = 0; s < ROLES; s++) {
        if (v->board.kind[s][r] == 0) continue;
        if (!in_scope(v, a, s)) return false;
        seniors++;
    }
    return seniors > 0;
}

void try_question(const struct opened *o, enum call call, uint32_t x, uint32_t y)
{
    const uint8_t *file = lend(THE_FILE, o->file, o->len);
    uint64_t said = 0, want = 0;

    now.call = call, now.file = o->file, now.len = o->len, now.command = NULL, now.x = x, now.y = y;
    tally.calls++;
    switch (call) {
    case CHECK: said = subject.check(file, o->len), want = answer_check(o); break;
    case DERIVES: said = subject.derives(file, o->len, x, y), want = answer_derives(o, x, y); break;
    case SCOPE: said = subject.scope(file, o->len, x, y), want = answer_scope(o, x, y); break;
    case MANAGER: said = subject.manager(file, o->len, x), want = answer_manager(o, x); break;
    case STEPS: said = subject.steps(file, o->len, x), want = answer_steps(o, x); break;
    default: said = subject.stretch(file, o->len, x), want = answer_stretch(o, x); break;
    }
    if (said != want) disagree("answer %#llx, the model %#llx", (unsigned long long)said, (unsigned long long)want);
    if (memcmp(file, o->file, o->len) != 0) disagree("the file was touched");

    tally.question[call][BOARD_PLACE(want)][BOARD_NUMBER(want)]++;
    bool asks_two = call == DERIVES || call == SCOPE, refused = BOARD_NUMBER(want) == 2;
    if (refused && x > 255 && x % 256 < ROLES && (!asks_two || y < ROLES)) tally.wide_role[call][0]++;
    if (refused && y > 255 && y % 256 < ROLES && asks_two && x < ROLES) tally.wide_role[call][1]++;
    if (BOARD_NUMBER(want) != 0) return;
    uint64_t value = want >> 16;
    bool some = call == SCOPE ? value & 1 : call == MANAGER ? value != NONE : value != 0;
    tally.value[call][some]++;
    if (call == STRETCH && some) tally.stretch[ends_with(o->file, o->len, "HR")]++;
    if (call == STEPS && (long)value > tally.most_steps) tally.most_steps = value;
    if (call != SCOPE) return;
    tally.scope[BOARD_CAUSE(want)]++;
    if (BOARD_CAUSE(want) == IN_THE_WAY) tally_way(SCOPE, &o->view, x, y, BOARD_IN_THE_WAY(want));
    if (!some && seniors_in_scope(&o->view, x, y)) tally.seniors_in_scope++;
}

void try_command(const struct opened *o, const struct command *c, size_t room)
{
    static uint8_t lent[GUARD + ROOM + GUARD], want[sizeof lent];
    const uint8_t *file = lend(THE_FILE, o->file, o->len);
    const struct command *command = lend(THE_COMMAND, c, sizeof *c);
    size_t all = GUARD + room + GUARD;

    now.call = COMMAND, now.file = o->file, now.len = o->len, now.command = c, now.room = room;
    tally.calls++;
    tally.commands++;
    paint(lent, all);
    memcpy(want, lent, all);
    unsigned long long answer = answer_command(o, c, want + GUARD, room);
    unsigned long long said = subject.command(file, o->len, command, lent + GUARD, room);
    if (said != answer) disagree("answer %#llx, the model %#llx", said, answer);
    if (memcmp(lent, want, all) != 0) disagree("answer %#llx, other bytes in the buffer or around it", said);
    if (memcmp(file, o->file, o->len) != 0) disagree("the file was touched");
    if (memcmp(command, c, sizeof *c) != 0) disagree("the command was touched");

    if (o->number == 0) tally_command(COMMAND, &o->view, c, BOARD_NUMBER(answer));
    tally.command[code_class(c)][BOARD_PLACE(answer)][BOARD_NUMBER(answer)]++;
    if (answer != 0 && BOARD_NUMBER(answer) == 0)
        tally.marks[ends_with(o->file, o->len, "HR")][ends_with(want + GUARD, BOARD_VALUE(answer), "HR")]++;
    if (BOARD_NUMBER(answer) == 0 && BOARD_VALUE(answer) == room) tally.room_exact++;
    if (BOARD_NUMBER(answer) == 12 && room == 0) tally.room_none++;
}

/* FOUND or READ. What the board holds before is painted: all of it is filled in, or nothing. */
static uint64_t fill(enum call call, const struct opened *o)
{
    static struct lent_board want;
    const uint8_t *file = call == READ ? lend(THE_FILE, o->file, o->len) : NULL;

    now.call = call;
    if (call == READ) now.file = o->file, now.len = o->len;
    tally.calls++;
    paint((uint8_t *)&want, sizeof want);
    struct lent_board *lent = lend(THE_BOARD, &want, sizeof want);
    unsigned long long answer = call == READ ? answer_read(o, &want.board) : answer_found(&want.board);
    unsigned long long said = call == READ ? subject.read(file, o->len, &lent->board) : subject.found(&lent->board);
    if (said != answer) disagree("answer %#llx, the model %#llx", said, answer);
    if (memcmp(&lent->board, &want.board, sizeof want.board) != 0) disagree("answer %#llx, another board", said);
    if (memcmp(lent, &want, sizeof want) != 0) disagree("bytes before the board were touched");
    if (call == READ && memcmp(file, o->file, o->len) != 0) disagree("the file was touched");
    return answer;
}

void try_found(void)
{
    fill(FOUND, NULL);
    tally.found++;
}

void try_read(const struct opened *o) { tally.read[ends_with(o->file, o->len, "HR")][BOARD_NUMBER(fill(READ, o))]++; }

uint8_t try_write(const struct view *v, const struct board *b, size_t room, size_t at)
{
    static uint8_t lent[GUARD + ROOM + GUARD], want[sizeof lent];
    const struct board *board = lend(THE_BOARD, b, sizeof *b);
    size_t all = GUARD + room + GUARD;

    now.call = WRITE, now.board = b, now.room = room, now.at = at;
    tally.calls++;
    paint(lent, all);
    memcpy(want, lent, all);
    unsigned long long answer = answer_write(v, want + GUARD, room, at);
    unsigned long long said = subject.write(board, lent + GUARD, room, at);
    if (said != answer) disagree("answer %#llx, the model %#llx", said, answer);
    if (memcmp(lent, want, all) != 0) disagree("answer %#llx, other bytes in the buffer or around it", said);
    if (memcmp(board, b, sizeof *b) != 0) disagree("the board was touched");
    tally.write[BOARD_NUMBER(answer)]++;
    return BOARD_NUMBER(answer);
}

/* ---- runs */

enum { WORDS = 8 }; /* before the row, and behind the model's, which has no wall */

static int length_class(size_t n) { return n < 2 ? (int)n : n < 30 ? TO_29 : n < 100 ? TO_99 : TO_200; }

static int row_class(size_t n, size_t m)
{
    if (m < n) return m == 0 ? ROW_EMPTY : m == n - 1 ? ONE_SHORT : MORE_SHORT;
    return m == n ? ROW_FITS : m == n + 1 ? ONE_OVER : MORE_OVER;
}

static void tally_run(const struct view *v, const struct command *c, size_t n, size_t m, const uint64_t *answers)
{
    tally.rows[length_class(n)][row_class(n, m)]++;
    if (n == 0 || m < n) return;
    bool met[TRAITS] = {[OF_200] = n == RUN_MOST, [ON_UNSOUND] = answers[0] == 1, [ALL_DONE] = n > 1};
    met[ALL_REFUSED] = n > 1 && answers[0] != 1;
    met[FIRST_REFUSED] = answers[0] != 0;
    met[LAST_REFUSED] = answers[n - 1] != 0;
    for (size_t k = 0; k < n; k++) {
        uint8_t number = BOARD_NUMBER(answers[k]);
        tally.run[code_class(&c[k])][number]++;
        if (number == 6) tally.run_cause[BOARD_CAUSE(answers[k])]++;
        *(number == 0 ? &met[ALL_REFUSED] : &met[ALL_DONE]) = false;
        met[BY_A_NEW_ROLE] |= number == 0 && !v->board.live[c[k].actor];
        if (k == 0) continue;
        met[THEN_DONE] |= number == 0 && answers[k - 1] != 0;
        met[SAME_AGAIN] |= answers[k] != answers[k - 1] && memcmp(&c[k], &c[k - 1], sizeof *c) == 0;
    }
    for (int k = 0; k < TRAITS; k++) tally.trait[k] += met[k];
    tally.in_runs += n;
}

static void one_by_one(const struct board *b, const struct command *c, size_t n, const uint64_t *answers,
                       const struct board *left)
{
    struct board by_itself = *b;
    for (size_t k = 0; k < n; k++) {
        unsigned long long said = subject.apply(&by_itself, &c[k]);
        if (said != answers[k])
            disagree("command %zu is answered %#llx in the run, %#llx by itself", k, (unsigned long long)answers[k], said);
    }
    if (memcmp(&by_itself, left, sizeof by_itself) != 0) disagree("another board than by one command at a time");
}

const uint64_t *try_run(const struct view *v, const struct board *b, const struct command *c, size_t n, size_t m,
                        uint64_t fill)
{
    static uint64_t row[WORDS + ROW_MOST + WORDS];
    static struct lent_board want;
    const struct view *left;
    const struct command *commands = lend(THE_COMMANDS, c, n * sizeof *c);

    now.call = RUN, now.board = b, now.command = c, now.commands = n, now.places = m, now.fill = fill;
    tally.calls++;
    paint((uint8_t *)&want, sizeof want);
    want.board = *b;
    struct lent_board *lent = lend(THE_BOARD, &want, sizeof want);
    for (size_t k = 0; k < WORDS + m + WORDS; k++) row[k] = (fill + k) * 0x9e3779b97f4a7c15u;
    uint64_t *lent_row = lend(THE_ROW, row, (WORDS + m) * sizeof *row);
    unsigned long long answer = answer_run(v, c, n, row + WORDS, m, &left);
    to_board(left, &want.board);

    unsigned long long said = subject.run(&lent->board, commands, n, lent_row + WORDS, m);
    if (said != answer) disagree("answer %#llx, the model %#llx", said, answer);
    if (memcmp(lent_row, row, WORDS * sizeof *row) != 0) disagree("words before the row were touched");
    for (size_t k = 0; k < m; k++)
        if (lent_row[WORDS + k] != row[WORDS + k])
            disagree("answer %#llx, place %zu of %zu holds %#llx, in the model %#llx", said, k, m,
                     (unsigned long long)lent_row[WORDS + k], (unsigned long long)row[WORDS + k]);
    same_board(lent, &want, BOARD_NUMBER(answer));
    if (memcmp(commands, c, n * sizeof *c) != 0) disagree("the commands were touched");
    if (answer == 0) one_by_one(b, c, n, row + WORDS, &want.board);
    tally_run(v, c, n, m, row + WORDS);
    return row + WORDS;
}

/* ---- replay */

static bool read_command(const char *word, struct command *c)
{
    unsigned long long s[4];
    unsigned n[6];
    if (sscanf(word, "numbers=%u,%u,%u,%u,%u,%u,%llx,%llx,%llx,%llx", n, n + 1, n + 2, n + 3, n + 4, n + 5, s, s + 1,
               s + 2, s + 3) != 10)
        return false;
    *c = (struct command){n[0], n[1], n[2], n[3], n[4], n[5], s[0], s[1], s[2], s[3]};
    return true;
}

bool read_board_word(const char *w, struct board *b)
{
    unsigned long long set;
    unsigned row;
    if (sscanf(w, "live=%llx", &set) == 1) b->live = set;
    else if (sscanf(w, "i%u=%llx", &row, &set) == 2 && row < ROLES) b->i[row] = set;
    else if (sscanf(w, "a%u=%llx", &row, &set) == 2 && row < ROLES) b->a[row] = set;
    else if (sscanf(w, "down%u=%llx", &row, &set) == 2 && row < ROLES) b->derives[row] = set;
    else if (sscanf(w, "up%u=%llx", &row, &set) == 2 && row < ROLES) b->derivers[row] = set;
    else if (sscanf(w, "m%u=%llu", &row, &set) == 2 && row < ROLES) b->manager[row] = set;
    else if (sscanf(w, "r%u=%llu", &row, &set) == 2 && row < ROLES) b->rights[row] = set;
    else return false;
    return true;
}

/* APPLY, WRITE or RUN. */
static void replay_board(enum call call, char *words)
{
    static struct board b;
    static struct view v, after;
    static struct command c[RUN_MOST + 1]; /* the last is written and not given */
    unsigned long long fill = 0;
    size_t room = 0, at = 0, commands = 0, places = 0;
    memset(&b, 0, sizeof b);
    memset(b.manager, NONE, sizeof b.manager);
    for (char *w = strtok(words, " \n"); w != NULL; w = strtok(NULL, " \n")) {
        if (read_board_word(w, &b)) continue;
        if (read_command(w, &c[commands])) commands += commands < RUN_MOST;
        else if (sscanf(w, "places=%zu", &places) == 1 || sscanf(w, "fill=%llx", &fill) == 1) continue;
        else if (sscanf(w, "room=%zu", &room) != 1) sscanf(w, "at=%zu", &at);
    }
    from_board(&b, &v);
    if (call == RUN) {
        try_run(&v, &b, c, commands, places <= ROW_MOST ? places : ROW_MOST, fill);
        printf("agreed: run of %zu commands, %zu places\n", commands, places);
        return;
    }
    uint8_t number = call == APPLY ? try_apply(&v, &b, c, &after) : try_write(&v, &b, room <= ROOM ? room : ROOM, at);
    printf("agreed: %s gives %u\n", call_name[call], number);
}

static void replay_file(enum call call, char *words)
{
    static uint8_t file[BUFFER];
    static struct opened o;
    static struct command c;
    unsigned x = 0, y = 0;
    size_t len = 0, room = 0;
    for (char *w = strtok(words, " \n"); w != NULL; w = strtok(NULL, " \n")) {
        if (strncmp(w, "file=", 5) == 0)
            for (w += 5; len < BUFFER && w[0] != 0 && w[1] != 0; w += 2)
                file[len++] = strtoul((char[]){w[0], w[1], 0}, NULL, 16);
        else if (read_command(w, &c)) continue;
        else if (sscanf(w, "x=%u", &x) != 1 && sscanf(w, "y=%u", &y) != 1) sscanf(w, "room=%zu", &room);
    }
    open_file(&o, file, len);
    if (call == COMMAND) try_command(&o, &c, room <= ROOM ? room : ROOM);
    else if (call == READ) try_read(&o);
    else try_question(&o, call, x, y);
    printf("agreed: %s, file number %u\n", call_name[call], o.number);
}

int replay(const char *name)
{
    static char line[3 * BUFFER];
    FILE *from = strcmp(name, "-") == 0 ? stdin : fopen(name, "r");
    int cases = 0;
    if (from == NULL) {
        perror(name);
        return 2;
    }
    while (fgets(line, sizeof line, from) != NULL) {
        char *word = strstr(line, "replay: ");
        if (word == NULL) continue;
        word += strlen("replay: ");
        for (int call = 0; call < CALL_COUNT; call++) {
            size_t len = strlen(call_name[call]);
            if (strncmp(word, call_name[call], len) != 0 || strchr(" \n", word[len]) == NULL) continue;
            if (call == FOUND) try_found(), printf("agreed: found\n");
            else if (call >= START) replay_job(call, word + len);
            else if (on_board(call)) replay_board(call, word + len);
            else replay_file(call, word + len);
            cases++;
        }
    }
    if (from != stdin) fclose(from);
    printf("%d cases replayed, 0 disagreements\n", cases);
    return cases > 0 ? 0 : 2;
}
