/* Runs the model against the subject until enough commands and files have been tried.
 *
 *   compare --sample | --full [--seed N] [--no-examples]
 *   compare --history N [--seed N]   one of the job list's histories alone
 *   compare --replay FILE        the line that a disagreement printed
 *   compare --examples
 *
 * Status 0: all agreed, every class filled. 1: a disagreement. 3: agreed, but a class is not filled. */
#include "compare.h"
#include <stdio.h>
#include <stdlib.h>
#include <string.h>

struct size {
    long commands, files, histories, least; /* least: of every class */
};
static const struct size sample = {12000, 4200, 60, 8}, full = {1000000, 300000, 1200, 1000};

/* ---- commands on boards */

static struct view here, after;
static struct board board;

static void start(void)
{
    look(&here);
    keep(&here);
    to_board(&here, &board);
}

static int role_count(const struct model *m)
{
    int n = 0;
    for (int x = 0; x < ROLES; x++) n += m->live[x];
    return n;
}

static int edge_count(const struct model *m)
{
    int n = 0;
    for (int x = 0; x < ROLES; x++)
        for (int y = 0; y < ROLES; y++) n += m->kind[x][y] != 0;
    return n;
}

/* One command after another on the same board. */
static void run_commands(int count)
{
    struct command c;
    for (int k = 0; k < count; k++) {
        draw_command(&here, &c);
        if (role_count(&here.board) == ROLES) tally.full_roles++;
        if (edge_count(&here.board) == EDGES) tally.full_edges++;
        if (try_apply(&here, &board, &c, &after) != 0) continue;
        here = after;
        to_board(&here, &board);
    }
}

/* Adds roles only, so that the board grows by commands to the size wanted; most get what rights their makers may use. */
static void grow(int roles)
{
    struct command c;
    for (int k = 0; k < 20 * roles && role_count(&here.board) < roles; k++) {
        do draw_command(&here, &c);
        while (c.code != ADD_ROLE);
        if (try_apply(&here, &board, &c, &after) != 0) continue;
        here = after;
        to_board(&here, &board);
        if (chance(40)) continue;
        c.code = GIVE_RIGHTS, c.rights = 0;
        for (int right = 1; right <= RIGHTS; right++) c.rights |= may_use(&here, c.actor, right) << (right - 1);
        if (try_apply(&here, &board, &c, &after) != 0) continue;
        here = after;
        to_board(&here, &board);
    }
}

static void grown_boards(void)
{
    found(&here.board);
    start();
    grow(chance(95) ? 3 + below(10) : chance(90) ? 13 + below(20) : ROLES);
    run_commands(60);
}

static void drawn_boards(void)
{
    draw_sound(&here, chance(90) ? 9 : 20);
    start();
    run_commands(12);
}

/* One unsound board of a round is kept for its runs, made in another way each time. */
static struct view spoilt;

static void keep_spoilt(void)
{
    static int boards;
    if (boards++ % (UNSOUND_WAYS + WRONG_WAYS + RIGHTS_WAYS - 3) == 0) spoilt = here;
}

/* The board in hand, made to give 1 whatever is asked of it. */
static void refused_board(const char *way)
{
    static uint8_t whole[FILE_MAX];
    struct command c;
    size_t room, at;
    draw_command(&here, &c);
    if (chance(30)) c.code = below(9);
    uint8_t number = try_apply(&here, &board, &c, &after);
    if (number != 1) disagree("%s: made to be unsound, and both give %u", way, number);
    choose_place(below(PLACES), put_file(&here.board, whole), &room, &at);
    number = try_write(&here, &board, room, at);
    if (number != 1) disagree("%s: made to be unsound, and both give %u", way, number);
    keep_spoilt();
}

static void unsound_boards(void)
{
    for (int way = 0; way < UNSOUND_WAYS; way++) {
        if (!draw_unsound(way, &here, &board)) continue;
        refused_board(unsound_way[way]);
        tally.unsound[way][0]++;
        tally.unsound[way][1] += right_values(&here);
    }
    for (int way = 0; way < WRONG_WAYS; way++) {
        if (!draw_wrong(way, &here, &board)) continue;
        refused_board(wrong_way[way]);
        tally.wrong[way]++;
    }
    for (int way = 0; way < RIGHTS_WAYS; way++) {
        if (!draw_bad_rights(way, &here, &board)) continue;
        refused_board(rights_way[way]);
        tally.bad_rights[way]++;
    }
}

/* The board in hand to every place: what is wrong with the board comes first. */
static void write_everywhere(bool is_sound)
{
    static uint8_t whole[FILE_MAX];
    size_t len = put_file(&here.board, whole), room, at;
    for (int place = 0; place < PLACES; place++) {
        uint8_t want = !is_sound ? 1 : places[place].fits ? 0 : 12;
        choose_place(place, len, &room, &at);
        uint8_t number = try_write(&here, &board, room, at);
        if (number != want) disagree("%s: made to give %u, and both give %u", places[place].name, want, number);
        tally.place[place][!is_sound ? 0 : founders_alone(&here.board) ? 1 : 2]++;
    }
}

static void written_boards(void)
{
    try_found();
    draw_sound(&here, chance(90) ? 12 : 40);
    if (chance(40)) hh_rights(&here.board);
    start();
    write_everywhere(true);
    switch (below(3)) {
    case 0:
        if (!draw_unsound(below(UNSOUND_WAYS), &here, &board)) return;
        break;
    case 1:
        if (!draw_wrong(below(WRONG_WAYS), &here, &board)) return;
        break;
    default:
        if (!draw_bad_rights(below(RIGHTS_WAYS), &here, &board)) return;
    }
    write_everywhere(false);
}

/* ---- files */

static struct opened opened;
static uint8_t file[BUFFER];

/* Mostly a role of the board, at times one that isn't live or is no role. */
static uint32_t some_role(void)
{
    int r = below(ROLES);
    if (chance(6)) return chance(50) ? ROLES : ROLES + below(256 - ROLES);
    if (chance(10)) return r;
    for (int k = 0; k < ROLES && !opened.view.board.live[r]; k++) r = (r + 1) % ROLES;
    return chance(20) ? wide(r) : (uint32_t)r;
}

/* Long enough, exactly so, one byte short, nothing, or any. */
static size_t some_room(const struct command *c)
{
    static uint8_t out[ROOM];
    if (chance(60)) return chance(90) ? 1000 : ROOM;
    if (chance(15)) return 0;
    if (chance(20)) return below(HR_MOST + 20);
    uint64_t answer = answer_command(&opened, c, out, ROOM);
    if (BOARD_NUMBER(answer) != 0) return below(200);
    if (chance(50)) return BOARD_VALUE(answer);
    tally.room_short++;
    return BOARD_VALUE(answer) - 1;
}

static void ask_some(int commands, int questions)
{
    struct command c;
    try_question(&opened, CHECK, 0, 0);
    try_read(&opened);
    for (int k = 0; k < questions; k++) {
        enum call call = DERIVES + below(STRETCH - DERIVES + 1);
        uint32_t x = some_role(), y = chance(5) ? x : some_role();
        try_question(&opened, call, x, y);
    }
    for (int k = 0; k < commands; k++) {
        draw_command(&opened.view, &c);
        if (opened.number != 0 && chance(80)) c.code = below(9); /* the file's refusal comes first, whatever the code */
        try_command(&opened, &c, some_room(&c));
    }
}

static void ask_everything(void)
{
    const bool *live = opened.view.board.live;
    for (int x = 0; x <= ROLES; x++) {
        for (int call = MANAGER; call <= STRETCH; call++) try_question(&opened, call, x, 0);
        for (int y = 0; y < ROLES && x < ROLES && live[x]; y++) {
            if (!live[y]) continue;
            try_question(&opened, DERIVES, x, y);
            try_question(&opened, SCOPE, x, y);
        }
    }
}

/* Most that a command can meet it meets on a good file; but the model takes long on a large one. */
static int commands_for(int damage, size_t len)
{
    if (damage == AS_WRITTEN) return len < 150 ? 6 : 4;
    return opened.number == 7 || opened.number == 9 ? 2 : 1;
}

static bool try_file(int damage, struct view *v)
{
    size_t len = make_file(damage, v, file);
    if (len == 0 && damage != EMPTY) return false;
    open_file(&opened, file, len);
    bool hr = damage != EMPTY && !founders_alone(&v->board), by_mark = ends_with(file, len, "HR");
    tally.files++;
    tally.damage[damage][hr][opened.number]++;
    for (int k = 0; k < 4; k++)
        if (len == (size_t)(k < 2 ? HH_MOST : HR_MOST) + k % 2) tally.file_of[by_mark][k]++;
    if (len == HH_MOST && !by_mark && opened.number == 7) tally.many_edges++;
    ask_some(commands_for(damage, len), 2);
    if (damages[damage].number != ANY_NUMBER && opened.number != damages[damage].number) {
        try_question(&opened, CHECK, 0, 0);
        disagree("%s: made to give %u, and both give %u", damages[damage].name, damages[damage].number, opened.number);
    }
    return true;
}

static void files_of_a_board(long round)
{
    static struct view v;
    for (int damage = 0; damage < damage_count; damage++) {
        if (damages[damage].long_file && (round + damage) % 2 == 0) continue;
        for (int k = 0; k < 4; k++) { /* not every board can be damaged so */
            draw_sound(&v, chance(95) ? 10 : 40);
            if (try_file(damage, &v)) break;
        }
    }
    for (int k = 0; k < 8; k++) {
        draw_sound(&v, 12);
        if (try_file(AS_WRITTEN, &v) && chance(5)) ask_everything();
    }
}

/* ---- what chance alone seldom meets */

static void try_both(const struct command *c)
{
    try_apply(&here, &board, c, &after);
    open_file(&opened, file, make_file(AS_WRITTEN, &here, file));
    try_command(&opened, c, ROOM);
}

static int some_lack(void) { return ONE_ABOVE + below(SOURCES - ONE_ABOVE); }

/* Not every actor has a role that it only reaches, or one aside, so these come up more often. */
static int some_source(void)
{
    static const uint8_t sources[] = {ITS_OWN,     OF_ONE_DERIVED, ONE_ABOVE, ONE_REACHED, ONE_REACHED,
                                      ONE_REACHED, ONE_ASIDE,      ONE_ASIDE, NOBODY};
    return sources[below(sizeof sources)];
}

/* The command, and again by an actor that may not give it. */
static void try_both_ways(const struct command *c)
{
    struct model was = here.board;
    try_both(c);
    if (!place_rights(&here, c, some_lack())) place_rights(&here, c, NOBODY);
    to_board(&here, &board);
    try_both(c);
    here.board = was;
    to_board(&here, &board);
}

static void start_with_rights(void)
{
    if (chance(80)) all_rights(&here.board);
    start();
}

/* What is dear to draw is kept with its board, and given again in a run. */
struct kept {
    struct model on;
    struct command command[16];
    int count;
};
static struct kept tied, chained, forked, crossed, outside, unmanaging[CODES];

static void keep_board(struct kept *k) { k->on = here.board, k->count = 0; }
static void keep_command(struct kept *k, const struct command *c) { k->command[k->count++] = *c; }

static void rare_refusals(void)
{
    struct command c;
    draw_tied(&here);
    start_with_rights();
    keep_board(&tied);
    draw_refused(&here, ADD_ROLE, 9, &c), try_both_ways(&c), keep_command(&tied, &c);
    draw_refused(&here, ADD_EDGE, 9, &c), try_both_ways(&c), keep_command(&tied, &c);
    draw_part_refused(&here, ADD_EDGE, 9, &c), try_both(&c), keep_command(&tied, &c);
    draw_refused(&here, CHANGE_EDGE, 9, &c), try_both_ways(&c), keep_command(&tied, &c);
    open_file(&opened, file, make_file(AS_WRITTEN, &here, file));
    for (int k = 0; k < 10; k++) {
        uint32_t a = some_role(), r = some_role();
        try_question(&opened, SCOPE, a, r);
    }
    draw_chained(&here);
    start_with_rights();
    keep_board(&chained);
    draw_refused(&here, ADD_ROLE, 7, &c), try_both_ways(&c), keep_command(&chained, &c);
    if (draw_hidden_loop(&here, &c)) try_both(&c), keep_command(&chained, &c);
    draw_forked(&here);
    start_with_rights();
    keep_board(&forked);
    draw_part_refused(&here, REMOVE_EDGE, 9, &c), try_both(&c), keep_command(&forked, &c);
    draw_refused(&here, CHANGE_EDGE, 9, &c), try_both(&c), keep_command(&forked, &c);
}

/* A role that offends wherever a command can name one, by every cause, and more than one at once. */
static void offending_roles(void)
{
    static const uint8_t codes[] = {1, 1, 1, 1, 1, 1, 2, 2, 3, 3, 4, 4, 4, 5, 5, 5, 6, 6, 7, 7};
    struct command c;
    if (chance(80)) draw_crossed(&here);
    else draw_sound(&here, 12);
    start_with_rights();
    open_file(&opened, file, make_file(AS_WRITTEN, &here, file));
    keep_board(&crossed);
    for (size_t k = 0; k < sizeof codes; k++) {
        draw_offence(&here, codes[k], &c);
        if (c.code == ADD_ROLE && chance(10)) c.role = c.actor; /* 4 comes first */
        if (k % 2 == 0) keep_command(&crossed, &c);
        try_apply(&here, &board, &c, &after);
        try_command(&opened, &c, ROOM);
        if (c.code != ADD_ROLE) try_question(&opened, SCOPE, c.actor, c.role);
    }
}

/* Every number of every code, and the rights that the command asks for put where it counts who has them. */
static void whose_rights(void)
{
    struct command c;
    for (int code = ADD_ROLE; code <= TAKE_RIGHTS; code++)
        for (int number = 0; number < 10; number++) {
            if (number == 1 || !can_give(code, number)) continue;
            if (number == 7 || chance(15)) draw_chained(&here);
            else if (number == 9 || chance(30)) draw_tied(&here);
            else draw_crossed(&here);
            all_rights(&here.board);
            start();
            struct kept *kept = number == 9 ? &unmanaging[code] : &outside;
            if (number > 7) keep_board(kept);
            int source = number == 9 ? some_lack() : some_source();
            for (int tries = number == 9 ? 1 : 4; tries > 0; tries--) { /* not every actor has such a role */
                if (number == 6) draw_offence(&here, code, &c);
                else draw_refused(&here, code, number < 6 ? 0 : number, &c);
                if (place_rights(&here, &c, source)) break;
                if (tries == 1) place_rights(&here, &c, NOBODY);
            }
            if (number > 7) keep_command(kept, &c);
            if (number > 1 && number < 6) draw_spoilt(&here, number, &c);
            to_board(&here, &board);
            try_both(&c);
        }
}

static uint32_t some_rights(void) { return 1 + below(ALL_RIGHTS); }

/* Two bytes, not 0, of which the first has the second and more, where there is more. */
static void rights_within(uint32_t *all, uint32_t *part)
{
    *all = some_rights();
    *part = *all & some_rights();
    if (*part == 0 || *part == *all) *part = *all & -*all;
}

/* What 6 and 7 do at the actor itself, which is in its own scope: the last right of a board goes, and rights of roles that
 * it derives become its own. Then a byte that is none. */
static void rights_of_its_own(void)
{
    struct command c;
    uint32_t all, part, x = 0, y = 0;
    draw_sound(&here, 10);
    for (int k = 0; k < 60; k++) {
        uint32_t a = chance(30) ? 0 : below(ROLES), d = below(ROLES);
        if (here.board.live[a] && here.derives[a][d]) x = a, y = d;
        if (x != y) break;
    }
    rights_within(&all, &part);
    for (int k = 0; k < 6; k++) {
        static const uint32_t code[] = {TAKE_RIGHTS, GIVE_RIGHTS, GIVE_RIGHTS, TAKE_RIGHTS, GIVE_RIGHTS, TAKE_RIGHTS};
        draw_command(&here, &c);
        memset(here.board.rights, 0, sizeof here.board.rights);
        here.board.rights[k == 0 ? x : y] = all;
        if (k == 1 || k == 3) here.board.rights[x] |= part;
        start();
        c.code = code[k], c.actor = c.role = x, c.rights = all;
        if (k == 0 && chance(30)) c.actor = 0;
        if (k >= 4) c.rights = chance(30) ? ALL_RIGHTS + 1 : chance(50) ? all | 32 << below(3) : wide(all);
        try_both(&c);
    }
}

/* One right more or less than HH means, and then gone, or back; and one given where HH is the file. */
static void nearly_hh(void)
{
    struct command c;
    draw_sound(&here, 10);
    for (int k = 0; k < 3; k++) {
        uint32_t x = 0;
        nearly_hh_rights(&here.board);
        start();
        while (x < ROLES - 1 && here.board.rights[x] == (x == 0 ? ALL_RIGHTS : 0)) x++;
        draw_command(&here, &c);
        c.code = x == 0 ? GIVE_RIGHTS : TAKE_RIGHTS, c.actor = c.role = x;
        c.rights = x == 0 ? ALL_RIGHTS & ~here.board.rights[0] : here.board.rights[x];
        if (chance(20)) c.rights = ALL_RIGHTS;
        if (chance(10)) c.actor = 0;
        try_both(&c);
    }
    hh_rights(&here.board);
    start();
    draw_refused(&here, GIVE_RIGHTS, 0, &c), try_both(&c);
}

/* ---- runs */

static struct command in_run[RUN_MOST];

/* A run for the board in hand: those kept, and others, each drawn on the board that the run has come to. The more often one is
 * drawn while it is refused, the more are done. */
static void draw_run(const struct kept *from, int n, int draws)
{
    static struct view boards[2];
    const struct view *at = &here;
    int given = 0, count = from != NULL ? from->count : 0, percent = chance(70) ? 95 : 50;
    for (int k = 0; k < n; k++) {
        struct view *next = &boards[at == &boards[0]];
        bool again = k > 0 && chance(8), kept = !again && given < count && chance(percent), done = false;
        if (again) in_run[k] = in_run[k - 1];
        if (kept) in_run[k] = from->command[given++];
        for (int tries = again || kept ? 1 : draws; tries > 0 && !done; tries--) {
            if (!again && !kept) draw_command(at, &in_run[k]);
            done = step_on_sound(at, &in_run[k], next) == 0;
        }
        if (done) at = next;
    }
}

static const uint64_t *try_row(int n, int places) { return try_run(&here, &board, in_run, n, places, draw64()); }

/* With a row too short, in one way or in each, and with one that is long enough. */
static void try_rows(int n)
{
    int way = n < 30 ? below(3) : 3;
    if (n > 0 && (way == 0 || way == 3 || n == 1)) try_row(n, 0);
    if (n > 1 && (way == 1 || way == 3 || n == 2)) try_row(n, n - 1);
    if (n > 2 && (way == 2 || way == 3)) try_row(n, 1 + below(n - 2));
    int over = chance(40) ? 0 : chance(40) ? 1 : 2 + below(ROW_MOST - RUN_MOST - 1);
    try_row(n, n + over);
}

/* All that is kept, mostly, and at most so many more. */
static void run_on(const struct kept *k, int more)
{
    int n = k->count + below(more + 1);
    here.board = k->on;
    start();
    draw_run(k, n, 1);
    try_rows(n);
}

/* Every command is answered 1, but where the row is too short. */
static void run_on_unsound(void)
{
    int n = chance(30) ? 0 : 1 + below(6);
    here = spoilt;
    to_board(&here, &board);
    for (int k = 0; k < n; k++) {
        draw_command(&here, &in_run[k]);
        if (chance(30)) in_run[k].code = below(9);
    }
    if (n > 0) try_row(n, below(n));
    tally.trait[n > 0 ? SHORT_ON_UNSOUND : NONE_ON_UNSOUND]++;
    const uint64_t *answers = try_row(n, n + below(3));
    for (int k = 0; k < n; k++)
        if (answers[k] != 1) disagree("made to be unsound, and both answer %#llx", (unsigned long long)answers[k]);
}

/* Two commands: the model takes long on such a board. */
static void run_on_largest(void)
{
    if (chance(50)) draw_tree(&here, ROLES);
    else draw_full(&here, chance(50));
    start();
    draw_run(NULL, 2, 1);
    try_rows(2);
}

/* Every class of lengths comes up often enough; the longest are dear. */
static int some_length(long round)
{
    if (round % 5 == 0) return RUN_MOST;
    if (round % 5 == 2) return 30 + below(30);
    return chance(4) ? 60 + below(RUN_MOST - 60) : 2 + below(10);
}

/* By the other chance: all else is drawn as if there were no runs. */
static void runs(long round)
{
    other_drawing();
    run_on(&tied, 4);
    run_on(&chained, 4);
    run_on(&forked, 4);
    run_on(&crossed, 6);
    run_on(&outside, 2);
    run_on(&unmanaging[ADD_ROLE], 2);
    run_on(&unmanaging[REMOVE_ROLE], 2);
    run_on(&unmanaging[CHANGE_EDGE], 2);
    for (int k = 0; k < 2; k++) run_on_unsound();
    draw_sound(&here, 9);
    if (chance(70)) all_rights(&here.board);
    start();
    int few = chance(65) ? below(2) : 2 + below(3);
    draw_run(NULL, few, 4);
    try_rows(few);
    found(&here.board);
    start();
    int many = some_length(round);
    draw_run(NULL, many, 1);
    try_rows(many);
    if (round % 8 == 1) run_on_largest();
    other_drawing();
}

/* ---- all that is largest */

static void largest_boards(void)
{
    static struct view v;
    struct command c;
    switch (below(4)) {
    case 0: draw_tree(&here, ROLES); break;
    case 1: draw_tree(&here, ROLES - 1); break; /* one role is free */
    default: draw_full(&here, chance(50));
    }
    if (chance(50)) hh_rights(&here.board);
    v = here;
    start();
    try_write(&here, &board, HR_MOST + below(20), below(10));
    run_commands(6);
    v = chance(50) ? v : here;
    try_file(AS_WRITTEN, &v);
    draw_command(&opened.view, &c);
    try_command(&opened, &c, (founders_alone(&opened.view.board) ? HH_MOST : HR_MOST) - below(2));
}

/* A chain: role 0 is 63 steps away. */
static void deepest_board(void)
{
    static struct view v;
    found(&v.board);
    for (int x = 1; x < ROLES; x++) {
        v.board.live[x] = true;
        v.board.kind[x - 1][x] = 1 + below(3);
    }
    draw_rights(&v.board);
    look(&v);
    try_file(AS_WRITTEN, &v);
    for (int x = 0; x <= ROLES; x++) {
        try_question(&opened, STEPS, x, 0);
        try_question(&opened, MANAGER, x, 0);
        try_question(&opened, STRETCH, x, 0);
    }
}

/* ---- the run */

static int run(const struct size *size, uint64_t seed)
{
    seed_with(seed);
    for (long round = 0; tally.commands < size->commands || tally.files < size->files; round++) {
        grown_boards();
        for (int k = 0; k < 5; k++) drawn_boards();
        unsound_boards();
        written_boards();
        files_of_a_board(round);
        rare_refusals();
        offending_roles();
        whose_rights();
        rights_of_its_own();
        nearly_hh();
        runs(round);
        if (round % 2 == 0) largest_boards();
        if (round == 0) deepest_board();
    }
    for (long number = 0; number < size->histories; number++) history(seed, number);
    int wanting = print_tally(size->least);
    printf("\nseed %llu: %ld commands, %ld more in runs, %ld files, %ld claims and releases in %ld histories, %ld calls in all, "
           "0 disagreements, %d classes wanting\n",
           (unsigned long long)seed, tally.commands, tally.in_runs, tally.files, tally.events, tally.histories, tally.calls,
           wanting);
    return wanting == 0 ? 0 : 3;
}

static int one_history(uint64_t seed, long number)
{
    history(seed, number);
    printf("agreed: history %ld of seed %llu, %ld claims and releases\n", number, (unsigned long long)seed, tally.events);
    return 0;
}

static int examples(void)
{
    struct calls model = CALLS(model), subject = CALLS_OF(SUBJECT);
    int wrong = wrong_examples("model", &model);
    if (!join_associates()) printf("the join table depends on how a path is bracketed\n"), wrong++;
    if (wrong == 0) wrong = wrong_examples(SUBJECT_NAME, &subject);
    if (wrong == 0) printf("the scope document's examples: right in the model and in the " SUBJECT_NAME "\n");
    return wrong == 0 ? 0 : 1;
}

int main(int argc, char **argv)
{
    const struct size *size = NULL;
    bool with_examples = true;
    uint64_t seed = 1;
    long number = -1;
    setvbuf(stdout, NULL, _IOLBF, 0);
    watch_for_crashes();
    for (int k = 1; k < argc; k++) {
        if (strcmp(argv[k], "--sample") == 0) size = &sample;
        else if (strcmp(argv[k], "--full") == 0) size = &full;
        else if (strcmp(argv[k], "--no-examples") == 0) with_examples = false;
        else if (strcmp(argv[k], "--seed") == 0 && k + 1 < argc) seed = strtoull(argv[++k], NULL, 10);
        else if (strcmp(argv[k], "--history") == 0 && k + 1 < argc) number = strtol(argv[++k], NULL, 10);
        else if (strcmp(argv[k], "--replay") == 0 && k + 1 < argc) return replay(argv[k + 1]);
        else if (strcmp(argv[k], "--examples") == 0) return examples();
        else size = NULL, k = argc;
    }
    if (size == NULL && number >= 0) return one_history(seed, number);
    if (size == NULL) {
        fprintf(stderr, "usage: compare --sample | --full [--seed N] [--no-examples] | --history N [--seed N] | --replay FILE | "
                        "--examples\n");
        return 2;
    }
    printf("the model against the " SUBJECT_NAME ", seed %llu\n", (unsigned long long)seed);
    if (with_examples && examples() != 0) return 1;
    return run(size, seed);
}
