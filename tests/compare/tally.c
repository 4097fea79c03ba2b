/* What the run has met, and whether that was enough. */
#include "compare.h"
#include <stdio.h>
#include <string.h>

struct tally tally;

static long enough;
static int wanting;

static void need(long count, const char *what, const char *of)
{
    if (count >= enough) return;
    printf("NOT FILLED: %s, %s: %ld of %ld\n", what, of, count, enough);
    wanting++;
}

static void never(long count, const char *what, const char *of)
{
    if (count == 0) return;
    printf("CAN'T BE: %s, %s: %ld\n", what, of, count);
    wanting++;
}

/* Which refusals but 13 a command of each code can meet once its board is sound; 0 is any code outside 1 to 7. */
static const char *const numbers[CODES] = {"2",           "0 2 3 4 6 7 8 9", "0 2 3 6 9", "0 2 3 4 6 7 9",
                                           "0 2 3 5 6 9", "0 2 3 5 6 9",     "0 2 3 6",   "0 2 3 6"};

bool can_give(int code, int number)
{
    char digit[2] = {'0' + number, 0};
    return number == 13 ? code > 0 : number < 10 && strstr(numbers[code], digit) != NULL;
}

static void heading(const char *what, const char *const columns[], int count)
{
    printf("%-36s", what);
    for (int k = 0; k < count; k++) printf("%8s", columns[k]);
    printf("\n");
}

static const char *const code_name[CODES] = {"code outside 1 to 7", "1 add role",    "2 remove role", "3 add edge",
                                             "4 remove edge",       "5 change edge", "6 give rights", "7 take rights"};

static void commands(void)
{
    static const char *const columns[] = {"0", "1", "2", "3", "4", "5", "13", "6", "7", "8", "9"};
    static const char *const more[] = {"0",  "2", "3", "4",   "5",  "13", "6",  "7",
                                       "8",  "9", "w12", "f7", "f9", "f10", "f11"};
    static const int in_order[] = {0, 1, 2, 3, 4, 5, 13, 6, 7, 8, 9}, in_file[] = {7, 9, 10, 11};
    char what[60];

    heading("board_apply", columns, 11);
    for (int code = 0; code < CODES; code++) {
        printf("%-36s", code_name[code]);
        for (int k = 0; k < 11; k++) printf("%8ld", tally.apply[code][in_order[k]]);
        printf("\n");
    }
    heading("board_command (w writing, f file)", more, 15);
    for (int code = 0; code < CODES; code++) {
        printf("%-36s", code_name[code]);
        for (int k = 0; k < 11; k++)
            if (in_order[k] != 1) printf("%8ld", tally.command[code][ASKED][in_order[k]]);
        printf("%8ld", tally.command[code][IN_WRITING][12]);
        for (int k = 0; k < 4; k++) printf("%8ld", tally.command[code][IN_FILE][in_file[k]]);
        printf("\n");
    }
    for (int code = 0; code < CODES; code++) {
        for (int n = 0; n < NUMBERS; n++) {
            sprintf(what, "code %d gives %d", code, n);
            if (n == 1 || can_give(code, n)) need(tally.apply[code][n], "board_apply", what);
            else never(tally.apply[code][n], "board_apply", what);
            if (can_give(code, n)) need(tally.command[code][ASKED][n], "board_command", what);
            else never(tally.command[code][ASKED][n], "board_command", what);
            if (n == 12 && can_give(code, 0)) need(tally.command[code][IN_WRITING][n], "board_command", what);
            else never(tally.command[code][IN_WRITING][n], "board_command, writing", what);
        }
        for (int k = 0; k < 4 && code > 0; k++) {
            sprintf(what, "code %d, file gives %d", code, in_file[k]);
            need(tally.command[code][IN_FILE][in_file[k]], "board_command", what);
        }
    }
}

/* Of each command in a run, and of the run itself. */
static void runs(void)
{
    static const char *const columns[] = {"0", "1", "2", "3", "4", "5", "13", "6", "7", "8", "9"};
    static const char *const rows[ROWS] = {"empty", "shorter", "1 short", "fits", "1 over", "longer"};
    static const char *const causes[] = {"1", "2", "3"};
    static const char *const length[LENGTHS] = {"no command", "1 command", "2 to 29 commands", "30 to 99 commands",
                                                "100 to 200 commands"};
    static const char *const trait[TRAITS] = {
        "of 200 commands", "the first refused", "the last refused", "one done right after a refused one",
        "the same again, another answer", "by a role that is new in the run", "all done", "all refused",
        "on a board that isn't sound", "of no command on such a board", "row too short on such a board"};
    static const int in_order[] = {0, 1, 2, 3, 4, 5, 13, 6, 7, 8, 9};
    char what[40];
    heading("board_run, each command", columns, 11);
    for (int code = 0; code < CODES; code++) {
        printf("%-36s", code_name[code]);
        for (int k = 0; k < 11; k++) printf("%8ld", tally.run[code][in_order[k]]);
        printf("\n");
        for (int n = 0; n < NUMBERS; n++) {
            sprintf(what, "code %d gives %d", code, n);
            if (n == 1 || can_give(code, n)) need(tally.run[code][n], "in a run", what);
            else never(tally.run[code][n], "in a run", what);
        }
    }
    heading("cause of a 6 in a run", causes, 3);
    printf("%-36s%8ld%8ld%8ld\n", call_name[RUN], tally.run_cause[1], tally.run_cause[2], tally.run_cause[3]);
    for (int k = 1; k < 4; k++) need(tally.run_cause[k], "cause of a 6 in a run", causes[k - 1]);
    heading("runs, and their rows", rows, ROWS);
    long fits[ROWS] = {0};
    for (int n = 0; n < LENGTHS; n++) {
        long enough_room = 0;
        printf("%-36s", length[n]);
        for (int k = 0; k < ROWS; k++) printf("%8ld", tally.rows[n][k]);
        printf("\n");
        for (int k = 0; k < ROWS; k++)
            if (k >= ROW_FITS) fits[k] += tally.rows[n][k], enough_room += tally.rows[n][k];
            else if (n > ONE_COMMAND || (n == ONE_COMMAND && k == ROW_EMPTY)) need(tally.rows[n][k], length[n], rows[k]);
            else never(tally.rows[n][k], length[n], rows[k]);
        need(enough_room, length[n], "with room for the answers");
    }
    for (int k = ROW_FITS; k < ROWS; k++) need(fits[k], "run, row", rows[k]);
    printf("runs\n");
    for (int k = 0; k < TRAITS; k++) {
        printf("%-36s%8ld\n", trait[k], tally.trait[k]);
        need(tally.trait[k], "run", trait[k]);
    }
}

/* What an edge command names and what stands there, from apply and from command each. */
static void parts(void)
{
    static const char *const kind[] = {"none", "I", "A", "IA"}, *const range[] = {"0", "to 255", "above"};
    static const char *const columns[] = {"none", "I", "A", "IA", "c none", "c I", "c A", "c IA"};
    char what[40], of[40];
    heading("kind named, standing (c command)", columns, 8);
    for (int row = 0; row < 9; row++) {
        int code = row / 3, named = 1 + row % 3;
        sprintf(what, "%s, %s", code_name[ADD_EDGE + code], kind[named]);
        printf("%-36s", what);
        for (int k = 0; k < 8; k++) printf("%8ld", tally.parts[k / 4][code][named][k % 4]);
        printf("\n");
        for (int k = 0; k < 8; k++) {
            sprintf(of, "where %s stands, %s", kind[k % 4], call_name[k / 4]);
            need(tally.parts[k / 4][code][named][k % 4], what, of);
        }
    }
    heading("kind out of range, so 2", range, 3);
    for (int code = 0; code < 3; code++) {
        const long *count = tally.kind_range[code];
        printf("%-36s%8ld%8ld%8ld\n", code_name[ADD_EDGE + code], count[0], count[1], count[2]);
        for (int k = 0; k < 3; k++) {
            sprintf(of, "kind %s, so 2", range[k]);
            need(count[k], code_name[ADD_EDGE + code], of);
        }
    }
}

/* ---- why a role is out of scope */

static const char *const named_name[NAMED] = {"role",      "target",    "senior",    "junior",
                                              "A-seniors", "I-seniors", "A-juniors", "I-juniors"};

static bool can_name(int code, int named)
{
    if (code == ADD_ROLE) return named >= A_SENIORS;
    if (code >= GIVE_RIGHTS) return named == THE_TARGET;
    return code == REMOVE_ROLE ? named == THE_REMOVED : named == THE_SENIOR || named == THE_JUNIOR;
}

static bool is_strict(int named) { return named == THE_REMOVED || named == A_JUNIORS || named == I_JUNIORS; }

static void causes(void)
{
    static const char *const columns[] = {"1", "2", "3", "c 1", "c 2", "c 3"};
    char what[40], of[40];
    heading("cause of a 6 (c command)", columns, 6);
    for (int row = 0; row < (CODES - 1) * NAMED; row++) {
        int code = 1 + row / NAMED, named = row % NAMED;
        if (!can_name(code, named)) continue;
        sprintf(what, "%s, %s", code_name[code], named_name[named]);
        printf("%-36s", what);
        for (int k = 0; k < 6; k++) printf("%8ld", tally.cause[k / 3][code][named][1 + k % 3]);
        printf("\n");
        for (int k = 0; k < 6; k++) {
            long count = tally.cause[k / 3][code][named][1 + k % 3];
            sprintf(of, "cause %d, %s", 1 + k % 3, call_name[k / 3]);
            if (k % 3 < 2 || is_strict(named)) need(count, what, of);
            else never(count, what, of);
        }
    }
}

/* Which of two that offend is named shows the order. */
static void orders(void)
{
    static const char *const columns[] = {"junior", "A-sen", "I-sen", "A-jun", "I-jun"};
    char what[40], of[40];
    heading("first to offend, and another too", columns, NAMED - THE_JUNIOR);
    for (int row = 0; row < 2 * NAMED; row++) {
        int call = row / NAMED, named = row % NAMED;
        if (named == THE_REMOVED || named == THE_TARGET || named == THE_JUNIOR) continue; /* where nothing follows */
        sprintf(what, "%s, %s", call_name[call], named_name[named]);
        printf("%-36s", what);
        for (int k = THE_JUNIOR; k < NAMED; k++) printf("%8ld", tally.beside[call][named][k]);
        printf("\n");
        for (int k = THE_JUNIOR; k < NAMED; k++) {
            sprintf(of, "and another among its %s", named_name[k]);
            if (named == THE_SENIOR ? k == THE_JUNIOR : k >= named) need(tally.beside[call][named][k], what, of);
            else never(tally.beside[call][named][k], what, of);
        }
    }
    printf("actor named there, another offends\n");
    for (int row = 0; row < 2 * NAMED; row++) {
        int call = row / NAMED, named = row % NAMED;
        if (named != THE_SENIOR && named != A_SENIORS && named != I_SENIORS) continue;
        sprintf(what, "%s, %s", call_name[call], named_name[named]);
        printf("%-36s%8ld\n", what, tally.actor_named[call][named]);
        need(tally.actor_named[call][named], what, "the actor, and another offends");
    }
}

static void roles_in_the_way(void)
{
    static const char *const way[WAYS] = {"role 0", "lowest of several", "behind one that derives the actor",
                                          "behind one that the actor derives", "behind one that doesn't derive it",
                                          "behind one that isn't live"};
    static const char *const columns[] = {"apply", "command", "scope"}, *const answers[] = {"yes", "no, 1", "no, 2"};
    static const enum call calls[] = {APPLY, COMMAND, SCOPE};
    heading("role in the way", columns, 3);
    for (int k = 0; k < WAYS; k++) {
        printf("%-36s", way[k]);
        for (int c = 0; c < 3; c++) printf("%8ld", tally.way[calls[c]][k]);
        printf("\n");
        for (int c = 0; c < 3; c++) need(tally.way[calls[c]][k], columns[c], way[k]);
    }
    heading("scope, by cause", answers, 3);
    printf("%-36s", call_name[SCOPE]);
    for (int k = 0; k < 3; k++) printf("%8ld", tally.scope[k]);
    printf("\n");
    for (int k = 0; k < 3; k++) need(tally.scope[k], call_name[SCOPE], answers[k]);
    never(tally.scope[ITSELF], call_name[SCOPE], "no, 3");
}

static void unnamed(void)
{
    static const char *const columns[] = {"1", "2", "3", "4", "5", "13"};
    static const int number[] = {1, 2, 3, 4, 5, 13};
    char what[40];
    heading("a role offends, another number", columns, 6);
    for (int call = APPLY; call <= COMMAND; call++) {
        printf("%-36s", call_name[call]);
        for (int k = 0; k < 6; k++) printf("%8ld", tally.unnamed[call][number[k]]);
        printf("\n");
        for (int k = call == APPLY ? 0 : 1; k < 6; k++) {
            sprintf(what, "%d, though a role offends", number[k]);
            need(tally.unnamed[call][number[k]], call_name[call], what);
        }
    }
}

/* ---- rights */

/* Whose right it is that the actor may use, or may not; a role above, reached or aside has it where the actor has 13. */
static void sources(void)
{
    static const char *const columns[] = {"own", "derived", "above", "reached", "aside", "nobody"};
    char what[40], of[60];
    heading("whose right, and then 13 or not", columns, SOURCES);
    for (int row = 0; row < 2 * (CODES - 1); row++) {
        int call = row / (CODES - 1), code = 1 + row % (CODES - 1);
        sprintf(what, "%s, %s", call_name[call], code_name[code]);
        printf("%-36s", what);
        for (int k = 0; k < SOURCES; k++) printf("%8ld", tally.source[call][code][k]);
        printf("\n");
        for (int k = 0; k < SOURCES; k++) {
            sprintf(of, "the right of %s", source_name[k]);
            need(tally.source[call][code][k], what, of);
        }
    }
}

/* Where 13 stands among the numbers. */
static void beside_13(void)
{
    static const char *const columns[] = {"2", "3", "4", "5", "none", "6", "7", "8", "9"};
    static const int number[] = {2, 3, 4, 5, 0, 6, 7, 8, 9};
    char what[40], of[40];
    heading("13 holds too; 13, else this", columns, 9);
    for (int row = 0; row < 2 * (CODES - 1); row++) {
        int call = row / (CODES - 1), code = 1 + row % (CODES - 1);
        sprintf(what, "%s, %s", call_name[call], code_name[code]);
        printf("%-36s", what);
        for (int k = 0; k < 9; k++) {
            long count = (k < 4 ? tally.first : tally.later)[call][code][number[k]];
            printf("%8ld", count);
        }
        printf("\n");
        for (int k = 0; k < 9; k++) {
            long count = (k < 4 ? tally.first : tally.later)[call][code][number[k]];
            sprintf(of, k < 4 ? "%d, though 13 holds too" : "13, else %d", number[k]);
            if (can_give(code, number[k])) need(count, what, of);
            else never(count, what, of);
        }
    }
}

static void outcomes(void)
{
    static const char *const columns[] = {"byte 0", "nothing", "some", "all", "itself", "role 0", "last", "partly"};
    static const char *const outcome[OUTCOMES] = {
        "byte 0, done", "nothing changes", "some of the rights change", "all of them change", "the actor's own change",
        "role 0's change", "the last right goes", "13, some may be used"};
    static const char *const range[] = {"32", "to 255", "above"};
    char what[40];
    heading("6 and 7, done (partly: 13)", columns, OUTCOMES);
    for (int row = 0; row < 4; row++) {
        int call = row / 2, code = row % 2;
        sprintf(what, "%s, %s", call_name[call], code_name[GIVE_RIGHTS + code]);
        printf("%-36s", what);
        for (int k = 0; k < OUTCOMES; k++) printf("%8ld", tally.outcome[call][code][k]);
        printf("\n");
        for (int k = 0; k < OUTCOMES; k++)
            if (k == NONE_LEFT && code == 0) never(tally.outcome[call][code][k], what, outcome[k]);
            else need(tally.outcome[call][code][k], what, outcome[k]);
    }
    heading("rights byte out of range, so 2", range, 3);
    for (int row = 0; row < 4; row++) {
        int call = row / 2, code = row % 2;
        sprintf(what, "%s, %s", call_name[call], code_name[GIVE_RIGHTS + code]);
        printf("%-36s", what);
        for (int k = 0; k < 3; k++) printf("%8ld", tally.rights_range[call][code][k]);
        printf("\n");
        for (int k = 0; k < 3; k++) need(tally.rights_range[call][code][k], what, range[k]);
    }
}

/* Boards that give 1, from apply and from write each. */
static void unsound_boards(void)
{
    printf("%-36s%8s%14s\n", "unsound tables, all refused with 1", "all", "values right");
    for (int way = 0; way < UNSOUND_WAYS; way++) {
        printf("%-36s%8ld%14ld\n", unsound_way[way], tally.unsound[way][0], tally.unsound[way][1]);
        need(tally.unsound[way][0], "unsound board", unsound_way[way]);
        need(tally.unsound[way][1], "unsound board, stored values right", unsound_way[way]);
    }
    printf("wrong stored values, all refused with 1\n");
    for (int way = 0; way < WRONG_WAYS; way++) {
        printf("%-36s%8ld\n", wrong_way[way], tally.wrong[way]);
        need(tally.wrong[way], "wrong stored value", wrong_way[way]);
    }
    printf("bad rights, all refused with 1\n");
    for (int way = 0; way < RIGHTS_WAYS; way++) {
        printf("%-36s%8ld\n", rights_way[way], tally.bad_rights[way]);
        need(tally.bad_rights[way], "bad rights", rights_way[way]);
    }
}

static void reading_and_writing(void)
{
    static const char *const columns[] = {"0", "7", "9", "10", "11", "1", "12"};
    static const char *const boards[] = {"HH", "HR", "not sound"}, *const mark[] = {"HH", "HR"};
    static const char *const name[] = {"read, HH or no mark", "read, HR", "write"};
    static const int number[] = {0, 7, 9, 10, 11, 1, 12};
    char what[40];
    heading("board_read, board_write", columns, 7);
    for (int row = 0; row < 3; row++) {
        const long *count = row < 2 ? tally.read[row] : tally.write;
        printf("%-36s", name[row]);
        for (int k = 0; k < 7; k++) printf("%8ld", count[number[k]]);
        printf("\n");
        for (int k = 0; k < 7; k++) {
            sprintf(what, "%d", number[k]);
            if (k == 0 || (k < 5) == (row < 2)) need(count[number[k]], name[row], what);
            else never(count[number[k]], name[row], what);
        }
    }
    printf("%-36s%8ld\n", call_name[FOUND], tally.found);
    need(tally.found, call_name[FOUND], "0");
    heading("written, of boards", boards, 3);
    for (int place = 0; place < PLACES; place++) {
        const long *count = tally.place[place];
        printf("%-36s%8ld%8ld%8ld\n", places[place].name, count[1], count[2], count[0]);
        need(count[1], "a sound board written as HH", places[place].name);
        need(count[2], "a sound board written as HR", places[place].name);
        need(count[0], "a board that isn't sound written", places[place].name);
    }
    heading("command done, file before and after", mark, 2);
    for (int before = 0; before < 2; before++) {
        printf("%-36s%8ld%8ld\n", mark[before], tally.marks[before][0], tally.marks[before][1]);
        for (int k = 0; k < 2; k++) {
            sprintf(what, "a file that is then %s", mark[k]);
            need(tally.marks[before][k], mark[before], what);
        }
    }
    printf("%-36s%8ld%8ld\n", "stretch with bytes", tally.stretch[0], tally.stretch[1]);
    for (int k = 0; k < 2; k++) need(tally.stretch[k], "stretch with bytes", mark[k]);
}

static void questions(void)
{
    static const char *const columns[] = {"no/none", "yes/some", "2", "3", "f7", "f9", "f10", "f11"};
    static const int number[] = {2, 3, 7, 9, 10, 11};
    char what[20];
    heading("question (f file)", columns, 8);
    for (int call = CHECK; call <= STRETCH; call++) {
        printf("%-36s%8ld%8ld", call_name[call], tally.value[call][0], tally.value[call][1]);
        for (int k = 0; k < 6; k++) printf("%8ld", tally.question[call][k < 2 ? ASKED : IN_FILE][number[k]]);
        printf("\n");
    }
    for (int call = CHECK; call <= STRETCH; call++) {
        need(tally.value[call][0], call_name[call], "no, none or 0");
        if (call != CHECK) need(tally.value[call][1], call_name[call], "yes or some");
        for (int k = call == CHECK ? 2 : 0; k < 6; k++) {
            sprintf(what, "%d", number[k]);
            need(tally.question[call][k < 2 ? ASKED : IN_FILE][number[k]], call_name[call], what);
        }
    }
}

static void files(void)
{
    static const char *const columns[] = {"0", "7", "9", "10", "11", "r 0", "r 7", "r 9", "r 10", "r 11"};
    static const int number[] = {0, 7, 9, 10, 11};
    heading("board file (r: HR)", columns, 10);
    for (int d = 0; d < damage_count; d++) {
        printf("%-36s", damages[d].name);
        for (int k = 0; k < 10; k++) printf("%8ld", tally.damage[d][k / 5][number[k % 5]]);
        printf("\n");
    }
    for (int d = 0; d < damage_count; d++) {
        long all[2] = {0, 0};
        for (int k = 0; k < 10; k++) all[k / 5] += tally.damage[d][k / 5][number[k % 5]];
        if (damages[d].mark != ONLY_HR) need(all[0], "board file", damages[d].name);
        if (damages[d].mark != ONLY_HH) need(all[1], "board file HR", damages[d].name);
    }
}

static void sizes(void)
{
    struct {
        const char *what;
        long count;
    } line[] = {
        {"boards of 64 roles", tally.full_roles},
        {"boards of 2,016 edges", tally.full_edges},
        {"HH files of 6,118 bytes", tally.file_of[0][0]},
        {"HH files of 6,119 bytes", tally.file_of[0][1]},
        {"HH files of 6,184 bytes", tally.file_of[0][2]},
        {"HH files of 6,185 bytes", tally.file_of[0][3]},
        {"HR files of 6,118 bytes", tally.file_of[1][0]},
        {"HR files of 6,119 bytes", tally.file_of[1][1]},
        {"HR files of 6,184 bytes", tally.file_of[1][2]},
        {"HR files of 6,185 bytes", tally.file_of[1][3]},
        {"HH files of 2,017 edges", tally.many_edges},
        {"room for the file and no more", tally.room_exact},
        {"room short of one byte", tally.room_short},
        {"no room at all", tally.room_none},
        {"change to the same kind, done", tally.idle_change},
        {"loop, junior not deriving senior", tally.hidden_loop},
        {"out of scope, all seniors in it", tally.seniors_in_scope},
        {"9 for a part added to an edge", tally.part_added},
        {"9 for a part taken, edge stays", tally.part_taken},
        {"role removed that had rights", tally.removed_with_rights},
    };
    printf("edges of size, and slips\n");
    for (size_t k = 0; k < sizeof line / sizeof line[0]; k++) {
        printf("%-36s%8ld\n", line[k].what, line[k].count);
        need(line[k].count, "edge of size or slip", line[k].what);
    }
    printf("%-36s%8ld\n", "most steps to role 0", tally.most_steps);
    if (tally.most_steps < ROLES - 1) {
        printf("NOT FILLED: a walk of 63 steps\n");
        wanting++;
    }
}

/* Numbers above 255: cut to 8 bits they would be others. */
static void wide_numbers(void)
{
    static const char *const field[FIELDS] = {"code", "actor", "role", "junior", "kind", "rights"};
    static const char *const argument[] = {"first", "second"};
    char what[40];
    heading("above 255 in a command", field, FIELDS);
    for (int c = APPLY; c <= COMMAND; c++) {
        printf("%-8s%-28s", call_name[c], "used, so 2");
        for (int k = 0; k < FIELDS; k++) printf("%8ld", tally.wide_used[c][k]);
        printf("\n");
        for (int code = 1; code < CODES; code++) {
            printf("%-8snot used, done, %-12s", call_name[c], code_name[code]);
            for (int k = 0; k < FIELDS; k++) printf("%8ld", tally.wide_unused[c][code][k]);
            printf("\n");
        }
    }
    heading("above 255 in a question, so 2", argument, 2);
    for (int c = DERIVES; c <= STRETCH; c++)
        printf("%-36s%8ld%8ld\n", call_name[c], tally.wide_role[c][0], tally.wide_role[c][1]);
    for (int c = APPLY; c <= COMMAND; c++)
        for (int k = 0; k < FIELDS; k++) {
            sprintf(what, "%s above 255, so 2", field[k]);
            need(tally.wide_used[c][k], call_name[c], what);
            for (unsigned code = 1; code < CODES; code++) {
                const struct command of_code = {.code = code};
                sprintf(what, "%s above 255, code %u done", field[k], code);
                if (!uses_field(&of_code, k)) need(tally.wide_unused[c][code][k], call_name[c], what);
                else never(tally.wide_unused[c][code][k], call_name[c], what);
            }
        }
    for (int c = DERIVES; c <= STRETCH; c++)
        for (int k = 0; k < (c <= SCOPE ? 2 : 1); k++) {
            sprintf(what, "%s role above 255, so 2", argument[k]);
            need(tally.wide_role[c][k], call_name[c], what);
        }
}

/* ---- the job list */

static void starts(void)
{
    static const char *const start[STARTS] = {
        "no job", "1 job", "2 to 29 jobs", "30 to 1,023 jobs", "1,024 jobs", "1,025, so 2", "more, so 2",
        "above 65,535, so 2", "the first no role, so 2", "one between no role, so 2", "the last no role, so 2",
        "too many, and one no role"};
    printf("jobs_start\n");
    for (int k = 0; k < STARTS; k++) {
        printf("%-36s%8ld\n", start[k], tally.start[k]);
        need(tally.start[k], "jobs_start", start[k]);
    }
}

/* Which of the two calls can be met with each. */
static const struct {
    const char *name;
    bool claim, release;
} job_trait[JOB_TRAITS] = {
    [FIRST_1] = {"1, and another number holds", true, true},
    [ROLE_64] = {"2, role 64 alone", true, true},
    [ROLE_TO_255] = {"2, role up to 255 alone", true, true},
    [ROLE_WIDE] = {"2, role above 255 alone, live if cut", true, true},
    [JOB_BEHIND] = {"2, job below 1,024 alone", true, true},
    [JOB_1024] = {"2, job 1,024 alone", true, true},
    [JOB_ABOVE] = {"2, job up to 65,535 alone", true, true},
    [JOB_WIDE] = {"2, job above it alone, listed if cut", true, true},
    [JOB_FAR] = {"2, job of 2^31 or more alone", true, true},
    [BOTH_OUT] = {"2, role and job", true, true},
    [FIRST_2] = {"2, and 3 or 14 holds", true, true},
    [ROLE_DEAD] = {"3, role acted in", true, true},
    [JOB_DEAD] = {"3, the job's role", true, true},
    [BOTH_DEAD] = {"3, both", true, true},
    [FIRST_3] = {"3, and 14 holds", true, true},
    [ROLE_GONE] = {"3, the job's role was removed", true, true},
    [ROLE_BACK] = {"done, the job's role added again", true, true},
    [ONLY_14] = {"14, and 15 doesn't hold", true, true},
    [FIRST_14] = {"14, and 15 holds", true, true},
    [BY_0] = {"done, member 0", true, true},
    [BY_MOST] = {"done, member 4,294,967,295", true, true},
    [MARK_ABOVE_1] = {"held by a mark above 1", true, true},
    [HOLE_PAST] = {"2, a job between listed ones", true, true},
    [OWN_ROLE] = {"done, in the job's own role", true, false},
    [OUT_OF_SCOPE] = {"done, out of the role's scope", true, false},
    [OLD_MEMBER] = {"done, a number stood there", true, false},
    [BY_ITS_HOLDER] = {"14, by its holder, who may", true, false},
    [TURNED] = {"15, the job's role derives it", true, false},
    [ONLY_REACHED] = {"15, it only reaches the job's role", true, false},
    [ASIDE] = {"15, neither", true, false},
    [HOLDER_WITHIN] = {"done, holder, within scope", false, true},
    [HOLDER_OUTSIDE] = {"done, holder, outside it", false, true},
    [HOLDER_DEAD] = {"3, holder, in a role not live", false, true},
    [HOLDER_NO_ROLE] = {"2, holder, in no role", false, true},
    [OTHER_WITHIN] = {"done, another, within scope", false, true},
    [OTHER_ITSELF] = {"done, another, in the job's own role", false, true},
    [OTHER_BARRED] = {"15, another, only derives it", false, true},
    [OTHER_TURNED] = {"15, another, scope the other way", false, true},
    [OTHER_ASIDE] = {"15, another, neither derives", false, true},
    [OTHER_IF_CUT] = {"15, another, the holder if cut", false, true},
    [OPEN_BY_ITS_ROW] = {"14, open, by the number in its row", false, true},
};

static void jobs(void)
{
    static const char *const columns[] = {"0", "1", "2", "3", "14", "15"}, *const calls[] = {"claim", "release"};
    static const char *const look[LOOKS] = {
        "open", "held", "past the list, below 1,024", "1,024 and above", "above 65,535, listed if cut", "held by member 0",
        "held by member 4,294,967,295", "held by a mark above 1", "open, a member in its row"};
    static const char *const end[ENDS] = {"never claimed", "held", "open again", "claimed again", "claimed by another"};
    static const int number[] = {0, 1, 2, 3, 14, 15};
    char what[20];
    starts();
    heading("jobs_claim, jobs_release", columns, 6);
    for (int call = 0; call < 2; call++) {
        long others = 0;
        printf("%-36s", calls[call]);
        for (int k = 0; k < 6; k++) printf("%8ld", tally.event[call][number[k]]);
        printf("\n");
        for (int n = 0; n < JOB_NUMBERS; n++) others += tally.event[call][n];
        for (int k = 0; k < 6; k++) {
            sprintf(what, "%d", number[k]);
            need(tally.event[call][number[k]], calls[call], what);
            others -= tally.event[call][number[k]];
        }
        never(others, calls[call], "another number");
    }
    heading("what they were met with", calls, 2);
    for (int k = 0; k < JOB_TRAITS; k++) {
        const bool can[] = {job_trait[k].claim, job_trait[k].release};
        printf("%-36s%8ld%8ld\n", job_trait[k].name, tally.job_trait[0][k], tally.job_trait[1][k]);
        for (int call = 0; call < 2; call++)
            if (can[call]) need(tally.job_trait[call][k], calls[call], job_trait[k].name);
            else never(tally.job_trait[call][k], calls[call], job_trait[k].name);
    }
    printf("jobs_job\n");
    for (int k = 0; k < LOOKS; k++) {
        printf("%-36s%8ld\n", look[k], tally.look[k]);
        need(tally.look[k], "jobs_job", look[k]);
    }
    printf("a job at the end of a history\n");
    for (int k = 0; k < ENDS; k++) {
        printf("%-36s%8ld\n", end[k], tally.end[k]);
        need(tally.end[k], "a job at the end", end[k]);
    }
}

int print_tally(long least)
{
    enough = least;
    wanting = 0;
    printf("\n");
    commands();
    runs();
    parts();
    causes();
    orders();
    roles_in_the_way();
    unnamed();
    sources();
    beside_13();
    outcomes();
    unsound_boards();
    reading_and_writing();
    questions();
    wide_numbers();
    files();
    sizes();
    jobs();
    return wanting;
}
