/* What was met, and whether that was enough. */
#include "typed.h"
#include <stdio.h>
#include <string.h>

enum shown { AS_IT_IS, MARKED, OF_40, OF_41, CUT, CUT_AND_MARKED, WITH_HIGH_BYTES, SHOWINGS };
static const char *const shown_name[SHOWINGS] = {"as it is", "with ?", "of 40 bytes", "of 41 bytes", "cut", "cut, with ?", "with bytes above 127"};
static const char *const wanted_name[WANTED] = {"actor", "command", "role", "senior", "junior", "kind", "set name", "set", "rights", "end"};
static const char *const text_name[TEXTS] = {"with a last line end", "without", "of 60,000 bytes", "of more", "of short lines", "nothing done",
                                             "something done", "HH, and stays", "HH to HR", "HR to HH", "HR, and stays", "on a large board"};
static const char *const way_name[WAYS_IN] = {"by input", "by words"};
enum { NOT_LIVE_ACTOR, NOT_LIVE_ROLE, NOT_LIVE_JUNIOR, NOT_LIVE_MEMBER, NOT_LIVE };
static const char *const not_live_name[NOT_LIVE] = {"actor", "role or senior", "junior", "member of a set"};

static struct {
    long lines, number[WAYS_IN][CODES][NUMBERS];
    long cause[CODES][4], right[CODES][RIGHTS + 1], not_live[NOT_LIVE];
    long stands[4][4], lacks[4][4]; /* 4 and 5 of edges: kind named, kind standing */
    long wanted[WANTED][2];         /* wrong, missing */
    long spoilt[WAYS_IN][SPOILT], still[SPOILT], at[SPOILT][WANTED];
    long spelt[WAYS_IN][SPELLINGS], passed[PASSED], text[TEXTS], shown[SHOWINGS];
} met;
bool counting = true;

/* ---- counting */

static int not_live_of(const struct command *c, int role)
{
    if ((int)c->actor == role) return NOT_LIVE_ACTOR;
    if (c->code == ADD_ROLE) return NOT_LIVE_MEMBER;
    return (int)c->role == role ? NOT_LIVE_ROLE : NOT_LIVE_JUNIOR;
}

void count_line(enum way way, const struct reading *r, const struct answer *a, const struct view *before)
{
    const struct command *c = &r->command;
    if (!counting) return;
    met.lines++;
    met.number[way][c->code][a->number]++;
    if (a->number == 2) {
        met.wanted[r->wanted][r->missing]++;
        return;
    }
    uint8_t standing = on_edge(c) ? before->board.kind[c->role][c->junior] : 0;
    if (a->number == 3) met.not_live[not_live_of(c, a->role)]++;
    if (a->number == 4 && on_edge(c)) met.stands[c->kind][standing]++;
    if (a->number == 5 && c->code == REMOVE_EDGE) met.lacks[c->kind][standing]++;
    if (a->number == 6) met.cause[c->code][a->cause]++;
    if (a->number == 13) met.right[c->code][a->right]++;
}

void count_spoilt(enum way way, enum spoilt s, const struct reading *r)
{
    if (!counting) return;
    if (r->is == WRONG) met.spoilt[way][s]++, met.at[s][r->wanted]++;
    else met.still[s]++;
}

void count_spelt(enum way way)
{
    for (int k = 0; k < SPELLINGS && counting; k++) met.spelt[way][k] += in(spelt, k);
}

void count_passed(enum passed p) { met.passed[p] += counting; }
void count_text(enum text t) { met.text[t]++; }

void count_shown(const struct reading *r)
{
    bool marked = false, high = false, cut = r->len > SHOWN;
    if (!counting || r->is != WRONG || r->missing) return;
    for (size_t k = 0; k < r->len && k < SHOWN; k++) marked |= r->word[k] < 32 || r->word[k] == 127, high |= r->word[k] > 127;
    met.shown[cut ? marked ? CUT_AND_MARKED : CUT : marked ? MARKED : AS_IT_IS]++;
    if (high) met.shown[WITH_HIGH_BYTES]++;
    if (r->len == SHOWN) met.shown[OF_40]++;
    if (r->len == SHOWN + 1) met.shown[OF_41]++;
}

/* ---- whether it was enough */

static long enough;
static int wanting;

static void need(long count, long least, const char *what, const char *of)
{
    if (count >= least) return;
    printf("NOT FILLED: %s, %s: %ld of %ld\n", what, of, count, least);
    wanting++;
}

static void never(long count, const char *what, const char *of)
{
    if (count == 0) return;
    printf("CAN'T BE: %s, %s: %ld\n", what, of, count);
    wanting++;
}

/* By the law's table of refusals, once the board is sound and the line is a command; 2 is a wrong word behind the command's name. */
static bool can_be(int code, int number)
{
    static const char *const numbers[CODES] = {" 2 ",           " 0 2 3 4 6 7 8 9 13 ", " 0 2 3 6 9 13 ", " 0 2 3 4 6 7 9 13 ",
                                               " 0 2 3 5 6 9 13 ", " 0 2 3 5 6 9 13 ",  " 0 2 3 6 13 ",   " 0 2 3 6 13 "};
    char text[8];
    sprintf(text, " %d ", number);
    return strstr(numbers[code], text) != NULL;
}

static void print_numbers(enum way way, long least)
{
    static const int order[] = {0, 2, 3, 4, 5, 13, 6, 7, 8, 9};
    printf("%-26s", way_name[way]);
    for (int k = 0; k < 10; k++) printf("%8d", order[k]);
    for (int code = 0; code < CODES; code++) {
        printf("\n%-26s", code ? command_name[code] : "no command's name");
        for (int k = 0; k < 10; k++) printf("%8ld", met.number[way][code][order[k]]);
    }
    printf("\n");
    for (int code = 0; code < CODES; code++)
        for (int n = 0; n < NUMBERS; n++) {
            char what[64];
            sprintf(what, "%s %s, %d", code ? command_name[code] : "no name", way_name[way], n);
            if (can_be(code, n)) need(met.number[way][code][n], least, what, "answers");
            else never(met.number[way][code][n], what, "answers");
        }
}

static void print_row(const char *what, const char *const *name, const long *count, int n, long least)
{
    printf("%s:", what);
    for (int k = 0; k < n; k++) printf("%s %s %ld", k ? "," : "", name[k], count[k]);
    printf("\n");
    for (int k = 0; k < n; k++) need(count[k], least, what, name[k]);
}

static void print_reasons(void)
{
    char what[64];
    for (int code = 1; code < CODES; code++)
        for (int cause = 1; cause <= 3; cause++) {
            sprintf(what, "6 of %s, cause %d", command_name[code], cause);
            if (cause < ITSELF || code <= REMOVE_ROLE) need(met.cause[code][cause], enough, what, "answers");
            else never(met.cause[code][cause], what, "answers");
        }
    for (int code = 1; code < CODES; code++)
        for (int right = 1; right <= RIGHTS; right++) {
            sprintf(what, "13 of %s, right to %s", command_name[code], command_name[right]);
            if (code == right || code >= GIVE_RIGHTS) need(met.right[code][right], enough, what, "answers");
            else never(met.right[code][right], what, "answers");
        }
    for (int kind = 1; kind <= 3; kind++)
        for (int standing = 0; standing <= 3; standing++) {
            bool within = (kind & ~standing) == 0;
            sprintf(what, "kind %s where %s stands", kind_name[kind], standing ? kind_name[standing] : "none");
            if (within) need(met.stands[kind][standing], enough, "4", what), never(met.lacks[kind][standing], "5", what);
            else need(met.lacks[kind][standing], enough, "5 of remove-edge", what), never(met.stands[kind][standing], "4", what);
        }
    print_row("3, the lowest is", not_live_name, met.not_live, NOT_LIVE, enough);
}

static void print_wrong(long least)
{
    char what[80];
    printf("wrong words:");
    for (int k = 0; k < WANTED; k++) {
        printf("%s %s %ld + %ld missing", k ? "," : "", wanted_name[k], met.wanted[k][0], met.wanted[k][1]);
        sprintf(what, "wrong word for %s", wanted_name[k]);
        need(met.wanted[k][0], enough, what, "wrong");
        /* a set's name may be missing, nothing behind the end is, and on standard input no line lacks an actor */
        if (k == A_SET_NAME || k == THE_END || k == AN_ACTOR) never(met.wanted[k][1], what, "missing");
        else need(met.wanted[k][1], enough, what, "missing");
    }
    printf("\n");
    for (int s = 0; s < SPOILT; s++) {
        printf("    %-28s%8ld by input%8ld by words", spoilt_name[s], met.spoilt[BY_INPUT][s], met.spoilt[BY_WORDS][s]);
        if (met.still[s]) printf("%8ld still right", met.still[s]);
        printf("\n");
        if (can_be_met(BY_INPUT, s)) need(met.spoilt[BY_INPUT][s], enough, spoilt_name[s], way_name[BY_INPUT]);
        if (can_be_met(BY_WORDS, s)) need(met.spoilt[BY_WORDS][s], least, spoilt_name[s], way_name[BY_WORDS]);
    }
}

/* Each way to spoil a number, at each place where one stands. */
static void need_places(void)
{
    static const enum wanted place[] = {AN_ACTOR, A_ROLE, A_SENIOR, A_JUNIOR, A_SET};
    for (int s = 0; s < NUMBERS_END; s++)
        for (size_t k = 0; k < sizeof place / sizeof *place; k++) need(met.at[s][place[k]], enough, spoilt_name[s], wanted_name[place[k]]);
}

int print_counts(long least, bool full)
{
    enough = least;
    printf("%ld lines\n", met.lines);
    print_numbers(BY_INPUT, enough);
    print_numbers(BY_WORDS, full ? enough / 8 : 0);
    print_reasons();
    print_wrong(full ? enough / 8 : 0);
    if (full) need_places();
    print_row("spelt", spelling_name, met.spelt[BY_INPUT], SPELLINGS, enough);
    print_row("passed over", passed_name, met.passed, PASSED, enough);
    print_row("wrong words shown", shown_name, met.shown, SHOWINGS, enough);
    print_row("texts", text_name, met.text, TEXTS, full ? enough : 0);
    for (int k = 0; k < TEXTS; k++) need(met.text[k], k == HR_TO_HH ? 0 : 1, "texts", text_name[k]); /* that one is rare */
    return wanting;
}
