/* typed -s SEED -t TEXTS -a SINGLE -l LEAST [-f] -w FOLDER -b BOARDS -- WORDS..
 *
 * Draws TEXTS texts of many lines and SINGLE commands as arguments, has the program (WORDS start it) answer them, and compares each
 * answer and the file afterwards with the model. Status 1 where something disagrees, 3 where a class was met fewer than LEAST times. */
#include "typed.h"
#include <stdio.h>
#include <stdlib.h>
#include <string.h>
#include <unistd.h>

enum { ARGUMENTS_BYTES = 3500 }; /* fewer than the program has room for */

static const char *boards;
static struct view here, next;
static struct words words;
static struct word line;

/* ---- boards */

static bool large(const struct view *v)
{
    int edges = 0;
    for (int x = 0; x < ROLES; x++)
        for (int y = 0; y < ROLES; y++) edges += v->board.kind[x][y] != 0;
    return edges > 150;
}

static bool can_be_said(const struct command *c)
{
    if (c->code < ADD_ROLE || c->code > TAKE_RIGHTS || c->actor >= ROLES || c->role >= ROLES) return false;
    if (on_rights(c)) return c->rights >= 1 && c->rights <= ALL_RIGHTS;
    return !on_edge(c) || (c->junior < ROLES && c->kind >= 1 && c->kind <= 3);
}

static int since_drawn;

/* Some command, or one that the model gives a number for: each is to come up for each command. A 9 is likeliest before the knots of a
 * drawn board are undone. */
static void draw_sayable(struct command *c)
{
    static const int numbers[] = {0, 3, 4, 5, 6, 6, 7, 8, 9, 9, 13, 13};
    bool any = large(&here) || chance(40), early = since_drawn++ < 6 && chance(60);
    do {
        int code = 1 + below(7), number = early ? 9 : numbers[below(12)];
        if (any || chance(10)) draw_command(&here, c);
        else if (number == 6) draw_offence(&here, code, c);
        else if (number >= 3 && number <= 5) {
            draw_refused(&here, code, 0, c);
            draw_spoilt(&here, number, c);
        } else draw_refused(&here, code, number, c);
    } while (!can_be_said(c));
}

static void some_commands(int n)
{
    struct command c;
    for (; n > 0; n--) {
        draw_command(&here, &c);
        if (can_be_said(&c) && step_on_sound(&here, &c, &next) == 0) here = next;
    }
}

static void from_file(const char *name)
{
    static uint8_t file[FILE_MAX];
    char path[4200];
    snprintf(path, sizeof path, "%s/%s.board", boards, name);
    size_t len = get_bytes(path, file, sizeof file);
    if (read_file(file, len, &here) != 0) fprintf(stderr, "typed: the model refuses %s\n", path), exit(2);
}

static void draw_board(void)
{
    static const char *const names[] = {"founding", "cooperative", "l", "p", "w", "chain", "full", "longest"};
    static long drawn;
    int way = below(100);
    if (++drawn % 120 == 60) from_file(names[6 + below(2)]);
    else if (way < 30) {
        found(&here.board);
        look(&here);
        some_commands(10 + below(60));
    } else if (way < 42) {
        from_file(names[below(chance(4) ? 8 : 6)]);
        some_commands(below(large(&here) ? 3 : 20));
    } else if (way < 60) draw_sound(&here, chance(90) ? 9 : 20);
    else if (way < 78) draw_tied(&here);
    else if (way < 86) draw_chained(&here);
    else if (way < 92) draw_forked(&here);
    else draw_crossed(&here);
    given.file_len = put_file(&here.board, given.file);
    since_drawn = 0;
}

/* ---- lines */

static bool same_change(const struct command *a, const struct command *b)
{
    if (a->code != b->code || a->actor != b->actor || a->role != b->role) return false;
    if (on_edge(a)) return a->junior == b->junior && a->kind == b->kind;
    if (on_rights(a)) return a->rights == b->rights;
    return a->code != ADD_ROLE ||
           (a->a_seniors == b->a_seniors && a->i_seniors == b->i_seniors && a->a_juniors == b->a_juniors && a->i_juniors == b->i_juniors);
}

/* The reading is held to what was meant, so that it isn't wrong in the program's own way. */
static void hold_reading(bool right)
{
    if (right) return;
    printf("typed: the reading itself is wrong on: ");
    print_escaped(line.byte, line.len);
    exit(2);
}

static void expect(enum way way, const struct reading *r, long number)
{
    struct answer a;
    if (r->is == PASSED_OVER) return;
    answer_reading(&here, r, &next, &a);
    count_line(way, r, &a, &here);
    count_shown(r);
    if (way == BY_INPUT) given.wanted_len += sprintf(given.wanted + given.wanted_len, "%ld: ", number);
    given.wanted_len += sprintf(given.wanted + given.wanted_len, "%s\n", a.words);
    if (a.number == 0) here = next, given.done = true;
}

static enum spoilt draw_spoiling(enum way way, const struct command *c)
{
    enum spoilt s;
    do s = below(SPOILT);
    while (!can_be_met(way, s) || !spoil(s, c, &words));
    return s;
}

/* The next line, in `line`, without its end; false where it would make the text too long. */
static bool draw_line(long number)
{
    struct command c;
    enum spoilt s = SPOILT;
    enum passed p = PASSED;
    draw_sayable(&c);
    spell(&c, &words, chance(1));
    if (chance(8)) p = draw_passed(&words, &line);
    else {
        if (chance(40)) s = draw_spoiling(BY_INPUT, &c);
        glue(&words, &line);
    }
    if (given.text_len + line.len + 1 > INPUT_MOST) return false;
    struct reading r = read_line(line.byte, line.len, true);
    if (p < PASSED) hold_reading(r.is == PASSED_OVER), count_passed(p);
    else if (s < SPOILT) hold_reading(r.is == WRONG || !surely_wrong(s)), count_spoilt(BY_INPUT, s, &r);
    else hold_reading(r.is == A_CHANGE && same_change(&r.command, &c)), count_spelt(BY_INPUT);
    expect(BY_INPUT, &r, number);
    return true;
}

static void append(const void *bytes, size_t len)
{
    memcpy(given.text + given.text_len, bytes, len);
    given.text_len += len;
}

/* Lines of a byte or two up to the last byte that may be typed: their numbers grow to five digits. */
static void short_lines(void)
{
    static const char *const lines[] = {"0", "#", "", "x", "64", "7", "\r", "0 0", ","};
    for (long number = 1; given.text_len + 4 <= INPUT_MOST; number++) {
        const char *short_line = lines[below(9)];
        struct reading r = read_line((const uint8_t *)short_line, strlen(short_line), true);
        expect(BY_INPUT, &r, number);
        append(short_line, strlen(short_line));
        append("\n", 1);
    }
    count_text(SHORT_LINES);
}

static void pad_to(size_t len)
{
    uint8_t pad = chance(50) ? '\n' : ' ';
    if (given.text_len > 0 && given.text[given.text_len - 1] != '\n') append("\n", 1);
    while (given.text_len < len) given.text[given.text_len++] = pad;
}

static void count_file(void)
{
    bool hr = given.file_len > 0 && given.file[given.file_len - 1] == 'R', hr_after = !founders_alone(&here.board);
    count_text(given.done ? SOMETHING_DONE : NOTHING_DONE);
    count_text(hr ? hr_after ? HR_STAYS : HR_TO_HH : hr_after ? HH_TO_HR : HH_STAYS);
}

static void one_text(long turn)
{
    draw_board();
    struct view first = here;
    given.text_len = given.wanted_len = 0, given.done = false;
    int lines = large(&here) ? 8 : chance(10) ? 1 + below(3) : chance(90) ? 20 + below(70) : 200;
    bool end = true, short_ones = turn % 40 == 10, over = turn % 50 == 45;
    if (large(&here)) count_text(ON_A_LARGE_BOARD);
    counting = !short_ones && !over;
    if (short_ones) short_lines();
    else
        for (long number = 1; number <= lines && end && draw_line(number); number++) {
            append(line.byte, line.len);
            end = number < lines || chance(60);
            if (end) append("\n", 1);
        }
    if (turn % 50 == 20) pad_to(INPUT_MOST), count_text(OF_60000);
    else if (over) {
        pad_to(INPUT_MOST + 1 + (chance(50) ? 0 : below(15000)));
        given.wanted_len = sprintf(given.wanted, "refused 2: the input has more than 60000 bytes; nothing of it was tried\n");
        here = first, given.done = false;
        count_text(OVER_60000);
    } else count_text(end ? PLAIN_TEXT : NO_LINE_END);
    counting = true;
    count_file();
    give_and_compare(&here.board, NULL);
}

/* ---- one command as arguments */

static bool can_be_argument(const struct word *w)
{
    for (size_t k = 0; k < w->len; k++)
        if (memchr(" \t\r", w->byte[k], 4)) return false; /* and byte 0 */
    return w->len > 0;
}

static void one_command(void)
{
    static char space[ARGUMENTS_BYTES + WORDS_MOST];
    char *with[WORDS_MOST + 1];
    struct command c;
    enum spoilt s = SPOILT;
    draw_board();
    if (chance(60)) since_drawn = 6; /* or most would be meant to give 9 */
    draw_sayable(&c);
    spell(&c, &words, chance(3));
    if (chance(50)) s = draw_spoiling(BY_WORDS, &c);
    size_t len = 0, used = 0;
    for (int k = 0; k < words.n; k++) len += words.word[k].len + 1;
    for (int k = 0; k < words.n; k++)
        if (!can_be_argument(&words.word[k]) || len > ARGUMENTS_BYTES) return;
    line.len = 0;
    for (int k = 0; k < words.n; k++) {
        struct word *w = &words.word[k];
        with[k] = memcpy(space + used, w->byte, w->len);
        space[used + w->len] = 0;
        used += w->len + 1;
        if (k > 0) put_byte(&line, ' ');
        for (size_t i = 0; i < w->len; i++) put_byte(&line, w->byte[i]);
    }
    with[words.n] = NULL;
    if (words.n == 0 || (words.n == 1 && strcmp(with[0], "found") == 0)) return;
    struct reading r = read_line(line.byte, line.len, false);
    if (s < SPOILT) hold_reading(r.is == WRONG || !surely_wrong(s)), count_spoilt(BY_WORDS, s, &r);
    else hold_reading(r.is == A_CHANGE && same_change(&r.command, &c)), count_spelt(BY_WORDS);
    given.text_len = given.wanted_len = 0, given.done = false;
    append(line.byte, line.len); /* to be printed; the program gets the words */
    expect(BY_WORDS, &r, 0);
    give_and_compare(&here.board, with);
}

int main(int argc, char **argv)
{
    long texts = 1, single = 1, least = 1;
    bool full = false;
    for (int o; (o = getopt(argc, argv, "s:t:a:l:fw:b:")) != -1;) {
        if (o == 's') seed = strtoull(optarg, NULL, 10);
        else if (o == 't') texts = atol(optarg);
        else if (o == 'a') single = atol(optarg);
        else if (o == 'l') least = atol(optarg);
        else if (o == 'f') full = true;
        else if (o == 'w') snprintf(work, sizeof work, "%s", optarg);
        else if (o == 'b') boards = optarg;
        else return 2;
    }
    launch = argv + optind;
    if (!*launch || !*work || !boards) return 2;
    begin();
    seed_with(seed);
    for (long k = 0; k < texts; k++) one_text(k);
    for (long k = 0; k < single; k++) one_command();
    int wanting = print_counts(least, full);
    printf("typed: %ld texts and %ld single commands, no disagreement%s\n", texts, single, wanting ? ", but not all classes were met" : "");
    return wanting ? 3 : 0;
}
