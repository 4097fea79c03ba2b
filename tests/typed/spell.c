/* A command in words, in any spelling that is right, and lines that are passed over. */
#include "typed.h"
#include <stdio.h>
#include <stdlib.h>
#include <string.h>

const char *const spelling_name[SPELLINGS] = {
    "more blanks", "tabs", "return at the end", "return between", "blanks before", "blanks behind", "zeros before", "zeros, to 400 digits",
    "zeros, to 20,000 digits", "zeros in a set", "sets in another order", "members in another order", "a member twice", "a list of thousands",
    "all", "all five by name", "rights in another order", "a right twice"};
const char *const passed_name[PASSED] = {"empty", "blanks only", "comment", "comment behind blanks", "command as comment", "comment of any bytes"};
uint32_t spelt;

void put_byte(struct word *w, uint8_t byte)
{
    if (w->len == WORD_MOST) fprintf(stderr, "typed: a word has grown too long\n"), exit(2);
    w->byte[w->len++] = byte;
}

void put_text(struct word *w, const char *text)
{
    while (*text) put_byte(w, *text++);
}

/* ---- words */

static void mark(enum spelling s) { spelt |= 1u << s; }

static struct word *new_word(struct words *w)
{
    struct word *next = &w->word[w->n++];
    next->len = 0;
    return next;
}

static void spell_role(struct word *w, uint32_t role, bool in_set, bool long_ones)
{
    int zeros = chance(85) ? 0 : chance(90) ? 1 + below(4) : 5 + below(394);
    if (long_ones && !in_set) zeros = chance(50) ? below(20000) : zeros;
    if (zeros > 0) mark(in_set ? ZEROS_IN_SET : ZEROS);
    if (zeros > 300) mark(zeros > 400 ? ZEROS_TO_20000 : ZEROS_TO_400);
    for (; zeros > 0; zeros--) put_byte(w, '0');
    char digits[12];
    sprintf(digits, "%u", role);
    put_text(w, digits);
}

static void turn_round(int *item, int n)
{
    for (int k = n - 1; k > 0; k--) {
        int other = below(k + 1), was = item[k];
        item[k] = item[other], item[other] = was;
    }
}

/* The members of a set in some order, some of them twice; how many. Marks what was done. */
static int order_members(uint64_t set, int *member, bool thousands, enum spelling turned, enum spelling twice)
{
    int n = 0;
    for (int x = 0; x < ROLES; x++)
        if (in(set, x)) member[n++] = x;
    int single = n, more = thousands ? 1000 + below(500) : chance(15) ? 1 + below(3) : 0;
    for (; more > 0; more--) member[n++] = member[below(single)];
    if (n > single) mark(twice), mark(thousands ? LONG_LIST : twice);
    if (chance(50)) turn_round(member, n);
    for (int k = 1; k < n; k++)
        if (member[k] < member[k - 1]) mark(turned);
    return n;
}

static void spell_set(struct words *w, uint64_t set, bool long_ones)
{
    static int member[ROLES + 1600];
    struct word *list = new_word(w);
    int n = order_members(set, member, long_ones && chance(30), MEMBERS_TURNED, MEMBER_TWICE);
    for (int k = 0; k < n; k++) {
        if (k > 0) put_byte(list, ',');
        if (n > ROLES) put_byte(list, '0' + member[k] / 10), put_byte(list, '0' + member[k] % 10); /* short, since so many */
        else spell_role(list, member[k], true, long_ones);
    }
}

static void spell_sets(struct words *w, const struct command *c, bool long_ones)
{
    const uint64_t set[4] = {c->a_seniors, c->i_seniors, c->a_juniors, c->i_juniors};
    int order[4] = {0, 1, 2, 3}, last = -1;
    if (chance(60)) turn_round(order, 4);
    for (int k = 0; k < 4; k++) {
        if (set[order[k]] == 0) continue;
        if (order[k] < last) mark(SETS_TURNED);
        last = order[k];
        put_text(new_word(w), set_name[order[k]]);
        spell_set(w, set[order[k]], long_ones);
    }
}

static void spell_rights(struct words *w, uint32_t rights, bool long_ones)
{
    static int right[RIGHTS + 1600];
    struct word *list = new_word(w);
    if (rights == ALL_RIGHTS && chance(60)) {
        mark(ALL);
        put_text(list, "all");
        return;
    }
    if (rights == ALL_RIGHTS) mark(ALL_BY_NAMES);
    int n = order_members(rights, right, long_ones && chance(50), RIGHTS_TURNED, RIGHT_TWICE);
    for (int k = 0; k < n; k++) {
        if (k > 0) put_byte(list, ',');
        put_text(list, command_name[right[k] + 1]);
    }
}

void spell(const struct command *c, struct words *w, bool long_ones)
{
    w->n = 0;
    spelt = 0;
    spell_role(new_word(w), c->actor, false, false);
    put_text(new_word(w), command_name[c->code]);
    spell_role(new_word(w), c->role, false, long_ones);
    if (c->code == ADD_ROLE) spell_sets(w, c, long_ones);
    if (on_rights(c)) spell_rights(w, c->rights, long_ones);
    if (on_edge(c)) {
        spell_role(new_word(w), c->junior, false, false);
        put_text(new_word(w), kind_name[c->kind]);
    }
}

/* ---- lines */

static void put_blanks(struct word *line, int n)
{
    for (; n > 0; n--) put_byte(line, chance(70) ? ' ' : '\t');
}

static void put_between(struct word *line)
{
    if (chance(75)) {
        put_byte(line, ' ');
        return;
    }
    int n = 1 + below(4);
    if (n > 1) mark(MORE_BLANKS);
    for (; n > 0; n--) {
        uint8_t byte = chance(50) ? ' ' : chance(80) ? '\t' : '\r';
        if (byte == '\t') mark(TABS);
        if (byte == '\r') mark(RETURN_BETWEEN);
        put_byte(line, byte);
    }
}

void glue(const struct words *w, struct word *line)
{
    line->len = 0;
    if (chance(10)) mark(BLANKS_BEFORE), put_blanks(line, 1 + below(5));
    for (int k = 0; k < w->n; k++) {
        if (k > 0) put_between(line);
        for (size_t i = 0; i < w->word[k].len; i++) put_byte(line, w->word[k].byte[i]);
    }
    if (chance(10)) mark(BLANKS_BEHIND), put_blanks(line, 1 + below(5));
    if (chance(20)) mark(RETURN_AT_END), put_byte(line, '\r');
}

enum passed draw_passed(const struct words *command, struct word *line)
{
    enum passed p = below(PASSED);
    line->len = 0;
    switch (p) {
    case EMPTY_LINE: return p;
    case BLANK_LINE:
        put_blanks(line, below(5));
        put_byte(line, chance(50) ? '\r' : ' ');
        return p;
    case COMMENT: put_text(line, chance(50) ? "# this evening" : "#"); return p;
    case COMMENT_BEHIND_BLANKS:
        put_blanks(line, 1 + below(5));
        put_text(line, "## found");
        return p;
    case COMMENTED_COMMAND:
        put_text(line, chance(50) ? "#" : "# ");
        for (int k = 0; k < command->n; k++) {
            for (size_t i = 0; i < command->word[k].len; i++) put_byte(line, command->word[k].byte[i]);
            put_byte(line, ' ');
        }
        return p;
    default:
        put_byte(line, '#');
        for (int n = below(60); n > 0; n--) {
            uint8_t byte = below(256);
            if (byte != '\n') put_byte(line, byte);
        }
        return COMMENT_OF_BYTES;
    }
}
