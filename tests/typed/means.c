/* What a line means, by the documents, and what the program ought to answer to it. */
#include "typed.h"
#include <stdio.h>
#include <stdlib.h>
#include <string.h>

const char *const command_name[8] = {"",            "add-role",    "remove-role", "add-edge",
                                     "remove-edge", "change-edge", "give-rights", "take-rights"};
const char *const kind_name[4] = {"", "I", "A", "IA"};
const char *const set_name[4] = {"a-seniors", "i-seniors", "a-juniors", "i-juniors"};

/* ---- words of a line */

struct piece {
    const uint8_t *at;
    size_t len;
};

static bool blank(uint8_t byte) { return byte == ' ' || byte == '\t' || byte == '\r'; }

/* The next word, and what lies behind it; len 0 where there is none. */
static struct piece next_word(struct piece *rest)
{
    while (rest->len > 0 && blank(*rest->at)) rest->at++, rest->len--;
    struct piece word = {rest->at, 0};
    while (word.len < rest->len && !blank(word.at[word.len])) word.len++;
    rest->at += word.len, rest->len -= word.len;
    return word;
}

static bool is(struct piece word, const char *name)
{
    return word.len == strlen(name) && memcmp(word.at, name, word.len) == 0;
}

static int look_up(struct piece word, const char *const *names, int from, int to)
{
    for (int k = from; k <= to; k++)
        if (is(word, names[k])) return k;
    return -1;
}

/* By what is written, not by a value that could run over: zeros, and then one digit, or two up to 63. */
static int role_of(struct piece word)
{
    if (word.len == 0) return -1;
    for (size_t k = 0; k < word.len; k++)
        if (!memchr("0123456789", word.at[k], 10)) return -1;
    while (word.len > 1 && *word.at == '0') word.at++, word.len--;
    if (word.len == 1) return *word.at - '0';
    if (word.len > 2) return -1;
    int value = (word.at[0] - '0') * 10 + word.at[1] - '0';
    return value < ROLES ? value : -1;
}

/* Each place of a list with commas between, to a number of 0 to 63; false where one of them is none. */
static bool list_of(struct piece word, int (*number_of)(struct piece), uint64_t *set)
{
    *set = 0;
    for (;;) {
        const uint8_t *comma = memchr(word.at, ',', word.len);
        struct piece place = {word.at, comma ? (size_t)(comma - word.at) : word.len};
        int number = number_of(place);
        if (number < 0) return false;
        *set |= 1ull << number;
        if (!comma) return true;
        word.at = comma + 1, word.len -= place.len + 1;
    }
}

static int right_of(struct piece word)
{
    int code = look_up(word, command_name, ADD_ROLE, CHANGE_EDGE);
    return code < 0 ? -1 : code - 1;
}

/* ---- a line */

struct state {
    struct piece rest;
    struct reading r;
};

/* The next word, to be what is wanted. Where there is none the line is wrong already. */
static bool take(struct state *s, enum wanted wanted, struct piece *word)
{
    *word = next_word(&s->rest);
    s->r.wanted = wanted, s->r.word = word->at, s->r.len = word->len, s->r.missing = word->len == 0;
    s->r.is = WRONG;
    return word->len > 0;
}

static bool take_role(struct state *s, enum wanted wanted, uint32_t *role)
{
    struct piece word;
    if (!take(s, wanted, &word)) return false;
    int value = role_of(word);
    if (value >= 0) *role = value;
    return value >= 0;
}

static bool take_sets(struct state *s)
{
    struct command *c = &s->r.command;
    uint64_t *const set[4] = {&c->a_seniors, &c->i_seniors, &c->a_juniors, &c->i_juniors};
    bool named[4] = {false, false, false, false};
    struct piece word;
    for (int sets = 0; sets < 4; sets++) {
        if (!take(s, A_SET_NAME, &word)) return true; /* the command may end here */
        int k = look_up(word, set_name, 0, 3);
        if (k < 0 || named[k]) return false;
        named[k] = true;
        if (!take(s, A_SET, &word) || !list_of(word, role_of, set[k])) return false;
    }
    return true;
}

static bool take_kind(struct state *s)
{
    struct piece word;
    int kind = take(s, A_KIND, &word) ? look_up(word, kind_name, 1, 3) : -1;
    if (kind > 0) s->r.command.kind = kind;
    return kind > 0;
}

static bool take_rights(struct state *s)
{
    struct piece word;
    uint64_t rights = ALL_RIGHTS;
    if (!take(s, SOME_RIGHTS, &word)) return false;
    if (!is(word, "all") && !list_of(word, right_of, &rights)) return false;
    s->r.command.rights = rights;
    return true;
}

static bool take_command(struct state *s)
{
    struct command *c = &s->r.command;
    struct piece word;
    if (!take_role(s, AN_ACTOR, &c->actor)) return false;
    if (!take(s, A_COMMAND, &word)) return false;
    int code = look_up(word, command_name, ADD_ROLE, TAKE_RIGHTS);
    if (code < 0) return false;
    c->code = code;
    if (!take_role(s, on_edge(c) ? A_SENIOR : A_ROLE, &c->role)) return false;
    if (code == ADD_ROLE && !take_sets(s)) return false;
    if (on_rights(c) && !take_rights(s)) return false;
    if (on_edge(c) && !(take_role(s, A_JUNIOR, &c->junior) && take_kind(s))) return false;
    return !take(s, THE_END, &word);
}

struct reading read_line(const uint8_t *line, size_t len, bool typed)
{
    struct state s = {.rest = {line, len}};
    struct piece look = s.rest, first = next_word(&look);
    if (typed && (first.len == 0 || *first.at == '#')) return (struct reading){.is = PASSED_OVER};
    if (take_command(&s)) s.r.is = A_CHANGE;
    return s.r;
}

/* ---- answers */

static const char *const should_be[WANTED] = {
    [AN_ACTOR] = "a role, 0 to 63",
    [A_COMMAND] = "add-role, remove-role, add-edge, remove-edge, change-edge, give-rights or take-rights",
    [A_ROLE] = "a role, 0 to 63",
    [A_SENIOR] = "a role, 0 to 63",
    [A_JUNIOR] = "a role, 0 to 63",
    [A_KIND] = "a kind: I, A or IA",
    [A_SET_NAME] = "a-seniors, i-seniors, a-juniors or i-juniors, each once",
    [A_SET] = "roles, 0 to 63, with commas and no blanks between: 1,2,5",
    [SOME_RIGHTS] = "all, or some of add-role,remove-role,add-edge,remove-edge,change-edge with commas and no blanks between",
};

/* Control characters can't forge a line, and a long word is cut. */
static void show(const uint8_t *word, size_t len, char *shown)
{
    size_t n = len > SHOWN ? SHOWN : len;
    for (size_t k = 0; k < n; k++) shown[k] = word[k] < 32 || word[k] > 126 ? '?' : (char)word[k];
    strcpy(shown + n, len > SHOWN ? ".." : "");
}

static int wrong_word(const struct reading *r, char *out)
{
    char shown[SHOWN + 3];
    show(r->word, r->len, shown);
    if (r->missing) return sprintf(out, "a word is missing at the end: it should be %s", should_be[r->wanted]);
    if (r->wanted == THE_END) return sprintf(out, "'%s' is too much: the command ends before it", shown);
    return sprintf(out, "'%s': it should be %s", shown, should_be[r->wanted]);
}

static bool must_exist(const struct command *c, uint32_t x)
{
    if (c->actor == x) return true;
    if (c->code == ADD_ROLE) return in(c->a_seniors | c->i_seniors | c->a_juniors | c->i_juniors, x);
    return c->role == x || (on_edge(c) && c->junior == x);
}

static int lowest_missing(const struct view *v, const struct command *c)
{
    int x = 0;
    while (v->board.live[x] || !must_exist(c, x)) x++;
    return x;
}

static int lowest_unmanaged(const struct view *after)
{
    for (int r = 1; r < ROLES; r++) {
        bool managed = !after->board.live[r];
        for (int a = 0; a < ROLES && !managed; a++) managed = administers(after, a, r);
        if (!managed) return r;
    }
    return NONE;
}

static int first_lacking(const struct view *v, const struct command *c)
{
    int right = 1;
    while (!asks_for(c, right) || may_use(v, c->actor, right)) right++;
    return right;
}

static int six(const struct view *v, const struct command *c, struct answer *a)
{
    struct offence o = first_offence(v, c);
    a->cause = o.why.cause;
    if (o.why.cause == ITSELF)
        return sprintf(a->words, "refused 6: role %d is not in the strict scope of role %u, which leaves out role %u itself", o.role, c->actor, c->actor);
    int n = sprintf(a->words, "refused 6: role %d is not in the scope of role %u, since ", o.role, c->actor);
    if (o.why.cause == NOT_DERIVED) return n + sprintf(a->words + n, "role %u doesn't derive it", c->actor);
    return n + sprintf(a->words + n, "role %d derives it and is unrelated to role %u", o.why.in_the_way, c->actor);
}

static int edge_words(const struct view *v, const struct command *c, char *out)
{
    uint8_t standing = v->board.kind[c->role][c->junior];
    if (c->code == ADD_EDGE) return sprintf(out, "the edge from role %u to role %u already has %s", c->role, c->junior, kind_name[c->kind]);
    if (standing == 0) return sprintf(out, "there is no edge from role %u to role %u", c->role, c->junior);
    return sprintf(out, "the edge from role %u to role %u has only %s", c->role, c->junior, kind_name[standing]);
}

static int eight(const struct view *after, const struct command *c, char *out)
{
    struct why w = why(after, c->actor, c->role, true);
    int n = sprintf(out, "the new role %u would not be in the strict scope of role %u, since ", c->role, c->actor);
    if (w.cause == NOT_DERIVED) return n + sprintf(out + n, "role %u would not derive it: name another senior", c->actor);
    return n + sprintf(out + n, "role %d would derive it and is unrelated to role %u", w.in_the_way, c->actor);
}

static int because(const struct view *v, const struct command *c, const struct view *after, struct answer *a, char *out)
{
    switch (a->number) {
    case 3: return sprintf(out, "role %d isn't live: no such role is on the board", a->role = lowest_missing(v, c));
    case 4:
        if (c->code == ADD_ROLE) return sprintf(out, "role %u is on the board already", c->role);
        return edge_words(v, c, out);
    case 5: return edge_words(v, c, out);
    case 13:
        a->right = first_lacking(v, c);
        return sprintf(out, "neither role %u nor a role that it derives holds the right to %s", c->actor, command_name[a->right]);
    case 7: /* the new edges all begin or end at this role, so it is on every loop */
        if (!after->reaches[c->role][c->role]) fprintf(stderr, "typed: the model has another loop\n"), exit(2);
        return sprintf(out, "role %u would reach itself: the edges would close a loop", c->role);
    case 8: return eight(after, c, out);
    case 9: return sprintf(out, "role %d would be left without an administrator", a->role = lowest_unmanaged(after));
    }
    fprintf(stderr, "typed: the model answers %d\n", a->number);
    exit(2);
}

void answer_reading(const struct view *before, const struct reading *r, struct view *after, struct answer *a)
{
    memset(a, 0, offsetof(struct answer, words));
    a->number = r->is == WRONG ? 2 : step_on_sound(before, &r->command, after);
    if (a->number == 0) a->len = sprintf(a->words, "done");
    else if (a->number == 6) a->len = six(before, &r->command, a);
    else {
        int n = sprintf(a->words, "refused %d: ", a->number);
        a->len = n + (r->is == WRONG ? wrong_word(r, a->words + n) : because(before, &r->command, after, a, a->words + n));
    }
}
