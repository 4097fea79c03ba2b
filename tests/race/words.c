/* Commands in words, and answers read back from theirs. */
#include "race.h"
#include <stdlib.h>
#include <string.h>
#include <sys/wait.h>

static const char *const command_word[] = {"no-command", "add-role",    "remove-role", "add-edge",
                                           "remove-edge", "change-edge", "give-rights", "take-rights"};
static const char *const kind_word[] = {"none", "I", "A", "IA"};

/* ---- commands */

static void list_roles(uint64_t set, char *word)
{
    *word = 0;
    for (int x = 0; x < ROLES; x++)
        if (in(set, x)) word += sprintf(word, word[0] || x == __builtin_ctzll(set) ? "%d" : ",%d", x);
}

static void list_rights(uint32_t rights, char *word)
{
    *word = 0;
    if (rights == ALL_RIGHTS) strcpy(word, "all");
    else
        for (int right = 1, first = 1; right <= RIGHTS; right++)
            if (in(rights, right - 1)) word += sprintf(word, "%s%s", first ? "" : ",", command_word[right]), first = 0;
}

static int add_set(const char *name, uint64_t set, char word[WORDS_MOST][WORD_MOST], int n)
{
    if (set == 0) return n;
    strcpy(word[n], name);
    list_roles(set, word[n + 1]);
    return n + 2;
}

int words_of(const struct command *c, char word[WORDS_MOST][WORD_MOST])
{
    sprintf(word[0], "%u", c->actor);
    strcpy(word[1], command_word[c->code]);
    sprintf(word[2], "%u", c->role);
    if (c->code == ADD_ROLE) {
        int n = add_set("a-seniors", c->a_seniors, word, 3);
        n = add_set("i-seniors", c->i_seniors, word, n);
        n = add_set("a-juniors", c->a_juniors, word, n);
        return add_set("i-juniors", c->i_juniors, word, n);
    }
    if (c->code == REMOVE_ROLE) return 3;
    if (on_rights(c)) {
        list_rights(c->rights, word[3]);
        return 4;
    }
    sprintf(word[3], "%u", c->junior);
    strcpy(word[4], kind_word[c->kind]);
    return 5;
}

void line_of(const struct command *c, char *line)
{
    char word[WORDS_MOST][WORD_MOST];
    int n = words_of(c, word);
    for (int k = 0; k < n; k++) line += sprintf(line, k == 0 ? "%s" : " %s", word[k]);
}

/* ---- answers */

void six_in_words(uint32_t actor, uint64_t packed, char *words)
{
    unsigned role = BOARD_OFFENDING(packed), way = BOARD_IN_THE_WAY(packed);
    if (BOARD_CAUSE(packed) == ITSELF)
        sprintf(words, "refused 6: role %u is not in the strict scope of role %u, which leaves out role %u itself", role, actor, actor);
    else if (BOARD_CAUSE(packed) == NOT_DERIVED)
        sprintf(words, "refused 6: role %u is not in the scope of role %u, since role %u doesn't derive it", role, actor, actor);
    else
        sprintf(words, "refused 6: role %u is not in the scope of role %u, since role %u derives it and is unrelated to role %u",
                role, actor, way, actor);
}

/* The role, the cause and the role in the way are guessed from the words; the words made of them must be these. */
static bool read_six(const char *said, uint32_t actor, uint64_t *packed)
{
    uint64_t role, of, way, cause;
    char words[SAID];
    if (sscanf(said, "refused 6: role %lu is not in the scope of role %lu, since role %lu", &role, &of, &way) == 3)
        cause = strstr(said, "derives it") ? IN_THE_WAY : NOT_DERIVED;
    else if (sscanf(said, "refused 6: role %lu is not in the strict scope", &role) == 1) cause = ITSELF;
    else return false;
    *packed = 6 | role << 32 | cause << 40 | (cause == IN_THE_WAY ? way << 48 : 0);
    six_in_words(actor, *packed, words);
    return strcmp(words, said) == 0;
}

static bool read_one(const char *said, uint32_t actor, uint64_t *packed)
{
    unsigned number;
    int behind = 0;
    *packed = 0;
    if (strcmp(said, "done") == 0) return true;
    if (sscanf(said, "refused %u: %n", &number, &behind) != 1 || behind == 0 || said[behind] == 0) return false;
    if (number == 6) return read_six(said, actor, packed);
    *packed = number;
    return number >= 2 && number <= 13;
}

/* One line of standard output, for command k. */
static bool read_line(const struct change *c, int k, const char *said, uint64_t *packed)
{
    char begins[16];
    if (c->way == ON_STANDARD_INPUT) {
        int n = sprintf(begins, "%d: ", c->line[k]);
        if (strncmp(said, begins, n) != 0) return false;
        said += n;
    }
    return read_one(said, c->command[k].actor, packed);
}

static const char *quiet(const struct answer *a, struct reply *r)
{
    if (a->killed) {
        r->kind = CUT_SHORT;
        return NULL;
    }
    r->kind = BUSY;
    return strncmp(a->complained, "busy", 4) == 0 ? NULL : "nothing is said";
}

const char *read_reply(const struct change *c, const struct answer *a, struct reply *r)
{
    char said[SAID], *line = said;
    memset(r, 0, sizeof *r);
    memcpy(said, a->said, a->said_len);
    said[a->said_len] = 0;
    if (!a->killed && !WIFEXITED(a->status)) return "it didn't end by itself";
    if (a->said_len == 0) return quiet(a, r);
    if (a->complained[0] && !a->killed) return "it complains beside its answer";
    for (char *end; (end = strchr(line, '\n')); line = end + 1) {
        *end = 0;
        if (r->given == c->commands) return "it says more than there are commands";
        if (!read_line(c, r->given, line, &r->of[r->given])) return "a line of the answer can't be read";
        r->given++;
    }
    if (r->given < c->commands && a->killed) r->kind = CUT_SHORT;
    else if (r->given < c->commands) return "it says less than there are commands";
    else if (*line) return "it says something behind the last answer";
    return NULL;
}

uint64_t packed_answer(const struct view *v, const struct command *c, struct view *after)
{
    uint64_t number = step_on_sound(v, c, after);
    if (number != 6) return number;
    struct offence o = first_offence(v, c);
    return number | (uint64_t)o.role << 32 | (uint64_t)o.why.cause << 40 | (uint64_t)o.why.in_the_way << 48;
}
