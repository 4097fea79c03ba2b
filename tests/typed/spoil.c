/* Words made wrong: numbers, names, lists, bytes. Which of it still is a command is means.c's to say. */
#include "typed.h"
#include <stdio.h>
#include <string.h>

const char *const spoilt_name[SPOILT] = {
    "64 to 99", "100 and more", "wraps at 2^8", "wraps at 2^16", "wraps at 2^32", "wraps at 2^64", "wraps at 2^128", "1 to 400 digits", "sign",
    "letter in a number", "mark in a number", "list for a role", "empty place in a list", "a letter more", "a letter less", "another letter",
    "letters turned", "capital", "underscore", "another name", "list with all", "words cut", "word out", "word in", "word behind", "words turned",
    "words joined", "word split", "set named twice", "fifth set", "comment behind", "control byte", "byte 127", "byte 128 to 255", "byte 0",
    "line end in a word", "# before", "word of about 40 bytes", "long word", "quotes", "letters of other scripts", "byte order mark", "joined by a control byte",
    "noise"};

bool surely_wrong(enum spoilt s)
{
    static const enum spoilt sure[] = {JUST_OVER, OVER, WRAPS_8, WRAPS_16, WRAPS_32, WRAPS_64, WRAPS_128, SIGN, LETTER_IN_NUMBER, MARK_IN_NUMBER,
                                       LIST_FOR_ROLE, EMPTY_PLACE, CAPITAL, UNDERSCORE, OTHER_NAME, LIST_WITH_ALL, WORD_BEHIND, WORDS_JOINED, SET_TWICE,
                                       FIFTH_SET, COMMENT_BEHIND, CONTROL_BYTE, BYTE_127, HIGH_BYTE, BYTE_0, LINE_END_IN_WORD, HASH_BEFORE, LONG_WORD, QUOTES,
                                       LETTERS_ABROAD, BYTE_ORDER_MARK, JOINED_BY_CONTROL};
    for (size_t k = 0; k < sizeof sure / sizeof *sure; k++)
        if (sure[k] == s) return true;
    return false;
}

bool can_be_met(enum way way, enum spoilt s)
{
    return way == BY_INPUT ? s != LINE_END_IN_WORD && s != HASH_BEFORE : s != BYTE_0;
}

/* ---- places in words */

/* Bytes `from` to before `to` of a word. */
struct place_in {
    struct word *word;
    size_t from, to;
};

static void splice(struct place_in p, const void *bytes, size_t len)
{
    struct word *w = p.word;
    size_t tail = w->len - p.to;
    if (p.from + len + tail > WORD_MOST) return;
    memmove(w->byte + p.from + len, w->byte + p.to, tail);
    memcpy(w->byte + p.from, bytes, len);
    w->len = p.from + len + tail;
}

static void insert(struct word *w, size_t at, const char *text) { splice((struct place_in){w, at, at}, text, strlen(text)); }

static struct place_in whole(struct word *w) { return (struct place_in){w, 0, w->len}; }

/* One place of a list, or the word itself where it has no comma. */
static struct place_in some_place(struct word *w)
{
    struct place_in p = {w, below(w->len), 0};
    if (w->byte[p.from] == ',') p.from++;
    for (p.to = p.from; p.to < w->len && w->byte[p.to] != ','; p.to++)
        ;
    for (; p.from > 0 && w->byte[p.from - 1] != ','; p.from--)
        ;
    return p;
}

enum sort { NUMBER = 1, NAME = 2, LIST = 4, SINGLE = 8 };

static int sort_of(const struct command *c, int k)
{
    if (k == 0 || k == 2) return NUMBER | SINGLE;
    if (k == 1) return NAME | SINGLE;
    if (c->code == ADD_ROLE) return k % 2 ? NAME | SINGLE : NUMBER | LIST;
    if (on_rights(c)) return NAME | LIST;
    return k == 3 ? NUMBER | SINGLE : NAME | SINGLE;
}

/* A word that is all of this; NULL where there is none. */
static struct word *some_word(const struct command *c, struct words *w, int sort)
{
    int fit[WORDS_MOST], n = 0;
    for (int k = 0; k < w->n; k++)
        if ((sort_of(c, k) & sort) == sort) fit[n++] = k;
    return n > 0 ? &w->word[fit[below(n)]] : NULL;
}

static struct word *any_word(struct words *w) { return &w->word[below(w->n)]; }

/* ---- numbers */

static int times(uint8_t *digit, int n, int by, int plus) /* lowest digit first; how many there are then */
{
    for (int k = 0; k < n || plus > 0; k++) {
        if (k == n) digit[n++] = 0;
        plus += digit[k] * by;
        digit[k] = plus % 10, plus /= 10;
    }
    return n;
}

/* Some times two to that power, and what stood there: whoever cuts it to so many bits has the number of before. */
static void wrap(struct place_in p, int power)
{
    uint8_t digit[64];
    char text[64];
    int n = times(digit, 0, 1, chance(60) ? 1 : 1 + below(1000)), was = 0;
    for (size_t k = p.from; k < p.to; k++) was = (was * 10 + p.word->byte[k] - '0') % 64;
    for (; power > 0; power--) n = times(digit, n, 2, 0);
    n = times(digit, n, 1, chance(70) ? was : below(64));
    for (int k = 0; k < n; k++) text[k] = '0' + digit[n - 1 - k];
    splice(p, text, n);
}

static void over(struct place_in p, int least, int more)
{
    char text[32];
    int n = sprintf(text, chance(20) ? "000%d" : "%d", least + below(more));
    splice(p, text, n);
}

static void digits(struct place_in p)
{
    char text[400];
    int n = 1 + below(chance(40) ? 25 : 400);
    for (int k = 0; k < n; k++) text[k] = '0' + (k == 0 ? 1 + below(9) : below(10));
    splice(p, text, n);
}

static bool spoil_number(enum spoilt s, struct place_in p)
{
    static const char *const letters[] = {"O", "l", "o", "x", "e", "a", "f", "I", "A", "E"};
    static const char *const marks[] = {".", "/", ":", ";", "_", "'", "-", "%", "*", "=", "!", "#"};
    size_t inside = p.from + below(p.to - p.from + 1);
    switch (s) {
    case JUST_OVER: over(p, 64, 36); return true;
    case OVER: over(p, 100, chance(50) ? 900 : 1000000000); return true;
    case WRAPS_8: wrap(p, 8); return true;
    case WRAPS_16: wrap(p, 16); return true;
    case WRAPS_32: wrap(p, 32); return true;
    case WRAPS_64: wrap(p, 64); return true;
    case WRAPS_128: wrap(p, 128); return true;
    case DIGITS: digits(p); return true;
    case SIGN: insert(p.word, chance(80) ? p.from : p.to, chance(50) ? "-" : "+"); return true;
    case LETTER_IN_NUMBER:
        if (chance(30)) insert(p.word, p.from, "0x");
        else insert(p.word, inside, letters[below(10)]);
        return true;
    default:
        if (inside == 0) inside = p.to; /* or a # would make it a comment */
        insert(p.word, inside, marks[below(12)]);
        return true;
    }
}

/* ---- names and lists */

static bool empty_place(struct word *w)
{
    if (!w) return false;
    struct place_in p = some_place(w);
    if (chance(10)) splice(whole(w), ",,,", 1 + below(3));
    else insert(w, chance(50) ? p.from : p.to, ",");
    return true;
}

static bool other_name(const struct command *c, struct words *w)
{
    static const char *const kinds[] = {"AI", "II", "I,A", "1", "2", "3", "all", "i", "a", "none"};
    static const char *const commands[] = {"found", "add", "all", "edge", "i-seniors", "add-role,add-edge", "1", "I"};
    static const char *const sets[] = {"seniors", "juniors", "ia-seniors", "add-role", "I", "all"};
    static const char *const rights[] = {"give-rights", "take-rights", "none", "I", "1", "add-role;add-edge"};
    struct word *word = some_word(c, w, NAME);
    const char *name;
    if (word == &w->word[1]) name = commands[below(8)];
    else if (on_edge(c)) name = kinds[below(10)];
    else name = on_rights(c) ? rights[below(6)] : sets[below(6)];
    splice(some_place(word), name, strlen(name));
    return true;
}

static bool with_all(const struct command *c, struct words *w)
{
    if (!on_rights(c)) return false;
    if (chance(50)) insert(&w->word[3], 0, "all,");
    else insert(&w->word[3], w->word[3].len, ",all");
    return true;
}

static bool is_small(uint8_t byte) { return byte >= 'a' && byte <= 'z'; }

static bool capital(struct word *w)
{
    size_t n = 0;
    bool every = chance(30);
    for (size_t k = below(w->len); n < w->len; k = (k + 1) % w->len, n++) {
        if (is_small(w->byte[k])) w->byte[k] -= 32;
        else if (w->byte[k] >= 'A' && w->byte[k] <= 'Z') w->byte[k] += 32;
        else continue;
        if (!every) break;
    }
    return true;
}

static bool spoil_name(enum spoilt s, struct word *w)
{
    struct place_in p = {w, below(w->len), 0};
    p.to = p.from + 1;
    char letter[2] = {chance(85) ? 'a' + below(26) : '-', 0};
    uint8_t *hyphen = memchr(w->byte, '-', w->len);
    switch (s) {
    case LETTER_MORE: insert(w, below(w->len + 1), chance(30) && w->len > 1 ? (char[2]){w->byte[p.from], 0} : letter); return true;
    case LETTER_LESS: splice(p, "", 0); return true;
    case LETTER_OTHER: splice(p, letter, 1); return true;
    case CAPITAL: return capital(w);
    case UNDERSCORE:
        if (hyphen) *hyphen = '_';
        return hyphen != NULL;
    default:
        if (p.to == w->len || w->byte[p.from] == w->byte[p.to]) return false;
        letter[0] = w->byte[p.from], w->byte[p.from] = w->byte[p.to], w->byte[p.to] = letter[0];
        return true;
    }
}

/* ---- words */

static void copy_word(struct word *to, const struct word *from)
{
    to->len = from->len;
    memcpy(to->byte, from->byte, from->len);
}

static void take_out(struct words *w, int k)
{
    for (w->n--; k < w->n; k++) copy_word(&w->word[k], &w->word[k + 1]);
}

static struct word *put_in(struct words *w, int at)
{
    for (int k = w->n++; k > at; k--) copy_word(&w->word[k], &w->word[k - 1]);
    w->word[at].len = 0;
    return &w->word[at];
}

static void join(struct words *w, int k, const char *between)
{
    put_text(&w->word[k], between);
    for (size_t i = 0; i < w->word[k + 1].len; i++) put_byte(&w->word[k], w->word[k + 1].byte[i]);
    take_out(w, k + 1);
}

static bool split(struct words *w)
{
    int k = below(w->n);
    if (w->word[k].len < 2) return false;
    struct word *behind = put_in(w, k + 1);
    size_t at = 1 + below(w->word[k].len - 1);
    for (size_t i = at; i < w->word[k].len; i++) put_byte(behind, w->word[k].byte[i]);
    w->word[k].len = at;
    return true;
}

static void add_set(struct words *w, const char *name, int role)
{
    put_text(put_in(w, w->n), name);
    struct word *set = put_in(w, w->n);
    put_byte(set, '0' + role / 10), put_byte(set, '0' + role % 10);
}

static bool set_twice(const struct command *c, struct words *w, bool fifth)
{
    if (c->code != ADD_ROLE || w->n > 11 || (!fifth && w->n == 3)) return false;
    for (int k = 0; k < 4 && fifth; k++) {
        bool named = false;
        for (int i = 3; i < w->n; i += 2) named |= w->word[i].byte[0] == set_name[k][0] && w->word[i].byte[2] == set_name[k][2];
        if (!named) add_set(w, set_name[k], below(64));
    }
    int again = 3 + 2 * below((w->n - 3) / 2);
    bool alone = chance(20);
    add_set(w, (const char *[]){"a-seniors", "i-seniors", "a-juniors", "i-juniors"}[(w->word[again].byte[0] == 'i') + 2 * (w->word[again].byte[2] == 'j')],
            below(64));
    w->n -= alone;
    return true;
}

static bool spoil_words(enum spoilt s, const struct command *c, struct words *w)
{
    static const char *const more[] = {"0", "please", "1", "all", "I", "i-seniors", "A", ",", "1,2", "add-role", "-", "?"};
    int k = below(w->n);
    switch (s) {
    case WORDS_CUT: w->n = 1 + below(w->n - 1); return true;
    case WORD_OUT: take_out(w, k); return true;
    case WORD_IN: put_text(put_in(w, k), more[below(12)]); return true;
    case WORD_BEHIND: put_text(put_in(w, w->n), more[below(12)]); return true;
    case WORD_SPLIT: return split(w);
    case SET_TWICE: return set_twice(c, w, false);
    case FIFTH_SET: return set_twice(c, w, true);
    case COMMENT_BEHIND: put_text(put_in(w, w->n), chance(50) ? "#" : "#why"); return true;
    default:
        if (k == w->n - 1) return false;
        if (s == WORDS_JOINED) join(w, k, chance(70) ? "" : (const char *[]){",", ";", "="}[below(3)]);
        else if (s == JOINED_BY_CONTROL) join(w, k, chance(50) ? "\v" : "\f");
        else {
            struct word *behind = put_in(w, k + 2);
            copy_word(behind, &w->word[k]);
            take_out(w, k);
        }
        return true;
    }
}

/* ---- bytes */

static bool spoil_bytes(enum spoilt s, struct words *w)
{
    static const char *const quotes[] = {"'", "\"", "`", "\\", "$", "'1'", "\"1\"", "$(1)", "\\n", "''", "%s", "%d%n"};
    static const char *const abroad[] = {"\xc3\xa9", "\xef\xbc\x91", "\xd9\xa1", "\xc2\xa0", "\xe2\x80\x8b", "\xe2\x88\x92", "\xf0\x9f\x99\x82", "\xc2\x85"};
    struct word *word = any_word(w);
    size_t at = below(word->len + 1);
    char byte = 0;
    switch (s) {
    case CONTROL_BYTE:
        do byte = 1 + below(31);
        while (byte == '\t' || byte == '\n' || byte == '\r');
        break;
    case BYTE_127: byte = 127; break;
    case HIGH_BYTE: byte = (char)(128 + below(128)); break;
    case LINE_END_IN_WORD: byte = '\n'; break;
    case BYTE_0: break;
    case HASH_BEFORE: insert(&w->word[0], 0, "#"); return true;
    case QUOTES: insert(word, at, quotes[below(12)]); return true;
    case LETTERS_ABROAD: insert(word, at, abroad[below(8)]); return true;
    case BYTE_ORDER_MARK: insert(&w->word[0], 0, "\xef\xbb\xbf"); return true;
    case ABOUT_40_BYTES:
    case LONG_WORD: {
        int len = s == ABOUT_40_BYTES ? 38 + below(5) : 42 + below(chance(80) ? 100 : 3000), sort = below(4);
        for (word->len = 0; len > 0; len--) put_byte(word, sort == 0 ? '7' : sort == 1 ? 'a' + below(26) : sort == 2 ? ',' : "1,;x\x01\xe9"[below(6)]);
        return true;
    }
    default: /* noise */
        w->n = 1 + below(4);
        for (int k = 0; k < w->n; k++)
            for (w->word[k].len = 0, at = 1 + below(12); at > 0; at--) {
                byte = (char)below(256);
                put_byte(&w->word[k], byte == '\n' ? 'n' : byte);
            }
        return true;
    }
    splice((struct place_in){word, at, at}, &byte, 1);
    return true;
}

bool spoil(enum spoilt s, const struct command *c, struct words *w)
{
    if (s < NUMBERS_END) return spoil_number(s, some_place(some_word(c, w, NUMBER)));
    if (s == LIST_FOR_ROLE) {
        struct word *role = some_word(c, w, NUMBER | SINGLE);
        insert(role, role->len, ",1");
        return true;
    }
    if (s == EMPTY_PLACE) return empty_place(some_word(c, w, LIST));
    if (s == OTHER_NAME) return other_name(c, w);
    if (s == LIST_WITH_ALL) return with_all(c, w);
    if (s < WORDS_CUT) return spoil_name(s, some_word(c, w, NAME));
    if (s <= COMMENT_BEHIND || s == JOINED_BY_CONTROL) return spoil_words(s, c, w);
    return spoil_bytes(s, w);
}
