/* Typed lines: what a coordinator types, what it means, and what boardchange ought to answer.
 *
 * The words are read here from the documents alone (issue 16, docs/DECISIONS.md 22 and 23); what a command does is the model's to say. */
#ifndef TYPED_H
#define TYPED_H

#include "compare/compare.h" /* the model, chance, and the drawings of boards and commands */

enum { INPUT_MOST = 60000, SHOWN = 40 };

/* ---- means.c: a line's meaning, and the answer in words */
enum wanted { AN_ACTOR, A_COMMAND, A_ROLE, A_SENIOR, A_JUNIOR, A_KIND, A_SET_NAME, A_SET, SOME_RIGHTS, THE_END, WANTED };
struct reading {
    enum { PASSED_OVER, A_CHANGE, WRONG } is;
    struct command command; /* of a wrong line: as far as it was read; code 0 where it has no name yet */
    enum wanted wanted;     /* of a wrong line: what should stand there */
    bool missing;           /* nothing stands there */
    const uint8_t *word;    /* or this */
    size_t len;
};
extern const char *const command_name[8], *const kind_name[4], *const set_name[4];
/* `typed`: on standard input, where some lines are passed over. */
struct reading read_line(const uint8_t *line, size_t len, bool typed);
struct answer {
    int number;
    int role, right, cause; /* that it names: of 3 and 9, of 13, of 6 */
    size_t len;
    char words[512];
};
/* `after` is the board afterwards where the number is 0. */
void answer_reading(const struct view *before, const struct reading *r, struct view *after, struct answer *a);

/* ---- spell.c: a command in words, spelt in any way that is right */
enum { WORD_MOST = INPUT_MOST, WORDS_MOST = 24 };
struct word {
    size_t len;
    uint8_t byte[WORD_MOST];
};
struct words {
    int n;
    struct word word[WORDS_MOST];
};
enum spelling {
    MORE_BLANKS, TABS, RETURN_AT_END, RETURN_BETWEEN, BLANKS_BEFORE, BLANKS_BEHIND, ZEROS, ZEROS_TO_400, ZEROS_TO_20000, ZEROS_IN_SET,
    SETS_TURNED, MEMBERS_TURNED, MEMBER_TWICE, LONG_LIST, ALL, ALL_BY_NAMES, RIGHTS_TURNED, RIGHT_TWICE, SPELLINGS
};
extern const char *const spelling_name[SPELLINGS];
extern uint32_t spelt; /* a bit for each spelling of the line in hand */
void put_byte(struct word *w, uint8_t byte);
void put_text(struct word *w, const char *text);
void spell(const struct command *c, struct words *w, bool long_ones);
void glue(const struct words *w, struct word *line); /* with blanks between */
enum passed { EMPTY_LINE, BLANK_LINE, COMMENT, COMMENT_BEHIND_BLANKS, COMMENTED_COMMAND, COMMENT_OF_BYTES, PASSED };
extern const char *const passed_name[PASSED];
enum passed draw_passed(const struct words *command, struct word *line); /* a line that is passed over */

/* ---- spoil.c: words made wrong */
enum way { BY_INPUT, BY_WORDS, WAYS_IN };
enum spoilt {
    JUST_OVER, OVER, WRAPS_8, WRAPS_16, WRAPS_32, WRAPS_64, WRAPS_128, DIGITS, SIGN, LETTER_IN_NUMBER, MARK_IN_NUMBER, NUMBERS_END,
    LIST_FOR_ROLE = NUMBERS_END, EMPTY_PLACE, LETTER_MORE, LETTER_LESS, LETTER_OTHER, LETTERS_TURNED, CAPITAL, UNDERSCORE, OTHER_NAME, LIST_WITH_ALL,
    WORDS_CUT, WORD_OUT, WORD_IN, WORD_BEHIND, WORDS_TURNED, WORDS_JOINED, WORD_SPLIT, SET_TWICE, FIFTH_SET, COMMENT_BEHIND,
    CONTROL_BYTE, BYTE_127, HIGH_BYTE, BYTE_0, LINE_END_IN_WORD, HASH_BEFORE, ABOUT_40_BYTES, LONG_WORD, QUOTES, LETTERS_ABROAD, BYTE_ORDER_MARK,
    JOINED_BY_CONTROL, NOISE, SPOILT
};
extern const char *const spoilt_name[SPOILT];
bool can_be_met(enum way way, enum spoilt s); /* no argument has a byte 0; a line ends at its end, and with a # it is a comment */
bool surely_wrong(enum spoilt s); /* whatever the line is */
bool spoil(enum spoilt s, const struct command *c, struct words *w); /* false: this line can't be spoilt so; it stays */

/* ---- start.c: one start of the program */
enum { TEXT_MOST = INPUT_MOST + 20000 };
struct given {
    uint8_t file[FILE_MAX], text[TEXT_MOST]; /* the board file before, and what is typed */
    size_t file_len, text_len;
    char *wanted; /* what it ought to say */
    size_t wanted_len;
    bool done; /* something is */
};
extern struct given given;
extern uint64_t seed;
extern char work[4096]; /* the folder to work in */
extern char **launch;   /* the words that start the program, up to a null pointer */
void begin(void);
/* By these words behind the file's name, or by the text on standard input. Ends with status 1 where the answers differ, or the file
 * isn't that of the board that is to be left. */
void give_and_compare(const struct model *left, char *const *with);
void print_escaped(const void *bytes, size_t len);
size_t get_bytes(const char *name, void *bytes, size_t room);
_Noreturn void fail(const char *what);

/* ---- counts.c */
extern bool counting; /* lines: not those that are answered together, or are too many and too much alike */
void count_line(enum way way, const struct reading *r, const struct answer *a, const struct view *before);
void count_spoilt(enum way way, enum spoilt s, const struct reading *r);
void count_spelt(enum way way);
void count_passed(enum passed p);
enum text { PLAIN_TEXT, NO_LINE_END, OF_60000, OVER_60000, SHORT_LINES, NOTHING_DONE, SOMETHING_DONE, HH_STAYS, HH_TO_HR, HR_TO_HH, HR_STAYS, ON_A_LARGE_BOARD, TEXTS };
void count_text(enum text t);
void count_shown(const struct reading *r); /* how a wrong word is shown */
int print_counts(long least, bool full);   /* how many classes were met too seldom, or can't be */

#endif
