/* Many at once on one board file: what was asked, what was answered, and the order that explains it.
 *
 * The program is a black box, started by the words that run.sh gives. What it ought to answer is the model's to say. */
#ifndef RACE_H
#define RACE_H

#include "model/model.h"
#include <stdio.h>
#include <sys/types.h>

enum { WORKERS = 64, OF_ONE = 6, LINES = 6, TEXT = 1024, SAID = 2048, COMPLAINED = 512 };

/* What one start of the program is asked for: one command in words, a run on standard input, or a founding. */
struct change {
    enum { IN_WORDS, ON_STANDARD_INPUT, FOUNDING } way;
    int commands;
    struct command command[LINES];
    int line[LINES];  /* of each, on standard input, from 1 */
    char text[TEXT];  /* the standard input */
};

/* What came of it. Times are nanoseconds of CLOCK_MONOTONIC. */
struct answer {
    int64_t began, ended;
    int status;  /* as from waitpid */
    bool killed; /* by the test */
    size_t said_len;
    char said[SAID], complained[COMPLAINED];
};

/* The answers read: packed as answer_apply does it. */
struct reply {
    enum { ANSWERED, BUSY, CUT_SHORT } kind; /* cut short: killed, with the first `given` answers said */
    int given;
    uint64_t of[LINES];
};

struct asked {
    struct change change;
    struct answer answer;
    struct reply reply;
};

/* ---- ../compare/chance.c: numbers drawn from a seed */
void seed_with(uint64_t seed);
uint64_t draw64(void);
int below(int n); /* 0 to n - 1 */
bool chance(int percent);

/* ---- words.c */
enum { WORDS_MOST = 12, WORD_MOST = 200 };
int words_of(const struct command *c, char word[WORDS_MOST][WORD_MOST]);
void line_of(const struct command *c, char *line); /* TEXT bytes are enough */
void six_in_words(uint32_t actor, uint64_t packed, char *words);
/* NULL where the answer is well formed; else what is wrong with it. */
const char *read_reply(const struct change *c, const struct answer *a, struct reply *r);
uint64_t packed_answer(const struct view *v, const struct command *c, struct view *after); /* v is sound */

/* ---- start.c: the program, started and heard */
extern char **launch; /* the words that start it, up to a null pointer */
extern char change_script[4096]; /* ./change, or empty */
struct setting {
    const volatile int *gate; /* started, but held before exec until this is not 0 */
    int64_t hold;             /* and then so many nanoseconds more */
    bool traced, own_group, by_script;
};
struct running {
    pid_t pid;
    int out, err;
};
enum victim { NOBODY_DIES, THE_GROUP, THE_SHELL, THE_PROGRAM, VICTIMS };
struct death {
    enum victim victim;
    int64_t after;   /* nanoseconds from the start */
    bool at_program; /* and then not before the program is met, */
    int64_t linger;  /* and then so long */
};
int64_t now(void);
void *shared(size_t bytes); /* memory that forked processes see */
struct running begin(const struct change *c, const char *file, struct setting s);
void listen_to(struct running r, struct answer *a, struct death d); /* until it says no more */
void hear(struct running r, struct answer *a, struct death d);      /* until it has ended */
void give(const struct change *c, const char *file, struct setting s, struct answer *a);

/* ---- files.c */
extern char work[4096], logs[4096]; /* the folders to work in, and for logs */
void put_bytes(const char *name, const uint8_t *bytes, size_t len);
bool get_bytes(const char *name, uint8_t *bytes, size_t room, size_t *len); /* false: there is none */
bool exists(const char *name);
const char *in_work(const char *name); /* good for eight calls */
bool holds_bytes(const char *name, const uint8_t *bytes, size_t len);

/* ---- looks.c: a reader that reads FILE all the time */
enum { LOOKS = 4096, LOOK_BYTES = 1536 };
struct look {
    int64_t began, ended;
    size_t len;
    uint8_t bytes[LOOK_BYTES];
};
struct looks {
    volatile int over;
    int count;
    long reads, unsound; /* and the first that was no sound file: */
    uint8_t number;
    size_t bad_len;
};
void keep_looking(const char *file, struct looks *l, struct look *look);

/* ---- draw.c */
void draw_board(struct view *v);                                         /* to begin a round with */
void draw_changes(const struct view *first, struct asked *asked, int changes); /* WORKERS times so many */
void as_command(struct change *c, struct command command);
void as_run(struct change *c, const struct command *command, int commands);

/* ---- order.c */
struct event {
    const struct asked *asked; /* or */
    const struct look *look;
    int64_t began, ended;
    int lo, hi;  /* it lies behind look lo - 1 and before look hi at the latest (gaps.c) */
    int shows;   /* the last look that shows something which this change may have done; -1: none does */
    bool needed; /* a look shows something that no other change can have done */
};
enum { LANES = WORKERS + 1, EVENTS = LOOKS };
struct lane {
    int count;
    struct event *event;
};
struct race {
    const struct view *first;
    struct lane lane[LANES]; /* in the order in which each was given; the last one is the reader's */
    int perhaps;             /* changes that were killed with nothing said: made or not */
    struct event *killed;
};
enum { NODES = 20000 };
struct found_order {
    bool found, too_long;
    long nodes;
    int made; /* of those that were killed */
};
struct found_order find_order(struct race *race, FILE *explain);

/* ---- means.c: what a change may add and what it may take away, whatever the board */
struct means {
    uint64_t live_up, live_down, part_up[2][ROLES], part_down[2][ROLES]; /* roles, and parts of edges: I and A */
    uint8_t rights_up[ROLES], rights_down[ROLES], given;                 /* given: to anybody */
};
void add_event(struct means *m, const struct event *e);
struct flip { /* one thing that differs between two boards */
    enum { LIVE, RIGHT, PART } of;
    int x, y, bit; /* y and bit where it has them */
    bool up;
};
enum { FLIPS = 8192 };
int flips_between(const struct model *from, const struct model *to, struct flip *flip); /* at most FLIPS */
bool may_flip(const struct means *m, const struct flip *f);

/* ---- gaps.c: between which looks a change lies */
void find_gaps(struct race *race);

/* ---- hope.c */
/* With so many of each lane taken, what is left can't explain what is left; `seen` is what the reader sees next. */
bool hopeless(const struct race *race, const uint16_t *taken, const uint64_t *killed, const struct model *from, const struct model *seen);

/* ---- report.c */
struct counts {
    long rounds, changes, commands, done, refused[16], busy, killed[VICTIMS], cut_short, made, looks, most_nodes, disagreements;
};
extern struct counts counts;
extern uint64_t seed;
void count_reply(const struct asked *a);
void disagree(const char *format, ...); /* counts and prints it */
void print_counts(const char *name, int at_once);
void write_log(FILE *out, const struct asked *asked, int changes, int64_t from);

/* ---- the tests */
struct round {
    volatile int go;
    int changes; /* of each worker */
    struct looks looks;
    struct look look[LOOKS];
    struct asked asked[WORKERS][OF_ONE];
    struct death death[WORKERS][OF_ONE];
};
void rounds(int n);
void mixed(int n);
void third(int n);
void story(int n);
void killed(void);
void disk(void);
void times(int n);

#endif
