/* The comparison: the model against the subject, through board.h alone. */
#ifndef COMPARE_H
#define COMPARE_H

#include "model/model.h"

/* ---- chance.c: numbers drawn from a seed */
void seed_with(uint64_t seed);
void other_chance(void); /* there are two, and what is drawn by one leaves the other as it was */
uint64_t draw64(void);
int below(int n); /* 0 to n - 1 */
bool chance(int percent);
uint32_t wide(uint32_t low); /* above 255, and mostly `low` where it is cut to 8 bits */

/* ---- draw.c: boards and commands */
void draw_sound(struct view *v, int most);  /* sound, at most so many roles, mixed kinds */
void draw_tree(struct view *v, int roles);  /* every role but 0 has one senior: sound whatever the kinds */
void draw_full(struct view *v, bool mixed); /* 64 roles, 2,016 edges: sound whatever the kinds */
void draw_any(struct view *v, int most);    /* no loop, and as a rule sound */
bool draw_unmanaged(struct view *v, int most); /* no loop, and a role without an administrator; or gives up */
void draw_tied(struct view *v);             /* small, sound, and easily left with a role unmanaged */
void draw_chained(struct view *v);          /* small, sound, with roles that reach what they don't derive */
void draw_forked(struct view *v);           /* small, sound, with a role that one part of an edge keeps managed */
void draw_crossed(struct view *v);          /* small, sound, with roles in each other's way */
void draw_command(const struct view *v, struct command *c);
enum { CODE, ACTOR, ROLE, JUNIOR, KIND, THE_RIGHTS, FIELDS };
uint32_t *field_of(struct command *c, int field);
bool uses_field(const struct command *c, int field);
/* Draws until the model gives this number, for some are rare, or gives up and stays with a command that is done. */
void draw_refused(const struct view *v, int code, int number, struct command *c);
void draw_part_refused(const struct view *v, int code, int number, struct command *c); /* where another kind stands */
void draw_spoilt(const struct view *v, int number, struct command *c); /* a fair one made to give 2 to 5 */
/* A 6, for a role at a place in the command and by a cause that are drawn too; or gives up, with any command. */
void draw_offence(const struct view *v, int code, struct command *c);
/* An edge whose junior reaches its senior and doesn't derive it. */
bool draw_hidden_loop(const struct view *v, struct command *c);
void other_drawing(void); /* by the other chance, until it is called again */
void fresh_drawing(uint64_t seed); /* whatever was drawn before */

void draw_rights(struct model *m); /* as all that is drawn above has them */
void all_rights(struct model *m);
void hh_rights(struct model *m);
void nearly_hh_rights(struct model *m); /* one right more or less */
void hr_rights(struct model *m);        /* others than HH's; they stay where they are */
/* Whose a right is that an actor may use, or may not. */
enum { ITS_OWN, OF_ONE_DERIVED, ONE_ABOVE, ONE_REACHED, ONE_ASIDE, NOBODY, SOURCES };
extern const char *const source_name[SOURCES];
bool stands(const struct view *v, int source, int a, int x);
/* The rights that a command asks for, all or one of them, come from this source alone; the actor has the rest. False where the
 * board has no such role. */
bool place_rights(struct view *v, const struct command *c, int source);
enum { RIGHTS_WAYS = 5 };
extern const char *const rights_way[RIGHTS_WAYS];
bool draw_bad_rights(int way, struct view *v, struct board *b); /* sound but for its rights */

enum { UNSOUND_WAYS = 8 };
extern const char *const unsound_way[UNSOUND_WAYS];
bool draw_unsound(int way, struct view *v, struct board *b); /* in its tables; false: this board can't be spoilt so */
enum { WRONG_WAYS = 12 };
extern const char *const wrong_way[WRONG_WAYS];
bool draw_wrong(int way, struct view *v, struct board *b); /* sound but for a stored value */

/* Where a file is to be written. */
enum { PLACES = 11 };
struct place {
    const char *name;
    bool fits;
};
extern const struct place places[PLACES];
void choose_place(int place, size_t len, size_t *room, size_t *at); /* for a file of so many bytes */

/* ---- damage.c: board files, good and bad */
enum { ANY_NUMBER = 255, BUFFER = 65536 + FILE_MAX, ROOM = 16384 };
struct made; /* role bytes, edge records and rights */
enum mark { EITHER, ONLY_HH, ONLY_HR };
struct damage {
    const char *name;
    uint8_t number; /* the number that the way of making it demands, or ANY_NUMBER */
    enum mark mark;
    bool (*record)(struct made *, struct view *);
    size_t (*frame)(uint8_t *, size_t);
    bool long_file; /* dear, so made every other round */
};
enum { MOST_DAMAGES = 64 };
extern const struct damage damages[];
extern const int damage_count;
enum { EMPTY, AS_WRITTEN }; /* the first two of the list; the first alone has no bytes */
/* The length; 0: v can't be damaged so, or EMPTY. But for AS_WRITTEN, v gets the rights of an HH or an HR file. */
size_t make_file(int damage, struct view *v, uint8_t *file);

/* ---- cases.c: one call at a time, on both sides */
enum call {
    APPLY, COMMAND, CHECK, DERIVES, SCOPE, MANAGER, STEPS, STRETCH, FOUND, READ, WRITE, RUN,
    START, CLAIM, RELEASE, JOB, CALL_COUNT
};
extern const char *const call_name[CALL_COUNT];

/* Both sides get the board and the command; the number and the board afterwards must agree.
 * `after` is the model's board afterwards where the number is 0. */
uint8_t try_apply(const struct view *v, const struct board *b, const struct command *c, struct view *after);
uint8_t apply_uncounted(const struct view *v, const struct board *b, const struct command *c, struct view *after);
void try_question(const struct opened *o, enum call call, uint32_t x, uint32_t y);
void try_command(const struct opened *o, const struct command *c, size_t room);
void try_found(void);
void try_read(const struct opened *o);
uint8_t try_write(const struct view *v, const struct board *b, size_t room, size_t at);
/* The row has m places, and what they hold before follows from `fill`. The subject gets the commands once as a run and once
 * by themselves. The model's row afterwards. */
enum { RUN_MOST = 200, ROW_MOST = RUN_MOST + 64 };
const uint64_t *try_run(const struct view *v, const struct board *b, const struct command *c, size_t n, size_t m,
                        uint64_t fill);
void disagree(const char *what, ...); /* prints the case in hand and ends the program */
int replay(const char *name);         /* a file of case lines, or "-" */
void watch_for_crashes(void);

/* Copies that end where unreadable memory begins, and what memory holds before a call. */
enum { GUARD = 64 };
enum lending { THE_FILE, THE_COMMAND, THE_BOARD, THE_COMMANDS, THE_ROW, THE_LIST, THE_ROLES, LENDINGS };
void *lend(enum lending what, const void *from, size_t len);
void paint(uint8_t *at, size_t len);
void in_hand(enum call call); /* for messages */
void print_board(const struct board *b);
bool read_board_word(const char *word, struct board *b); /* one that print_board printed */

/* ---- jobs.c: the job list's calls, on both sides. Each leaves the list as the model has it, and gives the model's answer. */
struct past { /* what a history knows of roles: removed by a command since the start, and added again */
    bool gone[ROLES], back[ROLES];
};
uint64_t try_start(struct jobs *list, const uint8_t *roles, size_t n);
/* A claim or a release. */
uint64_t try_event(enum call call, const struct view *v, const struct board *b, struct jobs *list, uint32_t job,
                   uint32_t member, uint32_t role, const struct past *past);
uint64_t try_job(const struct jobs *list, uint32_t job);
void print_job_case(void);
void replay_job(enum call call, char *words);

/* ---- histories.c: claims and releases on boards that change in between */
enum { LONGEST_START = 65536 + JOBS_MOST }; /* so many roles, cut to 16 bits, would be a list */
void history(uint64_t seed, long number); /* follows from these two */
void print_history(void); /* the one in hand, if there is one */

/* ---- tally.c: how often each number arose */
/* The role in the way: 0; the lowest of several; and lower numbers that are not in the way, for four reasons. */
enum { ROLE_0, OF_SEVERAL, PAST_ABOVE, PAST_BELOW, PAST_ASIDE, PAST_DEAD, WAYS };
enum { CODES = 8, NUMBERS = 14 };
/* How many commands a run has, and how long its row is for it. */
enum { NO_COMMAND, ONE_COMMAND, TO_29, TO_99, TO_200, LENGTHS };
enum { ROW_EMPTY, MORE_SHORT, ONE_SHORT, ROW_FITS, ONE_OVER, MORE_OVER, ROWS };
/* What a run was met with; SAME_AGAIN is a command given twice in a row and answered in two ways. */
enum {
    OF_200, FIRST_REFUSED, LAST_REFUSED, THEN_DONE, SAME_AGAIN, BY_A_NEW_ROLE, ALL_DONE, ALL_REFUSED,
    ON_UNSOUND, NONE_ON_UNSOUND, SHORT_ON_UNSOUND, TRAITS
};
/* How a list is begun: how many roles there are, and where one isn't below 64. */
enum {
    START_0, START_1, START_FEW, START_MANY, START_1024, START_1025, START_MORE, START_CUT,
    BAD_FIRST, BAD_MIDDLE, BAD_LAST, BAD_AND_MORE, STARTS
};
/* What a claim or a release was met with, beside its number. */
enum {
    FIRST_1, ROLE_64, ROLE_TO_255, ROLE_WIDE, JOB_BEHIND, JOB_1024, JOB_ABOVE, JOB_WIDE, JOB_FAR, BOTH_OUT, FIRST_2,
    ROLE_DEAD, JOB_DEAD, BOTH_DEAD, FIRST_3, ROLE_GONE, ROLE_BACK, ONLY_14, FIRST_14, BY_0, BY_MOST, MARK_ABOVE_1, HOLE_PAST,
    OWN_ROLE, OUT_OF_SCOPE, OLD_MEMBER, BY_ITS_HOLDER, TURNED, ONLY_REACHED, ASIDE, /* of a claim */
    HOLDER_WITHIN, HOLDER_OUTSIDE, HOLDER_DEAD, HOLDER_NO_ROLE, OTHER_WITHIN, OTHER_ITSELF, OTHER_BARRED, OTHER_TURNED,
    OTHER_ASIDE, OTHER_IF_CUT, OPEN_BY_ITS_ROW, /* of a release */
    JOB_TRAITS
};
enum { LOOK_OPEN, LOOK_HELD, LOOK_BEHIND, LOOK_ABOVE, LOOK_WIDE, LOOK_0, LOOK_MOST, LOOK_MARK, LOOK_OLD_MEMBER, LOOKS };
enum { NEVER_CLAIMED, HELD_AT_LAST, OPEN_AT_LAST, CLAIMED_AGAIN, BY_ANOTHER, ENDS }; /* of a job, by the log */
enum { JOB_NUMBERS = 16 };
/* What became of the rights that 6 and 7 name. */
enum { NONE_NAMED, NONE_CHANGED, SOME_CHANGED, ALL_CHANGED, AT_ITSELF, AT_ROLE_0, NONE_LEFT, SOME_USABLE, OUTCOMES };
struct tally {
    long commands, files, calls, in_runs; /* the last are commands, too, and not among the first */
    long apply[CODES][NUMBERS];
    long command[CODES][3][NUMBERS];
    long question[CALL_COUNT][3][NUMBERS];
    long value[CALL_COUNT][2]; /* number 0 with value: none or no, some or yes */
    long found, read[2][NUMBERS], write[NUMBERS]; /* read from HH and from HR */
    long unsound[UNSOUND_WAYS][2]; /* all, and those with the right stored values for such tables */
    long wrong[WRONG_WAYS];
    long bad_rights[RIGHTS_WAYS];
    long place[PLACES][3]; /* of a board that isn't sound, and of one that is, as HH and as HR */
    long damage[MOST_DAMAGES][2][NUMBERS]; /* in HH and in HR */
    long parts[2][3][4][4]; /* of apply and command, by code of an edge: kind named, kind standing */
    long kind_range[3][3];  /* by code of an edge, 2 for the kind alone: 0, to 255, above */
    long cause[2][CODES][NAMED][4];   /* of a 6 from apply and command: code, where the offending role is named, cause */
    long beside[2][NAMED][NAMED]; /* where that is, and where another offends that would be named if looked for there */
    long actor_named[2][NAMED];   /* the actor stands there, where scope is enough, and a later role offends */
    long unnamed[2][NUMBERS];     /* a role offends, and another number comes first */
    long source[2][CODES][SOURCES]; /* of a right asked for: past 13 by the first two, 13 by the others */
    long first[2][CODES][NUMBERS];  /* 2 to 5, though a right is lacking, too */
    long later[2][CODES][NUMBERS];  /* 13, and what would come if no right were lacking */
    long outcome[2][2][OUTCOMES];   /* of 6 and 7 */
    long rights_range[2][2][3];     /* of 6 and 7, 2 for the rights alone: 32, to 255, above */
    long marks[2][2];               /* a command that is done: HH or HR before, and after */
    long stretch[2];                /* with bytes, in HH and in HR */
    long way[CALL_COUNT][WAYS];   /* cause 2, of apply, command and scope */
    long scope[4];                /* yes, and a no by its cause */
    long full_roles, full_edges, file_of[2][4], many_edges; /* edges of size; 6,118, 6,119, 6,184 and 6,185 bytes */
    long room_exact, room_short, room_none, idle_change, most_steps;
    long hidden_loop, seniors_in_scope, part_added, part_taken; /* where a careful reader slips; the last two give 9 */
    long wide_used[2][FIELDS];          /* above 255, of apply and command: 2 for that alone */
    long wide_unused[2][CODES][FIELDS]; /* and done */
    long removed_with_rights;
    long run[CODES][NUMBERS], run_cause[4]; /* of the commands in a run, as of apply */
    long rows[LENGTHS][ROWS], trait[TRAITS];
    long wide_role[CALL_COUNT][2];                     /* above 255, first or second of a question: 2 for that alone */
    long histories, events;                            /* claims and releases */
    long start[STARTS], event[2][JOB_NUMBERS], job_trait[2][JOB_TRAITS], look[LOOKS], end[ENDS];
};
extern struct tally tally;
bool can_give(int code, int number); /* on a sound board */
int print_tally(long least); /* how many classes are not filled, or filled though they can't be */

#endif
