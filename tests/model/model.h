/* The role board by its definitions: an independent model, made to be believed and not to be fast.
 *
 * A board is a plain table of kinds. Paths are explored step by step with the join table; scope, administrator
 * and line manager are their quantifiers written as loops over roles. */
#ifndef MODEL_H
#define MODEL_H

#include "calls.h"
#include <stdbool.h>

enum { ROLES = 64, EDGES = 2016, NONE = 64, RIGHTS = 5, ALL_RIGHTS = 31 };
enum { ADD_ROLE = 1, REMOVE_ROLE, ADD_EDGE, REMOVE_EDGE, CHANGE_EDGE, GIVE_RIGHTS, TAKE_RIGHTS };
enum { ASKED, IN_FILE, IN_WRITING };

/* kind[senior][junior] is 0 where no edge stands, else 1 = I, 2 = A, 3 = IA. The right of command 1 is the lowest bit. */
struct model {
    bool live[ROLES];
    uint8_t kind[ROLES][ROLES];
    uint8_t rights[ROLES];
};

/* The values that a board record keeps beside its tables, right or not. */
struct stored {
    uint64_t derives[ROLES], derivers[ROLES];
    uint8_t manager[ROLES];
};

/* A board with its stored values, beside what its paths say. */
struct view {
    struct model board;
    struct stored stored;
    bool reaches[ROLES][ROLES], derives[ROLES][ROLES];
};

/* model.c */
bool in(uint64_t set, int role);
void from_board(const struct board *b, struct view *v); /* and looks */
void to_board(const struct view *v, struct board *b);
void found(struct model *m);
bool join_associates(void); /* paths are explored from the left; so it doesn't matter */
void look(struct view *v); /* fills in what the paths of v->board say */
void keep(struct view *v); /* and then the right stored values */
bool in_scope(const struct view *v, int a, int r);
bool administers(const struct view *v, int a, int r);
int scope_count(const struct view *v, int a);
int line_manager(const struct view *v, int r); /* or NONE */
int steps(const struct view *v, int r);
bool loops(const struct view *v);
bool unmanaged(const struct view *v);
bool sound_tables(const struct view *v);
bool right_values(const struct view *v);
bool sound_rights(const struct model *m);
bool sound(const struct view *v); /* all three */
bool on_edge(const struct command *c);   /* 3 to 5 */
bool on_rights(const struct command *c); /* 6 and 7 */
bool holds(const struct model *m, int x, int right); /* x itself; rights are 1 to 5 */
bool may_use(const struct view *v, int a, int right);
bool asks_for(const struct command *c, int right);
bool lacks_right(const struct view *v, const struct command *c); /* the actor, one that the command asks for */
/* The refusal number; `after` is the board afterwards where it is 0, and means nothing where it is not. */
uint8_t decide(const struct view *before, const struct command *c, struct view *after);
uint8_t decide_on_sound(const struct view *before, const struct command *c); /* the number alone: the drawings ask often */
uint8_t step_on_sound(const struct view *before, const struct command *c, struct view *after); /* without stored values */

/* why.c: why a role is out of scope, and which role of a command is the first to offend */
enum { NOT_DERIVED = 1, IN_THE_WAY, ITSELF };
struct why {
    uint8_t cause, in_the_way; /* cause 0: in scope */
};
bool bars(const struct view *v, int x, int a, int r); /* x keeps r out of the scope of a */
struct why why(const struct view *v, int a, int r, bool strict); /* r is out of the scope, or strict scope, of a */
enum named { THE_REMOVED, THE_TARGET, THE_SENIOR, THE_JUNIOR, A_SENIORS, I_SENIORS, A_JUNIORS, I_JUNIORS, NAMED };
struct offence {
    enum named named; /* where the command names the role */
    int role;
    struct why why; /* cause 0: none offends */
};
struct offence first_offence(const struct view *v, const struct command *c);

/* file.c */
enum { HH_TRAILER = 6, HR_TRAILER = 8, HH_MOST = 6118, HR_MOST = 6184 };
struct parts {
    const uint8_t *role, *edge, *right; /* no rights in an HH file */
    size_t roles, edges;
};
size_t distance(const uint8_t *at); /* 16 bits, low byte first */
bool ends_with(const uint8_t *file, size_t len, const char *mark);
bool bad_frame(const uint8_t *file, size_t len, struct parts *p); /* and finds its parts where it isn't */
bool founders_alone(const struct model *m); /* role 0 has all the rights, and nobody else any: such a board's file is HH */
uint8_t read_file(const uint8_t *file, size_t len, struct view *v);
uint8_t write_file(const struct view *v, uint8_t *buffer, size_t room, size_t at, size_t *len);
size_t put_file(const struct model *m, uint8_t *file); /* sound or not; FILE_MAX bytes are enough */
enum { FILE_MAX = 2 * ROLES + 3 * ROLES * ROLES + HR_TRAILER };

/* answers.c: what board.h promises, of a file that was read once; and model_apply and the rest, as in calls.h */
struct opened {
    const uint8_t *file;
    size_t len;
    uint8_t number;
    struct view view;
};
void open_file(struct opened *o, const uint8_t *file, size_t len);
uint64_t answer_apply(const struct view *before, const struct command *c, struct view *after); /* as from decide */
uint64_t answer_check(const struct opened *o);
uint64_t answer_derives(const struct opened *o, uint32_t x, uint32_t y);
uint64_t answer_scope(const struct opened *o, uint32_t a, uint32_t r);
uint64_t answer_manager(const struct opened *o, uint32_t r);
uint64_t answer_steps(const struct opened *o, uint32_t r);
uint64_t answer_stretch(const struct opened *o, uint32_t role);
uint64_t answer_command(const struct opened *o, const struct command *c, uint8_t *out, size_t room);
uint64_t answer_found(struct board *b);
uint64_t answer_read(const struct opened *o, struct board *b);
uint64_t answer_write(const struct view *v, uint8_t *out, size_t room, size_t at);
/* `left` is the board that the run leaves, until another run; `before` itself where nothing is changed. */
uint64_t answer_run(const struct view *before, const struct command *commands, size_t n, uint64_t *answers, size_t m,
                    const struct view **left);

/* jobs.c: the job list above the board, and model_jobs_start and the rest. The list is changed where the answer's number is 0. */
uint32_t place_of(const struct jobs *list, uint32_t job); /* its place in the rows; JOBS_MOST where it is past the list */
bool is_held(const struct jobs *list, uint32_t place);
uint64_t answer_start(struct jobs *list, const uint8_t *roles, size_t n);
uint64_t answer_claim(const struct view *v, struct jobs *list, uint32_t job, uint32_t member, uint32_t role);
uint64_t answer_release(const struct view *v, struct jobs *list, uint32_t job, uint32_t member, uint32_t role);
uint64_t answer_job(const struct jobs *list, uint32_t job);

/* What was asked of a list since its start and what was answered, in order; and what follows from that alone. */
struct job_event {
    bool claims; /* or releases */
    uint8_t number;
    uint32_t job, member;
};
bool holder_by_log(const struct job_event *log, size_t n, uint32_t job, uint32_t *member); /* false: nobody holds it */
struct job_counts {
    size_t open, held;
    bool fits; /* no job has more than one claim too many, and two claims of a job have a release between them */
};
struct job_counts counts_by_log(const struct job_event *log, size_t n, size_t listed);

/* examples.c: the scope document's examples; prints and counts those that go wrong */
int wrong_examples(const char *whose, const struct calls *of);

#endif
