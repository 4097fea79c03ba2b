/* The role board for programs in C.
 *
 * Link libhost.a, which `rt lib` makes in crates/host/out for x86-64 Linux. Each call checks all it is handed and decides by
 * itself, so nothing has to be tested before. It keeps nothing between calls, takes no memory from the heap and little
 * stack (docs/PERFORMANCE.md has the most that each call takes), and calls from several threads are fine on different
 * boards and buffers.
 *
 * It believes the caller who acts. Take `actor`, the role of whoever asks, from their login, and never from a form: whoever
 * may name the actor may do all that any role may.
 *
 * Of a pointer it asks what C asks: that many bytes are there. Hand over no null pointer, not even with length 0. What a
 * call writes (`b`, `out`, `answers`) may overlap nothing else that is handed over, and nobody else writes what is handed
 * over, or reads what is written, during the call.
 *
 *     uint8_t file[BOARD_FILE], next[BOARD_FILE];
 *     size_t len = ...;                                            // a board file, read from somewhere
 *     struct board b;
 *     if (BOARD_NUMBER(board_read(file, len, &b)) == 0)            // the tree view: one call, then only looking
 *         for (unsigned r = 1; r < BOARD_ROLES; r++)
 *             if (b.live >> r & 1)
 *                 printf("%u reports to %u\n", r, b.manager[r]);
 *     struct command c = { .code = 2, .actor = 0, .role = 5 };     // role 0 removes role 5
 *     uint64_t r = board_command(file, len, &c, next, sizeof next);
 *     if (BOARD_NUMBER(r) == 0)
 *         fwrite(next, 1, BOARD_VALUE(r), stdout);                 // the new file
 *     else if (BOARD_CAUSE(r) == BOARD_CAUSE_IN_THE_WAY)           // only a 6 has a cause
 *         printf("role %u is in the way of role %u\n", BOARD_IN_THE_WAY(r), BOARD_OFFENDING(r));
 *     else
 *         printf("refused: %u\n", BOARD_NUMBER(r));
 */
#ifndef BOARD_H
#define BOARD_H

#include <stddef.h>
#include <stdint.h>

#ifdef __cplusplus
extern "C" {
#endif

#define BOARD_ROLES 64   /* roles are 0 to 63; role 0 is the founding role */
#define BOARD_EDGES 2016 /* the most a board can have without a loop */
#define BOARD_FILE 6184  /* the bytes of the longest board file */
#define BOARD_PLAIN_FILE 6118 /* the bytes of the longest that ends in HH */

/* The right to give the command of a code, 1 to 5, as a bit of a rights byte; and all five. */
#define BOARD_RIGHT(code) (1u << ((code)-1))
#define BOARD_RIGHTS_ALL 31

/* ---- answers: a refusal number, where it arose, a value, and why a role is out of scope, in one number */

/* 0 done; 1 the board is not sound; 2 a number out of range; 3 a role isn't live; 4 the role, or every part named of
 * the edge, stands already; 5 there is no such edge, or a part to be removed is missing; 13 the actor may not use a right
 * that the command needs or names; 6 out of the actor's scope; 7 some role would reach itself; 8 the new role would be
 * outside the actor's strict scope; 9 some role would have no administrator; 10 bad frame of the file; 11 bad record in
 * the file; 12 not enough room in `out` or in `answers`. The first that holds: of a command in this order, 13 after 5
 * and before 6; of a file 10, 11, 7, 9; a run has 12 alone, and in `answers` its commands' numbers. */
#define BOARD_NUMBER(answer) ((uint32_t)((answer)&0xff))

#define BOARD_PLACE(answer) ((uint32_t)((answer) >> 8 & 0xff))
#define BOARD_PLACE_ASKED 0   /* the command or the question (and every answer with number 0) */
#define BOARD_PLACE_FILE 1    /* the file handed in */
#define BOARD_PLACE_WRITING 2 /* `out`, or a run's `answers`, is too short */

/* Beside a refusal the value is 0, and BOARD_NO_MANAGER from board_manager. */
#define BOARD_VALUE(answer) ((uint32_t)((answer) >> 16 & 0xffff))

/* What is out of scope, and why. A command's 6 has all three; board_scope's no has the cause and the role in the way,
 * beside offending role 0. With every other answer they are 0, but that board_stretch has its length there, and jobs_job
 * of jobs.h its member.
 *
 * The offending role is the first that isn't in the actor's scope or, where that is asked, in its strict scope, which
 * leaves out the actor. Looked through in this order: the role of code 2 (strict), of 6 and 7, or the senior, the junior,
 * then the A-seniors, I-seniors, A-juniors (strict) and I-juniors (strict) of code 1, each set from its lowest role. */
#define BOARD_OFFENDING(answer) ((uint32_t)((answer) >> 32 & 0xff))

#define BOARD_CAUSE(answer) ((uint32_t)((answer) >> 40 & 0xff))
#define BOARD_CAUSE_NOT_DERIVED 1 /* the actor doesn't derive the role */
#define BOARD_CAUSE_IN_THE_WAY 2  /* the actor does, and so does a live role unrelated to the actor */
#define BOARD_CAUSE_ITSELF 3      /* the role is the actor, and strict scope is asked */

/* The lowest such role, which may be role 0: neither it nor the actor derives the other. Beside another cause this is 0. */
#define BOARD_IN_THE_WAY(answer) ((uint32_t)((answer) >> 48 & 0xff))

/* ---- boards */

/* Bit r of `live`: role r is live. Bit j of i[s] (of a[s]): senior s has junior j in the I table (in the A table).
 *
 * What follows from these stands beside them. Bit y of derives[x], and bit x of derivers[y]: x derives y, as a live role
 * does itself. manager[r]: the line manager of r. A role that isn't live has empty sets, and it and role 0 have
 * BOARD_NO_MANAGER. A board with any of these wrong is not sound.
 *
 * rights[r]: the rights that r holds, BOARD_RIGHT of each. A byte above BOARD_RIGHTS_ALL, and a right at a role that isn't
 * live, is not sound. A role may use the rights that it holds, and those of the roles that it derives.
 *
 * After a call on it that answered 0 a board is sound (a run answers 0 on any board: after one it is sound where it was
 * before, and so unless answers[0] is 1), and a program may read these questions' answers off it:
 *     does x derive y           derives[x] >> y & 1
 *     is r in the scope of a    (derives[a] >> r & 1) && (derivers[r] & ~(derives[a] | derivers[a])) == 0
 *     who is in a's way to r    where a derives r, the lowest role of derivers[r] & ~(derives[a] | derivers[a])
 *     the line manager of r     manager[r]
 *     the steps from r          how often r = manager[r] until r is 0, for a live r
 *     which rights a may use    rights[x] of all x in derives[a], or'ed */
struct board {
    uint64_t live, i[BOARD_ROLES], a[BOARD_ROLES], derives[BOARD_ROLES], derivers[BOARD_ROLES];
    uint8_t manager[BOARD_ROLES], rights[BOARD_ROLES];
};
#define BOARD_NO_MANAGER 64

/* Board files are of two kinds, told apart by their last two bytes, and every call takes both. A board where role 0 holds
 * all five rights and no other role any has a file that ends in HH, at most BOARD_PLAIN_FILE bytes, and no rights in it. Every other
 * board has one that ends in HR, with a rights byte for each live role. So a board has one file. */

/* Fills in the founding board: role 0 is live and holds all five rights, and there is no edge. The answer is 0. */
uint64_t board_found(struct board *b);

/* The board in a file, filled in with what follows from its tables. A refusal (10, 11, 7 or 9) leaves `b` as it was. The
 * value is 0. */
uint64_t board_read(const uint8_t *file, size_t file_len, struct board *b);

/* Writes the file of a board into `out` from place `at` on: its length is the value, and the bytes before and after it
 * stay. 1 where the board is not sound, then 12 where `at` is past the end or the file is longer than what is left from
 * there, whatever `at` is: these leave all of `out` as it was. */
uint64_t board_write(const struct board *b, uint8_t *out, size_t out_len, size_t at);

/* ---- commands */

/* Code 1 adds a role, 2 removes one, 3 adds an edge, 4 removes one, 5 changes its kind. `role` is the role of 1 and 2,
 * and the senior of 3, 4 and 5; their kind names parts of the edge: 1 (I), 2 (A) or 3 (both). Code 3 leaves what stands
 * and what is named, so A added to I gives both; 4 takes the parts named away, and the edge goes with its last part; 5
 * replaces the kind. The four sets are for code 1: bit r is role r. Each of the five needs the right of its code. A new
 * role holds none; a removed role's rights go.
 *
 * Code 6 gives the rights of the byte `rights` to `role`, 7 takes them from it. Both need no right of their own, but the
 * actor must be one that may use every right named (else 13), and the role in its scope, where the actor itself is, too.
 * A byte above BOARD_RIGHTS_ALL is 2. Giving what is held, taking what isn't, and the byte 0 are done and change nothing.
 * Nothing keeps a board from losing its last right.
 *
 * What a command doesn't use may hold anything. A number that is no role stays none: it is 2, and not cut to a role. */
struct command {
    uint32_t code, actor, role, junior, kind, rights;
    uint64_t a_seniors, i_seniors, a_juniors, i_juniors;
};

/* One command on a board. Number 0 changes the board, with what follows from its tables; any other leaves it as it was.
 * Place and value are 0; a 6 has the offending role, its cause and the role in the way. */
uint64_t board_apply(struct board *b, const struct command *c);

/* A run of `n` commands on a board, one after the other, as so many calls of board_apply would have it: each is decided on
 * the board that the one before it left, and a refused one doesn't end the run. What command k was answered, whole as
 * board_apply answers it, is in answers[k] afterwards; the places from `n` on stay.
 *
 * The run's own number is 0, whatever its commands were answered; or 12, with BOARD_PLACE_WRITING, where `m`, the places
 * of `answers`, is below `n`: then no command was tried, and board and answers are as they were. The value is 0. A run of
 * no commands is done. */
uint64_t board_run(struct board *b, const struct command *commands, size_t n, uint64_t *answers, size_t m);

/* One command on the board in a file. Done puts the new file at the start of `out` (BOARD_FILE bytes are always enough),
 * and its length is the value; the rest of `out` stays. A refusal leaves all of `out` as it was; a 6 has what
 * board_apply's has. */
uint64_t board_command(const uint8_t *file, size_t file_len, const struct command *c, uint8_t *out, size_t out_len);

/* ---- questions about the board in a file: each call reads it anew */

/* Can the file be read. */
uint64_t board_check(const uint8_t *file, size_t file_len);

/* Does x derive y: the value is 1 for yes, 0 for no. */
uint64_t board_derives(const uint8_t *file, size_t file_len, uint32_t x, uint32_t y);

/* Is r in the scope of a, and how many live roles are in that scope, a itself among them. A no has cause 1 or 2, and
 * the role in the way. */
uint64_t board_scope(const uint8_t *file, size_t file_len, uint32_t a, uint32_t r);
#define BOARD_SCOPE_YES(answer) ((uint32_t)((answer) >> 16 & 1))
#define BOARD_SCOPE_COUNT(answer) ((uint32_t)((answer) >> 17 & 0x7fff))

/* The line manager of r: the value is its number, or BOARD_NO_MANAGER. Role 0 has none, which is no refusal. */
uint64_t board_manager(const uint8_t *file, size_t file_len, uint32_t r);

/* From r to role 0 by line managers: the value is the number of steps. */
uint64_t board_steps(const uint8_t *file, size_t file_len, uint32_t r);

/* Where the edge records of a senior stand in the file. One with no edge has length 0, and then start 0. */
uint64_t board_stretch(const uint8_t *file, size_t file_len, uint32_t role);
#define BOARD_STRETCH_START(answer) ((uint32_t)((answer) >> 16 & 0xffff))
#define BOARD_STRETCH_LENGTH(answer) ((uint32_t)((answer) >> 32 & 0xffff))

#ifdef __cplusplus
}
#endif

#endif
