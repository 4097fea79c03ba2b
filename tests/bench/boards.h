/* The boards that time and stack are measured on, and the calls made on each. */
#ifndef BOARDS_H
#define BOARDS_H

#include "calls.h"

struct sample {
    char name[40];
    struct board board;
    uint8_t file[BOARD_FILE];
    size_t len;
    unsigned last; /* the role farthest from 0 */
};

void tree(struct sample *s, unsigned roles);
void chain(struct sample *s, unsigned roles);
void dense(struct sample *s, unsigned roles, unsigned edges); /* a chain of IA edges, then ever longer ones */
enum {
    FOUNDING, TREE_20, CHAIN_64, FULL, TREE_64, CHAIN_UPWARDS, TREE_MIXED, CROSSED, CHAIN_MIXED,
    TREE_20_HR, CHAIN_64_HR, FULL_HR
};
void choose(struct sample *s, int board);

/* What is measured. A done command is given with one that undoes it, so that both can be repeated. Barred is a 6, and a no
 * on scope, with many roles in the way. Given is a right, and then taken back; 13 is found when all that the actor derives has
 * been looked at. A view is the line manager and the steps of all live roles: from one board that is
 * read, or by two calls on the file for each role. An evening is thirty commands, done and refused, that leave the board as it
 * was: given as one run, or one by one.
 *
 * Jobs are listed under the role farthest from 0. They are claimed in its line manager's role, or found taken, which is 14; given
 * back by the holder in that role itself; and taken back by another in its line manager's role. A 15 is a claim, or another's
 * release, in that role, of a job under role 0.
 *
 * Founding a board is for the stack alone. */
enum deed {
    DONE, REFUSED_6, REFUSED_7, COMMAND, CHECK, DERIVES, SCOPE, MANAGER, STEPS, STRETCH, READ, WRITE, CALLS,
    BARRED_6 = CALLS, BARRED_SCOPE, GIVEN, REFUSED_13, GIVEN_COMMAND, VIEW_STORED, VIEW_BY_CALLS,
    EVENING_RUN, EVENING_APPLIED, CLAIM_DONE, CLAIM_14, CLAIM_15, GIVEN_BACK, TAKEN_BACK, RELEASE_15, LIST_START, LIST_JOB,
    FOUND, DEEDS
};
extern const char *const deed_name[DEEDS];
/* Does it so many times, and returns the number of calls, or of views, or of commands in the evenings. Ends the program where an answer isn't the right one. */
long perform(enum deed deed, const struct calls *c, struct sample *s, long times);

/* Which is measured on which boards. */
struct table {
    const char *title;
    int boards, deeds, board[4];
    enum deed deed[CALLS];
};
enum { EACH_CALL, NUMBERED, BARRED, WITH_RIGHTS, VIEWS, EVENINGS, JOBS, JOBS_15, LISTS, TABLES };
extern const struct table tables[TABLES];

#endif
