/* How many changes a second one file takes. Each figure is the median of several runs. */
#include "race.h"
#include <stdlib.h>
#include <string.h>
#include <sys/vfs.h>
#include <sys/wait.h>
#include <unistd.h>

enum { RUNS = 7, EVENING = 30 };
static char file[8192];
static struct view first;

/* ---- the work: two changes by turns, so that each is done and the board stays as large */

static void prepare_board(void)
{
    uint8_t bytes[FILE_MAX];
    put_bytes(file, bytes, put_file(&first.board, bytes));
}

static void turn(struct change *c, int k, int worker)
{
    as_command(c, (struct command){.code = k % 2 == 0 ? GIVE_RIGHTS : TAKE_RIGHTS, .actor = 0, .role = 1 + worker, .rights = 1});
}

static void refused_turn(struct change *c, int k, int worker)
{
    (void)k, (void)worker;
    as_command(c, (struct command){.code = REMOVE_ROLE, .actor = 0, .role = 0});
}

static void evening_turn(struct change *c, int k, int worker)
{
    char *at = c->text;
    c->way = ON_STANDARD_INPUT, c->commands = 0;
    for (int j = 0; j < EVENING; j++) at += sprintf(at, "0 %s %d add-role\n", (j + k) % 2 == 0 ? "give-rights" : "take-rights", 1 + worker);
}

/* ---- a run of it */

struct job {
    void (*turn)(struct change *, int, int);
    bool by_script;
    int workers, changes; /* of all together */
    const char *name;
};

static void work_through(const struct job *j, int worker)
{
    static struct asked a;
    for (int k = 0; k < j->changes / j->workers; k++) {
        j->turn(&a.change, k, worker);
        give(&a.change, file, (struct setting){.by_script = j->by_script}, &a.answer);
        if (a.answer.said_len == 0) fprintf(stderr, "times: %s\n", a.answer.complained), exit(2);
    }
}

/* Milliseconds for each change. */
static double measure(const struct job *j)
{
    pid_t pid[WORKERS];
    int status;
    prepare_board();
    int64_t began = now();
    for (int w = 0; w < j->workers; w++)
        if ((pid[w] = fork()) == 0) work_through(j, w), _exit(0);
    for (int w = 0; w < j->workers; w++) {
        waitpid(pid[w], &status, 0);
        if (!WIFEXITED(status) || WEXITSTATUS(status) != 0) disagree("times: a worker ended with %x", status);
    }
    return (now() - began) / 1e6 / j->changes;
}

static int by_size(const void *x, const void *y) { return *(const double *)x < *(const double *)y ? -1 : *(const double *)x > *(const double *)y; }

static double row(const struct job *j)
{
    double each[RUNS];
    for (int k = 0; k < RUNS; k++) each[k] = measure(j);
    qsort(each, RUNS, sizeof each[0], by_size);
    printf("| %-62s | %8.2f | %8.2f | %8.2f | %8.0f |\n", j->name, each[RUNS / 2], each[0], each[RUNS - 1], 1000 / each[RUNS / 2]);
    fflush(stdout);
    return each[RUNS / 2];
}

static const char *where_to(void)
{
    struct statfs s;
    return statfs(work, &s) == 0 && s.f_type == 0x01021994 ? "a folder in memory (tmpfs)" : "a folder on the disk";
}

void times(int n)
{
    const struct job direct[] = {
        {turn, false, 1, n, "boardchange, a command that is done"},
        {refused_turn, false, 1, n, "boardchange, a command that is refused"},
        {evening_turn, false, 1, n, "boardchange, a run of 30 on standard input"},
        {turn, false, 8, n, "boardchange, 8 at once"},
    }, script[] = {
        {turn, true, 1, n / 4, "./change, a command that is done"},
        {refused_turn, true, 1, n / 4, "./change, a command that is refused"},
        {evening_turn, true, 1, n / 4, "./change, a run of 30 on standard input"},
        {turn, true, 8, n / 4, "./change, 8 at once"},
    };
    snprintf(file, sizeof file, "%s", in_work("board"));
    found(&first.board);
    for (int x = 1; x < 20; x++) first.board.live[x] = true, first.board.kind[x < 10 ? 0 : x - 9][x] = 3;
    printf("%s; a board of 20 roles; the median of %d runs, the least and the most\n\n", where_to(), RUNS);
    printf("| %-62s | %8s | %8s | %8s | %8s |\n|---|---:|---:|---:|---:|\n", "one file", "ms each", "least", "most", "a second");
    double lock_alone = row(&direct[0]), shell = 0;
    for (int k = 1; k < 4; k++) row(&direct[k]);
    if (*change_script) shell = row(&script[0]);
    for (int k = 1; k < 4 && *change_script; k++) row(&script[k]);
    if (*change_script) printf("\nA change from the shell takes %.1f times as long as through the lock alone.\n", shell / lock_alone);
}
