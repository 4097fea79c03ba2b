/* Rounds of 64 workers at once on one board file, each with several changes, one after the other. In `third` they go through ./change,
 * and a third of them is killed; in `mixed` every second worker goes through ./change and the others don't. */
#include "race.h"
#include <stdlib.h>
#include <string.h>
#include <sys/prctl.h>
#include <sys/wait.h>
#include <unistd.h>

static struct round *round_;
static struct view first;
static char file[8192], lock[8200];
static int64_t from; /* when the round began */
static enum { NOBODY_QUEUES, ALL_QUEUE, EVERY_SECOND } queueing;

static bool by_script(int worker) { return queueing == ALL_QUEUE || (queueing == EVERY_SECOND && worker % 2 == 1); }

/* ---- a round */

static void work_as(int worker)
{
    prctl(PR_SET_CHILD_SUBREAPER, 1); /* a program whose shell was killed is then ours to wait for */
    while (!round_->go) usleep(100);
    for (int k = 0; k < round_->changes; k++) {
        struct asked *a = &round_->asked[worker][k];
        struct setting s = {.by_script = by_script(worker), .own_group = by_script(worker)};
        a->answer.began = now();
        hear(begin(&a->change, file, s), &a->answer, round_->death[worker][k]);
    }
    _exit(0);
}

static pid_t child(void)
{
    pid_t pid = fork();
    if (pid < 0) perror("fork"), exit(2);
    return pid;
}

static void run_round(void)
{
    pid_t worker[WORKERS], reader = child();
    if (reader == 0) {
        keep_looking(file, &round_->looks, round_->look);
        _exit(0);
    }
    for (int w = 0; w < WORKERS; w++)
        if ((worker[w] = child()) == 0) work_as(w);
    from = now();
    round_->go = 1;
    for (int w = 0; w < WORKERS; w++) waitpid(worker[w], NULL, 0);
    round_->looks.over = 1;
    waitpid(reader, NULL, 0);
}

static void draw_round(int changes)
{
    uint8_t bytes[FILE_MAX];
    memset(round_, 0, sizeof *round_);
    round_->changes = changes;
    draw_board(&first);
    draw_changes(&first, &round_->asked[0][0], changes);
    unlink(lock);
    put_bytes(file, bytes, put_file(&first.board, bytes));
}

/* ---- what is to be said of it */

static struct event *event_of(const struct asked *a, struct event *e)
{
    *e = (struct event){.asked = a, .began = a->answer.began, .ended = a->answer.ended};
    return e;
}

static void add_looks(struct race *race, struct event *event)
{
    struct looks *l = &round_->looks;
    struct look *last = &round_->look[l->count < LOOKS ? l->count++ : LOOKS - 1];
    uint8_t bytes[FILE_MAX];
    last->began = now();
    if (!get_bytes(file, bytes, sizeof bytes, &last->len)) last->len = 0;
    if (last->len > LOOK_BYTES) last->len = LOOK_BYTES;
    memcpy(last->bytes, bytes, last->len);
    last->ended = now();
    for (int k = 0; k < l->count; k++) event[k] = (struct event){.look = &round_->look[k], .began = round_->look[k].began, .ended = round_->look[k].ended};
    race->lane[LANES - 1] = (struct lane){l->count, event};
}

/* Each worker's changes in a lane of their own; those that were killed before they said anything stand apart. */
static void lay_out(struct race *race)
{
    static struct event event[WORKERS][OF_ONE], looks[LOOKS], perhaps[WORKERS * OF_ONE];
    memset(race, 0, sizeof *race);
    race->first = &first;
    race->killed = perhaps;
    for (int w = 0; w < WORKERS; w++) {
        race->lane[w].event = event[w];
        for (int k = 0; k < round_->changes; k++) {
            struct asked *a = &round_->asked[w][k];
            if (a->reply.kind == CUT_SHORT && a->reply.given == 0) event_of(a, &perhaps[race->perhaps++]);
            else event_of(a, &event[w][race->lane[w].count++]);
        }
    }
    add_looks(race, looks);
}

/* 0 all done, 1 something refused, 75 busy. */
static bool right_status(const struct asked *a)
{
    int wanted = a->reply.kind == BUSY ? 75 : 0;
    for (int k = 0; k < a->reply.given; k++)
        if (a->reply.of[k] != 0) wanted = 1;
    return WIFEXITED(a->answer.status) && WEXITSTATUS(a->answer.status) == wanted;
}

static const char *read_replies(void)
{
    const char *fault = NULL, *one;
    for (int w = 0; w < WORKERS; w++)
        for (int k = 0; k < round_->changes; k++) {
            struct asked *a = &round_->asked[w][k];
            if ((one = read_reply(&a->change, &a->answer, &a->reply))) {
                fault = one;
                printf("%s:\n", one);
                write_log(stdout, a, 1, from);
            } else if (by_script(w) && !a->answer.killed && !right_status(a)) fault = "./change ends with another status than its answers have";
            count_reply(a);
            if (a->answer.killed) counts.killed[round_->death[w][k].victim]++;
        }
    return fault;
}

/* One change more, that is refused: it must go through whatever the dead ones left. */
static bool clear_lock(void)
{
    static struct asked a;
    as_command(&a.change, (struct command){.code = REMOVE_ROLE, .actor = 0, .role = 0});
    give(&a.change, file, (struct setting){.by_script = true}, &a.answer);
    return !read_reply(&a.change, &a.answer, &a.reply) && a.reply.given == 1 && a.reply.of[0] != 0 && right_status(&a);
}

static const char *judge(FILE *log)
{
    static struct race race;
    const char *fault = read_replies();
    if (fault) return fault;
    if (round_->looks.unsound > 0) return "the reader met a file that is no board";
    if (queueing == ALL_QUEUE && !clear_lock()) return "./change doesn't clear the lock that a dead change left";
    if (exists(lock)) return "the lock is left over";
    lay_out(&race);
    struct found_order o = find_order(&race, log);
    counts.looks += round_->looks.count;
    counts.made += o.made;
    if (o.nodes > counts.most_nodes) counts.most_nodes = o.nodes;
    if (o.too_long) return "no order was found";
    return o.found ? NULL : "there is no order that explains the answers";
}

static void write_round(FILE *log)
{
    uint8_t bytes[FILE_MAX];
    size_t len = put_file(&first.board, bytes);
    fprintf(log, "the file before:");
    for (size_t k = 0; k < len; k++) fprintf(log, " %d", bytes[k]);
    fprintf(log, "\nthe reader: %ld reads, %d kept, %ld unsound (the first: %zu bytes, refused %d)\n", round_->looks.reads, round_->looks.count,
            round_->looks.unsound, round_->looks.bad_len, round_->looks.number);
    for (int w = 0; w < WORKERS; w++) {
        fprintf(log, "worker %d\n", w);
        write_log(log, round_->asked[w], round_->changes, from);
    }
}

static void settle_round(const char *name, int number)
{
    char log_name[8192];
    snprintf(log_name, sizeof log_name, "%s/%s-%lu-%d.log", logs, name, (unsigned long)seed, number);
    FILE *log = fopen(log_name, "w");
    if (!log) perror(log_name), exit(2);
    const char *fault = judge(log);
    if (fault) write_round(log);
    fclose(log);
    counts.rounds++;
    if (fault) disagree("%s, round %d: %s; the answers are in %s", name, number, fault, log_name);
    else unlink(log_name);
}

static void prepare(void)
{
    if (!round_) round_ = shared(sizeof *round_);
    snprintf(file, sizeof file, "%s", in_work("board"));
    snprintf(lock, sizeof lock, "%s.lock", file);
}

static void all_rounds(const char *name, int n)
{
    prepare();
    for (int k = 0; k < n; k++) {
        draw_round(1 + below(OF_ONE));
        run_round();
        settle_round(name, k);
    }
    print_counts(name, WORKERS);
}

void rounds(int n) { all_rounds("rounds", n); }

void mixed(int n)
{
    queueing = EVERY_SECOND;
    all_rounds("mixed", n);
}

/* ---- a third of them killed */

static int64_t longest(void)
{
    int64_t most = 0;
    for (int w = 0; w < WORKERS; w++)
        for (int k = 0; k < round_->changes; k++) {
            const struct answer *a = &round_->asked[w][k].answer;
            if (a->ended - a->began > most) most = a->ended - a->began;
        }
    return most;
}

/* At any moment of the time that changes took in the round before; mostly when the program is at work. */
static void draw_deaths(int64_t span)
{
    for (int w = 0; w < WORKERS; w++)
        for (int k = 0; k < round_->changes; k++) {
            if (chance(40)) continue; /* of those drawn some end before their moment, and a third is killed */
            int64_t after = (int64_t)(draw64() % (uint64_t)span) / 4 * 3;
            round_->death[w][k] = (struct death){THE_GROUP + below(3), after, chance(60), below(3000) * 1000};
        }
}

void third(int n)
{
    int64_t span = 1000000000;
    prepare();
    queueing = ALL_QUEUE;
    for (int k = 0; k < n; k++) {
        draw_round(1 + below(2));
        draw_deaths(span);
        run_round();
        span = longest();
        settle_round("third", k);
    }
    print_counts("third", WORKERS);
}
