/* The program, started on a board file and a text, and its answers and the file held against what is wanted. */
#include "typed.h"
#include <fcntl.h>
#include <spawn.h>
#include <stdarg.h>
#include <stdio.h>
#include <stdlib.h>
#include <string.h>
#include <sys/stat.h>
#include <sys/wait.h>
#include <unistd.h>

enum { SAID_MOST = 16 << 20 };

struct given given;
uint64_t seed = 1;
char work[4096];
char **launch;

static char board_name[4200];
static uint8_t file_wanted[FILE_MAX], file_left[FILE_MAX + 1];
static char *said;
static size_t said_len;

void fail(const char *what)
{
    perror(what);
    exit(2);
}

/* ---- files */

static const char *in_work(const char *name)
{
    static char path[4][4200];
    static int turn;
    turn = (turn + 1) % 4;
    snprintf(path[turn], sizeof path[turn], "%s/%s", work, name);
    return path[turn];
}

static void put_bytes(const char *name, const void *bytes, size_t len)
{
    int fd = open(name, O_WRONLY | O_CREAT | O_TRUNC | O_CLOEXEC, 0644);
    if (fd < 0 || write(fd, bytes, len) != (ssize_t)len) fail(name);
    close(fd);
}

size_t get_bytes(const char *name, void *bytes, size_t room)
{
    int fd = open(name, O_RDONLY | O_CLOEXEC);
    size_t len = 0;
    if (fd < 0) fail(name);
    for (ssize_t n; (n = read(fd, (char *)bytes + len, room - len)) > 0;) len += n;
    close(fd);
    return len;
}

/* ---- what disagrees */

void print_escaped(const void *bytes, size_t len)
{
    const uint8_t *byte = bytes;
    for (size_t k = 0; k < len; k++) {
        if (byte[k] == '\n') printf("\\n\n");
        else if (byte[k] >= ' ' && byte[k] < 127 && byte[k] != '\\') putchar(byte[k]);
        else printf("\\x%02x", byte[k]);
    }
    putchar('\n');
}

static void print_hex(const char *name, const uint8_t *bytes, size_t len)
{
    printf("%s: ", name);
    for (size_t k = 0; k < len; k++) printf("%02x", bytes[k]);
    printf("\n");
}

static bool by_words;

static void disagrees(const char *format, ...)
{
    va_list of;
    va_start(of, format);
    printf("DISAGREEMENT (SEED=%lu): ", (unsigned long)seed);
    vprintf(format, of);
    printf("\n");
    va_end(of);
    print_hex("board file", given.file, given.file_len);
    printf("---- %s\n", by_words ? "words, given as arguments" : "text, on standard input");
    print_escaped(given.text, given.text_len);
    printf("---- wanted\n");
    print_escaped(given.wanted, given.wanted_len);
    printf("---- said\n");
    print_escaped(said, said_len);
    put_bytes(in_work("before.board"), given.file, given.file_len);
    printf("----\n%s/before.board and %s/input have board and text\n", work, work);
    exit(1);
}

/* The first line that differs, for whoever reads a text of hundreds. */
static void compare_answers(void)
{
    if (said_len == given.wanted_len && memcmp(said, given.wanted, said_len) == 0) return;
    size_t k = 0, from = 0;
    for (; k < said_len && k < given.wanted_len && said[k] == given.wanted[k]; k++)
        if (said[k] == '\n') from = k + 1;
    size_t s = from, w = from;
    while (s < said_len && said[s] != '\n') s++;
    while (w < given.wanted_len && given.wanted[w] != '\n') w++;
    disagrees("wanted '%.*s' and it said '%.*s'", (int)(w - from), given.wanted + from, (int)(s - from), said + from);
}

/* ---- the program */

extern char **environ;

/* With these words behind the file's name; the text comes on standard input. The status as from waitpid. */
static int start_program(char *const *with)
{
    char *argv[64];
    int n = 0, status;
    for (char **w = launch; *w; w++) argv[n++] = *w;
    argv[n++] = board_name;
    while (with && *with) argv[n++] = *with++;
    argv[n] = NULL;
    posix_spawn_file_actions_t streams;
    pid_t pid;
    posix_spawn_file_actions_init(&streams);
    posix_spawn_file_actions_addopen(&streams, 0, with ? "/dev/null" : in_work("input"), O_RDONLY, 0);
    posix_spawn_file_actions_addopen(&streams, 1, in_work("said"), O_WRONLY | O_CREAT | O_TRUNC, 0644);
    posix_spawn_file_actions_addopen(&streams, 2, in_work("trouble"), O_WRONLY | O_CREAT | O_TRUNC, 0644);
    if (posix_spawn(&pid, argv[0], &streams, NULL, argv, environ) != 0) fail(argv[0]);
    posix_spawn_file_actions_destroy(&streams);
    if (waitpid(pid, &status, 0) != pid) fail("waitpid");
    return status;
}

void give_and_compare(const struct model *left, char *const *with)
{
    struct stat was, is;
    by_words = with != NULL;
    put_bytes(board_name, given.file, given.file_len);
    put_bytes(in_work("input"), given.text, given.text_len);
    if (stat(board_name, &was) != 0) fail(board_name);
    int status = start_program(with);
    said_len = get_bytes(in_work("said"), said, SAID_MOST);
    size_t complained = get_bytes(in_work("trouble"), file_left, sizeof file_left);
    if (complained > 0) disagrees("it complains: %.*s", (int)complained, file_left);
    if (!WIFEXITED(status) || WEXITSTATUS(status) != 0) disagrees("it ended with %d", status);
    compare_answers();
    size_t len = get_bytes(board_name, file_left, sizeof file_left), wanted_file = put_file(left, file_wanted);
    if (len != wanted_file || memcmp(file_left, file_wanted, len) != 0) {
        print_hex("file wanted", file_wanted, wanted_file);
        print_hex("file left  ", file_left, len);
        disagrees("the file afterwards");
    }
    if (stat(board_name, &is) != 0) fail(board_name);
    if (!given.done && (is.st_ino != was.st_ino || is.st_mtim.tv_nsec != was.st_mtim.tv_nsec)) disagrees("nothing is done, and the file is another");
    if (access(in_work("b.board.lock"), F_OK) == 0) disagrees("the lock is still there");
}

void begin(void)
{
    snprintf(board_name, sizeof board_name, "%s/b.board", work);
    given.wanted = malloc(SAID_MOST), said = malloc(SAID_MOST);
    if (!given.wanted || !said) fail("malloc");
    unlink(in_work("b.board.lock")); /* where an earlier test was ended */
}
