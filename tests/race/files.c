/* Files, and the folder that a test works in. */
#include "race.h"
#include <errno.h>
#include <fcntl.h>
#include <stdlib.h>
#include <string.h>
#include <sys/stat.h>
#include <unistd.h>

char work[4096], logs[4096];

static void die(const char *name)
{
    perror(name);
    exit(2);
}

const char *in_work(const char *name)
{
    static char path[8][8192];
    static int turn;
    turn = (turn + 1) % 8;
    snprintf(path[turn], sizeof path[0], "%s/%s", work, name);
    return path[turn];
}

void put_bytes(const char *name, const uint8_t *bytes, size_t len)
{
    int fd = open(name, O_WRONLY | O_CREAT | O_TRUNC | O_CLOEXEC, 0644);
    if (fd < 0 || write(fd, bytes, len) != (ssize_t)len || close(fd) != 0) die(name);
}

bool get_bytes(const char *name, uint8_t *bytes, size_t room, size_t *len)
{
    int fd = open(name, O_RDONLY | O_CLOEXEC);
    if (fd < 0 && errno == ENOENT) return false;
    if (fd < 0) die(name);
    ssize_t n;
    *len = 0;
    while (*len < room && (n = read(fd, bytes + *len, room - *len)) > 0) *len += n;
    close(fd);
    return true;
}

bool exists(const char *name)
{
    struct stat s;
    return lstat(name, &s) == 0;
}

bool holds_bytes(const char *name, const uint8_t *bytes, size_t len)
{
    uint8_t there[FILE_MAX];
    size_t n;
    if (!get_bytes(name, there, sizeof there, &n)) return false;
    return n == len && memcmp(there, bytes, len) == 0;
}
