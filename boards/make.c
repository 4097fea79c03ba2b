/* Makes the board files of this folder through the library's own writer.
 *
 * Each board is listed by its edges and rights. The bytes are laid out here, and then a command that is done and changes nothing, or
 * that adds a role and one that removes it, is given to the library, which reads the file, decides and writes it anew. A board that
 * the library refuses stops the program. */
#include <stdint.h>
#include <stdio.h>
#include <stdlib.h>
#include <string.h>

#include "board.h"

struct edge { uint8_t senior, junior, kind; };

enum { I = 1, A = 2, IA = 3 };

static const struct edge p[] = {{0, 1, I}, {1, 2, I}, {1, 3, A}};
static const struct edge w[] = {{0, 1, I}, {0, 2, I}, {0, 3, I}, {1, 3, A}, {1, 4, A}, {3, 5, A}, {4, 5, A}};
static const struct edge l[] = {{0, 1, I}, {0, 3, A}, {1, 2, I}, {2, 3, A}};
static const struct edge cooperative[] = {
    {0, 1, IA}, {0, 2, IA}, {0, 3, I}, {1, 4, IA}, {1, 5, IA}, {1, 12, I}, {2, 13, IA}, {2, 14, A}, {3, 15, I}, {3, 19, A},
    {4, 6, A}, {4, 7, A}, {4, 8, I}, {5, 9, A}, {5, 10, A}, {5, 11, I}, {12, 16, I}, {13, 17, IA}, {13, 18, A},
};

enum { ALL = BOARD_RIGHTS_ALL, ROLES_ONLY = 3, EDGES_ONLY = 28 }; /* the rights of commands 1 and 2, and of 3, 4 and 5 */

/* Role by role. Where there is no list, role 0 has all rights and nobody else any, and the file is HH. */
static const uint8_t founder_and_1[64] = {ALL, ALL}, coordinators[64] = {ALL, ALL, EDGES_ONLY, ROLES_ONLY};

static size_t put16(uint8_t *at, size_t n)
{
    at[0] = (uint8_t)n, at[1] = (uint8_t)(n >> 8);
    return 2;
}

static size_t lay(uint8_t *file, size_t roles, const struct edge *edges, size_t count, const uint8_t *rights)
{
    size_t n = 0;
    while (n < roles) file[n] = (uint8_t)n, n++;
    for (size_t k = 0; k < count; k++) {
        file[n++] = edges[k].senior;
        file[n++] = edges[k].junior;
        file[n++] = edges[k].kind;
    }
    if (rights) memcpy(file + n, rights, roles), n += roles;
    size_t all = n;
    if (rights) n += put16(file + n, roles);
    n += put16(file + n, count > 0 ? all - roles : 0);
    n += put16(file + n, all);
    file[n++] = 'H';
    file[n++] = rights ? 'R' : 'H';
    return n;
}

/* One command by whichever role may give it; the new file takes the old one's place. */
static size_t give(uint8_t *file, size_t len, struct command c)
{
    uint8_t out[BOARD_FILE];
    for (c.actor = 0; c.actor < BOARD_ROLES; c.actor++) {
        uint64_t r = board_command(file, len, &c, out, sizeof out);
        if (BOARD_NUMBER(r) != 0) continue;
        memcpy(file, out, BOARD_VALUE(r));
        return BOARD_VALUE(r);
    }
    fprintf(stderr, "the library refuses this board: %u\n", BOARD_NUMBER(board_check(file, len)));
    exit(1);
}

static void make(const char *name, size_t roles, const struct edge *edges, size_t count, const uint8_t *rights)
{
    uint8_t file[BOARD_FILE];
    size_t len = lay(file, roles, edges, count, rights);
    if (count > 0) {
        struct edge e = edges[0];
        len = give(file, len, (struct command){.code = 5, .role = e.senior, .junior = e.junior, .kind = e.kind});
    } else {
        len = give(file, len, (struct command){.code = 1, .role = 1, .i_seniors = 1});
        len = give(file, len, (struct command){.code = 2, .role = 1});
    }
    FILE *out = fopen(name, "wb");
    if (!out || fwrite(file, 1, len, out) != len || fclose(out) != 0) {
        perror(name);
        exit(1);
    }
    printf("%s: %zu bytes\n", name, len);
}

int main(void)
{
    static struct edge chain[63], full[2016];
    static uint8_t everybody[64];
    size_t n = 0;
    for (int s = 0; s < 64; s++)
        for (int j = s + 1; j < 64; j++) full[n++] = (struct edge){(uint8_t)s, (uint8_t)j, IA};
    for (int s = 0; s < 63; s++) chain[s] = (struct edge){(uint8_t)s, (uint8_t)(s + 1), I};
    memset(everybody, ALL, sizeof everybody);
    make("founding.board", 1, NULL, 0, NULL);
    make("p.board", 4, p, sizeof p / sizeof *p, founder_and_1);
    make("w.board", 6, w, sizeof w / sizeof *w, founder_and_1);
    make("l.board", 4, l, sizeof l / sizeof *l, founder_and_1);
    make("cooperative.board", 20, cooperative, sizeof cooperative / sizeof *cooperative, coordinators);
    make("chain.board", 64, chain, 63, NULL);
    make("full.board", 64, full, 2016, NULL);
    make("longest.board", 64, full, 2016, everybody);
    return 0;
}
