/* The board file: role bytes, edge records, in HR a rights byte for each role, and a trailer that points back. */
#include "model.h"
#include <string.h>

size_t distance(const uint8_t *at) { return at[0] + 256u * at[1]; }

bool ends_with(const uint8_t *file, size_t len, const char *mark)
{
    return len >= 2 && file[len - 2] == mark[0] && file[len - 1] == mark[1];
}

static bool bad_hh(const uint8_t *file, size_t len, struct parts *p)
{
    if (len < HH_TRAILER || len > HH_MOST) return true;
    const uint8_t *trailer = file + len - HH_TRAILER;
    size_t edge_distance = distance(trailer), role_distance = distance(trailer + 2);
    if (role_distance != len - HH_TRAILER) return true;
    if (edge_distance > role_distance) return true;
    if (edge_distance % 3 != 0) return true;
    p->role = file;
    p->roles = role_distance - edge_distance;
    p->edge = trailer - edge_distance;
    p->edges = edge_distance / 3;
    p->right = NULL;
    return p->roles < 1 || p->roles > ROLES;
}

/* The number of roles is the rights distance; between role bytes and rights bytes lie the edge records. */
static bool bad_hr(const uint8_t *file, size_t len, struct parts *p)
{
    if (len < HR_TRAILER || len > HR_MOST) return true;
    const uint8_t *trailer = file + len - HR_TRAILER;
    size_t n = distance(trailer), edge_distance = distance(trailer + 2), role_distance = distance(trailer + 4);
    if (role_distance != len - HR_TRAILER) return true;
    if (n < 1 || n > ROLES) return true;
    if (n + n > role_distance) return true;
    size_t between = role_distance - n - n;
    if (between % 3 != 0) return true;
    if (between == 0 && edge_distance != 0) return true;
    if (between != 0 && edge_distance != n + between) return true;
    p->role = file;
    p->roles = n;
    p->edge = file + n;
    p->edges = between / 3;
    p->right = trailer - n;
    return false;
}

bool bad_frame(const uint8_t *file, size_t len, struct parts *p)
{
    if (ends_with(file, len, "HH")) return bad_hh(file, len, p);
    if (ends_with(file, len, "HR")) return bad_hr(file, len, p);
    return true;
}

static bool listed(const struct parts *p, uint8_t role)
{
    return memchr(p->role, role, p->roles) != NULL;
}

/* What an HH file means: such a board has no HR file. */
static bool rights_of_hh(const struct parts *p)
{
    for (size_t k = 0; k < p->roles; k++)
        if (p->right[k] != (k == 0 ? ALL_RIGHTS : 0)) return false;
    return true;
}

static bool bad_right(const struct parts *p)
{
    for (size_t k = 0; k < p->roles; k++)
        if (p->right[k] > ALL_RIGHTS) return true;
    return rights_of_hh(p);
}

static bool bad_record(const struct parts *p)
{
    if (p->right != NULL && bad_right(p)) return true;
    if (p->role[0] != 0) return true;
    for (size_t k = 0; k < p->roles; k++) {
        if (p->role[k] >= ROLES) return true;
        if (k > 0 && p->role[k] <= p->role[k - 1]) return true;
    }
    for (size_t k = 0; k < p->edges; k++) {
        const uint8_t *e = p->edge + 3 * k, *last = e - 3;
        if (!listed(p, e[0])) return true;
        if (!listed(p, e[1])) return true;
        if (e[0] == e[1]) return true;
        if (e[2] < 1 || e[2] > 3) return true;
        if (k > 0 && e[0] < last[0]) return true;
        if (k > 0 && e[0] == last[0] && e[1] <= last[1]) return true;
    }
    return false;
}

uint8_t read_file(const uint8_t *file, size_t len, struct view *v)
{
    struct parts p;
    uint8_t number = 0;
    memset(&v->board, 0, sizeof v->board);
    if (bad_frame(file, len, &p)) number = 10;
    else if (bad_record(&p)) number = 11;
    else {
        for (size_t k = 0; k < p.roles; k++) v->board.live[p.role[k]] = true;
        if (p.right == NULL) v->board.rights[0] = ALL_RIGHTS;
        for (size_t k = 0; k < p.roles && p.right != NULL; k++) v->board.rights[p.role[k]] = p.right[k];
        for (size_t k = 0; k < p.edges; k++) v->board.kind[p.edge[3 * k]][p.edge[3 * k + 1]] = p.edge[3 * k + 2];
        look(v);
        if (loops(v)) number = 7;
        else if (unmanaged(v)) number = 9;
    }
    if (number != 0) {
        found(&v->board);
        look(v);
    }
    keep(v);
    return number;
}

bool founders_alone(const struct model *m)
{
    if (m->rights[0] != ALL_RIGHTS) return false;
    for (int x = 1; x < ROLES; x++)
        if (m->rights[x] != 0) return false;
    return true;
}

static size_t put_distance(uint8_t *file, size_t len, size_t distance)
{
    file[len] = distance % 256;
    file[len + 1] = distance / 256;
    return len + 2;
}

size_t put_file(const struct model *m, uint8_t *file)
{
    size_t len = 0, roles, edges;
    bool hh = founders_alone(m);
    for (int x = 0; x < ROLES; x++)
        if (m->live[x]) file[len++] = x;
    roles = len;
    for (int x = 0; x < ROLES; x++)
        for (int y = 0; y < ROLES; y++) {
            if (m->kind[x][y] == 0) continue;
            file[len++] = x;
            file[len++] = y;
            file[len++] = m->kind[x][y];
        }
    edges = len - roles;
    for (int x = 0; x < ROLES && !hh; x++)
        if (m->live[x]) file[len++] = m->rights[x];
    size_t role_distance = len, edge_distance = edges == 0 ? 0 : len - roles;
    if (!hh) len = put_distance(file, len, roles);
    len = put_distance(file, len, edge_distance);
    len = put_distance(file, len, role_distance);
    file[len++] = 'H';
    file[len++] = hh ? 'H' : 'R';
    return len;
}

uint8_t write_file(const struct view *v, uint8_t *buffer, size_t room, size_t at, size_t *len)
{
    static uint8_t file[FILE_MAX];
    *len = 0;
    if (!sound(v)) return 1;
    size_t need = put_file(&v->board, file);
    if (at > room || room - at < need) return 12;
    memcpy(buffer + at, file, need);
    *len = need;
    return 0;
}
