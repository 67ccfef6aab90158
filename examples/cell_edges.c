/* The cell index on meshes of every number of cells up to 24, in 2D and 3D, with row lists and lists of large cells of
   every length up to two past what is needed, and with each list of the mesh or the index one entry short. Each list that
   is lent ends where memory ends, or begins where it begins: pages that may not be touched stand on both sides of it. A
   refusal has to leave every byte as it was, and so has a build past its new counts. */
#define _DEFAULT_SOURCE
#include "areas.h"
#include "gemlab.h"

#include <inttypes.h>
#include <string.h>

#define CELLS 24
#define MOST 65536
#define ROOM 1024
#define FILL 0xa5

/* The lists of a mesh and of its index, as they are lent. */
enum { COORDS, CORNERS, KEYS, CELL_LIST, LARGE, NUMBERS, FLOATS, X, ZETA, LISTS };

static const size_t entry_size[LISTS] = {8, 4, 8, 8, 8, 8, 8, 8, 8};
static struct area areas[LISTS];
static void *list[LISTS];
static size_t len[LISTS];
static char *before[LISTS];
static uint64_t calls, returned[32];

static void fail(const char *what, size_t dim, size_t cells, uint64_t number)
{
    printf("%s: %zuD, %zu cells, %zu rows, room for %zu large, returned %" PRIu64 "\n", what, dim, cells, len[KEYS],
           len[LARGE], number);
    exit(1);
}

/* Lends n entries. */
static void lend(int which, size_t n, int at_end)
{
    len[which] = n;
    list[which] = sized_entries(&areas[which], n, entry_size[which], at_end);
}

/* Points that go up and down along x, and a cell for each run of dim + 1 of them; the last cell of several is long, so that
   it counts as large. */
static void lend_mesh(size_t dim, size_t cells, int at_end)
{
    size_t points = cells + dim, p, i;
    double *coords;
    uint32_t *corners;

    lend(COORDS, points * dim, at_end);
    lend(CORNERS, cells * (dim + 1), at_end);
    coords = list[COORDS];
    corners = list[CORNERS];
    for (p = 0; p < points; p++) {
        coords[p * dim] = (double)p + (cells > 8 && p + 1 == points ? 8 : 0);
        for (i = 1; i < dim; i++) {
            coords[p * dim + i] = (double)(p >> (i - 1) & 1);
        }
    }
    for (p = 0; p < cells; p++) {
        for (i = 0; i <= dim; i++) {
            corners[p * (dim + 1) + i] = (uint32_t)(p + i);
        }
    }
}

static void lend_index(size_t rows, size_t large, int at_end)
{
    lend(KEYS, rows, at_end);
    lend(CELL_LIST, rows, at_end);
    lend(LARGE, large, at_end);
    lend(NUMBERS, GEMLAB_CELLS_NUMBERS, at_end);
    lend(FLOATS, GEMLAB_CELLS_FLOATS, at_end);
}

/* Fills the lists of an index with a byte that no index has. */
static void blank(void)
{
    int which;

    for (which = KEYS; which <= FLOATS; which++) {
        memset(list[which], FILL, len[which] * entry_size[which]);
    }
}

static void keep(void)
{
    int which;

    for (which = 0; which < LISTS; which++) {
        memcpy(before[which], list[which], len[which] * entry_size[which]);
    }
}

/* Whether a list's entries from the first-th on are as they were. */
static int kept(int which, size_t first)
{
    size_t size = entry_size[which];

    return len[which] <= first || memcmp(before[which] + first * size, (char *)list[which] + first * size, (len[which] - first) * size) == 0;
}

static int all_kept(void)
{
    int which;

    for (which = 0; which < LISTS; which++) {
        if (!kept(which, 0)) {
            return 0;
        }
    }
    return 1;
}

static uint64_t build(size_t dim)
{
    uint64_t number = gemlab_grid_cells_new(dim, list[COORDS], len[COORDS], list[CORNERS], len[CORNERS], 0, 0, 0, 0, 0, 0, 0, 0,
                                            list[KEYS], len[KEYS], list[CELL_LIST], len[CELL_LIST], list[LARGE], len[LARGE],
                                            list[NUMBERS], len[NUMBERS], list[FLOATS], len[FLOATS]);

    calls++;
    returned[number]++;
    return number;
}

static uint64_t search(uint64_t *found, uint64_t *cell)
{
    uint64_t number = gemlab_grid_cells_search(list[NUMBERS], len[NUMBERS], list[FLOATS], len[FLOATS], list[COORDS], len[COORDS],
                                               list[CORNERS], len[CORNERS], list[KEYS], len[KEYS], list[CELL_LIST], len[CELL_LIST],
                                               list[LARGE], len[LARGE], list[X], len[X], list[ZETA], len[ZETA], found, cell);

    calls++;
    returned[number]++;
    return number;
}

/* The middle of a cell, lent as the position. */
static void lend_middle(size_t dim, size_t cell, int at_end)
{
    const double *coords = list[COORDS];
    const uint32_t *corners = list[CORNERS];
    double *x;
    size_t i, k;

    lend(X, dim, at_end);
    lend(ZETA, 4, at_end);
    x = list[X];
    for (i = 0; i < dim; i++) {
        x[i] = 0;
        for (k = 0; k <= dim; k++) {
            x[i] += coords[corners[cell * (dim + 1) + k] * dim + i] / (double)(dim + 1);
        }
    }
}

/* Every cell is found in its middle, and every list a little short is refused. */
static void search_in(size_t dim, size_t cells, int at_end)
{
    size_t cell;
    int which;

    for (cell = 0; cell < cells; cell++) {
        uint64_t found = 2, found_cell = MOST, number;
        double *zeta;

        lend_middle(dim, cell, at_end);
        zeta = list[ZETA];
        zeta[3] = 7;
        keep();
        number = search(&found, &found_cell);
        if (number != 0 || found != 1 || found_cell >= cells || (dim == 2 && zeta[3] != 7)) {
            fail("search", dim, cells, number);
        }
        memcpy(before[ZETA], list[ZETA], 4 * 8);
        if (!all_kept()) {
            fail("search, memory", dim, cells, number);
        }
    }
    for (which = 0; which < LISTS; which++) {
        uint64_t found = 2, found_cell = MOST, number;

        if (len[which] == 0 || (which == LARGE && ((uint64_t *)list[NUMBERS])[5] < len[LARGE])) {
            continue; /* nothing to leave out, or nothing in use that is left out */
        }
        len[which]--;
        keep();
        number = search(&found, &found_cell);
        if (number == 0 || found != 2 || found_cell != MOST || !all_kept()) {
            fail("search, one entry short", dim, cells, number);
        }
        len[which]++;
    }
}

static void one_mesh(size_t dim, size_t cells, int at_end)
{
    size_t rows, large, more;
    const uint64_t *numbers;
    uint64_t number;

    lend_mesh(dim, cells, at_end);
    lend(X, dim, at_end);
    lend(ZETA, 4, at_end);
    lend_index(ROOM, ROOM, at_end);
    blank();
    number = build(dim);
    if (cells == 0 ? number != GEMLAB_NO_CELLS : number != GEMLAB_DONE) {
        fail("build", dim, cells, number);
    }
    if (cells == 0) {
        return;
    }
    numbers = list[NUMBERS];
    rows = (size_t)numbers[4];
    large = (size_t)numbers[5];
    for (more = 0; more <= rows + 2 || more <= large + 2; more++) {
        size_t room = more <= rows + 2 ? more : rows + 2, large_room = more <= large + 2 ? more : large + 2;

        lend_index(room, large_room, at_end);
        blank();
        keep();
        number = build(dim);
        if (number != (room < rows || large_room < large ? GEMLAB_FULL : GEMLAB_DONE)) {
            fail("build, room", dim, cells, number);
        }
        if (number == 0 ? !kept(KEYS, rows) || !kept(CELL_LIST, rows) || !kept(LARGE, large) : !all_kept()) {
            fail("build, memory", dim, cells, number);
        }
        if (number == 0) {
            search_in(dim, cells, at_end);
        }
    }
    /* a list of the mesh, or of the index, one entry short: 19 or 13 */
    for (more = COORDS; more <= FLOATS; more++) {
        if (more == LARGE) {
            continue;
        }
        len[more]--;
        blank();
        keep();
        number = build(dim);
        if (number != (more <= CORNERS ? GEMLAB_BROKEN_MESH : GEMLAB_DAMAGED) || !all_kept()) {
            fail("build, one entry short", dim, cells, number);
        }
        len[more]++;
    }
    /* more rows than there may be, used or not */
    lend_index(MOST + 1, large, at_end);
    blank();
    keep();
    number = build(dim);
    if (number != GEMLAB_TOO_LONG || !all_kept()) {
        fail("build, too long", dim, cells, number);
    }
}

int main(void)
{
    size_t dim, cells, i;
    int which, at_end;

    for (which = 0; which < LISTS; which++) {
        areas[which] = make_area((MOST + 1) * 8);
        before[which] = malloc((MOST + 1) * 8);
        if (before[which] == NULL) {
            return 2;
        }
    }
    for (dim = 2; dim <= 3; dim++) {
        for (cells = 0; cells <= CELLS; cells++) {
            for (at_end = 0; at_end < 2; at_end++) {
                one_mesh(dim, cells, at_end);
            }
        }
    }
    printf("%" PRIu64 " calls\n", calls);
    for (i = 0; i < sizeof returned / sizeof returned[0]; i++) {
        if (returned[i] != 0) {
            printf("returned %zu: %" PRIu64 "\n", i, returned[i]);
        }
    }
    return 0;
}
