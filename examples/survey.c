/* A small survey job: a sheet, posts put into a library, a post found by position, the posts on a line, and a probe
 * placed in the mesh of a basin. It uses every function of gemlab.h that gemlab has too, and prints what it finds. The numbers
 * that it has to print, survey.expected, are gemlab's: compare/stored/survey.rs does the same job with gemlab's Rust.
 *
 *     gcc -Iinclude examples/survey.c target/staticlib/libcapi.a -o survey && ./survey
 */
#include <inttypes.h>
#include <stdio.h>

#include "gemlab.h"

#define SPACE 64

/* The library: five row lists of one length, and the used count. */
static uint64_t keys[SPACE], ids[SPACE];
static double xs[SPACE], ys[SPACE], zs[SPACE];
static uint64_t used = 0;

/* The sheet, as gemlab_grid_search_new writes it. */
static uint64_t sheet_numbers[GEMLAB_SHEET_NUMBERS];
static double sheet_floats[GEMLAB_SHEET_FLOATS];

static int failures = 0;

static void expect_accepted(const char *what, uint64_t code) {
    if (code != GEMLAB_DONE) {
        printf("%s: refused %" PRIu64 "\n", what, code);
        failures++;
    }
}

static void insert(uint64_t id, double x, double y) {
    const double at[2] = {x, y};
    expect_accepted("insert", gemlab_grid_search_insert(sheet_numbers, 8, sheet_floats, 17, keys, SPACE, ids, SPACE, xs, SPACE,
                                                        ys, SPACE, zs, SPACE, &used, id, at, 2));
}

static void search(double x, double y) {
    const double at[2] = {x, y};
    uint64_t found = 0, id = 0;
    uint64_t code = gemlab_grid_search_search(sheet_numbers, 8, sheet_floats, 17, keys, SPACE, ids, SPACE, xs, SPACE, ys, SPACE,
                                              zs, SPACE, used, at, 2, &found, &id);
    if (code != GEMLAB_DONE)
        printf("(%g, %g): refused %" PRIu64 "\n", x, y, code);
    else if (found)
        printf("(%g, %g): post %" PRIu64 "\n", x, y, id);
    else
        printf("(%g, %g): nothing\n", x, y);
}

static void list_on(const char *name, uint64_t place, const double *a, size_t a_len, const double *b, size_t b_len, double number,
                    uint64_t filter, uint64_t axis, double low, double high) {
    uint64_t list[SPACE], count = 0;
    uint64_t code = gemlab_grid_search_list(sheet_numbers, 8, sheet_floats, 17, keys, SPACE, ids, SPACE, xs, SPACE, ys, SPACE, zs,
                                            SPACE, used, place, a, a_len, b, b_len, number, filter, axis, low, high, list, SPACE,
                                            &count);
    printf("%s:", name);
    if (code != GEMLAB_DONE)
        printf(" refused %" PRIu64, code);
    for (uint64_t i = 0; code == GEMLAB_DONE && i < count; i++)
        printf(" %" PRIu64, list[i]);
    printf("\n");
}

static void distances(void) {
    const double a[2] = {0, 0}, b[2] = {4, 0}, p[2] = {1, 2};
    const double low[3] = {0, 0, 0}, high[3] = {0, 0, 4}, q[3] = {3, 4, 1};
    double d = 0;
    expect_accepted("distance", gemlab_point_point_distance(a, 2, p, 2, &d));
    printf("from the first post: %.17g\n", d);
    expect_accepted("distance", gemlab_point_line_distance(a, 2, b, 2, p, 2, &d));
    printf("from the line: %.17g\n", d);
    expect_accepted("distance", gemlab_point_circle_distance(a, 2, 3, p, 2, &d));
    printf("from the circle: %.17g\n", d);
    expect_accepted("distance", gemlab_point_cylinder_distance(low, 3, high, 3, 2, q, 3, &d));
    printf("from the cylinder: %.17g\n", d);
    printf("a line of one point: refused %" PRIu64 "\n", gemlab_point_line_distance(a, 2, a, 2, p, 2, &d));
}

/* A basin of two triangles over the square from (0, 0) to (4, 4). */
static void basin(void) {
    const double coords[8] = {0, 0, 4, 0, 4, 4, 0, 4};
    const uint32_t corners[6] = {0, 1, 2, 0, 2, 3};
    uint64_t row_keys[16] = {0}, row_cells[16] = {0}, large[2] = {0}, numbers[6] = {0};
    double floats[7] = {0};
    expect_accepted("mesh", gemlab_grid_cells_new(2, coords, 8, corners, 6, 0, 0, 0, 0, 0, 0, 0, 0, row_keys, 16, row_cells, 16,
                                                  large, 2, numbers, 6, floats, 7));
    printf("containers: %" PRIu64 " x %" PRIu64 ", rows: %" PRIu64 "\n", numbers[1], numbers[2], numbers[4]);
    const double probes[3][2] = {{3, 1}, {1, 3}, {4.005, 2}};
    for (int i = 0; i < 3; i++) {
        double zeta[4] = {0, 0, 0, 0};
        uint64_t found = 0, cell = 0;
        uint64_t code = gemlab_grid_cells_search(numbers, 6, floats, 7, coords, 8, corners, 6, row_keys, 16, row_cells, 16, large, 2,
                                                 probes[i], 2, zeta, 4, &found, &cell);
        printf("probe (%g, %g): ", probes[i][0], probes[i][1]);
        if (code != GEMLAB_DONE)
            printf("refused %" PRIu64 "\n", code);
        else if (found)
            printf("cell %" PRIu64 ", coordinates %g %g %g\n", cell, zeta[0], zeta[1], zeta[2]);
        else
            printf("nothing\n");
    }
}

int main(void) {
    const double low[2] = {0, 0}, high[2] = {8, 4};
    /* 8 divisions along the longest axis; tolerance and border are left out */
    expect_accepted("sheet", gemlab_grid_search_new(low, 2, high, 2, 1, 8, 0, 0, 0, 0, sheet_numbers, 8, sheet_floats, 17));
    printf("divisions: %" PRIu64 " x %" PRIu64 ", side %.17g\n", sheet_numbers[5], sheet_numbers[6], sheet_floats[14]);

    insert(3, 3.5, 2.5);
    insert(7, 2.00005, 0.5);
    insert(11, 6, 1);
    insert(12, 6, 3);
    insert(UINT64_MAX, 6, 3.5);
    printf("rows: %" PRIu64 "\n", used);

    search(3.5, 2.5);
    search(2, 0.5);
    search(5, 1);
    search(9, 1);

    const double a[2] = {6, 0}, b[2] = {6, 4}, center[2] = {6, 2};
    const double none[1] = {0}; /* a list of length 0: any pointer that is aligned and not NULL */
    list_on("on the line", GEMLAB_LINE, a, 2, b, 2, 0, GEMLAB_EVERYTHING, 0, 0, 0);
    list_on("on the line, from 2 to 3", GEMLAB_LINE, a, 2, b, 2, 0, GEMLAB_RANGE, 1, 2, 3);
    list_on("on the circle", GEMLAB_CIRCLE, center, 2, none, 0, 1, GEMLAB_EVERYTHING, 0, 0, 0);
    list_on("on a plane in 2D", GEMLAB_PLANE_XY, none, 0, none, 0, 1, GEMLAB_EVERYTHING, 0, 0, 0);

    distances();
    basin();
    return failures != 0;
}
