/* Every function of include/gemlab.h, called from C. examples/run.sh builds and runs it. */
#include "gemlab.h"

#include <inttypes.h>
#include <stdio.h>
#include <string.h>

/* What a call gave: its result, or the number of its refusal. */
static void tell(const char *what, uint64_t number, double result)
{
    if (number == GEMLAB_DONE) {
        printf("%s: %g\n", what, result);
    } else {
        printf("%s: refused %" PRIu64 "\n", what, number);
    }
}

static void distances(void)
{
    const double origin[2] = {0, 0}, east[2] = {8, 0}, mark[2] = {3, 4}, center[2] = {4, 2}, beside[2] = {5, 2};
    const double foot[3] = {0, 0, 0}, top[3] = {0, 0, 10}, near_axis[3] = {3, 4, 5};
    const double far_off[2] = {2097152, 0};
    const double none[1] = {0};
    double d = 0;
    uint64_t number;

    number = gemlab_point_point_distance(origin, 2, mark, 2, &d);
    tell("from (0,0) to (3,4)", number, d);
    number = gemlab_point_line_distance(origin, 2, east, 2, mark, 2, &d);
    tell("from (3,4) to the line through (0,0) and (8,0)", number, d);
    number = gemlab_point_circle_distance(center, 2, 1, beside, 2, &d);
    tell("from (5,2) to the circle at (4,2) of radius 1", number, d);
    number = gemlab_point_circle_distance(center, 2, 1, center, 2, &d);
    tell("from (4,2) to that circle", number, d);
    number = gemlab_point_cylinder_distance(foot, 3, top, 3, 2, near_axis, 3, &d);
    tell("from (3,4,5) to the cylinder about the z axis of radius 2", number, d);

    number = gemlab_point_point_distance(none, 0, mark, 2, &d);
    tell("from no position", number, d);
    number = gemlab_point_point_distance(origin, 2, top, 3, &d);
    tell("from a position in 2D to one in 3D", number, d);
    number = gemlab_point_point_distance(origin, 2, far_off, 2, &d);
    tell("to a coordinate past its limit", number, d);
    number = gemlab_point_line_distance(mark, 2, mark, 2, origin, 2, &d);
    tell("to a line with one end twice", number, d);
    number = gemlab_point_circle_distance(foot, 3, 1, top, 3, &d);
    tell("to a circle in 3D", number, d);
    printf("a refusal leaves the result as it was: %g\n", d);
}

static void sheets(void)
{
    const double low[2] = {0, 0}, high[2] = {8, 4}, low_3d[3] = {-1, -1, -1}, high_3d[3] = {1, 1, 1};
    uint64_t numbers[GEMLAB_SHEET_NUMBERS] = {0};
    double floats[GEMLAB_SHEET_FLOATS] = {0};
    uint64_t number;

    number = gemlab_grid_search_new(low, 2, high, 2, 1, 8, 1, 1.0 / 512, 1, 0,
                                    numbers, GEMLAB_SHEET_NUMBERS, floats, GEMLAB_SHEET_FLOATS);
    tell("side of the containers from (0,0) to (8,4) with 8 divisions", number, floats[14]);
    printf("divisions along x and y: %" PRIu64 ", %" PRIu64 "\n", numbers[5], numbers[6]);
    number = gemlab_grid_search_new(low, 2, high, 2, 1, 8, 1, 0.5, 1, 0,
                                    numbers, GEMLAB_SHEET_NUMBERS, floats, GEMLAB_SHEET_FLOATS);
    tell("side with a tolerance of half a side", number, floats[14]);
    number = gemlab_grid_search_new(high, 2, low, 2, 0, 0, 0, 0, 0, 0,
                                    numbers, GEMLAB_SHEET_NUMBERS, floats, GEMLAB_SHEET_FLOATS);
    tell("side with the corners turned round", number, floats[14]);
    number = gemlab_grid_search_new(low, 2, high, 2, 0, 0, 0, 0, 0, 0,
                                    numbers, 7, floats, GEMLAB_SHEET_FLOATS);
    tell("side with a list that is too short", number, floats[14]);
    printf("a refusal leaves the sheet as it was: %" PRIu64 " divisions, side %g\n", numbers[5], floats[14]);
    number = gemlab_grid_search_new(low_3d, 3, high_3d, 3, 0, 0, 0, 0, 0, 0,
                                    numbers, GEMLAB_SHEET_NUMBERS, floats, GEMLAB_SHEET_FLOATS);
    tell("side from (-1,-1,-1) to (1,1,1) with every setting left out", number, floats[14]);
}

/* A library with room for 8 rows. */
static uint64_t keys[8], ids[8], used;
static double xs[8], ys[8], zs[8];
static uint64_t sheet_numbers[GEMLAB_SHEET_NUMBERS];
static double sheet_floats[GEMLAB_SHEET_FLOATS];

/* The keys of the rows in use. */
static void tell_keys(void)
{
    printf(" keys");
    for (uint64_t i = 0; i < used; i++) {
        printf(" %" PRIu64, keys[i]);
    }
    printf("\n");
}

/* Puts a mark into the library, of which the first `space` rows are lent. */
static void put(uint64_t id, double x, double y, size_t space)
{
    const double at[2] = {x, y};
    uint64_t number = gemlab_grid_search_insert(sheet_numbers, GEMLAB_SHEET_NUMBERS, sheet_floats, GEMLAB_SHEET_FLOATS,
                                                keys, space, ids, space, xs, space, ys, space, zs, space,
                                                &used, id, at, 2);

    if (number == GEMLAB_DONE) {
        printf("mark %" PRIu64 " at (%g,%g):", id, x, y);
        tell_keys();
    } else {
        printf("mark %" PRIu64 " at (%g,%g): refused %" PRIu64 ", %" PRIu64 " rows in use\n", id, x, y, number, used);
    }
}

/* Strikes a mark off the library. */
static void strike(uint64_t id)
{
    uint64_t removed = 0;
    uint64_t number = gemlab_grid_search_strike(sheet_numbers, GEMLAB_SHEET_NUMBERS, sheet_floats, GEMLAB_SHEET_FLOATS,
                                                keys, 8, ids, 8, xs, 8, ys, 8, zs, 8, &used, id, &removed);

    if (number == GEMLAB_DONE) {
        printf("mark %" PRIu64 " struck off: %" PRIu64 " rows went,", id, removed);
        tell_keys();
    } else {
        printf("mark %" PRIu64 " struck off: refused %" PRIu64 ", %" PRIu64 " rows in use\n", id, number, used);
    }
}

/* The lowest bad row of the library, of which so many rows are said to be in use. */
static void check(uint64_t rows)
{
    uint64_t broken = 7, row = 8, visited = 9;
    uint64_t number = gemlab_grid_search_check(sheet_numbers, GEMLAB_SHEET_NUMBERS, sheet_floats, GEMLAB_SHEET_FLOATS,
                                               keys, 8, ids, 8, xs, 8, ys, 8, zs, 8, rows, &broken, &row, &visited);

    printf("check of %" PRIu64 " rows: ", rows);
    if (number != GEMLAB_DONE) {
        printf("refused %" PRIu64 ", results still %" PRIu64 " %" PRIu64 " %" PRIu64 "\n", number, broken, row, visited);
    } else if (broken) {
        printf("row %" PRIu64 " is bad, %" PRIu64 " visited\n", row, visited);
    } else {
        printf("none is bad, %" PRIu64 " visited, row still %" PRIu64 "\n", visited, row);
    }
}

/* Exchanges row 2 with row 3. Both are of one mark at one place, so that their keys are all that differs. */
static void exchange(void)
{
    uint64_t key = keys[2];

    keys[2] = keys[3];
    keys[3] = key;
}

/* The mark at a position. */
static void find(double x, double y)
{
    const double at[2] = {x, y};
    uint64_t found = 0, id = 0;
    uint64_t number = gemlab_grid_search_search(sheet_numbers, GEMLAB_SHEET_NUMBERS, sheet_floats, GEMLAB_SHEET_FLOATS,
                                                keys, 8, ids, 8, xs, 8, ys, 8, zs, 8, used, at, 2, &found, &id);

    if (number != GEMLAB_DONE) {
        printf("at (%g,%g): refused %" PRIu64 "\n", x, y, number);
    } else if (found) {
        printf("at (%g,%g): mark %" PRIu64 "\n", x, y, id);
    } else {
        printf("at (%g,%g): nothing\n", x, y);
    }
}

static void libraries(void)
{
    const double low[2] = {0, 0}, high[2] = {8, 4};

    gemlab_grid_search_new(low, 2, high, 2, 1, 8, 1, 1.0 / 512, 1, 0,
                           sheet_numbers, GEMLAB_SHEET_NUMBERS, sheet_floats, GEMLAB_SHEET_FLOATS);
    find(2, 1);
    put(7, 2, 1, 3);
    put(7, 2, 1, 8);
    find(2, 1);
    put(7, 5.5, 2.5, 8);
    find(2, 1);
    find(5.5, 2.5);
    put(8, 9, 1, 8);
    /* a post is dug out */
    put(9, 4.5, 0.5, 8);
    put(6, 4, 2, 8);
    strike(7);
    strike(7);
    find(5.5, 2.5);
    put(6, 4, 2, 8);
    find(4.5, 0.5);
    /* the library is sound, then damaged on purpose and mended */
    check(used);
    exchange();
    check(used);
    find(4.5, 0.5);
    check(2);
    exchange();
    check(used);
    check(0);
    check(9);
    /* two seal anchors 0.1 mm apart, and then on both sides of the pole */
    used = 0;
    put(4, 5.5, 1.5, 8);
    put(9, 5.5001, 1.5, 8);
    find(5.5, 1.5);
    find(5.5001, 1.5);
    put(9, 5.5 - 1.0 / 1024, 1.5, 8);
    put(4, 5.5 + 1.0 / 1024, 1.5, 8);
    find(5.5, 1.5);
    used = 0;
    put(8, 3 - 9.0 / 4096, 0.5, 8);
    find(3, 0.5);
    keys[0] = 32;
    check(used);
    find(3, 0.5);
}

/* The marks on a place, into a list of which the first `room` entries are lent. */
static void list(const char *what, uint64_t place, const double *a, const double *b, double number,
                 uint64_t filter, double low, double high, size_t room)
{
    uint64_t out[4] = {0}, count = 0;
    uint64_t refusal = gemlab_grid_search_list(sheet_numbers, GEMLAB_SHEET_NUMBERS, sheet_floats, GEMLAB_SHEET_FLOATS,
                                               keys, 8, ids, 8, xs, 8, ys, 8, zs, 8, used, place, a, 2, b, 2, number,
                                               filter, 0, low, high, out, room, &count);

    printf("%s:", what);
    if (refusal != GEMLAB_DONE) {
        printf(" refused %" PRIu64 "\n", refusal);
        return;
    }
    for (uint64_t i = 0; i < count; i++) {
        printf(" %" PRIu64, out[i]);
    }
    printf(" (%" PRIu64 ")\n", count);
}

static void lists(void)
{
    const double a[2] = {0, 1.5}, b[2] = {8, 1.5}, corner[2] = {1, 1}, centre[2] = {4, 1.5};

    used = 0;
    list("marks on a line with one end, in an empty library", GEMLAB_LINE, corner, corner, 0, GEMLAB_EVERYTHING, 0, 0, 4);
    put(9, 6.5, 1.5, 8);
    put(3, 1.5, 1.5, 8);
    put(5, 4.5, 2.5, 8);
    list("marks on a line with one end", GEMLAB_LINE, corner, corner, 0, GEMLAB_EVERYTHING, 0, 0, 4);
    list("marks with y = 1.5", GEMLAB_LINE, a, b, 0, GEMLAB_EVERYTHING, 0, 0, 4);
    list("of these, those with x from 0 to 4", GEMLAB_LINE, a, b, 0, GEMLAB_RANGE, 0, 4, 4);
    list("marks with y = 1.5, in a list of one entry", GEMLAB_LINE, a, b, 0, GEMLAB_EVERYTHING, 0, 0, 1);
    list("marks 2.5 from (4,1.5)", GEMLAB_CIRCLE, centre, b, 2.5, GEMLAB_EVERYTHING, 0, 0, 4);
    list("marks on a plane, in 2D", GEMLAB_PLANE_XY, a, b, 0, GEMLAB_EVERYTHING, 0, 0, 4);
}

/* Its directory, with room for 6 containers. */
static uint64_t dir_keys[6], dir_firsts[6], dir_counts[6], dir_used;

/* What a call that writes the directory gave: the containers in use, each with its first row and its rows. */
static void tell_directory(uint64_t number)
{
    if (number != GEMLAB_DONE) {
        printf(" refused %" PRIu64 ", %" PRIu64 " rows and %" PRIu64 " places in use\n", number, used, dir_used);
        return;
    }
    for (uint64_t i = 0; i < dir_used; i++) {
        printf(" %" PRIu64 ":%" PRIu64 "+%" PRIu64, dir_keys[i], dir_firsts[i], dir_counts[i]);
    }
    printf(" (%" PRIu64 ")\n", dir_used);
}

/* The directory of the library, of which the first `room` places are lent. */
static void build_directory(size_t room)
{
    uint64_t number = gemlab_directory_build(sheet_numbers, GEMLAB_SHEET_NUMBERS, sheet_floats, GEMLAB_SHEET_FLOATS,
                                             keys, 8, ids, 8, xs, 8, ys, 8, zs, 8, used,
                                             dir_keys, room, dir_firsts, room, dir_counts, room, &dir_used);

    printf("directory in %zu places:", room);
    tell_directory(number);
}

/* Puts a mark into the library and its directory. */
static void file(uint64_t id, double x, double y)
{
    const double at[2] = {x, y};
    uint64_t number = gemlab_directory_insert(sheet_numbers, GEMLAB_SHEET_NUMBERS, sheet_floats, GEMLAB_SHEET_FLOATS,
                                              keys, 8, ids, 8, xs, 8, ys, 8, zs, 8, &used,
                                              dir_keys, 6, dir_firsts, 6, dir_counts, 6, &dir_used, id, at, 2);

    printf("mark %" PRIu64 " at (%g,%g), directory:", id, x, y);
    tell_directory(number);
}

/* Strikes a mark off the library and its directory. */
static void unfile(uint64_t id)
{
    uint64_t removed = 0;
    uint64_t number = gemlab_directory_strike(sheet_numbers, GEMLAB_SHEET_NUMBERS, sheet_floats, GEMLAB_SHEET_FLOATS,
                                              keys, 8, ids, 8, xs, 8, ys, 8, zs, 8, &used,
                                              dir_keys, 6, dir_firsts, 6, dir_counts, 6, &dir_used, id, &removed);

    printf("mark %" PRIu64 " struck off, %" PRIu64 " rows went, directory:", id, removed);
    tell_directory(number);
}

/* Where the directory has a container. */
static void look_up(uint64_t key)
{
    uint64_t found = 0, place = 9, reads = 9;
    uint64_t number = gemlab_directory_look_up(sheet_numbers, GEMLAB_SHEET_NUMBERS, sheet_floats, GEMLAB_SHEET_FLOATS,
                                               keys, 8, ids, 8, xs, 8, ys, 8, zs, 8, used,
                                               dir_keys, 6, dir_firsts, 6, dir_counts, 6, dir_used, key, &found, &place, &reads);

    if (number != GEMLAB_DONE) {
        printf("container %" PRIu64 ": refused %" PRIu64 "\n", key, number);
    } else if (found) {
        printf("container %" PRIu64 ": place %" PRIu64 ", %" PRIu64 " read\n", key, place, reads);
    } else {
        printf("container %" PRIu64 ": no place, %" PRIu64 " read, place still %" PRIu64 "\n", key, reads, place);
    }
}

/* The mark at a position, through the directory, and the marks with its y. */
static void look(double x, double y)
{
    const double at[2] = {x, y}, ahead[2] = {x + 1, y};
    uint64_t out[4] = {0}, found = 0, id = 0, count = 0;
    uint64_t number = gemlab_directory_search(sheet_numbers, GEMLAB_SHEET_NUMBERS, sheet_floats, GEMLAB_SHEET_FLOATS,
                                              keys, 8, ids, 8, xs, 8, ys, 8, zs, 8, used,
                                              dir_keys, 6, dir_firsts, 6, dir_counts, 6, dir_used, at, 2, &found, &id);
    uint64_t refusal = gemlab_directory_list(sheet_numbers, GEMLAB_SHEET_NUMBERS, sheet_floats, GEMLAB_SHEET_FLOATS,
                                             keys, 8, ids, 8, xs, 8, ys, 8, zs, 8, used,
                                             dir_keys, 6, dir_firsts, 6, dir_counts, 6, dir_used, GEMLAB_LINE, at, 2, ahead, 2, 0,
                                             GEMLAB_EVERYTHING, 0, 0, 0, out, 4, &count);

    printf("through the directory, at (%g,%g):", x, y);
    if (number != GEMLAB_DONE || refusal != GEMLAB_DONE) {
        printf(" refused %" PRIu64 " and %" PRIu64 "\n", number, refusal);
        return;
    }
    if (found) {
        printf(" mark %" PRIu64 ", with y = %g:", id, y);
    } else {
        printf(" nothing, with y = %g:", y);
    }
    for (uint64_t i = 0; i < count; i++) {
        printf(" %" PRIu64, out[i]);
    }
    printf(" (%" PRIu64 ")\n", count);
}

static void directories(void)
{
    used = 0;
    dir_used = 9;
    look_up(10);
    build_directory(6);
    look_up(10);
    file(7, 2, 1);
    file(3, 2.5, 1.5);
    file(5, 6.5, 1.5);
    look_up(10);
    look_up(11);
    look_up(UINT64_MAX);
    look(2, 1);
    look(2.5, 1.5);
    look(4.5, 1.5);
    /* the rows are as they are without a directory */
    find(2.5, 1.5);
    build_directory(4);
    file(8, 4.5, 3.5);
    file(9, 0.5, 3.5); /* no place is free */
    file(8, 9, 1);
    unfile(7);
    unfile(7);
    /* the library changes and its directory does not */
    put(9, 0.5, 3.5, 8);
    look(2.5, 1.5);
    file(9, 0.5, 3.5);
    unfile(3);
    look_up(10);
    build_directory(6);
    dir_counts[1]++;
    look(2.5, 1.5);
    dir_used = 7;
    look(2.5, 1.5);
    build_directory(6);
    look(2.5, 1.5);
}

/* A full library, whose rows are written here and not by insertion: every mark lies at (1000,0), each in a container of its own. */
#define FULL 65536
static uint64_t full_keys[FULL], full_ids[FULL], full_list[FULL];
static double full_xs[FULL], full_ys[FULL], full_zs[FULL];
static uint64_t full_dir_keys[FULL], full_dir_firsts[FULL], full_dir_counts[FULL], full_dir_used;

static void full(void)
{
    const double low[2] = {0, 0}, high[2] = {8, 4};
    uint64_t count = 0, broken = 7, row = 8, visited = 9, found = 0, place = 0, reads = 0, refusal;

    gemlab_grid_search_new(low, 2, high, 2, 1, 512, 0, 0, 1, 0,
                           sheet_numbers, GEMLAB_SHEET_NUMBERS, sheet_floats, GEMLAB_SHEET_FLOATS);
    for (uint64_t i = 0; i < FULL; i++) {
        full_keys[i] = i;
        full_ids[i] = i * 40503 % FULL;
        full_xs[i] = 1000;
    }
    gemlab_grid_search_check(sheet_numbers, GEMLAB_SHEET_NUMBERS, sheet_floats, GEMLAB_SHEET_FLOATS,
                             full_keys, FULL, full_ids, FULL, full_xs, FULL, full_ys, FULL, full_zs, FULL, FULL,
                             &broken, &row, &visited);
    printf("check of a full library: broken %" PRIu64 ", %" PRIu64 " visited\n", broken, visited);
    refusal = gemlab_grid_search_list(sheet_numbers, GEMLAB_SHEET_NUMBERS, sheet_floats, GEMLAB_SHEET_FLOATS,
                                      full_keys, FULL, full_ids, FULL, full_xs, FULL, full_ys, FULL, full_zs, FULL, FULL,
                                      GEMLAB_CIRCLE, low, 2, low, 2, 1000, GEMLAB_EVERYTHING, 0, 0, 0,
                                      full_list, FULL - 1, &count);
    printf("marks in a full library, in a list that is one short: refused %" PRIu64 "\n", refusal);
    gemlab_grid_search_list(sheet_numbers, GEMLAB_SHEET_NUMBERS, sheet_floats, GEMLAB_SHEET_FLOATS,
                            full_keys, FULL, full_ids, FULL, full_xs, FULL, full_ys, FULL, full_zs, FULL, FULL,
                            GEMLAB_CIRCLE, low, 2, low, 2, 1000, GEMLAB_EVERYTHING, 0, 0, 0,
                            full_list, FULL, &count);
    printf("marks in a full library: %" PRIu64 ", from %" PRIu64 " to %" PRIu64 "\n", count, full_list[0], full_list[FULL - 1]);
    gemlab_directory_build(sheet_numbers, GEMLAB_SHEET_NUMBERS, sheet_floats, GEMLAB_SHEET_FLOATS,
                           full_keys, FULL, full_ids, FULL, full_xs, FULL, full_ys, FULL, full_zs, FULL, FULL,
                           full_dir_keys, FULL, full_dir_firsts, FULL, full_dir_counts, FULL, &full_dir_used);
    gemlab_directory_look_up(sheet_numbers, GEMLAB_SHEET_NUMBERS, sheet_floats, GEMLAB_SHEET_FLOATS,
                             full_keys, FULL, full_ids, FULL, full_xs, FULL, full_ys, FULL, full_zs, FULL, FULL,
                             full_dir_keys, FULL, full_dir_firsts, FULL, full_dir_counts, FULL, full_dir_used,
                             FULL - 1, &found, &place, &reads);
    printf("its directory: %" PRIu64 " places, the last container at %" PRIu64 ", %" PRIu64 " read\n", full_dir_used, place, reads);
}

/* Two triangles of a square, and a small one beside it. */
static const double mesh_coords[12] = {0, 0, 4, 0, 4, 4, 0, 4, 5, 0, 5, 1};
static const uint32_t mesh_corners[9] = {0, 1, 2, 0, 2, 3, 1, 4, 5};
static uint64_t cell_keys[12], cell_cells[12], cell_large[4];
static uint64_t cells_numbers[GEMLAB_CELLS_NUMBERS];
static double cells_floats[GEMLAB_CELLS_FLOATS];

/* The index of the first `count` of these cells, of which the first `space` rows are lent. */
static void build(const char *what, size_t count, uint64_t pct_given, double pct, size_t space)
{
    uint64_t number = gemlab_grid_cells_new(2, mesh_coords, 12, mesh_corners, 3 * count, 0, 0, 0, 0, 0, 0, pct_given, pct,
                                            cell_keys, space, cell_cells, space, cell_large, 4,
                                            cells_numbers, GEMLAB_CELLS_NUMBERS, cells_floats, GEMLAB_CELLS_FLOATS);

    if (number != GEMLAB_DONE) {
        printf("%s: refused %" PRIu64 "\n", what, number);
        return;
    }
    printf("%s: side %g, divisions %" PRIu64 " and %" PRIu64 ", rows", what, cells_floats[0], cells_numbers[1], cells_numbers[2]);
    for (uint64_t i = 0; i < cells_numbers[4]; i++) {
        printf(" %" PRIu64 ":%" PRIu64, cell_keys[i], cell_cells[i]);
    }
    printf(", large");
    for (uint64_t i = 0; i < cells_numbers[5]; i++) {
        printf(" %" PRIu64, cell_large[i]);
    }
    printf("\n");
}

/* The cell at a position, and the position's coordinates in it. */
static void locate(double x, double y)
{
    const double at[2] = {x, y};
    double zeta[4] = {9, 9, 9, 9};
    uint64_t found = 0, cell = 0;
    uint64_t number = gemlab_grid_cells_search(cells_numbers, GEMLAB_CELLS_NUMBERS, cells_floats, GEMLAB_CELLS_FLOATS,
                                               mesh_coords, 12, mesh_corners, 9, cell_keys, 12, cell_cells, 12, cell_large, 4,
                                               at, 2, zeta, 4, &found, &cell);

    if (number != GEMLAB_DONE) {
        printf("cell at (%g,%g): refused %" PRIu64 "\n", x, y, number);
    } else if (found) {
        printf("cell at (%g,%g): %" PRIu64 ", coordinates %g %g %g, fourth entry %g\n", x, y, cell, zeta[0], zeta[1], zeta[2], zeta[3]);
    } else {
        printf("cell at (%g,%g): nothing, first entry %g\n", x, y, zeta[0]);
    }
}

static void cells(void)
{
    build("index of one triangle, percentage 1", 1, 1, 1, 12);
    build("index of one triangle", 1, 0, 0, 12);
    build("index of three triangles, 3 rows lent", 3, 0, 0, 3);
    build("index of three triangles", 3, 0, 0, 12);
    build("index of no triangle", 0, 0, 0, 12);
    build("index of three triangles, percentage 1", 3, 1, 1, 12);
    locate(3, 1);
    locate(2, 2);
    locate(4.5, 0.25);
    locate(4.5, 3);
    locate(7, 1);
    cell_large[1] = 0;
    locate(3, 1);
}

/* The marks of a point list, into lists of which the first `room` entries are lent. */
static void import(const char *text, size_t room)
{
    uint64_t numbers[3] = {0}, count = 0, line = 0;
    double east[3] = {0}, north[3] = {0}, height[3] = {0};
    uint64_t number = gemlab_survey_import((const uint8_t *)text, strlen(text), numbers, room, east, room, north, room,
                                           height, room, &count, &line);

    if (number == GEMLAB_MALFORMED) {
        printf("import: refused %" PRIu64 " in line %" PRIu64 "\n", number, line);
    } else if (number != GEMLAB_DONE) {
        printf("import: refused %" PRIu64 ", line still %" PRIu64 "\n", number, line);
    } else {
        printf("import of %" PRIu64 " marks:", count);
        for (uint64_t i = 0; i < count; i++) {
            printf(" %" PRIu64 " at (%g,%g,%g)", numbers[i], east[i], north[i], height[i]);
        }
        printf("\n");
    }
}

/* The text of these marks, into a buffer of which the first `room` bytes are lent. */
static void export(const uint64_t *numbers, const double *east, const double *north, const double *height, uint64_t count,
                   size_t room)
{
    uint8_t text[3 * GEMLAB_POINT_BYTES];
    uint64_t length = 0;
    uint64_t number = gemlab_survey_export(numbers, 3, east, 3, north, 3, height, 3, count, text, room, &length);

    if (number != GEMLAB_DONE) {
        printf("export: refused %" PRIu64 "\n", number);
        return;
    }
    printf("export of %" PRIu64 " marks in %" PRIu64 " bytes\n", count, length);
    fwrite(text, 1, (size_t)length, stdout);
}

static void point_lists(void)
{
    const uint64_t numbers[3] = {7, UINT64_MAX, 3};
    const double east[3] = {1.5, -1048576, 0.1}, north[3] = {-0.5, 1048575.999, 0.1 + 0.2}, height[3] = {0, 0.001, 1};

    import("7,1.5,-0.50,-0,post by the gate\r\n8,523.25,98.125,12,\n9,0,0,0,a stud", 3);
    import("7,1.5,-0.50,-0,post by the gate\r\n8,523.25,98.125,12,\n9,0,0,0,a stud", 2);
    import("7,1.5,-0.50,-0,post by the gate\r\n8,523.2500,98.125,12,\n9,0,0,0,a stud", 2);
    import("7,1.5,-0.50,-0,post by the gate\r\n\n", 3);
    import("", 3);
    export(numbers, east, north, height, 2, 3 * GEMLAB_POINT_BYTES);
    export(numbers, east, north, height, 2, 74);
    export(numbers, east, north, height, 0, 0);
    /* 0.1 + 0.2 is the double beside 0.3 */
    export(numbers, east, north, height, 3, 3 * GEMLAB_POINT_BYTES);
    export(numbers, east, north, height, 4, 3 * GEMLAB_POINT_BYTES);
}

int main(void)
{
    distances();
    sheets();
    libraries();
    lists();
    directories();
    full();
    point_lists();
    cells();
    return 0;
}
