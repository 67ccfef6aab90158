/* Each call of include/gemlab.h on threads that have the stack stated there left and no more, several of them at once: pages
   that may not be touched stand on both sides of a thread's stack. Every thread has to get what the first one got. With the
   argument `measure` it also tells how many bytes of stack each call took. */
#define _DEFAULT_SOURCE
#include "areas.h"
#include "gemlab.h"

#include <inttypes.h>
#include <pthread.h>
#include <stdint.h>
#include <string.h>

#define THREADS 4
#define MOST 65536
#define SQUARES 90
#define CELLS (2 * SQUARES * SQUARES)
#define POINTS ((SQUARES + 1) * (SQUARES + 1))
#define CUBES 10
#define TETS (6 * CUBES * CUBES * CUBES)
#define NODES ((CUBES + 1) * (CUBES + 1) * (CUBES + 1))

/* What the threads read together: sheets in 2D and 3D, a full library on each with its directory, meshes of triangles and of
   tetrahedra, each with its index, and the longest point list with its text. */
static uint64_t numbers[2][GEMLAB_SHEET_NUMBERS];
static double floats[2][GEMLAB_SHEET_FLOATS];
static uint64_t keys[MOST], ids[MOST];
static double xs[MOST], ys[MOST], zs[MOST];
static uint64_t dir_keys[MOST], dir_firsts[MOST], dir_counts[MOST];
static double flat_coords[2 * POINTS], solid_coords[3 * NODES];
static uint32_t flat_corners[3 * CELLS], solid_corners[4 * TETS];
static const struct mesh {
    const double *coords;
    size_t coords_len;
    const uint32_t *corners;
    size_t corners_len;
} meshes[2] = {{flat_coords, 2 * POINTS, flat_corners, 3 * CELLS}, {solid_coords, 3 * NODES, solid_corners, 4 * TETS}};
static struct {
    uint64_t keys[MOST], cells[MOST], large[MOST], numbers[GEMLAB_CELLS_NUMBERS];
    double floats[GEMLAB_CELLS_FLOATS];
} indexes[2];
static uint64_t point_ids[MOST];
static double point_at[MOST];
static uint8_t point_text[MOST * GEMLAB_POINT_BYTES];
static uint64_t point_length;

/* What each thread has for itself: lists to write, and results. */
struct own {
    uint64_t keys[MOST], ids[MOST], list[MOST];
    double xs[MOST], ys[MOST], zs[MOST];
    uint64_t numbers[GEMLAB_SHEET_NUMBERS];
    double floats[GEMLAB_SHEET_FLOATS];
    uint64_t dir_keys[MOST], dir_firsts[MOST], dir_counts[MOST];
    uint64_t used, found, id, count, removed, broken, row, visited, line, length, dir_used, place, reads, returned;
    double distance, zeta[4];
    uint8_t text[MOST * GEMLAB_POINT_BYTES];
};
static struct own *owns[THREADS];

static const double low[3] = {0, 0, 0}, high[3] = {8, 8, 8}, far_off[3] = {1000, 0, 0}, axis[3] = {0, 0, 1};

static void distances(struct own *o)
{
    o->returned = gemlab_point_point_distance(low, 3, high, 3, &o->distance);
    o->returned += gemlab_point_line_distance(low, 3, high, 3, far_off, 3, &o->distance);
    o->returned += gemlab_point_circle_distance(low, 2, 1, high, 2, &o->distance);
    o->returned += gemlab_point_cylinder_distance(low, 3, axis, 3, 1, high, 3, &o->distance);
}

static void sheet(struct own *o)
{
    o->returned = gemlab_grid_search_new(low, 3, high, 3, 1, 40, 0, 0, 0, 0, o->numbers, GEMLAB_SHEET_NUMBERS,
                                         o->floats, GEMLAB_SHEET_FLOATS);
}

/* The library, to be changed. */
static void copy(struct own *o)
{
    memcpy(o->keys, keys, sizeof keys);
    memcpy(o->ids, ids, sizeof ids);
    memcpy(o->xs, xs, sizeof xs);
    memcpy(o->ys, ys, sizeof ys);
    memcpy(o->zs, zs, sizeof zs);
}

/* A mark where containers meet, into a library that has room for it just once. */
static void insert_on(struct own *o, size_t dim)
{
    static const double at[3] = {4, 4, 4};

    copy(o);
    o->used = (uint64_t)(MOST - GEMLAB_CELL_ROWS(dim));
    o->returned = gemlab_grid_search_insert(numbers[dim - 2], GEMLAB_SHEET_NUMBERS, floats[dim - 2], GEMLAB_SHEET_FLOATS,
                                            o->keys, MOST, o->ids, MOST, o->xs, MOST, o->ys, MOST, o->zs, MOST, &o->used,
                                            UINT64_MAX, at, dim);
}

static void insert_2d(struct own *o)
{
    insert_on(o, 2);
}

static void insert_3d(struct own *o)
{
    insert_on(o, 3);
}

/* A mark that has every other row of a full library. */
static void strike_on(struct own *o, size_t dim)
{
    size_t i;

    copy(o);
    for (i = 1; i < MOST; i += 2) {
        o->ids[i] = 8;
    }
    o->used = MOST;
    o->returned = gemlab_grid_search_strike(numbers[dim - 2], GEMLAB_SHEET_NUMBERS, floats[dim - 2], GEMLAB_SHEET_FLOATS,
                                            o->keys, MOST, o->ids, MOST, o->xs, MOST, o->ys, MOST, o->zs, MOST, &o->used,
                                            8, &o->removed);
}

static void strike_2d(struct own *o)
{
    strike_on(o, 2);
}

static void strike_3d(struct own *o)
{
    strike_on(o, 3);
}

/* A full library with these keys. */
static void check_on(struct own *o, size_t dim, const uint64_t *its_keys)
{
    o->returned = gemlab_grid_search_check(numbers[dim - 2], GEMLAB_SHEET_NUMBERS, floats[dim - 2], GEMLAB_SHEET_FLOATS,
                                           its_keys, MOST, ids, MOST, xs, MOST, ys, MOST, zs, MOST, MOST, &o->broken, &o->row,
                                           &o->visited);
}

static void check_2d(struct own *o)
{
    check_on(o, 2, keys);
}

static void check_3d(struct own *o)
{
    check_on(o, 3, keys);
}

/* The row in the middle has the key of the one before it, and all rows are of one mark. */
static void check_bad(struct own *o)
{
    memcpy(o->keys, keys, sizeof keys);
    o->keys[MOST / 2]--;
    check_on(o, 3, o->keys);
}

static void search_3d(struct own *o)
{
    static const double at[3] = {4.1, 4.1, 4.1};

    o->returned = gemlab_grid_search_search(numbers[1], GEMLAB_SHEET_NUMBERS, floats[1], GEMLAB_SHEET_FLOATS, keys, MOST,
                                            ids, MOST, xs, MOST, ys, MOST, zs, MOST, MOST, at, 3, &o->found, &o->id);
}

/* The marks on a place of which `rows` rows are in use. */
static void list_on(struct own *o, size_t dim, uint64_t place, const double *a, const double *b, double number, uint64_t rows)
{
    o->returned = gemlab_grid_search_list(numbers[dim - 2], GEMLAB_SHEET_NUMBERS, floats[dim - 2], GEMLAB_SHEET_FLOATS, keys,
                                          MOST, ids, MOST, xs, MOST, ys, MOST, zs, MOST, rows, place, a, dim, b, dim, number,
                                          GEMLAB_EVERYTHING, 0, 0, 0, o->list, MOST, &o->count);
}

/* Every row lies at (1000, 0, 0). */
static void list_few(struct own *o)
{
    list_on(o, 2, GEMLAB_CIRCLE, low, low, 1000, 1024);
}

static void list_few_3d(struct own *o)
{
    list_on(o, 3, GEMLAB_CYLINDER, low, axis, 1000, 1024);
}

/* One of the rows' containers in each place along the line counts: 256 in 2D and 41 in 3D. */
static void list_line(struct own *o)
{
    list_on(o, 2, GEMLAB_LINE, low, far_off, 0, MOST);
}

static void list_line_3d(struct own *o)
{
    list_on(o, 3, GEMLAB_LINE, low, far_off, 0, MOST);
}

/* The rows of the lowest layer of 41 by 41 containers count. */
static void list_plane(struct own *o)
{
    list_on(o, 3, GEMLAB_PLANE_XY, low, low, 0, 1024);
}

static void list_layer(struct own *o)
{
    list_on(o, 3, GEMLAB_PLANE_XY, low, low, 0, MOST);
}

/* None of the rows counts: their containers are apart from the line. */
static void list_none(struct own *o)
{
    static const double side[3] = {0, 9, 0}, end[3] = {8, 9, 0};

    list_on(o, 3, GEMLAB_LINE, side, end, 0, MOST);
}

static void list_many(struct own *o)
{
    list_on(o, 2, GEMLAB_CIRCLE, low, low, 1000, MOST);
}

static void list_many_3d(struct own *o)
{
    list_on(o, 3, GEMLAB_CYLINDER, low, axis, 1000, MOST);
}

/* The library's lists that the threads read together, and a thread's own; the same of a directory; and a sheet. */
#define SHEET(dim) numbers[(dim) - 2], GEMLAB_SHEET_NUMBERS, floats[(dim) - 2], GEMLAB_SHEET_FLOATS
#define ROWS keys, MOST, ids, MOST, xs, MOST, ys, MOST, zs, MOST
#define OWN_ROWS(o) (o)->keys, MOST, (o)->ids, MOST, (o)->xs, MOST, (o)->ys, MOST, (o)->zs, MOST
#define DIRECTORY dir_keys, MOST, dir_firsts, MOST, dir_counts, MOST
#define OWN_DIRECTORY(o) (o)->dir_keys, MOST, (o)->dir_firsts, MOST, (o)->dir_counts, MOST

static void directory(struct own *o)
{
    o->returned = gemlab_directory_build(SHEET(3), ROWS, MOST, OWN_DIRECTORY(o), &o->dir_used);
}

/* The last of as many places as there can be. */
static void look_up(struct own *o)
{
    o->returned = gemlab_directory_look_up(SHEET(3), ROWS, MOST, DIRECTORY, MOST, MOST - 1, &o->found, &o->place, &o->reads);
}

/* The library and its directory, with so many rows in use, to be changed. */
static void copy_both(struct own *o, uint64_t rows)
{
    copy(o);
    memcpy(o->dir_keys, dir_keys, sizeof dir_keys);
    memcpy(o->dir_firsts, dir_firsts, sizeof dir_firsts);
    memcpy(o->dir_counts, dir_counts, sizeof dir_counts);
    o->used = rows;
    o->dir_used = rows;
}

/* A mark where the last four containers meet, two of which had no row. */
static void insert_filed(struct own *o)
{
    static const double at[2] = {7.96875, 7.96875};

    copy_both(o, MOST - 4);
    o->returned = gemlab_directory_insert(SHEET(2), OWN_ROWS(o), &o->used, OWN_DIRECTORY(o), &o->dir_used, UINT64_MAX, at, 2);
}

/* As strike_on. */
static void strike_filed(struct own *o)
{
    size_t i;

    copy_both(o, MOST);
    for (i = 1; i < MOST; i += 2) {
        o->ids[i] = 8;
    }
    o->returned = gemlab_directory_strike(SHEET(3), OWN_ROWS(o), &o->used, OWN_DIRECTORY(o), &o->dir_used, 8, &o->removed);
}

static void search_filed(struct own *o)
{
    static const double at[3] = {4.1, 4.1, 4.1};

    o->returned = gemlab_directory_search(SHEET(3), ROWS, MOST, DIRECTORY, MOST, at, 3, &o->found, &o->id);
}

/* As list_on: a container has one row, so that as many places as rows are in use. */
static void list_filed_on(struct own *o, uint64_t place, const double *a, const double *b, double number, uint64_t rows)
{
    o->returned = gemlab_directory_list(SHEET(3), ROWS, rows, DIRECTORY, rows, place, a, 3, b, 3, number, GEMLAB_EVERYTHING, 0, 0,
                                        0, o->list, MOST, &o->count);
}

static void list_line_filed(struct own *o)
{
    list_filed_on(o, GEMLAB_LINE, low, far_off, 0, MOST);
}

static void list_few_filed(struct own *o)
{
    list_filed_on(o, GEMLAB_CYLINDER, low, axis, 1000, 1024);
}

static void list_many_filed(struct own *o)
{
    list_filed_on(o, GEMLAB_CYLINDER, low, axis, 1000, MOST);
}

static void import_text(struct own *o)
{
    o->returned = gemlab_survey_import(point_text, (size_t)point_length, o->ids, MOST, o->xs, MOST, o->ys, MOST, o->zs, MOST,
                                       &o->used, &o->line);
}

/* The last line has a fifth comma. */
static void import_bad(struct own *o)
{
    memcpy(o->text, point_text, (size_t)point_length);
    o->text[point_length - 1] = ',';
    o->returned = gemlab_survey_import(o->text, (size_t)point_length, o->ids, MOST, o->xs, MOST, o->ys, MOST, o->zs, MOST,
                                       &o->used, &o->line);
}

static void export_marks(struct own *o)
{
    o->returned = gemlab_survey_export(point_ids, MOST, point_at, MOST, point_at, MOST, point_at, MOST, MOST, o->text,
                                       sizeof o->text, &o->length);
}

static void build_on(struct own *o, size_t dim)
{
    const struct mesh *m = &meshes[dim - 2];

    o->returned = gemlab_grid_cells_new(dim, m->coords, m->coords_len, m->corners, m->corners_len, 0, 0, 0, 0, 0, 0, 0, 0,
                                        o->keys, MOST, o->ids, MOST, o->list, MOST, o->numbers, GEMLAB_CELLS_NUMBERS, o->floats,
                                        GEMLAB_CELLS_FLOATS);
}

static void build_2d(struct own *o)
{
    build_on(o, 2);
}

static void build_3d(struct own *o)
{
    build_on(o, 3);
}

static void locate_on(struct own *o, size_t dim)
{
    static const double at[3] = {3.3, 4.4, 5.1};
    const struct mesh *m = &meshes[dim - 2];

    o->returned = gemlab_grid_cells_search(indexes[dim - 2].numbers, GEMLAB_CELLS_NUMBERS, indexes[dim - 2].floats,
                                           GEMLAB_CELLS_FLOATS, m->coords, m->coords_len, m->corners, m->corners_len,
                                           indexes[dim - 2].keys, MOST, indexes[dim - 2].cells, MOST, indexes[dim - 2].large,
                                           MOST, at, dim, o->zeta, 4, &o->found, &o->id);
}

static void locate_2d(struct own *o)
{
    locate_on(o, 2);
}

static void locate_3d(struct own *o)
{
    locate_on(o, 3);
}

static const struct call {
    const char *name;
    void (*make)(struct own *);
    size_t stack;
} calls[] = {
    {"the four distances", distances, GEMLAB_STACK},
    {"a sheet", sheet, GEMLAB_STACK},
    {"an insertion in 2D", insert_2d, GEMLAB_STACK},
    {"an insertion in 3D", insert_3d, GEMLAB_STACK},
    {"a striking in 2D", strike_2d, GEMLAB_STACK},
    {"a striking in 3D", strike_3d, GEMLAB_STACK},
    {"a check in 2D", check_2d, GEMLAB_STACK},
    {"a check in 3D", check_3d, GEMLAB_STACK},
    {"a check that tells a row", check_bad, GEMLAB_STACK},
    {"a search", search_3d, GEMLAB_STACK},
    {"a listing of 65,536 rows of which none counts", list_none, GEMLAB_STACK},
    {"a listing on a line in 2D", list_line, GEMLAB_STACK},
    {"a listing on a line in 3D", list_line_3d, GEMLAB_STACK},
    {"a listing of 1,024 rows on a plane", list_plane, GEMLAB_STACK},
    {"a listing of 65,536 rows on a plane", list_layer, GEMLAB_STACK_LISTING},
    {"a listing of 1,024 rows in 2D", list_few, GEMLAB_STACK},
    {"a listing of 1,024 rows in 3D", list_few_3d, GEMLAB_STACK},
    {"a listing of 65,536 rows in 2D", list_many, GEMLAB_STACK_LISTING},
    {"a listing of 65,536 rows in 3D", list_many_3d, GEMLAB_STACK_LISTING},
    {"a directory of 65,536 places", directory, GEMLAB_STACK},
    {"a look-up among 65,536 places", look_up, GEMLAB_STACK},
    {"an insertion with a directory", insert_filed, GEMLAB_STACK},
    {"a striking with a directory", strike_filed, GEMLAB_STACK},
    {"a search with a directory", search_filed, GEMLAB_STACK},
    {"a listing on a line with a directory", list_line_filed, GEMLAB_STACK},
    {"a listing of 1,024 rows with a directory", list_few_filed, GEMLAB_STACK},
    {"a listing of 65,536 rows with a directory", list_many_filed, GEMLAB_STACK_LISTING},
    {"an import of 65,536 lines", import_text, GEMLAB_STACK},
    {"an import that tells a line", import_bad, GEMLAB_STACK},
    {"an export of 65,536 marks", export_marks, GEMLAB_STACK},
    {"a cell build in 2D", build_2d, GEMLAB_STACK},
    {"a cell build in 3D", build_3d, GEMLAB_STACK},
    {"a cell search in 2D", locate_2d, GEMLAB_STACK},
    {"a cell search in 3D", locate_3d, GEMLAB_STACK},
};

/* What a thread has for itself before it makes a call. */
#define BESIDES 16384

/* One call on a thread, and what the stack's filling shows of it. */
struct job {
    const struct call *call;
    struct own *own;
    struct area stack;
    pthread_t thread;
    char *start;
};

/* Takes up the stack down to what the call is to have. */
static void *run(void *argument)
{
    struct job *job = argument;
    size_t left = (size_t)((char *)&argument - job->stack.start) - job->call->stack;
    volatile char taken[left];

    taken[0] = 0;
    job->start = (char *)taken;
    job->call->make(job->own);
    return NULL;
}

static void begin(struct job *job)
{
    pthread_attr_t attributes;

    memset(job->own, 0, sizeof *job->own);
    memset(job->stack.start, 0x5a, job->stack.size);
    if (pthread_attr_init(&attributes) != 0
        || pthread_attr_setstack(&attributes, job->stack.start, job->stack.size) != 0
        || pthread_create(&job->thread, &attributes, run, job) != 0) {
        printf("%s: no thread with %zu bytes of stack\n", job->call->name, job->stack.size);
        exit(2);
    }
    pthread_attr_destroy(&attributes);
}

/* How many bytes the call wrote to at least, with the frame that made it. */
static size_t depth(const struct job *job)
{
    const char *end = job->stack.start;

    while (end < job->start && *end == 0x5a) {
        end++;
    }
    return (size_t)(job->start - end);
}

static int tried(const struct call *call, int measure)
{
    struct job jobs[THREADS];
    size_t i, most = 0;
    int same = 1;

    for (i = 0; i < THREADS; i++) {
        jobs[i].call = call;
        jobs[i].own = owns[i];
        jobs[i].stack = make_area(call->stack + BESIDES);
        begin(&jobs[i]);
    }
    for (i = 0; i < THREADS; i++) {
        pthread_join(jobs[i].thread, NULL);
        same = same && memcmp(owns[0], owns[i], sizeof *owns[0]) == 0;
        most = depth(&jobs[i]) > most ? depth(&jobs[i]) : most;
        free_area(&jobs[i].stack);
    }
    printf("%s: returned %" PRIu64 ", found %" PRIu64 ", listed %" PRIu64 ", removed %" PRIu64 ", visited %" PRIu64
           ", used %" PRIu64 ", line %" PRIu64 ", length %" PRIu64 ", places %" PRIu64 ", read %" PRIu64
           ", on %d threads with %zu bytes left", call->name, owns[0]->returned, owns[0]->found, owns[0]->count, owns[0]->removed,
           owns[0]->visited, owns[0]->used, owns[0]->line, owns[0]->length, owns[0]->dir_used, owns[0]->reads, THREADS,
           call->stack);
    if (measure) {
        printf(", took %zu", most);
    }
    printf("%s\n", same ? "" : ", and not the same on each");
    fflush(stdout); /* a call that takes more stack ends the program */
    return same;
}

/* A mesh of squares of two triangles each, and one of cubes of six tetrahedra each, which go from corner 0 to corner 7 over two
   corners between them. */
static void prepare_meshes(void)
{
    static const uint32_t ways[6][2] = {{1, 3}, {1, 5}, {2, 3}, {2, 6}, {4, 5}, {4, 6}};
    size_t i, j, k, t;

    for (i = 0; i < POINTS; i++) {
        flat_coords[2 * i] = (double)(i % (SQUARES + 1)) / 8;
        flat_coords[2 * i + 1] = (double)(i / (SQUARES + 1)) / 8;
    }
    for (i = 0; i < SQUARES; i++) {
        for (j = 0; j < SQUARES; j++) {
            uint32_t p = (uint32_t)(i * (SQUARES + 1) + j);
            const uint32_t square[6] = {p, p + 1, p + SQUARES + 2, p, p + SQUARES + 2, p + SQUARES + 1};

            memcpy(flat_corners + 6 * (i * SQUARES + j), square, sizeof square);
        }
    }
    for (i = 0; i < NODES; i++) {
        solid_coords[3 * i] = (double)(i % (CUBES + 1));
        solid_coords[3 * i + 1] = (double)(i / (CUBES + 1) % (CUBES + 1));
        solid_coords[3 * i + 2] = (double)(i / ((CUBES + 1) * (CUBES + 1)));
    }
    for (i = 0; i < CUBES * CUBES * CUBES; i++) {
        uint32_t x = (uint32_t)(i % CUBES), y = (uint32_t)(i / CUBES % CUBES), z = (uint32_t)(i / (CUBES * CUBES));

        for (t = 0; t < 6; t++) {
            const uint32_t four[4] = {0, ways[t][0], ways[t][1], 7};

            for (k = 0; k < 4; k++) {
                solid_corners[4 * (6 * i + t) + k] = x + (four[k] & 1)
                    + (CUBES + 1) * (y + (four[k] >> 1 & 1) + (CUBES + 1) * (z + (four[k] >> 2)));
            }
        }
    }
    for (i = 0; i < 2; i++) {
        gemlab_grid_cells_new(i + 2, meshes[i].coords, meshes[i].coords_len, meshes[i].corners, meshes[i].corners_len, 0, 0, 0, 0,
                              0, 0, 0, 0, indexes[i].keys, MOST, indexes[i].cells, MOST, indexes[i].large, MOST,
                              indexes[i].numbers, GEMLAB_CELLS_NUMBERS, indexes[i].floats, GEMLAB_CELLS_FLOATS);
    }
}

/* Full libraries of one mark, at (1000, 0, 0): the rows are written here and not by insertion. */
static void prepare(void)
{
    size_t i;

    for (i = 0; i < 2; i++) {
        /* 256 by 256 and 41 by 41 by 41 containers */
        gemlab_grid_search_new(low, i + 2, high, i + 2, 1, i == 0 ? 256 : 41, 0, 0, 1, 0, numbers[i], GEMLAB_SHEET_NUMBERS,
                               floats[i], GEMLAB_SHEET_FLOATS);
    }
    for (i = 0; i < MOST; i++) {
        keys[i] = i;
        ids[i] = 7;
        xs[i] = 1000;
        dir_keys[i] = i;
        dir_firsts[i] = i;
        dir_counts[i] = 1;
    }
    prepare_meshes();
    /* every line is as long as it can be */
    for (i = 0; i < MOST; i++) {
        point_ids[i] = UINT64_MAX - i;
        point_at[i] = -1048576 + (double)(i % 1000) / 1000;
    }
    gemlab_survey_export(point_ids, MOST, point_at, MOST, point_at, MOST, point_at, MOST, MOST, point_text, sizeof point_text,
                         &point_length);
}

int main(int count, char **arguments)
{
    int measure = count > 1 && strcmp(arguments[1], "measure") == 0, good = 1;
    size_t i;

    for (i = 0; i < THREADS; i++) {
        owns[i] = malloc(sizeof *owns[i]);
        if (owns[i] == NULL) {
            return 2;
        }
    }
    prepare();
    for (i = 0; i < sizeof calls / sizeof calls[0]; i++) {
        good = tried(&calls[i], measure) && good;
    }
    return good ? 0 : 1;
}
