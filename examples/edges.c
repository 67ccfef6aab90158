/* Insertion, striking, check, search and listing on libraries of every length up to 128, of 65,536 and of 65,537 rows, in 2D
   and 3D, with every used count up to one above the length; and the same with directories that have just enough places, one
   more and one too few. Each list that is lent ends where memory ends, or begins where it begins: pages that may not be touched
   stand on both sides of it. A check, a search, a look-up and a listing get rows and places where they cannot be written, and a
   build the rows. A refusal has to leave every byte as it was. */
#define _DEFAULT_SOURCE
#include "areas.h"
#include "gemlab.h"

#include <inttypes.h>
#include <string.h>

#define SHORT 128
#define MOST 65536
#define LISTS 5
#define PLACES 3 /* lists of a directory */
#define NEW_ID (UINT64_C(1) << 40)
#define CONTAINERS 10000 /* in 2D */

/* n entries of 8 bytes, at the area's end or at its start. */
static void *entries(const struct area *area, size_t n, int at_end)
{
    return sized_entries(area, n, 8, at_end);
}

/* The five lists, the same where they cannot be written, the position, the list for ids, the three results of a check, the two
   lists of a sheet, and what the five lists held before a call. */
static struct area lists[LISTS], shown[LISTS], position, listed, told[3], sheet[2];
static char *before[LISTS];
/* The same of a directory. */
static struct area dir_lists[PLACES], dir_shown[PLACES];
static char *dir_before[PLACES];
static uint64_t numbers[GEMLAB_SHEET_NUMBERS];
static double floats[GEMLAB_SHEET_FLOATS];
static uint64_t calls, refusals[32];

static void fail(const char *what, size_t dim, size_t len, uint64_t used, uint64_t number)
{
    printf("%s: %zuD, %zu rows, %" PRIu64 " used, returned %" PRIu64 "\n", what, dim, len, used, number);
    exit(1);
}

/* A library as it is lent: the lists' entries, to be written and to be read alone, their lengths, and the count. */
struct library {
    void *list[LISTS];
    const void *shown[LISTS];
    size_t len[LISTS];
    uint64_t used;
};

/* Floats past the count: a signalling NaN, whose bits would change if it were computed with. */
#define UNREAD UINT64_C(0x7ff40000deadbeef)

/* Rows in order, eight to a container, and past the count entries that are no rows. */
static struct library fill(size_t len, uint64_t used, int at_end)
{
    struct library library;
    size_t j, i;

    library.used = used;
    for (j = 0; j < LISTS; j++) {
        library.len[j] = len;
        library.list[j] = entries(&lists[j], len, at_end);
        library.shown[j] = entries(&shown[j], len, at_end);
    }
    for (i = 0; i < len; i++) {
        uint64_t key = i < used ? i / 8 : UINT64_MAX, id = i < used ? i : 0;
        uint64_t unread = UNREAD;
        double x = 0.5, z = 0.0;

        memcpy((char *)library.list[0] + 8 * i, &key, 8);
        memcpy((char *)library.list[1] + 8 * i, &id, 8);
        memcpy((char *)library.list[2] + 8 * i, i < used ? (void *)&x : (void *)&unread, 8);
        memcpy((char *)library.list[3] + 8 * i, i < used ? (void *)&x : (void *)&unread, 8);
        memcpy((char *)library.list[4] + 8 * i, i < used ? (void *)&z : (void *)&unread, 8);
    }
    return library;
}

static void keep(const struct library *library)
{
    size_t j;

    for (j = 0; j < LISTS; j++) {
        memcpy(before[j], library->list[j], library->len[j] * 8);
    }
}

/* Whether the entries from the first-th on are as they were. */
static int kept(const struct library *library, size_t first)
{
    size_t j;

    for (j = 0; j < LISTS; j++) {
        if (library->len[j] > first
            && memcmp(before[j] + 8 * first, (char *)library->list[j] + 8 * first, (library->len[j] - first) * 8) != 0) {
            return 0;
        }
    }
    return 1;
}

static uint64_t insert(struct library *l, uint64_t id, const double *x, size_t x_len)
{
    uint64_t number = gemlab_grid_search_insert(numbers, GEMLAB_SHEET_NUMBERS, floats, GEMLAB_SHEET_FLOATS,
                                                l->list[0], l->len[0], l->list[1], l->len[1], l->list[2], l->len[2],
                                                l->list[3], l->len[3], l->list[4], l->len[4], &l->used, id, x, x_len);
    calls++;
    refusals[number]++;
    return number;
}

static uint64_t strike(struct library *l, uint64_t id, uint64_t *removed)
{
    uint64_t number = gemlab_grid_search_strike(numbers, GEMLAB_SHEET_NUMBERS, floats, GEMLAB_SHEET_FLOATS,
                                                l->list[0], l->len[0], l->list[1], l->len[1], l->list[2], l->len[2],
                                                l->list[3], l->len[3], l->list[4], l->len[4], &l->used, id, removed);
    calls++;
    refusals[number]++;
    return number;
}

/* On a sheet whose lists have these lengths. */
static uint64_t check_with(const uint64_t *n, size_t n_len, const double *f, size_t f_len, const struct library *l,
                           uint64_t *broken, uint64_t *row, uint64_t *visited)
{
    uint64_t number = gemlab_grid_search_check(n, n_len, f, f_len, l->shown[0], l->len[0], l->shown[1], l->len[1], l->shown[2],
                                               l->len[2], l->shown[3], l->len[3], l->shown[4], l->len[4], l->used, broken, row,
                                               visited);
    calls++;
    refusals[number]++;
    return number;
}

static uint64_t check(const struct library *l, uint64_t *broken, uint64_t *row, uint64_t *visited)
{
    return check_with(numbers, GEMLAB_SHEET_NUMBERS, floats, GEMLAB_SHEET_FLOATS, l, broken, row, visited);
}

static uint64_t search(const struct library *l, const double *x, size_t x_len, uint64_t *found, uint64_t *id)
{
    uint64_t number = gemlab_grid_search_search(numbers, GEMLAB_SHEET_NUMBERS, floats, GEMLAB_SHEET_FLOATS,
                                                l->shown[0], l->len[0], l->shown[1], l->len[1], l->shown[2], l->len[2],
                                                l->shown[3], l->len[3], l->shown[4], l->len[4], l->used, x, x_len, found, id);
    calls++;
    refusals[number]++;
    return number;
}

/* The ids on the line through the origin and x. */
static uint64_t list(const struct library *l, const double *x, size_t x_len, uint64_t *ids, size_t ids_len, uint64_t *count)
{
    static const double origin[3] = {0, 0, 0};
    uint64_t number = gemlab_grid_search_list(numbers, GEMLAB_SHEET_NUMBERS, floats, GEMLAB_SHEET_FLOATS,
                                              l->shown[0], l->len[0], l->shown[1], l->len[1], l->shown[2], l->len[2],
                                              l->shown[3], l->len[3], l->shown[4], l->len[4], l->used, GEMLAB_LINE,
                                              origin, x_len, x, x_len, 0, GEMLAB_EVERYTHING, 0, 0, 0, ids, ids_len, count);
    calls++;
    refusals[number]++;
    return number;
}

/* What an insertion that needs so many new rows is to return. */
static uint64_t expected(size_t len, uint64_t used, uint64_t rows)
{
    if (len > MOST) {
        return GEMLAB_TOO_LONG;
    }
    if (used > len) {
        return GEMLAB_DAMAGED;
    }
    return used + rows > len ? GEMLAB_FULL : GEMLAB_DONE;
}

/* The three calls on one library: a mark at x that goes into so many containers. */
static void calls_on(size_t dim, size_t len, uint64_t used, int at_end, double at, uint64_t rows)
{
    struct library library = fill(len, used, at_end);
    double *x = entries(&position, dim, at_end);
    uint64_t number, wanted = expected(len, used, rows), found = 2, id = 5, count = 9, j;
    uint64_t *ids = entries(&listed, 1, at_end);

    for (j = 0; j < dim; j++) {
        x[j] = at;
    }
    keep(&library);
    number = insert(&library, NEW_ID, x, dim);
    if (number != wanted || !kept(&library, number == 0 ? (size_t)(used + rows) : 0)
        || library.used != (number == 0 ? used + rows : used)) {
        fail("insert", dim, len, used, number);
    }
    keep(&library);
    if (wanted == GEMLAB_FULL) {
        wanted = GEMLAB_DONE; /* of the library as it is */
        rows = 0;
    }
    number = search(&library, x, dim, &found, &id);
    if (number != wanted || !kept(&library, 0)
        || (number != 0 ? found != 2 || id != 5 : found != (rows > 0) || id != (rows > 0 ? NEW_ID : 5))) {
        fail("search", dim, len, used, number);
    }
    /* on the diagonal lie the mark and, in 2D, the other rows: at (0.5, 0.5), or at (0.5, 0.5, 0) */
    ids[0] = 3;
    number = list(&library, x, dim, ids, 0, &count);
    if (wanted == 0 && rows > 0) {
        if (number != GEMLAB_SHORT || count != 9) {
            fail("list, too short", dim, len, used, number);
        }
        if (dim == 3) {
            number = list(&library, x, dim, ids, 1, &count);
            if (number != 0 || count != 1 || ids[0] != NEW_ID) {
                fail("list", dim, len, used, number);
            }
        }
    } else if (wanted != 0 && (number != wanted || count != 9)) {
        fail("list, refused", dim, len, used, number);
    }
    if (!kept(&library, 0) || (wanted != 0 && ids[0] != 3)) {
        fail("list, memory", dim, len, used, number);
    }
}

/* The rows in use shared out in turn among so many marks, each row with coordinates of its own. */
static void share(struct library *library, size_t dim, uint64_t marks)
{
    uint64_t i;

    for (i = 0; i < library->used && i < library->len[0]; i++) {
        uint64_t key = marks == 1 ? i : i / 8, id = i % marks;
        double x = (double)i / 1024, y = x + 128, z = dim == 2 ? 0 : x - 128;

        memcpy((char *)library->list[0] + 8 * i, &key, 8);
        memcpy((char *)library->list[1] + 8 * i, &id, 8);
        memcpy((char *)library->list[2] + 8 * i, &x, 8);
        memcpy((char *)library->list[3] + 8 * i, &y, 8);
        memcpy((char *)library->list[4] + 8 * i, &z, 8);
    }
}

/* Makes what the lists held what they are to hold after a striking: the rows of others in their order, and then zeros. Returns
   how many rows go. */
static uint64_t close_up(size_t len, uint64_t used, uint64_t id)
{
    uint64_t i, left = 0;
    size_t j;

    for (i = 0; i < used; i++) {
        if (memcmp(before[1] + 8 * i, &id, 8) != 0) {
            for (j = 0; j < LISTS; j++) {
                memmove(before[j] + 8 * left, before[j] + 8 * i, 8);
            }
            left++;
        }
    }
    for (j = 0; j < LISTS; j++) {
        memset(before[j] + 8 * left, 0, 8 * (len - left));
    }
    return used - left;
}

/* Strikings of one of so many marks: of its rows, then of none, and then the room that is free again is taken. */
static void strike_on(size_t dim, size_t len, uint64_t used, int at_end, uint64_t marks, uint64_t id)
{
    static const double at[3] = {97.5, 97.5, 97.5};
    struct library library = fill(len, used, at_end);
    uint64_t number, wanted = expected(len, used, 0), went = 0;
    uint64_t *removed = entries(&listed, 1, at_end);

    share(&library, dim, marks);
    keep(&library);
    if (wanted == GEMLAB_DONE) {
        if (id < marks && id < used) {
            went = close_up(len, used, id);
        } else {
            wanted = GEMLAB_NO_ROW;
        }
    }
    *removed = 9;
    number = strike(&library, id, removed);
    if (number != wanted || !kept(&library, 0) || library.used != used - went || *removed != (number == 0 ? went : 9)) {
        fail("strike", dim, len, used, number);
    }
    if (number != 0) {
        return;
    }
    *removed = 9;
    number = strike(&library, id, removed);
    if (number != GEMLAB_NO_ROW || !kept(&library, 0) || library.used != used - went || *removed != 9) {
        fail("strike again", dim, len, used, number);
    }
    number = insert(&library, NEW_ID, at, dim);
    if (number != 0 || !kept(&library, (size_t)(used - went + 1)) || library.used != used - went + 1) {
        fail("insert after a striking", dim, len, used, number);
    }
}

/* A check of a library whose lowest bad row this is, or that has none where it is the used count: whether it tells that, and
   whether a search refuses the library where a row is told. */
static void check_tells(size_t dim, const struct library *library, int at_end, uint64_t bad)
{
    static const double at[3] = {97.5, 97.5, 97.5};
    uint64_t *broken = entries(&told[0], 1, at_end), *row = entries(&told[1], 1, at_end), *visited = entries(&told[2], 1, at_end);
    uint64_t number, used = library->used, wanted = expected(library->len[0], used, 0), found = 2, id = 5;
    int good;

    *broken = 2;
    *row = 5;
    *visited = 9;
    number = check(library, broken, row, visited);
    if (number != 0) {
        good = *broken == 2 && *row == 5 && *visited == 9;
    } else if (bad < used) {
        good = *broken == 1 && *row == bad && *visited == bad + 1;
    } else {
        good = *broken == 0 && *row == 5 && *visited == used;
    }
    if (number != wanted || !good) {
        fail("check", dim, library->len[0], used, number);
    }
    if (wanted == GEMLAB_DONE && bad < used) {
        wanted = GEMLAB_DAMAGED;
    }
    number = search(library, at, dim, &found, &id);
    if (number != wanted) {
        fail("search after a check", dim, library->len[0], used, number);
    }
}

/* One row: its entry in each of the lists. */
struct row {
    uint64_t entry[LISTS];
};

static struct row get(const struct library *library, uint64_t i)
{
    struct row row;
    size_t j;

    for (j = 0; j < LISTS; j++) {
        memcpy(&row.entry[j], (char *)library->list[j] + 8 * i, 8);
    }
    return row;
}

static void set(const struct library *library, uint64_t i, struct row row)
{
    size_t j;

    for (j = 0; j < LISTS; j++) {
        memcpy((char *)library->list[j] + 8 * i, &row.entry[j], 8);
    }
}

/* Checks with row i made bad in every way, one after the other, and with entries there that are just good. */
static void check_row(size_t dim, const struct library *library, int at_end, uint64_t i)
{
    static const struct {
        size_t list;
        uint64_t entry;
        int bad[2]; /* in 2D and in 3D */
    } ways[] = {
        {0, UINT64_MAX, {1, 1}},
        {2, UINT64_C(0x4130000000000000), {0, 0}}, /* 1,048,576, and the next float */
        {2, UINT64_C(0x4130000000000001), {1, 1}},
        {3, UINT64_C(0xc130000000000000), {0, 0}}, /* the same below 0 */
        {3, UINT64_C(0xc130000000000001), {1, 1}},
        {3, UINT64_C(0x7ff0000000000000), {1, 1}}, /* infinite */
        {4, UNREAD, {1, 1}},
        {4, UINT64_C(0x8000000000000000), {1, 0}}, /* -0 */
        {4, UINT64_C(0x4130000000000000), {1, 0}},
    };
    uint64_t used = library->used, containers = numbers[5] * numbers[6] * numbers[7];
    struct row was = get(library, i), row;
    size_t j;

    for (j = 0; j < sizeof ways / sizeof ways[0]; j++) {
        row = was;
        row.entry[ways[j].list] = ways[j].entry;
        set(library, i, row);
        check_tells(dim, library, at_end, ways[j].bad[dim - 2] ? i : used);
    }
    row = was;
    row.entry[0] = containers;
    set(library, i, row);
    check_tells(dim, library, at_end, i);
    /* the last container: the next row is not above this one */
    row.entry[0] = containers - 1;
    set(library, i, row);
    check_tells(dim, library, at_end, i + 1);
    if (i > 0) {
        struct row before_it = get(library, i - 1);

        /* the row before it twice, and the two exchanged */
        set(library, i, before_it);
        check_tells(dim, library, at_end, i);
        set(library, i - 1, was);
        check_tells(dim, library, at_end, i);
        set(library, i - 1, before_it);
    }
    set(library, i, was);
}

static void check_on(size_t dim, size_t len, uint64_t used, int at_end)
{
    struct library library = fill(len, used, at_end);
    uint64_t i;

    check_tells(dim, &library, at_end, used);
    if (expected(len, used, 0) != GEMLAB_DONE) {
        return;
    }
    for (i = 0; i < used; i++) {
        /* every row of a short library that is full, and else the first, one in the middle and the last */
        if ((used == len && len <= SHORT) || i == 0 || i == used / 2 || i + 1 == used) {
            check_row(dim, &library, at_end, i);
        }
    }
}

/* Checks with sheet lists of every length up to one more than a sheet has. */
static void check_sheets(size_t dim, int at_end)
{
    struct library library = fill(8, 8, at_end);
    size_t n_len, f_len;

    for (n_len = 0; n_len <= GEMLAB_SHEET_NUMBERS + 1; n_len++) {
        for (f_len = 0; f_len <= GEMLAB_SHEET_FLOATS + 1; f_len++) {
            uint64_t *n = entries(&sheet[0], n_len, at_end);
            double *f = entries(&sheet[1], f_len, at_end);
            int right = n_len == GEMLAB_SHEET_NUMBERS && f_len == GEMLAB_SHEET_FLOATS;
            uint64_t number, broken = 2, row = 5, visited = 9;

            memcpy(n, numbers, 8 * (n_len < GEMLAB_SHEET_NUMBERS ? n_len : GEMLAB_SHEET_NUMBERS));
            memcpy(f, floats, 8 * (f_len < GEMLAB_SHEET_FLOATS ? f_len : GEMLAB_SHEET_FLOATS));
            number = check_with(n, n_len, f, f_len, &library, &broken, &row, &visited);
            if (number != (right ? GEMLAB_DONE : GEMLAB_DAMAGED) || broken != (right ? 0 : 2) || row != 5
                || visited != (right ? 8 : 9)) {
                printf("check: %zuD, %zu numbers, %zu floats, returned %" PRIu64 "\n", dim, n_len, f_len, number);
                exit(1);
            }
        }
    }
}

/* One of the five lists is a row shorter. */
static void unequal(size_t dim, size_t len, uint64_t used, int at_end)
{
    size_t j, k;
    double *x = entries(&position, dim, at_end);

    for (k = 0; k < dim; k++) {
        x[k] = 0.25;
    }
    for (j = 0; j < LISTS; j++) {
        struct library library = fill(len, used, at_end);
        uint64_t number, found = 2, id = 5, count = 9, one = 3, removed = 9, broken = 2, row = 5, visited = 9;
        uint64_t wanted = len > MOST ? GEMLAB_TOO_LONG : GEMLAB_DAMAGED;

        library.len[j] = len - 1;
        if (at_end) {
            library.list[j] = (char *)library.list[j] + 8;
            library.shown[j] = (const char *)library.shown[j] + 8;
        }
        keep(&library);
        number = insert(&library, NEW_ID, x, dim);
        if (number != wanted || !kept(&library, 0) || library.used != used) {
            fail("insert, unequal", dim, len, used, number);
        }
        number = strike(&library, 0, &removed);
        if (number != wanted || !kept(&library, 0) || library.used != used || removed != 9) {
            fail("strike, unequal", dim, len, used, number);
        }
        number = check(&library, &broken, &row, &visited);
        if (number != wanted || broken != 2 || row != 5 || visited != 9) {
            fail("check, unequal", dim, len, used, number);
        }
        number = search(&library, x, dim, &found, &id);
        if (number != wanted || !kept(&library, 0) || found != 2 || id != 5) {
            fail("search, unequal", dim, len, used, number);
        }
        number = list(&library, x, dim, &one, 1, &count);
        if (number != wanted || !kept(&library, 0) || one != 3 || count != 9) {
            fail("list, unequal", dim, len, used, number);
        }
    }
}

/* A directory as it is lent. */
struct directory {
    void *list[PLACES];
    const void *shown[PLACES];
    size_t len[PLACES];
    uint64_t used;
};

/* So many places of any content. */
static struct directory any_directory(size_t len, int at_end)
{
    struct directory directory;
    size_t j;

    directory.used = UINT64_MAX;
    for (j = 0; j < PLACES; j++) {
        directory.len[j] = len;
        directory.list[j] = entries(&dir_lists[j], len, at_end);
        directory.shown[j] = entries(&dir_shown[j], len, at_end);
        memset(directory.list[j], 0xa5, 8 * len);
    }
    return directory;
}

static uint64_t get_place(const struct directory *directory, size_t list, uint64_t i)
{
    uint64_t entry;

    memcpy(&entry, (const char *)directory->list[list] + 8 * i, 8);
    return entry;
}

static void set_place(const struct directory *directory, size_t list, uint64_t i, uint64_t entry)
{
    memcpy((char *)directory->list[list] + 8 * i, &entry, 8);
}

static void keep_both(const struct library *library, const struct directory *directory)
{
    size_t j;

    keep(library);
    for (j = 0; j < PLACES; j++) {
        memcpy(dir_before[j], directory->list[j], directory->len[j] * 8);
    }
}

/* Whether the rows and the places are as they were. */
static int kept_both(const struct library *library, const struct directory *directory)
{
    size_t j;

    for (j = 0; j < PLACES; j++) {
        if (memcmp(dir_before[j], directory->list[j], directory->len[j] * 8) != 0) {
            return 0;
        }
    }
    return kept(library, 0);
}

/* Whether a directory has a place for each container of the rows in use, and zeros past them. */
static int matches(const struct library *library, const struct directory *directory)
{
    uint64_t row = 0, next, place = 0;

    for (row = 0; row < library->used; row = next, place++) {
        struct row first = get(library, row);

        for (next = row; next < library->used && get(library, next).entry[0] == first.entry[0]; next++) {
        }
        if (place >= directory->len[0] || get_place(directory, 0, place) != first.entry[0]
            || get_place(directory, 1, place) != row || get_place(directory, 2, place) != next - row) {
            return 0;
        }
    }
    if (directory->used != place) {
        return 0;
    }
    for (; place < directory->len[0]; place++) {
        if (get_place(directory, 0, place) != 0 || get_place(directory, 1, place) != 0 || get_place(directory, 2, place) != 0) {
            return 0;
        }
    }
    return 1;
}

/* The lists of a library and of a directory as arguments, to be written and to be read alone. */
#define SHEET numbers, GEMLAB_SHEET_NUMBERS, floats, GEMLAB_SHEET_FLOATS
#define ROWS(l, of) (l)->of[0], (l)->len[0], (l)->of[1], (l)->len[1], (l)->of[2], (l)->len[2], (l)->of[3], (l)->len[3], \
        (l)->of[4], (l)->len[4]
#define DIRECTORY(d, of) (d)->of[0], (d)->len[0], (d)->of[1], (d)->len[1], (d)->of[2], (d)->len[2]

static uint64_t counted(uint64_t number)
{
    calls++;
    refusals[number]++;
    return number;
}

static uint64_t build(const struct library *l, struct directory *d)
{
    return counted(gemlab_directory_build(SHEET, ROWS(l, shown), l->used, DIRECTORY(d, list), &d->used));
}

static uint64_t look_up(const struct library *l, const struct directory *d, uint64_t key, uint64_t *found, uint64_t *place,
                        uint64_t *reads)
{
    return counted(gemlab_directory_look_up(SHEET, ROWS(l, shown), l->used, DIRECTORY(d, shown), d->used, key, found, place,
                                            reads));
}

static uint64_t insert_filed(struct library *l, struct directory *d, uint64_t id, const double *x, size_t x_len)
{
    return counted(gemlab_directory_insert(SHEET, ROWS(l, list), &l->used, DIRECTORY(d, list), &d->used, id, x, x_len));
}

static uint64_t strike_filed(struct library *l, struct directory *d, uint64_t id, uint64_t *removed)
{
    return counted(gemlab_directory_strike(SHEET, ROWS(l, list), &l->used, DIRECTORY(d, list), &d->used, id, removed));
}

static uint64_t search_filed(const struct library *l, const struct directory *d, const double *x, size_t x_len, uint64_t *found,
                             uint64_t *id)
{
    return counted(gemlab_directory_search(SHEET, ROWS(l, shown), l->used, DIRECTORY(d, shown), d->used, x, x_len, found, id));
}

/* The ids on the line through the origin and x. */
static uint64_t list_filed(const struct library *l, const struct directory *d, const double *x, size_t x_len, uint64_t *ids,
                           size_t ids_len, uint64_t *count)
{
    static const double origin[3] = {0, 0, 0};

    return counted(gemlab_directory_list(SHEET, ROWS(l, shown), l->used, DIRECTORY(d, shown), d->used, GEMLAB_LINE, origin,
                                         x_len, x, x_len, 0, GEMLAB_EVERYTHING, 0, 0, 0, ids, ids_len, count));
}

/* The five calls that have a directory refuse it with this number, and leave everything. */
static void refuse_filed(const char *what, size_t dim, struct library *library, struct directory *directory, int at_end,
                         uint64_t wanted)
{
    static const double at[3] = {97.5, 97.5, 97.5};
    uint64_t used = library->used, places = directory->used, found = 2, id = 5, count = 9;
    uint64_t *results[3], *ids = entries(&listed, 1, at_end);
    size_t j;

    for (j = 0; j < 3; j++) {
        results[j] = entries(&told[j], 1, at_end);
        *results[j] = 7;
    }
    *ids = 3;
    keep_both(library, directory);
    if (look_up(library, directory, 0, results[0], results[1], results[2]) != wanted
        || insert_filed(library, directory, NEW_ID, at, dim) != wanted || strike_filed(library, directory, 0, results[0]) != wanted
        || search_filed(library, directory, at, dim, &found, &id) != wanted
        || list_filed(library, directory, at, dim, ids, 1, &count) != wanted || !kept_both(library, directory)
        || library->used != used || directory->used != places || *results[0] != 7 || *results[1] != 7 || *results[2] != 7
        || found != 2 || id != 5 || count != 9 || *ids != 3) {
        fail(what, dim, library->len[0], used, wanted);
    }
}

/* Look-ups of every container of few, else of the first, one in the middle and the last, and of one that has no row. */
static void look_up_all(size_t dim, const struct library *library, const struct directory *directory, int at_end)
{
    uint64_t *found = entries(&told[0], 1, at_end), *place = entries(&told[1], 1, at_end), *reads = entries(&told[2], 1, at_end);
    uint64_t i;

    for (i = 0; i <= directory->used; i++) {
        uint64_t is_in_use = i < directory->used, key = is_in_use ? get_place(directory, 0, i) : UINT64_MAX;

        if (directory->used > SHORT && i != 0 && i != directory->used / 2 && i + 1 < directory->used) {
            continue;
        }
        *found = 2;
        *place = 5;
        *reads = 99;
        if (look_up(library, directory, key, found, place, reads) != 0 || *found != is_in_use || *place != (is_in_use ? i : 5)
            || *reads > 17 || (is_in_use && *reads == 0)) {
            fail("look up", dim, library->len[0], library->used, i);
        }
    }
}

/* A search and a listing with the directory, which give what they give without. */
static void ask_filed(size_t dim, const struct library *library, const struct directory *directory, int at_end)
{
    static const double at[3] = {0.5, 0.5, 0};
    uint64_t *ids = entries(&listed, 16, at_end);
    uint64_t found[2] = {2, 2}, id[2] = {5, 5}, count[2] = {9, 9}, one[16], number[2];

    number[0] = search(library, at, dim, &found[0], &id[0]);
    number[1] = search_filed(library, directory, at, dim, &found[1], &id[1]);
    if (number[0] != number[1] || found[0] != found[1] || id[0] != id[1]) {
        fail("search with a directory", dim, library->len[0], library->used, number[1]);
    }
    memset(one, 0, sizeof one);
    memset(ids, 0, sizeof one);
    number[0] = list(library, at, dim, one, 16, &count[0]);
    number[1] = list_filed(library, directory, at, dim, ids, 16, &count[1]);
    if (number[0] != number[1] || count[0] != count[1] || memcmp(one, ids, sizeof one) != 0) {
        fail("list with a directory", dim, library->len[0], library->used, number[1]);
    }
    if (count[0] > 0 && number[0] == 0) {
        number[1] = list_filed(library, directory, at, dim, ids, (size_t)count[0] - 1, &count[1]);
        if (number[1] != GEMLAB_SHORT || count[1] != count[0] || memcmp(one, ids, sizeof one) != 0) {
            fail("list with a directory, too short", dim, library->len[0], library->used, number[1]);
        }
    }
}

/* Any content past the places in use. */
static void scribble(const struct directory *directory)
{
    size_t j, used = (size_t)directory->used;

    for (j = 0; j < PLACES; j++) {
        memset((char *)directory->list[j] + 8 * used, 0xa5, 8 * (directory->len[j] - used));
    }
}

/* A mark comes and goes, and the directory follows. Its container has a place, or is to have a new one. */
static void come_and_go(size_t dim, struct library *library, struct directory *directory, int at_end, double at, int is_new)
{
    double *x = entries(&position, dim, at_end);
    uint64_t *removed = entries(&listed, 1, at_end);
    uint64_t used = library->used, places = directory->used, after = places + (is_new ? 1 : 0), number;
    uint64_t wanted = used == library->len[0] || after > directory->len[0] ? GEMLAB_FULL : GEMLAB_DONE;
    size_t j;

    for (j = 0; j < dim; j++) {
        x[j] = at;
    }
    scribble(directory);
    keep_both(library, directory);
    number = insert_filed(library, directory, NEW_ID, x, dim);
    if (number != wanted) {
        fail("insert with a directory", dim, library->len[0], used, number);
    }
    if (number != 0) {
        if (!kept_both(library, directory) || library->used != used || directory->used != places) {
            fail("insert with a directory, memory", dim, library->len[0], used, number);
        }
        return;
    }
    if (!kept(library, (size_t)used + 1) || library->used != used + 1 || directory->used != after || !matches(library, directory)) {
        fail("insert with a directory, memory", dim, library->len[0], used, number);
    }
    scribble(directory);
    number = strike_filed(library, directory, NEW_ID, removed);
    if (number != 0 || *removed != 1 || library->used != used || directory->used != places || !matches(library, directory)) {
        fail("strike with a directory", dim, library->len[0], used, number);
    }
}

/* Two marks come and go, in the last container and in the first, and then the first mark goes. */
static void change_filed(size_t dim, struct library *library, struct directory *directory, int at_end)
{
    uint64_t *removed = entries(&listed, 1, at_end);
    uint64_t used = library->used, places = directory->used, number;

    come_and_go(dim, library, directory, at_end, 97.5, 1);
    come_and_go(dim, library, directory, at_end, 0.5, used == 0);
    scribble(directory);
    keep_both(library, directory);
    *removed = 9;
    number = strike_filed(library, directory, 0, removed);
    if (used == 0) {
        if (number != GEMLAB_NO_ROW || *removed != 9 || !kept_both(library, directory) || directory->used != places) {
            fail("strike of none with a directory", dim, library->len[0], used, number);
        }
        return;
    }
    close_up(library->len[0], used, 0);
    if (number != 0 || *removed != 1 || library->used != used - 1 || !kept(library, 0) || !matches(library, directory)) {
        fail("strike of the first with a directory", dim, library->len[0], used, number);
    }
}

/* Directories that do not match, and lists that differ in length. */
static void refuse_directories(size_t dim, struct library *library, const struct directory *good, int at_end)
{
    uint64_t last = good->used - 1;
    size_t j;

    for (j = 0; j < PLACES && good->used > 0; j++) {
        struct directory directory = *good;
        uint64_t was = get_place(good, j, last), first = get_place(good, j, 0);

        set_place(good, j, last, was + 1);
        refuse_filed("the last place", dim, library, &directory, at_end, GEMLAB_MISMATCH);
        set_place(good, j, last, was);
        set_place(good, j, 0, UINT64_MAX);
        refuse_filed("the first place", dim, library, &directory, at_end, GEMLAB_MISMATCH);
        set_place(good, j, 0, first);
        directory.used = last;
        refuse_filed("a place fewer", dim, library, &directory, at_end, GEMLAB_MISMATCH);
    }
    for (j = 0; j < PLACES && good->len[0] > 0; j++) {
        struct directory directory = *good;

        directory.used = good->used + 1;
        refuse_filed("a place more", dim, library, &directory, at_end,
                     directory.used <= good->len[0] ? GEMLAB_MISMATCH : GEMLAB_DAMAGED);
        directory.used = good->used;
        directory.len[j]--;
        if (at_end) {
            directory.list[j] = (char *)directory.list[j] + 8;
            directory.shown[j] = (const char *)directory.shown[j] + 8;
        }
        refuse_filed("a list one shorter", dim, library, &directory, at_end, GEMLAB_DAMAGED);
        if (build(library, &directory) != GEMLAB_DAMAGED || !kept_both(library, &directory) || directory.used != good->used) {
            fail("build in lists of unequal length", dim, library->len[0], library->used, good->used);
        }
    }
}

/* A library with a directory of so many places. */
static void filed_on(size_t dim, size_t len, uint64_t used, int at_end, size_t places)
{
    struct library library = fill(len, used, at_end);
    struct directory directory = any_directory(places, at_end);
    uint64_t number, wanted = expected(len, used, 0), containers = (used + 7) / 8;

    if (places > MOST) {
        wanted = GEMLAB_TOO_LONG;
    }
    if (wanted != GEMLAB_DONE) {
        refuse_filed("with a directory", dim, &library, &directory, at_end, wanted);
        directory.used = 0;
        refuse_filed("with a directory", dim, &library, &directory, at_end, wanted);
    } else if (places < containers) {
        wanted = GEMLAB_FULL;
        directory.used = 0;
        refuse_filed("with no place in use", dim, &library, &directory, at_end, GEMLAB_MISMATCH);
    }
    directory.used = UINT64_MAX;
    keep_both(&library, &directory);
    number = build(&library, &directory);
    if (number != wanted || !kept(&library, 0)) {
        fail("build", dim, len, used, number);
    }
    if (number != 0) {
        if (!kept_both(&library, &directory) || directory.used != UINT64_MAX) {
            fail("build, memory", dim, len, used, number);
        }
        return;
    }
    if (directory.used != containers || !matches(&library, &directory)) {
        fail("build, places", dim, len, used, number);
    }
    look_up_all(dim, &library, &directory, at_end);
    ask_filed(dim, &library, &directory, at_end);
    if (places > containers || used == len) {
        refuse_directories(dim, &library, &directory, at_end);
    }
    change_filed(dim, &library, &directory, at_end);
}

/* Directories with just enough places, one more and one too few; and with as many as can be, and too many. */
static void with_directories(size_t dim, size_t len, uint64_t used, int at_end)
{
    size_t containers = (size_t)(used + 7) / 8;

    if (containers > 0) {
        filed_on(dim, len, used, at_end, containers - 1);
    }
    filed_on(dim, len, used, at_end, containers);
    filed_on(dim, len, used, at_end, containers + 1);
    if (len >= MOST || used == len / 2) {
        filed_on(dim, len, used, at_end, MOST);
        filed_on(dim, len, used, at_end, MOST + 1);
    }
}

static void one_length(size_t dim, size_t len, uint64_t used)
{
    uint64_t corners = dim == 2 ? 4 : 8;
    int at_end;

    for (at_end = 0; at_end < 2; at_end++) {
        /* in the middle of a container, and where four or eight meet */
        calls_on(dim, len, used, at_end, 97.5, 1);
        calls_on(dim, len, used, at_end, 97, corners);
        /* the first and the last row of each container, and of all; a mark that has no row; one that has every row, where there
           are as many containers */
        strike_on(dim, len, used, at_end, 8, 0);
        strike_on(dim, len, used, at_end, 8, 7);
        strike_on(dim, len, used, at_end, used + 1, 0);
        strike_on(dim, len, used, at_end, used + 1, used - 1);
        strike_on(dim, len, used, at_end, used + 1, used);
        if (dim == 3 || used <= CONTAINERS) {
            strike_on(dim, len, used, at_end, 1, 0);
        }
        check_on(dim, len, used, at_end);
        with_directories(dim, len, used, at_end);
        if (len > 0) {
            unequal(dim, len, used, at_end);
        }
    }
}

int main(void)
{
    static const size_t lengths[2] = {MOST, MOST + 1};
    size_t dim, len, i;
    uint64_t used;

    for (i = 0; i < LISTS; i++) {
        make_views((MOST + 1) * 8, &lists[i], &shown[i]);
        before[i] = malloc((MOST + 1) * 8);
        if (before[i] == NULL) {
            return 2;
        }
    }
    for (i = 0; i < PLACES; i++) {
        make_views((MOST + 1) * 8, &dir_lists[i], &dir_shown[i]);
        dir_before[i] = malloc((MOST + 1) * 8);
        if (dir_before[i] == NULL) {
            return 2;
        }
    }
    position = make_area(3 * 8);
    listed = make_area(16 * 8);
    for (i = 0; i < 3; i++) {
        told[i] = make_area(8);
    }
    sheet[0] = make_area((GEMLAB_SHEET_NUMBERS + 1) * 8);
    sheet[1] = make_area((GEMLAB_SHEET_FLOATS + 1) * 8);
    for (dim = 2; dim <= 3; dim++) {
        const double low[3] = {0, 0, 0}, high[3] = {100, 100, 100};
        uint64_t number = gemlab_grid_search_new(low, dim, high, dim, 1, 100, 1, 1.0 / 512, 1, 0,
                                                 numbers, GEMLAB_SHEET_NUMBERS, floats, GEMLAB_SHEET_FLOATS);

        if (number != 0) {
            fail("sheet", dim, 0, 0, number);
        }
        check_sheets(dim, 0);
        check_sheets(dim, 1);
        for (len = 0; len <= SHORT; len++) {
            for (used = 0; used <= len + 1; used++) {
                one_length(dim, len, used);
            }
        }
        for (i = 0; i < 2; i++) {
            len = lengths[i];
            one_length(dim, len, 0);
            one_length(dim, len, len - 8);
            one_length(dim, len, len - 1);
            one_length(dim, len, len);
            one_length(dim, len, len + 1);
        }
    }
    printf("%" PRIu64 " calls\n", calls);
    for (i = 0; i < sizeof refusals / sizeof refusals[0]; i++) {
        if (refusals[i] != 0) {
            printf("returned %zu: %" PRIu64 "\n", i, refusals[i]);
        }
    }
    return 0;
}
