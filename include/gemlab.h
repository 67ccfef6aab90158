/*
 * gemlab: points and cells found by position.
 *
 * The library is target/staticlib/libcapi.a, for x86-64 Linux; `./staticlib capi` writes it. It
 * needs no other library:
 *
 *     gcc -Iinclude program.c target/staticlib/libcapi.a -o program
 *
 * It keeps nothing between calls and takes no memory but its stack: whatever it works on is lent by
 * the caller.
 *
 *
 * What a call gives back
 *
 * Every function returns a uint64_t: 0 is success, any other value is the number of a refusal from
 * the table below. A call that could be refused for several reasons gives the first in the order
 * that stands with the function. A refusal writes nothing: every list, count and result that was
 * lent keeps its content, but for the *line of an import, which tells where 27 is.
 *
 *
 * How lists are passed
 *
 * A list is a pointer and its length, a number of entries. The pointer is aligned and never NULL,
 * and that many entries can be read there, or written where it is not const. A result, such as
 * *found, is one entry. Whatever is written, a list or a result, overlaps no other argument: two
 * results are two variables. Nothing else is asked of a caller: every value of every argument has
 * an answer.
 *
 * An empty list has length 0 and any aligned pointer that is not NULL, which is not read:
 *
 *     double none[1];
 *     gemlab_point_point_distance(none, 0, none, 0, &distance);   (returns GEMLAB_DIMENSION)
 *
 *
 * How long lists have to be
 *
 * A mark takes at most GEMLAB_MARK_ROWS(ndim) rows, 5 in 2D and 9 in 3D: one mostly, 4 or 8 where
 * containers meet, and one more only where the side of a container is within rounding of twice the
 * tolerance. Inserted again elsewhere, it takes as many again; struck off, it frees them all. A
 * cell takes at most GEMLAB_CELL_ROWS(ndim) rows, 4 in 2D and 8 in 3D. Large cells are at most the
 * part large_pct of the cells, rounded up; a list as long as the cells is always enough. A listing
 * has at most as many ids as rows are in use, and a directory at most as many places as rows are in
 * use after a call, and as the sheet has containers. A point list has as many marks as lines, and a
 * mark takes at most GEMLAB_POINT_BYTES bytes, 61, in an exported text. Lists of these lengths are
 * never refused for want of room (12, 14); a list of rows, of places or of marks has at most 65,536
 * entries (24). A text may have any length.
 *
 *
 * Threads and stack
 *
 * Calls may run in several threads at once, as long as none of them writes what another reads or
 * writes: many searches of one library, or changes of different ones. A call takes at most
 * GEMLAB_STACK bytes of its thread's stack; a listing on which more than 1,024 rows count takes at
 * most GEMLAB_STACK_LISTING.
 *
 *
 * What the answers mean in the field
 *
 * Answers are gemlab's, to the last bit, and gemlab rounds. The figures are those of the meshes and
 * marks that were tried; README.md has more of them.
 *
 * Tetrahedra have holes at their rims: a position on a node, an edge or a face can be computed to
 * be outside every cell around it, and is then answered by found = 0: about one in seven of the
 * nodes within a mesh, one in eight of the middles of edges, one in a thousand of the middles of
 * faces. Near the origin they were outside by less than 2e-14 of a cell, far from it by more.
 * Triangles had no hole at nodes and middles of edges.
 *
 * Tetrahedra lose accuracy far from the origin, since coordinates are multiplied as they are. At
 * (500000, 900000, 400), coordinates in a cell of 10 m are off by up to 1e-4; in one of 1 m by up
 * to 0.1, and of positions well inside such a cell 2 in 100 are placed in another cell or in none.
 * Triangles lose next to nothing. So take coordinates from a local origin beside the mesh, which
 * also keeps them within the limit of 1,048,576 (3).
 *
 * A mark is found at a position that is nearer than the tolerance on each axis by more than
 * rounding, as long as the side of a container is more than twice the tolerance by more than
 * rounding too. Further off and up to tol_dist, it is missed where the edge of a container lies
 * between. Of the marks that are not missed, the nearest is found.
 */
#ifndef GEMLAB_H
#define GEMLAB_H

#include <stddef.h>
#include <stdint.h>

#ifdef __cplusplus
extern "C" {
#endif

/*
 * What a call returns: 0, or the number of a refusal.
 */
#define GEMLAB_DONE 0
#define GEMLAB_DIMENSION 1      /* the dimension is not 2 or 3 */
#define GEMLAB_LENGTH 2         /* another position's length differs from the dimension */
#define GEMLAB_LIMIT 3          /* a float is not finite, a coordinate or a radius is past
                                   1,048,576 in magnitude, a tolerance or a border is above
                                   1,024, or a positive tolerance is below 1/1,048,576 */
#define GEMLAB_NO_DIVISIONS 4   /* divisions 0 */
#define GEMLAB_ONE_DIVISION 5   /* divisions 1 */
#define GEMLAB_MANY_DIVISIONS 6 /* divisions, or an axis of a cell index, above 1,024 */
#define GEMLAB_CORNERS 7        /* xmax is not above xmin on some axis */
#define GEMLAB_TOLERANCE 8      /* the tolerance is 0 or negative */
#define GEMLAB_BORDER 9         /* the border is negative */
#define GEMLAB_SIDE 10          /* the side of a container is at most twice the tolerance */
#define GEMLAB_OUTSIDE 11       /* the position is outside the sheet or the index */
#define GEMLAB_FULL 12          /* the call needs more new rows, places of a directory or
                                   large-cell entries than are free, or a text has more marks
                                   than its lists have entries */
#define GEMLAB_DAMAGED 13       /* what was handed in is damaged: a sheet that is not the one its
                                   settings give, rows out of order, lists of unequal length, a
                                   count above its list, and the like */
#define GEMLAB_SHORT 14         /* the lent list is shorter than the listing, or the lent buffer
                                   than the text */
#define GEMLAB_CLOSE 15         /* the ends of a line, or of a cylinder's axis, are too close:
                                   the square of their distance is at most 2^-52 */
#define GEMLAB_UNFIT 16         /* a circle in 3D, a cylinder or a plane in 2D, a filter on an
                                   axis that is not there */
#define GEMLAB_RATIO 17         /* a ratio exceeds its divisions */
#define GEMLAB_NO_CELLS 18      /* no cells */
#define GEMLAB_BROKEN_MESH 19   /* a corner names no point, or the flat lists hold no whole
                                   number of points or cells */
#define GEMLAB_CUTOFF 20        /* the cutoff is outside 0 to 1 */
#define GEMLAB_PERCENTAGE 21    /* the percentage is outside 0 to 1 */
#define GEMLAB_NO_EXTENT 22     /* no extent, or 0 divisions, on some axis */
#define GEMLAB_ALL_LARGE 23     /* every cell is large, and the percentage keeps them so */
#define GEMLAB_TOO_LONG 24      /* a lent list holds more than 65,536 points, cells, rows,
                                   places or marks */
#define GEMLAB_COORDINATES 25   /* the coordinate list is not of length 4 */
#define GEMLAB_NO_ROW 26        /* the id that is to be struck off has no row */
#define GEMLAB_MALFORMED 27     /* a line of the text is malformed */
#define GEMLAB_NO_DECIMAL 28    /* a coordinate to export is not, bit for bit, the value of any
                                   decimal that an import takes */
#define GEMLAB_MISMATCH 29      /* the used places of a directory do not match the rows */

/*
 * The most stack that a call takes below its caller's frame, in bytes: 8 KiB, and 144 KiB for a
 * listing on which more than 1,024 rows count.
 */
#define GEMLAB_STACK 8192
#define GEMLAB_STACK_LISTING 147456

/*
 * The most rows that a mark, and that a cell, takes.
 */
#define GEMLAB_MARK_ROWS(ndim) ((ndim) == 2 ? 5 : 9)
#define GEMLAB_CELL_ROWS(ndim) ((ndim) == 2 ? 4 : 8)

/*
 * The most bytes that a mark takes in an exported text.
 */
#define GEMLAB_POINT_BYTES 61

/*
 * Distances.
 *
 * A position is a list of 2 or 3 coordinates, each finite and at most 1,048,576 in magnitude, as a
 * radius is. The first position of a call gives the dimension. Each product, quotient, sum and root
 * is rounded once to the nearest double, ties to even, in gemlab's order, so that results are
 * gemlab's to the last bit.
 */

/*
 * The distance between the points a and b, into *distance.
 * Refusals: 1 (length of a), 2 (length of b), 3.
 */
uint64_t gemlab_point_point_distance(const double *a, size_t a_len,
                                     const double *b, size_t b_len,
                                     double *distance);

/*
 * The distance of the point c from the line through a and b, into *distance.
 * Refusals: 1 (length of a), 2 (length of b or c), 3, 15.
 */
uint64_t gemlab_point_line_distance(const double *a, size_t a_len,
                                    const double *b, size_t b_len,
                                    const double *c, size_t c_len,
                                    double *distance);

/*
 * The distance of the point p from a circle in the plane, into *distance: negative inside, 0 on the
 * circle. The radius may be negative; the distance is then that to the centre plus its magnitude.
 * Refusals: 1 (length of center), 16 (center has 3 coordinates), 2 (length of p), 3.
 */
uint64_t gemlab_point_circle_distance(const double *center, size_t center_len,
                                      double radius,
                                      const double *p, size_t p_len,
                                      double *distance);

/*
 * The distance of the point p from the cylinder in space whose axis is the line through a and b,
 * into *distance: negative inside, 0 on the cylinder. The radius may be negative, as above.
 * Refusals: 1 (length of a), 16 (a has 2 coordinates), 2 (length of b or p), 3, 15.
 */
uint64_t gemlab_point_cylinder_distance(const double *a, size_t a_len,
                                        const double *b, size_t b_len,
                                        double radius,
                                        const double *p, size_t p_len,
                                        double *distance);

/*
 * The sheet.
 *
 * A sheet divides a box into containers of one side. It stands in two lists of the caller's, made
 * by gemlab_grid_search_new and handed to the calls on it: 8 numbers and 17 floats.
 *
 *     numbers  0      dimension
 *              1, 2   divisions given (0 or 1), and their number (0 where left out)
 *              3      tolerance given (0 or 1)
 *              4      border given (0 or 1)
 *              5..7   divisions along x, y, z (z: 1 in 2D)
 *     floats   0..2   low corner x, y, z
 *              3..5   high corner x, y, z
 *              6, 7   tolerance, border (each +0 where left out)
 *              8..10  xmin x, y, z: the low corner less the border
 *              11..13 xmax x, y, z: xmin plus side times divisions
 *              14     side length of a container
 *              15     tol_dist: within this distance two points count as the same
 *              16     radius of the circle or sphere about a container
 *
 * In 2D every z among the floats is +0. Settings are kept bit for bit. A sheet that is handed to a
 * call is damaged (13) where it is not, bit for bit, what gemlab_grid_search_new writes for its
 * settings.
 *
 * T_given says of a setting T whether it is given: 0 means left out, and T is not read. Left out
 * means 100 divisions, tolerance 1e-4, border 1e-2.
 */
#define GEMLAB_SHEET_NUMBERS 8
#define GEMLAB_SHEET_FLOATS 17

/*
 * The sheet with corners xmin and xmax, with ndiv divisions along the first longest axis and as
 * many along another as its length allows, 1 at least; into the two lists. The border widens the
 * box on every side after the divisions are chosen. A border of -0 is one of 0.
 * Refusals: 13 (a list is not of its length), 1 (length of xmin), 2 (length of xmax), 3, 4, 5, 6,
 * 7, 8, 9, 10.
 */
uint64_t gemlab_grid_search_new(const double *xmin, size_t xmin_len,
                                const double *xmax, size_t xmax_len,
                                uint64_t ndiv_given, uint64_t ndiv,
                                uint64_t tolerance_given, double tolerance,
                                uint64_t border_tol_given, double border_tol,
                                uint64_t *numbers, size_t numbers_len,
                                double *floats, size_t floats_len);

/*
 * A library of marks.
 *
 * A mark is a number, any uint64_t, at a position. A library keeps marks on one sheet as rows: one
 * row for each mark and container, in five lists of one length, the library's space, and the count
 * of the rows in use, which stand in front:
 *
 *     keys     the container's key: i + j * nx, and + k * nx * ny in 3D
 *     ids      the mark's number
 *     xs ys zs its coordinates (zs: +0 in 2D)
 *
 * Rows are in strict order of key, then id. An empty library has the count 0; its entries, and
 * those past the count in any library, may have any content and are never read. An insertion
 * changes them only where a new row takes their place; a striking sets them to 0. A space is at
 * most 65,536.
 *
 * A row in use is bad where its key is not below the number of containers, a coordinate is not
 * finite or past its limit, in 2D the third one is not +0, or the row is not above the one before
 * it by key, then id. Every call looks at the library first, and says 13 where the sheet is
 * damaged, the lists differ in length, the count is above that, or a row is bad. In this last case
 * gemlab_grid_search_check alone says 0, and tells the row.
 */

/*
 * Puts the mark id at x into the library: a row in the container of x, and one in each container
 * that a corner of the halo falls into, the points x plus or minus the tolerance on each axis that
 * are within the sheet. A row that the mark has there takes the new coordinates; its rows elsewhere
 * stay. *used becomes the new count.
 * Refusals: 24 (a list is longer than 65,536), 13, 2, 3, 11, 17 (of x or of a halo corner within
 * the sheet), 12 (more new rows than are free; a call that needs none is not refused).
 */
uint64_t gemlab_grid_search_insert(const uint64_t *numbers, size_t numbers_len,
                                   const double *floats, size_t floats_len,
                                   uint64_t *keys, size_t keys_len,
                                   uint64_t *ids, size_t ids_len,
                                   double *xs, size_t xs_len,
                                   double *ys, size_t ys_len,
                                   double *zs, size_t zs_len,
                                   uint64_t *used,
                                   uint64_t id,
                                   const double *x, size_t x_len);

/*
 * Strikes the mark id off: each of its rows goes, wherever it was inserted. The rows of other marks
 * close up in their order, and every entry past them, to the end of each of the five lists, becomes
 * 0 (+0). *used becomes the new count and *removed how many rows went; their room is free for later
 * insertions. gemlab has no such call: the rows left are those that its insertions of the other
 * marks give.
 * Refusals: 24, 13, 26 (the mark has no row).
 */
uint64_t gemlab_grid_search_strike(const uint64_t *numbers, size_t numbers_len,
                                   const double *floats, size_t floats_len,
                                   uint64_t *keys, size_t keys_len,
                                   uint64_t *ids, size_t ids_len,
                                   double *xs, size_t xs_len,
                                   double *ys, size_t ys_len,
                                   double *zs, size_t zs_len,
                                   uint64_t *used,
                                   uint64_t id,
                                   uint64_t *removed);

/*
 * The lowest bad row of the library: *broken becomes 1 and *row its number, counted from 0, or
 * *broken becomes 0 and *row stays. The rows in use are visited in order and once each, up to that
 * row or to the last, and *visited becomes how many they were: *row + 1, or used. Every other call
 * on a library alone says 13 exactly where this one says 13 or tells a row; one that takes a
 * directory judges that one's lists and count with the library's. gemlab has no such call: it keeps
 * its rows itself.
 * Refusals: 24, 13 (a damaged sheet, lists of unequal length, a count above them).
 */
uint64_t gemlab_grid_search_check(const uint64_t *numbers, size_t numbers_len,
                                  const double *floats, size_t floats_len,
                                  const uint64_t *keys, size_t keys_len,
                                  const uint64_t *ids, size_t ids_len,
                                  const double *xs, size_t xs_len,
                                  const double *ys, size_t ys_len,
                                  const double *zs, size_t zs_len,
                                  uint64_t used,
                                  uint64_t *broken,
                                  uint64_t *row,
                                  uint64_t *visited);

/*
 * The mark at x: of the rows in x's container whose distance from x is at most tol_dist, the id
 * with the least distance, and the lowest id among equal ones. A distance is what
 * gemlab_point_point_distance gives, a rounded root: two marks can be equally near though the
 * squares differ. *found becomes 1 and *id that number, or *found becomes 0 and *id stays. gemlab
 * itself may name any of the near ids.
 * Refusals: 24, 13, 2, 3, 11, 17.
 */
uint64_t gemlab_grid_search_search(const uint64_t *numbers, size_t numbers_len,
                                   const double *floats, size_t floats_len,
                                   const uint64_t *keys, size_t keys_len,
                                   const uint64_t *ids, size_t ids_len,
                                   const double *xs, size_t xs_len,
                                   const double *ys, size_t ys_len,
                                   const double *zs, size_t zs_len,
                                   uint64_t used,
                                   const double *x, size_t x_len,
                                   uint64_t *found,
                                   uint64_t *id);

/*
 * The marks on a place: the ids of the rows that count, ascending and once each, at the front of
 * list, and *count becomes how many they are. The list beyond them is untouched.
 *
 * place says what the place is, and number is its radius or coordinate:
 *
 *     GEMLAB_LINE      0  the line through a and b
 *     GEMLAB_CIRCLE    1  the circle of centre a and radius number, in 2D
 *     GEMLAB_CYLINDER  2  the cylinder of radius number whose axis goes through a and b, in 3D
 *     GEMLAB_PLANE_XY  3  the plane z = number, in 3D
 *     GEMLAB_PLANE_YZ  4  the plane x = number, in 3D
 *     GEMLAB_PLANE_XZ  5  the plane y = number, in 3D
 *
 * A position that the place does not have, and a line's number, are not read; an empty list will
 * do. A radius may be negative.
 *
 * filter says which of the marks are kept: GEMLAB_EVERYTHING (0), where axis, low and high are not
 * read, or GEMLAB_RANGE (1): those whose coordinate on the axis (0, 1 or 2) is at least low and at
 * most high. A range with low above high keeps none.
 *
 * A row counts where the centre of its container is within radius + tol_dist of the place (for a
 * circle or a cylinder by the signed distance, so that every container inside does), its own point
 * is within tol_dist, and the filter keeps that point.
 * Refusals: 24, 13, 16 (a place or a filter that is not there, or not in this dimension), 2, 3 (of
 * the positions, the radius or coordinate, and the ends of a range), 15 (where a row is in use), 14
 * (the ids are more than list_len).
 */
#define GEMLAB_LINE 0
#define GEMLAB_CIRCLE 1
#define GEMLAB_CYLINDER 2
#define GEMLAB_PLANE_XY 3
#define GEMLAB_PLANE_YZ 4
#define GEMLAB_PLANE_XZ 5

#define GEMLAB_EVERYTHING 0
#define GEMLAB_RANGE 1

uint64_t gemlab_grid_search_list(const uint64_t *numbers, size_t numbers_len,
                                 const double *floats, size_t floats_len,
                                 const uint64_t *keys, size_t keys_len,
                                 const uint64_t *ids, size_t ids_len,
                                 const double *xs, size_t xs_len,
                                 const double *ys, size_t ys_len,
                                 const double *zs, size_t zs_len,
                                 uint64_t used,
                                 uint64_t place,
                                 const double *a, size_t a_len,
                                 const double *b, size_t b_len,
                                 double number,
                                 uint64_t filter, uint64_t axis, double low, double high,
                                 uint64_t *list, size_t list_len,
                                 uint64_t *count);

/*
 * A directory of containers.
 *
 * A directory says where in a library's rows each container stands, so that a search or a listing
 * goes to the rows of a container without looking for them. It has a place for each container that
 * has a row, ascending by key, in three lists of one length, and the count of the places in use,
 * which stand in front:
 *
 *     dir_keys    the container's key
 *     dir_firsts  its first row, counted from 0
 *     dir_counts  how many rows it has, one or more
 *
 * The length of these lists need not be that of the rows; it is at most 65,536. Entries past the
 * count may have any content and are never read; a build, an insertion or a striking that is not
 * refused sets every one of them to 0, to the end of the lists.
 *
 * gemlab_directory_build writes the directory of a library. From then on a library that has one is
 * changed by gemlab_directory_insert and gemlab_directory_strike, which bring it up to date: it is
 * then the one that a build would write. After a change by gemlab_grid_search_insert or
 * gemlab_grid_search_strike it has to be built anew. The directory of an empty library has no place
 * in use.
 *
 * Each of these calls but the build looks at the library and at the directory first: 24 where one
 * of the eight lists is longer than 65,536; 13 where the sheet or the library is damaged, the
 * directory's lists differ in length or its count is above that; 29 where its used places are not
 * exactly those that a build would write. The answers are those of the calls without a directory,
 * and the other refusals follow in their order. gemlab has no directory.
 */

/*
 * The directory of the library's rows, into the three lists. *dir_used becomes how many places are
 * in use; what it held is not read. Every entry past them, to the end of each list, becomes 0. The
 * rows are only read.
 * Refusals: 24, 13 (of the library, or the directory's lists differ in length), 12 (more containers
 * have rows than the directory has places).
 */
uint64_t gemlab_directory_build(const uint64_t *numbers, size_t numbers_len,
                                const double *floats, size_t floats_len,
                                const uint64_t *keys, size_t keys_len,
                                const uint64_t *ids, size_t ids_len,
                                const double *xs, size_t xs_len,
                                const double *ys, size_t ys_len,
                                const double *zs, size_t zs_len,
                                uint64_t used,
                                uint64_t *dir_keys, size_t dir_keys_len,
                                uint64_t *dir_firsts, size_t dir_firsts_len,
                                uint64_t *dir_counts, size_t dir_counts_len,
                                uint64_t *dir_used);

/*
 * The place of a container in the directory: *found becomes 1 and *place its number, counted from
 * 0, or *found becomes 0 and *place stays, where no row has the key; a key of no container is one
 * of these. The rows of the container are then the dir_counts[*place] rows from
 * dir_firsts[*place] on. Of the places left the middle one is read, of two the lower, until the key
 * is found or no place is left; *reads becomes how many were read, 17 at most.
 * Refusals: 24, 13, 29.
 */
uint64_t gemlab_directory_look_up(const uint64_t *numbers, size_t numbers_len,
                                  const double *floats, size_t floats_len,
                                  const uint64_t *keys, size_t keys_len,
                                  const uint64_t *ids, size_t ids_len,
                                  const double *xs, size_t xs_len,
                                  const double *ys, size_t ys_len,
                                  const double *zs, size_t zs_len,
                                  uint64_t used,
                                  const uint64_t *dir_keys, size_t dir_keys_len,
                                  const uint64_t *dir_firsts, size_t dir_firsts_len,
                                  const uint64_t *dir_counts, size_t dir_counts_len,
                                  uint64_t dir_used,
                                  uint64_t key,
                                  uint64_t *found,
                                  uint64_t *place,
                                  uint64_t *reads);

/*
 * Puts the mark id at x into the library, as gemlab_grid_search_insert does, and brings the
 * directory up to date: *used and *dir_used become the new counts, and every entry of the directory
 * past its places becomes 0. The rows past the count stay as they do there.
 * Refusals: 24, 13, 29, 2, 3, 11, 17, 12 (the rows or the directory's places are too few for what
 * they would hold after the call; a call that needs no new one is not refused).
 */
uint64_t gemlab_directory_insert(const uint64_t *numbers, size_t numbers_len,
                                 const double *floats, size_t floats_len,
                                 uint64_t *keys, size_t keys_len,
                                 uint64_t *ids, size_t ids_len,
                                 double *xs, size_t xs_len,
                                 double *ys, size_t ys_len,
                                 double *zs, size_t zs_len,
                                 uint64_t *used,
                                 uint64_t *dir_keys, size_t dir_keys_len,
                                 uint64_t *dir_firsts, size_t dir_firsts_len,
                                 uint64_t *dir_counts, size_t dir_counts_len,
                                 uint64_t *dir_used,
                                 uint64_t id,
                                 const double *x, size_t x_len);

/*
 * Strikes the mark id off, as gemlab_grid_search_strike does, and brings the directory up to date:
 * the place of a container that has no row left goes. *used and *dir_used become the new counts,
 * *removed how many rows went, and every entry of the rows and of the directory past their counts,
 * to the end of each of the eight lists, becomes 0 (+0).
 * Refusals: 24, 13, 29, 26 (the mark has no row).
 */
uint64_t gemlab_directory_strike(const uint64_t *numbers, size_t numbers_len,
                                 const double *floats, size_t floats_len,
                                 uint64_t *keys, size_t keys_len,
                                 uint64_t *ids, size_t ids_len,
                                 double *xs, size_t xs_len,
                                 double *ys, size_t ys_len,
                                 double *zs, size_t zs_len,
                                 uint64_t *used,
                                 uint64_t *dir_keys, size_t dir_keys_len,
                                 uint64_t *dir_firsts, size_t dir_firsts_len,
                                 uint64_t *dir_counts, size_t dir_counts_len,
                                 uint64_t *dir_used,
                                 uint64_t id,
                                 uint64_t *removed);

/*
 * The mark at x, as gemlab_grid_search_search finds it. Past the checks, which go over the rows and
 * the places once, only the rows of the container of x are read.
 * Refusals: 24, 13, 29, 2, 3, 11, 17.
 */
uint64_t gemlab_directory_search(const uint64_t *numbers, size_t numbers_len,
                                 const double *floats, size_t floats_len,
                                 const uint64_t *keys, size_t keys_len,
                                 const uint64_t *ids, size_t ids_len,
                                 const double *xs, size_t xs_len,
                                 const double *ys, size_t ys_len,
                                 const double *zs, size_t zs_len,
                                 uint64_t used,
                                 const uint64_t *dir_keys, size_t dir_keys_len,
                                 const uint64_t *dir_firsts, size_t dir_firsts_len,
                                 const uint64_t *dir_counts, size_t dir_counts_len,
                                 uint64_t dir_used,
                                 const double *x, size_t x_len,
                                 uint64_t *found,
                                 uint64_t *id);

/*
 * The marks on a place of the plane or the space, as gemlab_grid_search_list lists them: place here
 * is what it is there, and no place of the directory.
 * Refusals: 24, 13, 29, 16, 2, 3, 15 (where a row is in use), 14.
 */
uint64_t gemlab_directory_list(const uint64_t *numbers, size_t numbers_len,
                               const double *floats, size_t floats_len,
                               const uint64_t *keys, size_t keys_len,
                               const uint64_t *ids, size_t ids_len,
                               const double *xs, size_t xs_len,
                               const double *ys, size_t ys_len,
                               const double *zs, size_t zs_len,
                               uint64_t used,
                               const uint64_t *dir_keys, size_t dir_keys_len,
                               const uint64_t *dir_firsts, size_t dir_firsts_len,
                               const uint64_t *dir_counts, size_t dir_counts_len,
                               uint64_t dir_used,
                               uint64_t place,
                               const double *a, size_t a_len,
                               const double *b, size_t b_len,
                               double number,
                               uint64_t filter, uint64_t axis, double low, double high,
                               uint64_t *list, size_t list_len,
                               uint64_t *count);

/*
 * Point lists.
 *
 * Surveyors exchange marks as text, one mark a line:
 *
 *     number,easting,northing,height,description
 *
 * A line has four commas. The number is 1 to 20 digits, at most 2^64 - 1. A coordinate is an
 * optional minus, 1 to 7 digits, and optionally a point with 1 to 3 digits; it is at most 1,048,576
 * in magnitude, its decimals included. The description is up to 32 bytes from 32 to 126, none of
 * them a comma. Nothing else stands in a line: no space or plus before a digit, no exponent. Zeros
 * may stand in front, as long as the digits are not too many.
 *
 * A line ends in LF or in CR LF, and the last line may have no end. A text that ends in LF has no
 * line after it. An empty line is malformed; so is a CR that is not directly before LF. An empty
 * text is one empty line.
 *
 * A coordinate means its whole number of millimetres, divided once by 1,000: the double nearest to
 * the decimal, as strtod gives it; -0 means +0.
 *
 * The marks stand in four lists of one length, ids, xs, ys and zs, in the order of the lines.
 * gemlab reads and writes no such text.
 */

/*
 * The marks of the text, into the front of the four lists; *used becomes how many they are, and
 * what it held is not read. Entries past them stay. Descriptions are dropped. Where a line is
 * malformed (27), *line becomes the number of the first such line, counted from 1; with any other
 * answer it stays.
 * Refusals: 24 (one of the four lists is longer than 65,536), 13 (the four lists differ in length),
 * 27 (line 1 for an empty text), 12 (more lines than entries; every line is judged first).
 */
uint64_t gemlab_survey_import(const uint8_t *text, size_t text_len,
                              uint64_t *ids, size_t ids_len,
                              double *xs, size_t xs_len,
                              double *ys, size_t ys_len,
                              double *zs, size_t zs_len,
                              uint64_t *used,
                              uint64_t *line);

/*
 * The text of the first marks of the lists, as many as used says, into the front of the buffer
 * text; *length becomes how many bytes it has, and the bytes past them stay. Numbers and
 * coordinates have no needless zero in front, coordinates always three decimals and no minus on
 * zero; descriptions are empty, and each line ends in LF:
 *
 *     7,1.500,-0.500,0.000,
 *
 * An import of it into lists that are long enough gives the same marks, bit for bit and in the same
 * order. No marks give the empty text, which is no list to an import (27). Entries past the marks
 * are not read.
 * Refusals: 24, 13 (the four lists differ in length, used is above that), 28 (of a mark in use: a
 * coordinate that an import never gives, such as -0, one that is not finite or past 1,048,576, one
 * between two millimetres, and a double next to that of a decimal), 14 (the text is longer than
 * text_len).
 */
uint64_t gemlab_survey_export(const uint64_t *ids, size_t ids_len,
                              const double *xs, size_t xs_len,
                              const double *ys, size_t ys_len,
                              const double *zs, size_t zs_len,
                              uint64_t used,
                              uint8_t *text, size_t text_len,
                              uint64_t *length);

/*
 * A cell index.
 *
 * A mesh is a list of coordinates, coords, 2 or 3 for each point, and a list of point numbers,
 * corners, 3 for each triangle in 2D and 4 for each tetrahedron in 3D. It has at most 65,536 points
 * and cells.
 *
 * An index divides a box around the mesh into containers of one side. It stands in two lists of the
 * caller's, 6 numbers and 7 floats:
 *
 *     numbers  0      dimension
 *              1..3   divisions along x, y, z (z: 1 in 2D)
 *              4      rows in use
 *              5      large cells in use
 *     floats   0      side length of a container
 *              1..3   xmin x, y, z
 *              4..6   xmax x, y, z: xmin plus side times divisions (z: +0 in 2D)
 *
 * and its rows, one for each container and cell in strict order of key, then cell, in two lists of
 * one length, keys and cells; and its large cells, ascending, in the list large. Entries past the
 * counts may have any content. Each list has at most 65,536 entries.
 */
#define GEMLAB_CELLS_NUMBERS 6
#define GEMLAB_CELLS_FLOATS 7

/*
 * The index of a mesh, into the five lists. A cell is large if the largest length of its bounding
 * box is at least large_cutoff times the largest of all. If at most the part large_pct of the cells
 * is large, these go to the list large; else none counts as large. Each other cell gets a row in
 * every container that a corner of its bounding box falls into. The side of a container is the
 * largest length of these cells plus twice the tolerance, and the border widens the box around the
 * mesh. Entries past the new counts stay.
 *
 * Settings left out are tolerance 1e-4, border 1e-2, cutoff 0.75 and percentage 0.2 (a part of 1).
 * Refusals: 1, 24 (more than 65,536 points, cells, rows or large cells in a lent list), 13 (keys
 * and cells differ in length, or an index list is not of its length), 19, 3 (of every coordinate,
 * used or not, and of the settings), 8, 9, 20, 21, 18, 23, 22, 6, 17, 12 (of the rows or the large
 * cells).
 */
uint64_t gemlab_grid_cells_new(uint64_t ndim,
                               const double *coords, size_t coords_len,
                               const uint32_t *corners, size_t corners_len,
                               uint64_t tolerance_given, double tolerance,
                               uint64_t border_tol_given, double border_tol,
                               uint64_t large_cutoff_given, double large_cutoff,
                               uint64_t large_pct_given, double large_pct,
                               uint64_t *keys, size_t keys_len,
                               uint64_t *cells, size_t cells_len,
                               uint64_t *large, size_t large_len,
                               uint64_t *numbers, size_t numbers_len,
                               double *floats, size_t floats_len);

/*
 * The cell at a position, of an index, its lists and its mesh: the first large cell that contains
 * the position, and else the first cell of the position's container that does, both ascending. A
 * cell contains a position that is not outside its bounding box and of whose coordinates in the
 * cell none is below 0, so that a NaN, which a cell of no area can give, counts as inside.
 *
 * found becomes 1, cell its number, and the first 3 (2D) or 4 (3D) entries of zeta the position's
 * coordinates in it; in 2D the fourth entry stays. Where no cell contains the position, found
 * becomes 0 and cell and zeta stay.
 *
 * Refusals: 1 (of numbers[0]; also for an empty list of numbers), 24 (more than 65,536 points,
 * cells, rows or large cells in a lent list), 19, 13 (an index list not of its length, a damaged
 * index, rows or large cells; in 2D the third entries of the index are not judged), 25 (zeta not of
 * length 4), 2, 3 (of the position, and of every coordinate of the mesh, used or not), 11, 17.
 */
uint64_t gemlab_grid_cells_search(const uint64_t *numbers, size_t numbers_len,
                                  const double *floats, size_t floats_len,
                                  const double *coords, size_t coords_len,
                                  const uint32_t *corners, size_t corners_len,
                                  const uint64_t *keys, size_t keys_len,
                                  const uint64_t *cells, size_t cells_len,
                                  const uint64_t *large, size_t large_len,
                                  const double *x, size_t x_len,
                                  double *zeta, size_t zeta_len,
                                  uint64_t *found, uint64_t *cell);

#ifdef __cplusplus
}
#endif

#endif
