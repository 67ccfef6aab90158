/* Point lists: imports of every beginning of a text, and of 65,536 and 65,537 lines, into lists of every length up to one more
   than its lines; exports of up to eight marks and of 65,536, into buffers of every length up to one more than the text's. Each
   list, text and result that is lent ends where memory ends, or begins where it begins: pages that may not be touched stand on
   both sides of it. What a call only reads it gets where it cannot be written. A refusal has to leave every byte as it was, but
   for the line of a malformed one, and so has a call past what it writes. */
#define _DEFAULT_SOURCE
#include "areas.h"
#include "gemlab.h"

#include <inttypes.h>
#include <string.h>

#define MARKS 8
#define MOST 65536
#define FILL 0xa5

/* What is lent: the text, the four lists, and the result that each of the calls has besides `used`. */
enum { TEXT, IDS, XS, YS, ZS, USED, RESULT, LISTS };

static const size_t entry_size[LISTS] = {1, 8, 8, 8, 8, 8, 8};
static struct area written[LISTS], shown[LISTS];
static void *list[LISTS];
static const void *view[LISTS];
static size_t len[LISTS];
static void *before[LISTS];
static uint64_t calls, returned[32];

static const uint64_t ids[MARKS] = {7, 0, UINT64_MAX, 12, 9, 10, 100000, 3};
static const double at[MARKS][3] = {
    {1.5, -0.5, 0}, {0, 0, 0}, {-1048576, 1048576, -1048575.999}, {0.001, -0.001, 0.125},
    {523417.25, 98765.432, -7.5}, {1000, 999.999, -10}, {-0.25, 0.5, 0.75}, {2, 3, 4},
};

/* The same marks as surveyors may write them. */
static const char line_text[] =
    "7,1.5,-0.50,0,post by the gate\r\n"
    "0,0,-0,0.0,\n"
    "18446744073709551615,-1048576,1048576.000,-1048575.999,12345678901234567890123456789012\r\n"
    "00012,0.001,-0.001,0.125,~ ~\n"
    "9,523417.25,98765.432,-7.500,\r\n"
    "10,1000,0000999.999,-10.0,x\r\n"
    "000000100000,-0.25,0.5,0.75,\n"
    "3,2,3,4,end";

static void fail(const char *what, size_t marks, uint64_t number)
{
    printf("%s: %zu bytes of text, %zu entries, %zu marks, returned %" PRIu64 "\n", what, len[TEXT], len[IDS], marks, number);
    exit(1);
}

/* Lends n entries. */
static void lend(int which, size_t n, int at_end)
{
    len[which] = n;
    list[which] = sized_entries(&written[which], n, entry_size[which], at_end);
    view[which] = sized_entries(&shown[which], n, entry_size[which], at_end);
}

/* Lends a text, lists and results, all of one byte that no result has. */
static void lend_all(size_t text, size_t entries, int at_end)
{
    int which;

    for (which = 0; which < LISTS; which++) {
        lend(which, which == TEXT ? text : which >= USED ? 1 : entries, at_end);
        memset(list[which], FILL, len[which] * entry_size[which]);
    }
}

static void keep(void)
{
    int which;

    for (which = 0; which < LISTS; which++) {
        memcpy(before[which], list[which], len[which] * entry_size[which]);
    }
}

/* Whether everything is as it was kept. */
static int kept(void)
{
    int which;

    for (which = 0; which < LISTS; which++) {
        if (memcmp(before[which], list[which], len[which] * entry_size[which]) != 0) {
            return 0;
        }
    }
    return 1;
}

/* Writes an entry, to what is lent or to what is kept of it. */
static void put(void *entries, size_t i, const void *entry)
{
    memcpy((char *)entries + 8 * i, entry, 8);
}

/* The first marks of those above, again and again. */
static void put_marks(void *const lists[LISTS], size_t marks)
{
    size_t i;

    for (i = 0; i < marks; i++) {
        put(lists[IDS], i, &ids[i % MARKS]);
        put(lists[XS], i, &at[i % MARKS][0]);
        put(lists[YS], i, &at[i % MARKS][1]);
        put(lists[ZS], i, &at[i % MARKS][2]);
    }
}

/* The import of the text into the lists, where marks, a line or neither is to be written: what is kept becomes that, and has to be
   what is lent afterwards. */
static void import(const char *what, uint64_t wanted, uint64_t marks, uint64_t line)
{
    uint64_t number;

    keep();
    if (wanted == GEMLAB_DONE) {
        put_marks(before, (size_t)marks);
        put(before[USED], 0, &marks);
    } else if (wanted == GEMLAB_MALFORMED) {
        put(before[RESULT], 0, &line);
    }
    number = gemlab_survey_import(view[TEXT], len[TEXT], list[IDS], len[IDS], list[XS], len[XS], list[YS], len[YS], list[ZS],
                                  len[ZS], list[USED], list[RESULT]);
    calls++;
    returned[number]++;
    if (number != wanted || !kept()) {
        fail(what, (size_t)marks, number);
    }
}

/* The same with each of the four lists an entry shorter. */
static void import_unequal(uint64_t wanted)
{
    int which;

    for (which = IDS; which <= ZS; which++) {
        len[which]--;
        import("import, unequal", wanted, 0, 0);
        len[which]++;
    }
}

/* The first bytes of the text above, into lists of every length up to one more than its lines. */
static void import_part(size_t bytes, int at_end)
{
    uint64_t lines = 0, commas = 0;
    size_t i, start = 0, entries;
    int good;

    for (i = 0; i < bytes; i++) {
        commas += line_text[i] == ',';
        if (line_text[i] == '\n') {
            lines++;
            commas = 0;
            start = i + 1;
        }
    }
    /* a line that is cut off needs its four commas, and no CR at the end */
    good = bytes > 0 && (start == bytes || (commas == 4 && line_text[bytes - 1] != '\r'));
    lines += start < bytes || bytes == 0;
    for (entries = 0; entries <= lines + 1; entries++) {
        lend_all(bytes, entries, at_end);
        memcpy(list[TEXT], line_text, bytes);
        import("import", !good ? GEMLAB_MALFORMED : entries < lines ? GEMLAB_FULL : GEMLAB_DONE, lines, lines);
        if (entries > 0) {
            import_unequal(GEMLAB_DAMAGED);
        }
    }
}

/* As the export is to write them. Returns how many bytes these are. */
static size_t text_of(char *text, size_t marks)
{
    size_t i, length = 0;

    for (i = 0; i < marks; i++) {
        const double *x = at[i % MARKS];

        length += (size_t)sprintf(text + length, "%" PRIu64 ",%.3f,%.3f,%.3f,\n", ids[i % MARKS], x[0], x[1], x[2]);
    }
    return length;
}

static void export(const char *what, uint64_t wanted, uint64_t marks)
{
    uint64_t number, length;

    keep();
    if (wanted == GEMLAB_DONE) {
        length = text_of(before[TEXT], (size_t)marks);
        ((char *)before[TEXT])[length] = (char)FILL; /* where sprintf puts a zero byte */
        put(before[RESULT], 0, &length);
    }
    number = gemlab_survey_export(view[IDS], len[IDS], view[XS], len[XS], view[YS], len[YS], view[ZS], len[ZS], marks, list[TEXT],
                                  len[TEXT], list[RESULT]);
    calls++;
    returned[number]++;
    if (number != wanted || !kept()) {
        fail(what, (size_t)marks, number);
    }
}

/* So many marks from lists with entries past them that are no marks, into so many bytes. */
static void export_into(size_t marks, size_t more, size_t bytes, size_t length, int at_end)
{
    static const double minus_zero = -0.0;
    int which;

    lend_all(bytes, marks + more, at_end);
    put_marks(list, marks);
    export("export", bytes < length ? GEMLAB_SHORT : GEMLAB_DONE, marks);
    export("export, too many", GEMLAB_DAMAGED, marks + more + 1);
    export("export, too many", GEMLAB_DAMAGED, UINT64_MAX);
    if (marks + more == 0) {
        return;
    }
    for (which = IDS; which <= ZS; which++) {
        len[which]--;
        export("export, unequal", GEMLAB_DAMAGED, marks);
        len[which]++;
    }
    for (which = XS; marks > 0 && which <= ZS; which++) {
        put_marks(list, marks);
        put(list[which], marks - 1, &minus_zero);
        export("export, minus zero", GEMLAB_NO_DECIMAL, marks);
    }
}

/* The most lines, and one more, of which the last is good or has no number. */
static void import_many(char *text, int at_end)
{
    size_t length = text_of(text, MOST + 1), most = text_of(text + length + 1, MOST);

    lend_all(length, MOST, at_end);
    memcpy(list[TEXT], text, length);
    import("import of one more", GEMLAB_FULL, 0, 0);
    ((char *)list[TEXT])[most] = ',';
    import("import of one more, malformed", GEMLAB_MALFORMED, 0, MOST + 1);
    lend_all(most, MOST, at_end);
    memcpy(list[TEXT], text, most);
    import("import of the most", GEMLAB_DONE, MOST, 0);
    import_unequal(GEMLAB_DAMAGED);
    lend_all(most, MOST + 1, at_end);
    memcpy(list[TEXT], text, most);
    import("import, too long", GEMLAB_TOO_LONG, 0, 0);
    import_unequal(GEMLAB_TOO_LONG);
}

int main(void)
{
    size_t room = (size_t)(MOST + 1) * GEMLAB_POINT_BYTES + 1, marks, more, bytes, length, i;
    char *text = malloc(2 * room);
    int which, at_end;

    for (which = 0; which < LISTS; which++) {
        size_t size = which == TEXT ? room : which >= USED ? 8 : (MOST + 1) * 8;

        make_views(size, &written[which], &shown[which]);
        before[which] = malloc(size);
        if (before[which] == NULL || text == NULL) {
            return 2;
        }
    }
    for (at_end = 0; at_end < 2; at_end++) {
        for (bytes = 0; bytes < sizeof line_text; bytes++) {
            import_part(bytes, at_end);
        }
        import_many(text, at_end);
        for (marks = 0; marks <= MARKS; marks++) {
            length = text_of(text, marks);
            for (bytes = 0; bytes <= length + 1; bytes++) {
                for (more = 0; more <= 2; more++) {
                    export_into(marks, more, bytes, length, at_end);
                }
            }
        }
        length = text_of(text, MOST);
        for (bytes = length - 1; bytes <= length + 1; bytes++) {
            export_into(MOST, 0, bytes, length, at_end);
        }
        lend_all(length, MOST + 1, at_end);
        put_marks(list, MOST);
        export("export, too long", GEMLAB_TOO_LONG, MOST);
    }
    printf("%" PRIu64 " calls\n", calls);
    for (i = 0; i < sizeof returned / sizeof returned[0]; i++) {
        if (returned[i] != 0) {
            printf("returned %zu: %" PRIu64 "\n", i, returned[i]);
        }
    }
    free(text);
    return 0;
}
