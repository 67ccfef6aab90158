/* records: makes the 32-byte records of sheet.bin and marks.bin from text, and shows what is in them.

   A line of text is a record: a number and three floats. What is shown of a file gives the same bytes when it is packed, whatever
   the file holds, so a float is written with as few digits as read back to it, a NaN with its bit pattern, and bytes past the last
   whole record by a line of their own. ./records builds and runs this program. */
#define _POSIX_C_SOURCE 200809L
#include <errno.h>
#include <inttypes.h>
#include <stdarg.h>
#include <stdbool.h>
#include <stdint.h>
#include <stdio.h>
#include <stdlib.h>
#include <string.h>

enum { RECORD = 32, NUMBER = 8 };

static const char usage[] =
    "usage: ./records pack FOLDER    makes sheet.bin and marks.bin of the folder from its sheet.txt and\n"
    "                                marks.txt\n"
    "       ./records pack           makes records from standard input on standard output\n"
    "       ./records show [FILE]    shows the records of a file, or of standard input, as such text\n"
    "\n"
    "Text has a line for each record, a number and three floats:\n"
    "\n"
    "    # sheet.txt: dimension and low corner, divisions and high corner\n"
    "    2  0 0 0\n"
    "    8  8 4 0\n"
    "\n"
    "    # marks.txt: id and place of each mark; in 2D the third float is not read\n"
    "    3  3.5 2.5 0\n"
    "    7  2.00005 0.5 0\n"
    "\n"
    "Lines that are empty or start with # are left out. A float may be inf, -inf, nan, or a NaN by its\n"
    "bit pattern, nan:7ff8000000000001. The last line may be `bytes 0a ff ..`, for bytes that are no\n"
    "whole record.\n"
    "\n"
    "Status: 0; 1 where something is wrong, which is said on standard error; 2 for other arguments than\n"
    "these.\n";

/* The bytes of a file. */
struct bytes {
    unsigned char *at;
    size_t length, space;
};

static void die(const char *format, ...)
{
    va_list words;
    fflush(stdout);
    fputs("records: ", stderr);
    va_start(words, format);
    vfprintf(stderr, format, words);
    va_end(words);
    fputc('\n', stderr);
    exit(1);
}

static void append(struct bytes *b, const unsigned char *from, size_t n)
{
    if (b->space - b->length < n) {
        b->space = 2 * (b->space + n);
        b->at = realloc(b->at, b->space);
        if (b->at == NULL)
            die("there is not enough memory");
    }
    memcpy(b->at + b->length, from, n);
    b->length += n;
}

/* Eight bytes, the lowest first. */
static void append_number(struct bytes *b, uint64_t number)
{
    unsigned char eight[NUMBER];
    for (int i = 0; i < NUMBER; i++)
        eight[i] = (unsigned char)(number >> (8 * i) & 0xff);
    append(b, eight, NUMBER);
}

static uint64_t number_at(const unsigned char *from)
{
    uint64_t number = 0;
    for (int i = NUMBER; i-- > 0;)
        number = number << 8 | from[i];
    return number;
}

static uint64_t bits_of(double x)
{
    uint64_t bits;
    memcpy(&bits, &x, sizeof bits);
    return bits;
}

static bool is_nan(uint64_t bits)
{
    return (bits & 0x7fffffffffffffff) > 0x7ff0000000000000;
}

/* ---- from text */

/* Where a line stands, for what is said of it. */
struct line {
    const char *file;
    unsigned long number;
};

static bool only(const char *word, const char *letters)
{
    return word[0] != '\0' && word[strspn(word, letters)] == '\0';
}

static uint64_t whole_number(struct line line, const char *word)
{
    if (!only(word, "0123456789"))
        die("%s, line %lu: '%s' is no number of digits", line.file, line.number, word);
    errno = 0;
    uintmax_t number = strtoumax(word, NULL, 10);
    if (errno == ERANGE || number > UINT64_MAX)
        die("%s, line %lu: %s is above 18446744073709551615", line.file, line.number, word);
    return number;
}

static uint64_t nan_pattern(struct line line, const char *word)
{
    const char *digits = word + strlen("nan:");
    if (strlen(digits) != 16 || !only(digits, "0123456789abcdefABCDEF") || !is_nan(strtoumax(digits, NULL, 16)))
        die("%s, line %lu: '%s' is not nan: and the 16 hexadecimal digits of a NaN", line.file, line.number, word);
    return strtoumax(digits, NULL, 16);
}

/* The bit pattern of the float nearest to what the word says. */
static uint64_t float_bits(struct line line, const char *word)
{
    if (strcmp(word, "nan") == 0)
        return 0x7ff8000000000000;
    if (strncmp(word, "nan:", strlen("nan:")) == 0)
        return nan_pattern(line, word);
    if (strcmp(word, "inf") == 0)
        return 0x7ff0000000000000;
    if (strcmp(word, "-inf") == 0)
        return 0xfff0000000000000;
    char *end;
    double x = strtod(word, &end);
    if (!only(word, "+-.0123456789eE") || *end != '\0')
        die("%s, line %lu: '%s' is no decimal number", line.file, line.number, word);
    if (x - x != 0)
        die("%s, line %lu: %s is too large for a float", line.file, line.number, word);
    return bits_of(x);
}

/* The bytes that follow the word `bytes`, two hexadecimal digits each. */
static void left_over(struct line line, struct bytes *b)
{
    int n = 0;
    for (char *word; (word = strtok(NULL, " \t\r\n")) != NULL; n++) {
        if (strlen(word) != 2 || !only(word, "0123456789abcdefABCDEF"))
            die("%s, line %lu: '%s' is not the two hexadecimal digits of a byte", line.file, line.number, word);
        unsigned char byte = (unsigned char)strtoul(word, NULL, 16);
        append(b, &byte, 1);
    }
    if (n == 0 || n >= RECORD)
        die("%s, line %lu: %d bytes, and not from 1 to %d", line.file, line.number, n, RECORD - 1);
}

/* The bytes of a line; words after the fourth are one too many. */
static void pack_line(struct line line, char *text, struct bytes *b)
{
    char *word = strtok(text, " \t\r\n");
    if (word == NULL || word[0] == '#')
        return;
    if (b->length % RECORD != 0)
        die("%s, line %lu: something follows the line of bytes, which has to be the last", line.file, line.number);
    if (strcmp(word, "bytes") == 0) {
        left_over(line, b);
        return;
    }
    append_number(b, whole_number(line, word));
    int floats = 0;
    while ((word = strtok(NULL, " \t\r\n")) != NULL && floats < 3) {
        append_number(b, float_bits(line, word));
        floats++;
    }
    if (floats < 3 || word != NULL)
        die("%s, line %lu: %s than a number and three floats", line.file, line.number, floats < 3 ? "less" : "more");
}

static struct bytes pack(FILE *from, const char *name)
{
    struct bytes b = {NULL, 0, 0};
    struct line line = {name, 0};
    char *text = NULL;
    size_t space = 0;
    ssize_t n;
    while ((n = getline(&text, &space, from)) >= 0) {
        line.number++;
        if (strlen(text) != (size_t)n)
            die("%s, line %lu: a byte 0 is no text", line.file, line.number);
        pack_line(line, text, &b);
    }
    if (ferror(from))
        die("%s cannot be read: %s", name, strerror(errno));
    free(text);
    return b;
}

/* ---- to text */

/* As few digits as read back to the float. */
static void show_float(uint64_t bits)
{
    double x;
    char text[32];
    if (is_nan(bits)) {
        printf(" nan:%016" PRIx64, bits);
        return;
    }
    memcpy(&x, &bits, sizeof x);
    int digits = 1;
    do
        snprintf(text, sizeof text, "%.*g", digits, x);
    while (bits_of(strtod(text, NULL)) != bits && digits++ < 17);
    printf(" %s", text);
}

static void show(struct bytes b)
{
    size_t at = 0;
    for (; b.length - at >= RECORD; at += RECORD) {
        printf("%" PRIu64 " ", number_at(b.at + at));
        for (int i = 1; i <= 3; i++)
            show_float(number_at(b.at + at + NUMBER * i));
        putchar('\n');
    }
    if (at == b.length)
        return;
    printf("# left over: %zu of the %d bytes of a record\nbytes", b.length - at, (int)RECORD);
    for (; at < b.length; at++)
        printf(" %02x", (unsigned)b.at[at]);
    putchar('\n');
}

/* ---- files */

static FILE *opened(const char *name)
{
    FILE *f = fopen(name, "rb");
    if (f == NULL)
        die("%s cannot be opened: %s", name, strerror(errno));
    return f;
}

static struct bytes read_all(FILE *from, const char *name)
{
    struct bytes b = {NULL, 0, 0};
    unsigned char part[4096];
    for (size_t n; (n = fread(part, 1, sizeof part, from)) > 0;)
        append(&b, part, n);
    if (ferror(from))
        die("%s cannot be read: %s", name, strerror(errno));
    return b;
}

static void write_all(FILE *to, const char *name, struct bytes b)
{
    if (fwrite(b.at, 1, b.length, to) != b.length || fflush(to) != 0)
        die("%s cannot be written: %s", name, strerror(errno));
}

static char *joined(const char *folder, const char *name)
{
    size_t space = strlen(folder) + strlen(name) + 2;
    char *path = malloc(space);
    if (path == NULL)
        die("there is not enough memory");
    snprintf(path, space, "%s/%s", folder, name);
    return path;
}

static void write_file(const char *name, struct bytes b)
{
    FILE *to = fopen(name, "wb");
    if (to == NULL)
        die("%s cannot be opened for writing: %s", name, strerror(errno));
    write_all(to, name, b);
    if (fclose(to) != 0)
        die("%s cannot be written: %s", name, strerror(errno));
}

/* Both texts are read before anything is written. */
static void pack_folder(const char *folder)
{
    char *sheet = joined(folder, "sheet.txt");
    char *marks = joined(folder, "marks.txt");
    struct bytes sheet_bytes = pack(opened(sheet), sheet);
    struct bytes mark_bytes = pack(opened(marks), marks);
    write_file(joined(folder, "sheet.bin"), sheet_bytes);
    write_file(joined(folder, "marks.bin"), mark_bytes);
}

int main(int argc, char **argv)
{
    const char *verb = argc > 1 ? argv[1] : "";
    if (argc == 2 && (strcmp(verb, "--help") == 0 || strcmp(verb, "-h") == 0)) {
        fputs(usage, stdout);
    } else if (argc == 3 && strcmp(verb, "pack") == 0) {
        pack_folder(argv[2]);
    } else if (argc == 2 && strcmp(verb, "pack") == 0) {
        write_all(stdout, "standard output", pack(stdin, "standard input"));
    } else if (argc == 3 && strcmp(verb, "show") == 0) {
        show(read_all(opened(argv[2]), argv[2]));
    } else if (argc == 2 && strcmp(verb, "show") == 0) {
        show(read_all(stdin, "standard input"));
    } else {
        fputs(usage, stderr);
        return 2;
    }
    if (fflush(stdout) != 0)
        die("standard output cannot be written: %s", strerror(errno));
    return 0;
}
