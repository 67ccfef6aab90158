/* Memory between two pages that may not be touched, for lists that end where memory ends or begin where it begins. */
#ifndef AREAS_H
#define AREAS_H

#include <stdio.h>
#include <stdlib.h>
#include <sys/mman.h>
#include <unistd.h>

struct area {
    char *start;
    size_t size;
};

static inline struct area make_area(size_t bytes)
{
    size_t page = (size_t)sysconf(_SC_PAGESIZE);
    struct area area;

    area.size = (bytes + page - 1) / page * page;
    area.start = mmap(NULL, area.size + 2 * page, PROT_NONE, MAP_PRIVATE | MAP_ANONYMOUS, -1, 0);
    if (area.start == MAP_FAILED || mprotect(area.start + page, area.size, PROT_READ | PROT_WRITE) != 0) {
        perror("areas");
        exit(2);
    }
    area.start += page;
    return area;
}

/* Two areas over one memory: what is written in the first is read in the second, which cannot be written. */
static inline void make_views(size_t bytes, struct area *written, struct area *shown)
{
    FILE *memory = tmpfile();

    *written = make_area(bytes);
    *shown = make_area(bytes);
    if (memory == NULL || ftruncate(fileno(memory), (off_t)written->size) != 0
        || mmap(written->start, written->size, PROT_READ | PROT_WRITE, MAP_SHARED | MAP_FIXED, fileno(memory), 0) == MAP_FAILED
        || mmap(shown->start, shown->size, PROT_READ, MAP_SHARED | MAP_FIXED, fileno(memory), 0) == MAP_FAILED) {
        perror("areas");
        exit(2);
    }
    fclose(memory);
}

static inline void free_area(const struct area *area)
{
    size_t page = (size_t)sysconf(_SC_PAGESIZE);

    munmap(area->start - page, area->size + 2 * page);
}

/* n entries of so many bytes each, at the area's end or at its start. */
static inline void *sized_entries(const struct area *area, size_t n, size_t size, int at_end)
{
    return at_end ? area->start + area->size - n * size : area->start;
}

#endif
