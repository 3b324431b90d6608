/* Runs one job once on a file: ./count JOB FILE [stack], where JOB is a function of versions.h. The file is a stream, of look-up a seek book, of map a map. It
 * prints the answer, number, place and bytes lacking first; of build also a sum over the buffer. With the word stack it prints how many bytes of stack the call
 * used: what lies below is painted before, and looked at after, which the counter of instructions does not allow. That counter looks at the job's function
 * alone. */
#include <stdio.h>
#include <stdlib.h>
#include <string.h>

#include "versions.h"

static u8 *load(const char *name, u64 *n)
{
    FILE *f = fopen(name, "rb");
    u8 *b;
    long size;
    if (f == NULL || fseek(f, 0, SEEK_END) != 0 || (size = ftell(f)) < 0)
        return NULL;
    rewind(f);
    b = malloc(size + 1);
    if (b == NULL || fread(b, 1, size, f) != (size_t)size)
        return NULL;
    fclose(f);
    *n = size;
    return b;
}

enum { DEPTH = 1 << 16, PAINT = 0xA5 };

/* Here and in `used` the stack below the caller is read and written on purpose; both are inlined into main and call nothing. */
static inline __attribute__((always_inline)) volatile u8 *paint(void)
{
    volatile u8 *top;
    long i;
    __asm__ volatile("mov %%rsp, %0" : "=r"(top));
    for (i = 1; i <= DEPTH; i++)
        top[-i] = PAINT;
    return top;
}

static inline __attribute__((always_inline)) long used(volatile u8 *top)
{
    long i = DEPTH;
    while (i > 0 && top[-i] == PAINT)
        i--;
    return i;
}

enum { CHECK, SEEK, BUILD, LOOKUP, MAP_READER, JOBS };

/* A job's number, and 1 in `by_hand` where it is the C version. */
static int find(const char *job, int *by_hand)
{
    static const char *const names[] = {"check", "seek", "build", "lookup", "map"};
    int i;
    *by_hand = strncmp(job, "c_", 2) == 0;
    if (!*by_hand && strncmp(job, "gxf_", 4) != 0)
        return -1;
    for (i = 0; i < JOBS; i++)
        if (strcmp(job + (*by_hand ? 2 : 4), names[i]) == 0)
            return i;
    return -1;
}

static void say(u64 word) { printf("%llu ", (unsigned long long)word); }

int main(int argc, char **argv)
{
    struct reading r = {0, 0, 0, 0};
    struct map_reading m;
    u64 n, i, sum = 0;
    u8 *s, *book;
    volatile u8 *top = NULL;
    long depth = 0;
    int which, by_hand, painted = argc == 4;
    if (argc < 3 || argc > 4 || (which = find(argv[1], &by_hand)) < 0 || (s = load(argv[2], &n)) == NULL) {
        fprintf(stderr, "usage: count JOB FILE [stack]\n");
        return 2;
    }
    /* a packet has 16 bytes at least, so a book is never longer than its stream */
    book = calloc(1, n + 1);
    if (book == NULL)
        return 2;
    if (painted)
        top = paint();
    /* a track and a field that are not there: the whole of stream and book is read */
    switch (2 * which + by_hand) {
    case 2 * CHECK: r = gxf_check(s, n); break;
    case 2 * CHECK + 1: r = c_check(s, n); break;
    case 2 * SEEK: r = gxf_seek(s, n, 1, 4000000000); break;
    case 2 * SEEK + 1: r = c_seek(s, n, 1, 4000000000); break;
    case 2 * BUILD: r = gxf_build(book, n, s, n); break;
    case 2 * BUILD + 1: r = c_build(book, n, s, n); break;
    case 2 * LOOKUP: r = gxf_lookup(s, n, 1, 4000000000); break;
    case 2 * LOOKUP + 1: r = c_lookup(s, n, 1, 4000000000); break;
    case 2 * MAP_READER: m = gxf_map(s, n); break;
    case 2 * MAP_READER + 1: m = c_map(s, n); break;
    }
    if (painted)
        depth = used(top);
    if (which == MAP_READER) {
        say(m.number), say(m.place), say(m.lacking), say(m.count), say(m.name), say(m.name_length);
        for (i = 0; i < 5; i++)
            say(m.numbers[i]);
    } else {
        for (i = 0; i < n; i++)
            sum = 31 * sum + book[i];
        say(r.number), say(r.place), say(r.lacking), say(r.value), say(sum);
    }
    printf("%ld\n", depth);
    return 0;
}
