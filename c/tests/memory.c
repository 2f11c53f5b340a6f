/* Refuses each request for memory of an opening and of a publication, one after another: the status says so, nothing is held
 * that was not held before, and nothing is lost. Events take no memory.
 *
 *     memory TABLE.. */
#include "a429.h"

#include <stdio.h>
#include <stdlib.h>
#include <string.h>

extern void *__libc_malloc(size_t);
extern void *__libc_realloc(void *, size_t);
extern void __libc_free(void *);

static long left = -1, live;

static int refuses(void)
{
    return left >= 0 && left-- == 0;
}

void *malloc(size_t size)
{
    void *block = refuses() ? NULL : __libc_malloc(size);
    live += !!block;
    return block;
}

void *realloc(void *old, size_t size)
{
    void *block = refuses() ? NULL : __libc_realloc(old, size);
    live += block && !old;
    return block;
}

void free(void *block)
{
    live -= !!block;
    __libc_free(block);
}

static int says_memory(a429_station *s)
{
    uint8_t room[A429_REFUSAL_ROOM];
    size_t length = 0;
    return a429_refusal(s, room, sizeof room, &length) == A429_OK && length == 14 && !memcmp(room, "refused memory", 14);
}

/* The calls of one table, of which some are refused memory. How many ended otherwise than they should. */
static long try_table(const uint8_t *table, size_t length, long *requests)
{
    a429_station s = A429_STATION;
    a429_sent sent;
    size_t source, groups = 0;
    uint64_t plan = 7;
    long wrong = 0, before = live, held, count;
    uint32_t whole = a429_open(&s, table, length, 0), status = A429_MEMORY;
    a429_close(&s);
    wrong += live != before;
    for (count = 0; status == A429_MEMORY; count++) {
        left = count;
        status = a429_open(&s, table, length, 0);
        left = -1;
        wrong += status == A429_MEMORY && (s.held || live != before || !says_memory(&s));
    }
    wrong += status != whole;
    *requests += count;
    if (status != A429_OK)
        return wrong + (live != before);
    held = live;
    status = A429_MEMORY;
    for (count = 0; status == A429_MEMORY; count++) {
        left = count;
        status = a429_publish(&s, table, length, &plan);
        left = -1;
        wrong += status == A429_MEMORY && (live != held || plan != 7 || !says_memory(&s));
    }
    wrong += status != A429_OK || plan != 1;
    *requests += count;
    left = 0;
    a429_arrive(&s, 0, 0x600000c1, &source);
    while (a429_cell(&s, 0, &sent) == A429_OK)
        ;
    a429_groups(&s, &groups);
    wrong += a429_frame(&s, 0, &plan) != (groups ? A429_OK : A429_NO_SUCH) || left != 0;
    left = -1;
    held = live;
    status = A429_MEMORY;
    for (count = 0; status == A429_MEMORY; count++) {
        void *old = s.held;
        left = count;
        status = a429_open(&s, table, length, 0);
        left = -1;
        wrong += status == A429_MEMORY && (s.held != old || live != held);
    }
    wrong += status != A429_OK;
    *requests += count;
    a429_close(&s);
    return wrong + (live != before);
}

int main(int argc, char **argv)
{
    static uint8_t table[1 << 18];
    long requests = 0, wrong = 0;
    for (int i = 1; i < argc; i++) {
        FILE *file = fopen(argv[i], "rb");
        size_t length = file ? fread(table, 1, sizeof table, file) : 0;
        if (file)
            fclose(file);
        wrong += try_table(table, length, &requests);
    }
    printf("memory: %d tables, %ld runs with a request refused, %ld wrong\n", argc - 1, requests, wrong);
    return wrong != 0;
}
