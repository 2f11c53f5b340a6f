/* Tries the heap with random requests. All blocks must be apart and aligned, keep their bytes, and leave one free block when all are
   given back. Beyond the limit a request must be refused, and the heap must go on.
   cc -fsanitize=address,undefined page/tests/heap.c -o heap && ./heap */
#include <assert.h>
#include <stdio.h>
#include <stdlib.h>
#include <string.h>

#include "../heap.c"

#define PAGE 65536ULL
#define LIMIT (1024 * PAGE)

static _Alignas(16) unsigned char memory[LIMIT];
static u64 has_pages, most_pages;

unsigned char *memory_begin(void) { return memory + 5; /* not aligned */ }
unsigned char *memory_end(void) { return memory + has_pages * PAGE; }

int memory_grow(u64 bytes) {
    u64 pages = (bytes + PAGE - 1) / PAGE;
    if (pages > most_pages - has_pages) return 0;
    has_pages += pages;
    return 1;
}

enum { HELD = 700 };

typedef struct {
    unsigned char *at;
    u64 size;
    unsigned char fill;
} Held;

static Held held[HELD];
static u64 seed, refused, requests;

static u64 drawn(u64 below) {
    seed = seed * 6364136223846793005ULL + 1442695040888963407ULL;
    return (seed >> 33) % below;
}

static u64 drawn_size(void) {
    u64 kind = drawn(200);
    return kind < 150 ? drawn(200) : kind < 190 ? drawn(9000) : kind < 198 ? drawn(200000) : drawn(4000000);
}

static void begin_anew(u64 first_pages, u64 limit) {
    memset(lists, 0, sizeof lists);
    memset(lists_in_use, 0, sizeof lists_in_use);
    levels_in_use = 0;
    end_mark = 0;
    has_pages = first_pages;
    most_pages = limit;
}

static void look_at_fill(const Held *block, u64 size) {
    for (u64 i = 0; i < size; i++) assert(block->at[i] == block->fill);
}

static void fill(Held *block) {
    block->fill = (unsigned char)(1 + drawn(255));
    memset(block->at, block->fill, block->size);
}

/* Walks all blocks: each ends at the next, none overlaps, no two free ones are neighbours, and each held one is in use. */
static void look_at_blocks(void) {
    if (!end_mark) return;
    u64 in_use = 0, holding = 0;
    int was_free = 0;
    Block *block = (Block *)(((u64)memory_begin() + 15) & ~15ULL);
    for (; block != end_mark; block = after(block)) {
        assert(block < end_mark && size_of(block) >= LEAST_SIZE && ((u64)block & 15) == 0);
        int is_free = (block->size & IS_FREE) != 0;
        assert(!(is_free && was_free) && was_free == ((block->size & IS_AFTER_FREE) != 0));
        in_use += !is_free;
        was_free = is_free;
    }
    for (int i = 0; i < HELD; i++) {
        if (!held[i].at) continue;
        holding++;
        assert(((u64)held[i].at & 15) == 0);
        assert(held[i].at >= memory_begin() && held[i].at + held[i].size <= memory_end());
        assert(!(block_of(held[i].at)->size & IS_FREE) && size_of(block_of(held[i].at)) >= held[i].size);
    }
    assert(in_use == holding);
}

static void give_back(Held *block) {
    look_at_fill(block, block->size);
    rattle_dealloc(block->at);
    block->at = 0;
}

static void take(Held *block) {
    u64 size = drawn_size();
    Grant grant = rattle_alloc(size, 1ULL << drawn(5));
    if (!grant.is_granted) {
        refused++;
        return;
    }
    block->at = grant.at;
    block->size = size;
    fill(block);
}

static void change(Held *block) {
    u64 size = drawn(3) ? block->size + drawn(block->size + 64) : drawn(block->size + 1), had = block->size;
    Grant grant = rattle_realloc(block->at, had, size, 16);
    if (!grant.is_granted) {
        refused++;
        look_at_fill(block, had);
        return;
    }
    block->at = grant.at;
    block->size = size;
    look_at_fill(block, size < had ? size : had);
    fill(block);
}

static void request(void) {
    Held *block = &held[drawn(HELD)];
    requests++;
    if (!block->at) take(block);
    else if (drawn(3) == 0) change(block);
    else give_back(block);
}

static void give_all_back(void) {
    for (int i = 0; i < HELD; i++)
        if (held[i].at) give_back(&held[i]);
    look_at_blocks();
    if (!end_mark) return;
    Block *first = (Block *)(((u64)memory_begin() + 15) & ~15ULL);
    assert((first->size & IS_FREE) && after(first) == end_mark);
}

/* All of the memory up to the limit can be had as one block, and nothing beyond it. */
static void try_limit(u64 limit) {
    begin_anew(1, limit);
    u64 whole = limit * PAGE - 64;
    Grant all = rattle_alloc(whole, 16);
    assert(all.is_granted);
    memset(all.at, 1, whole);
    assert(!rattle_alloc(LEAST_GROWTH, 16).is_granted);
    assert(!rattle_realloc(all.at, whole, whole + PAGE, 16).is_granted);
    rattle_dealloc(all.at);
    assert(!rattle_alloc(limit * PAGE, 16).is_granted);
    all = rattle_alloc(whole, 16);
    assert(all.is_granted);
    rattle_dealloc(all.at);
}

static void try_odd_requests(void) {
    begin_anew(0, 2);
    assert(!rattle_alloc(8, 32).is_granted);
    assert(!rattle_alloc(~0ULL, 16).is_granted && !rattle_alloc(~0ULL - 15, 1).is_granted && !rattle_alloc(LARGEST_SIZE, 1).is_granted);
    Grant none = rattle_alloc(0, 1), other = rattle_alloc(0, 16);
    assert(none.is_granted && other.is_granted && none.at != other.at);
    assert(!rattle_realloc(none.at, 0, ~0ULL, 1).is_granted);
    rattle_dealloc(none.at);
    rattle_dealloc(other.at);
    begin_anew(0, 0);
    assert(!rattle_alloc(1, 1).is_granted);
}

int main(void) {
    for (u64 run = 0; run < 24; run++) {
        seed = 0x9e3779b97f4a7c15ULL * (run + 1);
        begin_anew(run % 3, run % 4 ? LIMIT / PAGE : 24 + drawn(40));
        for (int i = 0; i < 6000; i++) {
            request();
            if (i % 64 == 0) look_at_blocks();
        }
        give_all_back();
    }
    try_limit(17);
    try_limit(LIMIT / PAGE);
    try_odd_requests();
    assert(refused > 100);
    printf("heap: %llu random requests, %llu of them refused at the limit\n", requests, refused);
    return 0;
}
