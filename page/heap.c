/* Two-level segregated fit: free blocks are in lists by their size, 16 lists for each power of two, so that each call takes a bounded
   number of steps. A block is a header of 16 bytes and its bytes. Two free blocks are never neighbours. */
#include "heap.h"

typedef unsigned int u32;

enum { FINE = 4, LISTS = 1 << FINE, LEVELS = 40 };

#define HEADER 16ULL
#define LEAST_SIZE 16ULL             /* room for the two links of a free block */
#define LARGEST_SIZE (1ULL << 40)
#define LEAST_GROWTH (1ULL << 20)
#define IS_FREE 1ULL                 /* in `size`: this block is free */
#define IS_AFTER_FREE 2ULL           /* in `size`: the block before this one is free */

typedef struct Block {
    struct Block *before;            /* only if the block before this one is free */
    u64 size;                        /* of its bytes, a multiple of 16, and the two flags */
    struct Block *next, *previous;   /* only if this block is free: its neighbours in their list */
} Block;

static Block *lists[LEVELS][LISTS];
static u64 levels_in_use;            /* bit i: a list of level i has a block */
static u32 lists_in_use[LEVELS];
static Block *end_mark;              /* a header after the last block. It counts as a block in use. */

static u64 size_of(const Block *block) { return block->size & ~15ULL; }
static Block *after(Block *block) { return (Block *)((unsigned char *)block + HEADER + size_of(block)); }
static void *bytes_of(Block *block) { return (unsigned char *)block + HEADER; }
static Block *block_of(void *bytes) { return (Block *)((unsigned char *)bytes - HEADER); }
static int log2_of(u64 number) { return 63 - __builtin_clzll(number); }

/* The list for blocks of a size: below 256 bytes there is one for each size, above it 16 for each power of two. */
static void find_list(u64 size, int *level, int *list) {
    if (size < 16 * LISTS) {
        *level = 0;
        *list = (int)(size / 16);
    } else {
        *level = log2_of(size) - FINE - 3;
        *list = (int)(size >> (log2_of(size) - FINE)) & (LISTS - 1);
    }
}

static void add_free(Block *block) {
    int level, list;
    find_list(size_of(block), &level, &list);
    block->size |= IS_FREE;
    block->previous = 0;
    block->next = lists[level][list];
    if (block->next) block->next->previous = block;
    lists[level][list] = block;
    lists_in_use[level] |= 1u << list;
    levels_in_use |= 1ULL << level;
    after(block)->before = block;
    after(block)->size |= IS_AFTER_FREE;
}

static void take_free(Block *block) {
    int level, list;
    find_list(size_of(block), &level, &list);
    if (block->next) block->next->previous = block->previous;
    if (block->previous) {
        block->previous->next = block->next;
    } else {
        lists[level][list] = block->next;
        if (!block->next) lists_in_use[level] &= ~(1u << list);
        if (!lists_in_use[level]) levels_in_use &= ~(1ULL << level);
    }
    block->size &= ~IS_FREE;
    after(block)->size &= ~IS_AFTER_FREE;
}

/* A free block of a list in which all blocks have at least this size, or null. */
static Block *find_free(u64 size) {
    int level, list;
    if (size >= 16 * LISTS) size += (1ULL << (log2_of(size) - FINE)) - 1;
    find_list(size, &level, &list);
    u32 fitting = lists_in_use[level] & (~0u << list);
    if (!fitting) {
        u64 larger = levels_in_use & (~0ULL << (level + 1));
        if (!larger) return 0;
        level = __builtin_ctzll(larger);
        fitting = lists_in_use[level];
    }
    return lists[level][__builtin_ctz(fitting)];
}

/* Makes one free block of this one, which is in no list, and of its free neighbours. */
static Block *join_and_add(Block *block) {
    Block *next = after(block);
    if (next->size & IS_FREE) {
        take_free(next);
        block->size += HEADER + size_of(next);
    }
    if (block->size & IS_AFTER_FREE) {
        Block *before = block->before;
        take_free(before);
        before->size += HEADER + size_of(block);
        block = before;
    }
    add_free(block);
    return block;
}

/* Frees what a block in use has beyond this size, if that is enough for a block. */
static void cut(Block *block, u64 size) {
    u64 rest = size_of(block) - size;
    if (rest < HEADER + LEAST_SIZE) return;
    block->size -= rest;
    after(block)->size = rest - HEADER;
    join_and_add(after(block));
}

static u64 bytes_between(const void *from, const void *to) {
    return to > from ? (u64)((const unsigned char *)to - (const unsigned char *)from) : 0;
}

/* Puts the end mark at the begin of the memory. 0 if there is no memory for it. */
static int begin(void) {
    Block *first = (Block *)(((u64)memory_begin() + 15) & ~15ULL);
    u64 spare = bytes_between(first, memory_end());
    if (spare < HEADER && !memory_grow(HEADER + 15)) return 0;
    first->size = 0;
    end_mark = first;
    return 1;
}

/* Takes memory after the last block: a free block of at least this size, or null. If the last block is free, it is a part of it. */
static Block *grow(u64 size) {
    if (!end_mark && !begin()) return 0;
    Block *block = end_mark->size & IS_AFTER_FREE ? end_mark->before : end_mark;
    u64 room = bytes_between(bytes_of(block), memory_end()), missing = size + HEADER > room ? size + HEADER - room : 0;
    if (!missing && block != end_mark && size_of(block) >= size) return block;
    if (missing && !(missing < LEAST_GROWTH && memory_grow(LEAST_GROWTH)) && !memory_grow(missing)) return 0;
    block = end_mark;
    u64 end = (u64)memory_end() & ~15ULL;
    end_mark = (Block *)(end - HEADER);
    end_mark->size = 0;
    block->size |= end - (u64)block - 2 * HEADER;
    return join_and_add(block);
}

static u64 rounded(u64 size) { return size < LEAST_SIZE ? LEAST_SIZE : (size + 15) & ~15ULL; }

static void *allocate(u64 size) {
    if (size > LARGEST_SIZE) return 0;
    Block *block = find_free(rounded(size));
    if (!block) block = grow(rounded(size));
    if (!block) return 0;
    take_free(block);
    cut(block, rounded(size));
    return bytes_of(block);
}

static void *resize(void *at, u64 size) {
    if (size > LARGEST_SIZE) return 0;
    Block *block = block_of(at), *next = after(block);
    u64 had = size_of(block), needed = rounded(size);
    if (had < needed && (next->size & IS_FREE) && had + HEADER + size_of(next) >= needed) {
        take_free(next);
        block->size += HEADER + size_of(next);
    }
    if (size_of(block) >= needed) {
        cut(block, needed);
        return at;
    }
    void *moved = allocate(size);
    if (!moved) return 0;
    __builtin_memcpy(moved, at, had);
    rattle_dealloc(at);
    return moved;
}

static Grant granted(void *at) {
    /* a refused request has an address too, which nobody uses */
    Grant grant = {at != 0, at ? at : (void *)16};
    return grant;
}

Grant rattle_alloc(u64 size, u64 alignment) { return granted(alignment > 16 ? 0 : allocate(size)); }

Grant rattle_realloc(void *at, u64 old_size, u64 size, u64 alignment) {
    (void)old_size;
    return granted(alignment > 16 ? 0 : resize(at, size));
}

void rattle_dealloc(void *at) { join_and_add(block_of(at)); }
