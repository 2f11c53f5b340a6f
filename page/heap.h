/* The heap of the page's module: what Rattle's allocator calls. Between calls all blocks lie apart, each aligned to 16 bytes. */
#ifndef A429_HEAP_H
#define A429_HEAP_H

typedef unsigned long long u64;

/* Whether a request was granted, and where the block is. */
typedef struct {
    u64 is_granted;
    void *at;
} Grant;

/* A block of this many bytes. Refused if memory runs out, or if the alignment is above 16. */
Grant rattle_alloc(u64 size, u64 alignment);

/* The same block with more or fewer bytes, perhaps in another place: as many of its bytes as both have are kept. After a refusal the
   block is as it was. */
Grant rattle_realloc(void *at, u64 old_size, u64 size, u64 alignment);

/* Gives a block back. */
void rattle_dealloc(void *at);

/* What the heap has of the machine: one stretch of memory, which can only grow. */
unsigned char *memory_begin(void);
unsigned char *memory_end(void);

/* Makes the stretch at least this many bytes longer. 0 if the machine refuses it. */
int memory_grow(u64 bytes);

#endif
