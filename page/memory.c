/* The memory of the module, and what the page calls to pass bytes in. */
#include "heap.h"

#define PAGE 65536ULL

extern unsigned char __heap_base;

unsigned char *memory_begin(void) { return &__heap_base; }

unsigned char *memory_end(void) { return (unsigned char *)(__builtin_wasm_memory_size(0) * PAGE); }

int memory_grow(u64 bytes) { return __builtin_wasm_memory_grow(0, (bytes + PAGE - 1) / PAGE) != ~0UL; }

/* Room for this many bytes, or null. */
__attribute__((export_name("a429_room"))) void *a429_room(u64 size) {
    Grant grant = rattle_alloc(size, 16);
    return grant.is_granted ? grant.at : 0;
}

/* Gives it back. */
__attribute__((export_name("a429_give_back"))) void a429_give_back(void *at) { rattle_dealloc(at); }
