/* Compares page/shuffle.ll with what `pshufb` states byte by byte, on each mask at each place and on random ones.
   cat page/shuffle.ll page/tests/shuffle.ll > all.ll; clang page/tests/shuffle.c all.ll -o shuffle && ./shuffle */
#include <stdio.h>
#include <string.h>

void shuffle(unsigned char *, const unsigned char *, const unsigned char *);

static unsigned long seed = 429, tries;

static unsigned char drawn(void) {
    seed = seed * 6364136223846793005UL + 1442695040888963407UL;
    return (unsigned char)(seed >> 33);
}

/* Whether the bytes are shuffled as the instruction does it. */
static int is_right(const unsigned char *bytes, const unsigned char *masks) {
    unsigned char made[16], right[16];
    for (int at = 0; at < 16; at++) right[at] = masks[at] < 128 ? bytes[masks[at] % 16] : 0;
    shuffle(made, bytes, masks);
    tries++;
    return memcmp(made, right, sizeof right) == 0;
}

int main(void) {
    unsigned char bytes[16], masks[16];
    for (int at = 0; at < 16; at++)
        for (int mask = 0; mask < 256; mask++) {
            for (int each = 0; each < 16; each++) bytes[each] = drawn(), masks[each] = drawn();
            masks[at] = (unsigned char)mask;
            if (!is_right(bytes, masks)) return fprintf(stderr, "mask %d at %d differs\n", mask, at), 1;
        }
    for (int count = 0; count < 100000; count++) {
        for (int each = 0; each < 16; each++) bytes[each] = drawn(), masks[each] = drawn();
        if (!is_right(bytes, masks)) return fputs("random masks differ\n", stderr), 1;
    }
    printf("shuffle: %lu tries, none differs\n", tries);
    return 0;
}
