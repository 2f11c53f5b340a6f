/* Compares the helpers with the operations of this machine and with its C library, on random numbers and on numbers at the limits.
   cc -fsanitize=address,undefined page/tests/helpers.c -lm -o helpers && ./helpers */
#include <assert.h>
#include <math.h>
#include <stdio.h>
#include <string.h>

#define __multi3 tried_product
#define __ashlti3 tried_left
#define __lshrti3 tried_right
#define fmod tried_remainder
#define memcmp tried_compare
#define bcmp tried_equal
#include "../helpers.c"
#undef fmod
#undef memcmp

/* declared again, because the names above took their place */
double fmod(double, double);
int memcmp(const void *, const void *, __SIZE_TYPE__);

static u64 seed = 0x9e3779b97f4a7c15ULL;

static u64 drawn(void) {
    seed = seed * 6364136223846793005ULL + 1442695040888963407ULL;
    return seed ^ seed >> 29;
}

/* A number with few ones or few zeros, or any. */
static u64 drawn_number(void) {
    static const u64 limits[] = {0, 1, 2, 3, 0xffffffff, 0x100000000, 0x7fffffffffffffff, 0x8000000000000000, 0xfffffffffffffffe, ~0ULL};
    return drawn() % 4 ? drawn() >> drawn() % 64 : limits[drawn() % (sizeof limits / sizeof *limits)];
}

/* A number of binary64: of any exponent, close to others, below the least normal one, whole, or none. */
static double drawn_double(void) {
    static const u64 limits[] = {0, 1, 2, FRACTION, FRACTION + 1, FRACTION + 2, 0x3ff0000000000000, 0x7fefffffffffffff, INFINITE, INFINITE + 1,
                                 0x7ff8000000000000};
    u64 kind = drawn() % 6, sign = drawn() & SIGN;
    if (kind == 0) return number_of(sign | limits[drawn() % (sizeof limits / sizeof *limits)]);
    if (kind == 1) return number_of(sign | (drawn() & FRACTION) >> drawn() % 52);
    if (kind == 2) return (double)(long long)(drawn() >> drawn() % 64);
    if (kind == 3) return number_of(sign | (1000 + drawn() % 60) << 52 | (drawn() & FRACTION));
    return number_of(drawn());
}

static void try_products_and_shifts(void) {
    u128 a = (u128)drawn_number() << 64 | drawn_number(), b = (u128)drawn_number() << 64 | drawn_number();
    int shift = (int)(drawn() % 128);
    assert(tried_product(a, b) == a * b);
    assert(tried_left(a, shift) == a << shift);
    assert(tried_right(a, shift) == a >> shift);
}

static void try_remainder(void) {
    double a = drawn_double(), b = drawn_double(), wanted = fmod(a, b), found = tried_remainder(a, b);
    assert(isnan(wanted) ? isnan(found) : bits_of(wanted) == bits_of(found));
}

static void try_bytes(void) {
    unsigned char a[40], b[40];
    u64 size = drawn() % 40;
    for (u64 i = 0; i < size; i++) a[i] = b[i] = (unsigned char)drawn();
    if (size && drawn() % 2) b[drawn() % size] = (unsigned char)drawn();
    int wanted = memcmp(a, b, size), found = tried_compare(a, b, size);
    assert((wanted < 0) == (found < 0) && (wanted > 0) == (found > 0));
    assert((tried_equal(a, b, size) == 0) == (wanted == 0));
}

int main(void) {
    enum { ROUNDS = 3000000 };
    for (int i = 0; i < ROUNDS; i++) {
        try_products_and_shifts();
        if (i % 4 == 0) try_remainder();
        if (i % 16 == 0) try_bytes();
    }
    printf("helpers: %d products and shifts, %d remainders, %d comparisons\n", ROUNDS, ROUNDS / 4, ROUNDS / 16);
    return 0;
}
