/* Operations that WebAssembly does not have, by the names under which clang calls them. */

typedef unsigned long long u64;
typedef unsigned __int128 u128;

/* The number of two halves. */
static u128 joined(u64 high, u64 low) {
    union {
        u64 halves[2];
        u128 whole;
    } number = {{low, high}};
    return number.whole;
}

static u64 low_half(u128 number) { return (u64)number; }

static u64 high_half(u128 number) {
    union {
        u128 whole;
        u64 halves[2];
    } both = {number};
    return both.halves[1];
}

/* The product of two numbers of 64 bits, whole: by the products of their halves of 32 bits. */
static u128 product_of_words(u64 a, u64 b) {
    u64 a_low = a & 0xffffffff, a_high = a >> 32, b_low = b & 0xffffffff, b_high = b >> 32;
    u64 low = a_low * b_low, first = a_high * b_low + (low >> 32), second = a_low * b_high + (first & 0xffffffff);
    return joined(a_high * b_high + (first >> 32) + (second >> 32), second << 32 | (low & 0xffffffff));
}

/* The product of two numbers of 128 bits, modulo 2^128. */
u128 __multi3(u128 a, u128 b) {
    u128 low = product_of_words(low_half(a), low_half(b));
    u64 crossed = high_half(a) * low_half(b) + low_half(a) * high_half(b);
    return joined(high_half(low) + crossed, low_half(low));
}

/* A number of 128 bits, moved to the left by 0 to 127 bits. */
u128 __ashlti3(u128 number, int count) {
    u64 high = high_half(number), low = low_half(number);
    if (count >= 64) return joined(low << (count - 64), 0);
    return count ? joined(high << count | low >> (64 - count), low << count) : number;
}

/* The same to the right, with zeros from the left. */
u128 __lshrti3(u128 number, int count) {
    u64 high = high_half(number), low = low_half(number);
    if (count >= 64) return joined(0, high >> (count - 64));
    return count ? joined(high >> count, low >> count | high << (64 - count)) : number;
}

/* ---- The remainder of two numbers of binary64 */

#define FRACTION 0xfffffffffffffULL
#define SIGN (1ULL << 63)
#define INFINITE 0x7ff0000000000000ULL

static u64 bits_of(double number) {
    union {
        double number;
        u64 bits;
    } both = {number};
    return both.bits;
}

static double number_of(u64 bits) {
    union {
        u64 bits;
        double number;
    } both = {bits};
    return both.number;
}

/* The exponent of a number above 0, from 1, and its digits with the leading one in bit 52. */
static int split(u64 bits, u64 *digits) {
    int exponent = (int)(bits >> 52);
    *digits = bits & FRACTION;
    if (exponent) {
        *digits |= 1ULL << 52;
        return exponent;
    }
    int shift = __builtin_clzll(*digits) - 11;
    *digits <<= shift;
    return 1 - shift;
}

/* The number of these digits below bit 53, above 0, and of this exponent. */
static u64 put_together(u64 digits, int exponent) {
    int shift = __builtin_clzll(digits) - 11;
    if (shift > exponent - 1) shift = exponent > 1 ? exponent - 1 : 0;
    digits <<= shift;
    exponent -= shift;
    if (exponent < 1) return digits >> (1 - exponent);
    return digits >> 52 ? (digits & FRACTION) | (u64)exponent << 52 : digits;
}

/* What is left of a if b is taken from it as often as it goes, with the sign of a (C11, 7.12.10.1). It is exact. */
double fmod(double a, double b) {
    u64 sign = bits_of(a) & SIGN, dividend = bits_of(a) & ~SIGN, divisor = bits_of(b) & ~SIGN;
    if (divisor == 0 || divisor > INFINITE || dividend >= INFINITE) return number_of(0x7ff8000000000000ULL);
    if (dividend < divisor) return a;
    u64 rest, step;
    int exponent = split(dividend, &rest), last = split(divisor, &step);
    for (; exponent > last; exponent--) {
        if (rest >= step) rest -= step;
        rest <<= 1;
    }
    if (rest >= step) rest -= step;
    return number_of(sign | (rest ? put_together(rest, last) : 0));
}

/* ---- Bytes */

/* Below, at or above 0: how the first two bytes that differ compare. */
int memcmp(const void *left, const void *right, __SIZE_TYPE__ size) {
    const unsigned char *a = left, *b = right;
    for (; size; size--, a++, b++)
        if (*a != *b) return *a - *b;
    return 0;
}

/* 0 if all bytes are equal. */
int bcmp(const void *left, const void *right, __SIZE_TYPE__ size) { return memcmp(left, right, size); }
