/* Words and their fields, by hand from the word format; the ends of each field; and what is refused.
 *
 *     words */
#include "a429.h"
#include "checks.h"

#include <stdio.h>

typedef struct row {
    uint32_t word;
    a429_fields fields;
} row;

static const row rows[] = {
    {0x600000c1, {0, 0203, 0, 3, 0}},
    {0x80000000, {0, 0, 0, 0, 1}},
    {0x80000300, {0, 0, 3, 0, 1}},
    {0x20000000, {0, 0, 0, 1, 0}},
    {0x40000000, {0, 0, 0, 2, 0}},
    {0x00000001, {0, 0200, 0, 0, 0}},
    {0x00000080, {0, 0001, 0, 0, 0}},
    {0x00000100, {0, 0, 1, 0, 0}},
    {0x00000400, {1, 0, 0, 0, 0}},
    {0x10000000, {0x40000, 0, 0, 0, 0}},
    {0x048d1400, {0x12345, 0, 0, 0, 0}},
    {0x1ffffc00, {0x7ffff, 0, 0, 0, 0}},
    {0xfffffffe, {0x7ffff, 0177, 3, 3, 1}},
    {0x7fffffff, {0x7ffff, 0377, 3, 3, 0}},
};

static int same(a429_fields a, a429_fields b)
{
    return a.data == b.data && a.label == b.label && a.sdi == b.sdi && a.ssm == b.ssm && a.parity == b.parity;
}

static int goes_back(uint8_t label, uint8_t sdi, uint32_t data, uint8_t ssm)
{
    uint32_t word = 0;
    a429_fields f = {9, 9, 9, 9, 9};
    return a429_encode(label, sdi, data, ssm, &word) == A429_OK && a429_decode(word, &f) == A429_OK && f.label == label
        && f.sdi == sdi && f.data == data && f.ssm == ssm && f.parity == word >> 31;
}

/* A word with one bit more or less is refused, and the fields stay. */
static void parity(uint32_t word)
{
    const a429_fields before = {9, 8, 7, 6, 5};
    a429_fields f = before;
    for (int bit = 0; bit < 32; bit++)
        CHECK(a429_decode(word ^ (uint32_t)1 << bit, &f) == A429_PARITY && same(f, before));
}

static int refuses(uint8_t sdi, uint32_t data, uint8_t ssm)
{
    uint32_t word = 7;
    return a429_encode(0203, sdi, data, ssm, &word) == A429_FIELD && word == 7;
}

int main(void)
{
    for (size_t i = 0; i < sizeof rows / sizeof *rows; i++) {
        a429_fields of = rows[i].fields, f = {9, 9, 9, 9, 9};
        uint32_t word = 7;
        CHECK(a429_encode(of.label, of.sdi, of.data, of.ssm, &word) == A429_OK && word == rows[i].word);
        CHECK(a429_decode(rows[i].word, &f) == A429_OK && same(f, of));
        parity(rows[i].word);
    }
    for (unsigned label = 0; label < 256; label++)
        for (unsigned two = 0; two < 16; two++)
            CHECK(goes_back((uint8_t)label, two & 3, 0x5a5a5, (uint8_t)(two >> 2)));
    for (uint32_t data = 0; data < 1 << 19; data += 257)
        CHECK(goes_back(0203, 1, data, 2));
    CHECK(refuses(4, 0, 0) && refuses(255, 0, 3) && refuses(0, 1 << 19, 0) && refuses(3, UINT32_MAX, 3));
    CHECK(refuses(0, 0, 4) && refuses(3, 0x7ffff, 255) && refuses(4, 1 << 19, 4));
    printf("words: %ld checks, %ld wrong\n", checks, wrong);
    return wrong != 0;
}
