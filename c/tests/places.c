/* The places of outputs, by hand from the layout: before and after a newer plan comes into force, of each group, and of
 * numbers that are out of range; and those of a plan text.
 *
 *     places TABLE NEWER     TABLE: examples/displays/table.toml; NEWER: examples/displays/faster.toml */
#include "a429.h"
#include "checks.h"
#include "tables.h"

#include <stdio.h>
#include <stdlib.h>
#include <string.h>

static int is_at(a429_station *s, size_t output, uint32_t bus, uint32_t offset, uint32_t period)
{
    a429_place place = {9, 9, 9};
    return a429_places(s, 0, output, &place) == A429_OK && place.bus == bus && place.offset == offset && place.period == period;
}

static int is_none(a429_station *s, size_t group, size_t output, uint32_t status)
{
    a429_place place = {1, 2, 3};
    return a429_places(s, group, output, &place) == status && place.bus == 1 && place.offset == 2 && place.period == 3;
}

/* Group 0 has two outputs, of which the first has this period and the second this offset; there is no other group. */
static void places(a429_station *s, uint32_t period, uint32_t offset)
{
    CHECK(is_at(s, 0, 0, 0, period) && is_at(s, 1, 0, offset, 32));
    CHECK(is_none(s, 0, 2, A429_NO_SUCH) && is_none(s, 0, 128, A429_NO_SUCH) && is_none(s, 0, SIZE_MAX, A429_NO_SUCH));
    CHECK(is_none(s, 1, 0, A429_NO_SUCH) && is_none(s, SIZE_MAX, 0, A429_NO_SUCH) && is_none(s, SIZE_MAX, SIZE_MAX, A429_NO_SUCH));
}

/* The cells that have a word are those of the output in its place. */
static void cells(a429_station *s, uint8_t label, size_t output)
{
    a429_place place = {9, 9, 9};
    a429_sent sent;
    uint32_t word = 0;
    size_t source = 9;
    CHECK(a429_encode(label, 0, 0, 3, &word) == A429_OK && a429_arrive(s, 0, word, &source) == A429_OK && source == output);
    CHECK(a429_places(s, 0, output, &place) == A429_OK);
    while (a429_cell(s, 0, &sent) == A429_OK)
        CHECK(sent.filled == (sent.bus == place.bus && sent.slot % place.period == place.offset));
}

/* Another plan of the table, and one whose output on line 4 has no slot in its period. */
static const char given[] = "plan 2\ngroup displays rate 12500 frame 32 buses 1\n"
    "output airspeed period 32 bus 0 offset 5 hold none\noutput altitude period 16 bus 0 offset 3 hold none\nbound 3 > 0 * 32\n";
static const char wrong_place[] = "plan 2\ngroup displays rate 12500 frame 32 buses 1\n"
    "output airspeed period 32 bus 0 offset 5 hold none\noutput altitude period 16 bus 0 offset 16 hold none\nbound 3 > 0 * 32\n";

static void given_places(a429_station *s)
{
    CHECK(is_at(s, 0, 0, 3, 16) && is_at(s, 1, 0, 5, 32) && is_none(s, 0, 2, A429_NO_SUCH));
}

/* A station that is opened by a plan text, and then has a newer plan, which is the table's own. */
static void planned(a429_station *s, const uint8_t *table, size_t length)
{
    uint8_t room[A429_REFUSAL_ROOM];
    size_t count = 0;
    uint64_t plan = 9;
    void *held;
    CHECK(a429_open_planned(s, table, length, (const uint8_t *)given, sizeof given - 1, 0) == A429_OK);
    given_places(s);
    held = s->held;
    CHECK(a429_open_planned(s, table, length, (const uint8_t *)wrong_place, sizeof wrong_place - 1, 0) == A429_PLAN_LINE);
    CHECK(s->held == held && a429_refusal(s, room, sizeof room, &count) == A429_OK);
    CHECK(count == 25 && !memcmp(room, "refused plan line 4 place", 25));
    CHECK(a429_open_planned(s, table, 0, (const uint8_t *)given, 0, 0) == A429_TABLE && s->held == held);
    CHECK(a429_open_planned(s, table, length, (const uint8_t *)given, 0, 0) == A429_PLAN_LINE && s->held == held);
    given_places(s);
    cells(s, 0206, 1);
    CHECK(a429_publish(s, table, length, &plan) == A429_OK && plan == 1);
    given_places(s);
    CHECK(a429_frame(s, 0, &plan) == A429_OK && plan == 1);
    places(s, 16, 8);
    a429_close(s);
}

int main(int argc, char **argv)
{
    static uint8_t table[1 << 16], newer[1 << 16];
    size_t length, newer_length;
    uint64_t plan = 9;
    a429_station s = A429_STATION;
    if (argc != 3)
        return 2;
    length = read_table(argv[1], table, sizeof table);
    newer_length = read_table(argv[2], newer, sizeof newer);
    CHECK(is_none(&s, 0, 0, A429_CLOSED) && is_none(&s, SIZE_MAX, SIZE_MAX, A429_CLOSED));
    CHECK(a429_open(&s, table, length, 0) == A429_OK);
    places(&s, 16, 8);
    CHECK(a429_publish(&s, newer, newer_length, &plan) == A429_OK && plan == 1);
    places(&s, 16, 8);
    CHECK(a429_frame(&s, 0, &plan) == A429_MID_FRAME);
    places(&s, 16, 8);
    cells(&s, 0206, 1);
    places(&s, 16, 8);
    CHECK(a429_frame(&s, 0, &plan) == A429_OK && plan == 1);
    places(&s, 8, 4);
    cells(&s, 0206, 1);
    CHECK(a429_publish(&s, table, length, &plan) == A429_OK && plan == 2);
    places(&s, 8, 4);
    CHECK(a429_frame(&s, 0, &plan) == A429_OK && plan == 2);
    places(&s, 16, 8);
    a429_close(&s);
    CHECK(is_none(&s, 0, 0, A429_CLOSED));
    planned(&s, table, length);
    printf("places: %ld checks, %ld wrong\n", checks, wrong);
    return wrong != 0;
}
