/* Each status that a caller can bring about without breaking what it owes: a closed station, numbers out of range, texts
 * of no bytes, tables that are too large, rooms that are too small. An output of a refused call stays as it was.
 *
 *     misuse TABLE OTHER     TABLE: examples/displays/table.toml; OTHER: the table of another station */
#include "a429.h"
#include "checks.h"
#include "tables.h"

#include <stdio.h>
#include <stdlib.h>
#include <string.h>

#define BYTES(text) ((const uint8_t *)(text)), strlen(text)

static int says(a429_station *s, const char *text)
{
    uint8_t room[A429_REFUSAL_ROOM];
    size_t length = 0;
    return a429_refusal(s, room, sizeof room, &length) == A429_OK && length == strlen(text) && !memcmp(room, text, length);
}

/* Every call on a closed station is refused for that, whatever its words are. */
static void closed(a429_station *s, const uint8_t *table, size_t length, const uint8_t *large, size_t large_length)
{
    size_t number = 7;
    uint64_t plan = 5;
    uint32_t size = 3;
    uint8_t room[4] = "abc";
    a429_sent sent = {1, 2, 3, 4};
    a429_place place = {1, 2, 3};
    CHECK(a429_arrive(s, SIZE_MAX, 1, &number) == A429_CLOSED && number == 7);
    CHECK(a429_arrive(s, 0, 0x600000c1, &number) == A429_CLOSED && number == 7);
    CHECK(a429_cell(s, SIZE_MAX, &sent) == A429_CLOSED && sent.slot == 1 && sent.bus == 2 && sent.filled == 3 && sent.word == 4);
    CHECK(a429_frame(s, SIZE_MAX, &plan) == A429_CLOSED && plan == 5);
    CHECK(a429_publish(s, table, length, &plan) == A429_CLOSED && plan == 5);
    CHECK(a429_publish(s, table, 0, &plan) == A429_CLOSED && plan == 5);
    CHECK(a429_publish(s, large, large_length, &plan) == A429_CLOSED && plan == 5);
    CHECK(a429_receiver(s, BYTES("none such"), &number) == A429_CLOSED && number == 7);
    CHECK(a429_group(s, BYTES(""), &number) == A429_CLOSED && number == 7);
    CHECK(a429_receiver_name(s, SIZE_MAX, room, 0, &number) == A429_CLOSED && number == 7);
    CHECK(a429_group_name(s, 0, room, sizeof room, &number) == A429_CLOSED && number == 7);
    CHECK(a429_source_name(s, 0, room, sizeof room, &number) == A429_CLOSED && number == 7 && !memcmp(room, "abc", 4));
    CHECK(a429_receivers(s, &number) == A429_CLOSED && number == 7);
    CHECK(a429_groups(s, &number) == A429_CLOSED && number == 7);
    CHECK(a429_buses(s, SIZE_MAX, &size) == A429_CLOSED && size == 3);
    CHECK(a429_frame_slots(s, 0, &size) == A429_CLOSED && size == 3);
    CHECK(a429_places(s, SIZE_MAX, SIZE_MAX, &place) == A429_CLOSED && place.bus == 1 && place.offset == 2 && place.period == 3);
    CHECK(says(s, "refused closed"));
}

/* An opening that is refused leaves the station that was held, or none. */
static void refused_openings(a429_station *s, const uint8_t *large, size_t large_length, const uint8_t *table, size_t length)
{
    void *held = s->held;
    CHECK(a429_open(s, BYTES("x"), 0) == A429_TABLE && s->held == held);
    CHECK(says(s, "refused table not-toml root"));
    CHECK(a429_open(s, table, 0, 0) == A429_TABLE && s->held == held);
    CHECK(says(s, "refused table version root"));
    CHECK(a429_open(s, large, large_length, 0) == A429_TOO_LARGE && s->held == held);
    CHECK(says(s, "refused too-large"));
    CHECK(a429_open(s, large, large_length - 1, 0) == A429_TABLE && s->held == held);
    CHECK(a429_open(s, table, length, UINT64_MAX) == A429_SLOTS_SPENT && s->held == held);
    CHECK(says(s, "refused slots-spent"));
}

static void out_of_range(a429_station *s)
{
    size_t number = 7, receivers = 0, groups = 0;
    uint64_t plan = 5;
    uint32_t size = 3;
    a429_sent sent = {1, 2, 3, 4};
    a429_place place = {1, 2, 3};
    CHECK(a429_receivers(s, &receivers) == A429_OK && receivers > 0);
    CHECK(a429_groups(s, &groups) == A429_OK && groups > 0);
    CHECK(a429_arrive(s, receivers, 1, &number) == A429_NO_SUCH && number == 7);
    CHECK(a429_arrive(s, SIZE_MAX, 1, &number) == A429_NO_SUCH && number == 7);
    CHECK(a429_cell(s, groups, &sent) == A429_NO_SUCH && sent.slot == 1);
    CHECK(a429_cell(s, SIZE_MAX, &sent) == A429_NO_SUCH && sent.slot == 1);
    CHECK(a429_frame(s, groups, &plan) == A429_NO_SUCH && a429_frame(s, SIZE_MAX, &plan) == A429_NO_SUCH && plan == 5);
    CHECK(a429_buses(s, groups, &size) == A429_NO_SUCH && a429_buses(s, SIZE_MAX, &size) == A429_NO_SUCH && size == 3);
    CHECK(a429_frame_slots(s, groups, &size) == A429_NO_SUCH && a429_frame_slots(s, SIZE_MAX, &size) == A429_NO_SUCH && size == 3);
    CHECK(a429_places(s, groups, 0, &place) == A429_NO_SUCH && a429_places(s, SIZE_MAX, 0, &place) == A429_NO_SUCH);
    CHECK(a429_places(s, 0, SIZE_MAX, &place) == A429_NO_SUCH && place.bus == 1 && place.offset == 2 && place.period == 3);
    CHECK(a429_receiver(s, BYTES("none such"), &number) == A429_NO_SUCH && number == 7);
    CHECK(a429_receiver(s, BYTES(""), &number) == A429_NO_SUCH && number == 7);
    CHECK(a429_group(s, BYTES("none such"), &number) == A429_NO_SUCH && number == 7);
    CHECK(says(s, "refused no-such"));
}

/* Names go to numbers and back, and need room for all their bytes. */
static void names(a429_station *s)
{
    uint8_t room[A429_NAME_ROOM + 1], full[A429_NAME_ROOM];
    size_t length = 0, number = 7, receivers = 0, groups = 0;
    a429_receivers(s, &receivers);
    a429_groups(s, &groups);
    for (size_t i = 0; i < receivers; i++) {
        CHECK(a429_receiver_name(s, i, full, sizeof full, &length) == A429_OK && length > 0);
        CHECK(a429_receiver(s, full, length, &number) == A429_OK && number == i);
    }
    for (size_t i = 0; i < groups; i++) {
        CHECK(a429_group_name(s, i, full, sizeof full, &length) == A429_OK && length > 0);
        CHECK(a429_group(s, full, length, &number) == A429_OK && number == i);
    }
    CHECK(a429_source_name(s, 0, full, sizeof full, &length) == A429_OK && length > 1);
    memset(room, '#', sizeof room);
    number = 9;
    CHECK(a429_source_name(s, 0, room, length - 1, &number) == A429_NO_ROOM && room[0] == '#' && number == 9);
    CHECK(a429_source_name(s, 0, room, 0, &number) == A429_NO_ROOM && room[0] == '#' && number == 9);
    CHECK(says(s, "refused no-room"));
    CHECK(a429_refusal(s, room, 3, &number) == A429_NO_ROOM && room[0] == '#' && number == 9);
    CHECK(says(s, "refused no-room"));
    CHECK(a429_source_name(s, 0, room, sizeof room, &number) == A429_OK && number == length);
    CHECK(!memcmp(room, full, length) && room[length] == '#');
    CHECK(a429_source_name(s, SIZE_MAX, room, sizeof room, &number) == A429_NO_SUCH && number == length);
    CHECK(a429_receiver_name(s, receivers, room, sizeof room, &number) == A429_NO_SUCH && number == length);
    CHECK(a429_group_name(s, groups, room, sizeof room, &number) == A429_NO_SUCH && number == length);
}

/* A frame has as many cells as its slots on each bus; then it ends, and the next begins. */
static void frames(a429_station *s, const uint8_t *table, size_t length, const uint8_t *other, size_t other_length)
{
    uint32_t buses = 0, slots = 0;
    uint64_t plan = 5, cells = 0;
    a429_sent sent = {9, 9, 9, 9};
    CHECK(a429_buses(s, 0, &buses) == A429_OK && a429_frame_slots(s, 0, &slots) == A429_OK && slots > 0);
    CHECK(a429_frame(s, 0, &plan) == A429_MID_FRAME && plan == 5 && says(s, "refused mid-frame"));
    while (a429_cell(s, 0, &sent) == A429_OK) {
        CHECK(sent.slot == cells / buses && sent.bus == cells % buses && sent.filled <= 1);
        cells++;
    }
    CHECK(cells == (uint64_t)buses * slots && says(s, "refused frame-end"));
    CHECK(a429_publish(s, other, other_length, &plan) == A429_STATION_DIFFERS && plan == 5);
    CHECK(says(s, "refused station-differs"));
    CHECK(a429_publish(s, BYTES("x"), &plan) == A429_TABLE && plan == 5);
    CHECK(a429_publish(s, table, length, &plan) == A429_OK && plan == 1);
    plan = 5;
    CHECK(a429_frame(s, 0, &plan) == A429_OK && plan == 1);
    CHECK(a429_cell(s, 0, &sent) == A429_OK && sent.slot == slots && sent.bus == 0);
}

int main(int argc, char **argv)
{
    static uint8_t table[1 << 16], other[1 << 16];
    size_t large_length = (1 << 24) + 1, length, other_length, number = 7;
    uint8_t *large = calloc(large_length, 1);
    a429_station s = A429_STATION;
    if (argc != 3 || !large)
        return 2;
    length = read_table(argv[1], table, sizeof table);
    other_length = read_table(argv[2], other, sizeof other);
    memset(large, '#', large_length);
    CHECK(says(&s, ""));
    a429_close(&s);
    CHECK(says(&s, ""));
    closed(&s, table, length, large, large_length);
    refused_openings(&s, large, large_length, table, length);
    CHECK(!s.held);
    CHECK(a429_open(&s, table, length, 0) == A429_OK && s.held);
    refused_openings(&s, large, large_length, table, length);
    CHECK(a429_arrive(&s, 0, 0, &number) == A429_PARITY && number == 7 && says(&s, "refused parity"));
    out_of_range(&s);
    names(&s);
    frames(&s, table, length, other, other_length);
    CHECK(a429_open(&s, other, other_length, 0) == A429_OK && s.held);
    a429_close(&s);
    CHECK(!s.held);
    a429_close(&s);
    closed(&s, table, length, large, large_length);
    free(large);
    printf("misuse: %ld checks, %ld wrong\n", checks, wrong);
    return wrong != 0;
}
