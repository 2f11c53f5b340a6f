/* Opens the station of a table, and prints the place of each output of each group. With a receiver and the fields of a
 * word, it then gives the receiver that word, and prints the fields of each word in the first frame of each group.
 *
 *     outputs TABLE
 *     outputs TABLE RECEIVER LABEL SDI DATA SSM     LABEL in octal digits */
#include "a429.h"

#include <inttypes.h>
#include <stdio.h>
#include <stdlib.h>
#include <string.h>

static void print_places(a429_station *station, size_t group)
{
    uint8_t name[A429_NAME_ROOM];
    size_t length = 0;
    a429_place place;
    uint32_t status = a429_group_name(station, group, name, sizeof name, &length);
    for (size_t output = 0; status == A429_OK; output++) {
        status = a429_places(station, group, output, &place);
        if (status == A429_OK)
            printf("group %.*s output %zu: bus %" PRIu32 " offset %" PRIu32 " period %" PRIu32 "\n", (int)length,
                (const char *)name, output, place.bus, place.offset, place.period);
    }
}

static void print_words(a429_station *station, size_t group)
{
    a429_sent sent;
    a429_fields fields;
    while (a429_cell(station, group, &sent) == A429_OK)
        if (sent.filled && a429_decode(sent.word, &fields) == A429_OK)
            printf("bus %" PRIu32 " slot %" PRIu64 ": label %03o sdi %u data %" PRIu32 " ssm %u\n", sent.bus, sent.slot,
                (unsigned)fields.label, (unsigned)fields.sdi, fields.data, (unsigned)fields.ssm);
}

/* The word of the fields comes in at the receiver. */
static uint32_t receive(a429_station *station, char **words)
{
    uint32_t word;
    size_t receiver, source;
    uint32_t status = a429_receiver(station, (const uint8_t *)words[0], strlen(words[0]), &receiver);
    if (status == A429_OK)
        status = a429_encode((uint8_t)strtoul(words[1], NULL, 8), (uint8_t)strtoul(words[2], NULL, 10),
            (uint32_t)strtoul(words[3], NULL, 10), (uint8_t)strtoul(words[4], NULL, 10), &word);
    return status == A429_OK ? a429_arrive(station, receiver, word, &source) : status;
}

int main(int argc, char **argv)
{
    static uint8_t table[1 << 20];
    a429_station station = A429_STATION;
    size_t length, groups = 0;
    uint32_t status;
    FILE *file = argc == 2 || argc == 7 ? fopen(argv[1], "rb") : NULL;
    if (!file) {
        fprintf(stderr, "words: TABLE [RECEIVER LABEL SDI DATA SSM]\n");
        return 2;
    }
    length = fread(table, 1, sizeof table, file);
    fclose(file);
    status = a429_open(&station, table, length, 0);
    if (status == A429_OK)
        a429_groups(&station, &groups);
    for (size_t group = 0; group < groups; group++)
        print_places(&station, group);
    if (status == A429_OK && argc == 7)
        status = receive(&station, argv + 2);
    for (size_t group = 0; status == A429_OK && argc == 7 && group < groups; group++)
        print_words(&station, group);
    if (status != A429_OK)
        printf("refused: status %" PRIu32 "\n", status);
    a429_close(&station);
    return status != A429_OK;
}
