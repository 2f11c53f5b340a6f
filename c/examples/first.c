/* Opens the station of a table, and prints the cells of the first frame of its first group.
 *
 *     first TABLE */
#include "a429.h"

#include <inttypes.h>
#include <stdio.h>

int main(int argc, char **argv)
{
    static uint8_t table[1 << 20];
    a429_station station = A429_STATION;
    a429_sent sent;
    uint8_t why[A429_REFUSAL_ROOM];
    size_t length;
    FILE *file = argc == 2 ? fopen(argv[1], "rb") : NULL;
    if (!file) {
        fprintf(stderr, "words: TABLE\n");
        return 2;
    }
    length = fread(table, 1, sizeof table, file);
    fclose(file);
    if (a429_open(&station, table, length, 0) != A429_OK) {
        a429_refusal(&station, why, sizeof why, &length);
        printf("%.*s\n", (int)length, (const char *)why);
        return 1;
    }
    while (a429_cell(&station, 0, &sent) == A429_OK) {
        if (sent.filled)
            printf("bus %" PRIu32 " slot %" PRIu64 ": %08" PRIx32 "\n", sent.bus, sent.slot, sent.word);
        else
            printf("bus %" PRIu32 " slot %" PRIu64 ": none\n", sent.bus, sent.slot);
    }
    a429_close(&station);
    return 0;
}
