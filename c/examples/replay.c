/* Replays a script on the station of a table, like `a429 replay TABLE SCRIPT TABLE..`.
 *
 *     replay TABLE SCRIPT TABLE.. */
#include "a429.h"

#include <inttypes.h>
#include <stdio.h>
#include <stdlib.h>
#include <string.h>

typedef struct text {
    uint8_t *bytes;
    size_t length;
} text;

/* The verbs of a script. */
enum verb { ARRIVE, CELL, FRAME, PUBLISH };

/* An event: a receiver, a group, or a further table from 1; of an arrival the word. */
typedef struct event {
    enum verb verb;
    size_t number;
    uint32_t word;
} event;

static text read_file(const char *name)
{
    text file = {NULL, 0};
    size_t room = 1 << 16, count;
    FILE *in = fopen(name, "rb");
    if (!in || !(file.bytes = malloc(room))) {
        fprintf(stderr, "cannot read %s\n", name);
        exit(2);
    }
    while ((count = fread(file.bytes + file.length, 1, room - file.length, in)) > 0) {
        file.length += count;
        if (file.length == room && !(file.bytes = realloc(file.bytes, room *= 2)))
            exit(2);
    }
    fclose(in);
    return file;
}

/* The parts of a text before and after its first space. Whether it has one. */
static int cut(text whole, text *head, text *rest)
{
    uint8_t *space = memchr(whole.bytes, ' ', whole.length);
    if (!space)
        return 0;
    *head = (text){whole.bytes, (size_t)(space - whole.bytes)};
    *rest = (text){space + 1, whole.length - head->length - 1};
    return 1;
}

static int is(text word, const char *other)
{
    return word.length == strlen(other) && !memcmp(word.bytes, other, word.length);
}

/* The eight hexadecimal digits of a word. */
static int read_word(text digits, uint32_t *word)
{
    *word = 0;
    for (size_t i = 0; i < digits.length; i++) {
        const char *all = "0123456789abcdef";
        int byte = digits.bytes[i];
        const char *digit = byte ? strchr(all, byte >= 'A' && byte <= 'F' ? byte - 'A' + 'a' : byte) : NULL;
        if (!digit)
            return 0;
        *word = *word << 4 | (uint32_t)(digit - all);
    }
    return digits.length == 8;
}

/* A number from 1 to the last. */
static int read_number(text digits, size_t last, size_t *number)
{
    uint64_t value = 0;
    if (digits.length < 1 || digits.length > 10 || digits.bytes[0] == '0')
        return 0;
    for (size_t i = 0; i < digits.length; i++) {
        if (digits.bytes[i] < '0' || digits.bytes[i] > '9')
            return 0;
        value = value * 10 + (uint64_t)(digits.bytes[i] - '0');
    }
    *number = (size_t)value;
    return value <= last;
}

/* The event of a line. Whether it is one. */
static int read_event(a429_station *station, size_t further, text line, event *of)
{
    text verb, words, name, word;
    if (!cut(line, &verb, &words))
        return 0;
    if (is(verb, "arrive")) {
        of->verb = ARRIVE;
        return cut(words, &name, &word) && a429_receiver(station, name.bytes, name.length, &of->number) == A429_OK
            && read_word(word, &of->word);
    }
    if (is(verb, "cell") || is(verb, "frame")) {
        of->verb = is(verb, "cell") ? CELL : FRAME;
        return a429_group(station, words.bytes, words.length, &of->number) == A429_OK;
    }
    of->verb = PUBLISH;
    return is(verb, "publish") && read_number(words, further, &of->number);
}

static void print_refusal(a429_station *station)
{
    uint8_t why[A429_REFUSAL_ROOM];
    size_t length = 0;
    a429_refusal(station, why, sizeof why, &length);
    printf("%.*s\n", (int)length, (const char *)why);
}

/* Makes the call of an event, and prints the line of its answer. */
static void play(a429_station *station, const text *further, event e)
{
    uint8_t name[A429_NAME_ROOM];
    size_t source, length = 0;
    uint64_t plan;
    a429_sent sent;
    uint32_t status = A429_NO_SUCH;
    switch (e.verb) {
    case ARRIVE:
        status = a429_arrive(station, e.number, e.word, &source);
        if (status == A429_OK)
            status = a429_source_name(station, source, name, sizeof name, &length);
        if (status == A429_OK)
            printf("accepted %.*s\n", (int)length, (const char *)name);
        break;
    case CELL:
        status = a429_cell(station, e.number, &sent);
        if (status == A429_OK && sent.filled)
            printf("sent %" PRIu32 " %" PRIu64 " %08" PRIx32 "\n", sent.bus, sent.slot, sent.word);
        else if (status == A429_OK)
            printf("sent %" PRIu32 " %" PRIu64 " none\n", sent.bus, sent.slot);
        break;
    case FRAME:
        status = a429_frame(station, e.number, &plan);
        if (status == A429_OK)
            printf("changed %" PRIu64 "\n", plan);
        break;
    case PUBLISH:
        status = a429_publish(station, further[e.number - 1].bytes, further[e.number - 1].length, &plan);
        if (status == A429_OK)
            printf("published %" PRIu64 "\n", plan);
        break;
    }
    if (status != A429_OK)
        print_refusal(station);
}

/* Reads the lines of a script, and plays them if `plays`. The number of the first that is not an event, or 0. */
static size_t each_line(a429_station *station, text script, const text *further, size_t count, int plays)
{
    size_t number = 0;
    while (script.length > 0) {
        uint8_t *end = memchr(script.bytes, '\n', script.length);
        text line = {script.bytes, end ? (size_t)(end - script.bytes) : 0};
        event e = {CELL, 0, 0};
        number++;
        if (!end || !read_event(station, count, line, &e))
            return number;
        if (plays)
            play(station, further, e);
        script = (text){end + 1, script.length - line.length - 1};
    }
    return 0;
}

static int replay(text table, text script, const text *further, size_t count)
{
    a429_station station = A429_STATION;
    size_t fault;
    if (a429_open(&station, table.bytes, table.length, 0) != A429_OK) {
        print_refusal(&station);
        return 1;
    }
    fault = each_line(&station, script, further, count, 0);
    if (fault)
        printf("refused script line %zu\n", fault);
    else
        each_line(&station, script, further, count, 1);
    a429_close(&station);
    return fault != 0;
}

int main(int argc, char **argv)
{
    size_t count = argc < 3 ? 0 : (size_t)argc - 3;
    text table, script, *further = malloc((count + 1) * sizeof *further);
    int status;
    if (argc < 3 || !further) {
        fprintf(stderr, "words: TABLE SCRIPT TABLE..\n");
        return 2;
    }
    table = read_file(argv[1]);
    script = read_file(argv[2]);
    for (size_t i = 0; i < count; i++)
        further[i] = read_file(argv[i + 3]);
    status = replay(table, script, further, count);
    for (size_t i = 0; i < count; i++)
        free(further[i].bytes);
    free(further);
    free(script.bytes);
    free(table.bytes);
    return status;
}
