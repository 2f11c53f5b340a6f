/* The machine of an ARINC 429 data concentrator, for programs in C and C++.
 *
 * What each call answers and changes is proved: the contracts are in crates/a429_c/src (events.rt, naming.rt and
 * words.rt), and docs/C.md has them in a table. The proof holds if the caller does what follows; no call can check it.
 *   - Each pointer is not null. It points to memory of its type and size, which no other pointer of the same call
 *     reaches. For a text or a room of 0 bytes any address but null will do.
 *   - A station begins as A429_STATION. Only these calls change it. It is not copied, and not moved by its bytes.
 *   - One thread at a time uses a station. A station may go to another thread if a lock, or the start or the end of a
 *     thread, orders the two uses. Different stations may be used on different threads at once.
 *   - No call is made from a signal handler.
 *   - malloc, realloc and free are those of one allocator, for example the C library's.
 * Any other mistake has a status: a call on a closed station, a number that is out of range, a name that the station
 * does not have, a room that is too small.
 *
 * The calls do not write output, keep global data or abort. Only a429_open, a429_open_planned and a429_publish allocate
 * memory. */
#ifndef A429_H
#define A429_H

#include <stddef.h>
#include <stdint.h>

#ifdef __cplusplus
extern "C" {
#endif

/* Room that holds each name (16 bytes at most) and each text of a refusal (80 bytes at most). */
#define A429_NAME_ROOM 16
#define A429_REFUSAL_ROOM 92

/* A station, or none: the caller's memory. What `held` points to belongs to the library; the rest is the text of the
 * last refusal. */
typedef struct a429_station {
    void *held;
    uint32_t refusal_length;
    uint8_t refusal_text[A429_REFUSAL_ROOM];
} a429_station;

/* A closed station. */
#define A429_STATION {0, 0, {0}}

/* What a call answers. If it is not A429_OK, no output is written, and of the station only the text of its last refusal
 * changes. */
enum a429_status {
    A429_OK = 0,
    A429_NO_SUCH = 1,         /* the station has no receiver, group, output, source or name like this */
    A429_PARITY = 2,          /* an even number of the word's bits are ones */
    A429_FILTERED = 3,        /* the word's label passes no filter of the receiver */
    A429_NO_SOURCE = 4,       /* no source of the receiver has the word's label and SDI */
    A429_COUNT_SPENT = 5,     /* the source has accepted 2^41 - 1 words; or 2^64 - 1 plans were published */
    A429_FRAME_END = 6,       /* all cells of the frame were sent */
    A429_MID_FRAME = 7,       /* not all cells of the frame were sent */
    A429_SLOTS_SPENT = 8,     /* the slots of the next frame cannot be counted in 64 bits */
    A429_STATION_DIFFERS = 9, /* the table is of another station */
    A429_CLOSED = 10,         /* no station is held; this comes first, even if more is wrong */
    A429_MEMORY = 11,         /* an allocation failed */
    A429_TABLE = 12,          /* the table has a fault */
    A429_UNFIT = 13,          /* the interval of an output allows no period of slots */
    A429_TOO_MANY_BUSES = 14, /* a group needs more than 16 buses */
    A429_TOO_LARGE = 15,      /* the table, or the plan text, has more than 16 MiB (16,777,216 bytes) */
    A429_NO_ROOM = 16,        /* the text is longer than the room */
    A429_FIELD = 17,          /* a field of a word has too many bits */
    A429_PLAN_LINE = 18       /* a line of the plan text is refused */
};

/* A cell that was sent. */
typedef struct a429_sent {
    uint64_t slot;   /* absolute: the first cell of each group is in the slot `first_slot` of `a429_open` */
    uint32_t bus;    /* of the group, from 0 */
    uint32_t filled; /* 1 if the cell has a word, otherwise 0 */
    uint32_t word;   /* the 32 bits of the word; 0 if there is none */
} a429_sent;

/* The place of an output: in each frame of its group it has the slots `offset`, `offset + period`,
 * `offset + 2 * period` .. of one bus. Slots are counted from 0 at the frame's start. */
typedef struct a429_place {
    uint32_t bus;    /* of the group, from 0 */
    uint32_t offset; /* the first of its slots, less than the period */
    uint32_t period; /* in slots: a power of two, 1 to 8192 */
} a429_place;

/* The fields of a word. */
typedef struct a429_fields {
    uint32_t data;  /* bits 11 to 29: 0 to 524287 */
    uint8_t label;  /* bits 1 to 8, bit 1 the highest: 0203 is the label that is written 203 */
    uint8_t sdi;    /* bits 9 and 10: 0 to 3 */
    uint8_t ssm;    /* bits 30 and 31: 0 to 3 */
    uint8_t parity; /* bit 32: 0 or 1 */
} a429_fields;

/* ---- a station and its events */

/* Opens the station of a table (the bytes of a TOML file), whose first frames begin at `first_slot`. If a station was
 * held before, it is closed then. If the call is refused, only the text of its refusal changes.
 * A429_TOO_LARGE, A429_TABLE, A429_UNFIT, A429_TOO_MANY_BUSES, A429_SLOTS_SPENT, A429_MEMORY. */
uint32_t a429_open(a429_station *station, const uint8_t *table, size_t table_length, uint64_t first_slot);

/* The same by the plan that a text states, instead of the table's own plan: a text that `a429 plan` or `a429 plan --keep`
 * prints for this table, or another that `a429 check` accepts. A newer table has its own plan.
 * A429_TOO_LARGE, A429_TABLE, A429_UNFIT, A429_TOO_MANY_BUSES, A429_PLAN_LINE, A429_SLOTS_SPENT, A429_MEMORY. */
uint32_t a429_open_planned(a429_station *station, const uint8_t *table, size_t table_length, const uint8_t *plan,
                           size_t plan_length, uint64_t first_slot);

/* Closes a station, and frees what it holds. If none is held, nothing happens. The text of the last refusal stays. */
void a429_close(a429_station *station);

/* A word of 32 bits comes in at a receiver (from 0, in table order). Gives the number of the source that keeps it.
 * A429_CLOSED, A429_NO_SUCH, A429_PARITY, A429_FILTERED, A429_NO_SOURCE, A429_COUNT_SPENT. */
uint32_t a429_arrive(a429_station *station, size_t receiver, uint32_t word, size_t *source);

/* A group (from 0, in table order) sends its next cell. Cells come slot by slot, and in a slot bus by bus.
 * A429_CLOSED, A429_NO_SUCH, A429_FRAME_END. */
uint32_t a429_cell(a429_station *station, size_t group, a429_sent *sent);

/* A group goes on to its next frame, by the newest plan. Gives the number of that plan.
 * A429_CLOSED, A429_NO_SUCH, A429_MID_FRAME, A429_SLOTS_SPENT. */
uint32_t a429_frame(a429_station *station, size_t group, uint64_t *plan);

/* Reads and plans a newer table of the same station, and proposes its plan to all groups. Gives the plan's number, from
 * 1. Each group takes it at its next frame.
 * A429_CLOSED, A429_TOO_LARGE, A429_TABLE, A429_UNFIT, A429_TOO_MANY_BUSES, A429_STATION_DIFFERS, A429_COUNT_SPENT,
 * A429_MEMORY. */
uint32_t a429_publish(a429_station *station, const uint8_t *table, size_t table_length, uint64_t *plan);

/* ---- names and numbers */

/* Gives the number of the receiver, or of the group, with this name. A429_CLOSED, A429_NO_SUCH. */
uint32_t a429_receiver(a429_station *station, const uint8_t *name, size_t name_length, size_t *receiver);
uint32_t a429_group(a429_station *station, const uint8_t *name, size_t name_length, size_t *group);

/* Puts the name of a receiver, a group or a source at the start of the room, with no 0 at its end, and gives its length
 * in bytes. The rest of the room stays as it was. A429_CLOSED, A429_NO_SUCH, A429_NO_ROOM. */
uint32_t a429_receiver_name(a429_station *station, size_t receiver, uint8_t *room, size_t room_length, size_t *length);
uint32_t a429_group_name(a429_station *station, size_t group, uint8_t *room, size_t room_length, size_t *length);
uint32_t a429_source_name(a429_station *station, size_t source, uint8_t *room, size_t room_length, size_t *length);

/* ---- sizes */

/* Gives how many receivers, or groups, the station has. A429_CLOSED. */
uint32_t a429_receivers(a429_station *station, size_t *count);
uint32_t a429_groups(a429_station *station, size_t *count);

/* Gives how many buses a group has (1 to 16), or how many slots its frame has (1 to 8192), by the plan that is in force
 * for the group. A429_CLOSED, A429_NO_SUCH. */
uint32_t a429_buses(a429_station *station, size_t group, uint32_t *buses);
uint32_t a429_frame_slots(a429_station *station, size_t group, uint32_t *slots);

/* Gives the place of an output of a group (both from 0, in table order) by the plan that is in force for the group: the
 * plan of the frame that the group is in. A newer plan comes into force for a group at its next `a429_frame`. No call
 * gives the number of outputs: a loop over them ends with A429_NO_SUCH. A429_CLOSED, A429_NO_SUCH. */
uint32_t a429_places(a429_station *station, size_t group, size_t output, a429_place *place);

/* ---- words, without a station */

/* Gives the word of these fields, with the parity bit that makes the number of its ones odd.
 * A429_FIELD if the SDI or the SSM is above 3, or the data above 524287. */
uint32_t a429_encode(uint8_t label, uint8_t sdi, uint32_t data, uint8_t ssm, uint32_t *word);

/* Gives the fields of a word. A429_PARITY if an even number of its 32 bits are ones. */
uint32_t a429_decode(uint32_t word, a429_fields *fields);

/* ---- why */

/* Puts the text of the last refusal at the start of the room, with no 0 at its end, and gives its length; 0 bytes if no
 * call was refused. It is the line that the program a429 prints, for example `refused parity`; the texts of
 * A429_CLOSED, A429_TOO_LARGE and A429_NO_ROOM are the library's own. The call is answered on a closed station too. It
 * leaves all of the station as it was, including that text. A429_NO_ROOM. */
uint32_t a429_refusal(a429_station *station, uint8_t *room, size_t room_length, size_t *length);

#ifdef __cplusplus
}
#endif

#endif
