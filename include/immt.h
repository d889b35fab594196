/*
 * immt.h - checks and recasts ships' weather records in the IMMT tape format, editions 1, 3 and 4.
 *
 * A record is a line of fixed columns without its line end: 131 bytes in edition 1, 159 in editions 3 and 4. Columns and elements
 * count from 1. Link with libdesk.a, which `rt lib` in crates/desk writes for x86-64; it calls
 * nothing but memcpy, memmove and memset. `host/cc` does both.
 *
 * A whole program, which says of each line of its input whether it is a record and, if not, why not (host/test builds and runs it from here):
 *
 *     #include <stdio.h>
 *     #include <string.h>
 *     #include "immt.h"
 *
 *     int main(void)
 *     {
 *         char line[IMMT_LENGTH_MOST + 3];
 *         while (fgets(line, sizeof line, stdin) != NULL) {
 *             size_t length = strlen(line);
 *             uint64_t place, number;
 *             if (length > 0 && line[length - 1] == '\n')
 *                 length--;
 *             if (length > 0 && line[length - 1] == '\r')
 *                 length--;
 *             number = immt_check((const uint8_t *)line, length, &place);
 *             if (number == IMMT_OK)
 *                 puts("accepted");
 *             else
 *                 printf("refused %u at %u\n", (unsigned)number, (unsigned)place);
 *         }
 *         return ferror(stdin) || fflush(stdout) != 0 ? 2 : 0;
 *     }
 *
 * The line's end is no part of a record, neither "\n" nor a '\r' before it: a record that is handed over with either is too long, and refused
 * 1. What fgets cannot do: a line longer than the array comes in pieces, each judged by itself, and one with a byte 0 ends there. host/host.c
 * shows how lines of any length and any bytes are read.
 *
 * Both calls return 0 (IMMT_OK) or the number of the refusal, and are proved to give exactly the answers below for every record,
 * edition number and room. What the proof cannot see is what a pointer points to, so that is what the caller answers for:
 *
 *   record      `length` bytes that can be read. They are only read. Where `length` is 0 the pointer may be null.
 *   buffer      `room` bytes that can be written, whatever they hold. Where `room` is 0 the pointer may be null.
 *   place, lost_low, lost_high      each a uint64_t of its own, never null, whatever it holds.
 *
 * None of these may overlap another. In particular a record is not recast in place: record and buffer must not share a byte.
 *
 * All memory stays the caller's. The calls allocate nothing, keep no pointer and no state once they have returned, and neither lock nor
 * wait, so any number of threads may be in them at once, as long as no thread writes what another's call has been given.
 */
#ifndef IMMT_H
#define IMMT_H

#include <stddef.h>
#include <stdint.h>

#ifdef __cplusplus
extern "C" {
#endif

/*
 * The version of this header and of the calls behind it: major * 10000 + minor * 100 + patch. The major number goes up where a program that
 * was right may have to be changed: a call, a number or the meaning of an answer is another or gone. The minor number goes up where
 * something is added, and the patch where neither is so. A record that is answered otherwise than before is a change of meaning.
 */
#define IMMT_VERSION_MAJOR 1
#define IMMT_VERSION_MINOR 0
#define IMMT_VERSION_PATCH 0
#define IMMT_VERSION (IMMT_VERSION_MAJOR * 10000 + IMMT_VERSION_MINOR * 100 + IMMT_VERSION_PATCH)

/* The bytes of a record of each edition, and of the longest: a buffer of IMMT_LENGTH_MOST has room for every recast. */
#define IMMT_LENGTH_1 131
#define IMMT_LENGTH_3 159
#define IMMT_LENGTH_4 159
#define IMMT_LENGTH_MOST 159

/* The number of the last element in each edition. */
#define IMMT_LAST_1 85
#define IMMT_LAST_3 101
#define IMMT_LAST_4 101

/*
 * What the calls return, and the place that goes with it. They ask in this order, and the first that fails is the answer, at its
 * lowest place. A check asks 1 to 7, a recast 1 to 9. What a place counts goes by the number: columns for 2, 3 and 4, elements for 6, ties
 * for 7. For every other number it is 0.
 */
enum immt_refusal {
    IMMT_OK = 0,                     /* accepted, or recast                               place 0 */
    IMMT_REFUSED_LENGTH = 1,         /* the length is neither 131 nor 159                 place 0 */
    IMMT_REFUSED_UNPRINTABLE = 2,    /* a byte is outside 32..126                         the lowest such column */
    IMMT_REFUSED_FORMAT = 3,         /* column 1 is not 3, 4 or 5                         place 1 */
    IMMT_REFUSED_VERSION = 4,        /* column 111, the edition, is not 1, 3 or 4         place 111 */
    IMMT_REFUSED_EDITION_LENGTH = 5, /* the length is not that edition's                  place 0 */
    IMMT_REFUSED_ELEMENT = 6,        /* an element is neither blank nor legal             the lowest such element */
    IMMT_REFUSED_TIE = 7,            /* elements do not go together                       the lowest broken tie, 1..10 */
    IMMT_REFUSED_EDITION = 8,        /* the edition asked for is not 1, 3 or 4            place 0 */
    IMMT_REFUSED_ROOM = 9            /* the buffer is shorter than the edition asked for  place 0 */
};

/*
 * Checks a record.
 *
 *   record, length   the record, any bytes and any number of them
 *   place            set at every call, to the place of the refusal, 0 where the record is accepted: by the number that is returned it is
 *                    a column (2, 3, 4), an element (6), a tie (7), and else 0
 *
 * Returns IMMT_OK where the record is accepted, else a number from 1 to 7. Writes nothing but the place.
 */
uint64_t immt_check(const uint8_t *record, size_t length, uint64_t *place);

/*
 * Recasts a record to another edition: each element that is kept keeps its meaning, and one whose meaning has no text there is blank in the
 * result, and lost.
 *
 *   record, length       the record, any bytes and any number of them
 *   edition              the edition asked for: the number 1, 3 or 4, taken whole (not the character '4', and 260 is not 4)
 *   buffer, room         where the result goes: success writes the first IMMT_LENGTH_1, IMMT_LENGTH_3 or IMMT_LENGTH_4 bytes, with no byte
 *                        0 and no line end after them, and leaves the rest as it was; a refusal writes none
 *   place                set at every call, to the place of the refusal, 0 on success
 *   lost_low, lost_high  set at every call, to the elements lost, none on a refusal: element 1 is the lowest bit of lost_low, 65 of lost_high,
 *                        and a bit past element 101 is never set
 *
 * Returns IMMT_OK on success, else a number from 1 to 9. The edition is looked at only for a record that a check accepts, and the room
 * only for an edition that there is.
 *
 * A result that is recast back to the record's own edition loses nothing more: each element has its first characters, or is blank and was lost
 * before. Column 12 may come back with another digit for the same place, on the equator or where the longitude says 0.0, 90.0 or 180.0.
 */
uint64_t immt_recast(const uint8_t *record, size_t length, uint64_t edition, uint8_t *buffer, size_t room, uint64_t *place,
                     uint64_t *lost_low, uint64_t *lost_high);

/*
 * The loss set, by the two words that immt_recast sets:
 *
 *   IMMT_LOST(low, high, element)            1 where the element is lost, else 0; any number may be asked about
 *   IMMT_LOST_COUNT(low, high)               how many are lost
 *   IMMT_FOR_EACH_LOST(element, low, high)   heads a statement that is run for each lost element, rising. `element` is an unsigned
 *                                            variable of the caller's, 0 after the last; `low` and `high` are evaluated at every turn
 *
 *     unsigned element;
 *     IMMT_FOR_EACH_LOST(element, lost_low, lost_high)
 *         printf(" %u", element);
 */
#define IMMT_LOST(low, high, element) immt_is_lost((low), (high), (element))
#define IMMT_LOST_COUNT(low, high) immt_lost_count((low), (high))
#define IMMT_FOR_EACH_LOST(element, low, high) \
    for ((element) = immt_lost_after((low), (high), 0); (element) != 0; (element) = immt_lost_after((low), (high), (element)))

/* What the macros call: functions, so that an argument is evaluated once and has a type. */
static inline int immt_is_lost(uint64_t low, uint64_t high, uint64_t element)
{
    if (element < 1 || element > 128)
        return 0;
    return element <= 64 ? (low >> (element - 1) & 1) != 0 : (high >> (element - 65) & 1) != 0;
}

static inline unsigned immt_lost_count(uint64_t low, uint64_t high)
{
    unsigned count = 0;
    for (; low != 0; low &= low - 1)
        count++;
    for (; high != 0; high &= high - 1)
        count++;
    return count;
}

/* The lowest lost element above the one given, 0 where there is none. */
static inline unsigned immt_lost_after(uint64_t low, uint64_t high, unsigned element)
{
    while (element < 128)
        if (immt_is_lost(low, high, ++element))
            return element;
    return 0;
}

#ifdef __cplusplus
}
#endif

#endif
