/*
 * Tests immt_check and immt_recast through immt.h, as a C program meets them: every refusal number, the places and loss words, the bytes
 * around the lent buffer, the worked cases of the rules, and records that go there and back, between all editions.
 *
 * The answers are proved; what is tried here is what no proof has seen: the header, the way numbers and slices cross into C, and the
 * machine code. Prints a line for each test that fails and ends with 'tests N failed M'.
 */
#include <inttypes.h>
#include <stdio.h>
#include <string.h>

#include "immt.h"

enum { LONGEST = 300, GUARD = 32 };

struct record {
    uint8_t bytes[LONGEST];
    size_t length;
};

struct answer {
    uint64_t number, place, low, high;
};

static unsigned tried, failures;

/* What the numbers behind pointers hold before a call: no call answers this. */
static const uint64_t unset = UINT64_C(0xDEADBEEFDEADBEEF);

static const uint64_t editions[] = {1, 3, 4};

/* The columns that each element has, from element 1 on. */
static const char widths[] =
    "1422213411212121313421111111" /* 1..28 */
    "3112222212111721111311313112" /* 29..56 */
    "2211111111111111111111111111" /* 57..84 */
    "11332233311111111";           /* 85..101 */

static size_t width(unsigned element)
{
    return (size_t)(widths[element - 1] - '0');
}

static size_t column(unsigned element)
{
    size_t at = 1;
    unsigned e;
    for (e = 1; e < element; e++)
        at += width(e);
    return at;
}

static size_t length_of(uint64_t edition)
{
    return edition == 1 ? IMMT_LENGTH_1 : IMMT_LENGTH_3;
}

static unsigned last_of(uint64_t edition)
{
    return edition == 1 ? IMMT_LAST_1 : IMMT_LAST_3;
}

/* A record with nothing in it but 3 in column 1 and its edition. */
static struct record blank(uint64_t edition)
{
    struct record r;
    memset(r.bytes, ' ', sizeof r.bytes);
    r.bytes[0] = '3';
    r.bytes[110] = (uint8_t)('0' + edition);
    r.length = length_of(edition);
    return r;
}

/* The record with a text in an element's columns. */
static struct record with(struct record r, unsigned element, const char *text)
{
    memcpy(r.bytes + column(element) - 1, text, strlen(text));
    return r;
}

static struct record with_byte(struct record r, size_t at, unsigned byte)
{
    r.bytes[at - 1] = (uint8_t)byte;
    return r;
}

static struct record with_place(struct record r, const char *digit, const char *latitude, const char *longitude)
{
    return with(with(with(r, 6, digit), 7, latitude), 8, longitude);
}

static struct record with_length(struct record r, size_t length)
{
    r.length = length;
    return r;
}

static void test(int holds, const char *name)
{
    tried++;
    if (!holds) {
        failures++;
        printf("failed: %s\n", name);
    }
}

/* A record of length 0 is lent as a null pointer: both calls allow it. */
static const uint8_t *lent(const struct record *r)
{
    return r->length == 0 ? NULL : r->bytes;
}

static void check_gives(const char *name, struct record r, uint64_t number, uint64_t place)
{
    struct record before = r;
    uint64_t at = unset;
    uint64_t given = immt_check(lent(&r), r.length, &at);
    int holds = given == number && at == place && memcmp(before.bytes, r.bytes, sizeof r.bytes) == 0;
    test(holds, name);
    if (!holds)
        printf("  check of %zu bytes gives %" PRIu64 " %" PRIu64 ", not %" PRIu64 " %" PRIu64 "\n", r.length, given, at, number, place);
}

/* The whole answer and the whole buffer, with guard bytes on both sides: a refusal writes nothing, success the result and no more. */
static void recast_gives(const char *name, struct record r, uint64_t edition, size_t room, struct answer wanted, struct record result)
{
    uint8_t block[GUARD + LONGEST + GUARD], expected[sizeof block];
    struct record before = r;
    struct answer a = {unset, unset, unset, unset};
    size_t i;
    int holds;
    /* No byte that a recast may write, and not the same one everywhere. */
    for (i = 0; i < sizeof block; i++)
        expected[i] = block[i] = (uint8_t)(128 + i % 101);
    if (wanted.number == IMMT_OK)
        memcpy(expected + GUARD, result.bytes, result.length);
    a.number = immt_recast(lent(&r), r.length, edition, room == 0 ? NULL : block + GUARD, room, &a.place, &a.low, &a.high);
    holds = a.number == wanted.number && a.place == wanted.place && a.low == wanted.low && a.high == wanted.high &&
            memcmp(block, expected, sizeof block) == 0 && memcmp(before.bytes, r.bytes, sizeof r.bytes) == 0;
    test(holds, name);
    if (!holds)
        printf("  recast of %zu bytes to %" PRIu64 " with room %zu gives %" PRIu64 " %" PRIu64 " %" PRIx64 " %" PRIx64 ", not %" PRIu64 " %" PRIu64
               " %" PRIx64 " %" PRIx64 ", or other bytes\n",
               r.length, edition, room, a.number, a.place, a.low, a.high, wanted.number, wanted.place, wanted.low, wanted.high);
}

/* Success, with these elements lost (0 for none) and this result. */
static void recasts(const char *name, struct record r, uint64_t edition, unsigned lost, unsigned lost_too, struct record result)
{
    struct answer wanted = {IMMT_OK, 0, 0, 0};
    unsigned each[2], i;
    each[0] = lost;
    each[1] = lost_too;
    for (i = 0; i < 2; i++)
        if (each[i] > 64)
            wanted.high |= UINT64_C(1) << (each[i] - 65);
        else if (each[i] > 0)
            wanted.low |= UINT64_C(1) << (each[i] - 1);
    recast_gives(name, r, edition, length_of(edition), wanted, result);
}

static void recast_refuses(const char *name, struct record r, uint64_t edition, size_t room, uint64_t number, uint64_t place)
{
    struct answer wanted = {0, 0, 0, 0};
    wanted.number = number;
    wanted.place = place;
    recast_gives(name, r, edition, room, wanted, r);
}

/* A check refuses, and so does a recast, whatever edition it is asked for and whether it has room: 1 to 7 come before 8 and 9. */
static void both_refuse(const char *name, struct record r, uint64_t number, uint64_t place)
{
    check_gives(name, r, number, place);
    recast_refuses(name, r, 3, 200, number, place);
    recast_refuses(name, r, 2, 0, number, place);
}

static void accepts(const char *name, struct record r)
{
    check_gives(name, r, IMMT_OK, 0);
}

static void columns(void)
{
    test(column(6) == 12 && column(42) == 72 && column(44) == 81 && column(65) == 111 && column(66) == 112, "columns of edition 1");
    test(column(86) == 132 && column(87) == 133 && column(91) == 143 && column(94) == 152 && column(101) == 159, "columns of editions 3 and 4");
}

static void refusals_1_to_5(void)
{
    static const unsigned unprintable[] = {0, 9, 10, 13, 31, 127, 128, 255};
    size_t length, at, i, e;
    unsigned byte;
    for (length = 0; length <= LONGEST; length++)
        if (length != IMMT_LENGTH_1 && length != IMMT_LENGTH_3)
            both_refuse("1: length", with_length(blank(4), length), IMMT_REFUSED_LENGTH, 0);
    for (e = 0; e < 3; e++)
        for (at = 1; at <= length_of(editions[e]); at++)
            for (i = 0; i < sizeof unprintable / sizeof unprintable[0]; i++)
                both_refuse("2: unprintable", with_byte(blank(editions[e]), at, unprintable[i]), IMMT_REFUSED_UNPRINTABLE, at);
    both_refuse("2: the lowest of two", with_byte(with_byte(blank(4), 159, 0), 20, 255), IMMT_REFUSED_UNPRINTABLE, 20);
    both_refuse("2 before 3, 4 and 5", with_byte(with_byte(with_byte(blank(1), 1, '9'), 111, '2'), 131, 7), IMMT_REFUSED_UNPRINTABLE, 131);
    for (byte = 32; byte <= 126; byte++) {
        if (byte < '3' || byte > '5')
            both_refuse("3: column 1", with_byte(blank(4), 1, byte), IMMT_REFUSED_FORMAT, 1);
        else
            accepts("column 1", with_byte(blank(4), 1, byte));
        if (byte != '1' && byte != '3' && byte != '4')
            both_refuse("4: column 111", with_byte(blank(1), 111, byte), IMMT_REFUSED_VERSION, 111);
    }
    both_refuse("3 before 4", with_byte(with_byte(blank(4), 1, ' '), 111, '2'), IMMT_REFUSED_FORMAT, 1);
    both_refuse("5: edition 1 in 159 columns", with_length(blank(1), 159), IMMT_REFUSED_EDITION_LENGTH, 0);
    both_refuse("5: edition 3 in 131 columns", with_length(blank(3), 131), IMMT_REFUSED_EDITION_LENGTH, 0);
    both_refuse("5: edition 4 in 131 columns", with_length(blank(4), 131), IMMT_REFUSED_EDITION_LENGTH, 0);
}

static void refusals_6_and_7(void)
{
    size_t e;
    unsigned element;
    for (e = 0; e < 3; e++)
        for (element = 2; element <= last_of(editions[e]); element++) {
            struct record r = with(blank(editions[e]), element, "~");
            /* Column 81 may hold any character, and 65 is column 111. */
            if (element == 44)
                accepts("column 81", r);
            else if (element != 65)
                both_refuse("6: element", r, IMMT_REFUSED_ELEMENT, element);
        }
    both_refuse("6: the lowest of two", with(with(blank(4), 101, "8"), 64, "B"), IMMT_REFUSED_ELEMENT, 64);
    both_refuse("6 before 7", with(with(blank(4), 15, "12"), 101, "8"), IMMT_REFUSED_ELEMENT, 101);
    both_refuse("7: tie 1", with(blank(4), 7, "065"), IMMT_REFUSED_TIE, 1);
    both_refuse("7: tie 2", with_place(blank(1), "0", "000", "0901"), IMMT_REFUSED_TIE, 2);
    both_refuse("7: tie 3", with(blank(4), 16, "0"), IMMT_REFUSED_TIE, 3);
    both_refuse("7: tie 4", with(with(blank(4), 18, "6"), 19, "000"), IMMT_REFUSED_TIE, 4);
    both_refuse("7: tie 5", with(blank(4), 29, "120"), IMMT_REFUSED_TIE, 5);
    both_refuse("7: tie 6", with(with(blank(4), 50, "1"), 51, "000"), IMMT_REFUSED_TIE, 6);
    both_refuse("7: tie 7", with(with(with_byte(blank(4), 1, '5'), 28, "0"), 29, "125"), IMMT_REFUSED_TIE, 7);
    both_refuse("7: tie 8", with(blank(1), 15, "12"), IMMT_REFUSED_TIE, 8);
    both_refuse("7: tie 9", with(blank(3), 93, "012"), IMMT_REFUSED_TIE, 9);
    both_refuse("7: tie 10", with(with(blank(1), 3, "06"), 4, "31"), IMMT_REFUSED_TIE, 10);
    both_refuse("7: tie 10, 1900", with(with(with(blank(4), 2, "1900"), 3, "02"), 4, "29"), IMMT_REFUSED_TIE, 10);
    accepts("29 February 2000", with(with(with(blank(4), 2, "2000"), 3, "02"), 4, "29"));
    accepts("29 February with no year", with(with(blank(4), 3, "02"), 4, "29"));
    accepts("31 with no month", with(with(blank(3), 2, "2003"), 4, "31"));
    both_refuse("7: the lowest of two", with(with(blank(3), 93, "012"), 28, "0"), IMMT_REFUSED_TIE, 5);
    both_refuse("7: 9 before 10", with(with(with(blank(3), 3, "06"), 4, "31"), 93, "012"), IMMT_REFUSED_TIE, 9);
}

static void refusals_8_and_9(void)
{
    static const uint64_t none[] = {
        0, 2, 5, '1', '3', '4', 257, 259, 260, UINT64_C(0x10004), UINT64_C(0x100000001), UINT64_C(0x100000003), UINT64_C(0x100000004),
        UINT64_C(0x8000000000000004), UINT64_MAX};
    size_t i, room, from, to;
    for (i = 0; i < sizeof none / sizeof none[0]; i++) {
        recast_refuses("8: edition", blank(4), none[i], 200, IMMT_REFUSED_EDITION, 0);
        recast_refuses("8 before 9", blank(1), none[i], 0, IMMT_REFUSED_EDITION, 0);
    }
    for (from = 0; from < 3; from++)
        for (to = 0; to < 3; to++)
            for (room = 0; room <= LONGEST; room++)
                if (room < length_of(editions[to]))
                    recast_refuses("9: room", blank(editions[from]), editions[to], room, IMMT_REFUSED_ROOM, 0);
                else
                    recast_gives("room", blank(editions[from]), editions[to], room, (struct answer){IMMT_OK, 0, 0, 0}, blank(editions[to]));
    recast_refuses("9 says no losses", with(blank(4), 43, "GB"), 1, 130, IMMT_REFUSED_ROOM, 0);
    recast_refuses("9 at 158", with(blank(1), 43, "02"), 4, 158, IMMT_REFUSED_ROOM, 0);
}

static void losses(void)
{
    unsigned element;
    struct record all = with(blank(4), 14, "1");
    for (element = 86; element <= 101; element++) {
        /* iw is there for RWS, which needs it; it is kept. */
        struct record r = with(with(blank(4), 14, "1"), element, element == 86 ? "1" : &"000"[3 - width(element)]);
        recasts("a column that edition 1 lacks", r, 1, element, 0, with(blank(1), 14, "1"));
        recasts("a column that edition 3 has", r, 3, 0, 0, with_byte(r, 111, '3'));
        memcpy(all.bytes + column(element) - 1, r.bytes + column(element) - 1, width(element));
    }
    recast_gives("all of 86..101", all, 1, 131, (struct answer){IMMT_OK, 0, 0, UINT64_C(0x1FFFE00000)}, with(blank(1), 14, "1"));
    recasts("the highest bit of the first word", with(blank(4), 64, "A"), 1, 64, 0, blank(1));
    recasts("country", with(blank(3), 43, "GB"), 1, 43, 0, blank(1));
    recasts("both words", with(with(blank(4), 43, "GB"), 101, "9"), 1, 43, 101, blank(1));
    recasts("to its own edition", with(with(blank(4), 40, "1"), 43, "GB"), 4, 0, 0, with(with(blank(4), 40, "1"), 43, "GB"));
    recasts("source and country", with(with_place(with(blank(1), 40, "1"), "3", "065", "0795"), 43, "02"), 4, 40, 43,
            with_place(blank(4), "1", "065", "0795"));
}

/* The worked cases, as far as they are about a check or a recast. */
static void worked_cases(void)
{
    recasts("P1", with_place(blank(4), "3", "065", "0795"), 1, 0, 0, with_place(blank(1), "8", "065", "0795"));
    recasts("P2", with_place(blank(1), "3", "065", "0795"), 4, 0, 0, with_place(blank(4), "1", "065", "0795"));
    accepts("P3", with_place(blank(1), "3", "065", "0900"));
    both_refuse("P3", with_place(blank(1), "3", "065", "0901"), IMMT_REFUSED_TIE, 2);
    recasts("P4", with_place(blank(1), "2", "000", "1800"), 4, 0, 0, with_place(blank(4), "1", "000", "1800"));
    both_refuse("P5", with(with(blank(4), 16, "1"), 17, "000"), IMMT_REFUSED_TIE, 3);
    accepts("P5", with(with(blank(4), 16, "1"), 17, "001"));
    accepts("P6", with(blank(4), 20, "0132"));
    accepts("P6", with(blank(4), 20, "9987"));
    both_refuse("P6", with(blank(4), 20, "1000"), IMMT_REFUSED_ELEMENT, 20);
    accepts("P7", with(with(with_byte(blank(4), 1, '4'), 16, "0"), 17, "235"));
    both_refuse("P7", with(with(with_byte(blank(4), 1, '4'), 16, "0"), 17, "234"), IMMT_REFUSED_TIE, 7);
    accepts("P8", with(blank(4), 11, "50"));
    accepts("P8", with(blank(4), 11, "56"));
    both_refuse("P8", with(blank(4), 11, "51"), IMMT_REFUSED_ELEMENT, 11);
    both_refuse("P8", with(blank(4), 11, "55"), IMMT_REFUSED_ELEMENT, 11);
    both_refuse("P9", with(blank(3), 66, "6"), IMMT_REFUSED_ELEMENT, 66);
    recasts("P9", with(blank(4), 66, "6"), 3, 66, 0, blank(3));
    both_refuse("P10", with(blank(4), 15, "12"), IMMT_REFUSED_TIE, 8);
    recasts("P11", with(blank(3), 41, "4"), 4, 41, 0, blank(4));
    accepts("P12", with(blank(4), 42, "ABC"));
    both_refuse("P12", with(blank(4), 42, "AB"), IMMT_REFUSED_ELEMENT, 42);
    both_refuse("P12", with(blank(4), 42, "A BC"), IMMT_REFUSED_ELEMENT, 42);
}

/* Recasts into a guarded buffer with room for every edition, and hands out the result: 1 where it is made and writes the result and no more. */
static int recast_into(struct record *result, const struct record *r, uint64_t edition, struct answer *a)
{
    uint8_t block[GUARD + IMMT_LENGTH_MOST + GUARD], expected[sizeof block];
    size_t i;
    for (i = 0; i < sizeof block; i++)
        expected[i] = block[i] = (uint8_t)(128 + i % 101);
    a->place = a->low = a->high = unset;
    a->number = immt_recast(r->bytes, r->length, edition, block + GUARD, IMMT_LENGTH_MOST, &a->place, &a->low, &a->high);
    *result = blank(edition);
    memcpy(result->bytes, block + GUARD, result->length);
    memcpy(expected + GUARD, block + GUARD, result->length);
    return a->number == IMMT_OK && a->place == 0 && memcmp(block, expected, sizeof block) == 0;
}

/* Whether each element came home: blank where it was lost, column 12 with this digit, every other with its first characters. */
static int each_came_home(const struct record *r, const struct record *home, struct answer first, char digit)
{
    unsigned element;
    for (element = 1; element <= last_of((uint64_t)(r->bytes[110] - '0')); element++) {
        const uint8_t *before = r->bytes + column(element) - 1, *after = home->bytes + column(element) - 1;
        if (IMMT_LOST(first.low, first.high, element))
            before = (const uint8_t *)"       ";
        if (element == 6 ? after[0] != (uint8_t)digit : memcmp(before, after, width(element)) != 0)
            return 0;
    }
    return 1;
}

/* There, home and there again: the first recast loses this, the others nothing, and column 12 comes home with this digit. */
static void comes_home(struct record r, uint64_t edition, struct answer lost, char digit)
{
    struct record there, home, again;
    struct answer first, second, third;
    uint64_t own = (uint64_t)(r.bytes[110] - '0');
    int made = recast_into(&there, &r, edition, &first) && recast_into(&home, &there, own, &second) && recast_into(&again, &home, edition, &third);
    unsigned before = failures;
    test(made, "there and back: the recasts and the bytes around them");
    if (made) {
        test(first.low == lost.low && first.high == lost.high, "there and back: what the first recast loses");
        test(second.low == 0 && second.high == 0 && third.low == 0 && third.high == 0, "there and back: the others lose nothing");
        test(each_came_home(&r, &home, first, digit), "there and back: the elements");
        test(memcmp(again.bytes, there.bytes, sizeof there.bytes) == 0, "there and back: the third gives what the first gave");
    }
    if (failures > before)
        printf("  from %" PRIu64 " to %" PRIu64 " with %.8s in columns 12 to 19\n", own, edition, (const char *)r.bytes + 11);
}

/* What an edition holds that another lacks or reads otherwise, and some elements that every edition has. */
static struct record rich(uint64_t edition)
{
    struct record r = with(with(with(with(blank(edition), 2, "2003"), 14, "1"), 40, "1"), 41, "4");
    unsigned element;
    r = with(with(with(r, 20, "0132"), 42, "ABCD"), 43, edition == 1 ? "02" : "GB");
    r = with(r, 64, edition == 4 ? "A" : "8");
    for (element = 66; element <= last_of(edition); element++)
        if (element == 86)
            r = with(r, element, edition == 4 ? "6" : "5");
        else if (element >= 87 && element <= 93)
            r = with(r, element, &"012"[3 - width(element)]);
        else
            r = with(r, element, edition == 4 ? "7" : "9");
    return r;
}

/* A place by its columns 12 to 19, and the digit that comes home from an edition that counts the other way: octants or quadrants. */
struct place {
    const char *text;
    char home;
};

static void there_and_back(void)
{
    /* A plain place, the equator, 0.0, 90.0 E and W, 180.0, the equator at one of these, and no place at all. */
    static const struct place octants[] = {{"30650795", '3'}, {"61231234", '6'}, {"80000100", '3'}, {"60001000", '1'}, {"31000000", '0'},
                                           {"81000000", '5'}, {"31000900", '2'}, {"11000900", '0'}, {"21001800", '1'}, {"71001800", '6'},
                                           {"80000000", '0'}, {"80000900", '2'}, {"60001800", '1'}, {"        ", ' '}};
    static const struct place quadrants[] = {{"30650795", '3'}, {"51231234", '5'}, {"30000100", '1'}, {"70001000", '5'}, {"71000000", '1'},
                                             {"51000000", '3'}, {"11000900", '1'}, {"71000900", '7'}, {"71001800", '1'}, {"51001800", '3'},
                                             {"50000000", '1'}, {"70000900", '5'}, {"30001800", '1'}, {"        ", ' '}};
    /* What a rich record loses, by the edition that it is of and the one asked for. */
    static const struct answer lost[3][3] = {
        {{IMMT_OK, 0, 0, 0},                                                 /* 1 to 1 */
         {IMMT_OK, 0, UINT64_C(0x40000000000), 0},                           /* 1 to 3: 43 */
         {IMMT_OK, 0, UINT64_C(0x58000000000), 0}},                          /* 1 to 4: 40, 41, 43 */
        {{IMMT_OK, 0, UINT64_C(0x40000000000), UINT64_C(0x1FFFE00000)},      /* 3 to 1: 43, 86..101 */
         {IMMT_OK, 0, 0, 0},                                                 /* 3 to 3 */
         {IMMT_OK, 0, UINT64_C(0x18000000000), 0}},                          /* 3 to 4: 40, 41 */
        {{IMMT_OK, 0, UINT64_C(0x8000058000000000), UINT64_C(0x1FFFFFFFFE)}, /* 4 to 1: 40, 41, 43, 64, 66..101 */
         {IMMT_OK, 0, UINT64_C(0x8000018000000000), UINT64_C(0x1FE03FFFFE)}, /* 4 to 3: 40, 41, 64, 66..86, 94..101 */
         {IMMT_OK, 0, 0, 0}}};                                               /* 4 to 4 */
    size_t from, to, i;
    for (from = 0; from < 3; from++)
        for (to = 0; to < 3; to++)
            for (i = 0; i < sizeof octants / sizeof octants[0]; i++) {
                struct place place = editions[from] == 1 ? octants[i] : quadrants[i];
                char home = (editions[from] == 1) != (editions[to] == 1) ? place.home : place.text[0];
                comes_home(with(blank(editions[from]), 6, place.text), editions[to], (struct answer){IMMT_OK, 0, 0, 0}, home);
                comes_home(with(rich(editions[from]), 6, place.text), editions[to], lost[from][to], home);
            }
}

int main(void)
{
    columns();
    refusals_1_to_5();
    refusals_6_and_7();
    refusals_8_and_9();
    losses();
    worked_cases();
    there_and_back();
    printf("tests %u failed %u\n", tried, failures);
    return failures == 0 ? 0 : 1;
}
