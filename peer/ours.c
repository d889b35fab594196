/*
 * ours - answers trial calls with the proved implementation, a line each.
 *
 * Requests come on standard input and answers go to standard output, in the protocol that src/calls.rs describes, so that what this program
 * writes can be held byte for byte against what `peer calls` writes. It judges no record itself: it takes a line apart, lends the memory,
 * makes the call, or one for every date of a year or for every recast of a record that goes there and back, and prints what came back. Link it
 * with libdesk.a (check and recast: the calls that a host makes) and libtrial.a (the others), which `rt lib` writes in crates/desk and
 * crates/trial.
 *
 * One thing of the protocol does not come from a call: where the call sign stands. The proved call shows a part of the caller's own record,
 * which a function for C cannot return, so trial_show copies it. PLACE is 72 where the record has the copied bytes there, and 0 elsewhere.
 *
 * What the protocol has no words for is answered with `!`, which the peer never writes. In the place of a reading it says that the numbers are
 * of no case or no kind, or are not 0 where the case does not use them. At the end of a line it says that a read wrote beyond its readings, or
 * that with too few numbers lent it wrote at all or answered otherwise.
 */
#include <inttypes.h>
#include <stdio.h>
#include <stdlib.h>
#include <string.h>

#include "immt.h"

/* libtrial.a; crates/trial/src/lib.rt says what the numbers mean */
uint64_t trial_read(const uint8_t *record, size_t length, uint64_t *numbers, size_t number_count, int64_t *amounts, size_t amount_count,
                    uint64_t *edition, uint64_t *place);
uint64_t trial_show(const uint8_t *record, size_t length, uint8_t *buffer, size_t room);
uint64_t trial_write(const uint64_t *numbers, size_t number_count, const int64_t *amounts, size_t amount_count, uint64_t edition,
                     uint8_t *buffer, size_t room, uint64_t *place);

enum { ELEMENTS = 101, PARTS = 4, NUMBERS = PARTS * ELEMENTS, MOST_ROOM = 4096, GUARD = 16, CALL_SIGN_COLUMN = 72, PIECE = 1 << 16 };

enum { YEAR_COLUMN = 2, YEAR_WIDTH = 4, MONTH_COLUMN = 6, DAY_COLUMN = 8, VERSION_COLUMN = 111, CALENDAR_TIE = 10 };

enum { MISSING, CODE, TEXT, AMOUNT, PLACE };

enum { EDITIONS = 3, LEGS = 3 };

enum { KINDS = 4 };

static const char *const kinds[KINDS] = {"m", "c", "im", "ic"};

static void fail(const char *what)
{
    fprintf(stderr, "ours: %s\n", what);
    exit(1);
}

/* Bytes that grow. */
struct bytes {
    uint8_t *at;
    size_t length;
    size_t room;
};

static void reserve(struct bytes *bytes, size_t more)
{
    if (bytes->room - bytes->length >= more)
        return;
    bytes->room = 2 * bytes->room + more;
    bytes->at = realloc(bytes->at, bytes->room);
    if (bytes->at == NULL)
        fail("out of memory");
}

static void put(struct bytes *bytes, const void *from, size_t count)
{
    if (count == 0)
        return;
    reserve(bytes, count);
    memcpy(bytes->at + bytes->length, from, count);
    bytes->length += count;
}

static void put_text(struct bytes *bytes, const char *text)
{
    put(bytes, text, strlen(text));
}

static void put_number(struct bytes *bytes, uint64_t number)
{
    char digits[24];
    put(bytes, digits, (size_t)sprintf(digits, "%" PRIu64, number));
}

static void put_signed(struct bytes *bytes, int64_t number)
{
    char digits[24];
    put(bytes, digits, (size_t)sprintf(digits, "%" PRId64, number));
}

static void put_word(struct bytes *bytes, uint64_t word)
{
    char digits[24];
    put(bytes, digits, (size_t)sprintf(digits, "%016" PRIx64, word));
}

static void put_hexadecimal(struct bytes *bytes, const uint8_t *from, size_t count)
{
    static const char digits[] = "0123456789abcdef";
    if (count == 0)
        put_text(bytes, "-");
    reserve(bytes, 2 * count);
    for (size_t i = 0; i < count; i++) {
        bytes->at[bytes->length++] = (uint8_t)digits[from[i] >> 4];
        bytes->at[bytes->length++] = (uint8_t)digits[from[i] & 15];
    }
}

/* A part of a line: the bytes from `at` up to, not including, `end`. */
struct part {
    const uint8_t *at;
    const uint8_t *end;
};

static int is(struct part part, const char *text)
{
    size_t length = strlen(text);
    return (size_t)(part.end - part.at) == length && memcmp(part.at, text, length) == 0;
}

/* Splits at the first such byte, which goes to neither; false where there is none. */
static int split(struct part whole, uint8_t byte, struct part *before, struct part *after)
{
    size_t length = (size_t)(whole.end - whole.at);
    const uint8_t *found = length == 0 ? NULL : memchr(whole.at, byte, length);
    if (found == NULL)
        return 0;
    *before = (struct part){whole.at, found};
    *after = (struct part){found + 1, whole.end};
    return 1;
}

/* What is left of a request; `more` is false once the last field was taken. */
struct fields {
    struct part rest;
    int more;
};

static int next(struct fields *fields, struct part *field)
{
    if (!fields->more)
        return 0;
    if (!split(fields->rest, ' ', field, &fields->rest)) {
        *field = fields->rest;
        fields->more = 0;
    }
    return 1;
}

static int number_of(struct part part, uint64_t *number)
{
    uint64_t value = 0;
    if (part.at == part.end)
        return 0;
    for (; part.at < part.end; part.at++) {
        if (*part.at < '0' || *part.at > '9')
            return 0;
        uint64_t digit = (uint64_t)(*part.at - '0');
        if (value > (UINT64_MAX - digit) / 10)
            return 0;
        value = 10 * value + digit;
    }
    *number = value;
    return 1;
}

static int signed_of(struct part part, int64_t *number)
{
    const uint64_t lowest = (uint64_t)INT64_MAX + 1;
    uint64_t value;
    int below = part.at < part.end && *part.at == '-';
    if (below)
        part.at++;
    if (!number_of(part, &value) || value > (below ? lowest : lowest - 1))
        return 0;
    *number = !below ? (int64_t)value : value == lowest ? INT64_MIN : -(int64_t)value;
    return 1;
}

static int digit_of(uint8_t byte)
{
    if (byte >= '0' && byte <= '9')
        return byte - '0';
    return byte >= 'a' && byte <= 'f' ? byte - 'a' + 10 : -1;
}

static int record_of(struct part part, struct bytes *record)
{
    size_t length = (size_t)(part.end - part.at);
    record->length = 0;
    reserve(record, length + 1);
    if (is(part, "-"))
        return 1;
    if (length == 0 || length % 2 != 0)
        return 0;
    for (; part.at < part.end; part.at += 2) {
        int high = digit_of(part.at[0]);
        int low = digit_of(part.at[1]);
        if (high < 0 || low < 0)
            return 0;
        record->at[record->length++] = (uint8_t)(16 * high + low);
    }
    return 1;
}

static int next_number(struct fields *fields, uint64_t *number)
{
    struct part field;
    return next(fields, &field) && number_of(field, number);
}

static int next_room(struct fields *fields, uint64_t *room)
{
    return next_number(fields, room) && *room <= MOST_ROOM;
}

static int last_record(struct fields *fields, struct bytes *record)
{
    struct part field;
    return next(fields, &field) && record_of(field, record) && !fields->more;
}

/* The readings as trial_write takes them and trial_read leaves them, four numbers and an amount for each element, and a guard beyond. */
struct readings {
    uint64_t numbers[NUMBERS + GUARD];
    int64_t amounts[ELEMENTS + GUARD];
};

static int kind_of(struct part part, uint64_t *kind)
{
    for (*kind = 0; *kind < KINDS; ++*kind)
        if (is(part, kinds[*kind]))
            return 1;
    return 0;
}

static int reading_of(struct part part, uint64_t numbers[PARTS], int64_t *amount)
{
    struct part before, after;
    if (part.at == part.end)
        return 0;
    uint8_t letter = *part.at++;
    memset(numbers, 0, PARTS * sizeof *numbers);
    *amount = 0;
    switch (letter) {
    case 'c':
        numbers[0] = CODE;
        return number_of(part, &numbers[1]);
    case 't':
        numbers[0] = TEXT;
        return number_of(part, &numbers[1]);
    case 'a':
        numbers[0] = AMOUNT;
        return split(part, ':', &before, &after) && signed_of(before, amount) && kind_of(after, &numbers[2]);
    case 'p':
        numbers[0] = PLACE;
        return split(part, ':', &before, &after) && signed_of(before, amount) && split(after, ':', &before, &after) &&
               number_of(before, &numbers[2]) && number_of(after, &numbers[3]);
    default:
        return 0;
    }
}

static int last_readings(struct fields *fields, struct readings *readings)
{
    struct part field, before, after;
    uint64_t element;
    memset(readings, 0, sizeof *readings);
    while (next(fields, &field)) {
        if (is(field, "-"))
            continue;
        if (!split(field, '=', &before, &after) || !number_of(before, &element) || element < 1 || element > ELEMENTS)
            return 0;
        if (!reading_of(after, &readings->numbers[(element - 1) * PARTS], &readings->amounts[element - 1]))
            return 0;
    }
    return 1;
}

/*
 * What a call answers: the buffer with its guard, and the edition and the readings of a read; there are no readings for any other call. `broken`
 * where the read wrote what it may not. What no call sets is 0.
 */
struct answer {
    uint64_t number, place, low, high;
    const uint8_t *buffer;
    size_t length;
    uint64_t edition;
    const struct readings *readings;
    int broken;
};

/* Puts a reading as reading_of takes it. */
static void put_reading(struct bytes *output, const uint64_t numbers[PARTS], int64_t amount)
{
    int first = numbers[1] != 0, second = numbers[2] != 0, third = numbers[3] != 0;
    if (numbers[0] == CODE && !second && !third && amount == 0) {
        put_text(output, "c");
        put_number(output, numbers[1]);
    } else if (numbers[0] == TEXT && !second && !third && amount == 0) {
        put_text(output, "t");
        put_number(output, numbers[1]);
    } else if (numbers[0] == AMOUNT && !first && !third && numbers[2] < KINDS) {
        put_text(output, "a");
        put_signed(output, amount);
        put_text(output, ":");
        put_text(output, kinds[numbers[2]]);
    } else if (numbers[0] == PLACE && !first) {
        put_text(output, "p");
        put_signed(output, amount);
        put_text(output, ":");
        put_number(output, numbers[2]);
        put_text(output, ":");
        put_number(output, numbers[3]);
    } else {
        put_text(output, "!");
    }
}

static void put_readings(struct bytes *output, const struct readings *readings)
{
    static const uint64_t missing[PARTS] = {MISSING, 0, 0, 0};
    const char *before = "";
    for (size_t i = 0; i < ELEMENTS; i++) {
        const uint64_t *numbers = &readings->numbers[PARTS * i];
        if (memcmp(numbers, missing, sizeof missing) == 0 && readings->amounts[i] == 0)
            continue;
        put_text(output, before);
        put_number(output, i + 1);
        put_text(output, "=");
        put_reading(output, numbers, readings->amounts[i]);
        before = " ";
    }
    if (*before == 0)
        put_text(output, "-");
}

static void put_answer(struct bytes *output, const struct answer *answer)
{
    put_number(output, answer->number);
    put_text(output, " ");
    put_number(output, answer->place);
    put_text(output, " ");
    put_word(output, answer->low);
    put_text(output, " ");
    put_word(output, answer->high);
    put_text(output, " ");
    put_hexadecimal(output, answer->buffer, answer->length);
    if (answer->readings == NULL)
        return;
    put_text(output, " ");
    put_number(output, answer->edition);
    put_text(output, " ");
    put_readings(output, answer->readings);
    if (answer->broken)
        put_text(output, " !");
}

static uint8_t memory[MOST_ROOM + GUARD];

/* Fills the lent buffer and its guard as no record does; the part after ROOM belongs to nobody. */
static void lend(struct answer *answer, uint8_t *buffer, size_t room)
{
    answer->buffer = buffer;
    answer->length = room + GUARD;
    for (size_t i = 0; i < answer->length; i++)
        buffer[i] = (uint8_t)(128 + i % 128);
}

/* The numbers that a recast must set are set to others before. */
static void recast(struct answer *answer, struct part record, uint64_t edition, uint8_t *buffer, size_t room)
{
    memset(answer, 0, sizeof *answer);
    lend(answer, buffer, room);
    answer->place = answer->low = answer->high = UINT64_MAX;
    answer->number = immt_recast(record.at, (size_t)(record.end - record.at), edition, buffer, room, &answer->place, &answer->low,
                                 &answer->high);
}

static void show(struct answer *answer, const struct bytes *record)
{
    static struct bytes shown;
    shown.length = 0;
    reserve(&shown, record->length + 1);
    answer->buffer = shown.at;
    answer->length = (size_t)trial_show(record->at, record->length, shown.at, record->length);
    if (answer->length > record->length)
        fail("the call sign is longer than its record");
    if (answer->length > 0 && answer->length + CALL_SIGN_COLUMN - 1 <= record->length &&
        memcmp(shown.at, record->at + CALL_SIGN_COLUMN - 1, answer->length) == 0)
        answer->place = CALL_SIGN_COLUMN;
}

/* What no reading holds, and tells its position. */
static uint64_t unread_number(size_t i)
{
    return UINT64_MAX - i;
}

static int64_t unread_amount(size_t i)
{
    return INT64_MIN + (int64_t)i;
}

/* Whether all that is lent for the elements after so many, and the guard, is as it was before the call. */
static int unread_after(const struct readings *readings, size_t elements)
{
    for (size_t i = PARTS * elements; i < NUMBERS + GUARD; i++)
        if (readings->numbers[i] != unread_number(i))
            return 0;
    for (size_t i = elements; i < ELEMENTS + GUARD; i++)
        if (readings->amounts[i] != unread_amount(i))
            return 0;
    return 1;
}

/* How many numbers and amounts are lent to a read: enough or more, or too few of either. */
struct counts {
    size_t numbers, amounts;
};

static const struct counts enough[] = {{NUMBERS, ELEMENTS}, {NUMBERS + 1, ELEMENTS}, {NUMBERS, ELEMENTS + 1}, {NUMBERS + 7, ELEMENTS + 3}};

static const struct counts too_few[] = {{NUMBERS - 1, ELEMENTS}, {NUMBERS, ELEMENTS - 1}, {NUMBERS + 7, 0}, {0, ELEMENTS + 3}};

static uint64_t read_into(struct readings *readings, struct counts lent, const struct bytes *record, uint64_t *edition, uint64_t *place)
{
    *edition = *place = UINT64_MAX;
    return trial_read(record->at, record->length, readings->numbers, lent.numbers, readings->amounts, lent.amounts, edition, place);
}

/*
 * Reads a record, about half of them into too few numbers or amounts before. How many are lent goes by the bytes of the record, so that a
 * request is answered alike wherever it stands.
 */
static void read_all(struct answer *answer, const struct bytes *record)
{
    static struct readings readings;
    size_t sum = 0;
    uint64_t number = 0, edition = 0, place = 0;
    for (size_t i = 0; i < record->length; i++)
        sum += record->at[i];
    for (size_t i = 0; i < NUMBERS + GUARD; i++)
        readings.numbers[i] = unread_number(i);
    for (size_t i = 0; i < ELEMENTS + GUARD; i++)
        readings.amounts[i] = unread_amount(i);
    int twice = sum / 16 % 2 == 0;
    if (twice) {
        number = read_into(&readings, too_few[sum % 4], record, &edition, &place);
        answer->broken = !unread_after(&readings, 0);
    }
    answer->number = read_into(&readings, enough[sum / 4 % 4], record, &answer->edition, &answer->place);
    answer->readings = &readings;
    if (!unread_after(&readings, ELEMENTS))
        answer->broken = 1;
    if (twice && (number != answer->number || edition != answer->edition || place != answer->place))
        answer->broken = 1;
}

/* Makes the call that a request asks for; false where it asks for none. The numbers that a call must set are set to others before. */
static int call(struct part request, struct answer *answer)
{
    static struct bytes record;
    static struct readings readings;
    const uint64_t unset = UINT64_MAX;
    struct fields fields = {request, 1};
    struct part name;
    uint64_t number, room;
    memset(answer, 0, sizeof *answer);
    next(&fields, &name);
    if (is(name, "c")) {
        if (!last_record(&fields, &record))
            return 0;
        answer->place = unset;
        answer->number = immt_check(record.at, record.length, &answer->place);
    } else if (is(name, "r")) {
        if (!last_record(&fields, &record))
            return 0;
        read_all(answer, &record);
    } else if (is(name, "s")) {
        if (!last_record(&fields, &record))
            return 0;
        show(answer, &record);
    } else if (is(name, "t")) {
        if (!next_number(&fields, &number) || !next_room(&fields, &room) || !last_record(&fields, &record))
            return 0;
        recast(answer, (struct part){record.at, record.at + record.length}, number, memory, (size_t)room);
    } else if (is(name, "w")) {
        if (!next_number(&fields, &number) || !next_room(&fields, &room) || !last_readings(&fields, &readings))
            return 0;
        lend(answer, memory, (size_t)room);
        answer->place = unset;
        answer->number = trial_write(readings.numbers, NUMBERS, readings.amounts, ELEMENTS, number, memory, (size_t)room,
                                     &answer->place);
    } else {
        return 0;
    }
    return 1;
}

static size_t length_of(uint64_t edition)
{
    return edition == 1 ? IMMT_LENGTH_1 : edition == 3 ? IMMT_LENGTH_3 : IMMT_LENGTH_4;
}

/*
 * Recasts the record of a request to each edition, from there to its own and to that edition again, and puts every answer; false where it
 * asks for none. What a recast left is the record of the next, which writes to memory of its own.
 */
static int there_and_back(struct part request, struct bytes *output)
{
    static const uint64_t editions[EDITIONS] = {1, 3, 4};
    static struct bytes record;
    static uint8_t lent[LEGS][IMMT_LENGTH_MOST + GUARD];
    struct fields fields = {request, 1};
    struct part name;
    struct answer answer;
    const char *before = "";
    next(&fields, &name);
    if (!is(name, "b") || !last_record(&fields, &record))
        return 0;
    memset(&answer, 0, sizeof answer);
    answer.place = UINT64_MAX;
    answer.number = immt_check(record.at, record.length, &answer.place);
    if (answer.number != IMMT_OK) {
        put_answer(output, &answer);
        return 1;
    }
    if (record.length < VERSION_COLUMN)
        fail("a record without its column 111 is accepted");
    uint64_t own = (uint64_t)(record.at[VERSION_COLUMN - 1] - '0');
    for (size_t i = 0; i < EDITIONS; i++) {
        const uint64_t asked[LEGS] = {editions[i], own, editions[i]};
        struct part left = {record.at, record.at + record.length};
        for (size_t leg = 0; leg < LEGS; leg++) {
            recast(&answer, left, asked[leg], lent[leg], IMMT_LENGTH_MOST);
            put_text(output, before);
            put_answer(output, &answer);
            before = " ";
            if (answer.number != IMMT_OK)
                break;
            left = (struct part){lent[leg], lent[leg] + length_of(asked[leg])};
        }
    }
    return 1;
}

static void put_two_digits(uint8_t *at, int number)
{
    at[0] = (uint8_t)(number == 0 ? ' ' : '0' + number / 10);
    at[1] = (uint8_t)(number == 0 ? ' ' : '0' + number % 10);
}

/* Checks every day of every month of the year that a request asks for, and puts a character for each; false where it asks for none. */
static int calendar(struct part request, struct bytes *output)
{
    const uint64_t unset = UINT64_MAX;
    struct fields fields = {request, 1};
    struct part name, year;
    uint64_t edition, number, place;
    uint8_t record[IMMT_LENGTH_MOST];
    next(&fields, &name);
    if (!is(name, "d") || !next_number(&fields, &edition) || !next(&fields, &year) || fields.more)
        return 0;
    if (edition != 1 && edition != 3 && edition != 4)
        return 0;
    size_t length = length_of(edition);
    memset(record, ' ', length);
    record[0] = '3';
    record[VERSION_COLUMN - 1] = (uint8_t)('0' + edition);
    if (!is(year, "-")) {
        if (year.end - year.at != YEAR_WIDTH || !number_of(year, &number))
            return 0;
        memcpy(record + YEAR_COLUMN - 1, year.at, YEAR_WIDTH);
    }
    for (int month = 0; month <= 12; month++) {
        put_two_digits(record + MONTH_COLUMN - 1, month);
        if (month > 0)
            put_text(output, " ");
        for (int day = 0; day <= 31; day++) {
            put_two_digits(record + DAY_COLUMN - 1, day);
            place = unset;
            number = immt_check(record, length, &place);
            put_text(output, number == 0 && place == 0 ? "." : number == IMMT_REFUSED_TIE && place == CALENDAR_TIE ? "x" : "?");
        }
    }
    return 1;
}

static void flush(struct bytes *output)
{
    if (output->length > 0 && fwrite(output->at, 1, output->length, stdout) != output->length)
        fail("cannot write");
    output->length = 0;
}

static void respond(struct bytes *output, struct part request)
{
    struct answer answer;
    if (call(request, &answer))
        put_answer(output, &answer);
    else if (!there_and_back(request, output) && !calendar(request, output))
        put_text(output, "?");
    put_text(output, "\n");
    if (output->length >= PIECE)
        flush(output);
}

int main(void)
{
    struct bytes input = {NULL, 0, 0};
    struct bytes output = {NULL, 0, 0};
    size_t got;
    do {
        reserve(&input, PIECE);
        got = fread(input.at + input.length, 1, PIECE, stdin);
        input.length += got;
        struct part rest = {input.at, input.at + input.length};
        struct part line;
        while (split(rest, '\n', &line, &rest))
            respond(&output, line);
        input.length = (size_t)(rest.end - rest.at);
        memmove(input.at, rest.at, input.length);
    } while (got > 0);
    if (ferror(stdin))
        fail("cannot read");
    if (input.length > 0)
        respond(&output, (struct part){input.at, input.at + input.length});
    flush(&output);
    if (fflush(stdout) != 0)
        fail("cannot write");
    free(input.at);
    free(output.at);
    return 0;
}
