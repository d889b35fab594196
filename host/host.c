/*
 * host - checks or recasts ships' weather records, a record a line.
 *
 * It shows how a C program uses immt.h, and judges nothing itself: what is a record and what becomes of it is the library's answer, and an
 * edition number is handed over as it was given.
 *
 * A line ends at byte 10 alone, may hold any bytes and may have any length. What stands after the last line end is a line if it is not
 * empty. No record is longer than IMMT_LENGTH_MOST, so one byte more of a line is kept and the rest is passed over: the answer for a
 * line that is too long is the same by any length, and the memory is the same for any input.
 */
#include <errno.h>
#include <inttypes.h>
#include <stdio.h>
#include <string.h>

#include "immt.h"

enum status { ALL_ACCEPTED = 0, SOME_REFUSED = 1, FAILED = 2 };

enum { KEPT = IMMT_LENGTH_MOST + 1 };

struct line {
    uint8_t bytes[KEPT];
    size_t length;
};

struct counts {
    uint64_t records;
    uint64_t refused;
};

static const char usage_text[] =
    "usage: host check [FILE]             says of each record whether it is accepted\n"
    "       host recast EDITION [FILE]    recasts each record to edition 1, 3 or 4\n"
    "       host --help                   prints this\n"
    "\n"
    "FILE, or standard input, holds a record a line. Records are counted from 1.\n"
    "\n"
    "check writes to standard output, for record I,\n"
    "    I ok                      it is accepted\n"
    "    I refused N P             it is not: the number of the refusal and its place\n"
    "recast writes the recast records to standard output, a line each, and to standard error\n"
    "    I ok L E ..               it is recast: how many elements were lost, and which\n"
    "    I refused N P             it is not, and nothing of it is written\n"
    "Both end with 'records N refused M' there.\n"
    "\n"
    "Refusals: 1 length neither 131 nor 159; 2 a byte outside 32..126 (place: its column); 3 column 1\n"
    "not 3, 4, 5; 4 column 111 not 1, 3, 4; 5 length not that edition's; 6 an element neither blank nor\n"
    "legal (place: the element); 7 a tie broken (place: the tie); 8 EDITION not 1, 3, 4.\n"
    "\n"
    "Exit status: 0 all records are accepted, 1 some are refused, 2 wrong usage, or a file that cannot be\n"
    "read or written.\n";

static int wrong_usage(const char *what, const char *word)
{
    fprintf(stderr, "host: %s%s\n%s", what, word, usage_text);
    return FAILED;
}

static int failed(const char *what, const char *name)
{
    fprintf(stderr, "host: cannot %s %s: %s\n", what, name, strerror(errno));
    return FAILED;
}

/* Reads the next line: 1 where there is one, 0 at the end of the input or where it cannot be read. */
static int next_line(FILE *in, struct line *line)
{
    int byte;
    line->length = 0;
    while ((byte = getc(in)) != EOF && byte != '\n')
        if (line->length < KEPT)
            line->bytes[line->length++] = (uint8_t)byte;
    /* A read error ends the input within a line, and half a line is no record. */
    return byte == '\n' || (line->length > 0 && !ferror(in));
}

/* Says of a record that it is refused. Here and below, 0 where that could not be written. */
static int say_refused(FILE *out, uint64_t record, uint64_t number, uint64_t place)
{
    return fprintf(out, "%" PRIu64 " refused %" PRIu64 " %" PRIu64 "\n", record, number, place) >= 0;
}

static int say_losses(FILE *out, uint64_t record, uint64_t low, uint64_t high)
{
    unsigned element;
    if (fprintf(out, "%" PRIu64 " ok %u", record, IMMT_LOST_COUNT(low, high)) < 0)
        return 0;
    IMMT_FOR_EACH_LOST(element, low, high)
        if (fprintf(out, " %u", element) < 0)
            return 0;
    return putc('\n', out) != EOF;
}

static int check_line(const struct line *line, struct counts *counts)
{
    uint64_t place;
    uint64_t number = immt_check(line->bytes, line->length, &place);
    counts->records++;
    if (number == IMMT_OK)
        return printf("%" PRIu64 " ok\n", counts->records) >= 0;
    counts->refused++;
    return say_refused(stdout, counts->records, number, place);
}

static int recast_line(const struct line *line, uint64_t edition, struct counts *counts)
{
    uint8_t recast[IMMT_LENGTH_MOST];
    uint64_t place, low, high;
    uint64_t number = immt_recast(line->bytes, line->length, edition, recast, sizeof recast, &place, &low, &high);
    size_t length = edition == 1 ? IMMT_LENGTH_1 : IMMT_LENGTH_MOST;
    counts->records++;
    if (number != IMMT_OK) {
        counts->refused++;
        return say_refused(stderr, counts->records, number, place);
    }
    return fwrite(recast, 1, length, stdout) == length && putchar('\n') != EOF && say_losses(stderr, counts->records, low, high);
}

/* Checks every line, or recasts it where there is an edition, and says at the end how many there were. */
static int run(FILE *in, const char *name, const uint64_t *edition)
{
    struct line line;
    struct counts counts = {0, 0};
    FILE *report = edition == NULL ? stdout : stderr;
    int written = 1;
    errno = 0;
    while (written && next_line(in, &line))
        written = edition == NULL ? check_line(&line, &counts) : recast_line(&line, *edition, &counts);
    /* Asked before anything is flushed, while errno is still that of the read. */
    if (written && ferror(in))
        return failed("read", name);
    if (written)
        written = fprintf(report, "records %" PRIu64 " refused %" PRIu64 "\n", counts.records, counts.refused) >= 0;
    /* What is still in a buffer can fail as well: a full disk is often first met here. */
    if (fflush(stdout) != 0 || fflush(stderr) != 0 || !written)
        return failed("write", "the answer");
    return counts.refused == 0 ? ALL_ACCEPTED : SOME_REFUSED;
}

/* A whole number in digits that fits in 64 bits: 1 and the number, else 0. strtoull would take a sign and blanks too. */
static int whole_number(const char *text, uint64_t *number)
{
    *number = 0;
    if (*text == '\0')
        return 0;
    for (; *text != '\0'; text++) {
        uint64_t digit = (uint64_t)(*text - '0');
        if (*text < '0' || *text > '9' || *number > (UINT64_MAX - digit) / 10)
            return 0;
        *number = *number * 10 + digit;
    }
    return 1;
}

int main(int argc, char **argv)
{
    uint64_t edition = 0;
    int recasting, status, named;
    FILE *in = stdin;
    const char *name = "standard input";

    if (argc == 2 && strcmp(argv[1], "--help") == 0)
        return fputs(usage_text, stdout) == EOF || fflush(stdout) != 0 ? failed("write", "the usage") : ALL_ACCEPTED;
    if (argc < 2)
        return wrong_usage("check or recast?", "");
    recasting = strcmp(argv[1], "recast") == 0;
    if (!recasting && strcmp(argv[1], "check") != 0)
        return wrong_usage("neither check nor recast: ", argv[1]);
    named = recasting ? 3 : 2;
    if (argc < named)
        return wrong_usage("recast to which edition?", "");
    if (recasting && !whole_number(argv[2], &edition))
        return wrong_usage("no edition number: ", argv[2]);
    if (argc > named + 1)
        return wrong_usage("too many words from ", argv[named + 1]);

    /* The report of a recast goes there line by line, not byte by byte. */
    setvbuf(stderr, NULL, _IOLBF, BUFSIZ);
    if (argc == named + 1) {
        name = argv[named];
        in = fopen(name, "rb");
        if (in == NULL)
            return failed("open", name);
    }
    status = run(in, name, recasting ? &edition : NULL);
    if (in != stdin)
        fclose(in);
    return status;
}
