/*
 * Tests immt.h itself: it is compiled as C and as C++, with every warning an error, and what its macros say of a loss set is tried in both.
 *
 * The header is included twice, for its guard. The one call is there so that a C++ program links too. Ends with 'tests N failed M', as
 * test.c does.
 */
#include <stdio.h>

#include "immt.h"
#include "immt.h"

static unsigned tried, failures;

static void test(int holds, const char *name)
{
    tried++;
    if (!holds) {
        failures++;
        printf("failed: %s\n", name);
    }
}

static void one_element(unsigned element)
{
    uint64_t low = element <= 64 ? UINT64_C(1) << (element - 1) : 0;
    uint64_t high = element <= 64 ? 0 : UINT64_C(1) << (element - 65);
    unsigned other, turns = 0;
    for (other = 1; other <= IMMT_LAST_4; other++)
        test(IMMT_LOST(low, high, other) == (other == element), "IMMT_LOST");
    test(IMMT_LOST_COUNT(low, high) == 1, "IMMT_LOST_COUNT");
    IMMT_FOR_EACH_LOST(other, low, high)
        turns += other == element ? 1 : 1000;
    test(turns == 1 && other == 0, "IMMT_FOR_EACH_LOST");
}

static void many_elements(void)
{
    uint64_t low = UINT64_MAX, high = UINT64_MAX >> 27;
    unsigned element, turns = 0;
    IMMT_FOR_EACH_LOST(element, low, high)
        turns = element == turns + 1 ? element : 1000;
    test(turns == 101 && IMMT_LOST_COUNT(low, high) == 101, "all elements, rising");
    IMMT_FOR_EACH_LOST(element, 0, 0)
        turns = 0;
    test(turns == 101 && IMMT_LOST_COUNT(0, 0) == 0, "no losses");
    test(IMMT_LOST(0, ~(UINT64_MAX >> 1), 128) && !IMMT_LOST(UINT64_MAX, UINT64_MAX >> 1, 128), "the highest bit");
    /* A number is taken whole: 2^32 + 1 is not 1. */
    test(!IMMT_LOST(low, high, 0) && !IMMT_LOST(low, high, 129) && !IMMT_LOST(low, high, UINT64_C(0x100000001)), "no such element");
}

static void arguments(void)
{
    uint64_t low = 2, high = 0, element = 1;
    test(IMMT_LOST(low, high, ++element) && element == 2, "an argument is evaluated once");
    test(IMMT_LOST(low | 1, high & 1, 1 + 0), "an argument is an expression");
}

/* A number that the preprocessor can compare. */
#if IMMT_VERSION < 10000
#error "the version is older than the first"
#endif

static void version(void)
{
    test(IMMT_VERSION / 10000 == IMMT_VERSION_MAJOR, "the major number");
    test(IMMT_VERSION / 100 % 100 == IMMT_VERSION_MINOR, "the minor number");
    test(IMMT_VERSION % 100 == IMMT_VERSION_PATCH, "the patch number");
}

static void one_call(void)
{
    uint64_t place = 7, low = 7, high = 7;
    uint64_t number = immt_recast(NULL, 0, 4, NULL, 0, &place, &low, &high);
    test(number == IMMT_REFUSED_LENGTH && place == 0 && low == 0 && high == 0, "a recast of nothing");
    place = 7;
    test(immt_check(NULL, 0, &place) == IMMT_REFUSED_LENGTH && place == 0, "a check of nothing");
}

int main(void)
{
    unsigned element;
    for (element = 1; element <= IMMT_LAST_4; element++)
        one_element(element);
    many_elements();
    arguments();
    version();
    one_call();
    printf("tests %u failed %u\n", tried, failures);
    return failures == 0 ? 0 : 1;
}
