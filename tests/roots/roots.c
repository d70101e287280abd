/*
 * The integer root of the archive beside "greatest whole number whose square is at most n", tested in 128
 * bits, and beside the square root of the C library with its fraction dropped. Each root is also taken in a
 * pair, first and second, with the number before. Prints how many numbers were compared; ends with 1 at the
 * first that differs.
 */
#define _XOPEN_SOURCE 700
#include <float.h>
#include <inttypes.h>
#include <math.h>
#include <stdint.h>
#include <stdio.h>
#include <stdlib.h>

uint64_t root_of(uint64_t n);
uint64_t first_of(uint64_t n, uint64_t m);
uint64_t second_of(uint64_t n, uint64_t m);

__extension__ typedef unsigned __int128 wide;

static uint64_t compared;

static int square_at_most(uint64_t r, uint64_t n) { return (wide)r * r <= n; }

/*
 * A long double of 64 bits takes n as it is. Below a whole number m its values are 2^-32 apart or less, and
 * the root of m*m - 1 lies more than 2^-33 below m, so it is not rounded up to m.
 */
_Static_assert(LDBL_MANT_DIG == 64, "this comparison is for long doubles of 64 bits");

static uint64_t by_library(uint64_t n) { return (uint64_t)sqrtl((long double)n); }

static void compare(uint64_t n)
{
    static uint64_t before;
    uint64_t r = root_of(n);
    int greatest = square_at_most(r, n) && !square_at_most(r + 1, n);
    int paired = first_of(n, before) == r && second_of(before, n) == r;
    before = n;
    if (!greatest || !paired || r != by_library(n)) {
        printf("root(%" PRIu64 ") is %" PRIu64 ", not %" PRIu64 "\n", n, r, by_library(n));
        exit(1);
    }
    compared++;
}

/* A number and its neighbours, going round at the ends of 64 bits. */
static void compare_about(uint64_t n)
{
    compare(n - 1);
    compare(n);
    compare(n + 1);
}

static void say(const char *which)
{
    printf("%9" PRIu64 " %s\n", compared, which);
    compared = 0;
}

static uint64_t random_word(void)
{
    uint64_t high = (uint32_t)mrand48();
    return high << 32 | (uint32_t)mrand48();
}

int main(int count, char **words)
{
    if (count != 3)
        return 2;
    uint64_t numbers = strtoull(words[1], NULL, 10);
    srand48(strtol(words[2], NULL, 10));
    const uint64_t many = UINT64_C(1) << 20;

    for (uint64_t n = 0; n < many; n++)
        compare(n);
    say("numbers below 2^20");
    for (uint64_t r = 0; r < many; r++)
        compare_about(r * r);
    say("squares of numbers below 2^20 and their neighbours");
    for (uint64_t i = 1; i <= many; i++) {
        uint64_t r = (UINT64_C(1) << 32) - i;
        compare_about(r * r);
    }
    say("squares of the 2^20 numbers below 2^32 and their neighbours");
    for (int k = 0; k < 64; k++)
        compare_about(UINT64_C(1) << k);
    say("powers of two and their neighbours");
    for (uint64_t i = 0; i < many; i++)
        compare((UINT64_C(1) << 60) - many / 2 + i);
    say("numbers about 2^60, where the number of rounds changes");
    for (uint64_t i = 0; i < numbers; i++)
        compare(random_word());
    say("random numbers of 64 bits");
    for (uint64_t i = 0; i < numbers; i++)
        compare(random_word() >> (mrand48() & 63));
    say("random numbers of at most 1 to 64 bits");
    for (uint64_t i = 0; i < numbers / 10; i++) {
        uint64_t r = random_word() >> 32;
        compare_about(r * r);
    }
    say("squares of random numbers and their neighbours");
    puts("roots: no difference");
    return 0;
}
