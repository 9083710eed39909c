/* The three functions of include/truing.h; examples/desk-test builds and runs this. */
#include "../include/truing.h"

#include <inttypes.h>
#include <stdio.h>
#include <string.h>

enum { SHOTS = 3 };

/* distance, drop and sigma of each observation, and the solver's drop there */
static const double shots[SHOTS][3] = {{300, 1.2, 0.1}, {600, 4.35, 0.1}, {900, 9.1, 0.2}};
static const double predicted[SHOTS] = {1.25, 4.2, 9.3};

static uint64_t bits_of(double x)
{
    uint64_t bits;
    memcpy(&bits, &x, 8);
    return bits;
}

static void put(uint8_t *at, double x)
{
    for (int i = 0; i < 8; i++)
        at[i] = (uint8_t)(bits_of(x) >> (8 * i));
}

static double get(const uint8_t *at)
{
    uint64_t bits = 0;
    double x;
    for (int i = 0; i < 8; i++)
        bits |= (uint64_t)at[i] << (8 * i);
    memcpy(&x, &bits, 8);
    return x;
}

static void say(const char *what, double x)
{
    printf("%s %.6f %016" PRIx64 "\n", what, x, bits_of(x));
}

static void say_sum(const char *what, const uint8_t *observations, size_t observations_length, uint32_t priors)
{
    uint8_t replies[8 * SHOTS], out[8];
    for (int i = 0; i < SHOTS; i++)
        put(replies + 8 * i, predicted[i]);
    uint32_t code = truing_objective_sum(2750, 0.31, observations, observations_length, replies, sizeof replies,
                                         priors, 2800, 25, 0.3, 0.02, out, sizeof out);
    if (code == 0)
        say(what, get(out));
    else
        printf("%s refused %" PRIu32 "\n", what, code);
}

static void say_inverse(const char *what, double a00, double a01, double a11)
{
    uint8_t out[32];
    uint32_t code = truing_inverse(a00, a01, a11, out, sizeof out);
    if (code != 0) {
        printf("%s refused %" PRIu32 "\n", what, code);
        return;
    }
    printf("%s\n", what);
    say("  a00", get(out));
    say("  a01", get(out + 8));
    say("  a11", get(out + 16));
    say("  condition", get(out + 24));
}

int main(void)
{
    uint8_t observations[24 * SHOTS];
    for (int i = 0; i < SHOTS; i++)
        for (int j = 0; j < 3; j++)
            put(observations + 24 * i + 8 * j, shots[i][j]);

    say("root of 2", truing_root(2));
    say("root of 0.1", truing_root(0.1));
    say_sum("sum", observations, sizeof observations, 0);
    say_sum("sum with both priors", observations, sizeof observations, TRUING_SPEED_PRIOR | TRUING_COEFFICIENT_PRIOR);
    say_sum("sum of a torn record", observations, sizeof observations - 1, 0);
    say_sum("sum with a reply too many", observations, sizeof observations - 24, 0);
    say_inverse("inverse of 4 1 3", 4, 1, 3);
    say_inverse("inverse of 1 1 1", 1, 1, 1);
    say_inverse("inverse of 1e200 0 1e200", 1e200, 0, 1e200);
    return 0;
}
