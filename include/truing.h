/* The truing estimator's functions for C, on x86-64 Linux: `scripts/build c_api` proves them and writes the archive
   target/staticlib/libc_api.a. Their contracts are in crates/c_api/src/lib.rt, in the words of
   crates/c_api/specs/Desk.antt.

   A double in bytes is its 8 bytes in IEEE 754, the lowest first. Any not-a-number pattern is read as the one
   not-a-number; a not-a-number is written as 7ff8000000000000. No address needs an alignment.

   The caller sees to it that each pointer has as many bytes behind it as the length after it says, that `out` overlaps
   no other argument, and that nothing else writes these bytes during the call. No function keeps a pointer, takes
   memory or has a state: each may be called from any thread. */
#ifndef TRUING_H
#define TRUING_H

#include <stddef.h>
#include <stdint.h>

#ifdef __cplusplus
extern "C" {
#endif

/* The square root, rounded once to the nearest; not-a-number for a negative number that is not -0. */
double truing_root(double x);

enum {
    TRUING_SPEED_PRIOR = 1,
    TRUING_COEFFICIENT_PRIOR = 2
};

/* The objective sum at a point: the squared standardized residuals from the first observation on, then the speed's
   prior and then the coefficient's. It is not judged, and may be infinite or not-a-number.
   Observations are records of 24 bytes, the doubles distance, drop and sigma, 64 at the most; replies are doubles, a
   drop for each observation. `priors` says which priors are given, TRUING_SPEED_PRIOR | TRUING_COEFFICIENT_PRIOR; its
   other bits do not count, and neither do a mean and a sigma that are not given.
   Returns 0, and the sum stands in the first 8 bytes of `out`. Or, tested in this order, with no byte written:
     1  observations_length is not a multiple of 24, or there are more than 64
     2  replies_length is not 8 for each observation
     3  out_length is below 8 */
uint32_t truing_objective_sum(double speed, double coefficient,
                              const uint8_t *observations, size_t observations_length,
                              const uint8_t *replies, size_t replies_length,
                              uint32_t priors, double speed_mean, double speed_sigma,
                              double coefficient_mean, double coefficient_sigma,
                              uint8_t *out, size_t out_length);

/* The inverse of the symmetric matrix with the entries a00, a01 = a10 and a11, and its condition number.
   Returns 0, and the inverse's a00, a01, a11 and the condition number stand in the first 32 bytes of `out`. Or, tested
   in this order, with no byte written:
     3  out_length is below 32
     1  NonFiniteInformation, 2  RankDeficientInformation: the estimator's refusals, in its order */
uint32_t truing_inverse(double a00, double a01, double a11, uint8_t *out, size_t out_length);

#ifdef __cplusplus
}
#endif

#endif
