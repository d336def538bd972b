/* A double and its bits, each way; and bits that are drawn one after the other (splitmix64) from a state that a program may set. */
#include <stddef.h>
#include <stdint.h>
#include <string.h>

static inline double as_double(uint64_t b)
{
    double x;
    memcpy(&x, &b, sizeof x);
    return x;
}

static inline uint64_t as_bits(double x)
{
    uint64_t b;
    memcpy(&b, &x, sizeof b);
    return b;
}

static uint64_t drawn_from = 1;

static inline uint64_t drawn_bits(void)
{
    uint64_t z = drawn_from += 0x9E3779B97F4A7C15;
    z = (z ^ z >> 30) * 0xBF58476D1CE4E5B9;
    z = (z ^ z >> 27) * 0x94D049BB133111EB;
    return z ^ z >> 31;
}

static inline size_t drawn_below(size_t n)
{
    return (size_t)(drawn_bits() % n);
}
