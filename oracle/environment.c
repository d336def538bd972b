/* environment kept|flushed: drives brundelak_float_environment through each fault that it must see, and shows that a call gives other
 * bits then, with status 0. Flushed is a program whose start sets both flags of subnormals, as that of -ffast-math does. It prints what is
 * not so. */
#include <fenv.h>
#include <stdio.h>
#include <xmmintrin.h>
#include "brundelak.h"
#include "bits.h"

/* The processor's flags: subnormal results are flushed to zero, subnormal operands are taken as zero. */
enum { RESULTS = 0x8000, OPERANDS = 0x0040 };
static int wrong = 0;

/* 2 to the power of n, of a normal number. */
static uint64_t power(int n)
{
    return (uint64_t)(1023 + n) << 52;
}

static void expect(const char *what, int holds)
{
    if (!holds) {
        printf("environment: not so: %s\n", what);
        wrong = 1;
    }
}

/* Answers' bits, each with status 0: the root of 2^-1074, whose operand is subnormal; 2^-1022 degrees in radians, of which the result is;
 * a star's right ascension. */
static uint64_t root(void)
{
    double answer = 0.0;
    expect("the root is answered", brundelak_root(as_double(1), &answer) == BRUNDELAK_ANSWERED);
    return as_bits(answer);
}

static uint64_t radians(void)
{
    double answer = 1.0;
    expect("radians are answered", brundelak_to_radians(as_double(power(-1022)), &answer) == BRUNDELAK_ANSWERED);
    return as_bits(answer);
}

static uint64_t chain(void)
{
    double asc = 0.0, dec = 0.0;
    expect("the chain is answered", brundelak_chain(0.7165, 0.8592, 2451545.0, 2462088.69, &asc, &dec) == BRUNDELAK_ANSWERED);
    return as_bits(asc);
}

static void roundings(void)
{
    static const int others[] = {FE_UPWARD, FE_DOWNWARD, FE_TOWARDZERO};
    uint64_t nearest = chain();
    for (size_t i = 0; i < sizeof others / sizeof *others; i++) {
        fesetround(others[i]);
        int found = brundelak_float_environment();
        uint64_t other = chain();
        fesetround(FE_TONEAREST);
        expect("another rounding is seen", found == BRUNDELAK_ENVIRONMENT_ROUNDING);
        expect("a chain has other bits under another rounding", other != nearest);
    }
    expect("after the roundings all is well", brundelak_float_environment() == 0 && chain() == nearest);
}

static void flags(void)
{
    static const unsigned sets[] = {RESULTS, OPERANDS, RESULTS | OPERANDS};
    unsigned start = _mm_getcsr();
    uint64_t kept = radians();
    expect("the root of 2^-1074 is 2^-537", root() == power(-537));
    expect("2^-1022 degrees are not zero in radians", kept != 0);
    for (size_t i = 0; i < sizeof sets / sizeof *sets; i++) {
        _mm_setcsr(start | sets[i]);
        int found = brundelak_float_environment();
        uint64_t of_operand = root(), of_result = radians();
        fesetround(FE_UPWARD);
        int both = brundelak_float_environment();
        fesetround(FE_TONEAREST);
        _mm_setcsr(start);
        expect("flags are seen", found == BRUNDELAK_ENVIRONMENT_SUBNORMALS);
        expect("flags and a rounding are seen", both == BRUNDELAK_ENVIRONMENT_SUBNORMALS + BRUNDELAK_ENVIRONMENT_ROUNDING);
        expect("the root of 2^-1074 is another where operands are taken as zero", (of_operand != power(-537)) == ((sets[i] & OPERANDS) != 0));
        expect("2^-1022 degrees are zero where results are flushed", (of_result != kept) == ((sets[i] & RESULTS) != 0));
    }
    expect("after the flags all is well", brundelak_float_environment() == 0 && root() == power(-537) && radians() == kept);
}

int main(int argc, char **argv)
{
    if (argc == 2 && strcmp(argv[1], "kept") == 0) {
        expect("all is well at the start", brundelak_float_environment() == 0);
        roundings();
        flags();
    } else if (argc == 2 && strcmp(argv[1], "flushed") == 0) {
        expect("flags of the start are seen", brundelak_float_environment() == BRUNDELAK_ENVIRONMENT_SUBNORMALS);
        expect("the root of 2^-1074 is another under them", root() != power(-537));
    } else {
        return 2;
    }
    return wrong;
}
