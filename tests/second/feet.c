/* T-04: feet of paper. The double is put together from whole numbers, so that it does not rest on the machine's division. */
#include "parts.h"
#include "second.h"

#include <string.h>

/* A foot in 24ths of an inch: the manual's 24, which goes with half inches, times the 12 of these in a half inch. */
enum { FOOT = 24 * HALF_INCH, COPIES_MOST = 255 };

/* A double's digits are whole, from 2^52 to below 2^53, if its exponent is this one; one less makes it half as large. */
enum { DIGITS_AFTER_FIRST = 52, EXPONENT_OF_WHOLE = 1023 + DIGITS_AFTER_FIRST };

static const uint64_t first_digit = UINT64_C(1) << DIGITS_AFTER_FIRST;

/* The bits of the double nearest to length / FOOT, of two such the even one. The length is below 2^33 at first, and below 2^62 once doubled so often
 * that all digits are whole. A carry out of the digits goes on into the exponent, as it must. */
static uint64_t nearest_double(uint64_t length)
{
    uint64_t exponent = EXPONENT_OF_WHOLE;
    if (length == 0)
        return 0;
    for (; length / FOOT < first_digit; length *= 2)
        exponent--;
    uint64_t digits = length / FOOT, rest = length % FOOT;
    digits += 2 * rest + digits % 2 > FOOT;
    return (exponent << DIGITS_AFTER_FIRST) + (digits - first_digit);
}

/* The identifiers wrap, so their difference is taken modulo 65,536. */
static uint64_t length_of_paper(uint16_t initial, uint16_t final, uint32_t copies, uint32_t form)
{
    return (uint64_t)(uint16_t)(final - initial) * copies * form;
}

/* T-04: 16 leaves 0.0, whose bits are all 0; status is 00 either way. */
uint64_t second_feet(uint16_t initial, uint16_t final, uint32_t copies, uint32_t form, double *feet)
{
    bool refused = !form_listed(form) || copies == 0 || copies > COPIES_MOST;
    uint64_t bits = refused ? 0 : nearest_double(length_of_paper(initial, final, copies, form));
    memcpy(feet, &bits, sizeof bits);
    return refused ? 16 : 0;
}
