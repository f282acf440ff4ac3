/* T-04's law, checked without the second program and without floating point: the double's bits are read as a whole number. */
#include "feet_law.h"

#include <string.h>

/* Wide enough for FOOT times any N below, which is under 2^87. */
__extension__ typedef __int128 wide;

/* So many 24ths of an inch make a foot; any feet are N / 2^FRACTION_BITS, as they are 0 or at least 1/4. */
enum { FOOT = 288, FRACTION_BITS = 54 };

/* A double has a digit 1 before these, which it does not store; its exponent is that of 1/4 at least, and below that of 2^24. */
enum { STORED_DIGITS = 52, EXPONENT_OF_QUARTER = 1021, EXPONENT_OF_MOST = 1023 + 24 };

bool form_is_taken(uint32_t form)
{
    for (unsigned i = 0; i < FORMS; i++)
        if (form == forms[i])
            return true;
    return false;
}

bool copies_are_taken(uint32_t copies)
{
    return copies >= 1 && copies <= COPIES_MOST;
}

uint64_t paper_length(const struct call *c)
{
    return (uint64_t)pages_of_feet(c) * c->copies * c->form;
}

static uint64_t bits_of(const uint8_t *feet)
{
    uint64_t bits;
    memcpy(&bits, feet, sizeof bits);
    return bits;
}

/* The sign stands before the exponent, so that it makes that of a negative double too large. */
static bool can_be_feet(const uint8_t *feet)
{
    uint64_t exponent = bits_of(feet) >> STORED_DIGITS;
    return bits_of(feet) == 0 || (exponent >= EXPONENT_OF_QUARTER && exponent < EXPONENT_OF_MOST);
}

/* N. */
static wide whole_of(const uint8_t *feet)
{
    const uint64_t bits = bits_of(feet), first_digit = UINT64_C(1) << STORED_DIGITS;
    return bits == 0 ? 0 : (wide)(bits % first_digit + first_digit) << ((bits >> STORED_DIGITS) - EXPONENT_OF_QUARTER);
}

/* How far N / 2^54 is from the exact fraction, times 288 x 2^54. */
static wide distance(const struct call *c, const uint8_t *feet)
{
    return FOOT * whole_of(feet) - ((wide)paper_length(c) << FRACTION_BITS);
}

/* Half the last digit of a double below the next power of two, times as much: 72 x 2^k, the least of these that is above the length. */
static wide distance_most(uint64_t length)
{
    wide most = FOOT / 4;
    while (most <= length)
        most *= 2;
    return most;
}

enum rounding rounding_of(const struct call *c, const uint8_t *feet)
{
    wide off = distance(c, feet);
    return off < 0 ? ROUNDED_DOWN : off == 0 ? EXACT : ROUNDED_UP;
}

/* Of an accepted call. 288 is 32 x 9: if 9 divides the length, the fraction itself is a double. */
static const char *told_fault(const struct call *c, const uint8_t *feet)
{
    if (!can_be_feet(feet))
        return "they are neither 0.0 nor from 1/4 to below 2^24";
    wide off = distance(c, feet), most = distance_most(paper_length(c));
    if (off > most || off < -most)
        return "they are further from the exact fraction than half their last digit";
    return off != 0 && paper_length(c) % 9 == 0 ? "they are not the exact fraction, which is a double" : NULL;
}

const char *feet_fault(const struct call *c, uint64_t answer, const uint8_t *feet)
{
    bool taken = form_is_taken(c->form) && copies_are_taken(c->copies);
    if (c->kind != CALL_FEET)
        return NULL;
    if (answer != (taken ? TRESTLEPIP_ACCEPTED : TRESTLEPIP_BAD_PAPER))
        return "the answer is not 0 where the form length and the copies are taken, and 16 where not";
    if (!taken)
        return bits_of(feet) == 0 ? NULL : "a refused call left other feet than 0.0";
    return told_fault(c, feet);
}
