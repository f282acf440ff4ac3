/*
 * trestlepip_feet beside the exact fraction, pages times copies times form length over 288, in whole numbers: every listed form with all copies, with
 * identifiers at the edges and by chance, and with every difference of two identifiers. And what it refuses.
 */
#include "printer.h"

#include <stdio.h>
#include <string.h>

/*
 * A foot is 288 24ths of an inch. Here it is also 2 to the power PARTS parts: then every double from a quarter foot on is a whole number of parts,
 * and its distance from the fraction is a whole number of 288ths of a part.
 */
enum { FOOT = 288, PARTS = 54 };
__extension__ typedef unsigned __int128 wide;

/* 2 to the power -30 feet, from which the header says that no feet are further; and two thirds of it, which is proved, and reached. */
static const wide distance_most = (wide)FOOT << (PARTS - 30), distance_proved = (wide)FOOT / 3 * 2 << (PARTS - 30);

enum { ROUND = 65536, COPIES_MOST = 255, CHANCES = 500, UNLISTED_UP_TO = 1000, FAULTS_MOST = 20 };

static const uint32_t forms[] = {72, 84, 96, 132, 144, 168, 192, 204, 240, 264, 288};

enum { FORMS = sizeof forms / sizeof *forms };

struct sum {
    uint16_t initial, final;
    uint32_t copies, form;
};

static struct {
    unsigned sums, refusals;
    wide distance;
} tried;

static void check_sum(bool good, const char *what, const struct sum *s)
{
    check(good, what, s->form);
    if (!good)
        fprintf(stderr, "    initial %04X, final %04X, copies %u, form %u\n", (unsigned)s->initial, (unsigned)s->final, s->copies, s->form);
}

/* What goes wrong mostly does so everywhere: after so many faults nothing more is tried. */
static bool is_enough(void)
{
    return faults() >= FAULTS_MOST;
}

/* The call, and the bits of the double, which is lent with another value. */
static uint64_t call_feet(const struct sum *s, uint64_t *bits)
{
    double feet = -1.5;
    uint64_t answer = trestlepip_feet(s->initial, s->final, s->copies, s->form, &feet);
    memcpy(bits, &feet, sizeof feet);
    return answer;
}

/* ---- the feet ---- */

static uint64_t product_of(const struct sum *s)
{
    uint64_t pages = (uint64_t)(ROUND + s->final - s->initial) % ROUND;
    return pages * s->copies * s->form;
}

/* Reads a double as parts of a foot. False for feet that no sum has: from 2 to the power 24 on, under a quarter, except +0.0, or with a sign. */
static bool read_parts(uint64_t bits, wide *parts)
{
    const uint64_t leading = UINT64_C(1) << 52, of_quarter = 1023 - 2, of_most = 1023 + 23;
    uint64_t exponent = bits >> 52;
    *parts = 0;
    if (bits == 0)
        return true;
    if (exponent < of_quarter || exponent > of_most)
        return false;
    *parts = (wide)(leading | (bits & (leading - 1))) << (exponent - of_quarter);
    return true;
}

static wide distance(wide parts, wide exact)
{
    return parts * FOOT > exact ? parts * FOOT - exact : exact - parts * FOOT;
}

/* A third of what lies between two doubles next to each other, where the fraction is: 3 divides every product, so that no fraction is further off. */
static wide third_of_unit(uint64_t product)
{
    wide half = FOOT / 4;
    while (product >= half)
        half *= 2;
    return half / 3 * 2;
}

/* Whether the double, which is so far off, is nearer than its neighbours. A fraction that is no double has no end in binary: it is never half way. */
static bool is_nearest(uint64_t bits, wide off, wide exact)
{
    wide below, above;
    return read_parts(bits - 1, &below) && read_parts(bits + 1, &above) && off < distance(below, exact) && off < distance(above, exact);
}

/* The fraction is a double exactly if 9 divides the product, since 288 is 9 times 32. */
static void judge_feet(const struct sum *s, uint64_t bits)
{
    uint64_t product = product_of(s);
    wide parts, exact = (wide)product << PARTS;
    bool read = read_parts(bits, &parts);
    wide off = distance(parts, exact);
    check_sum(read, "feet that no sum has: form", s);
    check_sum(off <= third_of_unit(product), "further off than a third of a unit in the last place: form", s);
    check_sum(off == 0 || product % 9 != 0, "not equal to a fraction that is a double: form", s);
    check_sum(off == 0 || is_nearest(bits, off, exact), "another double is nearer: form", s);
    tried.distance = off > tried.distance ? off : tried.distance;
}

static void try_sum(uint32_t form, uint32_t copies, unsigned initial, unsigned difference)
{
    const struct sum s = {(uint16_t)initial, (uint16_t)((initial + difference) % ROUND), copies, form};
    uint64_t bits;
    if (is_enough())
        return;
    check_sum(call_feet(&s, &bits) == TRESTLEPIP_ACCEPTED, "refused, or more is told than the number: form", &s);
    judge_feet(&s, bits);
    tried.sums++;
}

/* From these initial identifiers the longer differences go over FFFF to 0000. */
static void try_edges(uint32_t form, uint32_t copies)
{
    static const unsigned initials[] = {0, 1, 0x7FFF, 0x8000, 0xFFFE, 0xFFFF};
    static const unsigned differences[] = {
        0, 1, 2, 3, 4, 5, 7, 8, 9, 254, 255, 256, 257, 4095, 4096, 16383, 16384, 32766, 32767, 32768, 32769, 65533, 65534, 65535};
    for (size_t i = 0; i < sizeof initials / sizeof *initials; i++)
        for (size_t j = 0; j < sizeof differences / sizeof *differences; j++)
            try_sum(form, copies, initials[i], differences[j]);
}

static void try_chances(uint32_t form, uint32_t copies)
{
    for (unsigned i = 0; i < CHANCES; i++) {
        unsigned initial = chance(ROUND);
        try_sum(form, copies, initial, chance(ROUND));
    }
}

static void try_differences(uint32_t form)
{
    for (unsigned difference = 0; difference < ROUND; difference++) {
        unsigned initial = chance(ROUND);
        try_sum(form, 1 + chance(COPIES_MOST), initial, difference);
    }
}

static void try_form(uint32_t form)
{
    for (uint32_t copies = 1; copies <= COPIES_MOST; copies++) {
        try_edges(form, copies);
        try_chances(form, copies);
    }
    try_differences(form);
}

/* ---- what is refused ---- */

static void try_refusal(struct sum s)
{
    uint64_t bits;
    if (is_enough())
        return;
    check_sum(call_feet(&s, &bits) == TRESTLEPIP_BAD_PAPER, "not refused, or more is told than the number: form", &s);
    check_sum(bits == 0, "refused, and the feet are not +0.0: form", &s);
    tried.refusals++;
}

/* With no page, one, one over FFFF to 0000, the most, and any. */
static void try_refusals(uint32_t form, uint32_t copies)
{
    uint16_t initial = (uint16_t)chance(ROUND), final = (uint16_t)chance(ROUND);
    try_refusal((struct sum){5, 5, copies, form});
    try_refusal((struct sum){0, 1, copies, form});
    try_refusal((struct sum){0xFFFF, 0, copies, form});
    try_refusal((struct sum){1, 0, copies, form});
    try_refusal((struct sum){initial, final, copies, form});
}

/* Copies that in one byte or two would be good. */
static void refuse_copies(uint32_t form)
{
    static const uint32_t copies[] = {0, 256, 257, 511, 512, 65535, 65536, 65537, 65536 + 255, 0x01000001, 0x80000001, UINT32_MAX};
    for (size_t i = 0; i < sizeof copies / sizeof *copies; i++)
        try_refusals(form, copies[i]);
}

static void refuse_form(uint32_t form)
{
    try_refusals(form, 1);
    try_refusals(form, 2);
    try_refusals(form, COPIES_MOST);
    refuse_copies(form);
}

static bool is_listed(uint32_t form)
{
    bool listed = false;
    for (size_t i = 0; i < FORMS; i++)
        listed = listed || forms[i] == form;
    return listed;
}

/* Lengths that in two or three bytes would be listed, or with a sign. */
static void refuse_long_forms(uint32_t form)
{
    refuse_form(form + 0x00010000);
    refuse_form(form + 0x01000000);
    refuse_form(form + 0x80000000);
    refuse_form(UINT32_MAX - form + 1);
}

static double in_feet(wide off)
{
    return (double)off / FOOT / 0x1p54;
}

static void say_distance(void)
{
    printf("largest distance from the fraction %llu / (288 x 2^54) = %.2e feet, proved %llu / (288 x 2^54), in the header 2^-30 = %.2e",
            (unsigned long long)tried.distance, in_feet(tried.distance), (unsigned long long)distance_proved, in_feet(distance_most));
}

int main(void)
{
    for (size_t i = 0; i < FORMS; i++) {
        try_form(forms[i]);
        refuse_copies(forms[i]);
        refuse_long_forms(forms[i]);
    }
    for (uint32_t form = 0; form <= UNLISTED_UP_TO; form++)
        if (!is_listed(form))
            refuse_form(form);
    refuse_form(UINT32_MAX);
    check(tried.distance <= distance_most, "further off than 2 to the power -30 feet: one of sums", tried.sums);
    check(tried.distance == distance_proved, "the largest distance is not the one that is proved and reached, in sums", tried.sums);
    printf("feet: %u sums on %u forms, %u refusals; ", tried.sums, (unsigned)FORMS, tried.refusals);
    say_distance();
    printf(", %u faults\n", faults());
    return faults() == 0 ? 0 : 1;
}
