/*
 * The header's example, taken out of the header as example.c, on the way to the accident that it must prevent: a page of many lines, a reset, and then
 * a page of fewer lines, composed in the same buffer. What it prints is compared with test_example.txt.
 */
#include "trestlepip.h"

/* The room for a copy that the example lends, times this: 0 has Compose refuse with another number than 7. */
static size_t room = 1;
#define trestlepip_compose(index, out, length, ...) trestlepip_compose(index, out, (length) * room, __VA_ARGS__)

int example_main(void);
#define main example_main
#include "example.c"
#undef main

enum { FORM = 264, FCB_BYTES = 88, MARGIN = 4, OLD_LINE = 75, EIGHT_PER_INCH = 0x10, OLD_CHANNEL = 2 };

/* Text with a rule on line 75 of 80. */
static bool send_old_page(void)
{
    static const uint8_t old[] = {0xD6, 0xD3, 0xC4}, underscores[] = {0x6D, 0x6D, 0x6D};
    uint8_t fcb[FCB_BYTES];
    for (unsigned i = 0; i < FCB_BYTES; i++)
        fcb[i] = EIGHT_PER_INCH;
    fcb[MARGIN + OLD_LINE - 1] |= OLD_CHANNEL;
    return send_command(TRESTLEPIP_LOAD_FCB, fcb, sizeof fcb)
        && send_command(TRESTLEPIP_SKIP(OLD_CHANNEL), NULL, 0)
        && send_command(TRESTLEPIP_WRITE_NO_SPACE, old, sizeof old)
        && send_command(TRESTLEPIP_WRITE_SPACE_1, underscores, sizeof underscores)
        && send_command(TRESTLEPIP_CLEAR, NULL, 0);
}

/* Text on line 1 of 60, which is as many as 6 lines per inch give. */
static bool send_new_page(void)
{
    static const uint8_t new[] = {0xD5, 0xC5, 0xE6};
    return send_command(TRESTLEPIP_WRITE_SPACE_1, new, sizeof new) && send_command(TRESTLEPIP_CLEAR, NULL, 0);
}

/* A check and a refusal are reported; nor is a page printed that is not there. */
static bool is_stopped(void)
{
    static const uint8_t unprintable[] = {0x3F};
    bool check = send_command(TRESTLEPIP_WRITE_NO_SPACE, unprintable, sizeof unprintable);
    bool refusal = send_command(TRESTLEPIP_LOAD_FCB, NULL, 0);
    return !check && !refusal && !print_page();
}

/* A page of which not every copy was printed stays, and can be printed later. */
static bool is_kept(void)
{
    room = 0;
    bool printed = send_command(TRESTLEPIP_CLEAR, NULL, 0);
    room = 1;
    return !printed && print_page();
}

int main(void)
{
    bool good = is_good(trestlepip_start(FORM, 10, 10, 10, 10, TRESTLEPIP_NEW_WAY, STORES))
        && send_old_page() && send_command(TRESTLEPIP_INITIALIZE, NULL, 0) && send_new_page() && is_stopped() && is_kept();
    printf(good ? "as it should be\n" : "not as it should be\n");
    return good ? 0 : 1;
}
