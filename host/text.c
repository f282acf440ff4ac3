/* Text for the printer: EBCDIC bytes (code page 037), the table that translates them, and the way back from codes. */
#include <string.h>

#include "morning.h"

/* The sheets' EBCDIC from byte 40 on, sixteen to a row; ~ where the sheets have no character. */
static const char chart[] =
    " ~~~~~~~~~~.<(+|" /* 40 */
    "&~~~~~~~~~!$*);~" /* 50 */
    "-/~~~~~~~~~,%_>?" /* 60 */
    "~~~~~~~~~`:#@'=\"" /* 70 */
    "~abcdefghi~~~~~~" /* 80 */
    "~jklmnopqr~~~~~~" /* 90 */
    "~~stuvwxyz~~~~~~" /* A0 */
    "~~~~~~~~~~~~~~~~" /* B0 */
    "~ABCDEFGHI~~~~~~" /* C0 */
    "~JKLMNOPQR~~~~~~" /* D0 */
    "~~STUVWXYZ~~~~~~" /* E0 */
    "0123456789~~~~~~" /* F0 */;

enum { NONE = '~', CHART_FIRST = 0x40, CHART_BYTES = 192, CAPITALS_FIRST = 0xC0, UNPRINTABLE = 0xFF };

static bool has_character(size_t byte)
{
    return chart[byte - CHART_FIRST] != NONE;
}

/* Location is the byte modulo 64, as in the starting table; a byte that would fall on a capital or a digit goes to module 1. */
static uint8_t code_of_byte(size_t byte)
{
    bool falls_on_another = byte < CAPITALS_FIRST && has_character(byte | CAPITALS_FIRST);
    return (uint8_t)((byte & 0x3F) | (falls_on_another ? 0x40 : 0));
}

static bool is_continuation(char c)
{
    return ((unsigned char)c & 0xC0) == 0x80;
}

/* The bytes of the UTF-8 character that begins here; a byte that is not UTF-8 is a character by itself, so that none goes unnoticed. */
static size_t bytes_of_character(const char *text)
{
    unsigned char lead = (unsigned char)*text;
    size_t bytes = lead >= 0xF0 ? 4 : lead >= 0xE0 ? 3 : lead >= 0xC0 ? 2 : 1, n = 1;
    while (n < bytes && is_continuation(text[n]))
        n++;
    return n == bytes ? bytes : 1;
}

static uint8_t byte_of(char c)
{
    const char *at = c == NONE ? NULL : strchr(chart, c);
    return at ? (uint8_t)(CHART_FIRST + (at - chart)) : 0;
}

size_t text_length(const char *text)
{
    size_t n = 0;
    for (; *text != '\0'; n++)
        text += bytes_of_character(text);
    return n;
}

size_t text_to_bytes(const char *text, uint8_t *bytes, size_t room)
{
    size_t n = 0;
    for (; n < room && *text != '\0'; n++) {
        bytes[n] = byte_of(*text);
        text += bytes_of_character(text);
    }
    return n;
}

void text_table(uint8_t *table)
{
    memset(table, UNPRINTABLE, 256);
    for (size_t byte = CHART_FIRST; byte < CHART_FIRST + CHART_BYTES; byte++)
        if (has_character(byte))
            table[byte] = code_of_byte(byte);
}

char text_of_code(uint8_t code)
{
    for (size_t byte = CHART_FIRST; byte < CHART_FIRST + CHART_BYTES; byte++)
        if (has_character(byte) && code_of_byte(byte) == code)
            return chart[byte - CHART_FIRST];
    return '?';
}
