/* Reading a line of the script: its letter, and its bytes as words. */
#include "script_parts.h"

#include <string.h>

enum { NO_NUMBER = 0x10000 };

/* A hexadecimal number up to FFFF. */
static size_t number_of(const char *word, size_t length)
{
    static const char digits[] = "0123456789ABCDEF";
    size_t value = length == 0 ? NO_NUMBER : 0;
    for (size_t i = 0; i < length && value != NO_NUMBER; i++) {
        const char *digit = memchr(digits, word[i], sizeof digits - 1);
        value = digit == NULL || value > 0xFFF ? NO_NUMBER : value * 16 + (size_t)(digit - digits);
    }
    return value;
}

/* A word's byte, as often as it says, after those that the line has so far. */
static bool add_word(struct line *l, const char *word, size_t length)
{
    const char *star = memchr(word, '*', length);
    size_t digits = star == NULL ? length : (size_t)(star - word);
    size_t value = number_of(word, digits);
    size_t times = star == NULL ? 1 : number_of(star + 1, length - digits - 1);
    if (digits != 2 || value == NO_NUMBER || times > GIVEN_MOST - l->count)
        return false;
    memset(l->given + l->count, (int)value, times);
    l->count += times;
    return true;
}

/* Words with a space between them. */
static bool add_words(struct line *l, const char *words, size_t length)
{
    for (size_t at = 0, end; at < length; at = end + 1) {
        const char *space = memchr(words + at, ' ', length - at);
        end = space == NULL ? length : (size_t)(space - words);
        if (!add_word(l, words + at, end - at))
            return false;
    }
    return true;
}

/* Whether a line with this letter has so many bytes. */
static bool is_meant(char letter, size_t count)
{
    switch (letter) {
    case 'S': return count == 7;
    case 'C': return count == 2;
    case 'F': return count == 12;
    case 'R': case 'T': case 'U': case 'K': case 'X': case 'N': return count == 0;
    case 'P': return count == 2;
    case 'G': case 'M': return count == 3;
    case 'L': return count == 2 * STORES;
    case 'B': return count == 2;
    case COMMAND: return count > 0;
    default: return false;
    }
}

bool read_line(struct line *l, const char *text, size_t length)
{
    bool lettered = length == 1 || (length > 1 && text[1] == ' ');
    l->letter = lettered ? text[0] : COMMAND;
    l->count = 0;
    if (l->letter == COMMENT)
        return true;
    size_t skipped = l->letter == COMMAND ? 0 : length == 1 ? 1 : 2;
    return add_words(l, text + skipped, length - skipped) && is_meant(l->letter, l->count);
}
