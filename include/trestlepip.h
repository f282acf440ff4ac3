/*
 * Trestlepip: the command side of an IBM 3800 page printer, for a C spooler. Link with libtrestlepip.a.
 *
 * A printer is four buffers that the host lends to every call: the state, and the stores page, legends and tables. The library keeps nothing
 * else: no memory of its own, no global, no file. `trestlepip_start` fills the buffers; each later call gets them as the one before left them.
 *
 * Below stand, in this order: a whole program as an example; the sizes of the buffers; the command bytes; the numbers and causes that an answer may
 * have, and its fields; the bits of status and sense; what a cell of a page is; the places in the state; the calls, each with its refusals; what
 * reads the page counters; the feet of paper; and trestlepip_printable_lines, which says how many lines a copy has. Elsewhere stand:
 *   - docs/NUMBERS.md, the programmer's card: what a program does about each number, cause and check;
 *   - docs/RECORDS.md: the record of each load byte by byte, with an example;
 *   - docs/STATE.md: the state byte by byte, with the range of each field; the page's bytes; the stack that each call needs;
 *   - include/trestlepip_text.h: a short text for each number, cause and data check, for a program's log.
 *
 * What the library promises: every call, with any value of any number and any length and contents of any buffer, returns an answer; a refused
 * call changes nothing but the sense bytes in the state (docs/NUMBERS.md), Start apart; and feet of paper that are refused are 0.0. An empty buffer may
 * be a null pointer with length 0.
 *
 * What the host owes, and no proof covers:
 *   - each length is that of memory which the host may read, and which it may write where the parameter is not const;
 *   - the buffers of one call do not overlap;
 *   - no other thread touches them during the call. Printers with buffers of their own may be used by several threads at once;
 *   - the pointer for the feet of paper is not null, and points to a double that the host may write;
 *   - doubles are rounded to nearest, as they are when a program begins: fesetround has not changed that.
 *
 * The example compiles as it stands, and is tested so (tests/header/):
 *
 *     // Prints a page as text, in two copies. Records are in EBCDIC.
 *     #include <stdbool.h>
 *     #include <stdio.h>
 *     #include "trestlepip.h"
 *     #include "trestlepip_text.h"
 *     #define STORES state, sizeof state, page, sizeof page, legends, sizeof legends, tables, sizeof tables
 *     static uint8_t state[TRESTLEPIP_STATE_BYTES], page[TRESTLEPIP_PAGE_BYTES], copy[TRESTLEPIP_PAGE_BYTES];
 *     static uint8_t legends[TRESTLEPIP_LEGEND_BYTES], tables[TRESTLEPIP_TABLE_BYTES];
 *
 *     // Reports a refusal or a check. The sense, which says more of some, is read before the next command sets it anew.
 *     static bool is_good(uint64_t answer)
 *     {
 *         uint8_t sense[TRESTLEPIP_SENSE_BYTES] = {0};
 *         unsigned number = trestlepip_number(answer);
 *         if (number == TRESTLEPIP_ACCEPTED && !(trestlepip_status(answer) & TRESTLEPIP_STATUS_UNIT_CHECK))
 *             return true;
 *         trestlepip_command(TRESTLEPIP_SENSE, NULL, 0, sense, sizeof sense, STORES);
 *         fprintf(stderr, "number %u: %s; sense %02X %02X %02X\n", number, trestlepip_number_text(number), sense[0], sense[1], sense[2]);
 *         return false;
 *     }
 *
 *     // Prints a line's characters; and below them, if any is marked, a row with a hyphen under each that is.
 *     static void print_line(const uint8_t *line)
 *     {
 *         static const char of_location[] = " ABCDEFGHI#.<(+|&JKLMNOPQR!$*);#-/STUVWXYZ#,%_>?0123456789:#@'=\"";    // in the starting table
 *         bool ruled = false;
 *         for (unsigned i = 0; i < TRESTLEPIP_LINE_CELLS; i++) {
 *             putchar(of_location[trestlepip_location(trestlepip_code_at(line, i))]);
 *             ruled = ruled || trestlepip_mark_at(line, i) == 1;
 *         }
 *         putchar('\n');
 *         if (!ruled)
 *             return;
 *         for (unsigned i = 0; i < TRESTLEPIP_LINE_CELLS; i++)
 *             putchar(trestlepip_mark_at(line, i) == 1 ? '-' : ' ');
 *         putchar('\n');
 *     }
 *
 *     // The first P lines of the buffer are this copy's. What stands after them is older, and no part of it.
 *     static bool print_copy(uint64_t answer)
 *     {
 *         printf("copy %u\n", trestlepip_copy_number(answer));
 *         for (unsigned line = 0; line < trestlepip_printable_lines(state); line++)
 *             print_line(copy + line * TRESTLEPIP_LINE_BYTES);
 *         return fflush(stdout) == 0;
 *     }
 *
 *     // Released, and reported past each station as soon as it is out: the counters then say how many are.
 *     static bool release_page(void)
 *     {
 *         return is_good(trestlepip_release(STORES)) && is_good(trestlepip_transferred(STORES)) && is_good(trestlepip_fused(STORES))
 *             && is_good(trestlepip_stacked(STORES));
 *     }
 *
 *     // Number 7 alone says that all copies are out. Then the page is released, and in no other case.
 *     static bool print_page(void)
 *     {
 *         for (uint32_t index = 1;; index++) {
 *             uint64_t answer = trestlepip_compose(index, copy, sizeof copy, STORES);
 *             if (trestlepip_number(answer) == TRESTLEPIP_BAD_INDEX)
 *                 return release_page();
 *             if (!is_good(answer) || !print_copy(answer))
 *                 return false;
 *         }
 *     }
 *
 *     // Sends a command, and prints the page that it completes.
 *     static bool send_command(uint8_t command, const uint8_t *record, size_t length)
 *     {
 *         uint64_t answer = trestlepip_command(command, record, length, NULL, 0, STORES);
 *         return is_good(answer) && (!trestlepip_ready(answer) || print_page());
 *     }
 *
 *     int main(void)
 *     {
 *         static const uint8_t two_copies[] = {2, 0}, calf[] = {0xC3, 0xC1, 0xD3, 0xC6};
 *         static const uint8_t total[] = {0xF4, 0xF1, 0x4B, 0xF5}, underscores[] = {0x6D, 0x6D, 0x6D, 0x6D};
 *         bool good = is_good(trestlepip_start(84, 10, 10, 10, 10, TRESTLEPIP_NEW_WAY, STORES))
 *             && send_command(TRESTLEPIP_LOAD_OVERLAY_SEQUENCE, two_copies, sizeof two_copies)
 *             && send_command(TRESTLEPIP_WRITE_SPACE_1, calf, sizeof calf)
 *             && send_command(TRESTLEPIP_WRITE_NO_SPACE, total, sizeof total)    // stays on the line
 *             && send_command(TRESTLEPIP_WRITE_SKIP(1), underscores, sizeof underscores);    // over the page's end to channel 1: the page is complete
 *         return good ? 0 : 1;
 *     }
 */
#ifndef TRESTLEPIP_H
#define TRESTLEPIP_H

#include <stddef.h>
#include <stdint.h>

#ifdef __cplusplus
extern "C" {
#endif

/* Sizes of the lent buffers; a buffer of another size is refused with TRESTLEPIP_BAD_STORE. docs/STATE.md has the layout of the state. */
#define TRESTLEPIP_STATE_BYTES 193
#define TRESTLEPIP_PAGE_BYTES 53856
#define TRESTLEPIP_LEGEND_BYTES 8192
#define TRESTLEPIP_TABLE_BYTES 1024

/* A line has so many cells of so many bytes, and a composed copy one line for each printable line of the form: the size of a page serves any copy. */
#define TRESTLEPIP_LINE_CELLS 204
#define TRESTLEPIP_CELL_BYTES 2
#define TRESTLEPIP_LINE_BYTES (TRESTLEPIP_LINE_CELLS * TRESTLEPIP_CELL_BYTES)

/* Sense's reply; a shorter reply buffer is refused with TRESTLEPIP_TOO_SHORT. */
#define TRESTLEPIP_SENSE_BYTES 24

/* The command bytes. */
enum trestlepip_commands {
    TRESTLEPIP_WRITE_NO_SPACE = 0x01, /* a write of its record on the current line; then it moves on so many lines */
    TRESTLEPIP_WRITE_SPACE_1 = 0x09,
    TRESTLEPIP_WRITE_SPACE_2 = 0x11,
    TRESTLEPIP_WRITE_SPACE_3 = 0x19,
    TRESTLEPIP_SPACE_1 = 0x0B, /* immediate: moves on, and writes nothing */
    TRESTLEPIP_SPACE_2 = 0x13,
    TRESTLEPIP_SPACE_3 = 0x1B,
    TRESTLEPIP_NO_OP = 0x03,
    TRESTLEPIP_SENSE = 0x04,      /* replies TRESTLEPIP_SENSE_BYTES, and clears the sense */
    TRESTLEPIP_INITIALIZE = 0x37, /* completes a started page; resets at once, or by the release of that page */
    TRESTLEPIP_CLEAR = 0x87,      /* completes a started page */
    TRESTLEPIP_BLOCK = 0x73,      /* hides the data checks unprintable and multiple */
    TRESTLEPIP_ALLOW = 0x7B,      /* shows them again */
    TRESTLEPIP_SELECT_0 = 0x47,   /* the translate table that serves, and that the next table load fills */
    TRESTLEPIP_SELECT_1 = 0x57,
    TRESTLEPIP_SELECT_2 = 0x67,
    TRESTLEPIP_SELECT_3 = 0x77,
    TRESTLEPIP_LOAD_FCB = 0x63, /* docs/RECORDS.md has the records of the loads */
    TRESTLEPIP_LOAD_TABLE = 0x83,
    TRESTLEPIP_LOAD_OVERLAY_SEQUENCE = 0x43,
    TRESTLEPIP_LOAD_COPY_NUMBER = 0x23,
    TRESTLEPIP_LOAD_COPY_MODIFICATION = 0x35
};

/* The command bytes that skip to a channel, from 1 to 12: after a write, and immediate. */
#define TRESTLEPIP_WRITE_SKIP(channel) (0x81 + 8 * (channel))
#define TRESTLEPIP_SKIP(channel) (0x83 + 8 * (channel))

/* The number of an answer: accepted, or the refusal. */
enum trestlepip_numbers {
    TRESTLEPIP_ACCEPTED = 0,      /* accepted */
    TRESTLEPIP_NOT_LISTED = 1,    /* the command byte is not listed */
    TRESTLEPIP_BAD_RECORD = 2,    /* a write's record is empty or over 204 bytes, or a load's over 8,192 */
    TRESTLEPIP_LOAD_CHECK = 3,    /* the record of a load is faulty */
    TRESTLEPIP_PAGE_WAITING = 4,  /* a completed page waits for its release */
    TRESTLEPIP_PAGE_STARTED = 5,  /* a load came on a started page */
    TRESTLEPIP_NO_PAGE = 6,       /* no completed page waits */
    TRESTLEPIP_BAD_INDEX = 7,     /* there is no copy with this index */
    TRESTLEPIP_TOO_SHORT = 8,     /* the output or the reply buffer is too short */
    TRESTLEPIP_BAD_STORE = 9,     /* a lent buffer has the wrong size, or holds what no printer leaves there */
    TRESTLEPIP_BAD_FORM = 10,     /* the form length, a pitch or the way of skipping is not listed */
    TRESTLEPIP_TWO_PAGES = 11,    /* one command would complete two pages */
    TRESTLEPIP_NONE_BETWEEN = 12, /* no page is between this station and the one before it */
    TRESTLEPIP_MOST_BETWEEN = 13, /* 32,767 pages are released and not yet stacked */
    TRESTLEPIP_BAD_PAPER = 16     /* for feet of paper: the form length is not listed, or the copies are not 1 to 255 */
};

/* The cause of a load check. */
enum trestlepip_causes {
    TRESTLEPIP_NO_CAUSE = 0,
    TRESTLEPIP_FCB_CHANNEL = 1,     /* FCB: a channel above 12 */
    TRESTLEPIP_FCB_SPACING = 2,     /* FCB: a spacing other than 6, 8 or 12 lines per inch, or a run of one spacing that is not whole half inches */
    TRESTLEPIP_FCB_SUM = 3,         /* FCB: the lines do not add up to the form */
    TRESTLEPIP_FCB_EDGE = 4,        /* FCB: a channel in the first or last half inch */
    TRESTLEPIP_TABLE_SHORT = 5,     /* translate table: shorter than 256 bytes */
    TRESTLEPIP_SEQUENCE_PAIRS = 6,  /* overlay sequence: not 1 to 8 whole pairs */
    TRESTLEPIP_SEQUENCE_COUNTS = 7, /* overlay sequence: a count of zero, a mark other than 0 or 1, or more than 255 copies */
    TRESTLEPIP_NUMBER_RECORD = 8,   /* copy number: not exactly one byte, or zero */
    TRESTLEPIP_SEGMENT_ENDS = 9,    /* copy modification: empty, or ends inside a segment */
    TRESTLEPIP_SEGMENT_FIELDS = 10  /* copy modification: a zero among the six bytes, or text past position 204 */
};

/*
 * The fields of an answer. An answer is one 64-bit number: bits 0 to 7 number, 8 to 15 status, 16 page ready, 17 overlay mark, 18 to 23 cause,
 * 24 to 31 lines moved, 32 to 40 copy number, 41 to 48 first unprintable position, 49 to 63 unprintable positions.
 */
static inline uint64_t trestlepip_field(uint64_t answer, unsigned low, unsigned bits)
{
    return (answer >> low) & ((UINT64_C(1) << bits) - 1);
}

/* 0, or the refusal: one of enum trestlepip_numbers. */
static inline unsigned trestlepip_number(uint64_t answer) { return (unsigned)trestlepip_field(answer, 0, 8); }

/* The status byte that the channel sees; 00 from every call but command. */
static inline unsigned trestlepip_status(uint64_t answer) { return (unsigned)trestlepip_field(answer, 8, 8); }

/* 1 if this very command completed a page, which now waits. */
static inline unsigned trestlepip_ready(uint64_t answer) { return (unsigned)trestlepip_field(answer, 16, 1); }

/* The overlay mark of the composed copy. */
static inline unsigned trestlepip_mark(uint64_t answer) { return (unsigned)trestlepip_field(answer, 17, 1); }

/* The cause of a load check: one of enum trestlepip_causes. */
static inline unsigned trestlepip_cause(uint64_t answer) { return (unsigned)trestlepip_field(answer, 18, 6); }

/* The lines that a space entered or a skip looked at; 0 where an immediate skip stands (see Start). */
static inline unsigned trestlepip_lines(uint64_t answer) { return (unsigned)trestlepip_field(answer, 24, 8); }

/* The number of the composed copy, up to 509. */
static inline unsigned trestlepip_copy_number(uint64_t answer) { return (unsigned)trestlepip_field(answer, 32, 9); }

/*
 * What an accepted write or copy modification load found unprintable; 0 in every other answer. Block hides the data check, and not these. The first
 * position counts from 1 in the record of a write, or in the text of the first segment that has one; 0 is for none.
 */
static inline unsigned trestlepip_first_unprintable(uint64_t answer) { return (unsigned)trestlepip_field(answer, 41, 8); }

/* How many positions were unprintable: in the record of a write, or in the text of all segments. What fills a line after its record never counts. */
static inline unsigned trestlepip_unprintables(uint64_t answer) { return (unsigned)trestlepip_field(answer, 49, 15); }

/* The bits of a status. An accepted command has ended; a waiting page makes the printer busy. */
enum trestlepip_status_bits {
    TRESTLEPIP_STATUS_BUSY = 0x10,
    TRESTLEPIP_STATUS_ENDED = 0x0C,
    TRESTLEPIP_STATUS_UNIT_CHECK = 0x02,    /* ask for the sense, before the next command sets it anew */
    TRESTLEPIP_STATUS_UNIT_EXCEPTION = 0x01 /* a space entered a line of channel 12 */
};

/*
 * The 24 bytes of Sense's reply: 0 the kind of check, 1 and 2 its causes, 3 how the printer stands, 4 to 21 always 0, 22 and 23 the length of an FCB
 * record whose sum is wrong, high byte first. The names below are of bits, by the byte that they stand in.
 */
enum trestlepip_sense_0 {
    TRESTLEPIP_SENSE_0_COMMAND_REJECT = 0x80, /* number 1 */
    TRESTLEPIP_SENSE_0_DATA_CHECK = 0x08,     /* an accepted command */
    TRESTLEPIP_SENSE_0_LOAD_CHECK = 0x02,     /* numbers 3 and 5 */
    TRESTLEPIP_SENSE_0_CHANNEL_9 = 0x01       /* a space entered a line of channel 9 */
};
enum trestlepip_sense_1 {
    TRESTLEPIP_SENSE_1_NOT_LISTED = 0x80,  /* of a command reject */
    TRESTLEPIP_SENSE_1_UNPRINTABLE = 0x80, /* of a data check: a byte that cannot be printed. Block hides this one */
    TRESTLEPIP_SENSE_1_NO_TABLE = 0x20,    /* the selected table is not loaded; table 0 served */
    TRESTLEPIP_SENSE_1_NO_MATCH = 0x10,    /* no line has the channel of the skip; the page is completed */
    TRESTLEPIP_SENSE_1_MULTIPLE = 0x08,    /* two characters in one place; the first one stays. Block hides this one */
    TRESTLEPIP_SENSE_1_LENGTH = 0x80,      /* of a load check: causes 5, 6, 8 and 9 */
    TRESTLEPIP_SENSE_1_SPACING = 0x40,     /* cause 2 */
    TRESTLEPIP_SENSE_1_EDGE = 0x20,        /* cause 4 */
    TRESTLEPIP_SENSE_1_CHANNEL = 0x10,     /* cause 1 */
    TRESTLEPIP_SENSE_1_SUM = 0x08          /* cause 3 */
};
enum trestlepip_sense_2 {
    TRESTLEPIP_SENSE_2_SEGMENT = 0x20, /* of a load check: cause 10 */
    TRESTLEPIP_SENSE_2_SEQUENCE = 0x10 /* cause 7 */
};
enum trestlepip_sense_3 {
    TRESTLEPIP_SENSE_3_READY = 0x80,  /* always */
    TRESTLEPIP_SENSE_3_EMPTY = 0x40,  /* no page is started or waiting */
    TRESTLEPIP_SENSE_3_BLOCKED = 0x20 /* Block is on */
};
enum trestlepip_sense_places { TRESTLEPIP_SENSE_COUNT_HIGH = 22, TRESTLEPIP_SENSE_COUNT_LOW = 23 };

/*
 * A cell of a page or a copy is two bytes: its code, then its rule mark, which is 1 where a rule is to be printed under the character, and else 0. A write
 * that merges a character with an underscore, either way round, sets the mark; later writes on the line keep it. A legend's cells have mark 0. Any other
 * mark, wherever it stands in the page, gets TRESTLEPIP_BAD_STORE from every call except Start.
 *
 * Cell i of a line, of a page or of a copy, counted from 0, where `cells` is the first byte of that:
 */
static inline uint8_t trestlepip_code_at(const uint8_t *cells, size_t i) { return cells[TRESTLEPIP_CELL_BYTES * i]; }
static inline uint8_t trestlepip_mark_at(const uint8_t *cells, size_t i) { return cells[TRESTLEPIP_CELL_BYTES * i + 1]; }

/* A code is two bits of module, and six of location. These locations are the blank and the underscore of every module. */
enum trestlepip_locations { TRESTLEPIP_BLANK = 0x00, TRESTLEPIP_UNDERSCORE = 0x2D };

static inline unsigned trestlepip_module(uint8_t code) { return code >> 6; }
static inline unsigned trestlepip_location(uint8_t code) { return code & 0x3Fu; }

/*
 * Where each field stands in the state, as docs/STATE.md says: for a program that looks into one, or keeps one over night. A name without a value
 * stands for the byte after the one named before it.
 */
enum trestlepip_places {
    TRESTLEPIP_MODULES = 4,        /* pitches */
    TRESTLEPIP_SLOTS = 4,          /* translate tables */
    TRESTLEPIP_SEQUENCE_MOST = 16, /* bytes of the overlay sequence; those after the count are 0 */
    TRESTLEPIP_FCB_MOST = 144,     /* bytes of the FCB, likewise */
    TRESTLEPIP_AT_FORM = 0, TRESTLEPIP_LAST_OF_FORM, /* high byte first */
    TRESTLEPIP_AT_PITCH, TRESTLEPIP_LAST_OF_PITCH = TRESTLEPIP_AT_PITCH + TRESTLEPIP_MODULES - 1,
    TRESTLEPIP_AT_SKIP, /* the way of skipping */
    TRESTLEPIP_AT_BLOCK,
    TRESTLEPIP_AT_FCB_COUNT,
    TRESTLEPIP_AT_LOADED, TRESTLEPIP_LAST_OF_LOADED = TRESTLEPIP_AT_LOADED + TRESTLEPIP_SLOTS - 1,
    TRESTLEPIP_AT_SELECTED,
    TRESTLEPIP_AT_SEQUENCE_COUNT,
    TRESTLEPIP_AT_COPY_NUMBER,
    TRESTLEPIP_AT_LINE,
    TRESTLEPIP_AT_WRITTEN,
    TRESTLEPIP_AT_WAITING,
    TRESTLEPIP_AT_RESET_DUE,
    TRESTLEPIP_AT_SENSE_0, TRESTLEPIP_AT_SENSE_1, TRESTLEPIP_AT_SENSE_2, TRESTLEPIP_AT_SENSE_22, TRESTLEPIP_AT_SENSE_23,
    TRESTLEPIP_AT_SEQUENCE, TRESTLEPIP_LAST_OF_SEQUENCE = TRESTLEPIP_AT_SEQUENCE + TRESTLEPIP_SEQUENCE_MOST - 1,
    TRESTLEPIP_AT_FCB, TRESTLEPIP_LAST_OF_FCB = TRESTLEPIP_AT_FCB + TRESTLEPIP_FCB_MOST - 1,
    TRESTLEPIP_AT_CHANNEL_PAGE, TRESTLEPIP_LAST_OF_CHANNEL_PAGE, /* the page counters, high byte first */
    TRESTLEPIP_AT_TRANSFER_PAGE, TRESTLEPIP_LAST_OF_TRANSFER_PAGE,
    TRESTLEPIP_AT_FUSER_PAGE, TRESTLEPIP_LAST_OF_FUSER_PAGE,
    TRESTLEPIP_AT_STACKER_PAGE, TRESTLEPIP_LAST_OF_STACKER_PAGE,
    TRESTLEPIP_AFTER_ALL,
    TRESTLEPIP_SENSE_KEPT = TRESTLEPIP_AT_SEQUENCE - TRESTLEPIP_AT_SENSE_0
};

/*
 * What Start is told of an immediate skip to the channel that the current line has already, with nothing written on that line. In the new way, which is
 * the usual one, the form stands: the answer has 0 lines moved and no page. In the old way it goes on to the next line of that channel, as every other
 * skip does; on a form with one such line that completes a page, which may be empty. A write and skip goes on in both.
 */
enum trestlepip_ways { TRESTLEPIP_NEW_WAY = 0, TRESTLEPIP_OLD_WAY = 1 };

/*
 * Start: a form length in 24ths of an inch (72, 84, 96, 132, 144, 168, 192, 204, 240, 264, 288), the pitches of four modules (0 if absent, else 10, 12
 * or 15; module 0 must be fitted) and the way of skipping (enum trestlepip_ways). What the buffers held before does not matter. Refusals, in this
 * order: 9 for sizes, 10. A refused start leaves the state all zeros, which every other call refuses (a state buffer of the wrong size is not written),
 * and writes no other buffer.
 */
uint64_t trestlepip_start(uint32_t form,
        uint32_t pitch0, uint32_t pitch1, uint32_t pitch2, uint32_t pitch3, uint32_t skip,
        uint8_t *state, size_t state_len, uint8_t *page, size_t page_len,
        uint8_t *legends, size_t legends_len, uint8_t *tables, size_t tables_len);

/*
 * Command: a command byte, its record, and a reply buffer, which Sense (04) alone writes. Control and immediate commands ignore their record.
 * Refusals, in this order: 9, 1, 4, 2, 5, 3, 8, 11. No-Op and Sense never get 4.
 */
uint64_t trestlepip_command(uint8_t command,
        const uint8_t *record, size_t record_len, uint8_t *reply, size_t reply_len,
        uint8_t *state, size_t state_len, uint8_t *page, size_t page_len,
        uint8_t *legends, size_t legends_len, uint8_t *tables, size_t tables_len);

/*
 * Compose: the copy with this index, from 1, of the page that waits, as P lines of 204 cells over the front of `out`: P times TRESTLEPIP_LINE_BYTES
 * bytes. Refusals, in this order: 9, 6, 7, 8. Number 7, and no other, ends a loop over the copies.
 *
 * Beware: the bytes of `out` after the P lines keep what they held. If that was a copy of a page with more lines, its last lines still stand there, and
 * must not be printed with this one. Set `out` to 00 before each call, or take trestlepip_printable_lines(state) lines from it and no more.
 */
uint64_t trestlepip_compose(uint32_t copy,
        uint8_t *out, size_t out_len,
        const uint8_t *state, size_t state_len, const uint8_t *page, size_t page_len,
        const uint8_t *legends, size_t legends_len, const uint8_t *tables, size_t tables_len);

/*
 * Release: the page that waits is done with, and counted into the channel's page counter; a reset that Initialize left due is done. Refusals, in this
 * order: 9, 6, 13. With 13 the page still waits: report pages stacked, or restart, and release it again. A program that reports none meets it after
 * TRESTLEPIP_MOST_PAGES releases, unless it restarts in between.
 */
uint64_t trestlepip_release(
        uint8_t *state, size_t state_len, uint8_t *page, size_t page_len,
        uint8_t *legends, size_t legends_len, uint8_t *tables, size_t tables_len);

/*
 * The page counters, one for each place of the paper path: channel, transfer, fuser, stacker. Each is two bytes, and goes on from FFFF to 0000. Start
 * puts all at zero; a Release counts into the channel's; Initialize and its reset leave them. A page is counted once, whatever its copies.
 */
static inline unsigned trestlepip_page_counter(const uint8_t *state, size_t at) { return state[at] * 256u + state[at + 1]; }
static inline unsigned trestlepip_channel_page(const uint8_t *state) { return trestlepip_page_counter(state, TRESTLEPIP_AT_CHANNEL_PAGE); }
static inline unsigned trestlepip_transfer_page(const uint8_t *state) { return trestlepip_page_counter(state, TRESTLEPIP_AT_TRANSFER_PAGE); }
static inline unsigned trestlepip_fuser_page(const uint8_t *state) { return trestlepip_page_counter(state, TRESTLEPIP_AT_FUSER_PAGE); }
static inline unsigned trestlepip_stacker_page(const uint8_t *state) { return trestlepip_page_counter(state, TRESTLEPIP_AT_STACKER_PAGE); }

/* The pages between two counters, of which `later` is the one further on. Between channel and stacker there are at most TRESTLEPIP_MOST_PAGES. */
enum trestlepip_page_counts { TRESTLEPIP_MOST_PAGES = 32767 };
static inline unsigned trestlepip_pages_between(unsigned counter, unsigned later) { return (counter - later) & 0xFFFFu; }

/*
 * A page passed this station: its counter goes on by one. Refusals, in this order: 9, 12. No page can pass a station that has not passed the one before
 * it: with 12 the counter equals that one's (the channel's, for transfer).
 */
uint64_t trestlepip_transferred(
        uint8_t *state, size_t state_len, const uint8_t *page, size_t page_len,
        const uint8_t *legends, size_t legends_len, const uint8_t *tables, size_t tables_len);
uint64_t trestlepip_fused(
        uint8_t *state, size_t state_len, const uint8_t *page, size_t page_len,
        const uint8_t *legends, size_t legends_len, const uint8_t *tables, size_t tables_len);
uint64_t trestlepip_stacked(
        uint8_t *state, size_t state_len, const uint8_t *page, size_t page_len,
        const uint8_t *legends, size_t legends_len, const uint8_t *tables, size_t tables_len);

/*
 * Cancel: the pages that have not passed transfer are given up; the channel's counter goes back to transfer's. Restart: so are all that are not
 * stacked; the counters of channel, transfer and fuser go back to the stacker's. Neither touches the page, waiting or started. Refusal: 9.
 */
uint64_t trestlepip_cancel(
        uint8_t *state, size_t state_len, const uint8_t *page, size_t page_len,
        const uint8_t *legends, size_t legends_len, const uint8_t *tables, size_t tables_len);
uint64_t trestlepip_restart(
        uint8_t *state, size_t state_len, const uint8_t *page, size_t page_len,
        const uint8_t *legends, size_t legends_len, const uint8_t *tables, size_t tables_len);

/*
 * Feet: the paper that one transmission takes. `initial` and `final` are the channel's page counter before and after it (trestlepip_channel_page). The
 * pages are the difference of the two modulo 65,536, so that the counter may have gone on from FFFF to 0000; `copies` are those of each page, from 1 to
 * 255; `form` is the form length in 24ths of an inch, as for Start. A foot has 288 of these: the feet are pages times copies times length, over 288.
 * `*feet` is set to the double nearest to this fraction. It is equal to it where a double is, and never further from it than 2 to the power -30 feet,
 * which is less than a billionth of a foot. Refusal: 16, and then `*feet` is 0.0. This call is lent no stores, and tells nothing but its number.
 */
uint64_t trestlepip_feet(uint16_t initial, uint16_t final, uint32_t copies, uint32_t form, double *feet);

/*
 * The rest is trestlepip_printable_lines, which stands last, and what it is made of. Each part judges some fields of a state as docs/STATE.md says, so
 * that a program which was handed a state can tell whether a printer has it.
 */
static inline int trestlepip_at_most(const uint8_t *bytes, size_t count, unsigned most)
{
    for (size_t i = 0; i < count; i++)
        if (bytes[i] > most)
            return 0;
    return 1;
}

static inline int trestlepip_form_is_listed(unsigned form)
{
    switch (form) {
    case 72: case 84: case 96: case 132: case 144: case 168: case 192: case 204: case 240: case 264: case 288:
        return 1;
    default:
        return 0;
    }
}

static inline int trestlepip_pitches_are_listed(const uint8_t *pitch)
{
    for (size_t i = 0; i < TRESTLEPIP_MODULES; i++)
        if (pitch[i] != 0 && pitch[i] != 10 && pitch[i] != 12 && pitch[i] != 15)
            return 0;
    return pitch[0] != 0;
}

/* While a page waits no line is marked written; without one no reset is due. */
static inline int trestlepip_flags_agree(const uint8_t *state)
{
    unsigned waiting = state[TRESTLEPIP_AT_WAITING];
    return state[TRESTLEPIP_AT_SKIP] <= TRESTLEPIP_OLD_WAY && state[TRESTLEPIP_AT_BLOCK] <= 1
        && state[TRESTLEPIP_AT_LOADED] == 1 && trestlepip_at_most(state + TRESTLEPIP_AT_LOADED, TRESTLEPIP_SLOTS, 1)
        && waiting <= 1 && state[TRESTLEPIP_AT_WRITTEN] <= 1 - waiting && state[TRESTLEPIP_AT_RESET_DUE] <= waiting;
}

/* Whether calls can lead to these counters: seen from the stacker's, none is ahead of the one before it, and the channel's is ahead by no more than
   TRESTLEPIP_MOST_PAGES. */
static inline int trestlepip_counters_are_reachable(const uint8_t *state)
{
    unsigned stacker = trestlepip_stacker_page(state);
    unsigned fuser = trestlepip_pages_between(trestlepip_fuser_page(state), stacker);
    unsigned transfer = trestlepip_pages_between(trestlepip_transfer_page(state), stacker);
    unsigned channel = trestlepip_pages_between(trestlepip_channel_page(state), stacker);
    return fuser <= transfer && transfer <= channel && channel <= TRESTLEPIP_MOST_PAGES;
}

/* Whether the load takes these pairs; 00 follows them. */
static inline int trestlepip_sequence_is_good(const uint8_t *sequence, size_t count)
{
    unsigned copies = 0;
    if (count == 0 || count > TRESTLEPIP_SEQUENCE_MOST || count % 2 != 0)
        return 0;
    for (size_t i = 0; i < count; i += 2) {
        if (sequence[i] == 0 || sequence[i + 1] > 1)
            return 0;
        copies += sequence[i];
    }
    return copies <= 255 && trestlepip_at_most(sequence + count, TRESTLEPIP_SEQUENCE_MOST - count, 0);
}

/* The height of a line in 24ths of an inch; 0 if the upper half of its FCB byte is no spacing. */
static inline unsigned trestlepip_line_height(uint8_t fcb_byte)
{
    switch (fcb_byte >> 4) {
    case 0: return 4;
    case 1: return 3;
    case 3: return 2;
    default: return 0;
    }
}

/* The printable lines of an FCB, or 0 if its load refuses it. The spacing changes only after whole half inches, and every form is whole half inches. */
static inline unsigned trestlepip_fcb_lines(const uint8_t *fcb, size_t count, unsigned form)
{
    const unsigned half_inch = 12, last_channel = 12;
    unsigned top = 0, lines = 0;
    if (count > TRESTLEPIP_FCB_MOST || !trestlepip_at_most(fcb + count, TRESTLEPIP_FCB_MOST - count, 0))
        return 0;
    for (size_t i = 0; i < count; i++) {
        unsigned height = trestlepip_line_height(fcb[i]), channel = fcb[i] & 0x0Fu;
        int changes = i > 0 && height != trestlepip_line_height(fcb[i - 1]);
        int printable = top >= half_inch && top + half_inch < form;
        if (height == 0 || (changes && top % half_inch != 0) || channel > last_channel || (channel != 0 && !printable))
            return 0;
        top += height;
        lines += printable ? 1u : 0u;
    }
    return top == form ? lines : 0;
}

/*
 * P, the printable lines of the FCB in use: so many lines of a composed copy are the copy's. It is 12 to 132, and 0 for a state that no printer has:
 * one that every call except Start refuses with TRESTLEPIP_BAD_STORE, whatever the other stores hold. It reads the TRESTLEPIP_STATE_BYTES bytes of
 * the state, and no other store: a call may refuse the page or the legends beside a good state. While a page waits P stays the same.
 */
static inline unsigned trestlepip_printable_lines(const uint8_t *state)
{
    unsigned form = state[TRESTLEPIP_AT_FORM] * 256u + state[TRESTLEPIP_LAST_OF_FORM];
    unsigned lines = trestlepip_fcb_lines(state + TRESTLEPIP_AT_FCB, state[TRESTLEPIP_AT_FCB_COUNT], form);
    int good = trestlepip_form_is_listed(form) && trestlepip_pitches_are_listed(state + TRESTLEPIP_AT_PITCH) && trestlepip_flags_agree(state)
        && trestlepip_sequence_is_good(state + TRESTLEPIP_AT_SEQUENCE, state[TRESTLEPIP_AT_SEQUENCE_COUNT])
        && state[TRESTLEPIP_AT_SELECTED] < TRESTLEPIP_SLOTS && state[TRESTLEPIP_AT_COPY_NUMBER] != 0
        && state[TRESTLEPIP_AT_LINE] >= 1 && state[TRESTLEPIP_AT_LINE] <= lines && trestlepip_counters_are_reachable(state);
    return good ? lines : 0;
}

#ifdef __cplusplus
}
#endif

#endif
