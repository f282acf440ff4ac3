/* Short texts for a program's log: of an answer's number, of its cause, of a data check. Made by tools/text from docs/NUMBERS.md, whose words they are. */
#ifndef TRESTLEPIP_TEXT_H
#define TRESTLEPIP_TEXT_H

/* An answer's number. */
static inline const char *trestlepip_number_text(unsigned number)
{
    switch (number) {
    case 0: return "accepted";
    case 1: return "the command byte is not listed";
    case 2: return "a write's record is empty or over 204 bytes, or a load's over 8,192";
    case 3: return "the record of a load is faulty";
    case 4: return "a completed page waits for its release";
    case 5: return "a load came on a started page";
    case 6: return "no completed page waits";
    case 7: return "there is no copy with this index";
    case 8: return "the output or the reply buffer is too short";
    case 9: return "a lent buffer has the wrong size, or holds what no printer leaves there";
    case 10: return "the form length, a pitch or the way of skipping is not listed";
    case 11: return "one command would complete two pages";
    case 12: return "no page is between this station and the one before it";
    case 13: return "32,767 pages are released and not yet stacked";
    case 16: return "for feet of paper: the form length is not listed, or the copies are not 1 to 255";
    default: return "a number that is not listed";
    }
}

/* The cause of number 3. */
static inline const char *trestlepip_cause_text(unsigned cause)
{
    switch (cause) {
    case 1: return "FCB: a channel above 12";
    case 2: return "FCB: a spacing other than 6, 8 or 12 lines per inch, or a run of one spacing that is not whole half inches";
    case 3: return "FCB: the lines do not add up to the form";
    case 4: return "FCB: a channel in the first or last half inch";
    case 5: return "translate table: shorter than 256 bytes";
    case 6: return "overlay sequence: not 1 to 8 whole pairs";
    case 7: return "overlay sequence: a count of zero, a mark other than 0 or 1, or more than 255 copies";
    case 8: return "copy number: not exactly one byte, or zero";
    case 9: return "copy modification: empty, or ends inside a segment";
    case 10: return "copy modification: a zero among the six bytes, or text past position 204";
    default: return "no cause";
    }
}

/* A bit of sense byte 1 of a data check. */
static inline const char *trestlepip_data_check_text(unsigned bit)
{
    switch (bit) {
    case 0x80: return "a byte that cannot be printed";
    case 0x20: return "the selected table is not loaded";
    case 0x10: return "no line has the channel of the skip";
    case 0x08: return "two characters in one place";
    default: return "no data check";
    }
}

#endif
