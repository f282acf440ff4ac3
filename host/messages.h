/* What the spooler says on standard error, each message once; docs/HELP-CARD.md explains them. The first three begin a line, all others end one. */
#ifndef MESSAGES_H
#define MESSAGES_H

#define SAYS_ON_SHEET "sheet %zu (%s, page %zu of %zu), line %u, %s: "
#define SAYS_BEFORE_SHEET "before sheet %zu (%s, page %zu of %zu), %s: "
#define SAYS_BEFORE_SHEETS "before any sheet, %s: "

#define SAYS_DATA_CHECK "data check %02X, %s\n"
#define SAYS_UNPRINTABLE "data check %02X, %s: first in column %u, %u in all\n"
#define SAYS_HIDDEN "Block hid data check %02X, %s: first in column %u, %u in all\n"
#define SAYS_LEGEND "data check %02X, %s: first at place %u in a legend's text, %u in all\n"
#define SAYS_HIDDEN_LEGEND "Block hid data check %02X, %s: first at place %u in a legend's text, %u in all\n"
#define SAYS_CHANNEL_9 "channel 9 came, which the form does not have\n"
#define SAYS_CHANNEL_12 "channel 12 came at the wrong line\n"
#define SAYS_NO_CHANNEL_12 "channel 12 did not come at the last weight\n"
#define SAYS_OPENING "the skip to the first line did not go as planned\n"
#define SAYS_REFUSAL "refusal %u, %s\n"
#define SAYS_LOAD_CHECK "refusal %u, %s, cause %u, %s\n"

#define SAYS_NOT_WRITTEN "the sheets could not be written: %s\n"
#define SAYS_HOLD_BACK "hold back all copies of sheet %zu: %s, page %zu of %zu\n"
#define SAYS_HOLD_ALL "hold back every sheet\n"
#define SAYS_SOME_OUT "stopped: sheets 1 to %zu of %zu are out and good, except those to hold back; the rest did not come whole\n"
#define SAYS_NONE_OUT "stopped: no sheet is out and good\n"
#define SAYS_PAGES "pages that went out, by the printer's counters: %zu; feet of paper: %.1f\n"

#define SAYS_USAGE "usage: morning [--heads] [--copy NAME] FILE DATE\n"
#define SAYS_NO_MEMORY "there is not enough memory\n"
#define SAYS_NOT_READ "%s cannot be read: %s\n"
#define SAYS_NO_WEIGHTS "%s has no weights\n"
#define SAYS_MORE_LINES "%s: %zu more bad lines\n"
#define SAYS_LONG_LINE "%s:%zu: the line is longer than %d bytes\n"
#define SAYS_CONTROL "%s:%zu: the line has the byte %02X, which is no text\n"
#define SAYS_QUOTE "%s:%zu: a double quote is not closed, or text follows it\n"
#define SAYS_FIELDS "%s:%zu: the number of fields is %zu, not 4: place, tag, name, kilograms\n"
#define SAYS_EMPTY "%s:%zu: the field %s is empty\n"
#define SAYS_LONG_FIELD "%s:%zu: the field %s is longer than %zu characters\n"
#define SAYS_WEIGHT "%s:%zu: the weight \"%s\" is not from 0.1 to 9999.9 with at most one decimal\n"
#define SAYS_TWICE "%s:%zu: the tag %s stands in this place on line %zu already\n"

#endif
