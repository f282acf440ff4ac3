/*
 * The weights, read from a file of comma-separated values, one line an animal: place, tag, name, kilograms.
 *
 *     place,tag,name,kilograms
 *     Calf house,0412,Anemone,118.4
 *     "Upper farm, calves",0031,"Bo ""Red""",96
 *
 * Blank lines, lines that begin with # and the heading before the first animal are passed over. Blanks around a field are dropped. A field may stand
 * in double quotes, and then have commas; a doubled quote in it is a quote. Kilograms are digits, or digits, a point and one digit: 0.1 to 9999.9. A
 * line with the single word SAMPLE says that the weights are not real. Lines may end in CR LF; the file may begin with a UTF-8 byte order mark.
 */
#include <errno.h>
#include <stdlib.h>
#include <string.h>

#include "messages.h"
#include "morning.h"

enum { LINE_MOST = 1000, FAULTS_SAID = 20, KILOGRAMS_MOST = 9999, BUCKETS = 1 << 14, DELETE = 0x7F };
enum fields { PLACE, TAG, NAME, KILOGRAMS, FIELDS };

/* The fields as the heading and the messages name them, and how many characters they may have. */
static const struct {
    const char *name;
    size_t width;
} columns[FIELDS] = {{"place", PLACE_WIDTH}, {"tag", TAG_WIDTH}, {"name", NAME_WIDTH}, {"kilograms", LINE_MOST}};

static const char blanks[] = " \t", digits[] = "0123456789", byte_order_mark[] = "\xEF\xBB\xBF";

/*
 * A file as it is read: `text` is line number `line`, of `length` bytes, of which LINE_MOST are kept. Animals are found by place and tag: a bucket has
 * the number, from 1, of the latest animal that falls into it, and that animal has the number of the one before, 0 for none.
 */
struct reader {
    struct herd *herd;
    FILE *from, *reports;
    const char *file;
    size_t line, length, faults;
    bool no_memory;
    char text[LINE_MOST + 1];
    size_t buckets[BUCKETS];
};

/* Counts a bad line, and answers whether it is among those to be told. */
static bool is_told(struct reader *reader)
{
    return ++reader->faults <= FAULTS_SAID;
}

/* Reads the next line, without its end; false at the end of the file. */
static bool next_line(struct reader *reader)
{
    int c;
    reader->length = 0;
    reader->line++;
    while ((c = getc(reader->from)) != EOF && c != '\n')
        if (reader->length++ < LINE_MOST)
            reader->text[reader->length - 1] = (char)c;
    reader->text[reader->length < LINE_MOST ? reader->length : LINE_MOST] = '\0';
    return c != EOF || reader->length > 0;
}

static void drop_byte_order_mark(struct reader *reader)
{
    size_t mark = strlen(byte_order_mark);
    if (strncmp(reader->text, byte_order_mark, mark) == 0)
        memmove(reader->text, reader->text + mark, sizeof reader->text - mark);
}

static void drop_carriage_return(struct reader *reader)
{
    if (reader->length > 0 && reader->text[reader->length - 1] == '\r')
        reader->text[--reader->length] = '\0';
}

static char *without_blanks(char *field)
{
    field += strspn(field, blanks);
    size_t length = strlen(field);
    while (length > 0 && strchr(blanks, field[length - 1]))
        length--;
    field[length] = '\0';
    return field;
}

/* The rest of a line after a field that ends here: what follows the comma, NULL at the end of the line. */
static char *rest_after(char *end)
{
    return *end == ',' ? end + 1 : NULL;
}

/* Takes the quoted field that begins here, and makes its doubled quotes single; NULL if its quote is not closed, or text follows. */
static char *quoted_field(char *quote, char **rest)
{
    char *field = quote + 1, *from = field, *to = field;
    for (; *from != '\0' && (from[0] != '"' || from[1] == '"'); from++) {
        from += *from == '"';
        *to++ = *from;
    }
    if (*from == '\0')
        return NULL;
    from++;
    from += strspn(from, blanks);
    *rest = rest_after(from);
    if (*from != ',' && *from != '\0')
        return NULL;
    *to = '\0';
    return field;
}

static char *plain_field(char *field, char **rest)
{
    char *end = field + strcspn(field, ",");
    *rest = rest_after(end);
    *end = '\0';
    return field;
}

/* Takes the next field off the rest of a line; NULL for a bad quote. */
static char *next_field(char **rest)
{
    char *begin = *rest + strspn(*rest, blanks);
    char *field = *begin == '"' ? quoted_field(begin, rest) : plain_field(begin, rest);
    return field ? without_blanks(field) : NULL;
}

/* Splits a line in place. Returns how many fields it has, of which FIELDS are kept; 0 for a bad quote. */
static size_t split(char *text, char **fields)
{
    size_t count = 0;
    for (char *rest = text; rest; count++) {
        char *field = next_field(&rest);
        if (!field)
            return 0;
        if (count < FIELDS)
            fields[count] = field;
    }
    return count;
}

static bool is_heading(char **fields)
{
    bool same = true;
    for (size_t i = 0; i < FIELDS; i++)
        same = same && strcmp(fields[i], columns[i].name) == 0;
    return same;
}

/* Whether a field fits its column; says it if not. */
static bool is_field_good(struct reader *reader, size_t column, const char *field)
{
    size_t length = text_length(field);
    bool good = length > 0 && length <= columns[column].width;
    if (!good && is_told(reader)) {
        if (length == 0)
            fprintf(reader->reports, SAYS_EMPTY, reader->file, reader->line, columns[column].name);
        else
            fprintf(reader->reports, SAYS_LONG_FIELD, reader->file, reader->line, columns[column].name, columns[column].width);
    }
    return good;
}

static bool are_fields_good(struct reader *reader, char **fields)
{
    bool good = true;
    for (size_t i = 0; good && i < FIELDS; i++)
        good = is_field_good(reader, i, fields[i]);
    return good;
}

/* A weight in tenths; 0 for what is none. Nothing is rounded. */
static unsigned tenths_of(const char *text)
{
    size_t whole = strspn(text, digits);
    const char *rest = text + whole;
    bool decimal = rest[0] == '.' && strspn(rest + 1, digits) == 1 && rest[2] == '\0';
    unsigned long kilograms = strtoul(text, NULL, 10);
    if (whole == 0 || (*rest != '\0' && !decimal) || kilograms > KILOGRAMS_MOST)
        return 0;
    return (unsigned)kilograms * 10 + (decimal ? (unsigned)(rest[1] - '0') : 0);
}

static struct place *place_of(const struct herd *herd, const char *title)
{
    for (size_t i = 0; i < herd->place_count; i++)
        if (strcmp(herd->places[i].title, title) == 0)
            return &herd->places[i];
    return NULL;
}

static size_t bucket_of(size_t place, const char *tag)
{
    size_t mixed = place;
    for (; *tag != '\0'; tag++)
        mixed = mixed * 31 + (unsigned char)*tag;
    return mixed % BUCKETS;
}

static const struct animal *animal_of(const struct reader *reader, size_t place, const char *tag)
{
    const struct animal *animals = reader->herd->animals;
    for (size_t number = reader->buckets[bucket_of(place, tag)]; number > 0; number = animals[number - 1].chained)
        if (animals[number - 1].place == place && strcmp(animals[number - 1].tag, tag) == 0)
            return &animals[number - 1];
    return NULL;
}

void *grown(void *(*allocate)(void *array, size_t bytes), void *array, size_t count, size_t size)
{
    /* A full array is one whose count is 0 or a power of two: it doubles. */
    bool full = (count & (count - 1)) == 0;
    size_t room = count == 0 ? 1 : 2 * count;
    if (!full)
        return array;
    return room <= SIZE_MAX / size ? allocate(array, room * size) : NULL;
}

static struct place *add_place(struct herd *herd, const char *title)
{
    struct place *places = grown(herd->allocate, herd->places, herd->place_count, sizeof *places);
    if (!places)
        return NULL;
    herd->places = places;
    struct place *place = &places[herd->place_count++];
    *place = (struct place){.first = herd->animal_count};
    strcpy(place->title, title);
    return place;
}

/* Adds an animal at the end of its place. */
static void add_animal(struct reader *reader, struct place *place, char **fields, unsigned tenths)
{
    struct herd *herd = reader->herd;
    struct animal *animals = grown(herd->allocate, herd->animals, herd->animal_count, sizeof *animals);
    reader->no_memory = !animals;
    if (!animals)
        return;
    size_t at = herd->animal_count++, index = (size_t)(place - herd->places), *bucket = &reader->buckets[bucket_of(index, fields[TAG])];
    herd->animals = animals;
    animals[at] = (struct animal){.tenths = tenths, .line = reader->line, .place = index, .chained = *bucket};
    strcpy(animals[at].tag, fields[TAG]);
    strcpy(animals[at].name, fields[NAME]);
    *bucket = at + 1;
    if (place->heads++ > 0)
        animals[place->last].next = at;
    place->last = at;
    place->tenths += tenths;
}

/* Takes an animal whose fields are good, unless its place has the tag already. */
static void take_weight(struct reader *reader, char **fields, unsigned tenths)
{
    struct herd *herd = reader->herd;
    struct place *place = place_of(herd, fields[PLACE]);
    const struct animal *earlier = place ? animal_of(reader, (size_t)(place - herd->places), fields[TAG]) : NULL;
    if (earlier && is_told(reader))
        fprintf(reader->reports, SAYS_TWICE, reader->file, reader->line, earlier->tag, earlier->line);
    if (earlier)
        return;
    if (!place)
        place = add_place(herd, fields[PLACE]);
    if (place)
        add_animal(reader, place, fields, tenths);
    else
        reader->no_memory = true;
}

static void take_animal(struct reader *reader, char **fields)
{
    if (!are_fields_good(reader, fields))
        return;
    unsigned tenths = tenths_of(fields[KILOGRAMS]);
    if (tenths > 0)
        take_weight(reader, fields, tenths);
    else if (is_told(reader))
        fprintf(reader->reports, SAYS_WEIGHT, reader->file, reader->line, fields[KILOGRAMS]);
}

static void say_count(const struct reader *reader, size_t count)
{
    if (count == 0)
        fprintf(reader->reports, SAYS_QUOTE, reader->file, reader->line);
    else
        fprintf(reader->reports, SAYS_FIELDS, reader->file, reader->line, count);
}

/* A heading stands before the first animal. */
static void take_fields(struct reader *reader, char **fields, size_t count)
{
    bool is_sample = count == 1 && strcmp(fields[0], "SAMPLE") == 0;
    bool may_be_heading = reader->herd->animal_count == 0;
    if (is_sample)
        reader->herd->sample = true;
    else if (count != FIELDS && is_told(reader))
        say_count(reader, count);
    else if (count == FIELDS && !(may_be_heading && is_heading(fields)))
        take_animal(reader, fields);
}

static bool is_passed_over(const char *text)
{
    return text[0] == '#' || text[strspn(text, blanks)] == '\0';
}

static void take_text(struct reader *reader)
{
    char *fields[FIELDS];
    if (reader->line == 1)
        drop_byte_order_mark(reader);
    if (!is_passed_over(reader->text))
        take_fields(reader, fields, split(reader->text, fields));
}

/* The place of the first control character other than a tab, which would go to the screen with a message; the line's length if there is none. */
static size_t control_at(const struct reader *reader)
{
    size_t at = 0;
    while (at < reader->length && ((unsigned char)reader->text[at] >= ' ' || reader->text[at] == '\t') && reader->text[at] != DELETE)
        at++;
    return at;
}

static void take_line(struct reader *reader)
{
    bool is_long = reader->length > LINE_MOST;
    if (is_long && is_told(reader))
        fprintf(reader->reports, SAYS_LONG_LINE, reader->file, reader->line, LINE_MOST);
    if (is_long)
        return;
    drop_carriage_return(reader);
    size_t at = control_at(reader);
    if (at == reader->length)
        take_text(reader);
    else if (is_told(reader))
        fprintf(reader->reports, SAYS_CONTROL, reader->file, reader->line, (unsigned)(unsigned char)reader->text[at]);
}

/* What the whole file comes to. */
static enum endings judge(const struct reader *reader, int error)
{
    if (reader->no_memory)
        fprintf(reader->reports, SAYS_NO_MEMORY);
    else if (ferror(reader->from))
        fprintf(reader->reports, SAYS_NOT_READ, reader->file, strerror(error));
    else if (reader->faults > FAULTS_SAID)
        fprintf(reader->reports, SAYS_MORE_LINES, reader->file, reader->faults - FAULTS_SAID);
    else if (reader->faults == 0 && reader->herd->animal_count == 0)
        fprintf(reader->reports, SAYS_NO_WEIGHTS, reader->file);
    else if (reader->faults == 0)
        return ALL_GOOD;
    return reader->no_memory ? STOPPED : REFUSED;
}

enum endings weights_read(struct herd *herd, FILE *from, const char *file, FILE *reports)
{
    struct reader reader = {.herd = herd, .from = from, .reports = reports, .file = file};
    while (!reader.no_memory && next_line(&reader))
        take_line(&reader);
    return judge(&reader, errno);
}
