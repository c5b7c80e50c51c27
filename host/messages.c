/* What is said on standard error: messages, refusals in words, how far a listing is. */
#include <stdarg.h>
#include <stdio.h>
#include <time.h>
#include <unistd.h>

#include "shelf.h"

static const struct refusal refusals[] = {
    {NULL, NULL},
    {"SizeLimit", "a size is above its limit: a section may have 2147483647 bytes"},
    {"UnexpectedEof", "the bytes end before what should be there"},
    {"BadUnsignedLeb128", "an unsigned LEB128 number has more bits than its place allows"},
    {"BadSignedLeb128", "a signed LEB128 number has more than 64 bits"},
    {"UnknownReservedLength", "the length of a unit is a reserved number, 0xfffffff0 to 0xfffffffe"},
    {"UnknownVersion", "the version of DWARF is not 2, 3, 4 or 5"},
    {"UnsupportedAddressSize", "an address does not have 1, 2, 4 or 8 bytes"},
    {"UnknownUnitType", "the type of the unit is none of those of DWARF 5, 1 to 6"},
    {"AbbreviationTagZero", "an abbreviation in the table has the tag 0"},
    {"InvalidAbbreviationChildren", "an abbreviation in the table neither has children (1) nor has none (0)"},
    {"AttributeNameZero", "an attribute in the table has a form, but the name 0"},
    {"AttributeFormZero", "an attribute in the table has a name, but the form 0"},
    {"TooManyAttributes", "an abbreviation in the table has more than 64 attributes"},
    {"DuplicateAbbreviationCode", "two abbreviations in the table have the same code"},
    {"AbbreviationsFull", "the table has more abbreviations than there is room for"},
    {"InvalidAbbreviationCode", "the entry's code is not in the table of its unit"},
    {"UnknownForm", "a value has a form that is not known"},
    {"InvalidImplicitConst", "an indirect form is DW_FORM_implicit_const, whose value only a table can have"},
    {"OffsetOutOfBounds", "an offset lies outside of what it points into"},
    {"NoEntryAtGivenOffset", "there is no entry at the offset"},
    {"InvalidTreeLevel", "the tree has no such level here"},
    {"MissingTypeUnit", "no unit of .debug_types has the signature"},
    {"PageTooShort", "a lent page has fewer than 1980 bytes"},
};

struct refusal refusal_of(uint64_t number)
{
    if (number == 0 || number >= sizeof refusals / sizeof refusals[0])
        return (struct refusal){"unknown", "a number that this program does not know"};
    return refusals[number];
}

static const char *shown; /* the file whose progress is on the terminal's last line */
static size_t shown_all;
static time_t shown_at;
static bool is_drawn;

static time_t seconds(void)
{
    struct timespec now;
    return clock_gettime(CLOCK_MONOTONIC, &now) == 0 ? now.tv_sec : 0;
}

/* Only where the listing goes elsewhere and standard error is a terminal. */
void progress_start(const char *name, size_t all)
{
    shown = isatty(STDERR_FILENO) && !isatty(STDOUT_FILENO) ? name : NULL;
    shown_all = all;
    shown_at = seconds();
}

void progress_at(size_t done)
{
    if (shown == NULL || seconds() == shown_at)
        return;
    shown_at = seconds();
    fprintf(stderr, "\rshelf: %s: %zu of %zu KB", shown, done / 1000, shown_all / 1000);
    is_drawn = true;
}

void progress_end(void)
{
    if (is_drawn)
        fputs("\r\033[K", stderr);
    is_drawn = false;
    shown = NULL;
}

void say(const char *format, ...)
{
    va_list words;
    if (is_drawn)
        fputs("\r\033[K", stderr);
    is_drawn = false;
    fputs("shelf: ", stderr);
    va_start(words, format);
    vfprintf(stderr, format, words);
    va_end(words);
    fputc('\n', stderr);
}
