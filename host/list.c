/* The units and entries of one build, read by the proved library, unit by unit and in a unit some hundred entries at a time, or its sheet by pages. */
#include <stdio.h>
#include <stdlib.h>

#include "../include/tehkumir.h"
#include "shelf.h"

enum {
    FULL = 15,          /* the refusal of a table for want of rows */
    CALLS = 512,        /* entries read at a time */
    WORDS = 40 * CALLS, /* for their answers; the longest, an entry of 64 attributes, must fit */
    LINE = 33           /* bytes of a line of a page */
};
enum { NEXT_UNIT, HAS_UNIT, HEADER, NEXT_WORDS = HEADER + HEADER_WORDS }; /* of a list of units */
enum { STATUS, IS_ENTRY, NEXT, NEXT_DEPTH, CALL_WORDS };                  /* before the ENTRY of each call */

/* The table that was read last, and the rows lent for it. */
struct table {
    uint64_t *rows;
    uint64_t *specs;
    size_t room; /* abbreviations that there is memory for */
    size_t lent; /* abbreviations lent for the table that is held */
    uint64_t offset;
    bool is_held;
};

struct listing {
    const struct options *options;
    const struct build *build;
    struct table table;
};

static size_t rows_of(size_t lent) { return 5 * lent; }
static size_t specs_of(size_t lent) { return 3 * 4 * lent; }

static bool reserve(struct table *table, size_t lent)
{
    if (lent <= table->room)
        return true;
    free(table->rows);
    free(table->specs);
    table->rows = calloc(rows_of(lent), sizeof *table->rows);
    table->specs = calloc(specs_of(lent), sizeof *table->specs);
    table->room = table->rows == NULL || table->specs == NULL ? 0 : lent;
    return table->room != 0;
}

/* The table at an offset into rows, as many as it needs: 15 doubles them. Answers 0 or the number of a refusal. */
static uint64_t read_table(struct listing *listing, uint64_t offset)
{
    struct table *table = &listing->table;
    const struct bytes *abbrev = &listing->build->abbrev;
    uint64_t refusal = FULL, count;
    if (table->is_held && table->offset == offset)
        return 0;
    table->is_held = false;
    for (size_t lent = 256; refusal == FULL && lent / 2 <= abbrev->count + 256; lent *= 2) {
        if (!reserve(table, lent)) {
            say("%s: no memory for %zu rows of a table", listing->build->name, lent);
            exit(NO_MEMORY);
        }
        refusal = tehkumir_abbreviations(abbrev->first, abbrev->count, offset, table->rows, rows_of(lent), table->specs, specs_of(lent),
                                         &count, 1);
        table->lent = lent;
    }
    table->is_held = refusal == 0;
    table->offset = offset;
    return refusal;
}

/* Says a refusal in words, after `where`, and ends the listing with its number. */
static enum status refuse(const struct listing *listing, uint64_t number, const char *where)
{
    struct refusal refusal = refusal_of(number);
    show_refusal(listing->options, number);
    say("%s: %s: refused %llu, %s: %s", listing->build->name, where, (unsigned long long)number, refusal.name, refusal.sentence);
    return REFUSED;
}

static enum status refuse_unit(const struct listing *listing, uint64_t number, uint64_t unit)
{
    char where[160];
    snprintf(where, sizeof where, "the unit header at offset %llu (0x%llx) of %s", (unsigned long long)unit, (unsigned long long)unit,
             listing->build->section);
    return refuse(listing, number, where);
}

static enum status refuse_table(const struct listing *listing, uint64_t number, const uint64_t *header)
{
    char where[160];
    snprintf(where, sizeof where, "unit %llu of %s, its table at offset %llu (0x%llx) of the section of tables",
             (unsigned long long)header[OFFSET], listing->build->section, (unsigned long long)header[TABLE],
             (unsigned long long)header[TABLE]);
    return refuse(listing, number, where);
}

static enum status refuse_entry(const struct listing *listing, uint64_t number, const uint64_t *header, uint64_t offset)
{
    char where[160];
    snprintf(where, sizeof where, "unit %llu of %s, the entry at offset %llu of the unit (0x%llx of the section)",
             (unsigned long long)header[OFFSET], listing->build->section, (unsigned long long)offset,
             (unsigned long long)(header[OFFSET] + offset));
    return refuse(listing, number, where);
}

/* Where reading of a unit's entries stands. */
struct place {
    size_t at; /* from the first entry on */
    int64_t depth;
};

/* Shows the entries in the words of some calls, as far as all of their words are there; for a sheet it only passes them. A refusal is told by its
 * number. */
static uint64_t show_calls(const struct listing *listing, const uint64_t *header, const uint64_t *words, size_t calls, size_t count,
                           struct place *place)
{
    struct place from = *place;
    size_t w = 0;
    for (size_t i = 0; i < calls && place->at < count && w + CALL_WORDS + TEHKUMIR_ENTRY_WORDS <= WORDS; i++) {
        const uint64_t *entry = words + w + CALL_WORDS;
        if (words[w + STATUS] != 0)
            return words[w + STATUS];
        size_t end = w + CALL_WORDS + TEHKUMIR_ENTRY_WORDS + (size_t)entry[COUNT] * TEHKUMIR_ATTRIBUTE_WORDS;
        if (end > WORDS)
            return 0;
        if (!listing->options->sheet)
            show_entry(listing->options, listing->build, header, entry, from.depth + (int64_t)entry[DEPTH]);
        place->at = from.at + (size_t)words[w + NEXT];
        place->depth = from.depth + (int64_t)words[w + NEXT_DEPTH];
        w = end;
    }
    return 0;
}

/* The entries of a unit. A reader is opened again at each place that was reached; its depth counts from 0 there. Answers 0, or the number of the
 * refusal at `place`. */
static uint64_t read_entries(struct listing *listing, const uint64_t *header, struct bytes entries, struct place *place)
{
    static const uint8_t read_entry[CALLS];
    static uint64_t words[WORDS];
    const struct table *table = &listing->table;
    *place = (struct place){0, 0};
    while (place->at < entries.count) {
        size_t left = entries.count - place->at, calls = left < CALLS ? left : CALLS;
        size_t offset = (size_t)header[SIZE] + place->at;
        uint64_t number =
            tehkumir_raw(entries.first + place->at, left, offset, (uint16_t)header[VERSION], header[WORD] == 8, (uint8_t)header[WIDTH],
                         listing->build->is_big, table->rows, rows_of(table->lent), table->specs, specs_of(table->lent), read_entry, calls,
                         words, WORDS);
        if (number == 0)
            number = show_calls(listing, header, words, calls, entries.count, place);
        if (number != 0)
            return number;
        progress_at((size_t)header[OFFSET] + place->at);
    }
    return 0;
}

static enum status list_entries(struct listing *listing, const uint64_t *header, struct bytes entries)
{
    struct place place;
    uint64_t number = read_entries(listing, header, entries, &place);
    return number == 0 ? LISTED : refuse_entry(listing, number, header, header[SIZE] + place.at);
}

static uint64_t make_page(const struct listing *listing, const uint64_t *header, uint64_t n, uint8_t page[TEHKUMIR_PAGE_SIZE])
{
    static const uint64_t none;
    const struct build *build = listing->build;
    const struct table *table = &listing->table;
    const uint64_t *rows = table->rows == NULL ? &none : table->rows, *specs = table->specs == NULL ? &none : table->specs;
    return tehkumir_sheet(build->units.first, build->units.count, header[OFFSET], build->is_big, rows, rows_of(table->lent), specs,
                          specs_of(table->lent), n, page, TEHKUMIR_PAGE_SIZE);
}

/* A line with an item has the last digit of its offset in column 10. */
static bool is_blank(const uint8_t *line)
{
    return line[9] == ' ';
}

/* The sheet of a unit: the one page that is asked for, or all up to the last that has an item. Every page is refused where one is; the number does
 * not say which entry it was, so they are read for its place. */
static enum status list_sheet(struct listing *listing, const uint64_t *header, struct bytes entries)
{
    static uint8_t page[TEHKUMIR_PAGE_SIZE];
    const uint8_t *last = page + TEHKUMIR_PAGE_SIZE - LINE;
    const struct options *options = listing->options;
    struct place place;
    for (uint64_t n = options->page;; n++) {
        uint64_t number = make_page(listing, header, n, page);
        if (number != 0) {
            read_entries(listing, header, entries, &place);
            return refuse_entry(listing, number, header, header[SIZE] + place.at);
        }
        if (options->one_page || !is_blank(page))
            show_page(page);
        if (options->one_page || is_blank(last))
            return LISTED;
        progress_at((size_t)(header[OFFSET] + strtoull((const char *)last, NULL, 10)));
    }
}

/* A unit that ends before `end`: its line, then its entries or its sheet. Without bytes of entries its table is not read. */
static enum status list_unit(struct listing *listing, const uint64_t *header, size_t end)
{
    size_t first = (size_t)(header[OFFSET] + header[SIZE]);
    struct bytes entries = {listing->build->units.first + first, first < end ? end - first : 0};
    show_unit(listing->options, listing->build, header);
    uint64_t number = entries.count == 0 ? 0 : read_table(listing, header[TABLE]);
    if (number != 0)
        return refuse_table(listing, number, header);
    return listing->options->sheet ? list_sheet(listing, header, entries) : list_entries(listing, header, entries);
}

/* The unit from a place on. Answers 0 or the number of a refusal. */
static uint64_t next_unit(const struct build *build, size_t at, uint64_t words[NEXT_WORDS])
{
    const struct bytes *units = &build->units;
    if (build->is_types)
        return tehkumir_types_next_unit(units->first, units->count, at, build->is_big, words, NEXT_WORDS);
    return tehkumir_next_unit(units->first, units->count, at, build->is_big, words, NEXT_WORDS);
}

bool has_unit(const struct options *options, const struct build *build)
{
    uint64_t words[NEXT_WORDS];
    for (size_t at = 0; options->one_unit; at = (size_t)words[NEXT_UNIT]) {
        if (next_unit(build, at, words) != 0)
            return true; /* a refusal before it is listed */
        if (words[HAS_UNIT] == 0 || words[HEADER + OFFSET] == options->unit)
            return words[HAS_UNIT] != 0;
    }
    return true;
}

static enum status list_units(struct listing *listing)
{
    const struct options *options = listing->options;
    uint64_t words[NEXT_WORDS];
    for (size_t at = 0;; at = (size_t)words[NEXT_UNIT]) {
        uint64_t number = next_unit(listing->build, at, words);
        if (number != 0)
            return refuse_unit(listing, number, at);
        if (words[HAS_UNIT] != 0 && options->one_unit && words[HEADER + OFFSET] != options->unit)
            continue;
        enum status status = words[HAS_UNIT] != 0 ? list_unit(listing, words + HEADER, (size_t)words[NEXT_UNIT]) : LISTED;
        if (status != LISTED)
            return status;
        if (words[HAS_UNIT] == 0 || options->one_unit) {
            show_end(options);
            return LISTED;
        }
    }
}

enum status list_build(const struct options *options, const struct build *build)
{
    struct listing listing = {options, build, {NULL, NULL, 0, 0, 0, false}};
    progress_start(build->name, build->units.count);
    enum status status = list_units(&listing);
    progress_end();
    free(listing.table.rows);
    free(listing.table.specs);
    return status;
}
