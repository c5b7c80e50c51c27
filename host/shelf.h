/* The parts of the program that ./shelf runs. It lists the debugging sections of ELF files; every byte of a section is read by the proved
 * library (include/tehkumir.h), files and sections are found by elfutils. */
#ifndef SHELF_H
#define SHELF_H

#include <stdbool.h>
#include <stddef.h>
#include <stdint.h>

/* How the program ends; ./shelf --help says the same. */
enum status {
    LISTED = 0,
    REFUSED = 1,     /* the library refused something */
    USAGE = 2,       /* a wrong option */
    NO_FILE = 3,     /* missing, not readable, no regular file */
    NOT_ELF = 4,     /* no ELF file or archive, or a damaged one */
    RELOCATIONS = 5, /* relocations that cannot be applied */
    NOTHING = 6,     /* no section or unit to list */
    PACKED = 7,      /* a compressed section that cannot be unpacked */
    NO_MEMORY = 8,
    NOT_WRITTEN = 11 /* the listing could not be written */
};

struct options {
    bool names;
    bool values;
    bool offsets;
    bool json;
    bool one_unit;
    uint64_t unit; /* its offset */
    bool sheet;    /* pages in the place of entries */
    bool one_page;
    uint64_t page; /* its number, from 0 */
};

struct bytes {
    const uint8_t *first;
    size_t count;
};

/* What a listing is said to be of, in a line before it. */
enum heading { NO_HEADING, OF_FILE, OF_SECTION, OF_NAMED_SECTION };

/* One section of units and the section with its tables. */
struct build {
    const char *name;    /* FILE or FILE(MEMBER) */
    const char *section; /* the name of the section with the units */
    size_t index;        /* its place among the sections */
    enum heading heading;
    bool is_types; /* the section is .debug_types, else .debug_info */
    bool is_big;
    struct bytes abbrev;
    struct bytes units;
};

/* messages.c: what is said on standard error */
struct refusal {
    const char *name;
    const char *sentence;
};
struct refusal refusal_of(uint64_t number);
void say(const char *format, ...) __attribute__((format(printf, 1, 2)));
void progress_start(const char *name, size_t all);
void progress_at(size_t done);
void progress_end(void);

/* out.c: standard output; a write that fails ends the program */
void out_char(char c);
void out_text(const char *text);
void out_digits(uint64_t number, unsigned base); /* 10 or 16 */
void out_number(uint64_t number);
void out_signed(int64_t number);
void out_hex(uint64_t number);
void out_byte(uint8_t byte); /* two digits */
void out_quoted(const uint8_t *bytes, size_t count, bool is_json);
void out_end(void);

/* names.c: names of the standard and its extensions, NULL for an unknown number */
const char *tag_name(uint64_t tag);
const char *attribute_name(uint64_t name);
const char *form_name(uint64_t form);
const char *case_name(uint64_t number);

/* The words of HEADER, ENTRY and ATTRIBUTE, as include/tehkumir.h lists them. */
enum { OFFSET, LENGTH, VERSION, WORD, WIDTH, TABLE, SIZE, TYPE, SIGNATURE, TYPE_OFFSET, HEADER_WORDS };
enum { PLACE, DEPTH, TAG, CHILDREN, COUNT };
enum { NAME, FORM, CASE, LOW, HIGH, PADDED };

/* show.c: the lines */
void show_heading(const struct options *options, const struct build *build);
void show_unit(const struct options *options, const struct build *build, const uint64_t *header);
void show_entry(const struct options *options, const struct build *build, const uint64_t *header, const uint64_t *entry, int64_t depth);
void show_page(const uint8_t *page);
void show_refusal(const struct options *options, uint64_t number);
void show_end(const struct options *options);

/* list.c: the units and entries of one build. `has_unit` is false where the options ask for one unit that it does not have. */
bool has_unit(const struct options *options, const struct build *build);
enum status list_build(const struct options *options, const struct build *build);

/* input.c: the builds of a file; of an archive, those of each member */
enum status list_file(const struct options *options, const char *name, bool is_one);

#endif
