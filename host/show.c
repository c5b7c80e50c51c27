/* The lines of a listing: plain, those of the program shelflist, or JSON, one object to a line. */
#include "../include/tehkumir.h"
#include "shelf.h"

static void json_key(const char *key)
{
    out_text(",\"");
    out_text(key);
    out_text("\":");
}

static void json_number(const char *key, uint64_t number)
{
    json_key(key);
    out_number(number);
}

static void json_text(const char *key, const char *text)
{
    size_t count = 0;
    while (text[count] != '\0')
        count++;
    json_key(key);
    out_quoted((const uint8_t *)text, count, true);
}

/* A number by its name where names are asked for and it has one. */
static void out_name(const struct options *options, const char *name, uint64_t number)
{
    if (options->names && name != NULL)
        out_text(name);
    else
        out_hex(number);
}

static void json_name(const struct options *options, const char *key, const char *name_key, const char *name, uint64_t number)
{
    json_number(key, number);
    if (options->names && name != NULL)
        json_text(name_key, name);
}

static void out_bytes(const uint8_t *bytes, size_t count, const char *between)
{
    for (size_t i = 0; i < count; i++) {
        if (i > 0)
            out_text(between);
        out_byte(bytes[i]);
    }
}

/* The bytes of a string or block: a part of the unit, by its place and length. */
static struct bytes part_of(const struct build *build, const uint64_t *header, const uint64_t *attribute)
{
    size_t unit = (size_t)header[OFFSET], all = build->units.count;
    struct bytes none = {build->units.first, 0};
    if (unit > all || attribute[LOW] > all - unit || attribute[HIGH] > all - unit - attribute[LOW])
        return none;
    return (struct bytes){build->units.first + unit + attribute[LOW], (size_t)attribute[HIGH]};
}

static void out_high_low(const uint64_t *attribute)
{
    for (int i = 0; i < 16; i++)
        out_byte((uint8_t)(attribute[i < 8 ? HIGH : LOW] >> (56 - 8 * (i % 8))));
}

static bool is_counted(uint64_t number)
{
    return (number >= TEHKUMIR_DATA1 && number <= TEHKUMIR_DATA8) || number == TEHKUMIR_UDATA;
}

/* A value. Sizes and counts are decimal; addresses, offsets and indices hexadecimal, but in JSON, which has no such numbers. */
static void show_value(const struct options *options, const struct build *build, const uint64_t *header, const uint64_t *attribute)
{
    struct bytes part = part_of(build, header, attribute);
    const char *quote = options->json ? "\"" : "";
    switch (attribute[CASE]) {
    case TEHKUMIR_BLOCK:
    case TEHKUMIR_EXPRLOC:
        out_text(quote);
        out_bytes(part.first, part.count, options->json ? "" : " ");
        out_text(quote);
        break;
    case TEHKUMIR_STRING:
        out_quoted(part.first, part.count, options->json);
        break;
    case TEHKUMIR_DATA16:
        out_text(quote);
        out_text("0x");
        out_high_low(attribute);
        out_text(quote);
        break;
    case TEHKUMIR_SDATA:
        out_signed((int64_t)attribute[LOW]);
        break;
    case TEHKUMIR_FLAG:
        out_text(attribute[LOW] != 0 ? "true" : "false");
        break;
    default:
        if (options->json || is_counted(attribute[CASE]))
            out_number(attribute[LOW]);
        else
            out_hex(attribute[LOW]);
    }
}

static void show_attribute(const struct options *options, const struct build *build, const uint64_t *header, const uint64_t *attribute)
{
    out_text("  ");
    out_name(options, attribute_name(attribute[NAME]), attribute[NAME]);
    out_char(' ');
    out_name(options, form_name(attribute[FORM]), attribute[FORM]);
    out_char(' ');
    out_text(case_name(attribute[CASE]));
    out_char(' ');
    show_value(options, build, header, attribute);
    out_char('\n');
}

static void json_attribute(const struct options *options, const struct build *build, const uint64_t *header, const uint64_t *attribute)
{
    out_text("{\"case\":\"");
    out_text(case_name(attribute[CASE]));
    out_char('"');
    json_name(options, "name", "name_text", attribute_name(attribute[NAME]), attribute[NAME]);
    json_name(options, "form", "form_text", form_name(attribute[FORM]), attribute[FORM]);
    json_key("value");
    show_value(options, build, header, attribute);
    out_char('}');
}

static void json_entry(const struct options *options, const struct build *build, const uint64_t *header, const uint64_t *entry, int64_t depth)
{
    bool is_null = entry[TAG] == 0;
    out_text(is_null ? "{\"kind\":\"null\"" : "{\"kind\":\"entry\"");
    json_number("offset", entry[PLACE]);
    json_key("depth");
    out_signed(depth);
    if (options->offsets)
        json_number("section_offset", header[OFFSET] + entry[PLACE]);
    if (!is_null) {
        json_name(options, "tag", "tag_text", tag_name(entry[TAG]), entry[TAG]);
        json_key("children");
        out_text(entry[CHILDREN] != 0 ? "true" : "false");
        json_number("count", entry[COUNT]);
    }
    if (!is_null && options->values) {
        json_key("attributes");
        out_char('[');
        for (size_t i = 0; i < entry[COUNT]; i++) {
            if (i > 0)
                out_char(',');
            json_attribute(options, build, header, entry + TEHKUMIR_ENTRY_WORDS + TEHKUMIR_ATTRIBUTE_WORDS * i);
        }
        out_char(']');
    }
    out_text("}\n");
}

/* "<DEPTH><OFFSET> ", the offset in the section and hexadecimal, as readelf has it. */
static void show_place(uint64_t place, int64_t depth)
{
    out_char('<');
    out_signed(depth);
    out_text("><");
    out_digits(place, 16);
    out_text("> ");
}

void show_entry(const struct options *options, const struct build *build, const uint64_t *header, const uint64_t *entry, int64_t depth)
{
    if (options->json) {
        json_entry(options, build, header, entry, depth);
        return;
    }
    if (options->offsets)
        show_place(header[OFFSET] + entry[PLACE], depth);
    out_number(entry[PLACE]);
    out_char(' ');
    out_signed(depth);
    out_char(' ');
    if (entry[TAG] == 0) {
        out_text("null\n");
        return;
    }
    out_name(options, tag_name(entry[TAG]), entry[TAG]);
    out_char(' ');
    out_number(entry[COUNT]);
    out_char('\n');
    for (size_t i = 0; options->values && i < entry[COUNT]; i++)
        show_attribute(options, build, header, entry + TEHKUMIR_ENTRY_WORDS + TEHKUMIR_ATTRIBUTE_WORDS * i);
}

/* A page of a sheet, as the library made it. */
void show_page(const uint8_t *page)
{
    for (size_t i = 0; i < TEHKUMIR_PAGE_SIZE; i++)
        out_char((char)page[i]);
}

static void json_unit(const struct options *options, const struct build *build, const uint64_t *header)
{
    out_text("{\"kind\":\"unit\"");
    json_text("file", build->name);
    json_text("section", build->section);
    json_number("section_index", build->index);
    json_number("offset", header[OFFSET]);
    json_number("version", header[VERSION]);
    json_number("format", 8 * header[WORD]);
    json_number("address_size", header[WIDTH]);
    json_number("length", header[LENGTH]);
    json_number("table", header[TABLE]);
    json_number("header_size", header[SIZE]);
    json_number("type", header[TYPE]);
    if (options->values && (header[TYPE] == 2 || header[TYPE] == 6)) {
        json_number("signature", header[SIGNATURE]);
        json_number("type_offset", header[TYPE_OFFSET]);
    } else if (options->values && (header[TYPE] == 4 || header[TYPE] == 5)) {
        json_number("dwo_id", header[SIGNATURE]);
    }
    out_text("}\n");
}

void show_unit(const struct options *options, const struct build *build, const uint64_t *header)
{
    if (options->json) {
        json_unit(options, build, header);
        return;
    }
    if (options->offsets) {
        out_char('<');
        out_digits(header[OFFSET], 16);
        out_text("> ");
    }
    out_text("unit ");
    out_number(header[OFFSET]);
    out_char(' ');
    out_number(header[VERSION]);
    out_char(' ');
    out_number(8 * header[WORD]);
    out_char(' ');
    out_number(header[WIDTH]);
    out_char('\n');
}

/* Which file, and which section of it, a listing is of. In JSON every unit says so. */
void show_heading(const struct options *options, const struct build *build)
{
    if (options->json || build->heading == NO_HEADING)
        return;
    out_text("file ");
    out_text(build->name);
    if (build->heading >= OF_SECTION) {
        out_text(" section ");
        out_number(build->index);
    }
    if (build->heading == OF_NAMED_SECTION) {
        out_char(' ');
        out_text(build->section);
    }
    out_char('\n');
}

void show_refusal(const struct options *options, uint64_t number)
{
    if (options->json) {
        out_text("{\"kind\":\"refused\"");
        json_number("number", number);
        json_text("name", refusal_of(number).name);
        out_text("}\n");
        return;
    }
    out_text("refused ");
    out_number(number);
    out_char('\n');
}

void show_end(const struct options *options)
{
    out_text(options->json ? "{\"kind\":\"end\"}\n" : "end\n");
}
