/* Tehkumir for C: exported functions on numbers and slices, in the static library libcapi.a that `./staticlib`
 * writes to target/staticlib/. Every function may be called with any numbers and any slices that do not overlap.
 *
 * Each answers 0 or the number of a refusal (README.md has the numbers), and puts the words of its answer into `out`: the
 * words, then zeros, as many as are lent. After a refusal the words are zeros, but for the two lists of units. A slice is a
 * pointer and a count of elements; of an empty one the pointer is aligned and not null. A signed number stands in a word in two's
 * complement. A place counts from the first byte of the slice that it lies in.
 *
 *   HEADER     offset in the section, length, version, bytes of an offset (4 or 8), bytes of an address, offset of the
 *              table, size of the header, number of the type (1 compilation, 2 type, 3 partial, 4 skeleton, 5 split
 *              compilation, 6 split type); then for 2 and 6 the signature and the type's offset, for 4 and 5 the dwo_id
 *   ATTRIBUTE  name, form, number of its value's case (below), two numbers: the value and 0, a flag's 1 or 0, the low and
 *              high 64 bits, or the place in the unit and the length of a block, an expression or a string; then 1 where a
 *              LEB128 number read for it is padded, else 0
 *   ENTRY      offset in the unit, depth, tag, 1 where it has children, count of its attributes; then each ATTRIBUTE. A
 *              null has 0 for tag, children and count
 *
 * A LEB128 number is padded where fewer bytes are read to the same number by the same reader. For an attribute those in the
 * unit count: each form number behind an indirect form, the length of a block or an expression, the value; not the entry's
 * code, and nothing in the table, so not the constant of DW_FORM_implicit_const.
 *
 * Rows hold a table: five words for an abbreviation (code, tag, children, first specification row, count), three for a
 * specification (name, form, constant). tehkumir_abbreviations fills them.
 */
#ifndef TEHKUMIR_H
#define TEHKUMIR_H

#include <stdbool.h>
#include <stddef.h>
#include <stdint.h>

#ifdef __cplusplus
extern "C" {
#endif

enum tehkumir_case {
    TEHKUMIR_ADDR = 1,
    TEHKUMIR_BLOCK,
    TEHKUMIR_DATA1,
    TEHKUMIR_DATA2,
    TEHKUMIR_DATA4,
    TEHKUMIR_DATA8,
    TEHKUMIR_DATA16,
    TEHKUMIR_SDATA,
    TEHKUMIR_UDATA,
    TEHKUMIR_EXPRLOC,
    TEHKUMIR_FLAG,
    TEHKUMIR_SEC_OFFSET,
    TEHKUMIR_DEBUG_ADDR_INDEX,
    TEHKUMIR_UNIT_REF,
    TEHKUMIR_DEBUG_INFO_REF,
    TEHKUMIR_DEBUG_INFO_REF_SUP,
    TEHKUMIR_DEBUG_LOC_LISTS_INDEX,
    TEHKUMIR_DEBUG_RNG_LISTS_INDEX,
    TEHKUMIR_DEBUG_TYPES_REF,
    TEHKUMIR_DEBUG_STR_REF,
    TEHKUMIR_DEBUG_STR_REF_SUP,
    TEHKUMIR_DEBUG_STR_OFFSETS_INDEX,
    TEHKUMIR_DEBUG_LINE_STR_REF,
    TEHKUMIR_STRING
};

/* The words of an ENTRY before its attributes, and those of each. */
enum { TEHKUMIR_ENTRY_WORDS = 5, TEHKUMIR_ATTRIBUTE_WORDS = 6 };

/* The bytes of a page of a sheet. */
enum { TEHKUMIR_PAGE_SIZE = 1980 };

/* LEB128 numbers: the number, the next place, how many bytes it has, 1 where it is padded, else 0; to skip, the next place. */
uint64_t tehkumir_read_uleb128(const uint8_t *bytes, size_t len, size_t at, uint64_t *out, size_t out_len);
uint64_t tehkumir_read_uleb128_u16(const uint8_t *bytes, size_t len, size_t at, uint64_t *out, size_t out_len);
uint64_t tehkumir_read_sleb128(const uint8_t *bytes, size_t len, size_t at, uint64_t *out, size_t out_len);
uint64_t tehkumir_skip_leb128(const uint8_t *bytes, size_t len, size_t at, uint64_t *out, size_t out_len);

/* A word of 1, 2, 3, 4 or 8 bytes, 7 for another width: the number and the next place. */
uint64_t tehkumir_read_word(const uint8_t *bytes, size_t len, size_t at, uint8_t width, bool is_big, uint64_t *out, size_t out_len);

/* The length, the bytes of an offset in its format (4 or 8), the next place. */
uint64_t tehkumir_read_initial_length(const uint8_t *bytes, size_t len, size_t at, bool is_big, uint64_t *out, size_t out_len);

/* The HEADER at an offset of .debug_info. */
uint64_t tehkumir_unit_header(const uint8_t *section, size_t len, uint64_t offset, bool is_big, uint64_t *out, size_t out_len);

/* The list of units of .debug_info, from `at` on, 0 at first: where it goes on; then 1 and the HEADER, or 0 after the last
 * unit. */
uint64_t tehkumir_next_unit(const uint8_t *section, size_t len, size_t at, bool is_big, uint64_t *out, size_t out_len);

/* The same list of .debug_types. */
uint64_t tehkumir_types_next_unit(const uint8_t *section, size_t len, size_t at, bool is_big, uint64_t *out, size_t out_len);

/* The first unit of .debug_types, by place, that is of type 2 or 6 and carries the signature: its HEADER, which has 10 words,
 * then the ENTRY at its type's offset. The rows are left with the unit's table, or zero where none was read. */
uint64_t tehkumir_type_entry(const uint8_t *types, size_t types_len, const uint8_t *abbrevs, size_t abbrevs_len,
                             uint64_t signature, bool is_big, uint64_t *rows, size_t rows_len, uint64_t *specs, size_t specs_len,
                             uint64_t *out, size_t out_len);

/* The ENTRY at an offset of the unit at `unit` of .debug_info, whose table the rows hold. */
uint64_t tehkumir_entry(const uint8_t *section, size_t len, uint64_t unit, size_t offset, bool is_big, const uint64_t *rows,
                        size_t rows_len, const uint64_t *specs, size_t specs_len, uint64_t *out, size_t out_len);

/* Page `n` of the sheet of the unit at `unit` of .debug_info, whose table the rows hold; it answers no words. A page has 60
 * lines of 32 characters and a line feed. Line j, from 0, is that of the unit's item 60 n + j, where items are its entries
 * and nulls in the order of their bytes, counted from 0: the offset in the unit, right in 10 columns; a blank; the depth,
 * right in 11; a blank; 0x and four small hexadecimal digits of the tag, or null and two blanks; a blank; the count of
 * attributes, right in 2. Lines without an item are blank, on pages past the last item all. A refusal, also that of an item
 * of another page, leaves 60 blank lines. 23 comes before all others: fewer than 1,980 bytes are lent, and they keep what
 * they hold, as bytes past the page always do. */
uint64_t tehkumir_sheet(const uint8_t *section, size_t len, uint64_t unit, bool is_big, const uint64_t *rows,
                        size_t rows_len, const uint64_t *specs, size_t specs_len, uint64_t n, uint8_t *page, size_t page_len);

/* The table at an offset of .debug_abbrev into the rows, which are zero after a refusal: how many abbreviations. */
uint64_t tehkumir_abbreviations(const uint8_t *section, size_t len, uint64_t offset, uint64_t *rows, size_t rows_len,
                                uint64_t *specs, size_t specs_len, uint64_t *out, size_t out_len);

/* A code in the rows: 1, code, tag, children, first specification row and count; or 0. */
uint64_t tehkumir_get(const uint64_t *rows, size_t rows_len, const uint64_t *specs, size_t specs_len, uint64_t code,
                      uint64_t *out, size_t out_len);

/* One value by its specification: the next place, then the ATTRIBUTE. Here and below `bytes` are a part of a unit that
 * starts at the offset `start` in it. */
uint64_t tehkumir_read_attribute(const uint8_t *bytes, size_t len, size_t start, size_t at, uint16_t version, bool is_64,
                                 uint8_t width, bool is_big, uint16_t name, uint16_t form, uint64_t constant, uint64_t *out,
                                 size_t out_len);

/* A raw reader, and calls on it: 0 is read_entry, any other number read_abbreviation and skip_attributes. For each call:
 * status, 1 for an entry, place and depth of the next item; then ENTRY, or tag, children and count of the entry passed. A
 * refusal keeps the state that the call was given: its number, 0, that place and depth, and zeros. */
uint64_t tehkumir_raw(const uint8_t *bytes, size_t len, size_t start, uint16_t version, bool is_64, uint8_t width, bool is_big,
                      const uint64_t *rows, size_t rows_len, const uint64_t *specs, size_t specs_len, const uint8_t *calls,
                      size_t calls_len, uint64_t *out, size_t out_len);

/* The same calls on a reader that is lent and moved in place: the same words. */
uint64_t tehkumir_raw_lent(const uint8_t *bytes, size_t len, size_t start, uint16_t version, bool is_64, uint8_t width, bool is_big,
                           const uint64_t *rows, size_t rows_len, const uint64_t *specs, size_t specs_len, const uint8_t *calls,
                           size_t calls_len, uint64_t *out, size_t out_len);

/* A cursor, and calls on it: 0 is next_entry, 1 next_dfs, any other number next_sibling. For each call: status, 1 where
 * something was reached, place and depth of the next item; then the ENTRY held. */
uint64_t tehkumir_cursor(const uint8_t *bytes, size_t len, size_t start, uint16_t version, bool is_64, uint8_t width,
                         bool is_big, const uint64_t *rows, size_t rows_len, const uint64_t *specs, size_t specs_len,
                         const uint8_t *calls, size_t calls_len, uint64_t *out, size_t out_len);

/* A tree, and calls on it: 0 is the root, any other number a level, 1 having the root's children. For each call: status, 1
 * where an entry was reached, 1 where the tree has a root, place and depth of the next item; then the ENTRY held. */
uint64_t tehkumir_tree(const uint8_t *bytes, size_t len, size_t start, uint16_t version, bool is_64, uint8_t width, bool is_big,
                       const uint64_t *rows, size_t rows_len, const uint64_t *specs, size_t specs_len, const uint64_t *levels,
                       size_t levels_len, uint64_t *out, size_t out_len);

/* The lines of the listing of two little-endian sections from a place on, zeros for the whole, as many as `text` holds, a
 * line being begun where there are 72 bytes for it: how many bytes and lines, 1 where more follow, and the place of the
 * first line that follows, to go on from: the offset of its unit, and the offset in the unit and the depth of the item that
 * it is for, both 0 at the unit's own line. Zeros follow the text; the rows are zero afterwards. A place that lies in no
 * unit, or is no state of the unit's entries, is refused with 1, in the text. */
uint64_t tehkumir_list(const uint8_t *abbrevs, size_t abbrevs_len, const uint8_t *info, size_t info_len, uint64_t *rows,
                       size_t rows_len, uint64_t *specs, size_t specs_len, size_t unit, size_t offset, int64_t depth, uint8_t *text,
                       size_t text_len, uint64_t *out, size_t out_len);

#ifdef __cplusplus
}
#endif

#endif
