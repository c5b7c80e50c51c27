/* Makes the calls of tests/include.cases, one to a line of standard input, and prints what each gives. */
#include <inttypes.h>
#include <stdio.h>
#include <stdlib.h>
#include <string.h>

#include "tehkumir.h"

enum { BYTES = 32768, ROWS = 5 * 4, SPECS = 3 * 80, CALLS = 2, LINE = 33, MARK = '#' };
enum { WORDS = CALLS * (5 + TEHKUMIR_ENTRY_WORDS + 64 * TEHKUMIR_ATTRIBUTE_WORDS) };

static const char *word(void)
{
    return strtok(NULL, " \n");
}

static uint64_t number(void)
{
    const char *text = word();
    return text == NULL ? 0 : strtoull(text, NULL, 16);
}

/* The bytes up to the end of the line or a slash. */
static size_t read_bytes(uint8_t bytes[BYTES])
{
    size_t count = 0;
    const char *text;
    while ((text = word()) != NULL && *text != '/') {
        unsigned byte = 0, times = 1;
        for (sscanf(text, "%x*%u", &byte, &times); times > 0 && count < BYTES; times--)
            bytes[count++] = (uint8_t)byte;
    }
    return count;
}

static void show(uint64_t refusal, const uint64_t *words, size_t count)
{
    printf("%" PRIx64 ":", refusal);
    for (size_t i = 0; i < count; i++)
        printf(" %" PRIx64, words[i]);
    printf("\n");
}

typedef uint64_t reader(const uint8_t *bytes, size_t len, size_t at, uint64_t *out, size_t out_len);

static void show_number(reader *read, uint64_t *out)
{
    uint8_t bytes[BYTES];
    size_t at = number(), count = read_bytes(bytes);
    show(read(bytes, count, at, out, 5), out, 5);
}

static void show_attribute(uint64_t *out)
{
    uint8_t bytes[BYTES];
    uint16_t form = (uint16_t)number();
    size_t count = read_bytes(bytes), words = 1 + TEHKUMIR_ATTRIBUTE_WORDS + 1;
    show(tehkumir_read_attribute(bytes, count, 0, 0, 5, false, 8, false, 0x2000, form, 7, out, words), out, words);
}

typedef uint64_t walker(const uint8_t *bytes, size_t len, size_t start, uint16_t version, bool is_64, uint8_t width, bool is_big,
                        const uint64_t *rows, size_t rows_len, const uint64_t *specs, size_t specs_len, const uint8_t *calls,
                        size_t calls_len, uint64_t *out, size_t out_len);

/* The tags and marks of the entries that are read, by a tree where there is no walker. */
static void show_marks(walker *walk, uint64_t *out)
{
    static const uint8_t calls[CALLS] = {0, 0};
    static const uint64_t levels[CALLS] = {0, 1};
    uint8_t table[BYTES], bytes[BYTES];
    uint64_t rows[ROWS], specs[SPECS];
    size_t table_count = read_bytes(table), count = read_bytes(bytes), head = walk == NULL ? 5 : 4;
    uint64_t refusal = tehkumir_abbreviations(table, table_count, 0, rows, ROWS, specs, SPECS, out, 1);
    if (refusal == 0 && walk != NULL)
        refusal = walk(bytes, count, 0, 5, false, 8, false, rows, ROWS, specs, SPECS, calls, CALLS, out, WORDS);
    else if (refusal == 0)
        refusal = tehkumir_tree(bytes, count, 0, 5, false, 8, false, rows, ROWS, specs, SPECS, levels, CALLS, out, WORDS);
    printf("%" PRIx64 ":", refusal);
    const uint64_t *entry = out + head;
    for (int i = 0; i < CALLS && refusal == 0 && entry[4] <= 64; i++) {
        const uint64_t *attribute = entry + TEHKUMIR_ENTRY_WORDS, *end = attribute + entry[4] * TEHKUMIR_ATTRIBUTE_WORDS;
        printf(" %" PRIx64, entry[2]);
        for (; attribute < end; attribute += TEHKUMIR_ATTRIBUTE_WORDS)
            printf(" %" PRIx64, attribute[5]);
        entry = end + head;
    }
    printf("\n");
}

/* How many bytes at the start are a mark. */
static size_t marks(const uint8_t *bytes, size_t count)
{
    size_t n = 0;
    while (n < count && bytes[n] == MARK)
        n++;
    return n;
}

/* The bytes of a page, a line feed as a bar; blank lines, and bytes that still hold the mark, by their count. */
static void show_lines(const uint8_t *page, size_t count)
{
    static const char blank[] = "                                \n";
    for (size_t i = 0, n; i < count;) {
        for (n = 0; i + LINE <= count && memcmp(page + i, blank, LINE) == 0; i += LINE)
            n++;
        if (n > 0) {
            printf("<%zu blank>", n);
        } else if ((n = marks(page + i, count - i)) > 0) {
            printf("<%zu kept>", n);
            i += n;
        } else {
            putchar(page[i] == '\n' ? '|' : page[i]);
            i++;
        }
    }
}

static void show_page(bool is_big, uint64_t *out)
{
    static uint8_t table[BYTES], bytes[BYTES], page[2 * TEHKUMIR_PAGE_SIZE];
    uint64_t rows[ROWS], specs[SPECS], unit = number(), n = number();
    size_t lent = (size_t)number(), table_count = read_bytes(table), count = read_bytes(bytes);
    memset(page, MARK, sizeof page);
    uint64_t refusal = tehkumir_abbreviations(table, table_count, 0, rows, ROWS, specs, SPECS, out, 1);
    if (refusal == 0 && lent <= sizeof page)
        refusal = tehkumir_sheet(bytes, count, unit, is_big, rows, ROWS, specs, SPECS, n, page, lent);
    printf("%" PRIx64 ": ", refusal);
    show_lines(page, lent);
    printf(marks(page + lent, sizeof page - lent) == sizeof page - lent ? "\n" : "<past>\n");
}

int main(void)
{
    static uint64_t out[WORDS];
    char line[512];
    while (fgets(line, sizeof line, stdin) != NULL) {
        const char *name = strtok(line, " \n");
        memset(out, 0xff, sizeof out);
        if (name == NULL)
            continue;
        if (strcmp(name, "uleb128") == 0)
            show_number(tehkumir_read_uleb128, out);
        else if (strcmp(name, "uleb128_u16") == 0)
            show_number(tehkumir_read_uleb128_u16, out);
        else if (strcmp(name, "sleb128") == 0)
            show_number(tehkumir_read_sleb128, out);
        else if (strcmp(name, "skip") == 0)
            show_number(tehkumir_skip_leb128, out);
        else if (strcmp(name, "attribute") == 0)
            show_attribute(out);
        else if (strcmp(name, "raw") == 0)
            show_marks(tehkumir_raw, out);
        else if (strcmp(name, "raw_lent") == 0)
            show_marks(tehkumir_raw_lent, out);
        else if (strcmp(name, "cursor") == 0)
            show_marks(tehkumir_cursor, out);
        else if (strcmp(name, "tree") == 0)
            show_marks(NULL, out);
        else if (strcmp(name, "sheet") == 0)
            show_page(false, out);
        else if (strcmp(name, "sheet_big") == 0)
            show_page(true, out);
        else
            printf("no such call\n");
    }
    return 0;
}
