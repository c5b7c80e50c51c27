/* Relocations of a file that is not linked (.o, .ko, the output of ld -r). libdwfl applies them, and unpacks, in a copy of the file. What it
 * cannot apply is refused, unless it decides nothing of what is listed. */
#include "object.h"

#include <stdlib.h>
#include <string.h>
#include <unistd.h>

/* No other file is searched for, here or elsewhere. */
static int no_debuginfo(Dwfl_Module *module, void **data, const char *name, Dwarf_Addr base, const char *file, const char *link,
                        GElf_Word checksum, char **found)
{
    (void)module, (void)data, (void)name, (void)base, (void)file, (void)link, (void)checksum, (void)found;
    return -1;
}

static bool is_of(const struct object *object, size_t index)
{
    for (size_t i = 0; i < object->count; i++)
        if (elf_ndxscn(object->units[i]) == index)
            return true;
    return elf_ndxscn(object->abbrev) == index;
}

/* The next section of relocations for a debugging section that is listed. */
static Elf_Scn *next_relocations(const struct object *object, Elf *elf, Elf_Scn *section, GElf_Shdr *header)
{
    while ((section = elf_nextscn(elf, section)) != NULL)
        if (gelf_getshdr(section, header) != NULL && (header->sh_type == SHT_REL || header->sh_type == SHT_RELA) &&
            header->sh_size != 0 && is_of(object, header->sh_info))
            return section;
    return NULL;
}

static enum status refuse(const struct object *object, const char *why)
{
    say("%s: not linked, and its relocations cannot be applied (%s): link it, or list the linked file", object->name, why);
    return RELOCATIONS;
}

/* libdwfl lays out the sections that a program would load; without their flag it leaves them at address 0, where readelf has them too. */
static bool clear_flags(Elf *elf, int fd)
{
    GElf_Ehdr header;
    size_t count = 0;
    if (gelf_getehdr(elf, &header) == NULL || elf_getshdrnum(elf, &count) != 0)
        return false;
    bool is_64 = header.e_ident[EI_CLASS] == ELFCLASS64, is_big = header.e_ident[EI_DATA] == ELFDATA2MSB;
    for (size_t i = 0; i < count; i++) {
        off_t flags = (off_t)(header.e_shoff + i * header.e_shentsize) + 8; /* where either class has them */
        off_t low = flags + (is_big ? (is_64 ? 7 : 3) : 0);
        uint8_t byte;
        if (pread(fd, &byte, 1, low) != 1)
            return false;
        byte &= (uint8_t)~SHF_ALLOC;
        if (pwrite(fd, &byte, 1, low) != 1)
            return false;
    }
    return true;
}

/* Applies all relocations that libdwfl knows; those that are left stay in their sections. */
static Elf *apply(struct object *object)
{
    static const Dwfl_Callbacks callbacks = {.find_debuginfo = no_debuginfo, .section_address = dwfl_offline_section_address};
    GElf_Addr bias;
    int copy = elf_copy(object->own);
    object->dwfl = dwfl_begin(&callbacks);
    if (copy < 0 || object->dwfl == NULL) {
        say("%s: no memory for a copy of it", object->name);
        exit(NO_MEMORY);
    }
    Dwfl_Module *module = NULL;
    if (clear_flags(object->own, copy))
        module = dwfl_report_elf(object->dwfl, object->name, object->name, copy, 0, false);
    if (module == NULL) {
        close(copy);
        return NULL;
    }
    dwfl_report_end(object->dwfl, NULL, NULL);
    return dwfl_module_getelf(module, &bias);
}

/* A relocation that was not applied. */
struct left {
    GElf_Sym symbol;
    GElf_Addr offset;
    GElf_Sxword addend;
    bool has_addend; /* else it lies in the bytes */
};

static bool get_left(Elf *elf, const GElf_Shdr *header, Elf_Data *data, int i, struct left *left)
{
    GElf_Rela rela;
    GElf_Rel rel;
    left->has_addend = header->sh_type == SHT_RELA;
    if (left->has_addend ? gelf_getrela(data, i, &rela) == NULL : gelf_getrel(data, i, &rel) == NULL)
        return false;
    left->offset = left->has_addend ? rela.r_offset : rel.r_offset;
    left->addend = left->has_addend ? rela.r_addend : 0;
    size_t symbol = GELF_R_SYM(left->has_addend ? rela.r_info : rel.r_info);
    Elf_Scn *table = elf_getscn(elf, header->sh_link);
    Elf_Data *symbols = table == NULL ? NULL : elf_getdata(table, NULL);
    return symbols != NULL && gelf_getsym(symbols, (int)symbol, &left->symbol) != NULL;
}

/* Whether four bytes of a section are zero. */
static bool is_zero(const struct object *object, size_t index, GElf_Addr offset)
{
    static const uint8_t zeros[4];
    struct bytes bytes;
    Elf_Scn *section = elf_getscn(object->elf, index);
    return section != NULL && object_bytes(object, section, &bytes) == LISTED && bytes.count >= sizeof zeros &&
           offset <= bytes.count - sizeof zeros && memcmp(bytes.first + offset, zeros, sizeof zeros) == 0;
}

/* Whether the bytes are right without it. Of a symbol of another file nothing is known, so its bytes stay; else it has to be the first table,
 * whose offset is 0, or a value that is not asked for. */
static bool is_harmless(const struct object *object, const GElf_Shdr *header, const struct left *left, bool exact)
{
    if (left->symbol.st_shndx == SHN_UNDEF)
        return true;
    if (exact || left->symbol.st_shndx == SHN_XINDEX)
        return false;
    if (left->symbol.st_shndx != elf_ndxscn(object->abbrev))
        return true;
    if (!left->has_addend)
        return left->symbol.st_value == 0;
    return left->symbol.st_value + (GElf_Addr)left->addend == 0 && is_zero(object, header->sh_info, left->offset);
}

/* Judges what is left. */
static enum status judge(const struct object *object, bool exact)
{
    GElf_Shdr header;
    size_t undefined = 0;
    for (Elf_Scn *section = NULL; (section = next_relocations(object, object->elf, section, &header)) != NULL;) {
        Elf_Data *data = elf_getdata(section, NULL);
        size_t count = header.sh_entsize == 0 ? 0 : header.sh_size / header.sh_entsize;
        for (size_t i = 0; i < count; i++) {
            struct left left;
            if (data == NULL || !get_left(object->elf, &header, data, (int)i, &left))
                return refuse(object, "they are damaged");
            if (!is_harmless(object, &header, &left, false))
                return refuse(object, "libdw does not know those of its machine");
            if (!is_harmless(object, &header, &left, exact))
                return refuse(object, "libdw does not know those of its machine, and --values needs them");
            undefined += left.symbol.st_shndx == SHN_UNDEF;
        }
    }
    if (exact && undefined > 0)
        say("%s: %zu values are addresses in other files; they are shown as they are in this one", object->name, undefined);
    return LISTED;
}

enum status object_relocate(struct object *object, bool exact)
{
    GElf_Shdr header;
    if (next_relocations(object, object->elf, NULL, &header) == NULL)
        return LISTED;
    Elf *elf = apply(object);
    const char *why = elf == NULL ? dwfl_errmsg(-1) : NULL;
    if (elf == NULL)
        return refuse(object, why == NULL ? "its sections are damaged" : why);
    object->elf = elf;
    return judge(object, exact);
}
