/* The debugging sections of an ELF file. */
#include "object.h"

#include <errno.h>
#include <stdio.h>
#include <stdlib.h>
#include <string.h>
#include <sys/mman.h>
#include <unistd.h>

/* The first of these that a file has is listed. */
static const struct section_names kinds[] = {
    {{".debug_info", ".zdebug_info"}, {".debug_types", ".zdebug_types"}, {".debug_abbrev", ".zdebug_abbrev"}, NULL},
    {{".debug_info.dwo", ".zdebug_info.dwo"},
     {".debug_types.dwo", ".zdebug_types.dwo"},
     {".debug_abbrev.dwo", ".zdebug_abbrev.dwo"},
     "a split file (.dwo)"},
    {{".gnu.debuglto_.debug_info", ".gnu.debuglto_.zdebug_info"},
     {".gnu.debuglto_.debug_types", ".gnu.debuglto_.zdebug_types"},
     {".gnu.debuglto_.debug_abbrev", ".gnu.debuglto_.zdebug_abbrev"},
     "an object for link-time optimisation (-flto), with what the compiler knew before it"},
};

static const char *name_of(Elf *elf, Elf_Scn *section)
{
    size_t names;
    GElf_Shdr header;
    const char *name = NULL;
    if (elf_getshdrstrndx(elf, &names) == 0 && gelf_getshdr(section, &header) != NULL)
        name = elf_strptr(elf, names, header.sh_name);
    return name == NULL ? "" : name;
}

static Elf_Scn *find(Elf *elf, const char *name)
{
    for (Elf_Scn *section = NULL; (section = elf_nextscn(elf, section)) != NULL;)
        if (strcmp(name_of(elf, section), name) == 0)
            return section;
    return NULL;
}

/* The next section with a name, or with the one that it has where it is compressed. */
static Elf_Scn *next_named(Elf *elf, Elf_Scn *section, const struct section_name *name)
{
    while ((section = elf_nextscn(elf, section)) != NULL) {
        const char *own = name_of(elf, section);
        if (strcmp(own, name->plain) == 0 || strcmp(own, name->packed) == 0)
            return section;
    }
    return NULL;
}

/* Fills in the sections with the names; false without memory. */
static bool gather(struct object *object)
{
    size_t all = 0;
    object->count = object->tables = 0;
    free(object->units);
    object->units = elf_getshdrnum(object->elf, &all) == 0 ? calloc(all + 1, sizeof *object->units) : NULL;
    if (object->units == NULL)
        return false;
    for (Elf_Scn *section = NULL; (section = next_named(object->elf, section, &object->names.info)) != NULL;)
        object->units[object->count++] = section;
    object->infos = object->count;
    for (Elf_Scn *section = NULL; (section = next_named(object->elf, section, &object->names.types)) != NULL;)
        object->units[object->count++] = section;
    for (Elf_Scn *section = NULL; (section = next_named(object->elf, section, &object->names.abbrev)) != NULL;) {
        object->tables++;
        object->abbrev = section;
    }
    return true;
}

static void name_units(const struct section_names *names, bool has_info, bool has_types, const char *between, char text[UNITS_TEXT])
{
    snprintf(text, UNITS_TEXT, "%s%s%s", has_info ? names->info.plain : "", has_info && has_types ? between : "",
             has_types ? names->types.plain : "");
}

void object_name_units(const struct object *object, const char *between, char text[UNITS_TEXT])
{
    name_units(&object->names, object->infos > 0, object->count > object->infos, between, text);
}

/* What to say of a file that has none of the sections. */
static enum status nothing(const struct object *object)
{
    Elf *elf = object->elf;
    if (find(elf, ".stab") != NULL)
        say("%s: stabs, an older kind of debugging information, and no DWARF", object->name);
    else if (find(elf, ".gnu_debuglink") != NULL)
        say("%s: no debugging sections; they were moved to a file of their own, which .gnu_debuglink names", object->name);
    else if (find(elf, ".debug") != NULL)
        say("%s: DWARF 1, which is not read", object->name);
    else if (find(elf, ".gnu.lto_.symtab") != NULL || find(elf, ".llvmbc") != NULL)
        say("%s: an object for link-time optimisation (-flto) without debugging sections", object->name);
    else
        say("%s: no debugging sections; it was built without them (gcc -g) or stripped", object->name);
    return NOTHING;
}

/* Says what kind of file it is, and which sections of it are not listed. */
static void say_kind(const struct object *object)
{
    char listed[UNITS_TEXT], beside[UNITS_TEXT];
    Elf *elf = object->elf;
    object_name_units(object, " and ", listed);
    name_units(&kinds[1], find(elf, kinds[1].info.plain) != NULL, find(elf, kinds[1].types.plain) != NULL, " and ", beside);
    if (object->names.note != NULL)
        say("%s: %s: listing %s", object->name, object->names.note, listed);
    else if (beside[0] != '\0')
        say("%s: listing %s, not %s", object->name, listed, beside);
}

/* Finds the sections and says what kind of file they make it. */
static enum status find_sections(struct object *object)
{
    for (size_t kind = 0; kind < sizeof kinds / sizeof kinds[0] && object->count == 0; kind++) {
        object->names = kinds[kind];
        if (!gather(object)) {
            say("%s: no memory for its list of sections", object->name);
            exit(NO_MEMORY);
        }
    }
    if (object->count == 0)
        return nothing(object);
    if (object->tables != 1) {
        say("%s: %s section %s", object->name, object->tables == 0 ? "no" : "more than one", object->names.abbrev.plain);
        return NOTHING;
    }
    if (find(object->elf, ".debug_cu_index") != NULL || find(object->elf, ".debug_tu_index") != NULL) {
        say("%s: a package of split files (.dwp); its units find their tables by an index, which is not read", object->name);
        return NOTHING;
    }
    say_kind(object);
    return LISTED;
}

static enum status damaged(const struct object *object)
{
    const char *why = elf_errmsg(-1);
    say("%s: a damaged ELF file%s%s", object->name, why == NULL ? "" : ": ", why == NULL ? "" : why);
    return NOT_ELF;
}

/* A file whose list of sections lies outside of it looks to libelf like one without sections. */
static bool has_sections(Elf *elf, const GElf_Ehdr *header)
{
    size_t count = 0, names = 0, size = 0;
    if (elf_rawfile(elf, &size) == NULL || elf_getshdrnum(elf, &count) != 0)
        return false;
    if (header->e_shoff == 0)
        return true;
    return count != 0 && header->e_shoff < size && elf_getshdrstrndx(elf, &names) == 0 && elf_getscn(elf, names) != NULL;
}

enum status object_open(struct object *object, const char *name, int fd, bool exact)
{
    GElf_Ehdr header;
    *object = (struct object){.name = name};
    object->own = object->elf = elf_begin(fd, ELF_C_READ_MMAP, NULL);
    if (object->elf == NULL || gelf_getehdr(object->elf, &header) == NULL || !has_sections(object->elf, &header))
        return damaged(object);
    object->is_big = header.e_ident[EI_DATA] == ELFDATA2MSB;
    enum status status = find_sections(object);
    if (status == LISTED && header.e_type == ET_REL) {
        status = object_relocate(object, exact);
        if (status == LISTED && !gather(object))
            exit(NO_MEMORY);
    }
    return status;
}

void object_close(struct object *object)
{
    free(object->units);
    if (object->dwfl != NULL)
        dwfl_end(object->dwfl);
    elf_end(object->own);
}

/* Older tools write "ZLIB" and the size before the compressed bytes; libdwfl may have unpacked them already. */
static bool is_packed_as_before(const char *name, Elf_Scn *section)
{
    const Elf_Data *data = strstr(name, ".zdebug") == NULL ? NULL : elf_rawdata(section, NULL);
    return data != NULL && data->d_buf != NULL && data->d_size >= 12 && memcmp(data->d_buf, "ZLIB", 4) == 0;
}

enum status object_bytes(const struct object *object, Elf_Scn *section, struct bytes *bytes)
{
    static const uint8_t none;
    const char *name = name_of(object->elf, section);
    GElf_Shdr header;
    if (gelf_getshdr(section, &header) == NULL)
        return damaged(object);
    if (header.sh_type == SHT_NOBITS) {
        say("%s: the bytes of %s are not in this file", object->name, name);
        return NOTHING;
    }
    if (((header.sh_flags & SHF_COMPRESSED) != 0 && elf_compress(section, 0, 0) < 0) ||
        (is_packed_as_before(name, section) && elf_compress_gnu(section, 0, 0) < 0)) {
        say("%s: %s is compressed and cannot be unpacked: %s", object->name, name, elf_errmsg(-1));
        return PACKED;
    }
    const Elf_Data *data = elf_rawdata(section, NULL);
    if (data == NULL)
        return damaged(object);
    *bytes = (struct bytes){data->d_size == 0 ? &none : data->d_buf, data->d_size};
    return bytes->first == NULL ? damaged(object) : LISTED;
}

int elf_copy(Elf *elf)
{
    size_t count = 0, done = 0;
    const char *bytes = elf_rawfile(elf, &count);
    int fd = bytes == NULL ? -1 : memfd_create("shelf", MFD_CLOEXEC);
    while (fd >= 0 && done < count) {
        ssize_t n = write(fd, bytes + done, count - done);
        if (n < 0 && errno != EINTR) {
            close(fd);
            return -1;
        }
        done += n > 0 ? (size_t)n : 0;
    }
    return fd;
}
