/* The files: what kind one is, the members of an archive, and of each ELF file the builds to list. */
#include <errno.h>
#include <fcntl.h>
#include <gelf.h>
#include <stdio.h>
#include <stdlib.h>
#include <string.h>
#include <sys/stat.h>
#include <unistd.h>

#include "object.h"
#include "shelf.h"

/* Lists the sections of .debug_info or those of .debug_types, until one is not listed whole. Answers how many have something to list. */
static size_t list_sections(const struct options *options, const struct object *object, struct build *build, enum status *status)
{
    size_t listed = 0, end = build->is_types ? object->count : object->infos;
    build->section = build->is_types ? object->names.types.plain : object->names.info.plain;
    *status = LISTED;
    for (size_t i = build->is_types ? object->infos : 0; i < end && *status == LISTED; i++) {
        *status = object_bytes(object, object->units[i], &build->units);
        if (*status != LISTED)
            break;
        build->index = elf_ndxscn(object->units[i]);
        bool is_listed = has_unit(options, build);
        if (is_listed || build->heading == OF_FILE) /* a file has its line also where --unit finds nothing in it */
            show_heading(options, build);
        *status = is_listed ? list_build(options, build) : LISTED;
        listed += is_listed;
    }
    return listed;
}

static enum heading heading_of(const struct object *object, bool has_heading)
{
    if (object->count > object->infos)
        return OF_NAMED_SECTION;
    if (object->count > 1)
        return OF_SECTION;
    return has_heading ? OF_FILE : NO_HEADING;
}

/* What to say where there was nothing to list. */
static enum status nothing(const struct options *options, const struct object *object)
{
    char names[UNITS_TEXT];
    object_name_units(object, " or ", names);
    if (!options->sheet)
        say("%s: no unit starts at offset %llu of %s", object->name, (unsigned long long)options->unit, names);
    else if (object->infos > 0)
        say("%s: no unit starts at offset %llu of %s", object->name, (unsigned long long)options->unit, object->names.info.plain);
    else
        say("%s: no section %s, and units of %s have no sheet", object->name, object->names.info.plain, object->names.types.plain);
    return NOTHING;
}

/* .debug_info, then .debug_types, whatever became of the first: each has offsets of its own. Sheets are of .debug_info alone. */
static enum status list_both(const struct options *options, const struct object *object, bool has_heading)
{
    struct build build = {.name = object->name, .heading = heading_of(object, has_heading), .is_big = object->is_big};
    enum status info = object_bytes(object, object->abbrev, &build.abbrev), types = LISTED;
    if (info != LISTED)
        return info;
    size_t listed = list_sections(options, object, &build, &info);
    build.is_types = true;
    if (!options->sheet)
        listed += list_sections(options, object, &build, &types);
    else if (object->infos > 0 && object->count > object->infos)
        say("%s: units of %s have no sheet", object->name, object->names.types.plain);
    enum status first = info != LISTED ? info : types;
    return first == LISTED && listed == 0 ? nothing(options, object) : first;
}

static enum status list_object(const struct options *options, const char *name, int fd, bool has_heading)
{
    struct object object;
    enum status status = object_open(&object, name, fd, options->values);
    if (status == LISTED)
        status = list_both(options, &object, has_heading);
    object_close(&object);
    return status;
}

static enum status list_member(const struct options *options, const char *name, const char *member, Elf *elf)
{
    char *whole = NULL;
    int fd = elf_copy(elf);
    if (fd < 0 || asprintf(&whole, "%s(%s)", name, member) < 0) {
        say("%s: no memory for the member %s", name, member);
        exit(NO_MEMORY);
    }
    enum status status = list_object(options, whole, fd, true);
    close(fd);
    free(whole);
    return status;
}

/* The members that are ELF files. One that has nothing to list is said and does not count, as long as another has. */
static enum status list_archive(const struct options *options, const char *name, int fd, Elf *archive)
{
    enum status first = LISTED;
    size_t members = 0, listed = 0;
    Elf_Cmd command = ELF_C_READ_MMAP;
    Elf *elf;
    for (elf_errno(); (elf = elf_begin(fd, command, archive)) != NULL; elf_errno()) {
        const Elf_Arhdr *header = elf_getarhdr(elf);
        bool is_object = header != NULL && elf_kind(elf) == ELF_K_ELF;
        enum status status = is_object ? list_member(options, name, header->ar_name, elf) : NOTHING;
        members += is_object;
        listed += is_object && status != NOTHING;
        if (first == LISTED && status != NOTHING)
            first = status;
        command = elf_next(elf);
        elf_end(elf);
    }
    if (elf_errno() != 0) {
        say("%s: a damaged archive", name);
        return NOT_ELF;
    }
    if (listed == 0)
        say("%s: an archive of %zu ELF files, none with debugging sections", name, members);
    return listed == 0 ? NOTHING : first;
}

static enum status list_other(const char *name, int fd)
{
    char start[8] = "";
    ssize_t n = pread(fd, start, sizeof start, 0);
    if (n == 0)
        say("%s: no ELF file, it is empty", name);
    else if (n == sizeof start && memcmp(start, "!<thin>\n", 8) == 0)
        say("%s: a thin archive, which only names its members: list these files", name);
    else if (n >= 4 && memcmp(start, "\177ELF", 4) == 0)
        say("%s: a damaged ELF file", name);
    else if (n >= 2 && memcmp(start, "BC", 2) == 0)
        say("%s: no ELF file but bitcode of LLVM, of a build with -flto", name);
    else
        say("%s: no ELF file", name);
    return NOT_ELF;
}

static enum status list_opened(const struct options *options, const char *name, int fd, bool is_one)
{
    Elf *elf = elf_begin(fd, ELF_C_READ_MMAP, NULL);
    Elf_Kind kind = elf == NULL ? ELF_K_NONE : elf_kind(elf);
    enum status status;
    if (kind == ELF_K_AR)
        status = list_archive(options, name, fd, elf);
    else if (kind == ELF_K_ELF)
        status = list_object(options, name, fd, !is_one);
    else
        status = list_other(name, fd);
    elf_end(elf);
    return status;
}

enum status list_file(const struct options *options, const char *name, bool is_one)
{
    struct stat about;
    int fd = open(name, O_RDONLY | O_CLOEXEC | O_NONBLOCK);
    enum status status = NO_FILE;
    if (fd < 0 || fstat(fd, &about) != 0)
        say("%s: %s", name, strerror(errno));
    else if (S_ISDIR(about.st_mode))
        say("%s: a folder, not a file", name);
    else if (!S_ISREG(about.st_mode))
        say("%s: not a regular file", name);
    else
        status = list_opened(options, name, fd, is_one);
    if (fd >= 0)
        close(fd);
    return status;
}
