/* One ELF file: its debugging sections, with relocations applied and unpacked. */
#ifndef OBJECT_H
#define OBJECT_H

#include <elfutils/libdwfl.h>
#include <gelf.h>

#include "shelf.h"

enum { UNITS_TEXT = 80 }; /* room for the names of two sections */

struct section_name {
    const char *plain;
    const char *packed; /* as older tools name a compressed one */
};

struct section_names {
    struct section_name info;
    struct section_name types;
    struct section_name abbrev;
    const char *note; /* what a file is that has these only */
};

struct object {
    const char *name;
    bool is_big;
    struct section_names names;
    Elf_Scn *abbrev;
    size_t tables;   /* sections of tables; one is wanted */
    Elf_Scn **units; /* .debug_info, then .debug_types; compilers put each type unit into a section of its own */
    size_t infos;    /* how many of them are .debug_info */
    size_t count;
    Elf *own;   /* the file */
    Elf *elf;   /* the same, or a copy of it with relocations applied, which belongs to `dwfl` */
    Dwfl *dwfl;
};

/* Finds the sections and applies relocations. `exact` asks for every byte of them to be right, else only for what decides which entries there
 * are. After any status the object is to be closed. */
enum status object_open(struct object *object, const char *name, int fd, bool exact);
void object_close(struct object *object);

/* Writes the names of the sections of units that are listed: one, or both with a text between. */
void object_name_units(const struct object *object, const char *between, char text[UNITS_TEXT]);

/* The bytes of a section, unpacked. */
enum status object_bytes(const struct object *object, Elf_Scn *section, struct bytes *bytes);

/* A file or member in a file of its own, in memory; -1 without memory. */
int elf_copy(Elf *elf);

/* relocate.c: applies the relocations of an object that is not linked. */
enum status object_relocate(struct object *object, bool exact);

#endif
