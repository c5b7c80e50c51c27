/* Names of numbers: tags, attributes and forms out of elfutils, the cases of a value as gimli and include/tehkumir.h name them. */
#include <dwarf.h>
#include <elfutils/known-dwarf.h>

#include "shelf.h"

#define DWARF_ONE_KNOWN_DW_TAG(name, code) \
    case code: \
        return #code;
#define DWARF_ONE_KNOWN_DW_AT(name, code) DWARF_ONE_KNOWN_DW_TAG(name, code)
#define DWARF_ONE_KNOWN_DW_FORM(name, code) DWARF_ONE_KNOWN_DW_TAG(name, code)

const char *tag_name(uint64_t tag)
{
    switch (tag) {
        DWARF_ALL_KNOWN_DW_TAG
    default:
        return NULL;
    }
}

const char *attribute_name(uint64_t name)
{
    switch (name) {
        DWARF_ALL_KNOWN_DW_AT
    default:
        return NULL;
    }
}

const char *form_name(uint64_t form)
{
    switch (form) {
        DWARF_ALL_KNOWN_DW_FORM
    default:
        return NULL;
    }
}

const char *case_name(uint64_t number)
{
    static const char *const cases[] = {
        "unknown", "Addr", "Block", "Data1", "Data2", "Data4", "Data8", "Data16", "Sdata", "Udata", "Exprloc", "Flag", "SecOffset",
        "DebugAddrIndex", "UnitRef", "DebugInfoRef", "DebugInfoRefSup", "DebugLocListsIndex", "DebugRngListsIndex", "DebugTypesRef",
        "DebugStrRef", "DebugStrRefSup", "DebugStrOffsetsIndex", "DebugLineStrRef", "String",
    };
    return cases[number < sizeof cases / sizeof cases[0] ? number : 0];
}
