/* Calls every function of the archive and of the header once or more, and compares with values worked out
 * from the public documents. The argument is the library of fixtures/lot (fixtures/lot/liblot.so), which is
 * read as a caller would read it. Exits with 1 and says where, if something differs. */
#include "fetulombo.h"

#include <stdio.h>
#include <stdlib.h>
#include <string.h>

/* Classes and orders, in short. */
enum { E32 = FETULOMBO_ELF32, E64 = FETULOMBO_ELF64, LE = FETULOMBO_LITTLE, BE = FETULOMBO_BIG };

/* The line, as a text. */
#define TEXT(x) #x
#define TEXT_OF(x) TEXT(x)
#define LINE TEXT_OF(__LINE__)

static int failures;

static void same(const char *what, uint64_t got, uint64_t wanted) {
    if (got != wanted) {
        printf("%s: %llu, not %llu\n", what, (unsigned long long)got, (unsigned long long)wanted);
        failures++;
    }
}

/* The structs are handed back through memory. */
_Static_assert(sizeof(fetulombo_number) == 24, "number");
_Static_assert(sizeof(fetulombo_place) == 24, "place");
_Static_assert(sizeof(fetulombo_symbol) == 32, "symbol");
_Static_assert(sizeof(fetulombo_facts) == 32, "facts");
_Static_assert(sizeof(fetulombo_note) == 56, "note");
_Static_assert(sizeof(fetulombo_property) == 40, "property");
_Static_assert(sizeof(fetulombo_version) == 32, "version");
_Static_assert(sizeof(fetulombo_versym) == 24, "versym");
_Static_assert(sizeof(fetulombo_lookup) == 24, "lookup");
_Static_assert(sizeof(fetulombo_check) == 24, "check");
_Static_assert(sizeof(fetulombo_length) == 24, "length");
_Static_assert(sizeof(fetulombo_segment) == 64, "segment");
_Static_assert(sizeof(fetulombo_segment_meaning) == 32, "segment meaning");
_Static_assert(sizeof(fetulombo_part) == 32, "part");
_Static_assert(sizeof(fetulombo_dynamic) == 24, "dynamic");

/* Document 02, item 7. */
_Static_assert(FETULOMBO_LIMIT == 1073741824u, "limit");

/* One byte more than the limit, all 0. Whoever changes some of them makes them 0 again. While it is only read it
 * costs address space and next to no memory. */
static uint8_t *long_part(void) {
    static uint8_t *part;
    if (part == NULL) {
        part = calloc((size_t)FETULOMBO_LIMIT + 1, 1);
    }
    if (part == NULL) {
        printf("%zu bytes of memory cannot be had\n", (size_t)FETULOMBO_LIMIT + 1);
        exit(1);
    }
    return part;
}

static void words(void) {
    const uint8_t bytes[] = {1, 2, 3, 4, 5, 6, 7, 8, 9};
    same("u16 little", fetulombo_u16_at(FETULOMBO_LITTLE, bytes, sizeof bytes, 1).value, 0x0302);
    same("u16 big", fetulombo_u16_at(FETULOMBO_BIG, bytes, sizeof bytes, 1).value, 0x0203);
    same("u16 of one byte, big", fetulombo_u16_at(FETULOMBO_BIG, bytes, sizeof bytes, 8).value, 0x0900);
    same("u32 little", fetulombo_u32_at(FETULOMBO_LITTLE, bytes, sizeof bytes, 1).value, 0x05040302);
    same("u32 big", fetulombo_u32_at(FETULOMBO_BIG, bytes, sizeof bytes, 1).value, 0x02030405);
    same("u32 past the end", fetulombo_u32_at(FETULOMBO_BIG, bytes, sizeof bytes, SIZE_MAX).value, 0);
    same("u64 little", fetulombo_u64_at(FETULOMBO_LITTLE, bytes, sizeof bytes, 0).value, 0x0807060504030201);
    same("u64 big", fetulombo_u64_at(FETULOMBO_BIG, bytes, sizeof bytes, 0).value, 0x0102030405060708);
    same("u64 of three bytes, big", fetulombo_u64_at(FETULOMBO_BIG, bytes, sizeof bytes, 6).value, 0x0708090000000000);
}

static void strings(void) {
    const uint8_t table[] = "\0abc\0d";
    fetulombo_place place = fetulombo_string_at(table, 6, 2);
    same("string refusal", place.refusal, 0);
    same("string start", place.start, 2);
    same("string length", place.length, 2);
    same("string without zero", fetulombo_string_at(table, 6, 5).refusal, FETULOMBO_NO_STRING);
    same("string at the end", fetulombo_string_at(table, 6, 6).refusal, FETULOMBO_NO_STRING);
    same("string with its zero", fetulombo_string_at(table, 7, 5).length, 1);
    same("equal", fetulombo_string_equals(table, 6, 1, (const uint8_t *)"abc", 3).value, 1);
    same("longer", fetulombo_string_equals(table, 6, 1, (const uint8_t *)"ab", 2).value, 0);
    same("shorter", fetulombo_string_equals(table, 6, 1, (const uint8_t *)"abcd", 4).value, 0);
    same("unterminated", fetulombo_string_equals(table, 6, 5, (const uint8_t *)"d", 1).value, 0);
    same("empty", fetulombo_string_equals(table, 6, 0, table, 0).value, 1);
}

static void hashes(void) {
    same("GNU of nothing", fetulombo_gnu_hash((const uint8_t *)"", 0).value, 5381);
    same("GNU of a", fetulombo_gnu_hash((const uint8_t *)"a", 1).value, 177670);
    same("GNU of ab", fetulombo_gnu_hash((const uint8_t *)"ab", 2).value, 5863208);
    same("GNU of printf", fetulombo_gnu_hash((const uint8_t *)"printf", 6).value, 0x156b2bb8);
    same("SysV of nothing", fetulombo_sysv_hash((const uint8_t *)"", 0).value, 0);
    same("SysV of ab", fetulombo_sysv_hash((const uint8_t *)"ab", 2).value, 1650);
    same("SysV of printf", fetulombo_sysv_hash((const uint8_t *)"printf", 6).value, 0x077905a6);
}

static void symbols(void) {
    /* The null symbol, and one of 64 bits, little: name 1, info 0x12, other 2, shndx 7, value, size. */
    uint8_t table[24 * 2 + 5] = {0};
    const uint8_t one[24] = {1, 0, 0, 0, 0x12, 2, 7, 0, 8, 7, 6, 5, 4, 3, 2, 1, 0xff, 0, 0, 0, 0, 0, 0, 0x80};
    memcpy(table + 24, one, sizeof one);
    same("count", fetulombo_symbol_count(FETULOMBO_ELF64, table, sizeof table).value, 2);
    same("count of 32 bits", fetulombo_symbol_count(FETULOMBO_ELF32, table, sizeof table).value, 3);
    fetulombo_symbol symbol = fetulombo_symbol_at(FETULOMBO_ELF64, FETULOMBO_LITTLE, table, sizeof table, 1);
    same("symbol refusal", symbol.refusal, 0);
    same("symbol name", symbol.name, 1);
    same("symbol info", symbol.info, 0x12);
    same("symbol other", symbol.other, 2);
    same("symbol shndx", symbol.shndx, 7);
    same("symbol value", symbol.value, 0x0102030405060708);
    same("symbol size", symbol.size, 0x80000000000000ff);
    same("symbol 0", fetulombo_symbol_at(E64, LE, table, sizeof table, 0).refusal, FETULOMBO_NO_SYMBOL);
    same("symbol 2", fetulombo_symbol_at(E64, LE, table, sizeof table, 2).refusal, FETULOMBO_NO_SYMBOL);
    same("last symbol", fetulombo_symbol_at(E64, LE, table, sizeof table, UINT32_MAX).refusal, FETULOMBO_NO_SYMBOL);
    const uint8_t names[] = "\0main";
    fetulombo_place name = fetulombo_symbol_name(E64, LE, table, sizeof table, names, sizeof names, 1);
    same("name refusal", name.refusal, 0);
    same("name start", name.start, 1);
    same("name length", name.length, 4);
    same("name without zero", fetulombo_symbol_name(E64, LE, table, sizeof table, names, 5, 1).refusal, FETULOMBO_NO_STRING);
    fetulombo_facts facts = fetulombo_symbol_facts(0x25, 0x83, 0xfff2);
    same("bind", facts.bind, 2);
    same("kind", facts.kind, 5);
    same("visibility", facts.visibility, 3);
    same("undefined", facts.undefined, 0);
    same("common", facts.common, 1);
    same("absolute", facts.absolute, 0);
    same("local", facts.local, 0);
    same("weak", facts.weak, 1);
    facts = fetulombo_symbol_facts(0, 0, 0xfff1);
    same("local", facts.local, 1);
    same("absolute", facts.absolute, 1);
    same("undefined", fetulombo_symbol_facts(0x10, 0, 0).undefined, 1);
    same("a function", fetulombo_symbol_is_definition(names, sizeof names, 1, 0x12, 7).value, 1);
    same("undefined function", fetulombo_symbol_is_definition(names, sizeof names, 1, 0x12, 0).value, 0);
    same("an object", fetulombo_symbol_is_definition(names, sizeof names, 1, 0x11, 0xfeff).value, 1);
    same("no type", fetulombo_symbol_is_definition(names, sizeof names, 1, 0, 7).value, 1);
    same("a file", fetulombo_symbol_is_definition(names, sizeof names, 1, 4, 7).value, 0);
    same("absolute", fetulombo_symbol_is_definition(names, sizeof names, 1, 0x12, 0xfff1).value, 0);
    same("reserved", fetulombo_symbol_is_definition(names, sizeof names, 1, 0x12, 0xff00).value, 0);
    same("reserved", fetulombo_symbol_is_definition(names, sizeof names, 1, 0x12, 0xfffe).value, 0);
    same("a section elsewhere", fetulombo_symbol_is_definition(names, sizeof names, 1, 0x12, 0xffff).value, 1);
    const uint8_t *mapping = (const uint8_t *)"$d";
    same("a mapping symbol", fetulombo_symbol_is_definition(mapping, 3, 0, 0, 7).value, 0);
    same("a global one of that name", fetulombo_symbol_is_definition(mapping, 3, 0, 0x10, 7).value, 1);
    same("a function of that name", fetulombo_symbol_is_definition(mapping, 3, 0, 2, 7).value, 1);
}

static void notes(void) {
    /* Little, align 4: name `GNU`, type 5, a descriptor of 16 bytes with one property of 4 bytes. */
    const uint8_t section[] = {4, 0, 0, 0, 16, 0, 0, 0, 5, 0, 0, 0, 'G', 'N', 'U', 0,
                               2, 0, 0, 0xc0, 4, 0, 0, 0, 3, 0, 0, 0, 0, 0, 0, 0};
    fetulombo_note note = fetulombo_note_step(FETULOMBO_LITTLE, 4, section, sizeof section, 0);
    same("note refusal", note.refusal, 0);
    same("note found", note.found, 1);
    same("note kind", note.kind, 5);
    same("note name", note.name, 12);
    same("note name length", note.name_length, 4);
    same("note descriptor", note.descriptor, 16);
    same("note descriptor length", note.descriptor_length, 16);
    same("note next", note.next, 32);
    note = fetulombo_note_step(FETULOMBO_LITTLE, 4, section, sizeof section, 32);
    same("notes end", note.found + note.refusal, 0);
    same("notes end stays", note.next, 32);
    same("note short", fetulombo_note_step(LE, 4, section, 11, 0).refusal, FETULOMBO_NOTE_SHORT);
    same("note short is at its end", fetulombo_note_step(LE, 4, section, 11, 0).next, 11);
    same("note name cut", fetulombo_note_step(LE, 4, section, 15, 0).refusal, FETULOMBO_BAD_NOTE_NAME);
    same("note descriptor cut", fetulombo_note_step(LE, 4, section, 31, 0).refusal, FETULOMBO_BAD_NOTE_DESCRIPTOR);
    same("note alignment", fetulombo_note_step(LE, 5, section, 32, 0).refusal, FETULOMBO_BAD_NOTE_ALIGNMENT);
    same("note alignment, next", fetulombo_note_step(LE, 5, section, 32, 0).next, 32);
    same("note alignment, again", fetulombo_note_step(LE, 5, section, 32, 32).refusal, FETULOMBO_BAD_NOTE_ALIGNMENT);
    same("note alignment 3", fetulombo_note_step(LE, 3, section, 32, 0).next, 32);
    same("note alignment 8", fetulombo_note_step(LE, 8, section, 32, 0).descriptor, 16);
    /* The padding after the last descriptor is missing: next lies past the bytes, and ends there. */
    const uint8_t unpadded[17] = {4, 0, 0, 0, 1, 0, 0, 0, 9, 0, 0, 0, 'l', 'o', 't', 0, 7};
    note = fetulombo_note_step(LE, 4, unpadded, sizeof unpadded, 0);
    same("unpadded found", note.found, 1);
    same("unpadded next", note.next, 20);
    note = fetulombo_note_step(LE, 4, unpadded, sizeof unpadded, note.next);
    same("unpadded end", note.found + note.refusal, 0);
    same("unpadded end stays", note.next, 20);
    /* The header's loop ends, whatever is refused. */
    const struct {
        const uint8_t *bytes;
        size_t length;
        uint64_t align;
        unsigned notes, refusal;
    } loops[] = {{section, 32, 4, 1, 0},
                 {section, 32, 5, 0, FETULOMBO_BAD_NOTE_ALIGNMENT},
                 {section, 31, 4, 0, FETULOMBO_BAD_NOTE_DESCRIPTOR},
                 {unpadded, 17, 4, 1, 0},
                 {section, 0, 4, 0, 0}};
    for (size_t i = 0; i < sizeof loops / sizeof *loops; i++) {
        unsigned notes = 0;
        for (size_t at = 0;
             (note = fetulombo_note_step(LE, loops[i].align, loops[i].bytes, loops[i].length, at)).found;
             at = note.next) {
            notes++;
        }
        same("notes of a loop", notes, loops[i].notes);
        same("refusal of a loop", note.refusal, loops[i].refusal);
    }
    same("trimmed", fetulombo_trimmed(section + 12, 4).value, 3);
    same("this kind", fetulombo_gnu_properties(E64, LE, 5, section + 12, 4, section + 16, 16).value, 1);
    same("another kind", fetulombo_gnu_properties(E64, LE, 4, section + 12, 4, section + 16, 16).value, 0);
    fetulombo_property property = fetulombo_property_step(FETULOMBO_ELF64, FETULOMBO_LITTLE, section + 16, 16, 0);
    same("property refusal", property.refusal, 0);
    same("property found", property.found, 1);
    same("property kind", property.kind, 0xc0000002);
    same("property start", property.start, 8);
    same("property length", property.length, 4);
    same("property next", property.next, 16);
    same("property padding", fetulombo_property_step(E64, LE, section + 16, 12, 0).refusal, FETULOMBO_BAD_PROPERTY);
    same("property padding, next", fetulombo_property_step(E64, LE, section + 16, 12, 0).next, 12);
    same("properties end", fetulombo_property_step(E64, LE, section + 16, 16, 16).found, 0);
    same("properties end stays", fetulombo_property_step(E64, LE, section + 16, 16, 99).next, 99);
    same("property of 32 bits", fetulombo_property_step(E32, LE, section + 16, 12, 0).next, 12);
    same("property number", fetulombo_property_number(LE, section + 24, 4).value, 3);
    same("property number, big", fetulombo_property_number(BE, section + 24, 4).value, 0x03000000);
    same("short number", fetulombo_property_number(LE, section + 24, 3).refusal, FETULOMBO_SHORT_PROPERTY_NUMBER);
}

static void versions(void) {
    /* Little: one definition of index 2, hash 0x61, whose name is `a`; one need of index 3, name `b`, file `f`. */
    const uint8_t verdef[28] = {1, 0, 0, 0, 2, 0, 1, 0, 0x61, 0, 0, 0, 20, 0, 0, 0, 0, 0, 0, 0, 1};
    const uint8_t verneed[32] = {1, 0, 1, 0, 5, 0, 0, 0, 16, 0, 0, 0, 0, 0, 0, 0,
                                 0x62, 0, 0, 0, 0, 0, 3, 0x80, 3};
    const uint8_t names[] = "\0a\0b\0f";
    uint32_t store[25];
    memset(store, 0xff, sizeof store);
    fetulombo_number highest =
        fetulombo_versions_parse(FETULOMBO_LITTLE, verdef, 28, verneed, 32, names, sizeof names, store, 25);
    same("parse refusal", highest.refusal, 0);
    same("parse highest", highest.value, 3);
    const uint32_t wanted[25] = {[12] = 1, 0x61, 1, 1, 0, 0, 2, 0x62, 3, 1, 5, 1};
    same("parse store", (uint64_t)memcmp(store, wanted, sizeof store), 0);
    fetulombo_version version = fetulombo_version_entry(store, 25, names, sizeof names, 3);
    same("entry refusal", version.refusal + version.special, 0);
    same("entry kind", version.kind, 2);
    same("entry hash", version.hash, 0x62);
    same("entry name", version.name, 3);
    same("entry name length", version.name_length, 1);
    same("entry file", version.file, 5);
    same("entry file length", version.file_length, 1);
    same("entry special", fetulombo_version_entry(store, 25, names, sizeof names, 1).special, 1);
    same("entry past", fetulombo_version_entry(store, 25, names, sizeof names, 4).refusal, FETULOMBO_BAD_VERSION_INDEX);
    same("entry outside", fetulombo_version_entry(store, 25, names, 5, 3).refusal, FETULOMBO_BAD_VERSION_INDEX);
    const uint8_t versyms[] = {0, 0, 2, 0x80, 3, 0, 1};
    fetulombo_versym versym = fetulombo_version_of(FETULOMBO_LITTLE, versyms, sizeof versyms, 1);
    same("versym refusal", versym.refusal, 0);
    same("versym index", versym.index, 2);
    same("versym hidden", versym.hidden, 1);
    same("no versym", fetulombo_version_of(FETULOMBO_LITTLE, versyms, sizeof versyms, 3).index, 1);
    same("no versym, hidden", fetulombo_version_of(FETULOMBO_LITTLE, versyms, sizeof versyms, 3).hidden, 0);
    const uint8_t *a = (const uint8_t *)"a";
    same("hidden, no need", fetulombo_version_matches(LE, versyms, 7, store, 25, names, 7, 1, 0, 0, a, 0).value, 0);
    same("hidden, equal need", fetulombo_version_matches(LE, versyms, 7, store, 25, names, 7, 1, 1, 0x61, a, 1).value, 1);
    same("another hash", fetulombo_version_matches(LE, versyms, 7, store, 25, names, 7, 1, 1, 0x62, a, 1).value, 0);
    same("not hidden", fetulombo_version_matches(LE, versyms, 7, store, 25, names, 7, 2, 0, 0, a, 0).value, 1);
    same("no versym, no need", fetulombo_version_matches(LE, versyms, 7, store, 25, names, 7, 3, 0, 0, a, 0).value, 1);
    same("no versym, a need", fetulombo_version_matches(LE, versyms, 7, store, 25, names, 7, 3, 1, 0x61, a, 1).value, 0);
    /* Index 0 and 1 match without a need, hidden or not, and never with one; an index without an entry never. */
    const uint8_t odd[] = {0, 0x80, 1, 0x80, 9, 0, 0, 0};
    for (uint32_t i = 0; i < 4; i++) {
        same("special, no need", fetulombo_version_matches(LE, odd, 8, store, 25, names, 7, i, 0, 0, a, 0).value, i != 2);
        same("special, a need", fetulombo_version_matches(LE, odd, 8, store, 25, names, 7, i, 1, 0x61, a, 1).value, 0);
    }
    same("hash of no need", fetulombo_version_matches(LE, versyms, 7, store, 25, names, 7, 2, 0, 99, a, 1).value, 1);
    same("needed 2", fetulombo_version_matches(LE, versyms, 7, store, 25, names, 7, 1, 2, 0x61, a, 1).value, 1);
    /* Highest index 2: 18 numbers pass, 17 give 22; no records need 6. A refusal leaves 0. */
    same("18 numbers", fetulombo_versions_parse(LE, verdef, 28, verneed, 0, names, 7, store, 18).refusal, 0);
    memset(store, 0xff, sizeof store);
    same("17 numbers", fetulombo_versions_parse(LE, verdef, 28, verneed, 0, names, 7, store, 17).refusal,
         FETULOMBO_STORE_TOO_SMALL);
    for (int i = 0; i < 25; i++) {
        same("store after a refusal", store[i], i < 17 ? 0 : 0xffffffff);
    }
    same("no record", fetulombo_versions_parse(LE, verdef, 0, verneed, 0, names, 0, store, 25).value, 0);
    same("6 numbers", fetulombo_versions_parse(LE, verdef, 0, verneed, 0, names, 0, store, 6).refusal, 0);
    same("5 numbers", fetulombo_versions_parse(LE, verdef, 0, verneed, 0, names, 0, store, 5).refusal,
         FETULOMBO_STORE_TOO_SMALL);
}

/* A number of so many bytes, little. */
static void put(uint8_t *at, uint32_t value, size_t width) {
    for (size_t i = 0; i < width; i++) {
        at[i] = (uint8_t)(value >> 8 * i);
    }
}

static void put_verdef(uint8_t *at, uint16_t flags, uint16_t index, uint32_t aux, uint32_t next) {
    put(at + 2, flags, 2);
    put(at + 4, index, 2);
    put(at + 6, 1, 2);
    put(at + 12, aux, 4);
    put(at + 16, next, 4);
}

static void put_verneed(uint8_t *at, uint16_t count, uint32_t file, uint32_t aux, uint32_t next) {
    put(at + 2, count, 2);
    put(at + 4, file, 4);
    put(at + 8, aux, 4);
    put(at + 12, next, 4);
}

static void put_vernaux(uint8_t *at, uint16_t index, uint32_t name, uint32_t next) {
    put(at + 6, index, 2);
    put(at + 8, name, 4);
    put(at + 12, next, 4);
}

/* Parses, over strings in which a name can be read at 1 and none at 9. After a refusal the store is all 0. */
static void parsed(const char *what, const uint8_t *verdef, size_t verdef_length, const uint8_t *verneed,
                   size_t verneed_length, uint32_t *store, size_t store_length, uint64_t wanted) {
    const uint8_t names[] = {0, 'a', 0};
    memset(store, 0xff, store_length * sizeof *store);
    const fetulombo_number got = fetulombo_versions_parse(LE, verdef, verdef_length, verneed, verneed_length, names,
                                                          sizeof names, store, store_length);
    same(what, got.refusal, wanted);
    for (size_t i = 0; i < store_length && wanted != 0; i++) {
        same(what, store[i], 0);
    }
}

/* Version parsing refuses record by record, in the order that the header names. */
static void refusals_in_order(void) {
    uint8_t d[48], n[48];
#define PARSED(d_length, n_length, numbers, wanted) \
    parsed("parsing, line " LINE, d, d_length, n, n_length, store, numbers, wanted)
    uint32_t store[24];
    /* A first Verdef whose aux and next are bad, and a second one of 19 bytes. */
    memset(d, 0, sizeof d);
    memset(n, 0, sizeof n);
    put_verdef(d, 0, 2, 40, 40);
    PARSED(39, 0, 24, FETULOMBO_BAD_VERDEF_AUX);
    put_verdef(d, 0, 2, 39, 40);
    PARSED(39, 0, 24, FETULOMBO_BAD_VERDEF_NEXT);
    PARSED(39, 15, 24, FETULOMBO_BAD_VERDEF_NEXT);
    put_verdef(d, 1, 2, 40, 20);
    PARSED(39, 0, 24, FETULOMBO_BAD_VERDEF_AUX);
    put_verdef(d, 1, 2, 39, 20);
    PARSED(39, 0, 24, FETULOMBO_VERDEF_SHORT);
    PARSED(19, 0, 0, FETULOMBO_VERDEF_SHORT);
    PARSED(39, 15, 24, FETULOMBO_VERDEF_SHORT);
    put_verdef(d, 1, 2, 39, 39);
    PARSED(39, 15, 24, FETULOMBO_VERNEED_SHORT);
    /* A Verneed, its Vernaux, and a second Verneed of 8 bytes. */
    put_verneed(n, 1, 1, 41, 41);
    PARSED(0, 40, 24, FETULOMBO_BAD_VERNEED_AUX);
    put_verneed(n, 1, 1, 16, 41);
    put_vernaux(n + 16, 2, 1, 25);
    PARSED(0, 40, 24, FETULOMBO_BAD_VERNEED_NEXT);
    PARSED(0, 31, 24, FETULOMBO_BAD_VERNEED_NEXT);
    put_verneed(n, 1, 1, 16, 0);
    PARSED(0, 31, 24, FETULOMBO_VERNAUX_SHORT);
    put_verneed(n, 1, 1, 16, 32);
    PARSED(0, 40, 0, FETULOMBO_BAD_VERNAUX_NEXT);
    put_vernaux(n + 16, 2, 1, 24);
    PARSED(0, 40, 24, FETULOMBO_VERNEED_SHORT);
    put_verneed(n, 2, 1, 16, 32);
    PARSED(0, 40, 24, FETULOMBO_VERNAUX_SHORT);
    /* Two definitions of the indices 2 and 3; the second one's Verdaux is short. */
    put_verdef(d, 0, 2, 40, 20);
    put_verdef(d + 20, 0, 3, 28, 0);
    put(d + 40, 9, 4);
    PARSED(48, 0, 23, FETULOMBO_STORE_TOO_SMALL);
    PARSED(48, 0, 24, FETULOMBO_BAD_VERDAUX_NAME);
    put(d + 44, 9, 4);
    PARSED(48, 0, 24, FETULOMBO_BAD_VERDAUX_NEXT);
    put(d + 40, 1, 4);
    put(d + 44, 8, 4);
    PARSED(48, 0, 24, FETULOMBO_VERDAUX_SHORT);
    /* A Verneed with two Vernauxs of the indices 2 and 3. */
    put_verneed(n, 2, 9, 16, 0);
    put_vernaux(n + 16, 2, 9, 16);
    put_vernaux(n + 32, 3, 9, 0);
    PARSED(48, 48, 24, FETULOMBO_VERDAUX_SHORT);
    PARSED(0, 48, 23, FETULOMBO_STORE_TOO_SMALL);
    PARSED(0, 48, 24, FETULOMBO_BAD_VERNAUX_NAME);
    put_vernaux(n + 16, 2, 1, 16);
    PARSED(0, 48, 24, FETULOMBO_BAD_VERNEED_FILE);
    put_verneed(n, 2, 1, 16, 0);
    PARSED(0, 48, 24, FETULOMBO_BAD_VERNAUX_NAME);
    /* What is not stored is not read: the base definition, one without a Verdaux, and the indices 0 and 1. */
    put_vernaux(n + 32, 1, 9, 0);
    put_verdef(d + 20, 1, 3, 28, 0);
    PARSED(48, 48, 18, 0);
    put_verdef(d + 20, 0, 1, 28, 0);
    PARSED(48, 48, 18, 0);
    put_verdef(d + 20, 0, 2, 28, 0);
    put(d + 26, 0, 2);
    PARSED(48, 48, 18, 0);
    same("the need, later, overwrites", store[12], 2);
    put(d + 26, 1, 2);
    PARSED(48, 48, 18, FETULOMBO_VERDAUX_SHORT);
#undef PARSED
}

static fetulombo_bytes bytes_of(const void *data, size_t length) {
    return (fetulombo_bytes){data, length};
}

/* Document 01's library: symbols null and `a`, base 1, one bucket holding 1, shift 5, value 177671; and a SysV
 * table of the same symbols with two buckets. What it lacks is null. */
static uint32_t gnu_words[] = {1, 1, 1, 5, 65600, 1, 177671};

static fetulombo_library small_library(void) {
    static const uint8_t symbols[32] = {[16] = 1};
    static const uint8_t strings[] = {0, 'a', 0};
    static const uint8_t sysv[] = {2, 0, 0, 0, 2, 0, 0, 0, 0, 0, 0, 0, 1, 0, 0, 0, 9, 0, 0, 0, 0, 0, 0, 0};
    fetulombo_library library = {0};
    library.elf_class = FETULOMBO_ELF32;
    library.order = FETULOMBO_LITTLE;
    library.gnu_table = bytes_of(gnu_words, sizeof gnu_words);
    library.sysv_table = bytes_of(sysv, sizeof sysv);
    library.symbols = bytes_of(symbols, sizeof symbols);
    library.strings = bytes_of(strings, sizeof strings);
    return library;
}

static void same_lookup(const char *what, fetulombo_lookup got, uint64_t found, uint64_t symbol, uint64_t probes) {
    same(what, got.refusal, 0);
    same(what, got.found, found);
    same(what, got.symbol, symbol);
    same(what, got.probes, probes);
}

static void lookups(void) {
    const fetulombo_library library = small_library();
    const fetulombo_wanted a = fetulombo_want(fetulombo_text("a"));
    const fetulombo_wanted b = fetulombo_want(fetulombo_text("b"));
    fetulombo_wanted a_1 = a;
    fetulombo_want_version(&a_1, fetulombo_text("1"));
    same_lookup("a", fetulombo_library_gnu_find(&library, &a), 1, 1, 1);
    same_lookup("a with a need", fetulombo_library_gnu_find(&library, &a_1), 0, 0, 1);
    same_lookup("b", fetulombo_library_gnu_find(&library, &b), 0, 0, 0);
    same_lookup("SysV, a", fetulombo_library_sysv_find(&library, &a), 1, 1, 1);
    same_lookup("SysV, a with a need", fetulombo_library_sysv_find(&library, &a_1), 0, 0, 1);
    same_lookup("SysV, b", fetulombo_library_sysv_find(&library, &b), 0, 0, 0);
    const fetulombo_wanted c = fetulombo_want(fetulombo_text("c"));
    same_lookup("SysV, c", fetulombo_library_sysv_find(&library, &c), 0, 0, 1);
    fetulombo_hashes hashes = fetulombo_hashes_of(&a_1);
    same("GNU hash", hashes.gnu, 177670);
    same("SysV hash", hashes.sysv, 97);
    same("version's hash", hashes.version, 0x31);
    same("no version's hash", fetulombo_hashes_of(&a).version, 0);
    same_lookup("a by its hash", fetulombo_library_gnu_find_hashed(&library, &a, &hashes), 1, 1, 1);
    same_lookup("SysV, a by its hash", fetulombo_library_sysv_find_hashed(&library, &a, &hashes), 1, 1, 1);
    hashes.gnu = 0;
    same_lookup("a by another hash", fetulombo_library_gnu_find_hashed(&library, &a, &hashes), 0, 0, 0);
    gnu_words[4] = 0xffffffff;
    same_lookup("b, bloom all ones", fetulombo_library_gnu_find(&library, &b), 0, 0, 1);
    gnu_words[3] = 32;
    same("shift 32", fetulombo_library_gnu_find(&library, &a).refusal, FETULOMBO_BAD_BLOOM_SHIFT);
    gnu_words[3] = 5;
    gnu_words[4] = 65600;
    /* The same by the functions of the archive, and a SysV table of 64 bits, big. */
    const uint8_t *none = (const uint8_t *)"";
    const uint32_t store[1] = {0};
    const uint8_t *table = (const uint8_t *)gnu_words;
    same_lookup("a, of the archive",
                fetulombo_gnu_find(E32, LE, table, sizeof gnu_words, library.symbols.data, 32, library.strings.data, 3,
                                   none, 0, store, 0, none, 0, a.name.data, 1, 177670, 0, 0, none, 0),
                1, 1, 1);
    const uint8_t sysv[] = {0, 0, 0, 1, 0, 0, 0, 2, 0, 0, 0, 1, 0, 0, 0, 9, 0, 0, 0, 0};
    const uint8_t symbols[48] = {[27] = 1};
    same_lookup("SysV, a, big",
                fetulombo_sysv_find(E64, BE, sysv, sizeof sysv, symbols, 48, library.strings.data, 3, none, 0, store, 0,
                                    none, 0, a.name.data, 1, 97, 0, 0, none, 0),
                1, 1, 1);
    same("base", fetulombo_gnu_base(E32, LE, table, sizeof gnu_words).value, 1);
    same("GNU length, no value", fetulombo_gnu_length(E32, LE, table, 24).known, 0);
    same("GNU buckets", fetulombo_gnu_length(E32, LE, table, 23).refusal, FETULOMBO_BAD_GNU_BUCKETS);
    same("GNU bloom", fetulombo_gnu_base(E64, LE, table, 23).refusal, FETULOMBO_BAD_GNU_BLOOM);
    same("GNU header", fetulombo_gnu_base(E32, LE, table, 15).refusal, FETULOMBO_BAD_GNU_HEADER);
    same("SysV length", fetulombo_sysv_length(BE, sysv, sizeof sysv).value, 2);
    same("SysV chains", fetulombo_sysv_length(BE, sysv, 19).refusal, FETULOMBO_BAD_SYSV_CHAINS);
    same("SysV buckets", fetulombo_sysv_length(BE, sysv, 11).refusal, FETULOMBO_BAD_SYSV_BUCKETS);
    same("SysV header", fetulombo_sysv_length(BE, sysv, 7).refusal, FETULOMBO_BAD_SYSV_HEADER);
    same("the library's base", fetulombo_library_gnu_base(&library).value, 1);
    same("the library's GNU length", fetulombo_library_gnu_length(&library).symbols, 2);
    same("the library's SysV length", fetulombo_library_sysv_length(&library).value, 2);
}

/* The small library with versions, whose strings are not the symbols': `a` in version `L`, hidden, and a need of
 * `M` of a file `f`. */
static void versioned(void) {
    fetulombo_library library = small_library();
    uint8_t verdef[28] = {0}, verneed[32] = {0};
    const uint8_t versyms[] = {0, 0, 2, 0x80};
    const uint8_t names[] = "\0\0L\0M\0f";
    uint32_t store[FETULOMBO_ENTRY * 4];
    put_verdef(verdef, 0, 2, 20, 0);
    put(verdef + 8, 'L', 4);
    put(verdef + 20, 2, 4);
    put_verneed(verneed, 1, 6, 16, 0);
    put(verneed + 16, 'M', 4);
    put_vernaux(verneed + 16, 3, 4, 0);
    library.versyms = bytes_of(versyms, sizeof versyms);
    library.definitions = bytes_of(verdef, sizeof verdef);
    library.needs = bytes_of(verneed, sizeof verneed);
    library.version_strings = bytes_of(names, sizeof names);
    const fetulombo_number highest = fetulombo_library_parse_versions(&library, store, FETULOMBO_ENTRY * 4);
    same("versioned, refusal", highest.refusal, 0);
    same("versioned, highest", highest.value, 3);
    const char *asked[] = {NULL, "L", "M", ""};
    for (size_t i = 0; i < 4; i++) {
        fetulombo_wanted wanted = fetulombo_want(fetulombo_text("a"));
        if (asked[i] != NULL) {
            fetulombo_want_version(&wanted, fetulombo_text(asked[i]));
        }
        const uint64_t found = i == 1;
        const fetulombo_hashes hashes = fetulombo_hashes_of(&wanted);
        same_lookup("versioned", fetulombo_library_gnu_find(&library, &wanted), found, found, 1);
        same_lookup("versioned, SysV", fetulombo_library_sysv_find(&library, &wanted), found, found, 1);
        same_lookup("versioned, hashed", fetulombo_library_gnu_find_hashed(&library, &wanted, &hashes), found, found, 1);
        same_lookup("versioned, SysV, hashed", fetulombo_library_sysv_find_hashed(&library, &wanted, &hashes), found,
                    found, 1);
        same("versioned, match", fetulombo_library_version_matches(&library, &wanted, 1).value, found);
    }
    const fetulombo_version need = fetulombo_library_version_entry(&library, 3);
    same("versioned, need", need.kind, 2);
    same("versioned, need's name", need.name, 4);
    same("versioned, need's file", need.file, 6);
    same("versioned, index", fetulombo_library_version_of(&library, 1).index, 2);
    same("versioned, name", fetulombo_library_symbol_name(&library, 1).start, 1);
    /* A store that is too small is all 0 afterwards, and then no version matches. */
    const fetulombo_wanted any = fetulombo_want(fetulombo_text("a"));
    const uint8_t shown[] = {0, 0, 2, 0};
    library.versyms = bytes_of(shown, sizeof shown);
    same_lookup("versioned, not hidden", fetulombo_library_gnu_find(&library, &any), 1, 1, 1);
    same("versioned, 23 numbers", fetulombo_library_parse_versions(&library, store, 23).refusal,
         FETULOMBO_STORE_TOO_SMALL);
    same_lookup("versioned, refused store", fetulombo_library_gnu_find(&library, &any), 0, 0, 1);
}

/* Where a GNU table says the length of the symbol table, and each case in which it does not. */
static void lengths(void) {
    const struct {
        const char *what;
        uint32_t words[8]; /* buckets, symbol_base, bloom words, shift, one bloom word, then buckets and values */
        uint64_t known, symbols;
    } tables[] = {
        {"length", {1, 1, 1, 5, 0, 1, 0, 1}, 1, 3},
        {"length, symbol_base 0", {1, 0, 1, 5, 0, 1, 1, 1}, 0, 0},
        {"length, no bucket", {0, 1, 1, 5, 0, 1, 1, 1}, 0, 0},
        {"length, bucket below symbol_base", {1, 2, 1, 5, 0, 1, 1, 1}, 0, 0},
        {"length, no end", {1, 1, 1, 5, 0, 1, 2, 2}, 0, 0},
        {"length, bucket past the values", {1, 1, 1, 5, 0, 3, 1, 1}, 0, 0},
        {"length of 32 bits", {1, 0xfffffffe, 1, 5, 0, 0xfffffffe, 1, 1}, 1, 0xffffffff},
        {"length past 32 bits", {1, 0xffffffff, 1, 5, 0, 0xffffffff, 1, 1}, 0, 0},
    };
    for (size_t i = 0; i < sizeof tables / sizeof *tables; i++) {
        fetulombo_library library = small_library();
        library.gnu_table = bytes_of(tables[i].words, sizeof tables[i].words);
        const fetulombo_length length = fetulombo_library_gnu_length(&library);
        same(tables[i].what, length.refusal, 0);
        same(tables[i].what, length.known, tables[i].known);
        same(tables[i].what, length.symbols, tables[i].symbols);
    }
}

static void segments(void) {
    /* Big, 32 bits: type 2, offset 1, vaddr 0x1000, paddr 3, filesz 20, memsz 5, flags 6, align 7. */
    const uint8_t small[33] = {[3] = 2, [7] = 1, [10] = 0x10, [15] = 3, [19] = 20, [23] = 5, [27] = 6, [31] = 7};
    /* Little, 64 bits: type 0x6474e551, flags 5, then offset, vaddr, paddr, filesz, memsz, align. */
    const uint8_t large[56] = {0x51, 0xe5, 0x74, 0x64, 5, 0, 0, 0, [15] = 0x80, [16] = 2, [24] = 3, [32] = 4, [40] = 5, [48] = 6};
    same("segments", fetulombo_segment_count(FETULOMBO_ELF32, small, 33).value, 1);
    same("segments of 64 bits", fetulombo_segment_count(FETULOMBO_ELF64, small, 33).value, 0);
    fetulombo_segment segment = fetulombo_segment_at(FETULOMBO_ELF32, FETULOMBO_BIG, small, 33, 0);
    same("segment refusal", segment.refusal, 0);
    same("segment kind", segment.kind, FETULOMBO_SEGMENT_DYNAMIC);
    same("segment flags", segment.flags, 6);
    same("segment offset", segment.offset, 1);
    same("segment vaddr", segment.vaddr, 0x1000);
    same("segment paddr", segment.paddr, 3);
    same("segment filesz", segment.filesz, 20);
    same("segment memsz", segment.memsz, 5);
    same("segment align", segment.align, 7);
    same("no segment", fetulombo_segment_at(FETULOMBO_ELF32, FETULOMBO_BIG, small, 33, 1).refusal, FETULOMBO_NO_SEGMENT);
    segment = fetulombo_segment_at(FETULOMBO_ELF64, FETULOMBO_LITTLE, large, 56, 0);
    same("large refusal", segment.refusal, 0);
    same("large kind", segment.kind, 0x6474e551);
    same("large flags", segment.flags, 5);
    same("large offset", segment.offset, 0x8000000000000000);
    same("large vaddr", segment.vaddr, 2);
    same("large paddr", segment.paddr, 3);
    same("large filesz", segment.filesz, 4);
    same("large memsz", segment.memsz, 5);
    same("large align", segment.align, 6);
    fetulombo_segment_meaning meaning = fetulombo_segment_facts(4, 5);
    same("note", meaning.kind, FETULOMBO_SEGMENT_NOTE);
    same("readable", meaning.readable, 1);
    same("writable", meaning.writable, 0);
    same("executable", meaning.executable, 1);
    same("other", fetulombo_segment_facts(5, 2).kind, 0);
    same("only writable", fetulombo_segment_facts(5, 2).writable, 1);
    /* A file of 24 bytes. */
    const uint8_t file[] = "/lib/x\0\0\1\0\0\0\x80\0\0\0\2\0\0\0\3\0\0";
    fetulombo_place place = fetulombo_segment_data(file, 24, 8, 16);
    same("data refusal", place.refusal, 0);
    same("data start", place.start, 8);
    same("data length", place.length, 16);
    same("no data at the end", fetulombo_segment_data(file, 24, 24, 0).refusal, 0);
    same("no data past it", fetulombo_segment_data(file, 24, 25, 0).refusal, FETULOMBO_BAD_SEGMENT_DATA);
    same("a sum that wraps", fetulombo_segment_data(file, 24, 8, UINT64_MAX).refusal, FETULOMBO_BAD_SEGMENT_DATA);
    fetulombo_part part = fetulombo_segment_data_range(file, 24, 8, 0x1000, 16, 0x1004, 12);
    same("range refusal", part.refusal, 0);
    same("range found", part.found, 1);
    same("range start", part.start, 12);
    same("range length", part.length, 12);
    same("range below", fetulombo_segment_data_range(file, 24, 8, 0x1000, 16, 0xfff, 1).found, 0);
    same("range past", fetulombo_segment_data_range(file, 24, 8, 0x1000, 16, 0x1004, 13).found, 0);
    same("range that wraps", fetulombo_segment_data_range(file, 24, 8, 0x1000, 16, 0x1001, UINT64_MAX).found, 0);
    same("range of bad data", fetulombo_segment_data_range(file, 24, 9, 0, 16, 0, 0).refusal, FETULOMBO_BAD_SEGMENT_DATA);
    part = fetulombo_segment_dynamic(FETULOMBO_ELF32, file, 24, FETULOMBO_SEGMENT_DYNAMIC, 8, 15);
    same("dynamic refusal", part.refusal, 0);
    same("dynamic found", part.found, 1);
    same("dynamic start", part.start, 8);
    same("dynamic length", part.length, 15);
    same("dynamic entries", part.number, 1);
    same("not dynamic", fetulombo_segment_dynamic(FETULOMBO_ELF32, file, 24, 1, 99, 99).found, 0);
    same("dynamic place", fetulombo_segment_dynamic(E64, file, 24, 2, 9, 16).refusal, FETULOMBO_BAD_DYNAMIC_PLACE);
    fetulombo_dynamic entry = fetulombo_segment_dynamic_entry(FETULOMBO_ELF32, FETULOMBO_LITTLE, file + 8, 15, 0);
    same("entry refusal", entry.refusal, 0);
    same("entry found", entry.found, 1);
    same("entry tag", entry.tag, 1);
    same("entry value", entry.value, 0x80);
    same("entry of 64 bits", fetulombo_segment_dynamic_entry(E64, BE, file + 8, 16, 0).tag, 0x0100000080000000);
    same("no entry", fetulombo_segment_dynamic_entry(E32, LE, file + 8, 15, 1).found, 0);
    part = fetulombo_segment_interpreter(file, 24, FETULOMBO_SEGMENT_INTERPRETER, 1, 7);
    same("interpreter refusal", part.refusal, 0);
    same("interpreter found", part.found, 1);
    same("interpreter start", part.start, 1);
    same("interpreter length", part.length, 5);
    same("not an interpreter", fetulombo_segment_interpreter(file, 24, 1, 99, 99).found, 0);
    same("interpreter place", fetulombo_segment_interpreter(file, 24, 3, 1, 24).refusal, FETULOMBO_BAD_INTERPRETER_PLACE);
    same("interpreter without zero", fetulombo_segment_interpreter(file, 24, 3, 0, 6).refusal, FETULOMBO_ENDLESS_INTERPRETER);
    part = fetulombo_segment_notes(file, 24, FETULOMBO_SEGMENT_NOTE, 4, 20, 1);
    same("notes refusal", part.refusal, 0);
    same("notes found", part.found, 1);
    same("notes start", part.start, 4);
    same("notes length", part.length, 20);
    same("notes alignment", part.number, 4);
    same("notes aligned to 8", fetulombo_segment_notes(file, 24, 4, 4, 20, 8).number, 8);
    same("not notes", fetulombo_segment_notes(file, 24, 1, 99, 99, 5).found, 0);
    same("notes place", fetulombo_segment_notes(file, 24, 4, 4, 21, 5).refusal, FETULOMBO_BAD_NOTE_PLACE);
    same("bad alignment", fetulombo_segment_notes(file, 24, 4, 4, 20, 5).refusal, FETULOMBO_BAD_NOTE_ALIGNMENT);
}

static void checks(void) {
    uint32_t words[] = {1, 1, 1, 5, 65600, 1, 177671};
    fetulombo_library library = small_library();
    library.gnu_table = bytes_of(words, sizeof words);
    fetulombo_check said = fetulombo_library_gnu_check(&library);
    same("checked, refusal", said.refusal, 0);
    same("checked, accepted", said.accepted, 1);
    same("checked, longest", said.longest, 1);
    same("checked, rule and place", said.rule + said.place, 0);
    words[6] = 177670;
    said = fetulombo_library_gnu_check(&library);
    same("broken, refusal", said.refusal, 0);
    same("broken, accepted", said.accepted, 0);
    same("broken, rule", said.rule, 10);
    same("broken, place", said.place, 1);
    same("broken, longest", said.longest, 0);
    const fetulombo_library whole = library;
    library.strings.length = 2;
    same("strings without a zero", fetulombo_library_gnu_check(&library).rule, 6);
    said = fetulombo_library_sysv_check(&library);
    same("SysV, strings without a zero", said.rule, 2);
    same("SysV broken, place", said.place + said.longest, 0);
    library = whole;
    library.gnu_table.length = 15;
    same("checked header", fetulombo_library_gnu_check(&library).refusal, FETULOMBO_BAD_GNU_HEADER);
    same("SysV checked, refusal", fetulombo_library_sysv_check(&library).refusal, 0);
    same("SysV checked", fetulombo_library_sysv_check(&library).accepted, 1);
    library.symbols.length = 16;
    same("SysV broken", fetulombo_library_sysv_check(&library).accepted, 0);
    same("SysV broken, rule", fetulombo_library_sysv_check(&library).rule, 1);
    library = whole;
    library.sysv_table.length = 23;
    same("SysV checked chains", fetulombo_library_sysv_check(&library).refusal, FETULOMBO_BAD_SYSV_CHAINS);
    /* By the functions of the archive. */
    words[6] = 177671;
    const uint8_t *table = (const uint8_t *)words;
    said = fetulombo_gnu_check(E32, LE, table, sizeof words, whole.symbols.data, 32, whole.strings.data, 3);
    same("checked, of the archive", said.accepted, 1);
    said = fetulombo_sysv_check(E32, LE, whole.sysv_table.data, 24, whole.symbols.data, 32, whole.strings.data, 3);
    same("SysV checked, of the archive", said.accepted, 1);
}

/* A library without parts: every pointer is null. */
static void nulls(void) {
    fetulombo_library library = {0};
    library.elf_class = FETULOMBO_ELF64;
    library.order = FETULOMBO_BIG;
    fetulombo_wanted wanted = {0};
    for (uint8_t needed = 0; needed < 2; needed++) {
        wanted.needed = needed;
        same("null, GNU lookup", fetulombo_library_gnu_find(&library, &wanted).refusal, FETULOMBO_BAD_GNU_HEADER);
        same("null, SysV lookup", fetulombo_library_sysv_find(&library, &wanted).refusal, FETULOMBO_BAD_SYSV_HEADER);
        same("null, match", fetulombo_library_version_matches(&library, &wanted, 1).value, !needed);
    }
    same("null, GNU hash", fetulombo_hashes_of(&wanted).gnu, 5381);
    same("null, SysV hash", fetulombo_hashes_of(&wanted).sysv, 0);
    same("null, GNU check", fetulombo_library_gnu_check(&library).refusal, FETULOMBO_BAD_GNU_HEADER);
    same("null, SysV check", fetulombo_library_sysv_check(&library).refusal, FETULOMBO_BAD_SYSV_HEADER);
    same("null, base", fetulombo_library_gnu_base(&library).refusal, FETULOMBO_BAD_GNU_HEADER);
    same("null, GNU length", fetulombo_library_gnu_length(&library).refusal, FETULOMBO_BAD_GNU_HEADER);
    same("null, SysV length", fetulombo_library_sysv_length(&library).refusal, FETULOMBO_BAD_SYSV_HEADER);
    same("null, count", fetulombo_library_symbol_count(&library).value, 0);
    same("null, symbol", fetulombo_library_symbol_at(&library, 1).refusal, FETULOMBO_NO_SYMBOL);
    same("null, name", fetulombo_library_symbol_name(&library, 1).refusal, FETULOMBO_NO_SYMBOL);
    same("null, versym", fetulombo_library_version_of(&library, 7).index, 1);
    same("null, entry", fetulombo_library_version_entry(&library, 2).refusal, FETULOMBO_BAD_VERSION_INDEX);
    same("null, parse", fetulombo_library_parse_versions(&library, NULL, 0).refusal, FETULOMBO_STORE_TOO_SMALL);
    uint32_t store[6] = {1, 1, 1, 1, 1, 1};
    same("null, parse with a store", fetulombo_library_parse_versions(&library, store, 6).refusal, 0);
    same("null, the store", store[0] | store[5], 0);
    same("null, the library's store", library.store == store && library.store_length == 6, 1);
    same("null, no text", fetulombo_text("").length, 0);
    const fetulombo_bytes lent = fetulombo_text("lot");
    same("bytes", fetulombo_bytes_of(lent, (fetulombo_place){0, 1, 2}).data == lent.data + 1, 1);
    same("bytes, length", fetulombo_bytes_of(lent, (fetulombo_place){0, 1, 2}).length, 2);
    same("bytes, outside", fetulombo_bytes_of(lent, (fetulombo_place){0, 2, 2}).length, 0);
    same("bytes, a sum that wraps", fetulombo_bytes_of(lent, (fetulombo_place){0, 2, UINT64_MAX}).length, 0);
    same("bytes, far outside", fetulombo_bytes_of(lent, (fetulombo_place){0, UINT64_MAX, 2}).length, 0);
    same("bytes, refused", fetulombo_bytes_of(lent, (fetulombo_place){36, 0, 3}).length, 0);
}

/* Every function that takes a class or an order: what it hands back, its name, whether it takes a class and an
 * order, the bytes of the answer without next and without padding, and the call, with p and n for each part. */
#define EVERY(CALL)                                                                                                   \
    CALL(number, u16_at, 0, 1, 24, (o, p, n, 0))                                                                      \
    CALL(number, u32_at, 0, 1, 24, (o, p, n, 0))                                                                      \
    CALL(number, u64_at, 0, 1, 24, (o, p, n, 0))                                                                      \
    CALL(number, symbol_count, 1, 0, 24, (c, p, n))                                                                   \
    CALL(symbol, symbol_at, 1, 1, 28, (c, o, p, n, 0))                                                                \
    CALL(place, symbol_name, 1, 1, 24, (c, o, p, n, p, n, 0))                                                         \
    CALL(note, note_step, 0, 1, 48, (o, 5, p, n, 0))                                                                  \
    CALL(number, gnu_properties, 1, 1, 24, (c, o, 5, p, n, p, n))                                                     \
    CALL(property, property_step, 1, 1, 32, (c, o, p, n, 0))                                                          \
    CALL(number, property_number, 0, 1, 24, (o, p, n))                                                                \
    CALL(number, versions_parse, 0, 1, 24, (o, p, n, p, n, p, n, store, 0))                                           \
    CALL(versym, version_of, 0, 1, 24, (o, p, n, 0))                                                                  \
    CALL(number, version_matches, 0, 1, 24, (o, p, n, store, 6, p, n, 0, 0, 0, p, n))                                 \
    CALL(lookup, gnu_find, 1, 1, 24, (c, o, p, n, p, n, p, n, p, n, store, 6, p, n, p, n, 0, 0, 0, p, n))             \
    CALL(lookup, sysv_find, 1, 1, 24, (c, o, p, n, p, n, p, n, p, n, store, 6, p, n, p, n, 0, 0, 0, p, n))            \
    CALL(number, gnu_base, 1, 1, 24, (c, o, p, n))                                                                    \
    CALL(length, gnu_length, 1, 1, 24, (c, o, p, n))                                                                  \
    CALL(number, sysv_length, 0, 1, 24, (o, p, n))                                                                    \
    CALL(check, gnu_check, 1, 1, 24, (c, o, p, n, p, n, p, n))                                                        \
    CALL(check, sysv_check, 1, 1, 24, (c, o, p, n, p, n, p, n))                                                       \
    CALL(number, segment_count, 1, 0, 24, (c, p, n))                                                                  \
    CALL(segment, segment_at, 1, 1, 64, (c, o, p, n, 0))                                                              \
    CALL(part, segment_dynamic, 1, 0, 32, (c, p, n, 2, 99, 99))                                                       \
    CALL(dynamic, segment_dynamic_entry, 1, 1, 24, (c, o, p, n, 0))

static uint32_t store[6];

#define CALL(type, name, takes_class, takes_order, size, arguments)                                                   \
    static void call_##name(uint8_t c, uint8_t o, const uint8_t *p, size_t n, uint8_t *answer) {                      \
        (void)c, (void)o;                                                                                             \
        const fetulombo_##type got = fetulombo_##name arguments;                                                      \
        memcpy(answer, &got, sizeof got);                                                                             \
    }
EVERY(CALL)
#undef CALL

static const struct {
    const char *name;
    int takes_class, takes_order;
    size_t size;
    void (*call)(uint8_t c, uint8_t o, const uint8_t *p, size_t n, uint8_t *answer);
} every[] = {
#define CALL(type, name, takes_class, takes_order, size, arguments) {#name, takes_class, takes_order, size, call_##name},
    EVERY(CALL)
#undef CALL
};

/* The refusal of a call. A refused answer has nothing else, but for next. */
static uint64_t refusal_of(size_t which, uint8_t c, uint8_t o, const uint8_t *p, size_t n) {
    uint8_t answer[64];
    every[which].call(c, o, p, n, answer);
    const uint64_t refusal = fetulombo_u32_at(FETULOMBO_LITTLE, answer, 4, 0).value;
    for (size_t i = 4; i < every[which].size && refusal != 0; i++) {
        same(every[which].name, answer[i], 0);
    }
    return refusal;
}

/* A class or an order that is none is refused by each of them, after a part that is too long and before all else. */
static void kinds(void) {
    const size_t lengths[] = {0, 7, 15, 64};
    const uint8_t *p = long_part();
    same("functions that take a class or an order", sizeof every / sizeof *every, 24);
    for (size_t f = 0; f < sizeof every / sizeof *every; f++) {
        const char *name = every[f].name;
        for (size_t l = 0; l < sizeof lengths / sizeof *lengths; l++) {
            for (int number = 0; number < 256; number++) {
                const uint8_t k = (uint8_t)number;
                const uint64_t wanted = number == 1 || number == 2 ? 0 : FETULOMBO_UNKNOWN_KIND;
                for (uint8_t right = 1; right < 3; right++) {
                    const uint64_t by_class = refusal_of(f, k, right, p, lengths[l]);
                    const uint64_t by_order = refusal_of(f, right, k, p, lengths[l]);
                    same(name, by_class == FETULOMBO_UNKNOWN_KIND, every[f].takes_class && wanted);
                    same(name, by_order == FETULOMBO_UNKNOWN_KIND, every[f].takes_order && wanted);
                }
                same(name, refusal_of(f, k, k, p, lengths[l]) == FETULOMBO_UNKNOWN_KIND, wanted != 0);
            }
        }
        for (uint8_t k = 0; k < 4; k++) {
            same(name, refusal_of(f, k, k, p, (size_t)FETULOMBO_LIMIT + 1), FETULOMBO_TOO_LONG);
        }
    }
    /* Also where the answer would be "not this kind". */
    same("dynamic of another kind", fetulombo_segment_dynamic(0, p, 0, 1, 0, 0).refusal, FETULOMBO_UNKNOWN_KIND);
    same("properties of another kind", fetulombo_gnu_properties(E32, 3, 4, p, 0, p, 0).refusal, FETULOMBO_UNKNOWN_KIND);
    /* A reader is then at its end, and the store is all 0. */
    same("note, next of no order", fetulombo_note_step(0, 4, p, 31, 0).next, 31);
    same("property, next of no class", fetulombo_property_step(3, FETULOMBO_LITTLE, p, 31, 0).next, 31);
    same("property, next of no order", fetulombo_property_step(FETULOMBO_ELF32, 0, p, 31, 8).next, 31);
    uint32_t filled[12];
    memset(filled, 0xff, sizeof filled);
    same("parse, no order", fetulombo_versions_parse(255, p, 0, p, 0, p, 0, filled, 12).refusal,
         FETULOMBO_UNKNOWN_KIND);
    for (size_t i = 0; i < 12; i++) {
        same("parse, no order, the store", filled[i], 0);
    }
    /* A library without class or order. */
    fetulombo_library library = small_library();
    const fetulombo_wanted wanted = fetulombo_want(fetulombo_text("a"));
    library.elf_class = 0;
    same("a library of no class", fetulombo_library_gnu_find(&library, &wanted).refusal, FETULOMBO_UNKNOWN_KIND);
    same("a library of no class", fetulombo_library_sysv_check(&library).refusal, FETULOMBO_UNKNOWN_KIND);
    library.elf_class = FETULOMBO_ELF32;
    library.order = 0;
    same("a library of no order", fetulombo_library_sysv_find(&library, &wanted).refusal, FETULOMBO_UNKNOWN_KIND);
    same("a library of no order", fetulombo_library_gnu_check(&library).refusal, FETULOMBO_UNKNOWN_KIND);
}

/* A section of a file of 64 bits, by its number: its type, the number of the section that it goes with, and its
 * bytes. */
typedef struct {
    uint64_t type;
    uint64_t link;
    fetulombo_bytes bytes;
} section;

static section section_at(uint8_t order, fetulombo_bytes file, uint64_t number) {
    const uint64_t at = fetulombo_u64_at(order, file.data, file.length, 0x28).value + number * 64;
    const fetulombo_place place = fetulombo_segment_data(
        file.data, file.length, fetulombo_u64_at(order, file.data, file.length, at + 24).value,
        fetulombo_u64_at(order, file.data, file.length, at + 32).value);
    same("a section of the file", place.refusal, 0);
    return (section){fetulombo_u32_at(order, file.data, file.length, at + 4).value,
                     fetulombo_u32_at(order, file.data, file.length, at + 40).value,
                     fetulombo_bytes_of(file, place)};
}

/* The library of fixtures/lot: class and order as the file has them, the parts from its sections. */
static void real_file(const char *path) {
    static uint8_t bytes[65536];
    FILE *opened = fopen(path, "rb");
    const size_t length = opened == NULL ? 0 : fread(bytes, 1, sizeof bytes, opened);
    if (opened != NULL) {
        fclose(opened);
    }
    same("the length of the file", length > 64 && length < sizeof bytes, 1);
    const fetulombo_bytes file = {bytes, length};
    fetulombo_library library = {0};
    library.elf_class = bytes[4];
    library.order = bytes[5];
    same("the file's class", library.elf_class, FETULOMBO_ELF64);
    same("the file's order", library.order, FETULOMBO_LITTLE);
    const uint64_t sections = fetulombo_u16_at(library.order, bytes, length, 0x3c).value;
    for (uint64_t i = 1; i < sections; i++) {
        const section one = section_at(library.order, file, i);
        switch (one.type) {
        case 0x6ffffff6: library.gnu_table = one.bytes; break;
        case 11:
            library.symbols = one.bytes;
            library.strings = section_at(library.order, file, one.link).bytes;
            break;
        case 0x6fffffff: library.versyms = one.bytes; break;
        case 0x6ffffffd:
            library.definitions = one.bytes;
            library.version_strings = section_at(library.order, file, one.link).bytes;
            break;
        }
    }
    uint32_t store[FETULOMBO_ENTRY * 4];
    const fetulombo_number parsed = fetulombo_library_parse_versions(&library, store, FETULOMBO_ENTRY * 4);
    same("the file's versions, refusal", parsed.refusal, 0);
    same("the file's versions", parsed.value, 3);
    same("the file's symbols", fetulombo_library_symbol_count(&library).value, 7);
    same("the file's symbols, by the table", fetulombo_library_gnu_length(&library).symbols, 7);
    same("the file's table", fetulombo_library_gnu_check(&library).accepted, 1);
    same("its longest chain", fetulombo_library_gnu_check(&library).longest, 3);
    const struct {
        const char *name, *version;
        uint64_t symbol, probes; /* symbol 0: none */
    } imports[] = {
        {"import_lot", "LOT_1.0", 5, 2}, {"import_lot", "LOT_2.0", 4, 1}, {"import_lot", NULL, 4, 1},
        {"import_lot", "LOT_3.0", 0, 2}, {"seal_lot", "LOT_1.0", 1, 1},   {"seal_lot", NULL, 1, 1},
        {"void_lot", "LOT_1.0", 0, 0},
    };
    for (size_t i = 0; i < sizeof imports / sizeof *imports; i++) {
        fetulombo_wanted wanted = fetulombo_want(fetulombo_text(imports[i].name));
        if (imports[i].version != NULL) {
            fetulombo_want_version(&wanted, fetulombo_text(imports[i].version));
        }
        const fetulombo_hashes hashes = fetulombo_hashes_of(&wanted);
        const fetulombo_lookup found = fetulombo_library_gnu_find(&library, &wanted);
        same_lookup(imports[i].name, found, imports[i].symbol != 0, imports[i].symbol, imports[i].probes);
        same_lookup(imports[i].name, fetulombo_library_gnu_find_hashed(&library, &wanted, &hashes),
                    imports[i].symbol != 0, imports[i].symbol, imports[i].probes);
        if (!found.found) {
            continue;
        }
        const uint32_t symbol = (uint32_t)found.symbol;
        const fetulombo_bytes name =
            fetulombo_bytes_of(library.strings, fetulombo_library_symbol_name(&library, symbol));
        same("the found name", name.length == wanted.name.length && !memcmp(name.data, wanted.name.data, name.length), 1);
        same("the found version", fetulombo_library_version_matches(&library, &wanted, symbol).value, 1);
        same("the found symbol", fetulombo_library_symbol_at(&library, symbol).info, 0x12);
    }
    same("import_lot@LOT_1.0, index", fetulombo_library_version_of(&library, 5).index, 2);
    same("import_lot@LOT_1.0, hidden", fetulombo_library_version_of(&library, 5).hidden, 1);
    const fetulombo_version version = fetulombo_library_version_entry(&library, 2);
    same("LOT_1.0", version.kind, 1);
    same("LOT_1.0, name",
         version.name_length == 7 && !memcmp(library.version_strings.data + version.name, "LOT_1.0", 7), 1);
    library.order = FETULOMBO_BIG;
    same("the file's versions, big", fetulombo_library_parse_versions(&library, store, 24).refusal,
         FETULOMBO_BAD_VERDEF_AUX);
    same("the file's table, big", fetulombo_library_gnu_check(&library).refusal, FETULOMBO_BAD_GNU_BLOOM);
}

/* A text for each refusal, each another. */
static void texts(void) {
    const char *unknown = fetulombo_refusal_text(UINT64_MAX);
    for (uint64_t i = 0; i < 64; i++) {
        const char *text = fetulombo_refusal_text(i);
        same("a text", text[0] != 0, 1);
        same("an unknown number", !strcmp(text, unknown), i == 38 || i > 39);
        for (uint64_t j = 0; j < i && i < 38; j++) {
            same("a text of its own", !strcmp(text, fetulombo_refusal_text(j)), 0);
        }
    }
    same("text of 39", !strcmp(fetulombo_refusal_text(FETULOMBO_UNKNOWN_KIND),
                               "a class or a byte order that is none"), 1);
    char version[32];
    snprintf(version, sizeof version, "%d.%d.%d", FETULOMBO_VERSION_MAJOR, FETULOMBO_VERSION_MINOR,
             FETULOMBO_VERSION_PATCH);
    same("version", !strcmp(version, FETULOMBO_VERSION), 1);
}

/* Every part of exactly the limit passes, all of a call at once. Class and order are numbers that are some. */
static void at_the_limit(const uint8_t *part) {
    const size_t limit = FETULOMBO_LIMIT;
    for (size_t f = 0; f < sizeof every / sizeof *every; f++) {
        same(every[f].name, refusal_of(f, E32, LE, part, limit) == FETULOMBO_TOO_LONG, 0);
    }
    uint32_t store[12] = {0};
    same("string at the limit", fetulombo_string_at(part, limit, 7).refusal, 0);
    same("equals at the limit", fetulombo_string_equals(part, limit, 7, part, limit).refusal, 0);
    same("definition at the limit", fetulombo_symbol_is_definition(part, limit, 0, 0, 0).refusal, 0);
    same("trimmed at the limit", fetulombo_trimmed(part, limit).refusal, 0);
    same("entry at the limit", fetulombo_version_entry(store, 12, part, limit, 0).refusal, 0);
    same("count at the limit", fetulombo_symbol_count(E32, part, limit).value, limit / 16);
    same("note at the limit", fetulombo_note_step(LE, 4, part, limit, limit - 12).found, 1);
    same("segments at the limit", fetulombo_segment_count(E32, part, limit).value, limit / 32);
    same("data at the limit", fetulombo_segment_data(part, limit, 0, limit).length, limit);
    same("range at the limit", fetulombo_segment_data_range(part, limit, 0, 0, limit, 1, limit - 1).length, limit - 1);
    same("interpreter at the limit", fetulombo_segment_interpreter(part, limit, 3, 1, limit - 1).found, 1);
    same("notes at the limit", fetulombo_segment_notes(part, limit, 4, 0, limit, 8).length, limit);
}

static void put_u32(uint8_t *at, uint32_t value) {
    for (int i = 0; i < 4; i++) {
        at[i] = (uint8_t)(value >> 8 * i);
    }
}

/* Strings, hashes, symbols and versyms to the end of a part of the limit. */
static void long_records(uint8_t *part) {
    const size_t limit = FETULOMBO_LIMIT;
    part[0] = 'a';
    same("string at the start", fetulombo_string_at(part, limit, 0).length, 1);
    same("string at the last byte, refusal", fetulombo_string_at(part, limit, 1073741823).refusal, 0);
    same("string at the last byte", fetulombo_string_at(part, limit, 1073741823).length, 0);
    same("string at the end", fetulombo_string_at(part, limit, (uint32_t)limit).refusal, FETULOMBO_NO_STRING);
    same("string past document 01's limit, refusal", fetulombo_string_at(part, 16777217, 0).refusal, 0);
    same("string past document 01's limit", fetulombo_string_at(part, 16777217, 0).length, 1);
    same("name past document 01's limit", fetulombo_string_equals(part, 16777217, 0, part, 1).value, 1);
    part[0] = 0;
    /* 5381 times 33 to the power of 2^30, plus the last byte; the power is 1 modulo 2^32. */
    part[limit - 1] = 'a';
    same("GNU hash", fetulombo_gnu_hash(part, limit).value, 5381 + 'a');
    same("SysV hash", fetulombo_sysv_hash(part, limit).value, 'a');
    same("trimmed", fetulombo_trimmed(part, limit).value, limit);
    part[limit - 1] = 0;
    /* Symbols: of 64 bits a tail of 16 bytes is left. */
    same("symbols of 32 bits", fetulombo_symbol_count(E32, part, limit).value, 67108864);
    same("symbols of 64 bits", fetulombo_symbol_count(E64, part, limit).value, 44739242);
    part[limit - 12] = 7;
    same("last of 32 bits, refusal", fetulombo_symbol_at(E32, LE, part, limit, 67108863).refusal, 0);
    same("last of 32 bits", fetulombo_symbol_at(E32, LE, part, limit, 67108863).value, 7);
    same("past it", fetulombo_symbol_at(E32, LE, part, limit, 67108864).refusal, FETULOMBO_NO_SYMBOL);
    same("name of the last", fetulombo_symbol_name(E32, LE, part, limit, part, limit, 67108863).refusal, 0);
    part[limit - 12] = 0;
    part[limit - 32] = 7;
    same("last of 64 bits, refusal", fetulombo_symbol_at(E64, LE, part, limit, 44739241).refusal, 0);
    same("last of 64 bits", fetulombo_symbol_at(E64, LE, part, limit, 44739241).value, 7);
    same("past it", fetulombo_symbol_at(E64, LE, part, limit, 44739242).refusal, FETULOMBO_NO_SYMBOL);
    part[limit - 32] = 0;
    part[limit - 2] = part[limit - 1] = 0xff;
    same("last versym", fetulombo_version_of(LE, part, limit, 536870911).index, 0x7fff);
    same("last versym, hidden", fetulombo_version_of(LE, part, limit, 536870911).hidden, 1);
    same("past it", fetulombo_version_of(LE, part, limit, 536870912).index, 1);
    same("past it, hidden", fetulombo_version_of(LE, part, limit, 536870912).hidden, 0);
    part[limit - 2] = part[limit - 1] = 0;
}

/* Hash tables, notes and segments to the end of a part of the limit. */
static void long_tables(uint8_t *part) {
    const size_t limit = FETULOMBO_LIMIT;
    const uint8_t null[16] = {0};
    /* GNU, 32 bits: the header, a bloom word and buckets, nothing else. */
    const uint32_t gnu[] = {268435451, 1, 1, 0};
    for (size_t i = 0; i < 4; i++) {
        put_u32(part + 4 * i, gnu[i]);
    }
    const fetulombo_check said = fetulombo_gnu_check(E32, LE, part, limit, null, 16, null, 1);
    same("GNU check, refusal", said.refusal, 0);
    same("GNU check, accepted", said.accepted, 1);
    same("GNU check, longest", said.longest, 0);
    same("GNU base", fetulombo_gnu_base(E32, LE, part, limit).value, 1);
    same("GNU length, refusal", fetulombo_gnu_length(E32, LE, part, limit).refusal, 0);
    same("GNU length, known", fetulombo_gnu_length(E32, LE, part, limit).known, 0);
    put_u32(part, 268435452);
    same("a bucket more", fetulombo_gnu_base(E32, LE, part, limit).refusal, FETULOMBO_BAD_GNU_BUCKETS);
    memset(part, 0, 16);
    /* SysV: the header, a bucket and chains. */
    put_u32(part, 1);
    put_u32(part + 4, 268435453);
    same("SysV length, refusal", fetulombo_sysv_length(LE, part, limit).refusal, 0);
    same("SysV length", fetulombo_sysv_length(LE, part, limit).value, 268435453);
    put_u32(part + 4, 268435454);
    same("a chain more", fetulombo_sysv_length(LE, part, limit).refusal, FETULOMBO_BAD_SYSV_CHAINS);
    memset(part, 0, 8);
    /* One note. */
    put_u32(part + 4, (uint32_t)limit - 12);
    const fetulombo_note note = fetulombo_note_step(LE, 4, part, limit, 0);
    same("note, refusal", note.refusal, 0);
    same("note, found", note.found, 1);
    same("note, descriptor", note.descriptor, 12);
    same("note, its length", note.descriptor_length, limit - 12);
    same("note, next", note.next, limit);
    put_u32(part + 4, (uint32_t)limit - 11);
    same("a byte more", fetulombo_note_step(LE, 4, part, limit, 0).refusal, FETULOMBO_BAD_NOTE_DESCRIPTOR);
    memset(part + 4, 0, 4);
    /* A file of 300 MiB whose last 20 bytes are a note. */
    const size_t middle = (size_t)300 << 20;
    put_u32(part + middle - 20, 4);
    put_u32(part + middle - 16, 4);
    part[middle - 1] = 9;
    const fetulombo_part held = fetulombo_segment_notes(part, middle, 4, middle - 20, 20, 4);
    same("notes at the end of a file, refusal", held.refusal, 0);
    same("notes at the end of a file", held.start, middle - 20);
    same("notes at the end of a file, length", held.length, 20);
    const fetulombo_note last = fetulombo_note_step(LE, held.number, part + held.start, held.length, 0);
    same("the note, descriptor", last.descriptor, 16);
    same("the note, its length", last.descriptor_length, 4);
    same("notes past the end", fetulombo_segment_notes(part, middle, 4, middle - 20, 21, 4).refusal,
         FETULOMBO_BAD_NOTE_PLACE);
    memset(part + middle - 20, 0, 20);
    same("nothing at the end, refusal", fetulombo_segment_data(part, limit, limit, 0).refusal, 0);
    same("nothing at the end", fetulombo_segment_data(part, limit, limit, 0).length, 0);
    same("a byte at the end", fetulombo_segment_data(part, limit, limit, 1).refusal, FETULOMBO_BAD_SEGMENT_DATA);
}

/* A part that is too long is refused before anything else, whether or not c and o are a class and an order. part
 * has one byte more than the limit. */
static void past_the_limit(const uint8_t *part, uint8_t c, uint8_t o) {
    const size_t limit = FETULOMBO_LIMIT;
    const uint8_t *none = part;
    same("string past it", fetulombo_string_at(part, limit + 1, 0).refusal, FETULOMBO_TOO_LONG);
    same("equals past it", fetulombo_string_equals(part, limit + 1, 0, none, 0).refusal, FETULOMBO_TOO_LONG);
    same("name past it", fetulombo_string_equals(none, 0, 0, part, limit + 1).refusal, FETULOMBO_TOO_LONG);
    same("u16 past it", fetulombo_u16_at(o, part, limit + 1, 0).refusal, FETULOMBO_TOO_LONG);
    same("u32 past it", fetulombo_u32_at(o, part, limit + 1, 0).refusal, FETULOMBO_TOO_LONG);
    same("u64 past it", fetulombo_u64_at(o, part, limit + 1, 0).refusal, FETULOMBO_TOO_LONG);
    same("hash past it", fetulombo_gnu_hash(part, limit + 1).refusal, FETULOMBO_TOO_LONG);
    same("SysV hash past it", fetulombo_sysv_hash(part, limit + 1).refusal, FETULOMBO_TOO_LONG);
    same("count past it", fetulombo_symbol_count(c, part, limit + 1).refusal, FETULOMBO_TOO_LONG);
    same("symbol past it", fetulombo_symbol_at(c, o, part, limit + 1, 0).refusal, FETULOMBO_TOO_LONG);
    same("name with strings past it", fetulombo_symbol_name(c, o, none, 0, part, limit + 1, 0).refusal, FETULOMBO_TOO_LONG);
    same("name with symbols past it", fetulombo_symbol_name(c, o, part, limit + 1, none, 0, 0).refusal, FETULOMBO_TOO_LONG);
    same("definition past it", fetulombo_symbol_is_definition(part, limit + 1, 0, 0, 0).refusal, FETULOMBO_TOO_LONG);
    same("note past it", fetulombo_note_step(o, 5, part, limit + 1, 0).refusal, FETULOMBO_TOO_LONG);
    same("trimmed past it", fetulombo_trimmed(part, limit + 1).refusal, FETULOMBO_TOO_LONG);
    same("properties past it", fetulombo_gnu_properties(c, o, 5, part, limit + 1, none, 0).refusal, FETULOMBO_TOO_LONG);
    same("their descriptor too", fetulombo_gnu_properties(c, o, 5, none, 0, part, limit + 1).refusal, FETULOMBO_TOO_LONG);
    same("property past it", fetulombo_property_step(c, o, part, limit + 1, 0).refusal, FETULOMBO_TOO_LONG);
    same("number past it", fetulombo_property_number(o, part, limit + 1).refusal, FETULOMBO_TOO_LONG);
    uint32_t store[12];
    memset(store, 0xff, sizeof store);
    same("definitions past it", fetulombo_versions_parse(o, part, limit + 1, none, 0, none, 0, store, 12).refusal,
         FETULOMBO_TOO_LONG);
    same("store after it", store[0] | store[11], 0);
    same("needs past it", fetulombo_versions_parse(o, none, 0, part, limit + 1, none, 0, store, 12).refusal,
         FETULOMBO_TOO_LONG);
    same("their strings too", fetulombo_versions_parse(o, none, 0, none, 0, part, limit + 1, store, 12).refusal,
         FETULOMBO_TOO_LONG);
    same("entry past it", fetulombo_version_entry(store, 12, part, limit + 1, 0).refusal, FETULOMBO_TOO_LONG);
    same("versyms past it", fetulombo_version_of(o, part, limit + 1, 0).refusal, FETULOMBO_TOO_LONG);
    /* The name's length counts also where no version is needed. */
    for (uint8_t needed = 0; needed < 2; needed++) {
        same("versyms past it",
             fetulombo_version_matches(o, part, limit + 1, store, 12, none, 0, 0, needed, 0, none, 0).refusal,
             FETULOMBO_TOO_LONG);
        same("versions' strings past it",
             fetulombo_version_matches(o, none, 0, store, 12, part, limit + 1, 0, needed, 0, none, 0).refusal,
             FETULOMBO_TOO_LONG);
        same("needed name past it",
             fetulombo_version_matches(o, none, 0, store, 12, none, 0, 0, needed, 0, part, limit + 1).refusal,
             FETULOMBO_TOO_LONG);
    }
    for (int which = 0; which < 7; which++) {
        const size_t n = limit + 1;
#define LENT(k) which == (k) ? part : none, which == (k) ? n : 0
        same("GNU lookup past it",
             fetulombo_gnu_find(c, o, LENT(0), LENT(1), LENT(2), LENT(3), store, 12, LENT(4), LENT(5), 0, 0, 0, LENT(6))
                 .refusal,
             FETULOMBO_TOO_LONG);
        same("SysV lookup past it",
             fetulombo_sysv_find(c, o, LENT(0), LENT(1), LENT(2), LENT(3), store, 12, LENT(4), LENT(5), 0, 0, 0, LENT(6))
                 .refusal,
             FETULOMBO_TOO_LONG);
        if (which < 3) {
            same("GNU check past it", fetulombo_gnu_check(c, o, LENT(0), LENT(1), LENT(2)).refusal, FETULOMBO_TOO_LONG);
            same("SysV check past it", fetulombo_sysv_check(c, o, LENT(0), LENT(1), LENT(2)).refusal, FETULOMBO_TOO_LONG);
        }
#undef LENT
    }
    same("GNU length past it", fetulombo_gnu_length(c, o, part, limit + 1).refusal, FETULOMBO_TOO_LONG);
    same("GNU base past it", fetulombo_gnu_base(c, o, part, limit + 1).refusal, FETULOMBO_TOO_LONG);
    same("SysV length past it", fetulombo_sysv_length(o, part, limit + 1).refusal, FETULOMBO_TOO_LONG);
    same("segments past it", fetulombo_segment_count(c, part, limit + 1).refusal, FETULOMBO_TOO_LONG);
    same("segment past it", fetulombo_segment_at(c, o, part, limit + 1, 0).refusal, FETULOMBO_TOO_LONG);
    same("data past it", fetulombo_segment_data(part, limit + 1, 0, 0).refusal, FETULOMBO_TOO_LONG);
    same("range past it", fetulombo_segment_data_range(part, limit + 1, 0, 0, 0, 0, 0).refusal, FETULOMBO_TOO_LONG);
    same("dynamic past it", fetulombo_segment_dynamic(c, part, limit + 1, 1, 0, 0).refusal, FETULOMBO_TOO_LONG);
    same("entry past it", fetulombo_segment_dynamic_entry(c, o, part, limit + 1, 0).refusal, FETULOMBO_TOO_LONG);
    same("interpreter past it", fetulombo_segment_interpreter(part, limit + 1, 1, 0, 0).refusal, FETULOMBO_TOO_LONG);
    same("notes past it", fetulombo_segment_notes(part, limit + 1, 1, 0, 0, 0).refusal, FETULOMBO_TOO_LONG);
    same("notes past it", fetulombo_segment_notes(part, limit + 1, 4, SIZE_MAX, 1, 5).refusal, FETULOMBO_TOO_LONG);
    /* The same through the structs: each part in turn, and each name, whose hash is then refused too. */
    const fetulombo_bytes too_long = {part, limit + 1};
    for (int which = 0; which < 14; which++) {
        fetulombo_library library = small_library();
        fetulombo_wanted wanted = fetulombo_want(fetulombo_text("a"));
        wanted.needed = which % 2;
        library.elf_class = c;
        library.order = o;
        fetulombo_bytes *lent[] = {&library.gnu_table, &library.symbols, &library.strings, &library.versyms,
                                   &library.version_strings, &wanted.name, &wanted.version};
        *lent[which / 2] = too_long;
        if (which / 2 == 0) {
            library.sysv_table = too_long;
        }
        const fetulombo_hashes hashes = fetulombo_hashes_of(&wanted);
        same("GNU lookup past it", fetulombo_library_gnu_find(&library, &wanted).refusal, FETULOMBO_TOO_LONG);
        same("SysV lookup past it", fetulombo_library_sysv_find(&library, &wanted).refusal, FETULOMBO_TOO_LONG);
        same("GNU lookup past it, hashed", fetulombo_library_gnu_find_hashed(&library, &wanted, &hashes).refusal,
             FETULOMBO_TOO_LONG);
        same("SysV lookup past it, hashed", fetulombo_library_sysv_find_hashed(&library, &wanted, &hashes).refusal,
             FETULOMBO_TOO_LONG);
        if (which / 2 < 3) {
            same("GNU check past it", fetulombo_library_gnu_check(&library).refusal, FETULOMBO_TOO_LONG);
            same("SysV check past it", fetulombo_library_sysv_check(&library).refusal, FETULOMBO_TOO_LONG);
        }
        if (which / 2 > 2 && which / 2 != 5) {
            same("match past it", fetulombo_library_version_matches(&library, &wanted, 1).refusal, FETULOMBO_TOO_LONG);
        }
    }
}

static void limits(void) {
    uint8_t *part = long_part();
    at_the_limit(part);
    long_records(part);
    long_tables(part);
    past_the_limit(part, FETULOMBO_ELF32, FETULOMBO_LITTLE);
    past_the_limit(part, FETULOMBO_ELF64, FETULOMBO_BIG);
    past_the_limit(part, 0, 0);
    past_the_limit(part, 3, 255);
}

int main(int count, char **arguments) {
    words();
    strings();
    hashes();
    symbols();
    notes();
    versions();
    refusals_in_order();
    lookups();
    versioned();
    lengths();
    checks();
    nulls();
    kinds();
    segments();
    limits();
    texts();
    real_file(count > 1 ? arguments[1] : "fixtures/lot/liblot.so");
    if (failures != 0) {
        return 1;
    }
    printf("the C calls agree\n");
    return 0;
}
