/* Fetulombo: which symbol of an ELF library a name and a version bind to.
 * SPDX-License-Identifier: Apache-2.0 OR MIT
 *
 * For C99 or C++11 and later. Link libfetulombo.a. Its functions are proved, on the abstract machine of their
 * language, to answer what their definitions say; this header and the C calls are tested.
 *
 * Two ways to call them. The functions of the archive take a pointer and a length for each part. The inline
 * functions at the end of this header take structs in which each part has its name: a fetulombo_library and
 * a fetulombo_wanted. They call the functions of the archive and answer what those do.
 *
 * WHAT IS LENT. A slice is passed as a pointer and a length, in elements. To a function of the archive the
 * pointer must not be null, also where the length is 0; then it may be any other pointer that is aligned to
 * the elements, and nothing is read there. In the structs of the inline functions, data may be null where its
 * length is 0. A pointer to numbers of 4 bytes (the store) is aligned to 4; one to bytes may be any.
 * What is lent must stay as it is during the call: nobody else may write to it, no other process either (a file
 * that is mapped). Slices that are only read may overlap. fetulombo_versions_parse alone writes to what it is
 * lent, and that to its store alone, which must not overlap the other slices.
 *
 * PARTS. Every slice but the store is a part: sections, strings, files, and also the names that are asked
 * for. A part longer than FETULOMBO_LIMIT bytes is refused (FETULOMBO_TOO_LONG) before anything else. The
 * store is no part, and may have any length.
 *
 * CLASS AND ORDER are ELF's own numbers, as e_ident[4] and e_ident[5] of a file hold them, and may be passed on
 * from there. Any other number is refused (FETULOMBO_UNKNOWN_KIND) by every function that takes one, after
 * FETULOMBO_TOO_LONG and before everything else.
 *
 * REFUSALS. refusal is 0 where there is none, and then the other fields hold the answer; otherwise it is one of
 * the numbers below, and the other fields are 0, but for next of the readers of notes and properties. Where
 * several refusals could be, the answer is the first in the order that the function names.
 *
 * THREADS. The functions keep nothing, allocate nothing and have no state of their own: any number of
 * threads may call them at once, as long as nobody writes to what is lent.
 *
 * ABI. The archive is for x86-64 Linux, with the System V calling convention. Every struct that a function
 * hands back has more than 16 bytes, and so goes through memory. Compile with the header of the archive that you
 * link: the structs are those of this version; fields are only ever added, and only with a new version. */
#ifndef FETULOMBO_H
#define FETULOMBO_H

#include <stddef.h>
#include <stdint.h>

#ifdef __cplusplus
extern "C" {
#endif

#define FETULOMBO_VERSION_MAJOR 0
#define FETULOMBO_VERSION_MINOR 1
#define FETULOMBO_VERSION_PATCH 0
#define FETULOMBO_VERSION "0.1.0"

/* Classes: e_ident[4]. */
#define FETULOMBO_ELF32 1
#define FETULOMBO_ELF64 2

/* Byte orders: e_ident[5]. */
#define FETULOMBO_LITTLE 1
#define FETULOMBO_BIG 2

/* The most bytes that a part may have. */
#define FETULOMBO_LIMIT 1073741824u

/* Refusals. fetulombo_refusal_text says them in words. */
#define FETULOMBO_TOO_LONG 1
#define FETULOMBO_NOTE_SHORT 2
#define FETULOMBO_BAD_NOTE_NAME 3
#define FETULOMBO_BAD_NOTE_DESCRIPTOR 4
#define FETULOMBO_BAD_NOTE_ALIGNMENT 5
#define FETULOMBO_BAD_PROPERTY 6
#define FETULOMBO_SHORT_PROPERTY_NUMBER 7
#define FETULOMBO_VERDEF_SHORT 8
#define FETULOMBO_BAD_VERDEF_AUX 9
#define FETULOMBO_BAD_VERDEF_NEXT 10
#define FETULOMBO_VERDAUX_SHORT 11
#define FETULOMBO_BAD_VERDAUX_NEXT 12
#define FETULOMBO_VERNEED_SHORT 13
#define FETULOMBO_BAD_VERNEED_AUX 14
#define FETULOMBO_BAD_VERNEED_NEXT 15
#define FETULOMBO_VERNAUX_SHORT 16
#define FETULOMBO_BAD_VERNAUX_NEXT 17
#define FETULOMBO_BAD_VERDAUX_NAME 18
#define FETULOMBO_BAD_VERNEED_FILE 19
#define FETULOMBO_BAD_VERNAUX_NAME 20
#define FETULOMBO_BAD_VERSION_INDEX 21
#define FETULOMBO_STORE_TOO_SMALL 22
#define FETULOMBO_BAD_SYSV_HEADER 23
#define FETULOMBO_BAD_SYSV_BUCKETS 24
#define FETULOMBO_BAD_SYSV_CHAINS 25
#define FETULOMBO_BAD_GNU_HEADER 26
#define FETULOMBO_BAD_GNU_BLOOM 27
#define FETULOMBO_BAD_GNU_BUCKETS 28
#define FETULOMBO_NO_SEGMENT 29
#define FETULOMBO_BAD_BLOOM_SHIFT 30
#define FETULOMBO_BAD_SEGMENT_DATA 31
#define FETULOMBO_BAD_DYNAMIC_PLACE 32
#define FETULOMBO_BAD_INTERPRETER_PLACE 33
#define FETULOMBO_ENDLESS_INTERPRETER 34
#define FETULOMBO_BAD_NOTE_PLACE 35
#define FETULOMBO_NO_STRING 36
#define FETULOMBO_NO_SYMBOL 37
#define FETULOMBO_UNKNOWN_KIND 39

/* A number, or a truth as 0 or 1. unused is 0. */
typedef struct {
    uint64_t refusal;
    uint64_t value;
    uint64_t unused;
} fetulombo_number;

/* A part of a lent slice. */
typedef struct {
    uint64_t refusal;
    uint64_t start;
    uint64_t length;
} fetulombo_place;

/* The fields of a symbol. */
typedef struct {
    uint32_t refusal;
    uint32_t name;
    uint64_t value;
    uint64_t size;
    uint8_t info;
    uint8_t other;
    uint16_t shndx;
} fetulombo_symbol;

/* What info, other and shndx of a symbol say; from undefined on 0 or 1. It is never refused. */
typedef struct {
    uint32_t bind;
    uint32_t kind;
    uint32_t visibility;
    uint32_t undefined;
    uint32_t common;
    uint32_t absolute;
    uint32_t local;
    uint32_t weak;
} fetulombo_facts;

/* A step of a note reader. found is 1 with a note; it is 0 at the end of the bytes and where the step is
 * refused. kind is the note's type; name and descriptor are places in the lent bytes.
 *
 * next is the place of the next step: after a note, where the next one begins; at the end, the place that was
 * passed; after a refusal, the length of the bytes. The padding after the last descriptor may be missing, and
 * next then lies past the bytes: pass it on as at, and form no pointer from it. */
typedef struct {
    uint32_t refusal;
    uint32_t found;
    uint64_t kind;
    uint64_t name;
    uint64_t name_length;
    uint64_t descriptor;
    uint64_t descriptor_length;
    uint64_t next;
} fetulombo_note;

/* The same of a property reader; start and length are the place of the data in the descriptor. A property's
 * padding is never missing, so that next lies past the descriptor only where the place that was passed did. */
typedef struct {
    uint32_t refusal;
    uint32_t found;
    uint64_t kind;
    uint64_t start;
    uint64_t length;
    uint64_t next;
} fetulombo_property;

/* The version behind an index. special is 1 for the indices 0 and 1, which name no version, and the fields after
 * it are then 0. kind is 1 for a definition and 2 for a need; name and, of a need, file are places in the
 * versions' strings. */
typedef struct {
    uint32_t refusal;
    uint32_t special;
    uint32_t kind;
    uint32_t hash;
    uint32_t name;
    uint32_t name_length;
    uint32_t file;
    uint32_t file_length;
} fetulombo_version;

/* The version of a symbol; hidden is 0 or 1. */
typedef struct {
    uint64_t refusal;
    uint64_t index;
    uint64_t hidden;
} fetulombo_versym;

/* What a lookup gives: found is 1 with a symbol's number, and 0 without. probes is, in either case, how many
 * were tested: in a GNU table pairs of a symbol and its value, in a SysV table symbol numbers, whether or not
 * a symbol stands there. */
typedef struct {
    uint32_t refusal;
    uint32_t found;
    uint64_t symbol;
    uint64_t probes;
} fetulombo_lookup;

/* What a checker says. accepted is 1 or 0; a table that is not accepted breaks a rule: rule is the number of
 * the first, and place its lowest symbol or bucket, or 0. longest is, of an accepted GNU table, the most
 * hashed symbols in one bucket. */
typedef struct {
    uint32_t refusal;
    uint32_t accepted;
    uint32_t rule;
    uint32_t place;
    uint64_t longest;
} fetulombo_check;

/* The length of the symbol table, in symbols. known is 0 where the GNU table does not say it: symbol_base or
 * bucket_count is 0, the highest bucket is below symbol_base, no value from that bucket's on has the low bit 1,
 * or the length would pass 32 bits. */
typedef struct {
    uint64_t refusal;
    uint64_t known;
    uint64_t symbols;
} fetulombo_length;

/* The fields of a segment's record. */
typedef struct {
    uint64_t refusal;
    uint32_t kind;
    uint32_t flags;
    uint64_t offset;
    uint64_t vaddr;
    uint64_t paddr;
    uint64_t filesz;
    uint64_t memsz;
    uint64_t align;
} fetulombo_segment;

/* What kind and flags of a segment say: kind is one of the FETULOMBO_SEGMENT numbers below, or 0 for any
 * other type; the rest are 0 or 1. It is never refused. */
typedef struct {
    uint64_t kind;
    uint64_t readable;
    uint64_t writable;
    uint64_t executable;
} fetulombo_segment_meaning;

/* A part of a lent file. found is 0 where there is none and it is not refused: a segment of another kind,
 * or an address range that is not here; number is what its function says. */
typedef struct {
    uint32_t refusal;
    uint32_t found;
    uint64_t start;
    uint64_t length;
    uint64_t number;
} fetulombo_part;

/* A dynamic entry, both fields unsigned. found is 0 where there is none and it is not refused. */
typedef struct {
    uint32_t refusal;
    uint32_t found;
    uint64_t tag;
    uint64_t value;
} fetulombo_dynamic;

/* The word of 2, 4 or 8 bytes at a place. A byte past the end counts as 0. */
fetulombo_number fetulombo_u16_at(uint8_t order, const uint8_t *bytes, size_t bytes_length, size_t at);
fetulombo_number fetulombo_u32_at(uint8_t order, const uint8_t *bytes, size_t bytes_length, size_t at);
fetulombo_number fetulombo_u64_at(uint8_t order, const uint8_t *bytes, size_t bytes_length, size_t at);

/* The string at an offset, without its zero. FETULOMBO_NO_STRING: no byte there, or no zero from
 * there on. */
fetulombo_place fetulombo_string_at(const uint8_t *strings, size_t strings_length, uint32_t offset);

/* Whether there is a string at an offset and it is the name, byte for byte. */
fetulombo_number fetulombo_string_equals(const uint8_t *strings, size_t strings_length, uint32_t offset,
                                         const uint8_t *name, size_t name_length);

/* The GNU and the SysV hash of a name. */
fetulombo_number fetulombo_gnu_hash(const uint8_t *name, size_t name_length);
fetulombo_number fetulombo_sysv_hash(const uint8_t *name, size_t name_length);

/* How many whole symbols there are. */
fetulombo_number fetulombo_symbol_count(uint8_t symbol_class, const uint8_t *symbols, size_t symbols_length);

/* The symbol of a number. FETULOMBO_NO_SYMBOL: number 0, or no whole record. */
fetulombo_symbol fetulombo_symbol_at(uint8_t symbol_class, uint8_t order, const uint8_t *symbols,
                                     size_t symbols_length, uint32_t index);

/* The name of the symbol of a number, in the strings. Refused as fetulombo_symbol_at, then as
 * fetulombo_string_at. */
fetulombo_place fetulombo_symbol_name(uint8_t symbol_class, uint8_t order, const uint8_t *symbols,
                                      size_t symbols_length, const uint8_t *strings, size_t strings_length,
                                      uint32_t index);

/* What the fields of a symbol say that need no strings: undefined is shndx 0, common 0xfff2, absolute 0xfff1;
 * local is bind 0, weak bind 2. */
fetulombo_facts fetulombo_symbol_facts(uint8_t info, uint8_t other, uint16_t shndx);

/* Whether a symbol with these fields is a definition: in a section (shndx is not 0, nor 0xff00 to 0xfffe), and
 * by its type a function, an object, or without a type. A local one without a type is none if its name starts
 * with `$` (a mapping symbol). */
fetulombo_number fetulombo_symbol_is_definition(const uint8_t *strings, size_t strings_length, uint32_t name,
                                                uint8_t info, uint16_t shndx);

/* The note at a place: the first at 0, each further one at the next of the one before. An align of 0 to
 * 4 counts as 4, and 8 as 8. Refused in this order: FETULOMBO_TOO_LONG; FETULOMBO_UNKNOWN_KIND;
 * FETULOMBO_BAD_NOTE_ALIGNMENT, another align; FETULOMBO_NOTE_SHORT, FETULOMBO_BAD_NOTE_NAME,
 * FETULOMBO_BAD_NOTE_DESCRIPTOR. The first three do not depend on the place and come at every one, so a loop
 * stops where no note is found, and looks at the refusal then:
 *
 *     fetulombo_note note;
 *     for (size_t at = 0; (note = fetulombo_note_step(order, align, bytes, length, at)).found; at = note.next) {
 *         ...
 *     }
 *     if (note.refusal != 0) ...
 */
fetulombo_note fetulombo_note_step(uint8_t order, uint64_t align, const uint8_t *bytes, size_t bytes_length,
                                   size_t at);

/* The length of a note's name without its trailing zeros. */
fetulombo_number fetulombo_trimmed(const uint8_t *name, size_t name_length);

/* Whether a note of this type, name and descriptor holds GNU properties: its type is 5, and its name `GNU`
 * without its trailing zeros. */
fetulombo_number fetulombo_gnu_properties(uint8_t note_class, uint8_t order, uint32_t kind, const uint8_t *name,
                                          size_t name_length, const uint8_t *descriptor,
                                          size_t descriptor_length);

/* The property at a place of such a descriptor: the first at 0, each further one at the next of the one
 * before. Refused in this order: FETULOMBO_TOO_LONG; FETULOMBO_UNKNOWN_KIND; FETULOMBO_BAD_PROPERTY: it is not
 * whole, its padding included. A loop stops where no property is found, as one over notes. */
fetulombo_property fetulombo_property_step(uint8_t note_class, uint8_t order, const uint8_t *descriptor,
                                           size_t descriptor_length, size_t at);

/* A property's data as a number: its first 4 bytes. FETULOMBO_SHORT_PROPERTY_NUMBER: there are fewer. */
fetulombo_number fetulombo_property_number(uint8_t order, const uint8_t *part, size_t part_length);

/* Numbers of a version in the store: kind, hash, name start, name length, file start, file length. */
#define FETULOMBO_ENTRY 6

/* The most numbers that a store needs: an entry for each of 65,536 indices. */
#define FETULOMBO_LARGEST_STORE 393216u

/* Parses the definitions (Verdef) and the needs (Verneed) into the store, which has store_length numbers
 * of 4 bytes, is aligned to them and overlaps no other slice; an absent section has length 0. The answer is the
 * highest index, 0 where none is named, and the store then holds FETULOMBO_ENTRY numbers for each index up to
 * it, all 0 where no version is stored, and 0 in every further number. After a refusal the whole store is 0.
 * Refused in this order:
 *   FETULOMBO_TOO_LONG; FETULOMBO_UNKNOWN_KIND;
 *   first pass, record by record in the order of the list, the first refusal ends it:
 *     each Verdef: FETULOMBO_VERDEF_SHORT, FETULOMBO_BAD_VERDEF_AUX, FETULOMBO_BAD_VERDEF_NEXT;
 *     then each Verneed: FETULOMBO_VERNEED_SHORT, FETULOMBO_BAD_VERNEED_AUX, FETULOMBO_BAD_VERNEED_NEXT,
 *     and, before the next Verneed, each Vernaux of its chain: FETULOMBO_VERNAUX_SHORT,
 *     FETULOMBO_BAD_VERNAUX_NEXT;
 *   FETULOMBO_STORE_TOO_SMALL;
 *   second pass, again record by record, over those that are stored:
 *     each definition: FETULOMBO_VERDAUX_SHORT, FETULOMBO_BAD_VERDAUX_NEXT, FETULOMBO_BAD_VERDAUX_NAME;
 *     then each Vernaux: FETULOMBO_BAD_VERNAUX_NAME, and only then its Verneed's FETULOMBO_BAD_VERNEED_FILE.
 * Not stored are a definition that is flagged base or has no Verdaux, and the indices 0 and 1. */
fetulombo_number fetulombo_versions_parse(uint8_t order, const uint8_t *verdef, size_t verdef_length,
                                          const uint8_t *verneed, size_t verneed_length,
                                          const uint8_t *strings, size_t strings_length, uint32_t *store,
                                          size_t store_length);

/* The version behind an index of a store, which may hold anything. FETULOMBO_BAD_VERSION_INDEX: past the
 * whole entries, of another kind, or with a name or, of a need, a file outside the strings. */
fetulombo_version fetulombo_version_entry(const uint32_t *store, size_t store_length, const uint8_t *strings,
                                          size_t strings_length, uint16_t index);

/* The version of a symbol: its versym, or index 1, not hidden, where there is none. */
fetulombo_versym fetulombo_version_of(uint8_t order, const uint8_t *versyms, size_t versyms_length,
                                      uint32_t symbol);

/* Whether the version of a symbol is the one that is needed. An index that fetulombo_version_entry refuses
 * never is.
 *   needed 0, no version is asked for: the indices 0 and 1 match, hidden or not; any other matches if it is not
 *     hidden. hash is not looked at, and of name its length alone: too long is refused even then.
 *   needed anything else: the version behind the index must have this hash and this name, hidden or not; of a
 *     need, its file is not compared. The indices 0 and 1 do not match. hash is the name's SysV hash. */
fetulombo_number fetulombo_version_matches(uint8_t order, const uint8_t *versyms, size_t versyms_length,
                                           const uint32_t *store, size_t store_length, const uint8_t *strings,
                                           size_t strings_length, uint32_t symbol, uint8_t needed,
                                           uint32_t hash, const uint8_t *name, size_t name_length);

/* The symbol of a name and a version in a GNU hash table, by the name's GNU hash; the bytes may be longer
 * than the table. The version table is versyms, a filled store and the versions' strings; with none, all
 * three are empty. needed, need_hash and need_name are as in fetulombo_version_matches: need_hash is the SysV
 * hash of need_name. A hash that is not the name's may miss a symbol; it never finds one of another name or
 * version. Refused in this order: FETULOMBO_TOO_LONG; FETULOMBO_UNKNOWN_KIND; FETULOMBO_BAD_GNU_HEADER,
 * FETULOMBO_BAD_GNU_BLOOM, FETULOMBO_BAD_GNU_BUCKETS; and FETULOMBO_BAD_BLOOM_SHIFT, where the second bit of the
 * bloom filter is reached.
 * fetulombo_library_gnu_find, below, is the same with a name for each of these arguments. */
fetulombo_lookup fetulombo_gnu_find(uint8_t table_class, uint8_t order,
                                    const uint8_t *table, size_t table_length, const uint8_t *symbols,
                                    size_t symbols_length, const uint8_t *strings, size_t strings_length,
                                    const uint8_t *versyms, size_t versyms_length, const uint32_t *store,
                                    size_t store_length, const uint8_t *version_strings,
                                    size_t version_strings_length, const uint8_t *name, size_t name_length,
                                    uint32_t hash, uint8_t needed, uint32_t need_hash,
                                    const uint8_t *need_name, size_t need_name_length);

/* The same in a SysV hash table, by the name's SysV hash. Refused in this order: FETULOMBO_TOO_LONG;
 * FETULOMBO_UNKNOWN_KIND; FETULOMBO_BAD_SYSV_HEADER, FETULOMBO_BAD_SYSV_BUCKETS, FETULOMBO_BAD_SYSV_CHAINS.
 *
 * The words of a SysV table have 4 bytes here, in either class. Those of ELF64 files for Alpha and s390x have 8:
 * this library does not read them, and does not notice. It takes their bytes for words of 4, and what it
 * answers then means nothing. A caller learns it from the section's entry size (sh_entsize, 8 instead of
 * 4), and must not pass such a table to this function, to fetulombo_sysv_length or to fetulombo_sysv_check. */
fetulombo_lookup fetulombo_sysv_find(uint8_t table_class, uint8_t order,
                                     const uint8_t *table, size_t table_length, const uint8_t *symbols,
                                     size_t symbols_length, const uint8_t *strings, size_t strings_length,
                                     const uint8_t *versyms, size_t versyms_length, const uint32_t *store,
                                     size_t store_length, const uint8_t *version_strings,
                                     size_t version_strings_length, const uint8_t *name, size_t name_length,
                                     uint32_t hash, uint8_t needed, uint32_t need_hash,
                                     const uint8_t *need_name, size_t need_name_length);

/* The number of the first hashed symbol of a GNU table (symbol_base), and the length of the symbol table as it
 * follows from the GNU table alone. Refused as fetulombo_gnu_find, but for the bloom shift. */
fetulombo_number fetulombo_gnu_base(uint8_t table_class, uint8_t order, const uint8_t *table,
                                    size_t table_length);
fetulombo_length fetulombo_gnu_length(uint8_t table_class, uint8_t order, const uint8_t *table,
                                      size_t table_length);

/* The length of the symbol table as a SysV table says it: its number of chains. Refused as
 * fetulombo_sysv_find, and of words of 4 bytes as there. */
fetulombo_number fetulombo_sysv_length(uint8_t order, const uint8_t *table, size_t table_length);

/* Checks a GNU table against its symbols and their names, by the rules G1 to G10:
 *   1 the first hashed symbol is one of 1 to n, n the symbols; 2 the bloom words are a power of two;
 *   3 there is a bucket; 4 the bloom shift is at most 31; 5 each hashed symbol has a value;
 *   6 its name can be read; 7 its value is the name's hash but for the low bit; 8 both its bloom bits are set;
 *   9 each bucket holds its lowest symbol, or 0 without one, and its symbols are consecutive;
 *   10 the low bit of a value is 1 exactly at a bucket's last symbol.
 * In an accepted table a lookup with the name's own GNU hash finds exactly the lowest hashed symbol that
 * matches, in at most longest probes. place is a symbol (6 to 8, 10) or a bucket (9), or 0. Refused as
 * fetulombo_gnu_base, over all three parts. */
fetulombo_check fetulombo_gnu_check(uint8_t table_class, uint8_t order, const uint8_t *table,
                                    size_t table_length, const uint8_t *symbols, size_t symbols_length,
                                    const uint8_t *strings, size_t strings_length);

/* Checks a SysV table, by the rules T1 to T3: 1 there are symbols, as many chains, and a bucket; 2 the names
 * of all symbols but the first can be read; 3 each chain ends in 0, and each symbol but the first stands on
 * exactly one chain, once, that of its hash. In an accepted table a lookup with the name's own SysV hash
 * finds a symbol exactly if one matches. place and longest are 0. Refused as fetulombo_sysv_length, over all
 * three parts, and of words of 4 bytes as fetulombo_sysv_find. */
fetulombo_check fetulombo_sysv_check(uint8_t table_class, uint8_t order, const uint8_t *table,
                                     size_t table_length, const uint8_t *symbols, size_t symbols_length,
                                     const uint8_t *strings, size_t strings_length);

/* Types of segments: PT_LOAD, PT_DYNAMIC, PT_INTERP, PT_NOTE. */
#define FETULOMBO_SEGMENT_LOAD 1
#define FETULOMBO_SEGMENT_DYNAMIC 2
#define FETULOMBO_SEGMENT_INTERPRETER 3
#define FETULOMBO_SEGMENT_NOTE 4

/* How many whole records a table of program headers has. */
fetulombo_number fetulombo_segment_count(uint8_t segment_class, const uint8_t *table, size_t table_length);

/* The segment of a number. FETULOMBO_NO_SEGMENT: no whole record stands there. */
fetulombo_segment fetulombo_segment_at(uint8_t segment_class, uint8_t order, const uint8_t *table,
                                       size_t table_length, uint32_t number);

/* What the type and the flags of a segment say. */
fetulombo_segment_meaning fetulombo_segment_facts(uint32_t kind, uint32_t flags);

/* The functions below take the fields of a segment that their answer depends on, which may be any
 * numbers, and the whole file. */

/* The bytes of a segment. FETULOMBO_BAD_SEGMENT_DATA: they are not all in the file. */
fetulombo_place fetulombo_segment_data(const uint8_t *file, size_t file_length, uint64_t offset,
                                       uint64_t filesz);

/* The bytes of an address range; found is 0 if it begins below vaddr or reaches past the segment's file
 * bytes. number is 0. Refused as fetulombo_segment_data. */
fetulombo_part fetulombo_segment_data_range(const uint8_t *file, size_t file_length, uint64_t offset,
                                            uint64_t vaddr, uint64_t filesz, uint64_t address,
                                            uint64_t size);

/* The bytes of a dynamic segment; number is how many whole entries they have. found is 0 for another kind.
 * FETULOMBO_BAD_DYNAMIC_PLACE: they are not all in the file. */
fetulombo_part fetulombo_segment_dynamic(uint8_t segment_class, const uint8_t *file, size_t file_length,
                                         uint32_t kind, uint64_t offset, uint64_t filesz);

/* The entry of a number among the bytes of a dynamic segment; found is 0 past the whole entries. */
fetulombo_dynamic fetulombo_segment_dynamic_entry(uint8_t segment_class, uint8_t order, const uint8_t *bytes,
                                                  size_t bytes_length, uint32_t number);

/* The name of the interpreter, up to its first zero; number is 0. found is 0 for another kind.
 * FETULOMBO_BAD_INTERPRETER_PLACE: the segment's bytes are not all in the file;
 * FETULOMBO_ENDLESS_INTERPRETER: there is no zero among them. */
fetulombo_part fetulombo_segment_interpreter(const uint8_t *file, size_t file_length, uint32_t kind,
                                             uint64_t offset, uint64_t filesz);

/* The bytes of a segment of notes, for fetulombo_note_step; number is their alignment, 4 or 8. found is 0
 * for another kind. FETULOMBO_BAD_NOTE_PLACE: they are not all in the file; then
 * FETULOMBO_BAD_NOTE_ALIGNMENT. */
fetulombo_part fetulombo_segment_notes(const uint8_t *file, size_t file_length, uint32_t kind, uint64_t offset,
                                       uint64_t filesz, uint64_t align);

/* What follows is compiled where it is called. It names the parts, computes the hashes, and calls the functions
 * above; each answers, and refuses, as the function above that it calls:
 *
 *     fetulombo_library library = {0};
 *     library.elf_class = file[4];
 *     library.order = file[5];
 *     library.symbols = ...
 *     fetulombo_number highest = fetulombo_library_parse_versions(&library, store, store_length);
 *     fetulombo_check check = fetulombo_library_gnu_check(&library);
 *     fetulombo_wanted wanted = fetulombo_want(fetulombo_text("import_lot"));
 *     fetulombo_want_version(&wanted, fetulombo_text("LOT_2.0"));
 *     fetulombo_lookup found = fetulombo_library_gnu_find(&library, &wanted);
 */

/* A refusal in words; 0 and numbers of no refusal have their words too. The text is never freed. */
static inline const char *fetulombo_refusal_text(uint64_t number) {
    switch (number) {
    case 0: return "no refusal";
    case FETULOMBO_TOO_LONG: return "a part is too long";
    case FETULOMBO_NOTE_SHORT: return "a note's header is short";
    case FETULOMBO_BAD_NOTE_NAME: return "a note's name runs past the bytes";
    case FETULOMBO_BAD_NOTE_DESCRIPTOR: return "a note's descriptor runs past the bytes";
    case FETULOMBO_BAD_NOTE_ALIGNMENT: return "a note alignment other than 0 to 4 or 8";
    case FETULOMBO_BAD_PROPERTY: return "a property runs past its note";
    case FETULOMBO_SHORT_PROPERTY_NUMBER: return "a property's number has fewer than 4 bytes";
    case FETULOMBO_VERDEF_SHORT: return "a Verdef is short";
    case FETULOMBO_BAD_VERDEF_AUX: return "a Verdef's aux lies past the bytes";
    case FETULOMBO_BAD_VERDEF_NEXT: return "a Verdef's next lies past the bytes";
    case FETULOMBO_VERDAUX_SHORT: return "a Verdaux is short";
    case FETULOMBO_BAD_VERDAUX_NEXT: return "a Verdaux's next lies past the bytes";
    case FETULOMBO_VERNEED_SHORT: return "a Verneed is short";
    case FETULOMBO_BAD_VERNEED_AUX: return "a Verneed's aux lies past the bytes";
    case FETULOMBO_BAD_VERNEED_NEXT: return "a Verneed's next lies past the bytes";
    case FETULOMBO_VERNAUX_SHORT: return "a Vernaux is short";
    case FETULOMBO_BAD_VERNAUX_NEXT: return "a Vernaux's next lies past the bytes";
    case FETULOMBO_BAD_VERDAUX_NAME: return "a Verdaux's name cannot be read";
    case FETULOMBO_BAD_VERNEED_FILE: return "a Verneed's file cannot be read";
    case FETULOMBO_BAD_VERNAUX_NAME: return "a Vernaux's name cannot be read";
    case FETULOMBO_BAD_VERSION_INDEX: return "the version index is invalid";
    case FETULOMBO_STORE_TOO_SMALL: return "the store is too small";
    case FETULOMBO_BAD_SYSV_HEADER: return "a SysV table's header is short";
    case FETULOMBO_BAD_SYSV_BUCKETS: return "a SysV table's buckets run past it";
    case FETULOMBO_BAD_SYSV_CHAINS: return "a SysV table's chains run past it";
    case FETULOMBO_BAD_GNU_HEADER: return "a GNU table's header is short";
    case FETULOMBO_BAD_GNU_BLOOM: return "a GNU table's bloom words run past it";
    case FETULOMBO_BAD_GNU_BUCKETS: return "a GNU table's buckets run past it";
    case FETULOMBO_NO_SEGMENT: return "no whole segment record has that number";
    case FETULOMBO_BAD_BLOOM_SHIFT: return "a bloom shift above 31";
    case FETULOMBO_BAD_SEGMENT_DATA: return "a segment's data lies outside the file";
    case FETULOMBO_BAD_DYNAMIC_PLACE: return "a dynamic segment lies outside the file";
    case FETULOMBO_BAD_INTERPRETER_PLACE: return "an interpreter lies outside the file";
    case FETULOMBO_ENDLESS_INTERPRETER: return "an interpreter has no zero";
    case FETULOMBO_BAD_NOTE_PLACE: return "a note segment lies outside the file";
    case FETULOMBO_NO_STRING: return "no string stands at that offset";
    case FETULOMBO_NO_SYMBOL: return "no symbol has that number";
    case FETULOMBO_UNKNOWN_KIND: return "a class or a byte order that is none";
    default: return "a refusal of another version of the library";
    }
}

/* Bytes that are lent. data may be null where length is 0. */
typedef struct {
    const uint8_t *data;
    size_t length;
} fetulombo_bytes;

/* The parts of a library. One that it lacks is left 0; elf_class and order must be set, for 0 is refused
 * (FETULOMBO_UNKNOWN_KIND). store is filled by fetulombo_library_parse_versions. */
typedef struct {
    uint8_t elf_class;               /* e_ident[4] */
    uint8_t order;                   /* e_ident[5] */
    fetulombo_bytes gnu_table;       /* .gnu.hash */
    fetulombo_bytes sysv_table;      /* .hash, where its words have 4 bytes */
    fetulombo_bytes symbols;         /* .dynsym */
    fetulombo_bytes strings;         /* .dynstr, with the symbols' names */
    fetulombo_bytes versyms;         /* .gnu.version */
    fetulombo_bytes definitions;     /* .gnu.version_d */
    fetulombo_bytes needs;           /* .gnu.version_r */
    fetulombo_bytes version_strings; /* .dynstr, with the versions' names */
    const uint32_t *store;
    size_t store_length;
} fetulombo_library;

/* What is asked for: a name and, where needed is not 0, a version of this name. */
typedef struct {
    fetulombo_bytes name;
    uint8_t needed;
    fetulombo_bytes version;
} fetulombo_wanted;

/* The hashes of what is asked for, for a caller that keeps them. */
typedef struct {
    uint32_t gnu;     /* the GNU hash of the name */
    uint32_t sysv;    /* the SysV hash of the name */
    uint32_t version; /* the SysV hash of the version's name, 0 where none is needed */
} fetulombo_hashes;

/* The bytes of a C string, without its zero. */
static inline fetulombo_bytes fetulombo_text(const char *text) {
    fetulombo_bytes bytes;
    bytes.data = (const uint8_t *)text;
    bytes.length = 0;
    while (text[bytes.length] != 0) {
        bytes.length++;
    }
    return bytes;
}

/* The bytes at a place that was answered for the lent bytes. Empty where the place was refused, or does not lie
 * in them. */
static inline fetulombo_bytes fetulombo_bytes_of(fetulombo_bytes lent, fetulombo_place place) {
    fetulombo_bytes bytes;
    bytes.data = NULL;
    bytes.length = 0;
    if (place.refusal == 0 && place.start <= lent.length && place.length <= lent.length - place.start &&
        place.length != 0) {
        bytes.data = lent.data + place.start;
        bytes.length = (size_t)place.length;
    }
    return bytes;
}

/* A name in any version that an import without a version may get. */
static inline fetulombo_wanted fetulombo_want(fetulombo_bytes name) {
    fetulombo_wanted wanted;
    wanted.name = name;
    wanted.needed = 0;
    wanted.version.data = NULL;
    wanted.version.length = 0;
    return wanted;
}

/* Asks for the version of this name, beside the name that is asked for. */
static inline void fetulombo_want_version(fetulombo_wanted *wanted, fetulombo_bytes version) {
    wanted->needed = 1;
    wanted->version = version;
}

/* A pointer that is not null, for a function of the archive: that of lent bytes, or any where there are none. */
static inline const uint8_t *fetulombo_lent(fetulombo_bytes bytes) {
    static const uint8_t none[1] = {0};
    return bytes.length == 0 ? none : bytes.data;
}

static inline const uint32_t *fetulombo_lent_store(const fetulombo_library *library) {
    static const uint32_t none[1] = {0};
    return library->store_length == 0 ? none : library->store;
}

/* The hash of a name, and 0 for one that is too long: the function that is lent it next refuses it
 * (FETULOMBO_TOO_LONG). */
static inline uint32_t fetulombo_gnu_hash_of(fetulombo_bytes name) {
    return (uint32_t)fetulombo_gnu_hash(fetulombo_lent(name), name.length).value;
}

static inline uint32_t fetulombo_sysv_hash_of(fetulombo_bytes name) {
    return (uint32_t)fetulombo_sysv_hash(fetulombo_lent(name), name.length).value;
}

static inline uint32_t fetulombo_version_hash_of(const fetulombo_wanted *wanted) {
    return wanted->needed == 0 ? 0 : fetulombo_sysv_hash_of(wanted->version);
}

static inline fetulombo_hashes fetulombo_hashes_of(const fetulombo_wanted *wanted) {
    fetulombo_hashes hashes;
    hashes.gnu = fetulombo_gnu_hash_of(wanted->name);
    hashes.sysv = fetulombo_sysv_hash_of(wanted->name);
    hashes.version = fetulombo_version_hash_of(wanted);
    return hashes;
}

/* Parses the library's definitions and needs into the store, which is from then on the library's. After a
 * refusal it is all 0, and no version other than the indices 0 and 1 matches. */
static inline fetulombo_number fetulombo_library_parse_versions(fetulombo_library *library, uint32_t *store,
                                                                size_t store_length) {
    uint32_t none = 0;
    library->store = store;
    library->store_length = store_length;
    return fetulombo_versions_parse(library->order, fetulombo_lent(library->definitions),
                                    library->definitions.length, fetulombo_lent(library->needs),
                                    library->needs.length, fetulombo_lent(library->version_strings),
                                    library->version_strings.length, store_length == 0 ? &none : store,
                                    store_length);
}

/* The symbol of what is asked for, in the library's GNU table. */
static inline fetulombo_lookup fetulombo_library_gnu_find_hashed(const fetulombo_library *library,
                                                                 const fetulombo_wanted *wanted,
                                                                 const fetulombo_hashes *hashes) {
    return fetulombo_gnu_find(library->elf_class, library->order, fetulombo_lent(library->gnu_table),
                              library->gnu_table.length, fetulombo_lent(library->symbols), library->symbols.length,
                              fetulombo_lent(library->strings), library->strings.length,
                              fetulombo_lent(library->versyms), library->versyms.length,
                              fetulombo_lent_store(library), library->store_length,
                              fetulombo_lent(library->version_strings), library->version_strings.length,
                              fetulombo_lent(wanted->name), wanted->name.length, hashes->gnu, wanted->needed,
                              hashes->version, fetulombo_lent(wanted->version), wanted->version.length);
}

static inline fetulombo_lookup fetulombo_library_gnu_find(const fetulombo_library *library,
                                                          const fetulombo_wanted *wanted) {
    fetulombo_hashes hashes;
    hashes.gnu = fetulombo_gnu_hash_of(wanted->name);
    hashes.sysv = 0;
    hashes.version = fetulombo_version_hash_of(wanted);
    return fetulombo_library_gnu_find_hashed(library, wanted, &hashes);
}

/* The same in its SysV table. */
static inline fetulombo_lookup fetulombo_library_sysv_find_hashed(const fetulombo_library *library,
                                                                  const fetulombo_wanted *wanted,
                                                                  const fetulombo_hashes *hashes) {
    return fetulombo_sysv_find(library->elf_class, library->order, fetulombo_lent(library->sysv_table),
                               library->sysv_table.length, fetulombo_lent(library->symbols), library->symbols.length,
                               fetulombo_lent(library->strings), library->strings.length,
                               fetulombo_lent(library->versyms), library->versyms.length,
                               fetulombo_lent_store(library), library->store_length,
                               fetulombo_lent(library->version_strings), library->version_strings.length,
                               fetulombo_lent(wanted->name), wanted->name.length, hashes->sysv, wanted->needed,
                               hashes->version, fetulombo_lent(wanted->version), wanted->version.length);
}

static inline fetulombo_lookup fetulombo_library_sysv_find(const fetulombo_library *library,
                                                           const fetulombo_wanted *wanted) {
    fetulombo_hashes hashes;
    hashes.gnu = 0;
    hashes.sysv = fetulombo_sysv_hash_of(wanted->name);
    hashes.version = fetulombo_version_hash_of(wanted);
    return fetulombo_library_sysv_find_hashed(library, wanted, &hashes);
}

/* Checks the library's GNU table, and its SysV table. */
static inline fetulombo_check fetulombo_library_gnu_check(const fetulombo_library *library) {
    return fetulombo_gnu_check(library->elf_class, library->order, fetulombo_lent(library->gnu_table),
                               library->gnu_table.length, fetulombo_lent(library->symbols), library->symbols.length,
                               fetulombo_lent(library->strings), library->strings.length);
}

static inline fetulombo_check fetulombo_library_sysv_check(const fetulombo_library *library) {
    return fetulombo_sysv_check(library->elf_class, library->order, fetulombo_lent(library->sysv_table),
                                library->sysv_table.length, fetulombo_lent(library->symbols),
                                library->symbols.length, fetulombo_lent(library->strings), library->strings.length);
}

/* What the library's tables say of its symbol table: the first hashed symbol, and the length. */
static inline fetulombo_number fetulombo_library_gnu_base(const fetulombo_library *library) {
    return fetulombo_gnu_base(library->elf_class, library->order, fetulombo_lent(library->gnu_table),
                              library->gnu_table.length);
}

static inline fetulombo_length fetulombo_library_gnu_length(const fetulombo_library *library) {
    return fetulombo_gnu_length(library->elf_class, library->order, fetulombo_lent(library->gnu_table),
                                library->gnu_table.length);
}

static inline fetulombo_number fetulombo_library_sysv_length(const fetulombo_library *library) {
    return fetulombo_sysv_length(library->order, fetulombo_lent(library->sysv_table), library->sysv_table.length);
}

/* How many whole symbols the library has, the symbol of a number, and its name, a place in the strings. */
static inline fetulombo_number fetulombo_library_symbol_count(const fetulombo_library *library) {
    return fetulombo_symbol_count(library->elf_class, fetulombo_lent(library->symbols), library->symbols.length);
}

static inline fetulombo_symbol fetulombo_library_symbol_at(const fetulombo_library *library, uint32_t index) {
    return fetulombo_symbol_at(library->elf_class, library->order, fetulombo_lent(library->symbols),
                               library->symbols.length, index);
}

static inline fetulombo_place fetulombo_library_symbol_name(const fetulombo_library *library, uint32_t index) {
    return fetulombo_symbol_name(library->elf_class, library->order, fetulombo_lent(library->symbols),
                                 library->symbols.length, fetulombo_lent(library->strings), library->strings.length,
                                 index);
}

/* The version of a symbol, and the version behind an index, whose name and file are places in the versions'
 * strings. */
static inline fetulombo_versym fetulombo_library_version_of(const fetulombo_library *library, uint32_t symbol) {
    return fetulombo_version_of(library->order, fetulombo_lent(library->versyms), library->versyms.length, symbol);
}

static inline fetulombo_version fetulombo_library_version_entry(const fetulombo_library *library, uint16_t index) {
    return fetulombo_version_entry(fetulombo_lent_store(library), library->store_length,
                                   fetulombo_lent(library->version_strings), library->version_strings.length, index);
}

/* Whether the version of a symbol is the one that is asked for. The name that is asked for is not looked at. */
static inline fetulombo_number fetulombo_library_version_matches(const fetulombo_library *library,
                                                                 const fetulombo_wanted *wanted, uint32_t symbol) {
    return fetulombo_version_matches(library->order, fetulombo_lent(library->versyms), library->versyms.length,
                                     fetulombo_lent_store(library), library->store_length,
                                     fetulombo_lent(library->version_strings), library->version_strings.length,
                                     symbol, wanted->needed, fetulombo_version_hash_of(wanted),
                                     fetulombo_lent(wanted->version), wanted->version.length);
}

#ifdef __cplusplus
}
#endif

#endif
