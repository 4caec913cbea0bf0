/*
 * The lowest layer of DWARF reading, proved, for C, C++ and Rust: LEB128 numbers, strings, lookups by
 * an index, sets of addresses and of string offsets, headers of units, abbreviation tables, sizes of forms,
 * names of constants, and texts of errors. The section numbers are those of DWARF 5.
 *
 * The headers need C99 or C++11, or a later standard. docs/C.md lists the platforms.
 *
 *     cc -O2 -I include program.c include/dwarf_read_heap.c include/dwarf_read.S
 *
 * dwarf_read.S has the calls. dwarf_read_heap.c has the three functions of dwarf_read_heap.h that they allocate
 * memory with; a program that defines all three leaves that file out. An installed libdwarf_read.a contains both,
 * and is linked with a program's own three. libdwarf_read.so contains both, too, and calls those inside.
 *
 * WHAT A CALL DOES. A call returns DWARF_OK and has written its outputs, or it returns another status.
 * A status from 1 to 99 is the number of an error. The call has then written that number to `fault`,
 * with the position or value that the error carries, and has written nothing else. There are three exceptions:
 * dwarf_fault_text, whose `fault` is an input, has written nothing with DWARF_OUT_OF_MEMORY; the calls that
 * read the header of a set or a unit have also written its `next` and `unit_length`, if all of it is in the
 * section; and those that read a table have also measured what stands before the error. A status from 100 on is described at the calls that return it. All offsets and positions are in
 * bytes from the first byte that is passed.
 *
 * No call keeps a pointer or has a state, so any number of threads may make calls at once.
 *
 * The library has unwind tables. A stack walk by them comes through it: that of a debugger, of a heap profiler, of perf
 * with --call-graph dwarf. On x86-64 it keeps no frame pointers, so one by these, as of perf -g, loses the caller.
 *
 * The calls that are declared here are proved. The functions that are defined here in C are tested, but
 * not proved.
 *
 * WHAT THE CALLER HAS TO MAKE SURE OF, since nothing checks it:
 *
 *  - A pointer before a length points to an array of as many elements as the length says, which takes less
 *    than 2^63 bytes. The elements may be uninitialized if the call only writes them. If the length is 0, the
 *    pointer may be null. The length of an array that a call writes is called its `room`.
 *  - Every other pointer points to one object of its type.
 *  - Nothing that a call may write overlaps anything else that is passed to the same call.
 *  - Before a call returns, nobody else writes what it reads, and nobody else reads or writes what it
 *    writes.
 *
 * Any section bytes, offsets, indexes and sizes are allowed.
 */
#ifndef DWARF_READ_H
#define DWARF_READ_H

#include <stdbool.h>
#include <stddef.h>
#include <stdint.h>
#if __STDC_HOSTED__
#include <stdlib.h>
#include <string.h>
#endif

#ifdef __cplusplus
#define DWARF_NULL nullptr
#else
#define DWARF_NULL NULL
#endif

/* The version of this header. dwarf_read_version writes that of the library. */
#define DWARF_READ_VERSION_MAJOR 0
#define DWARF_READ_VERSION_MINOR 5
#define DWARF_READ_VERSION_PATCH 0
#define DWARF_READ_VERSION "0.5.0"

/* The symbols of the calls whose parameters, or the fields of whose structs, have changed. They end in the version of
   that change, so that a program that was compiled with the header of another version doesn't link. */
#define dwarf_address_set dwarf_address_set_0_3
#define dwarf_constant_name dwarf_constant_name_0_4
#define dwarf_str_offset_set dwarf_str_offset_set_0_3
#define dwarf_table_measure dwarf_table_measure_0_3
#define dwarf_table_read dwarf_table_read_0_3

/* The room that every text of an error and the version fit in, with a zero byte after it. */
#define DWARF_TEXT_ROOM 64

#ifdef __cplusplus
extern "C" {
#endif

/* What a call returns: DWARF_OK, the number of an error, or one of the statuses from 100 on. */
enum {
    DWARF_OK = 0,

    /* The errors. (Generated.) */
    DWARF_UNEXPECTED_EOF = 1,                /* bytes are missing; the value is the position */
    DWARF_BAD_UNSIGNED_LEB128 = 2,           /* an unsigned LEB128 number is too long or too large */
    DWARF_BAD_SIGNED_LEB128 = 3,             /* a signed LEB128 number is too long or out of range */
    DWARF_ABBREVIATION_TAG_ZERO = 4,         /* the tag of an abbreviation is 0 */
    DWARF_INVALID_ABBREVIATION_CHILDREN = 5, /* the byte that says whether there are children is neither 0 nor 1;
                                                the value is the byte */
    DWARF_ATTRIBUTE_NAME_ZERO = 6,           /* the name of an attribute is 0, and its form isn't */
    DWARF_ATTRIBUTE_FORM_ZERO = 7,           /* the form of an attribute is 0, and its name isn't */
    DWARF_DUPLICATE_ABBREVIATION_CODE = 8,   /* an abbreviation has the code of an earlier one; the value is the
                                                code */
    DWARF_UNKNOWN_RESERVED_LENGTH = 9,       /* the length of a set or a unit is reserved; the value is that length */
    DWARF_UNSUPPORTED_OFFSET = 10,           /* a number doesn't fit an offset */
    DWARF_UNKNOWN_VERSION = 11,              /* the version of a set isn't 5, or that of a unit isn't 2 to 5; the
                                                value is the version */
    DWARF_UNSUPPORTED_ADDRESS_SIZE = 12,     /* addresses don't have this size, which is the value */
    DWARF_UNSUPPORTED_SEGMENT_SIZE = 13,     /* the segment size of a set isn't 0; the value is the size */
    DWARF_OUT_OF_MEMORY = 18,                /* memory ran out */
    DWARF_UNKNOWN_UNIT_TYPE = 20,            /* the type of a unit isn't one of DWARF 5; the value is the type */

    /* No call here returns these. dwarf_fault_text has their texts. */
    DWARF_UNSUPPORTED_OFFSET_SIZE = 14,      /* offsets don't have this size, which is the value */
    DWARF_BAD_UTF8 = 15,                     /* a string isn't UTF-8 */
    DWARF_ADDRESS_OVERFLOW = 16,             /* the sum of an address and a length is no address */
    DWARF_UNSUPPORTED_REGISTER = 17,         /* the number of a register doesn't fit 16 bits; the value is that
                                                number */
    DWARF_UNTERMINATED_ABBREVIATIONS = 19,   /* only the section's end closes a table; the value is the position */

    DWARF_NO_ROOM = 100, /* an array is shorter than what the call has to write */
    DWARF_NO_NAME = 101, /* no constant has the value, or no error the number and the value */
    DWARF_END = 102,     /* there is nothing to read at the section's end */
    DWARF_NO_SIZE = 103  /* the form doesn't determine how many bytes a value has */
};

/* The error of a call. */
struct dwarf_fault {
    uint32_t kind;  /* its number */
    uint64_t value; /* the position or the value that it carries, or 0 */
};

/*
 * LEB128 NUMBERS (7.6).
 */

/* A number may have more bytes than it needs, up to a limit: ten bytes for 64 bits, three for the 16 bits of
   a tag, name or form. It is too long if the last byte of the limit doesn't end it. */

/* Reads the number of at most 64 bits at the front of the bytes. More bytes may follow it. `number_len` is
   how many bytes the number has.

   Errors: DWARF_UNEXPECTED_EOF at `len` if the bytes end before the number does and before the limit;
   DWARF_BAD_UNSIGNED_LEB128 or DWARF_BAD_SIGNED_LEB128 if the number is too long or doesn't fit 64 bits. */
uint32_t dwarf_uleb128(const uint8_t *bytes, size_t len, uint64_t *value, size_t *number_len,
                       struct dwarf_fault *fault);
uint32_t dwarf_sleb128(const uint8_t *bytes, size_t len, int64_t *value, size_t *number_len,
                       struct dwarf_fault *fault);

/* Writes the shortest bytes of a number. `len` is their count, at most ten. Elements after them are left
   unchanged. Returns DWARF_OK, or DWARF_NO_ROOM if `room` is less than `len`; then only `len` is written. */
uint32_t dwarf_uleb128_write(uint64_t value, uint8_t *bytes, size_t room, size_t *len);
uint32_t dwarf_sleb128_write(int64_t value, uint8_t *bytes, size_t room, size_t *len);

/*
 * STRINGS AND LOOKUPS (7.5.5, 7.26, 7.27).
 */

/* Finds the string at an offset of .debug_str or .debug_line_str: `string_len` bytes from the offset
   on, followed by a zero byte. The error is DWARF_UNEXPECTED_EOF, at 0 if the offset is past the end, and
   at the offset if no zero byte follows. */
uint32_t dwarf_string(const uint8_t *section, size_t len, size_t offset, size_t *string_len,
                      struct dwarf_fault *fault);

/* Reads the string offset at an index, counted from 0, of those that follow each other from `base` on in
   .debug_str_offsets. Each has eight bytes if `is_64` is set, and four otherwise.

   The first of these errors: DWARF_UNEXPECTED_EOF at 0 if `base` is past the end; DWARF_UNSUPPORTED_OFFSET
   if the index times the size of an entry is 2^64 or more; DWARF_UNEXPECTED_EOF at `base` if the entry
   begins past the end, and at the entry if it ends past the end. */
uint32_t dwarf_str_offset(const uint8_t *section, size_t len, bool is_big, bool is_64, size_t base,
                          size_t index, size_t *offset, struct dwarf_fault *fault);

/* Reads the address at an index, counted from 0, of those that follow each other from `base` on in
   .debug_addr. Each has `size` bytes: 1, 2, 4 or 8.

   The first of these errors:
    - DWARF_UNEXPECTED_EOF at 0 if `base` is past the end;
    - DWARF_UNSUPPORTED_OFFSET if the index times `size` is 2^64 or more;
    - DWARF_UNEXPECTED_EOF at `base` if the address would begin past the end;
    - DWARF_UNSUPPORTED_ADDRESS_SIZE if `size` isn't 1, 2, 4 or 8;
    - DWARF_UNEXPECTED_EOF at the address if it ends past the end. */
uint32_t dwarf_address(const uint8_t *section, size_t len, bool is_big, uint8_t size, size_t base,
                       size_t index, uint64_t *address, struct dwarf_fault *fault);

/*
 * SETS OF ADDRESSES (7.27) AND OF STRING OFFSETS (7.26).
 *
 * DWARF 4 has no headers of sets. The split units of its GNU extension (-gsplit-dwarf) have their
 * addresses in .debug_addr, and their string offsets in .debug_str_offsets.dwo, in order. Don't
 * call dwarf_address_set or dwarf_str_offset_set there, since they would read entries as a header.
 *
 *  - Call dwarf_address with the unit's address size. Its `base` is the value of DW_AT_GNU_addr_base in the
 *    skeleton unit, or 0 if there is no such attribute.
 *  - Call dwarf_str_offset with 0 as `base`. In a package (.dwp), `base` is the offset that the index of
 *    units has for the unit. Set `is_64` if the unit is in the 64-bit format.
 */

/* A set of addresses in .debug_addr, or of string offsets in .debug_str_offsets. Its entries are the
   numbers from `first_entry` up to `next`. */
struct dwarf_set {
    size_t next;        /* the end of the set, where the next one may begin */
    size_t unit_length; /* how many bytes of the set follow its initial length */
    size_t first_entry; /* the offset of its first entry */
    size_t entry_count; /* how many whole entries it has; if `next` cuts one, that isn't counted */
    uint8_t word_size;  /* 4 in the 32-bit format, 8 in the 64-bit format */
    uint8_t entry_size; /* 1, 2, 4 or 8 for an address; a string offset has `word_size` bytes */
};

/* Reads the header of the set at an offset of .debug_addr. Returns DWARF_END, and writes nothing, if the
   offset is the section's end.

   To read an address of the set, call dwarf_address with `entry_size` as its size and `first_entry` as
   its base, and pass `next` as the length of the section. Then nothing after the set is read. The call
   returns DWARF_OK for each index below `entry_count`, and DWARF_UNEXPECTED_EOF for an address that the
   set's end cuts.

   The first of these errors. If all bytes of the set are in the section, `next` and `unit_length` are written with
   the error, and nothing else of the set, so the next set can be read:
    - DWARF_UNEXPECTED_EOF at 0 if the offset is past the end, and at the offset if fewer than four bytes
      follow it;
    - DWARF_UNKNOWN_RESERVED_LENGTH if those four are 0xfffffff0 to 0xfffffffe;
    - DWARF_UNEXPECTED_EOF after the four bytes if they are 0xffffffff and fewer than eight follow;
    - DWARF_UNEXPECTED_EOF after the length if fewer bytes follow, or if the set has fewer than two bytes;
    - DWARF_UNKNOWN_VERSION if the version isn't 5;
    - DWARF_UNEXPECTED_EOF at the address size if the set ends before it;
    - DWARF_UNSUPPORTED_ADDRESS_SIZE if the address size isn't 1, 2, 4 or 8;
    - DWARF_UNEXPECTED_EOF at the segment size if the set ends before it;
    - DWARF_UNSUPPORTED_SEGMENT_SIZE if the segment size isn't 0. */
uint32_t dwarf_address_set(const uint8_t *section, size_t len, bool is_big, size_t offset,
                           struct dwarf_set *set, struct dwarf_fault *fault);

/* Reads the header of the set at an offset of .debug_str_offsets. Returns DWARF_END, and writes nothing,
   if the offset is the section's end.

   To read a string offset of the set, call dwarf_str_offset with `first_entry` as its base, and with
   `is_64` set if `word_size` is 8. Pass `next` as the length of the section. Then nothing after the set
   is read. The call returns DWARF_OK for each index below `entry_count`, and DWARF_UNEXPECTED_EOF for a
   string offset that the set's end cuts.

   The errors are those of dwarf_address_set up to the version, and DWARF_UNEXPECTED_EOF after the version
   if fewer than two bytes of padding follow in the set. `next` and `unit_length` are written as there. */
uint32_t dwarf_str_offset_set(const uint8_t *section, size_t len, bool is_big, size_t offset,
                              struct dwarf_set *set, struct dwarf_fault *fault);

/*
 * HEADERS OF UNITS (7.5.1).
 */

/* What the header of a unit says. Its entries are the bytes from `first_entry` up to `next`. */
struct dwarf_unit {
    size_t next;          /* the end of the unit, where the next one may begin */
    size_t unit_length;   /* how many bytes of the unit follow its initial length */
    size_t first_entry;   /* the offset of its first entry */
    size_t abbrev_offset; /* the offset of its table in .debug_abbrev */
    uint64_t identifier;  /* of a type unit the signature; of a skeleton or split unit what both share; else 0 */
    size_t type_offset;   /* of a type unit the offset of its type, from the unit's start; else 0 */
    uint16_t version;     /* 2 to 5 */
    uint8_t unit_type;    /* DW_UT_compile to DW_UT_split_type, see below */
    uint8_t address_size; /* 1, 2, 4 or 8 */
    uint8_t word_size;    /* 4 in the 32-bit format, 8 in the 64-bit format */
};

/* Reads the header of the unit at an offset of .debug_types if `is_types` is set, and else of .debug_info.
   Returns DWARF_END, and writes nothing, if the offset is the section's end. So call it at 0, and then at the
   `next` of each unit.

   A header before version 5 has no type: the unit is a DW_UT_compile in .debug_info, and a DW_UT_type in
   .debug_types.

   The first of these errors. With an error of a field, of which the type is the last, `next` and `unit_length` are
   written, and nothing else of the unit, so the next unit can be read. With the others before them, nothing is:
    - DWARF_UNEXPECTED_EOF at 0 if the offset is past the end, and at the offset if fewer than four bytes
      follow it;
    - DWARF_UNKNOWN_RESERVED_LENGTH if those four are 0xfffffff0 to 0xfffffffe;
    - DWARF_UNEXPECTED_EOF after the four bytes if they are 0xffffffff and fewer than eight follow;
    - DWARF_UNEXPECTED_EOF after the length if fewer bytes follow;
    - the first error of a field, in their order: DWARF_UNEXPECTED_EOF at the field if the unit ends before its
      end; DWARF_UNKNOWN_VERSION if the version isn't 2 to 5; DWARF_UNSUPPORTED_ADDRESS_SIZE if the address
      size isn't 1, 2, 4 or 8;
    - DWARF_UNKNOWN_UNIT_TYPE if the type isn't DW_UT_compile to DW_UT_split_type, after the fields that all
      units have, and before those of its type. */
uint32_t dwarf_unit_header(const uint8_t *section, size_t len, bool is_big, bool is_types, size_t offset,
                           struct dwarf_unit *unit, struct dwarf_fault *fault);

/*
 * ABBREVIATION TABLES (7.5.3).
 *
 * dwarf_table_load reads a table, dwarf_table_find finds an abbreviation in it, and dwarf_table_free gives its memory
 * back.
 */

/* How large a table is. With an error, how large the part before it is: the abbreviations before the one with
   the error, and in `end` the offset at which that one begins. */
struct dwarf_measure {
    size_t abbreviations;
    size_t attributes;      /* of all abbreviations together */
    size_t end;             /* the offset after the code that closes the table, or `len` */
    uint8_t closed_by_null; /* 1 if a code of value 0 closes the table, 0 if only the section's end does */
};

/* An abbreviation. */
struct dwarf_abbreviation {
    uint64_t code; /* not 0 */
    uint16_t tag;
    uint8_t has_children;   /* 0 or 1 */
    size_t first_attribute; /* the index of its first attribute among those of the table */
    size_t attribute_count;
};

/* An attribute of an abbreviation. The dwarf2.h of GNU has an enum dwarf_attribute. */
struct dwarf_attribute_spec {
    uint16_t name;
    uint16_t form;
    int64_t implicit_const; /* the value in the table for DW_FORM_implicit_const, otherwise 0 */
};

/* A table. dwarf_table_load fills one; so does a caller that has read it into arrays of its own, with the `measure` that
   dwarf_table_read wrote. */
struct dwarf_table {
    struct dwarf_abbreviation *abbreviations; /* as many as `measure` says, in the order of their codes */
    struct dwarf_attribute_spec *attributes;  /* those of all abbreviations, in the same order */
    struct dwarf_measure measure;
};

#if __STDC_HOSTED__
/* Reads the table at an offset of .debug_abbrev into memory from malloc, as much as the table needs. Give it back
   with dwarf_table_free, before another table is read into `table`. The errors are those of dwarf_table_measure,
   also DWARF_OUT_OF_MEMORY. After an error the table has no abbreviations, and no memory, and `measure.end` is
   the offset at which the abbreviation with the error begins: the table of the section that is cut there has the
   ones before it. `measure.end` is 0 if there is none, since the offset is past the end or memory ran out. */
static inline uint32_t dwarf_table_load(const uint8_t *section, size_t len, size_t offset,
                                        struct dwarf_table *table, struct dwarf_fault *fault);

/* Frees the memory of a table that was loaded. It then has no abbreviations. */
static inline void dwarf_table_free(struct dwarf_table *table);
#endif

/* Finds the abbreviation with a code. Returns null if the table has none. */
static inline const struct dwarf_abbreviation *
dwarf_table_find(const struct dwarf_table *table, uint64_t code) {
    const struct dwarf_abbreviation *rows = table->abbreviations;
    size_t count = table->measure.abbreviations;
    /* In a table whose codes count from 1, the index is the code minus 1. That of code 0 is past every table. */
    if (code - 1 < count && rows[code - 1].code == code) {
        return &rows[code - 1];
    }
    /* The codes before it are smaller, and none is 0. So its index is less than its code. */
    size_t low = 0, high = code < count ? code : count;
    while (low < high) {
        size_t middle = low + (high - low) / 2;
        if (rows[middle].code < code) {
            low = middle + 1;
        } else {
            high = middle;
        }
    }
    return low < count && rows[low].code == code ? &rows[low] : DWARF_NULL;
}

/*
 * dwarf_table_load reads a table with these two calls. They allocate memory for it, and free it before they return. They
 * return DWARF_OUT_OF_MEMORY if an allocation fails. In a signal handler they need an arena (dwarf_read_arena.h).
 *
 * Each call parses the whole table. If dwarf_table_read returns DWARF_NO_ROOM, it has measured the table already. An
 * abbreviation has at least five bytes, and an attribute two, so arrays of (len - offset) / 5 abbreviations and of
 * (len - offset) / 2 attributes have room for every table from an offset on. They are 14.4 times as large as these
 * bytes: to make and to free them for each table costs more time than to read it.
 */

/* Measures the table at an offset of .debug_abbrev. If the bytes there don't begin with a table, the error
   is the first of them:
    - DWARF_UNEXPECTED_EOF at 0 if the offset is past the end, and at `len` if an abbreviation is cut short;
    - DWARF_BAD_UNSIGNED_LEB128 for a code that is too long or doesn't fit 64 bits, or for a tag, name or form that is
      too long or doesn't fit 16 bits;
    - DWARF_BAD_SIGNED_LEB128 for a value that is too long or doesn't fit 64 bits;
    - DWARF_ABBREVIATION_TAG_ZERO, DWARF_INVALID_ABBREVIATION_CHILDREN, DWARF_ATTRIBUTE_NAME_ZERO or
      DWARF_ATTRIBUTE_FORM_ZERO for a field with a value that no abbreviation has;
    - DWARF_DUPLICATE_ABBREVIATION_CODE for a whole abbreviation with the code of an earlier one.
   `measure` is then that of the abbreviations before the one with the error. It is left unchanged with
   DWARF_OUT_OF_MEMORY, or if the offset is past the end. */
uint32_t dwarf_table_measure(const uint8_t *section, size_t len, size_t offset,
                             struct dwarf_measure *measure, struct dwarf_fault *fault);

/* Reads the table at an offset of .debug_abbrev: its abbreviations in the order of their codes, and the
   attributes of all of them in the same order. Elements after them are left unchanged. Returns
   DWARF_NO_ROOM if there is too little room for either; then only `measure` is written. It doesn't return that
   if there is room for (len - offset) / 5 abbreviations and for (len - offset) / 2 attributes. The errors are
   those of dwarf_table_measure, which leave the same in `measure`. */
uint32_t dwarf_table_read(const uint8_t *section, size_t len, size_t offset,
                          struct dwarf_abbreviation *abbreviations, size_t abbreviation_room,
                          struct dwarf_attribute_spec *attributes, size_t attribute_room,
                          struct dwarf_measure *measure, struct dwarf_fault *fault);

#if __STDC_HOSTED__
#ifdef __cplusplus
#define DWARF_CAST(type, pointer) static_cast<type>(pointer)
#else
#define DWARF_CAST(type, pointer) (pointer)
#endif

/* The arrays of a table in a block: attributes follow this many abbreviations. */
static inline void dwarf_table_lay(struct dwarf_table *table, void *block, size_t room) {
    table->abbreviations = DWARF_CAST(struct dwarf_abbreviation *, block);
    block = table->abbreviations + room;
    table->attributes = DWARF_CAST(struct dwarf_attribute_spec *, block);
}

/* Reads the table at an offset into a new block with this room. If there is no memory for one, it is only measured. */
static inline uint32_t dwarf_table_load_within(const uint8_t *section, size_t len, size_t offset, size_t room,
                                               size_t attribute_room, struct dwarf_table *table,
                                               struct dwarf_fault *fault) {
    size_t row_size = sizeof *table->abbreviations, attribute_size = sizeof *table->attributes;
    struct dwarf_measure *measure = &table->measure;
    size_t size = room * row_size + attribute_room * attribute_size;
    void *block = malloc(size);
    if (block == DWARF_NULL) {
        return dwarf_table_read(section, len, offset, DWARF_NULL, 0, DWARF_NULL, 0, measure, fault);
    }
    dwarf_table_lay(table, block, room);
    uint32_t status = dwarf_table_read(section, len, offset, table->abbreviations, room, table->attributes,
                                       attribute_room, measure, fault);
    if (status != DWARF_OK || measure->abbreviations == 0) {
        free(block);
        table->abbreviations = DWARF_NULL;
        table->attributes = DWARF_NULL;
        return status;
    }
    /* A copy that takes no more than the table needs, if there is memory for it. */
    size_t rows = measure->abbreviations * row_size, attributes = measure->attributes * attribute_size;
    void *fitted = rows + attributes < size ? malloc(rows + attributes) : DWARF_NULL;
    if (fitted != DWARF_NULL) {
        const struct dwarf_attribute_spec *read = table->attributes;
        memcpy(fitted, block, rows);
        dwarf_table_lay(table, fitted, measure->abbreviations);
        memcpy(table->attributes, read, attributes);
        free(block);
    }
    return DWARF_OK;
}

static inline uint32_t dwarf_table_load(const uint8_t *section, size_t len, size_t offset,
                                        struct dwarf_table *table, struct dwarf_fault *fault) {
    static const struct dwarf_table empty = {DWARF_NULL, DWARF_NULL, {0, 0, 0, 0}};
    size_t left = offset < len ? len - offset : 0;
    /* Room for most tables, in a block of 768 kilobytes, which malloc soon takes from what was freed. */
    size_t room = left / 5 < 8000 ? left / 5 : 8000, attribute_room = left / 2 < 32000 ? left / 2 : 32000;
    *table = empty;
    uint32_t status = dwarf_table_load_within(section, len, offset, room, attribute_room, table, fault);
    if (status == DWARF_NO_ROOM) {
        status = dwarf_table_load_within(section, len, offset, table->measure.abbreviations,
                                         table->measure.attributes, table, fault);
    }
    if (status == DWARF_NO_ROOM) {
        status = fault->kind = DWARF_OUT_OF_MEMORY;
        fault->value = 0;
    }
    if (status != DWARF_OK) {
        size_t end = status != DWARF_OUT_OF_MEMORY ? table->measure.end : 0;
        *table = empty;
        table->measure.end = end;
    }
    return status;
}

static inline void dwarf_table_free(struct dwarf_table *table) {
    static const struct dwarf_table empty = {DWARF_NULL, DWARF_NULL, {0, 0, 0, 0}};
    free(table->abbreviations);
    *table = empty;
}

#undef DWARF_CAST
#endif

/*
 * SIZES OF FORMS (7.5.6).
 */

/* Tells how many bytes a value of a form has in a unit of this version, with addresses of `address_size`
   bytes, and in the 64-bit format if `is_64` is set. Returns DWARF_NO_SIZE, and writes nothing, if the form
   doesn't determine the size, such as DW_FORM_string, or if no form has this number. */
uint32_t dwarf_form_size(uint16_t form, uint16_t version, uint8_t address_size, bool is_64, size_t *size);

/*
 * NAMES OF CONSTANTS.
 *
 * dwarf_constants.h has the numbers by these names, such as DW_TAG_label.
 */

/* The name of a constant, such as DW_TAG_label: `len` bytes, without a zero byte after them. They are a part of the
   program, and never change. printf prints them by "%.*s" with (int)name.len and name.text. */
struct dwarf_name {
    const char *text;
    size_t len; /* 0 if there is no name */
};

/* The families of constants. (Generated.) */
enum {
    DWARF_FAMILY_TAG = 1,                    /* Tags: what kind of thing an entry describes */
    DWARF_FAMILY_AT = 2,                     /* Attributes: what a value of an entry is about */
    DWARF_FAMILY_FORM = 3,                   /* Forms: how the value of an attribute is encoded */
    DWARF_FAMILY_IDX = 4,                    /* Index attributes: what a value in .debug_names is about */
    DWARF_FAMILY_LANG = 5,                   /* Source languages */
    DWARF_FAMILY_LNCT = 6,                   /* Content types: what is kept of a file in a line number program */
    DWARF_FAMILY_ACCESS = 7,                 /* Accessibility of members */
    DWARF_FAMILY_ADDR = 8,                   /* Address classes */
    DWARF_FAMILY_ATE = 9,                    /* Encodings of base types */
    DWARF_FAMILY_CC = 10,                    /* Calling conventions */
    DWARF_FAMILY_CFA = 11,                   /* Instructions of call frames */
    DWARF_FAMILY_CHILDREN = 12,              /* Whether an entry has children */
    DWARF_FAMILY_DEFAULTED = 13,             /* Defaulted member functions */
    DWARF_FAMILY_DS = 14,                    /* Signs of decimal numbers */
    DWARF_FAMILY_DSC = 15,                   /* Lists of discriminant values */
    DWARF_FAMILY_EH_PE = 16,                 /* Encodings of the pointers of .eh_frame */
    DWARF_FAMILY_END = 17,                   /* Byte orders of data */
    DWARF_FAMILY_ID = 18,                    /* Case of identifiers */
    DWARF_FAMILY_INL = 19,                   /* Inlined subroutines */
    DWARF_FAMILY_LLE = 20,                   /* Entries of location lists */
    DWARF_FAMILY_LNE = 21,                   /* Extended opcodes of a line number program */
    DWARF_FAMILY_LNS = 22,                   /* Standard opcodes of a line number program */
    DWARF_FAMILY_MACINFO = 23,               /* Entries of .debug_macinfo */
    DWARF_FAMILY_MACRO = 24,                 /* Entries of .debug_macro */
    DWARF_FAMILY_OP = 25,                    /* Operations of an expression */
    DWARF_FAMILY_ORD = 26,                   /* Order of the elements of an array */
    DWARF_FAMILY_RLE = 27,                   /* Entries of range lists */
    DWARF_FAMILY_SECT = 28,                  /* Sections of a package file */
    DWARF_FAMILY_SECT_V2 = 29,               /* Sections of a package file before DWARF 5 */
    DWARF_FAMILY_UT = 30,                    /* Unit types */
    DWARF_FAMILY_VIRTUALITY = 31,            /* Virtual functions and base classes */
    DWARF_FAMILY_VIS = 32,                   /* Visibility of declarations */
    DWARF_FAMILY_GDB_INDEX_SYMBOL_KIND = 33  /* Kinds of symbols in .gdb_index */
};

/* Finds the name of a constant by its family and its value, such as DW_LANG_Rust. Returns DWARF_NO_NAME, and
   leaves `name` as it was, if no constant of the family has the value, or if no family has the number. `name` has to
   be a name before the call, too, such as {"", 0}: the functions below begin with that. */
uint32_t dwarf_constant_name(uint32_t family, uint64_t value, struct dwarf_name *name);

/* Returns the name of a constant by its family and its value, of a tag, of an attribute, or of a form. If there is none,
   it has no bytes. */
static inline struct dwarf_name dwarf_name_of(uint32_t family, uint64_t value) {
    struct dwarf_name name = {"", 0};
    (void)dwarf_constant_name(family, value, &name);
    return name;
}

static inline struct dwarf_name dwarf_tag_name(uint16_t tag) {
    return dwarf_name_of(DWARF_FAMILY_TAG, tag);
}

static inline struct dwarf_name dwarf_attribute_name(uint16_t attribute) {
    return dwarf_name_of(DWARF_FAMILY_AT, attribute);
}

static inline struct dwarf_name dwarf_form_name(uint16_t form) {
    return dwarf_name_of(DWARF_FAMILY_FORM, form);
}

/*
 * THE VERSION, AND TEXTS OF ERRORS.
 *
 * Each call writes a text without a zero byte after it. `len` is how many bytes it has. Elements after them are left
 * unchanged. The call returns DWARF_OK, or DWARF_NO_ROOM if `room` is less than `len`, and then only `len` is written.
 */

/* Writes the version of the library, such as 0.5.0. */
uint32_t dwarf_read_version(char *version, size_t room, size_t *len);

/* Writes the text of an error. Returns DWARF_NO_NAME, and writes nothing, if no error has this number and this value.
   The call allocates memory for a text, and frees it before it returns. It returns DWARF_OUT_OF_MEMORY if an
   allocation fails; then nothing is written. In a signal handler it needs an arena (dwarf_read_arena.h). */
uint32_t dwarf_fault_text(const struct dwarf_fault *fault, char *text, size_t room, size_t *len);

/*
 * THE SAME AS STRINGS OF C.
 *
 * Each of these functions writes the version or a text with a zero byte after it, and returns the pointer to it. It
 * returns null and writes nothing if the call above returns another status than DWARF_OK, or if there is no room for
 * the zero byte.
 */

/* Puts the zero byte after what a call wrote, if there is room for it. */
static inline const char *dwarf_string_ended(uint32_t status, char *text, size_t room, size_t len) {
    if (status != DWARF_OK || len >= room) {
        return DWARF_NULL;
    }
    text[len] = 0;
    return text;
}

static inline const char *dwarf_read_version_string(char *version, size_t room) {
    size_t len = 0;
    uint32_t status = dwarf_read_version(version, room - (room != 0), &len);
    return dwarf_string_ended(status, version, room, len);
}

static inline const char *dwarf_fault_string(const struct dwarf_fault *fault, char *text, size_t room) {
    size_t len = 0;
    uint32_t status = dwarf_fault_text(fault, text, room - (room != 0), &len);
    return dwarf_string_ended(status, text, room, len);
}

#ifdef __cplusplus
}
#endif

#endif
