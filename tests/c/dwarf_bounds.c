/*
 * Calls on worked bytes and with bad input: null with a length of 0, no room, offsets past the end, and
 * huge counts. Each has to return the right result or error, and to leave all else unchanged.
 *
 * The program compiles as C and as C++, prints a line for each check that fails, and returns how many do.
 */
#include "dwarf_read.h"

#include <stdio.h>
#include <string.h>

static int failures;

static void check(bool holds, const char *what) {
    if (!holds) {
        printf("failed: %s\n", what);
        failures++;
    }
}

static bool is_fault(struct dwarf_fault fault, uint32_t kind, uint64_t value) {
    return fault.kind == kind && fault.value == value;
}

/* Whether a call reported this status and value, or no error and left the fault unchanged. */
static bool is_reported(struct dwarf_fault fault, uint32_t status, uint64_t value) {
    bool is_error = status != DWARF_OK && status < DWARF_NO_ROOM;
    return is_error ? is_fault(fault, status, value) : is_fault(fault, 7, 7);
}

/* Whether a number is signed, and its bytes; what reading it returns and writes, and the value of the error. */
static const struct {
    bool is_signed;
    const char *bytes;
    size_t len;
    uint32_t status;
    int64_t value;
    size_t number_len;
    uint64_t error;
} numbers[] = {
    {false, "\xb9\x64\x01", 3, DWARF_OK, 12857, 2, 0},
    {false, "\x80\x80\x80\x80\x80\x80\x80\x80\x80\x01", 10, DWARF_OK, INT64_MIN, 10, 0},
    {false, "\x80\x80\x80\x80\x80\x80\x80\x80\x80\x02", 10, DWARF_BAD_UNSIGNED_LEB128, 7, 7, 0},
    {false, "\x80\x80\x80\x80\x80\x80\x80\x80\x80", 9, DWARF_UNEXPECTED_EOF, 7, 7, 9},
    {false, "\x80\x80", 2, DWARF_UNEXPECTED_EOF, 7, 7, 2},
    {true, "\xff\x7e", 2, DWARF_OK, -129, 2, 0},
    {true, "\x80", 1, DWARF_UNEXPECTED_EOF, 7, 7, 1},
    {true, "\x80\x80\x80\x80\x80\x80\x80\x80\x80\x01", 10, DWARF_BAD_SIGNED_LEB128, 7, 7, 0},
};

static void check_numbers(void) {
    for (size_t i = 0; i < sizeof numbers / sizeof *numbers; i++) {
        const uint8_t *bytes = (const uint8_t *)numbers[i].bytes;
        struct dwarf_fault fault = {7, 7};
        uint64_t value = 7;
        int64_t signed_value = 7;
        size_t len = 7;
        uint32_t status = numbers[i].is_signed ? dwarf_sleb128(bytes, numbers[i].len, &signed_value, &len, &fault)
                                               : dwarf_uleb128(bytes, numbers[i].len, &value, &len, &fault);
        check(status == numbers[i].status && len == numbers[i].number_len, "a number");
        check((numbers[i].is_signed ? signed_value : (int64_t)value) == numbers[i].value, "its value");
        check(is_reported(fault, status, numbers[i].error), "its error");
    }
    uint8_t bytes[4] = {7, 7, 7, 7};
    size_t len = 7;
    uint32_t status = dwarf_uleb128_write(128, bytes, sizeof bytes, &len);
    check(status == DWARF_OK && len == 2 && memcmp(bytes, "\x80\x01\x07\x07", 4) == 0, "128");
    status = dwarf_sleb128_write(-1, bytes, sizeof bytes, &len);
    check(status == DWARF_OK && len == 1 && memcmp(bytes, "\x7f\x01\x07\x07", 4) == 0, "-1");
    status = dwarf_uleb128_write(UINT64_MAX, bytes, sizeof bytes, &len);
    check(status == DWARF_NO_ROOM && len == 10 && bytes[0] == 0x7f, "ten bytes in four");
}

/* A family and a value; what the call for the name returns, and the name. In the last rows the low bytes of the value
   have a name, or the number is that of no family. */
static const struct {
    uint32_t family;
    uint64_t value;
    uint32_t status;
    const char *name;
} constants[] = {
    {DWARF_FAMILY_TAG, 0x0a, DWARF_OK, "DW_TAG_label"},
    {DWARF_FAMILY_AT, 3, DWARF_OK, "DW_AT_name"},
    {DWARF_FAMILY_FORM, 8, DWARF_OK, "DW_FORM_string"},
    {DWARF_FAMILY_LANG, 0x1c, DWARF_OK, "DW_LANG_Rust"},
    {DWARF_FAMILY_ADDR, 0, DWARF_OK, "DW_ADDR_none"},
    {DWARF_FAMILY_SECT_V2, 2, DWARF_OK, "DW_SECT_V2_TYPES"},
    {DWARF_FAMILY_GDB_INDEX_SYMBOL_KIND, 1, DWARF_OK, "GDB_INDEX_SYMBOL_KIND_TYPE"},
    {DWARF_FAMILY_TAG, 4660, DWARF_NO_NAME, ""},
    {DWARF_FAMILY_ACCESS, 0x101, DWARF_NO_NAME, ""},
    {DWARF_FAMILY_TAG, 0x1000a, DWARF_NO_NAME, ""},
    {DWARF_FAMILY_SECT, (UINT64_C(1) << 32) + 1, DWARF_NO_NAME, ""},
    {DWARF_FAMILY_ADDR, UINT64_MAX, DWARF_NO_NAME, ""},
    {0, 1, DWARF_NO_NAME, ""},
    {DWARF_FAMILY_GDB_INDEX_SYMBOL_KIND + 1, 1, DWARF_NO_NAME, ""},
    {UINT32_MAX, 1, DWARF_NO_NAME, ""},
};

static bool is_name(struct dwarf_name name, const char *wanted) {
    return name.len == strlen(wanted) && memcmp(name.text, wanted, name.len) == 0;
}

static void check_constants(void) {
    for (size_t i = 0; i < sizeof constants / sizeof *constants; i++) {
        struct dwarf_name name = {"before", 6};
        uint32_t status = dwarf_constant_name(constants[i].family, constants[i].value, &name);
        check(status == constants[i].status, "a constant");
        check(is_name(name, status == DWARF_OK ? constants[i].name : "before"), "its name");
        check(is_name(dwarf_name_of(constants[i].family, constants[i].value), constants[i].name), "its name, returned");
    }
    check(is_name(dwarf_tag_name(0x0a), "DW_TAG_label"), "the name of a tag");
    check(is_name(dwarf_attribute_name(3), "DW_AT_name"), "the name of an attribute");
    check(is_name(dwarf_form_name(8), "DW_FORM_string") && is_name(dwarf_form_name(0xffff), ""), "the name of a form");
}

/* A form, a version, an address size and a format; what the call for the size returns and writes. */
static const struct {
    uint16_t form, version;
    uint8_t address_size;
    bool is_64;
    uint32_t status;
    size_t size;
} sizes[] = {
    {0x01, 5, 8, false, DWARF_OK, 8},        {0x01, 5, 0, false, DWARF_OK, 0},
    {0x0e, 5, 8, false, DWARF_OK, 4},        {0x0e, 5, 8, true, DWARF_OK, 8},
    {0x10, 2, 2, true, DWARF_OK, 2},         {0x10, 3, 2, true, DWARF_OK, 8},
    {0x1e, 5, 8, false, DWARF_OK, 16},       {0x21, 5, 8, false, DWARF_OK, 0},
    {0x08, 5, 8, false, DWARF_NO_SIZE, 7},   {0xffff, 5, 8, false, DWARF_NO_SIZE, 7},
};

static void check_sizes(void) {
    for (size_t i = 0; i < sizeof sizes / sizeof *sizes; i++) {
        size_t size = 7;
        uint32_t status =
            dwarf_form_size(sizes[i].form, sizes[i].version, sizes[i].address_size, sizes[i].is_64, &size);
        check(status == sizes[i].status && size == sizes[i].size, "the size of a form");
    }
}

static void check_no_bytes(void) {
    struct dwarf_fault fault = {7, 7};
    uint64_t value = 7;
    int64_t signed_value = 7;
    size_t len = 7;
    uint32_t status = dwarf_uleb128(NULL, 0, &value, &len, &fault);
    check(status == DWARF_UNEXPECTED_EOF && is_fault(fault, 1, 0), "no unsigned number");
    status = dwarf_sleb128(NULL, 0, &signed_value, &len, &fault);
    check(status == DWARF_UNEXPECTED_EOF && is_fault(fault, 1, 0), "no signed number");
    status = dwarf_string(NULL, 0, 0, &len, &fault);
    check(status == DWARF_UNEXPECTED_EOF && is_fault(fault, 1, 0), "no string");
    status = dwarf_address(NULL, 0, true, 8, 0, 0, &value, &fault);
    check(status == DWARF_UNEXPECTED_EOF && is_fault(fault, 1, 0), "no address");
    status = dwarf_str_offset(NULL, 0, true, false, 0, 0, &len, &fault);
    check(status == DWARF_UNEXPECTED_EOF && is_fault(fault, 1, 0), "no offset");
    check(value == 7 && signed_value == 7 && len == 7, "outputs of calls that failed");
}

typedef uint32_t set_call(const uint8_t *section, size_t len, bool is_big, size_t offset,
                          struct dwarf_set *set, struct dwarf_fault *fault);

static void check_sets(set_call *call) {
    static const uint8_t reserved[] = {0xf0, 0xff, 0xff, 0xff};
    uint8_t huge[12];
    memset(huge, 0xff, sizeof huge);
    struct dwarf_set set = {7, 7, 7, 7, 7, 7};
    struct dwarf_fault fault = {7, 7};
    uint32_t status = call(NULL, 0, true, 0, &set, &fault);
    check(status == DWARF_END && is_fault(fault, 7, 7), "no set");
    status = call(NULL, 0, true, 1, &set, &fault);
    check(status == DWARF_UNEXPECTED_EOF && is_fault(fault, 1, 0), "a set past the end");
    status = call(reserved, sizeof reserved, false, SIZE_MAX, &set, &fault);
    check(status == DWARF_UNEXPECTED_EOF && is_fault(fault, 1, 0), "a set far past the end");
    status = call(reserved, sizeof reserved, false, 0, &set, &fault);
    check(status == DWARF_UNKNOWN_RESERVED_LENGTH && is_fault(fault, 9, 0xfffffff0), "a length");
    status = call(huge, sizeof huge, false, 0, &set, &fault);
    check(status == DWARF_UNEXPECTED_EOF && is_fault(fault, 1, 12), "a huge set");
    check(set.next == 7 && set.unit_length == 7 && set.first_entry == 7 && set.entry_count == 7 &&
              set.word_size == 7 && set.entry_size == 7,
          "outputs of sets that failed");
}

/* Three sets of either kind, the third with two bytes of a fourth entry, and one of string offsets alone. */
static const char sets[] =
    "\x0c\x00\x00\x00\x05\x00\x04\x00\x78\x56\x34\x12\xef\xbe\xad\xde"
    "\xff\xff\xff\xff\x14\x00\x00\x00\x00\x00\x00\x00\x05\x00\x02\x00"
    "\xf0\xde\xbc\x9a\x78\x56\x34\x12\xef\xbe\xad\xde\xef\xbe\xad\xde"
    "\x12\x00\x00\x00\x05\x00\x04\x00\x01\x00\x00\x00\x02\x00\x00\x00\x03\x00\x00\x00\x04\x00"
    "\x04\x00\x00\x00\x05\x00\x03\x00";

/* The offset of a set; what the call returns and writes, and the value of the error. With an error, the end and the
   length are written if the set lies within the section. */
static const struct set_row {
    size_t offset;
    uint32_t status;
    struct dwarf_set set;
    uint64_t error;
} address_sets[] = {
    {0, DWARF_OK, {16, 12, 8, 2, 4, 4}, 0},
    {16, DWARF_OK, {48, 20, 32, 8, 8, 2}, 0},
    {48, DWARF_OK, {70, 18, 56, 3, 4, 4}, 0},
    {70, DWARF_UNSUPPORTED_ADDRESS_SIZE, {78, 4, 7, 7, 7, 7}, 3},
    {78, DWARF_END, {7, 7, 7, 7, 7, 7}, 0},
}, offset_sets[] = {
    {16, DWARF_OK, {48, 20, 32, 2, 8, 8}, 0},
    {48, DWARF_OK, {70, 18, 56, 3, 4, 4}, 0},
    {70, DWARF_OK, {78, 4, 78, 0, 4, 4}, 0},
    {78, DWARF_END, {7, 7, 7, 7, 7, 7}, 0},
    {1, DWARF_UNEXPECTED_EOF, {7, 7, 7, 7, 7, 7}, 5},
};

static void check_worked_sets(set_call *call, const struct set_row *rows, size_t count) {
    for (size_t i = 0; i < count; i++) {
        const struct dwarf_set *wanted = &rows[i].set;
        struct dwarf_set set = {7, 7, 7, 7, 7, 7};
        struct dwarf_fault fault = {7, 7};
        uint32_t status = call((const uint8_t *)sets, sizeof sets - 1, false, rows[i].offset, &set, &fault);
        check(status == rows[i].status && is_reported(fault, status, rows[i].error), "a worked set");
        check(set.next == wanted->next && set.unit_length == wanted->unit_length, "its length");
        check(set.first_entry == wanted->first_entry && set.entry_count == wanted->entry_count, "its entries");
        check(set.word_size == wanted->word_size && set.entry_size == wanted->entry_size, "its sizes");
    }
}

/* Units of versions 4 and 5, with an entry of one byte: a compilation unit, a skeleton, and a type unit of the 64-bit
   format. Then one with an unknown type, one with an unknown version, and one with an unknown address size; and a unit
   that both sections can have. */
static const char units[] =
    "\x08\x00\x00\x00\x04\x00\x44\x33\x22\x11\x08\x01"
    "\x11\x00\x00\x00\x05\x00\x04\x04\x10\x00\x00\x00\x88\x77\x66\x55\x44\x33\x22\x11\x01"
    "\xff\xff\xff\xff\x1d\x00\x00\x00\x00\x00\x00\x00"
    "\x05\x00\x02\x08\x20\x00\x00\x00\x00\x00\x00\x00\x08\x07\x06\x05\x04\x03\x02\x01\x1c\x00\x00\x00\x00\x00\x00\x00\x01"
    "\x09\x00\x00\x00\x05\x00\x07\x08\x30\x00\x00\x00\x01"
    "\x08\x00\x00\x00\x01\x00\x44\x33\x22\x11\x08\x01"
    "\x08\x00\x00\x00\x02\x00\x44\x33\x22\x11\x03\x01"
    "\x13\x00\x00\x00\x04\x00\x40\x00\x00\x00\x04\x08\x07\x06\x05\x04\x03\x02\x01\x17\x00\x00\x00";

/* The offset of a unit, and whether the section is .debug_types; what the call returns and writes, and the value of the
   error. With an error, the end and the length are written if the unit lies within the section. */
static const struct unit_row {
    size_t offset;
    bool is_types;
    uint32_t status;
    struct dwarf_unit unit;
    uint64_t error;
} unit_rows[] = {
    {0, false, DWARF_OK, {12, 8, 11, 0x11223344, 0, 0, 4, 1, 8, 4}, 0},
    {0, true, DWARF_UNEXPECTED_EOF, {12, 8, 7, 7, 7, 7, 7, 7, 7, 7}, 11},
    {12, false, DWARF_OK, {33, 17, 32, 16, 0x1122334455667788, 0, 5, 4, 4, 4}, 0},
    {12, true, DWARF_OK, {33, 17, 32, 16, 0x1122334455667788, 0, 5, 4, 4, 4}, 0},
    {33, false, DWARF_OK, {74, 29, 73, 32, 0x0102030405060708, 28, 5, 2, 8, 8}, 0},
    {74, false, DWARF_UNKNOWN_UNIT_TYPE, {87, 9, 7, 7, 7, 7, 7, 7, 7, 7}, 7},
    {87, false, DWARF_UNKNOWN_VERSION, {99, 8, 7, 7, 7, 7, 7, 7, 7, 7}, 1},
    {99, false, DWARF_UNSUPPORTED_ADDRESS_SIZE, {111, 8, 7, 7, 7, 7, 7, 7, 7, 7}, 3},
    {111, false, DWARF_OK, {134, 19, 122, 64, 0, 0, 4, 1, 4, 4}, 0},
    {111, true, DWARF_OK, {134, 19, 134, 64, 0x0102030405060708, 23, 4, 2, 4, 4}, 0},
    {134, false, DWARF_END, {7, 7, 7, 7, 7, 7, 7, 7, 7, 7}, 0},
    {135, true, DWARF_UNEXPECTED_EOF, {7, 7, 7, 7, 7, 7, 7, 7, 7, 7}, 0},
    {SIZE_MAX, false, DWARF_UNEXPECTED_EOF, {7, 7, 7, 7, 7, 7, 7, 7, 7, 7}, 0},
    {132, false, DWARF_UNEXPECTED_EOF, {7, 7, 7, 7, 7, 7, 7, 7, 7, 7}, 132},
};

static bool is_unit(const struct dwarf_unit *it, const struct dwarf_unit *wanted) {
    return it->next == wanted->next && it->unit_length == wanted->unit_length && it->first_entry == wanted->first_entry &&
           it->abbrev_offset == wanted->abbrev_offset && it->identifier == wanted->identifier &&
           it->type_offset == wanted->type_offset && it->version == wanted->version &&
           it->unit_type == wanted->unit_type && it->address_size == wanted->address_size &&
           it->word_size == wanted->word_size;
}

static void check_units(void) {
    static const uint8_t big[] = {0, 0, 0, 8, 0, 5, 3, 8, 0x11, 0x22, 0x33, 0x44};
    static const struct dwarf_unit none = {7, 7, 7, 7, 7, 7, 7, 7, 7, 7};
    static const struct dwarf_unit partial = {12, 8, 12, 0x11223344, 0, 0, 5, 3, 8, 4};
    struct dwarf_fault fault = {7, 7};
    struct dwarf_unit unit = none;
    for (size_t i = 0; i < sizeof unit_rows / sizeof *unit_rows; i++) {
        struct dwarf_fault its_fault = {7, 7};
        unit = none;
        uint32_t status = dwarf_unit_header((const uint8_t *)units, sizeof units - 1, false, unit_rows[i].is_types,
                                            unit_rows[i].offset, &unit, &its_fault);
        check(status == unit_rows[i].status && is_reported(its_fault, status, unit_rows[i].error), "a unit");
        check(is_unit(&unit, &unit_rows[i].unit), "its header");
    }
    check(dwarf_unit_header(big, sizeof big, true, false, 0, &unit, &fault) == DWARF_OK, "a big-endian unit");
    check(is_unit(&unit, &partial) && is_fault(fault, 7, 7), "its header");
    check(dwarf_unit_header(NULL, 0, true, true, 0, &unit, &fault) == DWARF_END, "no unit");
    check(is_unit(&unit, &partial) && is_fault(fault, 7, 7), "what it leaves");
}

static void check_no_room(void) {
    size_t len = 7;
    check(dwarf_uleb128_write(UINT64_MAX, NULL, 0, &len) == DWARF_NO_ROOM && len == 10, "unsigned");
    check(dwarf_sleb128_write(-65, NULL, 0, &len) == DWARF_NO_ROOM && len == 2, "signed");
}

/* An error and a room for its text; what the call returns, the length and the text. Last comes each error by its name
   in the header: the text, which is proved, shows that the name has the number of that error. */
static const struct {
    struct dwarf_fault fault;
    size_t room;
    uint32_t status;
    size_t len;
    const char *text;
} texts[] = {
    {{DWARF_UNKNOWN_UNIT_TYPE, 256}, 63, DWARF_NO_NAME, 7, ""},
    {{DWARF_UNKNOWN_VERSION, UINT64_MAX}, 63, DWARF_OK, 43, "unknown DWARF version: 18446744073709551615"},
    {{DWARF_UNKNOWN_VERSION, UINT64_MAX}, 0, DWARF_NO_ROOM, 43, ""},
    {{DWARF_UNSUPPORTED_OFFSET_SIZE, 256}, 63, DWARF_NO_NAME, 7, ""},
    {{DWARF_UNKNOWN_RESERVED_LENGTH, 0xfffffff0}, 32, DWARF_NO_ROOM, 35, ""},
    {{0, 0}, 63, DWARF_NO_NAME, 7, ""},
    {{UINT32_MAX, 0}, 63, DWARF_NO_NAME, 7, ""},
    /* tools/constants writes the rows from here on. */
    {{DWARF_UNEXPECTED_EOF, 5}, 63, DWARF_OK, 23, "unexpected end of input"},
    {{DWARF_BAD_UNSIGNED_LEB128, 0}, 63, DWARF_OK, 24, "unsigned LEB128 overflow"},
    {{DWARF_BAD_SIGNED_LEB128, 0}, 63, DWARF_OK, 22, "signed LEB128 overflow"},
    {{DWARF_ABBREVIATION_TAG_ZERO, 0}, 63, DWARF_OK, 30, "invalid abbreviation tag: zero"},
    {{DWARF_INVALID_ABBREVIATION_CHILDREN, 0x1f}, 63, DWARF_OK, 35, "invalid abbreviation children: 0x1f"},
    {{DWARF_ATTRIBUTE_NAME_ZERO, 0}, 63, DWARF_OK, 28, "invalid attribute name: zero"},
    {{DWARF_ATTRIBUTE_FORM_ZERO, 0}, 63, DWARF_OK, 28, "invalid attribute form: zero"},
    {{DWARF_DUPLICATE_ABBREVIATION_CODE, 0x10000}, 63, DWARF_OK, 34, "duplicate abbreviation code: 65536"},
    {{DWARF_UNKNOWN_RESERVED_LENGTH, 0xfffffff0}, 63, DWARF_OK, 35, "unknown reserved length: 0xfffffff0"},
    {{DWARF_UNSUPPORTED_OFFSET, 0}, 63, DWARF_OK, 15, "offset overflow"},
    {{DWARF_UNKNOWN_VERSION, 0x10000}, 63, DWARF_OK, 28, "unknown DWARF version: 65536"},
    {{DWARF_UNSUPPORTED_ADDRESS_SIZE, 9}, 63, DWARF_OK, 27, "unsupported address size: 9"},
    {{DWARF_UNSUPPORTED_SEGMENT_SIZE, 9}, 63, DWARF_OK, 27, "unsupported segment size: 9"},
    {{DWARF_UNSUPPORTED_OFFSET_SIZE, 9}, 63, DWARF_OK, 26, "unsupported offset size: 9"},
    {{DWARF_BAD_UTF8, 0}, 63, DWARF_OK, 13, "invalid UTF-8"},
    {{DWARF_ADDRESS_OVERFLOW, 0}, 63, DWARF_OK, 16, "address overflow"},
    {{DWARF_UNSUPPORTED_REGISTER, 0x10000}, 63, DWARF_OK, 29, "unsupported register: 0x10000"},
    {{DWARF_OUT_OF_MEMORY, 0}, 63, DWARF_OK, 13, "out of memory"},
    {{DWARF_UNTERMINATED_ABBREVIATIONS, 5}, 63, DWARF_OK, 31, "unterminated abbreviation table"},
    {{DWARF_UNKNOWN_UNIT_TYPE, 0x1f}, 63, DWARF_OK, 23, "unknown unit type: 0x1f"},
    {{21, 0}, 63, DWARF_NO_NAME, 7, ""},
};

static void check_texts(void) {
    for (size_t i = 0; i < sizeof texts / sizeof *texts; i++) {
        char text[64] = "";
        size_t len = 7;
        uint32_t status = dwarf_fault_text(&texts[i].fault, text, texts[i].room, &len);
        check(status == texts[i].status && len == texts[i].len, "a text");
        check(strcmp(text, texts[i].text) == 0, "its bytes");
    }
}

/* A text as a string: what is written for each room. A byte is written only if the whole text and its end fit. */
static void check_strings(void) {
    static const struct dwarf_fault fault = {DWARF_UNKNOWN_VERSION, UINT64_MAX};
    static const char wanted[] = "unknown DWARF version: 18446744073709551615";
    for (size_t room = 0; room <= DWARF_TEXT_ROOM; room++) {
        char text[DWARF_TEXT_ROOM + 1], untouched[DWARF_TEXT_ROOM + 1];
        memset(text, 7, sizeof text);
        memset(untouched, 7, sizeof untouched);
        const char *string = dwarf_fault_string(&fault, text, room);
        size_t written = room < sizeof wanted ? 0 : sizeof wanted;
        check(string == (written ? text : NULL), "a text as a string");
        check(memcmp(text, wanted, written) == 0, "its bytes and its end");
        check(memcmp(text + written, untouched, sizeof text - written) == 0, "what is after its end");
    }
    check(sizeof wanted <= DWARF_TEXT_ROOM, "the room for the longest text");
}

/* The version of the library is the header's, with -unproved after it if it isn't proved. */
static void check_version(void) {
    char text[DWARF_TEXT_ROOM];
    size_t len = 7;
    check(dwarf_read_version(NULL, 0, &len) == DWARF_NO_ROOM, "a version without room");
    const char *version = dwarf_read_version_string(text, sizeof text);
    check(version == text && strlen(text) == len, "its length");
    check(strcmp(text, DWARF_READ_VERSION) == 0 || strcmp(text, DWARF_READ_VERSION "-unproved") == 0, "its bytes");
}

/* A subprogram with a constant name, and then a unit with a string and a language. */
static const uint8_t table[] = {2, 0x2e, 0, 3, 0x21, 0x56, 0, 0, 1, 0x11, 1, 3, 8, 0x13, 5, 0, 0, 0};

/* Offsets and lengths, what measuring the table there returns and writes, and the value of the error. */
static const struct measure_row {
    size_t offset, len;
    uint32_t status;
    struct dwarf_measure measure;
    uint64_t error;
} measures[] = {
    {0, 18, DWARF_OK, {2, 3, 18, 1}, 0},
    {0, 17, DWARF_OK, {2, 3, 17, 0}, 0},
    {0, 16, DWARF_UNEXPECTED_EOF, {1, 1, 8, 0}, 16},
    {17, 18, DWARF_OK, {0, 0, 18, 1}, 0},
    {18, 18, DWARF_OK, {0, 0, 18, 0}, 0},
    {19, 18, DWARF_UNEXPECTED_EOF, {7, 7, 7, 7}, 0},
    {SIZE_MAX, 18, DWARF_UNEXPECTED_EOF, {7, 7, 7, 7}, 0},
    {1, 18, DWARF_ABBREVIATION_TAG_ZERO, {0, 0, 1, 0}, 0},
    {3, 18, DWARF_INVALID_ABBREVIATION_CHILDREN, {0, 0, 3, 0}, 0x56},
};

static bool is_measure(struct dwarf_measure it, struct dwarf_measure wanted) {
    return it.abbreviations == wanted.abbreviations && it.attributes == wanted.attributes &&
           it.end == wanted.end && it.closed_by_null == wanted.closed_by_null;
}

static bool is_abbreviation(struct dwarf_abbreviation it, struct dwarf_abbreviation wanted) {
    return it.code == wanted.code && it.tag == wanted.tag && it.has_children == wanted.has_children &&
           it.first_attribute == wanted.first_attribute && it.attribute_count == wanted.attribute_count;
}

static bool is_attribute(struct dwarf_attribute_spec it, struct dwarf_attribute_spec wanted) {
    return it.name == wanted.name && it.form == wanted.form && it.implicit_const == wanted.implicit_const;
}

static void check_measures(void) {
    for (size_t i = 0; i < sizeof measures / sizeof *measures; i++) {
        struct dwarf_measure measure = {7, 7, 7, 7};
        struct dwarf_fault fault = {7, 7};
        uint32_t status = dwarf_table_measure(table, measures[i].len, measures[i].offset, &measure, &fault);
        check(status == measures[i].status && is_reported(fault, status, measures[i].error), "a measure");
        check(is_measure(measure, measures[i].measure), "its numbers");
    }
}

/* There are too few places for attributes at first, and then more than are needed. */
static void check_tables(void) {
    static const struct dwarf_abbreviation wanted[] = {{1, 0x11, 1, 0, 2}, {2, 0x2e, 0, 2, 1}, {7, 7, 7, 7, 7}};
    static const struct dwarf_attribute_spec its_wanted[] = {{3, 8, 0}, {0x13, 5, 0}, {3, 0x21, -42}, {7, 7, 7}};
    static const struct dwarf_measure whole = {2, 3, 18, 1};
    struct dwarf_abbreviation ours[] = {{7, 7, 7, 7, 7}, {7, 7, 7, 7, 7}, {7, 7, 7, 7, 7}};
    struct dwarf_attribute_spec its[] = {{7, 7, 7}, {7, 7, 7}, {7, 7, 7}, {7, 7, 7}};
    struct dwarf_measure measure = {7, 7, 7, 7};
    struct dwarf_fault fault = {7, 7};
    uint32_t status = dwarf_table_read(table, sizeof table, 0, ours, 3, its, 2, &measure, &fault);
    check(status == DWARF_NO_ROOM && is_measure(measure, whole) && is_fault(fault, 7, 7), "few places");
    check(is_abbreviation(ours[0], wanted[2]) && is_attribute(its[0], its_wanted[3]), "places without room");
    status = dwarf_table_read(table, sizeof table, 0, ours, 3, its, 4, &measure, &fault);
    check(status == DWARF_OK && is_measure(measure, whole) && is_fault(fault, 7, 7), "a table");
    for (size_t i = 0; i < 3; i++) {
        check(is_abbreviation(ours[i], wanted[i]), "an abbreviation");
    }
    for (size_t i = 0; i < 4; i++) {
        check(is_attribute(its[i], its_wanted[i]), "an attribute");
    }
}

/*
 * The codes of a table, a byte each, in their order; what reading it returns, and the code that is declared again; the
 * codes that are read; and the measure. Each declaration has its own code as the tag, and as many attributes.
 */
static const struct order_row {
    const char *codes;
    uint32_t status;
    uint64_t error;
    const char *in_order;
    struct dwarf_measure measure;
} orders[] = {
    {"\1\2\3", DWARF_OK, 0, "\1\2\3", {3, 6, 28, 1}},
    {"\2\5\6", DWARF_OK, 0, "\2\5\6", {3, 13, 42, 1}},
    {"\3\2\1", DWARF_OK, 0, "\1\2\3", {3, 6, 28, 1}},
    {"\1\3\2", DWARF_OK, 0, "\1\2\3", {3, 6, 28, 1}},
    {"\2\5\1\6\3", DWARF_OK, 0, "\1\2\3\5\6", {5, 17, 60, 1}},
    {"\1\1", DWARF_DUPLICATE_ABBREVIATION_CODE, 1, "", {1, 1, 7, 0}},
    {"\2\4\4", DWARF_DUPLICATE_ABBREVIATION_CODE, 4, "", {2, 6, 22, 0}},
    {"\2\4\2\4", DWARF_DUPLICATE_ABBREVIATION_CODE, 2, "", {2, 6, 22, 0}},
    {"\2\4\3\4\2", DWARF_DUPLICATE_ABBREVIATION_CODE, 4, "", {3, 9, 33, 0}},
};

/* Writes the table with these codes, and returns its end. */
static uint8_t *put_table(const char *codes, uint8_t *at) {
    for (; *codes; codes++) {
        *at++ = (uint8_t)*codes;
        *at++ = (uint8_t)*codes;
        *at++ = 1;
        for (char i = 0; i < *codes; i++) {
            *at++ = (uint8_t)(0x10 + *codes);
            *at++ = 8;
        }
        *at++ = 0;
        *at++ = 0;
    }
    *at++ = 0;
    return at;
}

static void check_orders(void) {
    for (size_t i = 0; i < sizeof orders / sizeof *orders; i++) {
        uint8_t section[100];
        struct dwarf_abbreviation ours[5];
        struct dwarf_attribute_spec its[20];
        struct dwarf_measure measure = {7, 7, 7, 7};
        struct dwarf_fault fault = {7, 7};
        size_t len = (size_t)(put_table(orders[i].codes, section) - section), first = 0;
        uint32_t status = dwarf_table_read(section, len, 0, ours, 5, its, 20, &measure, &fault);
        check(status == orders[i].status && is_reported(fault, status, orders[i].error), "codes in some order");
        for (size_t k = 0; orders[i].in_order[k]; k++) {
            uint8_t code = (uint8_t)orders[i].in_order[k];
            struct dwarf_abbreviation wanted = {code, code, 1, first, code};
            check(is_abbreviation(ours[k], wanted), "an abbreviation in order");
            for (size_t last = first + code; first < last; first++) {
                struct dwarf_attribute_spec wanted_attribute = {(uint16_t)(0x10 + code), 8, 0};
                check(is_attribute(its[first], wanted_attribute), "an attribute in order");
            }
        }
        check(is_measure(measure, orders[i].measure), "the measure of codes in some order");
    }
}

/* A table in memory of its own is what is read into arrays: with few rows, with more than the first block has room for,
   empty, and after an error. */
static void check_loaded(void) {
    static const size_t counts[] = {0, 1, 2, 3, 200, 7999, 8000, 8001, 8002};
    static uint8_t section[8002 * 8 + 1];
    static struct dwarf_abbreviation rows[8002];
    static struct dwarf_attribute_spec its[8002];
    for (size_t row = 0; row < sizeof counts / sizeof *counts; row++) {
        size_t count = counts[row];
        uint8_t *at = section;
        for (size_t i = 0; i < count; i++) {
            const uint8_t it[] = {(uint8_t)((i + 1) | 0x80), (uint8_t)((i + 1) >> 7), 0x2e, 0, 3, 8, 0, 0};
            memcpy(at, it, sizeof it);
            at += sizeof it;
        }
        *at++ = 0;
        size_t len = (size_t)(at - section);
        struct dwarf_measure measure = {7, 7, 7, 7};
        struct dwarf_fault fault = {7, 7};
        struct dwarf_table loaded;
        memset(&loaded, 7, sizeof loaded);
        check(dwarf_table_read(section, len, 0, rows, 8002, its, 8002, &measure, &fault) == DWARF_OK, "rows");
        check(dwarf_table_load(section, len, 0, &loaded, &fault) == DWARF_OK, "a loaded table");
        check(is_fault(fault, 7, 7) && is_measure(loaded.measure, measure), "its measure");
        check((loaded.abbreviations == NULL) == (count == 0), "its memory");
        for (size_t i = 0; i < count; i++) {
            check(is_abbreviation(loaded.abbreviations[i], rows[i]), "a loaded abbreviation");
            check(is_attribute(loaded.attributes[i], its[i]), "a loaded attribute");
        }
        dwarf_table_free(&loaded);
        check(loaded.abbreviations == NULL && loaded.measure.abbreviations == 0, "a freed table");
    }
    static const struct dwarf_measure before = {0, 0, 8, 0}, first = {1, 1, 8, 0};
    struct dwarf_fault fault = {7, 7};
    struct dwarf_table loaded;
    memset(&loaded, 7, sizeof loaded);
    check(dwarf_table_load(table, 16, 0, &loaded, &fault) == DWARF_UNEXPECTED_EOF, "a table that is cut");
    check(is_fault(fault, DWARF_UNEXPECTED_EOF, 16) && loaded.abbreviations == NULL, "its error");
    check(loaded.attributes == NULL && is_measure(loaded.measure, before), "what it has");
    check(dwarf_table_load(table, loaded.measure.end, 0, &loaded, &fault) == DWARF_OK, "what stands before the error");
    check(is_measure(loaded.measure, first) && loaded.abbreviations[0].code == 2, "the abbreviation before it");
    dwarf_table_free(&loaded);
    check(dwarf_table_load(NULL, 0, 1, &loaded, &fault) == DWARF_UNEXPECTED_EOF, "a table past the end");
    check(is_fault(fault, DWARF_UNEXPECTED_EOF, 0) && loaded.measure.end == 0, "its error");
}

/* An empty section is a table that nothing closes. */
static void check_empty_tables(void) {
    static const struct dwarf_measure empty = {0, 0, 0, 0};
    struct dwarf_measure measure = {7, 7, 7, 7};
    struct dwarf_fault fault = {7, 7};
    uint32_t status = dwarf_table_read(NULL, 0, 0, NULL, 0, NULL, 0, &measure, &fault);
    check(status == DWARF_OK && is_measure(measure, empty) && is_fault(fault, 7, 7), "an empty table");
}

/* Strings, string offsets and addresses. */
static void check_lookups(void) {
    static const uint8_t strings[] = {'o', 'n', 'e', 0, 't', 'w', 'o', 0, 0}, words[] = {0x78, 0x56, 0x34, 0x12};
    struct dwarf_fault fault = {7, 7};
    size_t found = 7;
    uint64_t address = 7;
    check(dwarf_string(strings, sizeof strings, 4, &found, &fault) == DWARF_OK && found == 3, "two");
    check(dwarf_string(strings, sizeof strings, 8, &found, &fault) == DWARF_OK && found == 0, "an empty string");
    check(dwarf_address(words, 4, false, 4, 0, 0, &address, &fault) == DWARF_OK && address == 0x12345678, "little");
    check(dwarf_address(words, 4, true, 4, 0, 0, &address, &fault) == DWARF_OK && address == 0x78563412, "big");
    check(dwarf_str_offset(words, 4, false, false, 0, 0, &found, &fault) == DWARF_OK && found == 0x12345678, "offset");
    check(is_fault(fault, 7, 7), "no error of a lookup");
}

static void check_offsets(void) {
    static const uint8_t section[64] = {0}, strings[] = {'o', 'n', 'e', 0, 't', 'w', 'o', 0, 0};
    struct dwarf_fault fault = {7, 7};
    size_t offset = 7;
    uint64_t address = 7;
    uint32_t status = dwarf_string(strings, sizeof strings, 9, &offset, &fault);
    check(status == DWARF_UNEXPECTED_EOF && is_fault(fault, 1, 9), "a string at the end");
    status = dwarf_string(strings, sizeof strings, 10, &offset, &fault);
    check(status == DWARF_UNEXPECTED_EOF && is_fault(fault, 1, 0), "a string past the end");
    status = dwarf_string(section, sizeof section, SIZE_MAX, &offset, &fault);
    check(status == DWARF_UNEXPECTED_EOF && is_fault(fault, 1, 0), "a string far past the end");
    status = dwarf_str_offset(section, sizeof section, false, true, 65, 0, &offset, &fault);
    check(status == DWARF_UNEXPECTED_EOF && is_fault(fault, 1, 0), "a base past the end");
    status = dwarf_str_offset(section, sizeof section, false, false, 8, 14, &offset, &fault);
    check(status == DWARF_UNEXPECTED_EOF && is_fault(fault, 1, 64), "an offset past the end");
    status = dwarf_str_offset(section, sizeof section, false, true, 8, SIZE_MAX, &offset, &fault);
    check(status == DWARF_UNSUPPORTED_OFFSET && is_fault(fault, 10, 0), "a huge index");
    status = dwarf_address(section, sizeof section, false, 3, 0, 0, &address, &fault);
    check(status == DWARF_UNSUPPORTED_ADDRESS_SIZE && is_fault(fault, 12, 3), "a size of 3");
    status = dwarf_address(section, sizeof section, false, 8, 8, 7, &address, &fault);
    check(status == DWARF_UNEXPECTED_EOF && is_fault(fault, 1, 64), "an address past the end");
    check(offset == 7 && address == 7, "outputs of lookups that failed");
}

int main(int argc, char **argv) {
    if (argc == 2 && strcmp(argv[1], "--fail") == 0) {
        check(false, "a check that fails");
        return failures;
    }
    check_numbers();
    check_constants();
    check_sizes();
    check_no_bytes();
    check_sets(dwarf_address_set);
    check_sets(dwarf_str_offset_set);
    check_worked_sets(dwarf_address_set, address_sets, sizeof address_sets / sizeof *address_sets);
    check_worked_sets(dwarf_str_offset_set, offset_sets, sizeof offset_sets / sizeof *offset_sets);
    check_units();
    check_no_room();
    check_texts();
    check_strings();
    check_version();
    check_measures();
    check_tables();
    check_orders();
    check_loaded();
    check_empty_tables();
    check_lookups();
    check_offsets();
    return failures;
}
