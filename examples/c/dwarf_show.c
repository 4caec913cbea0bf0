/*
 * Reads a section from standard input and writes a part of it, as the program dwarf_list does. The
 * arguments aren't checked, and a read error counts as the end of the input.
 *
 *     dwarf_show abbrev OFFSET       the abbreviation table at an offset of .debug_abbrev
 *     dwarf_show str OFFSET          the string at an offset of .debug_str
 *     dwarf_show addr le|be          the sets of addresses of a whole .debug_addr
 *     dwarf_show str-offsets le|be   the sets of string offsets of a whole .debug_str_offsets
 *     dwarf_show uleb N              the LEB128 encoding of a number, read again
 *
 * The program compiles as C and as C++.
 */
#include "dwarf_constants.h"
#include "dwarf_read.h"

#include <inttypes.h>
#include <stdio.h>
#include <string.h>

struct bytes {
    uint8_t *items;
    size_t len;
};

/* Reads all of standard input. Returns false if memory runs out. */
static bool read_input(struct bytes *input) {
    size_t room = 0, count;
    do {
        if (input->len == room) {
            room = room * 2 + 4096;
            uint8_t *items = (uint8_t *)realloc(input->items, room);
            if (items == NULL) {
                return false;
            }
            input->items = items;
        }
        count = fread(input->items + input->len, 1, room - input->len, stdin);
        input->len += count;
    } while (count != 0);
    return true;
}

static int failed(const struct dwarf_fault *fault) {
    char text[DWARF_TEXT_ROOM];
    const char *what = dwarf_fault_string(fault, text, sizeof text);
    fprintf(stderr, "error: %s\n", what != NULL ? what : "out of memory");
    return 1;
}

/* Prints the name of a constant, or its number if it has none. */
static void print_name(struct dwarf_name name, const char *type, uint16_t value) {
    if (name.len != 0) {
        fwrite(name.text, 1, name.len, stdout);
    } else {
        printf("Unknown %s: %u", type, (unsigned)value);
    }
}

static void print_attribute(const struct dwarf_attribute_spec *attribute) {
    fputs("  ", stdout);
    print_name(dwarf_attribute_name(attribute->name), "DwAt", attribute->name);
    putchar(' ');
    print_name(dwarf_form_name(attribute->form), "DwForm", attribute->form);
    if (attribute->form == DW_FORM_implicit_const) {
        printf(" %" PRId64, attribute->implicit_const);
    }
    putchar('\n');
}

static void print_table(const struct dwarf_table *table) {
    for (size_t i = 0; i < table->measure.abbreviations; i++) {
        const struct dwarf_abbreviation *it = &table->abbreviations[i];
        printf("%" PRIu64 " ", it->code);
        print_name(dwarf_tag_name(it->tag), "DwTag", it->tag);
        puts(it->has_children ? " yes" : " no");
        for (size_t k = 0; k < it->attribute_count; k++) {
            print_attribute(&table->attributes[it->first_attribute + k]);
        }
    }
}

static int show_table(struct bytes section, size_t offset) {
    struct dwarf_table table;
    struct dwarf_fault fault;
    if (dwarf_table_load(section.items, section.len, offset, &table, &fault) != DWARF_OK) {
        return failed(&fault);
    }
    print_table(&table);
    dwarf_table_free(&table);
    return 0;
}

static int show_string(struct bytes section, size_t offset) {
    size_t len;
    struct dwarf_fault fault;
    if (dwarf_string(section.items, section.len, offset, &len, &fault) != DWARF_OK) {
        return failed(&fault);
    }
    fwrite(section.items + offset, 1, len, stdout);
    putchar('\n');
    return 0;
}

/* A section of sets: of addresses, or of string offsets. */
struct set_section {
    struct bytes bytes;
    bool is_big;
    bool has_addresses;
};

static uint32_t read_set(const struct set_section *section, size_t offset, struct dwarf_set *set,
                         struct dwarf_fault *fault) {
    struct bytes bytes = section->bytes;
    if (section->has_addresses) {
        return dwarf_address_set(bytes.items, bytes.len, section->is_big, offset, set, fault);
    }
    return dwarf_str_offset_set(bytes.items, bytes.len, section->is_big, offset, set, fault);
}

/* Reads the entry at an index of a set. No byte after the set's end is read. */
static uint32_t read_entry(const struct set_section *section, const struct dwarf_set *set,
                           size_t index, uint64_t *entry, struct dwarf_fault *fault) {
    const uint8_t *items = section->bytes.items;
    if (section->has_addresses) {
        return dwarf_address(items, set->next, section->is_big, set->entry_size, set->first_entry,
                             index, entry, fault);
    }
    size_t offset = 0;
    uint32_t status = dwarf_str_offset(items, set->next, section->is_big, set->word_size == 8,
                                       set->first_entry, index, &offset, fault);
    *entry = offset;
    return status;
}

static void print_header(const struct set_section *section, size_t offset,
                         const struct dwarf_set *set) {
    printf("set %zu: length %zu, %u-bit", offset, set->unit_length, set->word_size * 8u);
    if (section->has_addresses) {
        printf(", address size %u", (unsigned)set->entry_size);
    }
    putchar('\n');
}

/* Prints the entries of a set, or only looks for an error. */
static int go_over_set(const struct set_section *section, const struct dwarf_set *set,
                       bool is_printed) {
    /* An entry that the set's end cuts isn't counted. Reading it returns the error that is printed. */
    bool is_cut = (set->next - set->first_entry) % set->entry_size != 0;
    for (size_t i = 0; i < set->entry_count + is_cut; i++) {
        uint64_t entry;
        struct dwarf_fault fault;
        if (read_entry(section, set, i, &entry, &fault) != DWARF_OK) {
            return failed(&fault);
        }
        if (is_printed) {
            printf(section->has_addresses ? "  0x%" PRIx64 "\n" : "  %" PRIu64 "\n", entry);
        }
    }
    return 0;
}

/* Prints all sets, or only looks for an error. */
static int go_over_sets(const struct set_section *section, bool is_printed) {
    size_t offset = 0;
    for (;;) {
        struct dwarf_set set;
        struct dwarf_fault fault;
        uint32_t status = read_set(section, offset, &set, &fault);
        if (status != DWARF_OK) {
            return status == DWARF_END ? 0 : failed(&fault);
        }
        if (is_printed) {
            print_header(section, offset, &set);
        }
        int failure = go_over_set(section, &set, is_printed);
        if (failure != 0) {
            return failure;
        }
        offset = set.next;
    }
}

/* Nothing is printed before it is known that there is no error. */
static int show_sets(struct bytes bytes, bool is_big, bool has_addresses) {
    struct set_section section = {bytes, is_big, has_addresses};
    int failure = go_over_sets(&section, false);
    return failure != 0 ? failure : go_over_sets(&section, true);
}

static int show_number(uint64_t number) {
    uint8_t bytes[10];
    size_t len, number_len;
    struct dwarf_fault fault;
    uint64_t again = 0;
    dwarf_uleb128_write(number, bytes, sizeof bytes, &len);
    if (dwarf_uleb128(bytes, len, &again, &number_len, &fault) != DWARF_OK) {
        return failed(&fault);
    }
    for (size_t i = 0; i < len; i++) {
        printf(i + 1 < len ? "%02x " : "%02x\n", (unsigned)bytes[i]);
    }
    return again == number && number_len == len ? 0 : 1;
}

int main(int argc, char **argv) {
    if (argc != 3) {
        fputs("usage: dwarf_show abbrev OFFSET | str OFFSET | addr le|be | str-offsets le|be | uleb N\n",
              stderr);
        return 2;
    }
    uint64_t number = strtoull(argv[2], NULL, 10);
    if (strcmp(argv[1], "uleb") == 0) {
        return show_number(number);
    }
    struct bytes section = {NULL, 0};
    int status;
    bool is_read = read_input(&section);
    if (ferror(stdin)) {
        perror("error: standard input");
        free(section.items);
        return 1;
    }
    if (!is_read) {
        struct dwarf_fault fault = {DWARF_OUT_OF_MEMORY, 0};
        status = failed(&fault);
    } else if (strcmp(argv[1], "abbrev") == 0) {
        status = show_table(section, (size_t)number);
    } else if (strcmp(argv[1], "addr") == 0 || strcmp(argv[1], "str-offsets") == 0) {
        status = show_sets(section, strcmp(argv[2], "be") == 0, strcmp(argv[1], "addr") == 0);
    } else {
        status = show_string(section, (size_t)number);
    }
    free(section.items);
    return status;
}
