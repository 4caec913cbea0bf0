/*
 * Reads a .debug_abbrev from standard input, and prints the code and the tag of each abbreviation of all its tables.
 */
#include "dwarf_read.h"

#include <inttypes.h>
#include <stdio.h>

/* Reads standard input up to its end, or to an error. Returns null if memory runs out. */
static uint8_t *read_input(size_t *len) {
    uint8_t *bytes = NULL;
    size_t room = 0, count;
    *len = 0;
    do {
        if (*len == room) {
            room = 2 * room + 65536;
            void *more = realloc(bytes, room);
            if (more == NULL) {
                free(bytes);
                return NULL;
            }
            bytes = (uint8_t *)more;
        }
        count = fread(bytes + *len, 1, room - *len, stdin);
        *len += count;
    } while (count != 0);
    return bytes;
}

static void print_tags(const struct dwarf_table *table) {
    for (size_t i = 0; i < table->measure.abbreviations; i++) {
        const struct dwarf_abbreviation *row = &table->abbreviations[i];
        struct dwarf_name tag = dwarf_tag_name(row->tag);
        if (tag.len != 0) {
            printf("%" PRIu64 " %.*s\n", row->code, (int)tag.len, tag.text);
        } else {
            printf("%" PRIu64 " 0x%x\n", row->code, (unsigned)row->tag);
        }
    }
}

int main(void) {
    struct dwarf_fault fault = {DWARF_OUT_OF_MEMORY, 0};
    struct dwarf_table table;
    size_t len, offset = 0;
    uint8_t *section = read_input(&len);
    if (ferror(stdin)) {
        perror("error: standard input");
        free(section);
        return 1;
    }
    uint32_t status = section != NULL ? DWARF_OK : DWARF_OUT_OF_MEMORY;
    while (status == DWARF_OK && offset < len) {
        status = dwarf_table_load(section, len, offset, &table, &fault);
        if (status == DWARF_OK) {
            print_tags(&table);
            offset = table.measure.end;
            dwarf_table_free(&table);
        }
    }
    free(section);
    if (status != DWARF_OK) {
        char text[DWARF_TEXT_ROOM];
        const char *what = dwarf_fault_string(&fault, text, sizeof text);
        fprintf(stderr, "error: %s\n", what != NULL ? what : "out of memory");
        return 1;
    }
    return 0;
}
