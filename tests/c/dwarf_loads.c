/*
 * Loads tables with a `malloc` that counts its blocks and refuses some: how much memory a table keeps, what a call
 * leaves if memory runs out, and what the library gets of blocks without bytes.
 *
 *     dwarf_loads
 *
 * The status is 0 if all is as dwarf_read.h and dwarf_read_heap.h say. The program compiles as C and as C++.
 */
#include <stdbool.h>
#include <stdio.h>
#include <stdlib.h>
#include <string.h>

/* How many requests dwarf_table_load made, and how large the first and the last were. */
static size_t requests, first_size, last_size;
/* Which of the next requests is refused, or 0 if none is. */
static size_t refused;
/* Whether those of dwarf_read_heap.c are. */
static bool is_heap_refused;

/* As this system's, but that no bytes are no block. */
static void *heap_malloc(size_t size) {
    return is_heap_refused || size == 0 ? NULL : malloc(size);
}

static void *heap_realloc(void *block, size_t size) {
    return is_heap_refused || size == 0 ? NULL : realloc(block, size);
}

static void *load_malloc(size_t size) {
    first_size = requests == 0 ? size : first_size;
    last_size = size;
    return ++requests == refused ? NULL : malloc(size);
}

#define malloc heap_malloc
#define realloc heap_realloc
#include "dwarf_read_heap.c"
#undef malloc
#define malloc load_malloc
#include "dwarf_read.h"

static int failures;

static void check(bool holds, const char *what) {
    if (!holds) {
        printf("failed: %s\n", what);
        failures++;
    }
}

/* A section whose first table has this many declarations without attributes, before bytes of other tables. */
static uint8_t section[400000];

static void put_table(size_t count) {
    size_t at = 0;
    memset(section, 0, sizeof section);
    for (size_t code = 1; code <= count; code++) {
        for (size_t rest = code; ; rest >>= 7) {
            section[at++] = (uint8_t)((rest & 127) | (rest < 128 ? 0 : 128));
            if (rest < 128) {
                break;
            }
        }
        section[at] = 0x11;
        at += 4;
    }
}

/* Loads the table, with this request for memory refused. */
static uint32_t load(struct dwarf_table *table, struct dwarf_fault *fault, size_t number) {
    memset(table, 0xa5, sizeof *table);
    requests = 0;
    refused = number;
    return dwarf_table_load(section, sizeof section, 0, table, fault);
}

static bool is_empty(const struct dwarf_table *table) {
    const struct dwarf_measure *measure = &table->measure;
    return table->abbreviations == NULL && table->attributes == NULL && measure->abbreviations == 0
           && measure->attributes == 0 && measure->end == 0 && measure->closed_by_null == 0;
}

/* A table of 100 declarations fits the first block, and one of 9000 doesn't. */
static void check_tables(void) {
    static struct dwarf_table table;
    struct dwarf_fault fault = {7, 7};
    size_t row = sizeof *table.abbreviations, most = 8000 * row + 32000 * sizeof *table.attributes;
    put_table(100);
    check(load(&table, &fault, 0) == DWARF_OK && table.measure.abbreviations == 100, "a table");
    check(first_size == most && requests == 2 && last_size == 100 * row, "a block that fits it");
    dwarf_table_free(&table);
    check(load(&table, &fault, 2) == DWARF_OK && table.abbreviations[99].code == 100, "a table in the first block");
    dwarf_table_free(&table);
    check(load(&table, &fault, 1) == DWARF_OK && requests == 2 && last_size == 100 * row, "a table without that block");
    dwarf_table_free(&table);
    put_table(9000);
    check(load(&table, &fault, 0) == DWARF_OK && table.abbreviations[8999].code == 9000, "a larger table");
    check(first_size == most && requests == 2 && last_size == 9000 * row, "its second block");
    dwarf_table_free(&table);
    check(load(&table, &fault, 2) == DWARF_OUT_OF_MEMORY && requests == 2, "no memory for the second block");
    check(fault.kind == DWARF_OUT_OF_MEMORY && fault.value == 0 && is_empty(&table), "what is left then");
}

static void check_blocks(void) {
    for (size_t size = 0; size < 3; size++) {
        struct rattle_tried first = rattle_alloc(size, 8);
        check(first.is_block && first.block != NULL, "a block");
        struct rattle_tried other = rattle_realloc(first.block, 0, size, 8);
        check(other.is_block && other.block != NULL, "a block of another size");
        is_heap_refused = true;
        struct rattle_tried none = rattle_realloc(other.block, 0, size, 8);
        check(!none.is_block && none.block != NULL, "no block of another size, and no null");
        none = rattle_alloc(size, 8);
        check(!none.is_block && none.block != NULL, "no block, and no null");
        is_heap_refused = false;
        rattle_dealloc(other.block);
    }
}

int main(void) {
    check_tables();
    check_blocks();
    return failures;
}
