/*
 * The functions of dwarf_read_heap.h over arenas, and those of dwarf_read_arena.h. This file compiles as C and as C++.
 */
#include "dwarf_read_arena.h"
#include "dwarf_read_heap.h"

#include <string.h>

#ifdef __cplusplus
#define BYTES(pointer) static_cast<uint8_t *>(pointer)
#define ADDRESS(pointer) reinterpret_cast<uintptr_t>(pointer)
#else
#define BYTES(pointer) ((uint8_t *)(pointer))
#define ADDRESS(pointer) ((uintptr_t)(pointer))
#endif

/* A thread's arena. In ELF a signal handler reaches it, by this model, without a call that might allocate. */
#if !__STDC_HOSTED__
static struct dwarf_arena *here;
#elif defined __ELF__
static __thread struct dwarf_arena *here __attribute__((tls_model("initial-exec")));
#else
static __thread struct dwarf_arena *here;
#endif

struct dwarf_arena *dwarf_arena_use(struct dwarf_arena *arena) {
    struct dwarf_arena *before = here;
    here = arena;
    return before;
}

/* Takes a block after what is taken, aligned to 16 bytes. Returns null if there is no room for it. */
static void *take(struct dwarf_arena *arena, size_t size) {
    uint8_t *front = BYTES(arena->block) + arena->used;
    size_t left = arena->size - arena->used, skipped = (16 - ADDRESS(front) % 16) % 16;
    if (left < skipped || left - skipped < size) {
        return NULL;
    }
    arena->last = arena->used + skipped;
    arena->used = arena->last + size;
    return front + skipped;
}

static struct rattle_tried tried_from(void *block) {
    static char none;
    struct rattle_tried result = {block != NULL, block != NULL ? block : &none};
    return result;
}

/* A block has at least one byte, so that no two of them begin at the same place. */
struct rattle_tried rattle_alloc(size_t size, size_t align) {
    (void)align;
    void *block = here != NULL ? take(here, size != 0 ? size : 1) : NULL;
    if (block != NULL) {
        here->count += 1;
    }
    return tried_from(block);
}

/* The block that was taken last grows where it is. Another one moves, and leaves a gap. */
struct rattle_tried rattle_realloc(void *block, size_t kept, size_t size, size_t align) {
    (void)align;
    if (block != BYTES(here->block) + here->last) {
        void *moved = take(here, size != 0 ? size : 1);
        if (moved != NULL) {
            memcpy(moved, block, kept);
        }
        return tried_from(moved);
    }
    if (size > here->size - here->last) {
        return tried_from(NULL);
    }
    here->used = here->last + (size != 0 ? size : 1);
    return tried_from(block);
}

/* What a call has taken can be taken again once it has given all back. */
void rattle_dealloc(void *block) {
    (void)block;
    here->count -= 1;
    if (here->count == 0) {
        here->used = here->rows;
    }
}

/* Reads a table that was measured into rows of an arena. */
static uint32_t read_rows(struct dwarf_arena *arena, const uint8_t *section, size_t len, size_t offset,
                          struct dwarf_table *table, struct dwarf_fault *fault) {
    size_t count = table->measure.abbreviations, attributes = table->measure.attributes;
    void *rows = take(arena, count * sizeof *table->abbreviations);
    void *of_rows = rows != NULL ? take(arena, attributes * sizeof *table->attributes) : NULL;
    if (of_rows == NULL) {
        fault->kind = DWARF_OUT_OF_MEMORY;
        fault->value = 0;
        return DWARF_OUT_OF_MEMORY;
    }
    arena->rows = arena->used;
#ifdef __cplusplus
    table->abbreviations = static_cast<struct dwarf_abbreviation *>(rows);
    table->attributes = static_cast<struct dwarf_attribute_spec *>(of_rows);
#else
    table->abbreviations = rows;
    table->attributes = of_rows;
#endif
    return dwarf_table_read(section, len, offset, table->abbreviations, count, table->attributes, attributes,
                            &table->measure, fault);
}

uint32_t dwarf_arena_load(struct dwarf_arena *arena, const uint8_t *section, size_t len, size_t offset,
                          struct dwarf_table *table, struct dwarf_fault *fault) {
    static const struct dwarf_table empty = {NULL, NULL, {0, 0, 0, 0}};
    struct dwarf_arena mark = *arena, *before = dwarf_arena_use(arena);
    *table = empty;
    uint32_t status = dwarf_table_measure(section, len, offset, &table->measure, fault);
    if (status == DWARF_OK && table->measure.abbreviations != 0) {
        status = read_rows(arena, section, len, offset, table, fault);
    }
    if (status != DWARF_OK) {
        size_t end = status != DWARF_OUT_OF_MEMORY ? table->measure.end : 0;
        *arena = mark;
        *table = empty;
        table->measure.end = end;
    }
    dwarf_arena_use(before);
    return status;
}
