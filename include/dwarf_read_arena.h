/*
 * Memory for the library where there is no heap, as in a signal handler: an arena, which is a block of the caller's.
 * Compile dwarf_read_arena.c in place of dwarf_read_heap.c:
 *
 *     cc -O2 -I include program.c include/dwarf_read_arena.c include/dwarf_read.S
 *
 * A thread says from which arena its calls take memory. Without one, and if the arena is too small, a call that needs
 * memory returns DWARF_OUT_OF_MEMORY. An arena never grows. A call gives back all that it has taken, and calls nothing
 * of the C library but memcpy, memmove and memset. So on Linux and FreeBSD every call may be made in a signal handler
 * that first names an arena of its own, and at its end the one that was there.
 *
 * These functions are tested, not proved. libdwarf_read.so has those of dwarf_read_heap.c, and uses no arena.
 */
#ifndef DWARF_READ_ARENA_H
#define DWARF_READ_ARENA_H

#include "dwarf_read.h"

#ifdef __cplusplus
extern "C" {
#endif

/* A block, and what is taken of it. A copy of an arena is a mark: assigned back, it gives back what was taken since. */
struct dwarf_arena {
    void *block;
    size_t size;
    size_t used;  /* how many bytes at its front are taken */
    size_t rows;  /* how many of these the rows of tables take */
    size_t last;  /* where the block begins that a call has taken last */
    size_t count; /* how many blocks calls have taken */
};

/* A size that is enough to read or to load any table of this many bytes. If a table's end isn't known, these are the
   bytes from its offset to the section's end. */
#define DWARF_ARENA_SIZE(bytes) (64 * (size_t)(bytes) + 16384)

/* Returns an arena that is a block of this size, of which nothing is taken. */
static inline struct dwarf_arena dwarf_arena_of(void *block, size_t size) {
    struct dwarf_arena arena = {block, size, 0, 0, 0, 0};
    return arena;
}

/* Lets the calls of this thread take memory from an arena, or from none if it is null. Returns the arena that was there,
   or null. A program without a C library has one for all its threads. */
struct dwarf_arena *dwarf_arena_use(struct dwarf_arena *arena);

/* Reads the table at an offset of .debug_abbrev, as dwarf_table_load does, and takes memory from an arena, whichever the
   thread uses. The table is parsed twice, so that only its rows are left in the arena. They stay there until the arena
   is assigned a mark from before; dwarf_table_free must not be called. The errors are those of dwarf_table_load, and
   leave the same in the table. After an error the arena is as it was. */
uint32_t dwarf_arena_load(struct dwarf_arena *arena, const uint8_t *section, size_t len, size_t offset,
                          struct dwarf_table *table, struct dwarf_fault *fault);

#ifdef __cplusplus
}
#endif

#endif
