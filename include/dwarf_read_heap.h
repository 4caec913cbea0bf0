/*
 * The three functions that the library allocates memory with. dwarf_read_heap.c defines them over malloc, realloc and
 * free. A program that links libdwarf_read.a may define all three instead, over one other allocator; then those of the
 * archive aren't linked. libdwarf_read.so calls those inside.
 *
 * They have the names that the compiler of the library, Rattle's, gives to them in each library that it makes. So two
 * such libraries in a program use the same three.
 *
 * None of them may throw, or leave by longjmp: the unwind tables are for debuggers, and the library would free nothing.
 * And none may call the library. They are called by as many threads at once as make calls that allocate.
 */
#ifndef DWARF_READ_HEAP_H
#define DWARF_READ_HEAP_H

#include <stdbool.h>
#include <stddef.h>

#ifdef __cplusplus
extern "C" {
#endif

/* Whether the allocation succeeded, and the block. The pointer is never null, since the proofs assume so. If
   the allocation failed, it may point to any byte, which the library neither reads nor writes. */
struct rattle_tried {
    bool is_block;
    void *block;
};

/* Allocates a block of `size` bytes, which may be 0. `align` divides 16. A block has to be aligned to each power of two
   up to 16 that divides its size. */
struct rattle_tried rattle_alloc(size_t size, size_t align);

/* Gives a block another size, and may move it. The first `kept` bytes stay as they were: `kept` is at most the old size
   and at most `size`. If this fails, the old block remains as it was. */
struct rattle_tried rattle_realloc(void *block, size_t kept, size_t size, size_t align);

/* Frees a block. The library passes only blocks that the two functions above returned, and each once. */
void rattle_dealloc(void *block);

#ifdef __cplusplus
}
#endif

#endif
