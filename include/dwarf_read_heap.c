/*
 * The functions of dwarf_read_heap.h over malloc, realloc and free. This file compiles as C and as C++, and is a member
 * of its own in the installed libdwarf_read.a.
 */
#include "dwarf_read_heap.h"

#include <stdlib.h>

static struct rattle_tried tried_from(void *block) {
    static char none;
    struct rattle_tried result = {block != NULL, block != NULL ? block : &none};
    return result;
}

/* A block of no bytes has as many as its alignment, so that null means that the allocation failed. */
static size_t size_of(size_t size, size_t align) {
    return size != 0 ? size : align;
}

struct rattle_tried rattle_alloc(size_t size, size_t align) {
    return tried_from(malloc(size_of(size, align)));
}

struct rattle_tried rattle_realloc(void *block, size_t kept, size_t size, size_t align) {
    (void)kept;
    return tried_from(realloc(block, size_of(size, align)));
}

void rattle_dealloc(void *block) {
    free(block);
}
