/*
 * A test of the unwind tables: a walk of the stack from each call of an allocation function comes through the library,
 * to the function that called it. The status is 0 if so.
 */
#include "dwarf_read.h"
#include "dwarf_read_heap.h"

#include <stdio.h>
#include <stdlib.h>
#include <unwind.h>

static unsigned walks, lost;

static void call(const uint8_t *section, size_t len);

/* A frame of the walk: whether it is that of the function that calls the library. */
static _Unwind_Reason_Code see(struct _Unwind_Context *frame, void *is_found) {
    *(bool *)is_found |= _Unwind_GetRegionStart(frame) == (uintptr_t)call;
    return _URC_NO_REASON;
}

static void walk(void) {
    bool is_found = false;
    _Unwind_Backtrace(see, &is_found);
    walks += 1;
    lost += is_found ? 0 : 1;
}

static struct rattle_tried tried(void *block) {
    static char none;
    struct rattle_tried result = {block != NULL, block != NULL ? block : &none};
    walk();
    return result;
}

struct rattle_tried rattle_alloc(size_t size, size_t align) {
    return tried(malloc(size != 0 ? size : align));
}

struct rattle_tried rattle_realloc(void *block, size_t kept, size_t size, size_t align) {
    (void)kept;
    return tried(realloc(block, size != 0 ? size : align));
}

void rattle_dealloc(void *block) {
    free(block);
    walk();
}

__attribute__((noinline)) static void call(const uint8_t *section, size_t len) {
    struct dwarf_measure measure;
    struct dwarf_fault fault;
    unsigned before = walks;
    uint32_t status = dwarf_table_measure(section, len, 0, &measure, &fault);
    printf("status %u, %zu abbreviations, %u walks\n", (unsigned)status, measure.abbreviations, walks - before);
}

int main(void) {
    /* Tables of abbreviations whose codes rise and fall, with ten attributes each, and one that ends in an error. */
    static uint8_t section[100 * 25 + 1];
    for (unsigned falls = 0; falls < 2; falls++) {
        uint8_t *at = section;
        for (unsigned code = 1; code <= 100; code++, at += 25) {
            at[0] = (uint8_t)(falls ? 101 - code : code);
            at[1] = 0x11;
            for (unsigned i = 0; i < 10; i++) {
                at[3 + 2 * i] = 0x03;
                at[4 + 2 * i] = 0x08;
            }
        }
        call(section, sizeof section);
        call(section, sizeof section / 2);
    }
    printf("%u of %u walks are lost\n", lost, walks);
    return walks < 50 || lost != 0;
}
