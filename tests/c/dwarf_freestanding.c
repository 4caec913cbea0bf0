/*
 * A program without a C library: it defines all functions that the library calls, and nothing else is linked. The
 * status is 0 if a table is read, its tag is named, and an error has its text.
 *
 * For GCC and Clang on Linux. The program compiles as C alone.
 */
#include "dwarf_constants.h"
#include "dwarf_read.h"
#include "dwarf_read_heap.h"

/* The empty instruction keeps a compiler from making a loop a call of the same function. */
#define EACH_BYTE __asm__ volatile("" : : : "memory")

void *memcpy(void *to, const void *from, size_t len);
void *memmove(void *to, const void *from, size_t len);
void *memset(void *to, int byte, size_t len);

void *memcpy(void *to, const void *from, size_t len) {
    for (size_t i = 0; i < len; i++) {
        EACH_BYTE;
        ((uint8_t *)to)[i] = ((const uint8_t *)from)[i];
    }
    return to;
}

void *memmove(void *to, const void *from, size_t len) {
    if ((uintptr_t)to - (uintptr_t)from >= len) {
        return memcpy(to, from, len);
    }
    for (size_t i = len; i > 0; i--) {
        EACH_BYTE;
        ((uint8_t *)to)[i - 1] = ((const uint8_t *)from)[i - 1];
    }
    return to;
}

void *memset(void *to, int byte, size_t len) {
    for (size_t i = 0; i < len; i++) {
        EACH_BYTE;
        ((uint8_t *)to)[i] = (uint8_t)byte;
    }
    return to;
}

/* The functions that the library allocates memory with. Blocks are consecutive parts of one array, and none is
   used again. */
static _Alignas(16) uint8_t memory[1 << 16];
static size_t used;

struct rattle_tried rattle_alloc(size_t size, size_t align) {
    size_t begin = (used + align - 1) / align * align;
    if (size > sizeof memory - begin) {
        struct rattle_tried none = {false, memory};
        return none;
    }
    struct rattle_tried found = {true, memory + begin};
    used = begin + size;
    return found;
}

struct rattle_tried rattle_realloc(void *block, size_t kept, size_t size, size_t align) {
    struct rattle_tried found = rattle_alloc(size, align);
    if (found.is_block) {
        memcpy(found.block, block, kept < size ? kept : size);
    }
    return found;
}

void rattle_dealloc(void *block) {
    (void)block;
}

static bool is_name(struct dwarf_name name, const char *wanted) {
    size_t i = 0;
    while (i < name.len && name.text[i] == wanted[i]) {
        i++;
    }
    return i == name.len && wanted[i] == 0;
}

static bool is_text(const char *text, const char *wanted) {
    size_t i = 0;
    while (text != NULL && text[i] == wanted[i] && wanted[i] != 0) {
        i++;
    }
    return text != NULL && text[i] == wanted[i];
}

static bool is_well(void) {
    static const uint8_t section[] = {2, 0x2e, 0, 3, 0x21, 0x56, 0, 0, 1, 0x11, 1, 3, 8, 0, 0, 0};
    struct dwarf_abbreviation rows[2];
    struct dwarf_attribute_spec attributes[2];
    struct dwarf_table table = {rows, attributes, {0, 0, 0, 0}};
    struct dwarf_fault fault = {0, 0};
    char text[DWARF_TEXT_ROOM];
    if (dwarf_table_read(section, sizeof section, 0, rows, 2, attributes, 2, &table.measure, &fault) != DWARF_OK) {
        return false;
    }
    const struct dwarf_abbreviation *unit = dwarf_table_find(&table, 1);
    bool is_read = unit != NULL && unit->tag == DW_TAG_compile_unit && attributes[1].implicit_const == -42;
    if (!is_read || !is_name(dwarf_tag_name(unit->tag), "DW_TAG_compile_unit")) {
        return false;
    }
    return dwarf_table_read(section, 2, 0, rows, 2, attributes, 2, &table.measure, &fault) == DWARF_UNEXPECTED_EOF &&
           is_text(dwarf_fault_string(&fault, text, sizeof text), "unexpected end of input");
}

#ifdef __x86_64__
__attribute__((noreturn, force_align_arg_pointer)) void _start(void);
#else
__attribute__((noreturn)) void _start(void);
#endif

void _start(void) {
    int status = is_well() ? 0 : 1;
    for (;;) {
        /* The system call that ends the program. */
#ifdef __x86_64__
        __asm__ volatile("syscall" : : "a"(60), "D"(status) : "rcx", "r11", "memory");
#elif defined __riscv
        register long number __asm__("a7") = 93;
        register long first __asm__("a0") = status;
        __asm__ volatile("ecall" : : "r"(number), "r"(first) : "memory");
#else
        register long number __asm__("x8") = 93;
        register long first __asm__("x0") = status;
        __asm__ volatile("svc 0" : : "r"(number), "r"(first) : "memory");
#endif
    }
}
