/*
 * A test of the arenas: tables of many shapes are loaded in one of DWARF_ARENA_SIZE, a smaller one is either enough or
 * DWARF_OUT_OF_MEMORY, no byte outside of it changes, and a signal handler loads tables while a call is made. The status
 * is 0 if all of this holds.
 */
#define _XOPEN_SOURCE 700
#include "dwarf_read_arena.h"

#include <pthread.h>
#include <signal.h>
#include <stdio.h>
#include <stdlib.h>
#include <sys/time.h>

#define GUARD 64
#define CODES 1000

static unsigned failed, checked;

static void check(bool well, const char *what, size_t number) {
    checked += 1;
    if (!well) {
        failed += 1;
        printf("%s: %zu\n", what, number);
    }
}

/* Writes a number as LEB128, and returns where it ends. */
static uint8_t *put(uint8_t *at, uint64_t number) {
    for (; number >= 128; number >>= 7) {
        *at++ = (uint8_t)(number | 128);
    }
    *at++ = (uint8_t)number;
    return at;
}

/* The code of an abbreviation of a shape: codes rise, fall, jump, or are large. Each shape has every code once. */
static uint64_t code_of(unsigned shape, unsigned number, unsigned count) {
    switch (shape % 4) {
    case 0: return number + 1;
    case 1: return count - number;
    case 2: return (uint64_t)number * 617 % 1009 + 1;
    default: return (uint64_t)1 << 40 | (number ^ 1);
    }
}

/* Writes a table of a shape, and returns its length. */
static size_t make(uint8_t *section, unsigned shape, unsigned count) {
    static const unsigned attribute_counts[] = {0, 1, 7, 40};
    uint8_t *at = section;
    for (unsigned number = 0; number < count; number++) {
        at = put(at, code_of(shape, number, count));
        *at++ = 0x11;
        *at++ = 0;
        for (unsigned i = 0; i < attribute_counts[shape / 4]; i++) {
            *at++ = 0x03;
            *at++ = 0x08;
        }
        *at++ = 0;
        *at++ = 0;
    }
    *at++ = 0;
    return (size_t)(at - section);
}

/* Whether the rows of a table are those of its shape. */
static bool is_whole(const struct dwarf_table *table, unsigned shape, unsigned count) {
    bool well = table->measure.abbreviations == count;
    for (size_t i = 0; well && i < count; i++) {
        const struct dwarf_abbreviation *row = &table->abbreviations[i];
        well = row->tag == 0x11 && (i == 0 || row[-1].code < row->code);
        for (size_t j = 0; j < row->attribute_count; j++) {
            well = well && table->attributes[row->first_attribute + j].form == 0x08;
        }
    }
    for (unsigned number = 0; well && number < count; number++) {
        bool is_there = false;
        for (size_t i = 0; i < count && !is_there; i++) {
            is_there = table->abbreviations[i].code == code_of(shape, number, count);
        }
        well = is_there;
    }
    return well;
}

/* Loads a table in an arena of this size. Returns whether there was room. */
static bool load_in(uint8_t *memory, size_t size, const uint8_t *section, size_t len, unsigned shape, unsigned count) {
    /* The block begins at an odd address. */
    uint8_t *block = memory + GUARD + 1;
    memset(memory, 0xa5, size + 2 * GUARD);
    struct dwarf_arena arena = dwarf_arena_of(block, size);
    struct dwarf_table table;
    struct dwarf_fault fault;
    uint32_t status = dwarf_arena_load(&arena, section, len, 0, &table, &fault);
    for (size_t i = 0; i < GUARD - 1; i++) {
        check(memory[i + 1] == 0xa5 && block[size + i] == 0xa5, "a byte outside changed", size);
    }
    if (status == DWARF_OK) {
        check(is_whole(&table, shape, count), "the table isn't whole", size);
        check((uintptr_t)table.abbreviations % 16 == 0, "the rows aren't aligned", size);
        check(arena.used <= size && arena.count == 0, "the arena isn't given back", arena.used);
    } else {
        check(status == DWARF_OUT_OF_MEMORY && fault.kind == status, "the status", status);
        check(arena.used == 0 && arena.count == 0, "an arena after an error", arena.used);
        check(table.abbreviations == NULL, "a table after an error", size);
    }
    return status == DWARF_OK;
}

/* The least size that is enough is found by halving. */
static size_t least_size(uint8_t *memory, size_t enough, const uint8_t *section, size_t len, unsigned shape,
                         unsigned count) {
    size_t low = 0, high = enough;
    check(load_in(memory, enough, section, len, shape, count), "DWARF_ARENA_SIZE isn't enough", enough);
    while (low < high) {
        size_t middle = low + (high - low) / 2;
        if (load_in(memory, middle, section, len, shape, count)) {
            high = middle;
        } else {
            low = middle + 1;
        }
    }
    return high;
}

static uint8_t section[CODES * 100], small[CODES];
static size_t small_len;
static volatile sig_atomic_t handled;

/* Loads a table in an arena of its own, while the program's thread uses another. */
static void handle(int number) {
    static uint8_t memory[DWARF_ARENA_SIZE(sizeof small)];
    struct dwarf_arena arena = dwarf_arena_of(memory, sizeof memory);
    struct dwarf_table table;
    struct dwarf_fault fault;
    (void)number;
    if (dwarf_arena_load(&arena, small, small_len, 0, &table, &fault) != DWARF_OK || !is_whole(&table, 1, 50)) {
        failed += 1;
    }
    handled += 1;
}

/* Calls that read a table are interrupted, and read it as before. */
static void interrupt(uint8_t *memory, size_t size) {
    struct sigaction action;
    struct itimerval often = {{0, 500}, {0, 500}}, never = {{0, 0}, {0, 0}};
    memset(&action, 0, sizeof action);
    action.sa_handler = handle;
    small_len = make(small, 1, 50);
    size_t len = make(section, 6, CODES);
    check(sigaction(SIGALRM, &action, NULL) == 0, "sigaction", 0);
    setitimer(ITIMER_REAL, &often, NULL);
    for (unsigned i = 0; i < 100000 && handled < 100; i++) {
        struct dwarf_arena arena = dwarf_arena_of(memory, size);
        struct dwarf_table table;
        struct dwarf_fault fault;
        check(dwarf_arena_load(&arena, section, len, 0, &table, &fault) == DWARF_OK, "an interrupted call", i);
        check(table.measure.abbreviations == CODES && table.measure.attributes == CODES, "what it reads", i);
    }
    setitimer(ITIMER_REAL, &never, NULL);
    check(handled >= 100, "how often the handler ran", (size_t)handled);
}

/* Another thread has no arena until it names one. */
static void *find_arena(void *found) {
    *(bool *)found = dwarf_arena_use(NULL) != NULL;
    return NULL;
}

static void begin_thread(uint8_t *memory) {
    struct dwarf_arena arena = dwarf_arena_of(memory, 0);
    pthread_t thread;
    bool is_found = true;
    dwarf_arena_use(&arena);
    check(pthread_create(&thread, NULL, find_arena, &is_found) == 0, "a thread", 0);
    pthread_join(thread, NULL);
    check(!is_found, "the arena of another thread", 0);
    check(dwarf_arena_use(NULL) == &arena, "the arena of a thread", 0);
}

int main(void) {
    size_t greatest = DWARF_ARENA_SIZE(sizeof section);
    uint8_t *memory = malloc(greatest + 2 * GUARD);
    static const unsigned counts[] = {0, 1, 2, 31, 127, CODES};
    struct dwarf_measure measure;
    struct dwarf_fault fault;
    if (memory == NULL) {
        return 1;
    }
    size_t most = 0;
    for (unsigned shape = 0; shape < 16; shape++) {
        for (unsigned i = 0; i < sizeof counts / sizeof *counts; i++) {
            size_t len = make(section, shape, counts[i]), enough = DWARF_ARENA_SIZE(len);
            size_t least = least_size(memory, enough, section, len, shape, counts[i]);
            most = least * 100 / enough > most ? least * 100 / enough : most;
        }
    }
    printf("at most %zu per cent of DWARF_ARENA_SIZE were needed\n", most);
    check(most <= 75, "DWARF_ARENA_SIZE is nearly too small", most);
    size_t len = make(section, 0, 2);
    check(dwarf_table_measure(section, len, 0, &measure, &fault) == DWARF_OUT_OF_MEMORY, "without an arena", 0);
    interrupt(memory, greatest);
    begin_thread(memory);
    printf("%u checks, %u failed, %d signals\n", checked, failed, (int)handled);
    free(memory);
    return failed != 0;
}
