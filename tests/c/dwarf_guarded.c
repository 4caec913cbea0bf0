/*
 * Calls the library on every cut of the files that are named, with a page without access next to each buffer
 * that is passed, to each output, and to each block that the library allocates.
 *
 *     dwarf_guarded FILE..
 *     dwarf_guarded --before | --after    touches the byte before an output, or after it, and so has to fail
 *
 * All of this is done twice: with that page right before the first byte, and right after the last one. The
 * section itself may only be read. So a call that touches a byte outside ends with a signal, and the program
 * names the call. On the other side of an output the bytes are compared with what they were. The status is 0
 * if no byte outside was touched. The last line has the numbers of calls of both times, which are equal.
 *
 * The program defines the three functions that the library allocates memory with, so it is an example of that,
 * too. Each allocation of the calls that make some fails once, and then the call has to say so. The program
 * compiles as C and as C++.
 */
#define _DEFAULT_SOURCE
#include "dwarf_read.h"
#include "dwarf_read_heap.h"

#include <signal.h>
#include <stdio.h>
#include <stdlib.h>
#include <string.h>
#include <sys/mman.h>
#include <unistd.h>

enum { PAGE = 4096, PAGES = 16, OUTPUTS = 5, SLACK = 64, BLOCKS = 64, FILLING = 0xa5 };

/* Pages between two that have no access, and those of their bytes that are passed to a call. */
struct guarded {
    uint8_t *pages;
    size_t size;
    uint8_t *given;
    size_t len;
};

static struct guarded section, outputs[OUTPUTS], blocks[BLOCKS];
static bool is_at_end;
static const char *call = "no call";
static unsigned long calls;
static size_t used;
/* Which of the next allocations fails, or 0 if none does. */
static size_t failing;

static void die(const char *what) {
    printf("failed: %s: %s\n", call, what);
    exit(1);
}

static void on_signal(int number) {
    (void)number;
    (void)!write(1, "failed: a byte outside was touched by ", 38);
    (void)!write(1, call, (unsigned)strlen(call));
    (void)!write(1, "\n", 1);
    _exit(1);
}

/* Makes pages for this many bytes. Returns false if that fails. */
static bool make(struct guarded *it, size_t len) {
    size_t size = len == 0 ? (size_t)PAGE : (len + PAGE - 1) / PAGE * PAGE;
    uint8_t *all = (uint8_t *)mmap(NULL, size + 2 * PAGE, PROT_NONE, MAP_PRIVATE | MAP_ANONYMOUS, -1, 0);
    if (all == (uint8_t *)MAP_FAILED || mprotect(all + PAGE, size, PROT_READ | PROT_WRITE) != 0) {
        return false;
    }
    it->pages = all + PAGE;
    it->size = size;
    return true;
}

/* Returns the last bytes of the pages, or the first ones. For no bytes, it returns the end of the pages. */
static void *give(struct guarded *it, size_t len) {
    it->given = it->pages + (is_at_end || len == 0 ? it->size - len : 0);
    it->len = len;
    return it->given;
}

/*
 * The functions that the library allocates memory with.
 */

struct rattle_tried rattle_alloc(size_t size, size_t align) {
    static char nothing; /* dwarf_read_heap.h says why no pointer may be null. */
    size_t at = 0;
    if (failing != 0 && --failing == 0) {
        struct rattle_tried none = {false, &nothing};
        return none;
    }
    while (at < BLOCKS && blocks[at].pages != NULL) {
        at++;
    }
    if (at == BLOCKS || !make(&blocks[at], size)) {
        die("no memory for a block");
    }
    /* A block at the end is aligned, so up to `align - 1` bytes may be after it. */
    struct rattle_tried found = {true, give(&blocks[at], (size + align - 1) / align * align)};
    memset(found.block, FILLING, size);
    return found;
}

void rattle_dealloc(void *block) {
    for (size_t at = 0; at < BLOCKS; at++) {
        if (blocks[at].pages != NULL && blocks[at].given == block) {
            munmap(blocks[at].pages - PAGE, blocks[at].size + 2 * PAGE);
            blocks[at].pages = NULL;
            return;
        }
    }
    die("a block was freed that isn't one");
}

struct rattle_tried rattle_realloc(void *block, size_t kept, size_t size, size_t align) {
    struct rattle_tried found = rattle_alloc(size, align);
    if (found.is_block) {
        memcpy(found.block, block, kept < size ? kept : size);
        rattle_dealloc(block);
    }
    return found;
}

/*
 * Before and after a call.
 */

/* Begins a call. */
static void begin(const char *name) {
    call = name;
    used = 0;
    calls++;
}

/* Returns the next output of the call, of this many bytes. */
static void *output(size_t len) {
    struct guarded *it = &outputs[used++];
    uint8_t *given = (uint8_t *)give(it, len);
    memset(given, FILLING, len);
    memset(given == it->pages ? given + len : given - SLACK, FILLING, SLACK);
    return given;
}

/* Ends a call: the bytes around its outputs have to be unchanged, and all blocks have to be freed. */
static void end(void) {
    for (size_t at = 0; at < used; at++) {
        const struct guarded *it = &outputs[at];
        const uint8_t *beside = it->given == it->pages ? it->given + it->len : it->given - SLACK;
        for (size_t i = 0; i < SLACK; i++) {
            if (beside[i] != FILLING) {
                die("a byte next to an output was changed");
            }
        }
    }
    for (size_t at = 0; at < BLOCKS; at++) {
        if (blocks[at].pages != NULL) {
            die("a block wasn't freed");
        }
    }
}

static struct dwarf_fault *fault(void) {
    return (struct dwarf_fault *)output(sizeof(struct dwarf_fault));
}

/*
 * The calls.
 */

static void call_numbers(const uint8_t *bytes, size_t len) {
    begin("dwarf_uleb128");
    uint64_t *value = (uint64_t *)output(sizeof *value);
    dwarf_uleb128(bytes, len, value, (size_t *)output(sizeof(size_t)), fault());
    end();
    begin("dwarf_sleb128");
    int64_t *number = (int64_t *)output(sizeof *number);
    dwarf_sleb128(bytes, len, number, (size_t *)output(sizeof(size_t)), fault());
    end();
}

static void call_lookups(const uint8_t *bytes, size_t len, size_t offset, bool is_big) {
    static const size_t indexes[] = {0, 1, 2, SIZE_MAX / 8, SIZE_MAX};
    static const uint8_t sizes[] = {0, 1, 2, 3, 4, 8};
    begin("dwarf_string");
    dwarf_string(bytes, len, offset, (size_t *)output(sizeof(size_t)), fault());
    end();
    for (size_t i = 0; i < sizeof indexes / sizeof *indexes; i++) {
        for (int is_64 = 0; is_64 < 2; is_64++) {
            begin("dwarf_str_offset");
            size_t *found = (size_t *)output(sizeof *found);
            dwarf_str_offset(bytes, len, is_big, is_64 == 1, offset, indexes[i], found, fault());
            end();
        }
        for (size_t k = 0; k < sizeof sizes; k++) {
            begin("dwarf_address");
            uint64_t *found = (uint64_t *)output(sizeof *found);
            dwarf_address(bytes, len, is_big, sizes[k], offset, indexes[i], found, fault());
            end();
        }
    }
}

/* What follows the counted entries up to the set's end has to be shorter than an entry. */
static void check_count(uint32_t status, const struct dwarf_set *set) {
    if (status != DWARF_OK) {
        return;
    }
    size_t len = set->next - set->first_entry, counted = set->entry_count * set->entry_size;
    if (counted > len || len - counted >= set->entry_size) {
        die("it didn't count the whole entries");
    }
}

static void call_sets(const uint8_t *bytes, size_t len, size_t offset, bool is_big) {
    begin("dwarf_address_set");
    struct dwarf_set *set = (struct dwarf_set *)output(sizeof *set);
    check_count(dwarf_address_set(bytes, len, is_big, offset, set, fault()), set);
    end();
    begin("dwarf_str_offset_set");
    set = (struct dwarf_set *)output(sizeof *set);
    check_count(dwarf_str_offset_set(bytes, len, is_big, offset, set, fault()), set);
    end();
}

/* A unit that was read ends within the section, and its entries begin within the unit. One of another version ends there,
   too. */
static void call_units(const uint8_t *bytes, size_t len, size_t offset, bool is_big) {
    for (int is_types = 0; is_types < 2; is_types++) {
        begin("dwarf_unit_header");
        struct dwarf_unit *unit = (struct dwarf_unit *)output(sizeof *unit);
        uint32_t status = dwarf_unit_header(bytes, len, is_big, is_types == 1, offset, unit, fault());
        if (status == DWARF_OK && (unit->next > len || unit->first_entry > unit->next || unit->first_entry <= offset)) {
            die("its entries aren't in the section");
        }
        if (status == DWARF_UNKNOWN_VERSION && (unit->next > len || unit->next <= offset)) {
            die("its end isn't in the section");
        }
        end();
    }
}

/* Reads a table into arrays of this room, and searches it for each code that it may have. Returns the status. */
static uint32_t call_table_read(const uint8_t *bytes, size_t len, size_t offset, size_t room, size_t attribute_room) {
    begin("dwarf_table_read");
    struct dwarf_measure *measure = (struct dwarf_measure *)output(sizeof *measure);
    struct dwarf_abbreviation *abbreviations = (struct dwarf_abbreviation *)output(room * sizeof *abbreviations);
    struct dwarf_attribute_spec *attributes =
        (struct dwarf_attribute_spec *)output(attribute_room * sizeof *attributes);
    uint32_t status = dwarf_table_read(bytes, len, offset, abbreviations, room, attributes, attribute_room, measure,
                                       fault());
    end();
    if (status != DWARF_OK) {
        return status;
    }
    call = "dwarf_table_find";
    const struct dwarf_table table = {abbreviations, attributes, *measure};
    size_t count = measure->abbreviations, found = 0;
    for (uint64_t code = 0; code < 300; code++) {
        const struct dwarf_abbreviation *it = dwarf_table_find(&table, code);
        if (it != NULL && it->code != code) {
            die("it found another code");
        }
        found += it != NULL;
    }
    if (found != count || dwarf_table_find(&table, UINT64_MAX) != NULL) {
        die("it didn't find a code that is there");
    }
    return status;
}

/* Reads what stands before an error of a table: the section that is cut there has as many abbreviations, and no error. */
static void call_before(const uint8_t *bytes, size_t offset, struct dwarf_measure before, size_t loading_end) {
    struct dwarf_table loaded;
    if (loading_end != before.end || before.closed_by_null != 0) {
        die("the place of an error isn't that of dwarf_table_measure");
    }
    begin("dwarf_table_load of what stands before an error");
    uint32_t status = dwarf_table_load(bytes, before.end, offset, &loaded, fault());
    end();
    struct dwarf_measure it = loaded.measure;
    bool is_same = it.abbreviations == before.abbreviations && it.attributes == before.attributes &&
                   it.end == before.end && it.closed_by_null == 0;
    if (status != DWARF_OK || !is_same) {
        die("another table stands before an error");
    }
    dwarf_table_free(&loaded);
}

static void call_tables(const uint8_t *bytes, size_t len, size_t offset) {
    begin("dwarf_table_measure");
    struct dwarf_measure *measure = (struct dwarf_measure *)output(sizeof *measure);
    uint32_t status = dwarf_table_measure(bytes, len, offset, measure, fault());
    struct dwarf_measure measured = *measure;
    end();
    size_t count = status == DWARF_OK ? measured.abbreviations : 1;
    size_t attributes = status == DWARF_OK ? measured.attributes : 1;
    call_table_read(bytes, len, offset, count, attributes);
    call_table_read(bytes, len, offset, count + 1, attributes + 1);
    call_table_read(bytes, len, offset, count - (count != 0), attributes);
    call_table_read(bytes, len, offset, count, attributes - (attributes != 0));
    /* An abbreviation has at least five bytes, and an attribute two. */
    size_t left = offset < len ? len - offset : 0;
    if (call_table_read(bytes, len, offset, left / 5, left / 2) != status) {
        die("its status isn't that of the measure, though there is room for every table");
    }
    struct dwarf_table loaded;
    begin("dwarf_table_load");
    uint32_t loading = dwarf_table_load(bytes, len, offset, &loaded, fault());
    size_t loading_end = loaded.measure.end;
    end();
    if (loading != status || loaded.measure.abbreviations != (status == DWARF_OK ? count : 0)) {
        die("its status or its measure isn't that of dwarf_table_measure");
    }
    dwarf_table_free(&loaded);
    if (status != DWARF_OK && offset <= len) {
        call_before(bytes, offset, measured, loading_end);
    }
}

/*
 * The calls that allocate memory.
 */

typedef uint32_t allocating_call(const uint8_t *bytes, size_t len);

static uint32_t measure_table(const uint8_t *bytes, size_t len) {
    struct dwarf_measure *measure = (struct dwarf_measure *)output(sizeof *measure);
    return dwarf_table_measure(bytes, len, 0, measure, fault());
}

static uint32_t read_table(const uint8_t *bytes, size_t len) {
    struct dwarf_measure *measure = (struct dwarf_measure *)output(sizeof *measure);
    size_t room = len / 5, more = len / 2;
    struct dwarf_abbreviation *abbreviations = (struct dwarf_abbreviation *)output(room * sizeof *abbreviations);
    struct dwarf_attribute_spec *attributes = (struct dwarf_attribute_spec *)output(more * sizeof *attributes);
    return dwarf_table_read(bytes, len, 0, abbreviations, room, attributes, more, measure, fault());
}

static uint32_t load_table(const uint8_t *bytes, size_t len) {
    struct dwarf_table loaded;
    uint32_t status = dwarf_table_load(bytes, len, 0, &loaded, fault());
    dwarf_table_free(&loaded);
    return status;
}

static uint32_t write_text(const uint8_t *bytes, size_t len) {
    struct dwarf_fault *it = fault();
    it->kind = DWARF_UNKNOWN_VERSION;
    it->value = len == 0 ? 0 : bytes[0];
    return dwarf_fault_text(it, (char *)output(DWARF_TEXT_ROOM), DWARF_TEXT_ROOM, (size_t *)output(sizeof(size_t)));
}

/* Makes a call, and makes it again with its first allocation failing, then its second, and so on. */
static void call_failing(allocating_call *allocating, const char *name, const uint8_t *bytes, size_t len) {
    begin(name);
    uint32_t whole = allocating(bytes, len), status;
    end();
    size_t number = 0;
    do {
        failing = ++number;
        begin(name);
        status = allocating(bytes, len);
        end();
        if (status != whole && (failing != 0 || status != DWARF_OUT_OF_MEMORY)) {
            die("it has another status if an allocation fails");
        }
    } while (failing == 0);
    failing = 0;
}

/* Makes all calls on a section, and on each beginning of it. */
static void call_on_cuts(const uint8_t *bytes, size_t len) {
    for (size_t cut = 0; cut <= len; cut++) {
        mprotect(section.pages, section.size, PROT_READ | PROT_WRITE);
        memset(section.pages, FILLING, section.size);
        const uint8_t *given = (const uint8_t *)memcpy(give(&section, cut), bytes, cut);
        mprotect(section.pages, section.size, PROT_READ);
        for (size_t at = 0; at <= cut + 2; at++) {
            size_t offset = at <= cut + 1 ? at : SIZE_MAX;
            if (offset <= cut) {
                call_numbers(given + offset, cut - offset);
            }
            for (int is_big = 0; is_big < 2; is_big++) {
                call_lookups(given, cut, offset, is_big == 1);
                call_sets(given, cut, offset, is_big == 1);
                call_units(given, cut, offset, is_big == 1);
            }
            call_tables(given, cut, offset);
        }
    }
    call_failing(measure_table, "dwarf_table_measure without memory", section.given, len);
    call_failing(read_table, "dwarf_table_read without memory", section.given, len);
    call_failing(load_table, "dwarf_table_load without memory", section.given, len);
    call_failing(write_text, "dwarf_fault_text without memory", section.given, len);
}

/*
 * The calls that write bytes, at every length of their room.
 */

/* A string has to be the text with a zero byte after it, or null if there is no room for that byte. */
static void check_string(const char *string, const char *text, size_t room, size_t len) {
    if ((string != NULL) != (len < room) || (string != NULL && (string != text || strlen(string) != len))) {
        die("it isn't the text");
    }
}

/* The name of each value of a family: it is written if there is one, and has no zero byte. */
static void call_names(uint32_t family) {
    for (uint32_t value = 0; value <= UINT16_MAX; value++) {
        static const struct dwarf_name none = {"", 0};
        begin("dwarf_constant_name");
        struct dwarf_name *name = (struct dwarf_name *)output(sizeof *name);
        *name = none;
        uint32_t status = dwarf_constant_name(family, value, name);
        struct dwarf_name found = *name;
        end();
        if (status != (found.len == 0 ? DWARF_NO_NAME : DWARF_OK) || memchr(found.text, 0, found.len) != NULL) {
            die("its status isn't that of a name");
        }
        struct dwarf_name same = dwarf_name_of(family, value);
        if (same.len != found.len || memcmp(same.text, found.text, same.len) != 0) {
            die("another name is returned");
        }
    }
}

static void call_sizes(void) {
    static const uint16_t versions[] = {0, 2, 5};
    for (uint32_t form = 0; form <= UINT16_MAX; form++) {
        for (size_t i = 0; i < 2 * sizeof versions / sizeof *versions; i++) {
            begin("dwarf_form_size");
            size_t *size = (size_t *)output(sizeof *size);
            uint32_t status = dwarf_form_size((uint16_t)form, versions[i / 2], UINT8_MAX, i % 2 == 1, size);
            end();
            if (status != DWARF_NO_SIZE && (status != DWARF_OK || *size > UINT8_MAX)) {
                die("it has no size of a form");
            }
        }
    }
}

static void call_texts(void) {
    static const uint64_t values[] = {0, 1, UINT32_MAX, UINT64_MAX};
    for (size_t i = 0; i < sizeof values / sizeof *values; i++) {
        for (uint32_t kind = 0; kind <= DWARF_NO_ROOM; kind++) {
            for (size_t room = 0; room <= DWARF_TEXT_ROOM; room++) {
                struct dwarf_fault it = {kind, values[i]};
                begin("dwarf_fault_text");
                const struct dwarf_fault *given = (struct dwarf_fault *)memcpy(output(sizeof it), &it, sizeof it);
                size_t *len = (size_t *)output(sizeof *len);
                uint32_t status = dwarf_fault_text(given, (char *)output(room), room, len);
                size_t all = status == DWARF_NO_NAME ? SIZE_MAX : *len;
                end();
                begin("dwarf_fault_string");
                given = (struct dwarf_fault *)memcpy(output(sizeof it), &it, sizeof it);
                char *text = (char *)output(room);
                check_string(dwarf_fault_string(given, text, room), text, room, all);
                end();
            }
        }
    }
}

static void call_version(void) {
    for (size_t room = 0; room <= DWARF_TEXT_ROOM; room++) {
        begin("dwarf_read_version");
        size_t *len = (size_t *)output(sizeof *len);
        uint32_t status = dwarf_read_version((char *)output(room), room, len);
        size_t all = *len;
        end();
        if (status != (room < all ? DWARF_NO_ROOM : DWARF_OK)) {
            die("its status isn't that of its room");
        }
        begin("dwarf_read_version_string");
        char *text = (char *)output(room);
        check_string(dwarf_read_version_string(text, room), text, room, all);
        end();
    }
}

static void call_writers(void) {
    for (unsigned shift = 0; shift < 64; shift++) {
        for (size_t room = 0; room <= 10; room++) {
            begin("dwarf_uleb128_write");
            size_t *len = (size_t *)output(sizeof *len);
            dwarf_uleb128_write(UINT64_MAX >> shift, (uint8_t *)output(room), room, len);
            end();
            begin("dwarf_sleb128_write");
            len = (size_t *)output(sizeof *len);
            dwarf_sleb128_write(INT64_MIN / ((int64_t)1 << (shift % 63)), (uint8_t *)output(room), room, len);
            end();
        }
    }
}

static size_t read_file(const char *path, uint8_t *bytes, size_t room) {
    FILE *file = fopen(path, "rb");
    size_t len = file != NULL ? fread(bytes, 1, room, file) : 0;
    bool is_read = file != NULL && ferror(file) == 0 && fgetc(file) == EOF;
    if (file != NULL) {
        fclose(file);
    }
    if (!is_read) {
        fprintf(stderr, "%s can't be read, or has more than %zu bytes\n", path, room);
        exit(2);
    }
    return len;
}

/* Touches a byte outside of an output, as no call may. */
static int touch_outside(bool is_after) {
    is_at_end = is_after;
    call = "this program";
    volatile uint8_t *given = (volatile uint8_t *)give(&outputs[0], 16);
    given[is_after ? 16 : -1] = 0;
    return 0;
}

int main(int argc, char **argv) {
    static uint8_t bytes[2048];
    unsigned long first_calls = 0;
    bool is_made = make(&section, sizeof bytes);
    for (size_t at = 0; at < OUTPUTS; at++) {
        is_made = is_made && make(&outputs[at], (size_t)PAGES * PAGE);
    }
    if (argc < 2 || !is_made) {
        fputs(is_made ? "usage: dwarf_guarded FILE..\n" : "error: out of memory\n", stderr);
        return 2;
    }
    signal(SIGSEGV, on_signal);
    signal(SIGBUS, on_signal);
    if (strcmp(argv[1], "--before") == 0 || strcmp(argv[1], "--after") == 0) {
        return touch_outside(argv[1][2] == 'a');
    }
    for (int round = 0; round < 2; round++) {
        is_at_end = round == 1;
        first_calls = calls;
        for (int at = 1; at < argc; at++) {
            call_on_cuts(bytes, read_file(argv[at], bytes, sizeof bytes));
        }
        for (uint32_t family = 0; family <= DWARF_FAMILY_GDB_INDEX_SYMBOL_KIND + 1; family++) {
            call_names(family);
        }
        call_sizes();
        call_texts();
        call_version();
        call_writers();
    }
    printf("%lu and %lu calls, and no byte outside was touched\n", first_calls, calls - first_calls);
    return 0;
}
