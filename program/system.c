/*
 * The functions that the program dwarf_list calls, apart from those of the C library and of dwarf_read_heap.h. They are
 * tested, not proved: their contracts are taken as the kit's crate `os` has them.
 */
#include <errno.h>
#include <string.h>
#include <sys/types.h>

static size_t count;
static char **words;

/* The proved `main`, under the name that dwarf_list.S gives it. */
int dwarf_list_main(void);

/* Keeps the command line. A constructor could do this with glibc, but musl passes no arguments to one. */
int main(int argc, char **argv) {
    count = (size_t)argc;
    words = argv;
    return dwarf_list_main();
}

/* Copies a word of the command line, without a zero byte; the program's name is number 0. Returns the word's length, -1
   if there is no such word, or -2 if it has more than `size` bytes: then the first `size` are copied. */
ssize_t rattle_arg(size_t number, char *bytes, size_t size) {
    if (number >= count) {
        return -1;
    }
    size_t length = strlen(words[number]);
    memcpy(bytes, words[number], length < size ? length : size);
    return length <= size ? (ssize_t)length : -2;
}

int rattle_errno(void) {
    return errno;
}

void rattle_set_errno(int number) {
    errno = number;
}
