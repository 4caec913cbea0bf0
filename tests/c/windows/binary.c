/*
 * Lets the examples and tests read and write bytes as they are: Windows would change the ends of lines.
 */
#include <fcntl.h>
#include <io.h>

__attribute__((constructor)) static void read_bytes(void) {
    for (int file = 0; file < 3; file++) {
        _setmode(file, _O_BINARY);
    }
}
