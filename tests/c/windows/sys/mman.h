/*
 * The functions of <sys/mman.h> that dwarf_guarded.c calls, for Windows.
 */
#include <windows.h>

#define PROT_NONE 0
#define PROT_READ 1
#define PROT_WRITE 2
#define MAP_PRIVATE 0
#define MAP_ANONYMOUS 0
#define MAP_FAILED ((void *)-1)
#ifndef SIGBUS
#define SIGBUS SIGSEGV
#endif

static inline DWORD protection(int access) {
    return access == PROT_NONE ? PAGE_NOACCESS : access == PROT_READ ? PAGE_READONLY : PAGE_READWRITE;
}

static inline void *mmap(void *at, size_t size, int access, int flags, int file, long offset) {
    (void)flags, (void)file, (void)offset;
    void *pages = VirtualAlloc(at, size, MEM_RESERVE | MEM_COMMIT, protection(access));
    return pages != NULL ? pages : MAP_FAILED;
}

static inline int mprotect(void *at, size_t size, int access) {
    DWORD before;
    return VirtualProtect(at, size, protection(access), &before) ? 0 : -1;
}

static inline int munmap(void *at, size_t size) {
    (void)size;
    return VirtualFree(at, 0, MEM_RELEASE) ? 0 : -1;
}
