/*
 * The proved program dwarf_list, for the processor that is compiled for. `./dwarf_list` compiles it at its first call:
 *
 *     cc -O2 -I include program/dwarf_list.S program/system.c include/dwarf_read_heap.c -o dwarf_list
 *
 * The `main` of program/system.c calls the one here, which gets another name for that.
 */
#define main dwarf_list_main
#if defined __linux__ && defined __x86_64__ && defined __LP64__
#include "proved/x86_64.s"
#elif defined __linux__ && defined __AARCH64EL__ && defined __LP64__
#include "proved/aarch64.s"
#elif defined __linux__ && defined __riscv_float_abi_double && __riscv_xlen == 64
#include "proved/riscv64.s"
#else
#error "dwarf_list has code for 64-bit Linux on x86-64, little-endian AArch64 and RISC-V only"
#endif
