/*
 * The proved functions of dwarf_read.h, for the system that is compiled for. Compile this file with your program:
 *
 *     cc -O2 -I include program.c include/dwarf_read_heap.c include/dwarf_read.S
 *
 * C names its symbols differently on Apple's systems, and Windows has another form of files. FreeBSD takes the files of
 * Linux.
 */
#if defined __x86_64__ && defined __LP64__ && (defined __linux__ || defined __FreeBSD__)
#include "../rust/proved/x86_64.s"
/* GNU_PROPERTY_X86_FEATURE_1_AND: IBT and SHSTK. */
#define PROPERTY 0xc0000002, 4, 3, 0
#elif defined __AARCH64EL__ && defined __LP64__ && (defined __linux__ || defined __FreeBSD__)
#include "../rust/proved/aarch64.s"
/* GNU_PROPERTY_AARCH64_FEATURE_1_AND: BTI. */
#define PROPERTY 0xc0000000, 4, 1, 0
#elif defined __riscv_float_abi_double && __riscv_xlen == 64 && (defined __linux__ || defined __FreeBSD__)
#include "../rust/proved/riscv64.s"
#elif defined __x86_64__ && defined _WIN64
#include "../rust/proved/x86_64_windows.s"
#elif defined __aarch64__ && defined _WIN64
#include "../rust/proved/aarch64_windows.s"
#elif defined __x86_64__ && defined __APPLE__
#include "../rust/proved/x86_64_apple.s"
#elif defined __aarch64__ && defined __LP64__ && defined __APPLE__
#include "../rust/proved/aarch64_apple.s"
#else
#error "dwarf_read has code for Linux and FreeBSD on x86-64, AArch64 and RISC-V (64 bits), Windows and Apple's on the first two"
#endif

/* With -DDWARF_READ_HIDDEN, a shared library that contains this file doesn't export the calls. */
#if defined DWARF_READ_HIDDEN && defined __ELF__
	.hidden dwarf_address, dwarf_address_set_0_3, dwarf_constant_name_0_4, dwarf_fault_text, dwarf_form_size
	.hidden dwarf_read_version, dwarf_sleb128, dwarf_sleb128_write, dwarf_str_offset, dwarf_str_offset_set_0_3
	.hidden dwarf_string, dwarf_table_measure_0_3, dwarf_table_read_0_3, dwarf_uleb128, dwarf_uleb128_write
	.hidden dwarf_unit_header
#endif

#ifdef PROPERTY
/* The note NT_GNU_PROPERTY_TYPE_0, without which a linker takes these properties from the whole program. */
	.section .note.gnu.property, "a", %note
	.p2align 3
	.long 4, 16, 5
	.asciz "GNU"
	.long PROPERTY
#endif
