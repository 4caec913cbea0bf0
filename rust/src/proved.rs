//! The code of the calls, which `tools/assembler` of the repository makes of what is proved. It needs
//! the three functions of `heap`, and `memcpy`, `memmove` and `memset`.

/// Takes a file, on targets of 64 bits for which these conditions hold.
macro_rules! code {
    ($file:literal, $($option:ident),+; $($condition:tt)+) => {
        #[cfg(all(target_pointer_width = "64", target_endian = "little", $($condition)+))]
        core::arch::global_asm!(include_str!(concat!("../proved/", $file)), options($($option),+));
    };
}

// FreeBSD takes the files of Linux.
code!("x86_64.s", att_syntax, raw; target_arch = "x86_64", any(target_os = "linux", target_os = "freebsd"));
code!("aarch64.s", raw; target_arch = "aarch64", any(target_os = "linux", target_os = "freebsd"));
code!("riscv64.s", raw; target_arch = "riscv64", any(target_os = "linux", target_os = "freebsd"));
code!("x86_64_windows.s", att_syntax, raw; target_arch = "x86_64", target_os = "windows");
code!("aarch64_windows.s", raw; target_arch = "aarch64", target_os = "windows");
code!("x86_64_apple.s", att_syntax, raw; target_arch = "x86_64", target_vendor = "apple");
code!("aarch64_apple.s", raw; target_arch = "aarch64", target_vendor = "apple");

#[cfg(not(all(
    target_pointer_width = "64",
    target_endian = "little",
    any(
        all(
            any(target_os = "linux", target_os = "freebsd"),
            any(target_arch = "x86_64", target_arch = "aarch64", target_arch = "riscv64"),
        ),
        all(
            any(target_os = "windows", target_vendor = "apple"),
            any(target_arch = "x86_64", target_arch = "aarch64"),
        ),
    ),
)))]
compile_error!(
    "dwarf-read has code for Linux and FreeBSD on x86-64, little-endian AArch64 and RISC-V (64 bits), \
     and for Windows and Apple's systems on the first two"
);

// A `cdylib` would export these three otherwise, since they are `no_mangle`.
#[cfg(any(target_os = "linux", target_os = "freebsd"))]
core::arch::global_asm!(".hidden rattle_alloc", ".hidden rattle_realloc", ".hidden rattle_dealloc");
#[cfg(target_vendor = "apple")]
core::arch::global_asm!(
    ".private_extern _rattle_alloc",
    ".private_extern _rattle_realloc",
    ".private_extern _rattle_dealloc"
);
