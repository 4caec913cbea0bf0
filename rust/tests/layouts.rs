//! Compares the structs of `src/sys.rs` with those of the library's header, by the C compiler: a
//! call with a shorter struct would write past its end.

use std::env;
use std::fs;
use std::mem::{size_of, size_of_val};
use std::path::Path;
use std::process::Command;

#[allow(dead_code)] // Nothing is called here.
#[path = "../src/sys.rs"]
mod sys;

/// Assertions in C that a struct has the size of the one here, and each field its place and its
/// size.
macro_rules! layout {
    ($here:ident, $there:literal, $($field:ident),*) => {{
        let (it, name) = (sys::$here::default(), concat!("struct ", $there));
        let start = &it as *const _ as usize;
        let mut text = holds(format!("sizeof({})", name), size_of::<sys::$here>());
        $(
            let (place, size) = (&it.$field as *const _ as usize - start, size_of_val(&it.$field));
            let field = stringify!($field);
            text += &holds(format!("offsetof({}, {})", name, field), place);
            text += &holds(format!("sizeof((({} *)0)->{})", name, field), size);
        )*
        text
    }};
}

fn holds(what: String, number: usize) -> String {
    format!("_Static_assert({} == {}, \"src/sys.rs has {}\");\n", what, number, number)
}

#[test]
fn structs_are_those_of_the_header() {
    let text = [
        "#include <dwarf_read.h>\n".into(),
        layout!(Fault, "dwarf_fault", kind, value),
        layout!(Measure, "dwarf_measure", abbreviations, attributes, end, closed_by_null),
        layout!(
            Abbreviation,
            "dwarf_abbreviation",
            code,
            tag,
            has_children,
            first_attribute,
            attribute_count
        ),
        layout!(Attribute, "dwarf_attribute_spec", name, form, implicit_const),
        layout!(
            Set,
            "dwarf_set",
            next,
            unit_length,
            first_entry,
            entry_count,
            word_size,
            entry_size
        ),
        layout!(
            Unit,
            "dwarf_unit",
            next,
            unit_length,
            first_entry,
            abbrev_offset,
            identifier,
            type_offset,
            version,
            unit_type,
            address_size,
            word_size
        ),
    ]
    .concat();
    let include = Path::new(env!("CARGO_MANIFEST_DIR")).join("../include");
    let source = Path::new(env!("CARGO_TARGET_TMPDIR")).join("layouts.c");
    fs::write(&source, text).unwrap();
    let compiler = env::var("CC").unwrap_or_else(|_| "cc".into());
    let words = ["-std=c11", "-fsyntax-only", "-I"];
    let ran = Command::new(compiler).args(words).args([&include, &source]).output().unwrap();
    assert!(ran.status.success(), "{}", String::from_utf8_lossy(&ran.stderr));
}
