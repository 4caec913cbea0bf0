//! The declarations of `dwarf_read.h`, which says what each call does.
//!
//! A call is safe if what a caller promises there holds. This is so for each call of this crate: a
//! slice is valid for as many items as its length says, and a vector for as many as its capacity;
//! an output overlaps nothing, since it is borrowed mutably for the call.
//!
//! The symbol of a call whose parameters, or the fields of whose structs, have changed ends in the
//! version of that change. `tests/layouts.rs` compares them with the header.

pub const OK: u32 = 0;
pub const NO_ROOM: u32 = 100;
pub const END: u32 = 102;

/// The error of a call.
#[repr(C)]
#[derive(Debug, Default, Clone, Copy, PartialEq, Eq, Hash)]
pub struct Fault {
    pub kind: u32,
    pub value: u64,
}

/// A set of addresses or of string offsets.
#[repr(C)]
#[derive(Debug, Default, Clone, Copy, PartialEq, Eq)]
pub struct Set {
    pub next: usize,
    pub unit_length: usize,
    pub first_entry: usize,
    pub entry_count: usize,
    pub word_size: u8,
    pub entry_size: u8,
}

/// What the header of a unit says.
#[repr(C)]
#[derive(Debug, Default, Clone, Copy, PartialEq, Eq)]
pub struct Unit {
    pub next: usize,
    pub unit_length: usize,
    pub first_entry: usize,
    pub abbrev_offset: usize,
    pub identifier: u64,
    pub type_offset: usize,
    pub version: u16,
    pub unit_type: u8,
    pub address_size: u8,
    pub word_size: u8,
}

/// How large a table is, or what stands before its error.
#[repr(C)]
#[derive(Debug, Default, Clone, Copy, PartialEq, Eq)]
pub struct Measure {
    pub abbreviations: usize,
    pub attributes: usize,
    pub end: usize,
    pub closed_by_null: u8,
}

/// An abbreviation.
#[repr(C)]
#[derive(Debug, Default, Clone, Copy)]
pub struct Abbreviation {
    pub code: u64,
    pub tag: u16,
    pub has_children: u8,
    pub first_attribute: usize,
    pub attribute_count: usize,
}

/// An attribute of an abbreviation.
#[repr(C)]
#[derive(Debug, Default, Clone, Copy, PartialEq, Eq)]
pub struct Attribute {
    pub name: u16,
    pub form: u16,
    pub implicit_const: i64,
}

extern "C" {
    pub fn dwarf_uleb128(
        bytes: *const u8, len: usize, value: &mut u64, number_len: &mut usize, fault: &mut Fault,
    ) -> u32;
    pub fn dwarf_sleb128(
        bytes: *const u8, len: usize, value: &mut i64, number_len: &mut usize, fault: &mut Fault,
    ) -> u32;
    pub fn dwarf_uleb128_write(value: u64, bytes: *mut u8, room: usize, len: &mut usize) -> u32;
    pub fn dwarf_sleb128_write(value: i64, bytes: *mut u8, room: usize, len: &mut usize) -> u32;
    pub fn dwarf_string(
        section: *const u8, len: usize, offset: usize, string_len: &mut usize, fault: &mut Fault,
    ) -> u32;
    pub fn dwarf_str_offset(
        section: *const u8, len: usize, is_big: bool, is_64: bool, base: usize, index: usize,
        offset: &mut usize, fault: &mut Fault,
    ) -> u32;
    pub fn dwarf_address(
        section: *const u8, len: usize, is_big: bool, size: u8, base: usize, index: usize,
        address: &mut u64, fault: &mut Fault,
    ) -> u32;
    #[link_name = "dwarf_address_set_0_3"]
    pub fn dwarf_address_set(
        section: *const u8, len: usize, is_big: bool, offset: usize, set: &mut Set,
        fault: &mut Fault,
    ) -> u32;
    #[link_name = "dwarf_str_offset_set_0_3"]
    pub fn dwarf_str_offset_set(
        section: *const u8, len: usize, is_big: bool, offset: usize, set: &mut Set,
        fault: &mut Fault,
    ) -> u32;
    pub fn dwarf_unit_header(
        section: *const u8, len: usize, is_big: bool, is_types: bool, offset: usize,
        unit: &mut Unit, fault: &mut Fault,
    ) -> u32;
    #[link_name = "dwarf_table_read_0_3"]
    pub fn dwarf_table_read(
        section: *const u8, len: usize, offset: usize, abbreviations: *mut Abbreviation,
        abbreviation_room: usize, attributes: *mut Attribute, attribute_room: usize,
        measure: &mut Measure, fault: &mut Fault,
    ) -> u32;
    pub fn dwarf_form_size(
        form: u16, version: u16, address_size: u8, is_64: bool, size: &mut usize,
    ) -> u32;
    pub fn dwarf_fault_text(fault: &Fault, text: *mut u8, room: usize, len: &mut usize) -> u32;
}
