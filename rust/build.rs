//! Does nothing. Cargo requires a build script where `links` is set, and `links` lets it refuse two
//! versions of this crate in one program, whose symbols the linker would refuse.

fn main() {
    println!("cargo:rerun-if-changed=build.rs");
}
