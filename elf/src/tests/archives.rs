//! Archives, their members, and stripped files.

use super::{elf, run, said, Folder, Said, NOTE, OBJECT, PROGBITS};
use crate::debug_link::DebugLink;
use crate::elf::Elf;
use crate::report::Report;
use std::ffi::OsStr;
use std::os::unix::ffi::OsStrExt;
use std::path::{Path, PathBuf};

fn member(name: &str, data: &[u8]) -> Vec<u8> {
    let mut found = format!("{name:16}{:32}{:<10}`\n", "", data.len()).into_bytes();
    found.extend(data);
    found.resize(found.len() + data.len() % 2, b'\n');
    found
}

/// The header alone, as a thin archive has it.
fn named(name: &str) -> Vec<u8> {
    member(name, b"").to_vec()
}

fn archive(mark: &str, parts: &[Vec<u8>]) -> Vec<u8> {
    [mark.as_bytes().to_vec(), parts.concat()].concat()
}

/// An object with one string.
fn object(text: &str) -> Vec<u8> {
    elf(&[(".debug_str", PROGBITS, format!("{text}\0").into_bytes(), 0, 0)], OBJECT)
}

/// What is listed of the members with these names and strings.
fn files(path: &str, members: &[(&str, &str)]) -> String {
    members.iter().map(|(name, text)| format!("file {path}({name}):\n0x0: {text}\n")).collect()
}

#[test]
fn members_are_listed() {
    let folder = Folder::new("members");
    let parts = [
        member("/", b"index"),
        member("//", b"a_name_that_is_too_long.o/\nb.o/\n"),
        member("/0", &object("one")),
        member("x.o/", &object("two")),
        member("/27", &object("three")),
    ];
    let path = folder.put("all.a", &archive("!<arch>\n", &parts));
    let all = [("a_name_that_is_too_long.o", "one"), ("x.o", "two"), ("b.o", "three")];
    assert_eq!(run(&[&path, "str"]), said(0, &files(&path, &all), &[]));
    assert_eq!(run(&[&format!("{path}(b.o)"), "str"]), said(0, &files(&path, &all[2..]), &[]));
    let none = format!("{path}(none)");
    let line = format!("{none}: the archive has no member none");
    assert_eq!(run(&[&none, "str"]), said(1, "", &[&line]));

    let long = [b"long.o\0\0".to_vec(), object("one")].concat();
    let path = folder.put("bsd.a", &archive("!<arch>\n", &[member("#1/8", &long)]));
    assert_eq!(run(&[&path, "str"]), said(0, &files(&path, &[("long.o", "one")]), &[]));
}

#[test]
fn an_index_of_symbols_is_no_member() {
    let folder = Folder::new("index");
    for (name, data) in
        [("__.SYMDEF", &b"x"[..]), ("#1/12", b"__.SYMDEF\0\0\0x"), ("#1/20", b"__.SYMDEF SORTED\0\0\0\0x")]
    {
        let parts = [member(name, data), member("x.o/", &object("one"))];
        let path = folder.put("all.a", &archive("!<arch>\n", &parts));
        assert_eq!(run(&[&path, "str"]), said(0, &files(&path, &[("x.o", "one")]), &[]));
    }
}

#[test]
fn members_of_thin_archives_are_files() {
    let folder = Folder::new("thin");
    folder.put("b.o", &object("two"));
    let path = folder.put("thin.a", &archive("!<thin>\n", &[member("//", b"b.o/\n"), named("/0")]));
    assert_eq!(run(&[&path, "str"]), said(0, &files(&path, &[("b.o", "two")]), &[]));

    let inner = [member("x.o/", &object("one")), member("y.o/", &object("two"))];
    let place = 8 + inner[0].len();
    folder.put("in.a", &archive("!<arch>\n", &inner));
    let names = member("//", b"in.a/\nno.a/\nthin.a/\n/dev/zero/\n");
    let thin = |field: String| archive("!<thin>\n", &[names.clone(), named(&field)]);
    let path = folder.put("thin.a", &thin(format!("/0:{place}")));
    for word in [path.clone(), format!("{path}(in.a(y.o))")] {
        assert_eq!(run(&[&word, "str"]), said(0, &files(&path, &[("in.a(y.o)", "two")]), &[]));
    }
    for (field, name, status, why) in [
        ("/0:9", "in.a", 1, "this archive has no member at 0x9"),
        ("/6:72", "no.a", 3, "No such file or directory"),
        ("/12:72", "thin.a", 1, "this thin archive is to have a member's bytes"),
        // To open a device or a pipe could take for ever.
        ("/20", "/dev/zero", 1, "isn't an ordinary file, so it isn't read"),
        ("/20:8", "/dev/zero", 1, "isn't an ordinary file, so it isn't read"),
    ] {
        let path = folder.put("thin.a", &thin(field.to_owned()));
        let line = format!("{path}({name}): {why}");
        assert_eq!(run(&[&path, "str"]), said(status, "", &[&line]), "{field}");
    }
}

#[test]
fn many_members_of_one_archive_take_little_time() {
    let folder = Folder::new("many");
    let one = member("x.o/", &object("one"));
    folder.put("in.a", &archive("!<arch>\n", &vec![one.clone(); 8000]));
    let fields = (0..8000).map(|number| named(&format!("/0:{}", 8 + number * one.len())));
    let path =
        folder.put("thin.a", &archive("!<thin>\n", &[vec![member("//", b"in.a/\n")], fields.collect()].concat()));
    let begun = std::time::Instant::now();
    assert_eq!(run(&[&path, "str"]), said(0, &files(&path, &[("in.a(x.o)", "one"); 8000]), &[]));
    assert!(begun.elapsed().as_secs() < 5);
    // A name is cut at the most bytes that one can have.
    let long = member("//", &[b'n'; 100_000]);
    let path = folder.put("long.a", &archive("!<arch>\n", &[long, member("/0", b"")]));
    let name = format!("{path}({})", "n".repeat(4096));
    let line = format!("{name}: this isn't an ELF file, but an empty one");
    assert_eq!(run(&[&path, "str"]), said(1, &format!("file {name}:\n"), &[&line]));
}

#[test]
fn names_may_have_parentheses() {
    let folder = Folder::new("parentheses");
    let path = folder.put("a(1).a", &archive("!<arch>\n", &[member("x(2).o/", &object("one"))]));
    for word in [path.clone(), format!("{path}(x(2).o)")] {
        assert_eq!(run(&[&word, "str"]), said(0, &files(&path, &[("x(2).o", "one")]), &[]));
    }
}

#[test]
fn what_is_wrong_with_an_archive() {
    let folder = Folder::new("wrong");
    let good = member("x.o/", &object("one"));
    let end = 8 + good.len();
    let size = object("two").len();
    let cut = &member("y.o/", &object("two"))[..200];
    let path = format!("{}/all.a", folder.0);
    let title = |name: &str| format!("file {path}({name}):\n");
    for (more, output, lines) in [
        (
            &b"hello"[..],
            String::new(),
            vec![": the archive has no member's header at 0x{}, and what follows isn't read"],
        ),
        (
            &member("#1/60", &[b'x'; 10]),
            String::new(),
            vec![": the member at 0x{} is shorter than its name, and what follows isn't read"],
        ),
        (
            cut,
            title("y.o"),
            vec![
                ": the member at 0x{} is cut by the end of the archive: 140 of its SIZE bytes are there",
                "(y.o): the first section header, at 0x5a, is past the end of the file",
            ],
        ),
        (
            &member("/99", b"no ELF file"),
            title(""),
            vec![
                ": the member at 0x{} has its name at 0x63, past the end of the archive's names",
                "(): this isn't an ELF file",
            ],
        ),
    ] {
        folder.put("all.a", &archive("!<arch>\n", &[good.clone(), more.to_vec()]));
        let place = |line: &str| line.replace("{}", &format!("{end:x}")).replace("SIZE", &size.to_string());
        let lines: Vec<String> = lines.into_iter().map(|line| path.clone() + &place(line)).collect();
        let lines: Vec<&str> = lines.iter().map(String::as_str).collect();
        assert_eq!(run(&[&path, "str"]), said(1, &(files(&path, &[("x.o", "one")]) + &output), &lines));
    }
    folder.put("all.a", b"!<arch>\n");
    let line = format!("{path}: the archive has no members");
    assert_eq!(run(&[&path, "str"]), said(1, "", &[&line]));
    let line = format!("{}(: No such file or directory", folder.0);
    assert_eq!(run(&[&format!("{}(", folder.0), "str"]), said(3, "", &[&line]));
}

#[test]
fn names_have_escapes() {
    let folder = Folder::new("escapes");
    let path = folder.put("all.a", &archive("!<arch>\n", &[member("a\x1b\n/", &object("one"))]));
    assert_eq!(run(&[&path, "str"]), said(0, &files(&path, &[("a\\x1b\\n", "one")]), &[]));
    for (name, shown) in [
        (&b"plain \\ 'name'"[..], "plain \\ 'name'"),
        (b"\0\x7f\t", "\\x00\\x7f\\t"),
        (b"a\xffb\xc3\xa9\xc3", "a\\xffb\u{e9}\\xc3"),
        ("e\u{301}\u{202e}".as_bytes(), "e\u{301}\\u{202e}"),
    ] {
        assert_eq!(crate::text::plain(name), shown);
    }
    let line = "/no\\nfile: No such file or directory";
    assert_eq!(run(&["/no\nfile", "str"]), said(3, "", &[line]));
}

fn link(name: &str, checksum: u32) -> (&'static str, u32, Vec<u8>, u64, u64) {
    // Zero bytes follow the name up to a multiple of four.
    let mut data = name.as_bytes().to_vec();
    data.resize(name.len() / 4 * 4 + 4, 0);
    data.extend(checksum.to_le_bytes());
    (".gnu_debuglink", PROGBITS, data, 0, 0)
}

fn note(id: &[u8]) -> (&'static str, u32, Vec<u8>, u64, u64) {
    let sizes = super::little(&[(4, 4), (id.len() as u64, 4), (3, 4)]);
    (".note.gnu.build-id", NOTE, [&sizes, &b"GNU\0"[..], id].concat(), 0, 0)
}

#[test]
fn stripped_files_name_their_debug_file() {
    let of = |sections: &[super::Section<'_>]| {
        let data = elf(sections, OBJECT);
        DebugLink::of(&Elf::read(&data, &Report::silent()).unwrap())
    };
    let wanted = DebugLink { name: "ab.debug".into(), checksum: 0x1234_5678, build_id: "abcd".into() };
    assert_eq!(of(&[link("ab.debug", 0x1234_5678), note(b"\xab\xcd")]), Some(wanted));
    assert_eq!(of(&[]), None);

    let folder = Folder::new("stripped");
    // Implementations are checked by the checksum of these nine bytes.
    let debug = folder.put("a.debug", b"123456789");
    for (checksum, found) in [(0xcbf4_3926, true), (1, false)] {
        let file = folder.put("a", &elf(&[link("a.debug", checksum)], OBJECT));
        let Said(status, output, lines) = run(&[&file, "str"]);
        let why = format!("{debug} isn't the file with the debug information, since its checksum differs");
        assert_eq!((status, output.as_str(), lines.contains(&why)), (1, "", !found));
        let place = format!(
            "{file}: there is no section .debug_str; its debug information is in {debug}, which --follow lists"
        );
        assert_eq!(lines.contains(&place), found);
    }
    let data = object("one");
    let mut sum = flate2::Crc::new();
    sum.update(&data);
    folder.put("a.debug", &data);
    let file = folder.put("a", &elf(&[link("a.debug", sum.sum())], OBJECT));
    let line = format!("{file}: there is no section .debug_str, and {debug} is listed");
    assert_eq!(run(&["--follow", &file, "str"]), said(0, "0x0: one\n", &[&line]));
}

#[test]
fn names_of_folders_have_escapes_and_stay_bytes() {
    let base = Folder::new("folders");
    let folder = std::path::Path::new(&base.0).join(OsStr::from_bytes(b"red\x1b[31m\nforged: \xff"));
    std::fs::create_dir_all(&folder).unwrap();
    let data = object("one");
    let mut sum = flate2::Crc::new();
    sum.update(&data);
    let file = folder.join("a");
    std::fs::write(&file, elf(&[link("a.debug", sum.sum())], OBJECT)).unwrap();
    let run = |option: &str| {
        let words = [option.into(), file.clone().into(), "str".into()];
        super::reported(|report| crate::run(&words.to_vec(), report))
    };
    let shown = format!("{}/red\\x1b[31m\\nforged: \\xff", base.0);
    let missing = format!("{shown}/a: there is no section .debug_str");
    let places = format!("{shown}/a.debug, {shown}/.debug/a.debug, /usr/lib/debug{shown}/a.debug");
    let line = format!("{missing}, and there is no file with its debug information: {places}");
    assert_eq!(run("--follow"), said(1, "", &[&line]));
    std::fs::write(folder.join("a.debug"), &data).unwrap();
    let line = format!("{missing}, and {shown}/a.debug is listed");
    assert_eq!(run("--follow"), said(0, "0x0: one\n", &[&line]));
}

#[test]
fn debug_files_are_found_by_build_id_or_below_the_debug_folder() {
    let folder = Folder::new("build-id");
    std::fs::create_dir_all(format!("{}/.build-id/ab", folder.0)).unwrap();
    let find = |link: &DebugLink, path: &str, report: &Report| {
        link.find(&link.places(OsStr::new(path), Path::new(&folder.0)), report).unwrap()
    };
    let link = DebugLink { build_id: "abcd".into(), ..DebugLink::default() };
    let own = elf(&[note(b"\xab\xcd")], OBJECT);
    for (data, is_own) in [(&own[..], true), (&elf(&[], OBJECT), false), (b"no ELF file", false)] {
        let place = folder.put(".build-id/ab/cd.debug", data);
        let report = Report::silent();
        let found = find(&link, "/a", &report);
        assert_eq!((found, report.end()), (is_own.then_some(PathBuf::from(place)), u8::from(!is_own)));
    }
    // By its name it is below that folder as the file is below the root.
    std::fs::create_dir_all(format!("{}/usr", folder.0)).unwrap();
    let place = folder.put("usr/a.debug", b"123456789");
    let link = DebugLink { name: "a.debug".into(), checksum: 0xcbf4_3926, ..DebugLink::default() };
    assert_eq!(find(&link, "/usr/lib", &Report::silent()), Some(PathBuf::from(place)));
}
