//! The file with the debug information of a stripped one.

use crate::elf::{number_of, slice, Elf};
use crate::inputs::{open_ordinary, title};
use crate::report::{Report, Result};
use flate2::Crc;
use object::elf::{ELF_NOTE_GNU, NT_GNU_BUILD_ID, SHT_NOBITS};
use std::ffi::{OsStr, OsString};
use std::fs;
use std::os::unix::ffi::OsStringExt;
use std::path::{Path, PathBuf};

pub const DEBUG_FOLDER: &str = "/usr/lib/debug";
/// At most this many bytes of a section that names a debug file are read.
const LINK_BYTES: u64 = 1 << 12;

/// What a stripped file says of its debug file: its name and checksum, its build-id, or both.
#[derive(Debug, Default, PartialEq, Eq)]
pub struct DebugLink {
    pub name: OsString,
    pub checksum: u32,
    pub build_id: String,
}

/// Where a debug file may be, and whether it is looked for by its name.
type Place = (PathBuf, bool);

impl DebugLink {
    /// What a file says of its debug file, if it does.
    pub fn of(file: &Elf<'_>) -> Option<DebugLink> {
        let mut found = DebugLink::default();
        for header in file.headers.iter().filter(|header| header.kind != SHT_NOBITS) {
            let data = slice(file.whole, header.start, header.size.min(LINK_BYTES));
            let number = |at: usize| number_of(slice(data, at as u64, 4), file.endian);
            match header.name {
                b".gnu_debuglink" => {
                    let end = data.iter().position(|byte| *byte == 0).unwrap_or(data.len());
                    found.name = OsString::from_vec(data[..end].to_vec());
                    found.checksum = number(end / 4 * 4 + 4) as u32;
                }
                b".note.gnu.build-id" => {
                    let is_own = number(0) == 4 && number(8) == NT_GNU_BUILD_ID.into();
                    if is_own && data.get(12..16) == Some(&[ELF_NOTE_GNU, b"\0"].concat()[..]) {
                        let id = slice(data, 16, number(4));
                        found.build_id = id.iter().map(|byte| format!("{byte:02x}")).collect();
                    }
                }
                _ => {}
            }
        }
        (!found.name.is_empty() || !found.build_id.is_empty()).then_some(found)
    }

    /// Where the debug file of a file may be.
    pub fn places(&self, path: &OsStr, debug: &Path) -> Vec<Place> {
        let mut found = Vec::new();
        if let (Some(first), Some(rest)) = (self.build_id.get(..2), self.build_id.get(2..)) {
            found.push((debug.join(format!(".build-id/{first}/{rest}.debug")), false));
        }
        if !self.name.is_empty() {
            let folder = folder_of(path);
            // Below the debug folder it is as the file is below the root.
            let below = debug.join(folder.strip_prefix("/").unwrap_or(&folder));
            found.extend([folder.clone(), folder.join(".debug"), below].map(|folder| (folder.join(&self.name), true)));
        }
        found
    }

    /// The first of these places that has the file. One that differs is reported.
    pub fn find(&self, places: &[Place], report: &Report) -> Result<Option<PathBuf>> {
        for (place, is_by_name) in places.iter().filter(|(place, _)| place.is_file()) {
            let bytes = open_ordinary(place);
            let same = if *is_by_name {
                checksum(&bytes?) == self.checksum
            } else {
                bytes.map_or(false, |bytes| build_id_of(&bytes) == self.build_id)
            };
            if same {
                return Ok(Some(place.clone()));
            }
            let what = if *is_by_name { "checksum" } else { "build-id" };
            let text = "isn't the file with the debug information, since its";
            report.error(format_args!("{} {text} {what} differs", title(place.as_os_str())));
        }
        Ok(None)
    }
}

/// The folder of a file, whose path may be relative.
fn folder_of(path: &OsStr) -> PathBuf {
    let real = fs::canonicalize(path).ok().and_then(|path| path.parent().map(Path::to_owned));
    real.or_else(|| std::env::current_dir().ok()).unwrap_or_default()
}

/// The checksum of a file, as the section .gnu_debuglink has it.
fn checksum(bytes: &[u8]) -> u32 {
    let mut found = Crc::new();
    found.update(bytes);
    found.sum()
}

/// The build-id of a file, or an empty text.
fn build_id_of(bytes: &[u8]) -> String {
    let report = Report::silent();
    let file = Elf::read(bytes, &report);
    file.ok().and_then(|file| DebugLink::of(&file)).map_or_else(String::new, |link| link.build_id)
}
