//! What the tool prints: its output, and lines on standard error, with the exit status.

use std::cell::{Cell, RefCell, RefMut};
use std::collections::HashSet;
use std::fmt::{self, Display};
use std::fs::File;
use std::io::{self, Write};
use std::os::unix::io::AsFd;

/// Of each file this many errors are reported, and as many warnings.
pub const LINES: usize = 1000;
/// The listing of a file or an archive may have this many bytes, or this many times those of the file if that is more.
const LISTED_BYTES: u64 = 1 << 29;
const LISTED_TIMES: u64 = 1 << 9;
/// The exit statuses of an error in a file and of one of input or output, and the one that a shell has for a program
/// that SIGPIPE ends.
pub const WRONG_FILE: u8 = 1;
const WRONG_IO: u8 = 3;
const CLOSED: u8 = 141;
const BUFFER_BYTES: usize = 1 << 16;

/// Why a file or a part of it isn't listed.
#[derive(Debug)]
pub enum Error {
    /// The system doesn't open or read it.
    Unopened(io::Error),
    /// It is nothing that this tool lists, or more than it takes.
    Unlisted(String),
    /// Its bytes aren't as its format has them.
    Malformed(String),
    /// Memory ran out.
    NoMemory,
}

pub type Result<T> = std::result::Result<T, Error>;

pub fn unlisted(text: impl Into<String>) -> Error {
    Error::Unlisted(text.into())
}

pub fn malformed(text: impl Into<String>) -> Error {
    Error::Malformed(text.into())
}

impl From<io::Error> for Error {
    fn from(error: io::Error) -> Error {
        Error::Unopened(error)
    }
}

impl Error {
    fn status(&self) -> u8 {
        match self {
            Error::Unopened(_) => WRONG_IO,
            Error::Unlisted(_) | Error::Malformed(_) | Error::NoMemory => WRONG_FILE,
        }
    }
}

impl Display for Error {
    fn fmt(&self, f: &mut fmt::Formatter<'_>) -> fmt::Result {
        match self {
            Error::Unopened(error) => f.write_str(&reason(error)),
            Error::Unlisted(text) | Error::Malformed(text) => f.write_str(text),
            Error::NoMemory => f.write_str("isn't read: memory ran out"),
        }
    }
}

/// What the system says, without the number that Rust puts after it.
fn reason(error: &io::Error) -> String {
    let text = error.to_string();
    text.split(" (os error ").next().unwrap_or_default().to_owned()
}

/// Prints a line on standard error. One that can't be written stops nothing.
pub fn print_error(text: impl Display) {
    print_error_to(&mut io::stderr(), text);
}

fn print_error_to(errors: &mut dyn Write, text: impl Display) {
    let _ = errors.write_all(format!("dwarf_elf: {text}\n").as_bytes());
}

/// The output, with a buffer. After an error of it nothing is written.
pub struct Output {
    to: Box<dyn Write>,
    buffer: Vec<u8>,
    written: u64,
    error: Option<io::Error>,
}

impl Output {
    fn new(to: Box<dyn Write>) -> Output {
        Output { to, buffer: Vec::with_capacity(BUFFER_BYTES), written: 0, error: None }
    }

    #[inline]
    pub fn put(&mut self, bytes: &[u8]) {
        if bytes.len() > BUFFER_BYTES - self.buffer.len() {
            self.flush();
            if bytes.len() > BUFFER_BYTES {
                return self.write(bytes);
            }
        }
        self.buffer.extend_from_slice(bytes);
    }

    pub fn flush(&mut self) {
        let bytes = std::mem::take(&mut self.buffer);
        self.write(&bytes);
        self.buffer = bytes;
        self.buffer.clear();
    }

    fn write(&mut self, bytes: &[u8]) {
        self.written += bytes.len() as u64;
        if self.error.is_none() {
            self.error = self.to.write_all(bytes).err();
        }
    }

    /// Puts a number in hexadecimal digits. Formatting it by `{:x}` takes longer.
    #[inline]
    pub fn put_hexadecimal(&mut self, number: u64) {
        self.put_digits::<16>(number);
    }

    #[inline]
    pub fn put_decimal(&mut self, number: u64) {
        self.put_digits::<10>(number);
    }

    #[inline]
    fn put_digits<const BASE: u64>(&mut self, number: u64) {
        let mut digits = [0; 20];
        let mut start = digits.len();
        let mut rest = number;
        loop {
            start -= 1;
            digits[start] = b"0123456789abcdef"[(rest % BASE) as usize];
            rest /= BASE;
            if rest == 0 {
                return self.put(&digits[start..]);
            }
        }
    }
}

impl fmt::Write for Output {
    fn write_str(&mut self, text: &str) -> fmt::Result {
        self.put(text.as_bytes());
        Ok(())
    }
}

/// What a run prints, and its exit status. Each line on standard error is printed once for a file, up to a limit.
pub struct Report {
    output: RefCell<Output>,
    errors: RefCell<Box<dyn Write>>,
    status: Cell<u8>,
    file: RefCell<FileReport>,
    // How many bytes the output had when the argument began that is listed now, and how many its files have so far.
    begin: Cell<u64>,
    file_bytes: Cell<u64>,
}

/// What was reported of the file that is listed now.
#[derive(Default)]
struct FileReport {
    // What is before each line: the name of the file if there are several.
    before: String,
    lines: HashSet<String>,
    error_count: usize,
    warning_count: usize,
}

impl Report {
    pub fn new(output: Box<dyn Write>, errors: Box<dyn Write>) -> Report {
        let (output, errors) = (RefCell::new(Output::new(output)), RefCell::new(errors));
        let (status, begin, file_bytes) = (Cell::new(0), Cell::new(0), Cell::new(0));
        Report { output, errors, status, file: RefCell::default(), begin, file_bytes }
    }

    /// One that prints to the standard streams. If the output is closed, that is told, and the exit status returned.
    #[cfg_attr(test, allow(dead_code))]
    pub fn of_streams() -> std::result::Result<Report, u8> {
        // Rust's own output is written line by line.
        match io::stdout().as_fd().try_clone_to_owned() {
            Ok(output) => Ok(Report::new(Box::new(File::from(output)), Box::new(io::stderr()))),
            Err(error) => {
                print_error(format_args!("standard output: {}", reason(&error)));
                Err(WRONG_IO)
            }
        }
    }

    /// One that prints nothing.
    pub fn silent() -> Report {
        Report::new(Box::new(io::sink()), Box::new(io::sink()))
    }

    pub fn output(&self) -> RefMut<'_, Output> {
        self.output.borrow_mut()
    }

    /// Begins the files that an argument names: one, or the members of an archive.
    pub fn begin_argument(&self) {
        self.begin.set(self.output.borrow().written);
        self.file_bytes.set(0);
    }

    /// Begins a file of this size. Each line on standard error begins with that text.
    pub fn begin(&self, before: String, file_bytes: usize) {
        self.file_bytes.set(self.file_bytes.get() + file_bytes as u64);
        *self.file.borrow_mut() = FileReport { before, ..FileReport::default() };
    }

    /// An error if the listing of an argument is too long, or the output has failed.
    pub fn expect_room(&self) -> Result<()> {
        let output = self.output.borrow();
        let most = LISTED_BYTES.max(LISTED_TIMES.saturating_mul(self.file_bytes.get()));
        if output.written - self.begin.get() > most || output.error.is_some() {
            return Err(unlisted("isn't listed further, since the listing is too long"));
        }
        Ok(())
    }

    /// Whether the output can't be written.
    pub fn has_ended(&self) -> bool {
        self.output.borrow().error.is_some()
    }

    /// Writes what is left, and returns the exit status.
    pub fn end(&self) -> u8 {
        let mut output = self.output.borrow_mut();
        output.flush();
        match &output.error {
            None => self.status.get(),
            // Whoever reads the output has enough of it.
            Some(error) if error.kind() == io::ErrorKind::BrokenPipe => CLOSED,
            Some(error) => {
                print_error_to(&mut *self.errors.borrow_mut(), format_args!("the output: {}", reason(error)));
                WRONG_IO
            }
        }
    }

    fn raise(&self, status: u8) {
        self.status.set(self.status.get().max(status));
    }

    /// Reports an error of the file that is listed.
    pub fn error(&self, text: impl Display) {
        self.raise(WRONG_FILE);
        self.limited(|file| &mut file.error_count, "errors", text);
    }

    /// Reports what is no error.
    pub fn warn(&self, text: impl Display) {
        self.limited(|file| &mut file.warning_count, "warnings", text);
    }

    fn limited(&self, count: fn(&mut FileReport) -> &mut usize, what: &str, text: impl Display) {
        let mut file = self.file.borrow_mut();
        let seen = *count(&mut file);
        let line = match seen {
            LINES => format!("{}more than {LINES} {what}, and the others aren't reported", file.before),
            seen if seen > LINES => return,
            _ => format!("{}{text}", file.before),
        };
        if !file.lines.contains(&line) {
            *count(&mut file) += 1;
            self.print(&line);
            file.lines.insert(line);
        }
    }

    /// Reports why a file isn't listed, or what is wrong with it as a whole.
    pub fn file_error(&self, name: &str, error: &Error) {
        self.raise(error.status());
        self.print(&format!("{name}: {error}"));
    }

    /// Prints a line on standard error, after what was listed before.
    pub fn print(&self, line: &str) {
        self.output.borrow_mut().flush();
        if !self.has_ended() {
            print_error_to(&mut *self.errors.borrow_mut(), line);
        }
    }
}
