//! Writing what was made: files whole or not at all, and standard output with
//! its failures told.

use std::fs::{self, File, OpenOptions};
use std::io::{self, IsTerminal, Write};
use std::path::{Path, PathBuf};
use std::process;
use std::sync::atomic::{AtomicBool, Ordering};

/// Whether standard output was open when the program began. Rust's start opens
/// the null device in place of a closed one, where writing seems to succeed.
static OUTPUT_OPEN: AtomicBool = AtomicBool::new(true);

extern "C" {
    fn fcntl(descriptor: i32, command: i32, ...) -> i32;
}

extern "C" fn look_at_output() {
    const F_GETFD: i32 = 1;
    // SAFETY: asking for the flags of a descriptor changes nothing.
    let open = unsafe { fcntl(1, F_GETFD) } != -1;
    OUTPUT_OPEN.store(open, Ordering::Relaxed);
}

/// Called before Rust's own start.
#[used]
#[link_section = ".init_array"]
static AT_START: extern "C" fn() = look_at_output;

/// Writes everything to a file, or to standard output where none is named.
pub fn deliver(bytes: &[u8], file: Option<&str>) -> Result<(), String> {
    match file {
        Some(name) => write_file(name, bytes).map_err(|error| format!("{name}: cannot be written: {}", reason(&error))),
        None => write_standard(bytes).map_err(|error| format!("standard output cannot be written: {}", reason(&error))),
    }
}

/// Why reading or writing failed, in the system's words, without its number.
pub fn reason(error: &io::Error) -> String {
    let words = error.to_string();
    words.split(" (os error").next().unwrap_or(&words).to_string()
}

/// Whether bytes that are no text would go to a terminal.
pub fn goes_to_terminal(file: Option<&str>) -> bool {
    file.is_none() && io::stdout().is_terminal()
}

fn write_standard(bytes: &[u8]) -> io::Result<()> {
    if !OUTPUT_OPEN.load(Ordering::Relaxed) {
        return Err(io::Error::other("it is closed"));
    }
    let mut output = io::stdout().lock();
    output.write_all(bytes)?;
    output.flush()
}

/// A device or pipe is written as it is. A file is written under another name
/// beside it, and takes its name only when it is whole.
fn write_file(name: &str, bytes: &[u8]) -> io::Result<()> {
    let target = fs::canonicalize(name).unwrap_or_else(|_| PathBuf::from(name));
    if fs::metadata(&target).is_ok_and(|data| !data.is_file()) {
        let mut device = OpenOptions::new().write(true).open(&target)?;
        return device.write_all(bytes);
    }
    let (part, file) = create_beside(&target)?;
    let written = fill(file, &target, bytes).and_then(|()| fs::rename(&part, &target));
    if written.is_err() {
        // The file was made here, and nothing else can be done about it.
        let _ = fs::remove_file(&part);
    }
    written
}

/// A new file in the same folder.
fn create_beside(target: &Path) -> io::Result<(PathBuf, File)> {
    let name = target.file_name().ok_or_else(|| io::Error::other("it is no name of a file"))?;
    let mut attempt = 0;
    loop {
        let part = target.with_file_name(format!(".{}.{}.{attempt}.part", name.to_string_lossy(), process::id()));
        match OpenOptions::new().write(true).create_new(true).open(&part) {
            Err(error) if error.kind() == io::ErrorKind::AlreadyExists && attempt < 100 => attempt += 1,
            opened => return opened.map(|file| (part, file)),
        }
    }
}

/// Writes the file and waits until it is stored; one that replaces another has
/// its permissions.
fn fill(mut file: File, target: &Path, bytes: &[u8]) -> io::Result<()> {
    file.write_all(bytes)?;
    if let Ok(data) = fs::metadata(target) {
        file.set_permissions(data.permissions())?;
    }
    file.sync_all()
}
