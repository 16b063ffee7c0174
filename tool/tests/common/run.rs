//! Runs of the tool, and folders for their files.

use std::fs;
use std::io::Write;
use std::path::PathBuf;
use std::process::{Command, Output, Stdio};

/// The tool.
pub const TOOL: &str = env!("CARGO_BIN_EXE_policybook");

/// What a run gave.
#[derive(Debug)]
pub struct Ran {
    pub status: i32,
    pub output: Vec<u8>,
    pub errors: String,
}

impl Ran {
    pub fn of(output: Output) -> Ran {
        Ran {
            status: output.status.code().expect("an exit status, no signal"),
            output: output.stdout,
            errors: String::from_utf8(output.stderr).expect("messages in UTF-8"),
        }
    }

    /// The output, which is text.
    pub fn text(&self) -> &str {
        std::str::from_utf8(&self.output).expect("text in UTF-8")
    }
}

/// Runs the tool with these words and this standard input.
pub fn run(words: &[&str], input: &[u8]) -> Ran {
    let mut child = Command::new(TOOL)
        .args(words)
        .stdin(Stdio::piped())
        .stdout(Stdio::piped())
        .stderr(Stdio::piped())
        .spawn()
        .expect("the tool starts");
    // The tool may end without reading its input.
    let _ = child.stdin.take().expect("standard input").write_all(input);
    Ran::of(child.wait_with_output().expect("the tool ends"))
}

/// Runs a line of the shell in which `$TOOL` is the tool, in a folder.
pub fn shell(line: &str, folder: &Folder) -> Ran {
    let mut command = Command::new("sh");
    command.args(["-c", line]).env("TOOL", TOOL).stdin(Stdio::null());
    Ran::of(command.current_dir(&folder.path).output().expect("the shell runs"))
}

/// A folder of its own for a test, empty at first and removed at the end. It is outside the repository, in which `rt ci` refuses the links that tests make.
pub struct Folder {
    pub path: PathBuf,
}

impl Folder {
    pub fn new(name: &str) -> Folder {
        let path = std::env::temp_dir().join(format!("policybook-{}-{name}", std::process::id()));
        fs::create_dir_all(&path).expect("a folder");
        Folder { path }
    }

    /// The name of a file in the folder.
    pub fn name(&self, name: &str) -> String {
        let path = self.path.join(name);
        path.to_str().expect("a plain path").to_string()
    }

    /// Writes a file and gives its name.
    pub fn file(&self, name: &str, bytes: impl AsRef<[u8]>) -> String {
        let name = self.name(name);
        fs::write(&name, bytes).expect("a writable folder");
        name
    }

    /// The names of the files in the folder, in order.
    pub fn list(&self) -> Vec<String> {
        let entries = fs::read_dir(&self.path).expect("a folder");
        let name = |entry: std::io::Result<fs::DirEntry>| entry.expect("an entry").file_name();
        let mut names: Vec<String> = entries.map(|entry| name(entry).into_string().expect("a plain name")).collect();
        names.sort();
        names
    }
}

impl Drop for Folder {
    fn drop(&mut self) {
        let _ = fs::remove_dir_all(&self.path);
    }
}
