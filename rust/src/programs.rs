//! The programs of the repository, started with arguments and input as a user starts them.

use std::ffi::OsStr;
use std::io::{ErrorKind, Write};
use std::path::{Path, PathBuf};
use std::process::{Child, Command, Stdio};
use std::sync::atomic::{AtomicUsize, Ordering};
use std::thread;
use std::{env, fs, process};

/// For a program that is started with its name alone.
pub const NO_ARGUMENTS: &[&str] = &[];

/// A program of the repository, as `rt ci` or `rt run` builds it.
pub struct Program {
    name: &'static str,
}

impl Program {
    /// The program of the crate with this name.
    pub const fn named(name: &'static str) -> Program {
        Program { name }
    }

    /// Starts the program. What it says on standard error is for people, and not compared.
    fn start<A: AsRef<OsStr>>(&self, arguments: &[A]) -> Child {
        let path = path_of(self.name);
        Command::new(&path)
            .args(arguments)
            .stdin(Stdio::piped())
            .stdout(Stdio::piped())
            .stderr(Stdio::null())
            .spawn()
            .unwrap_or_else(|error| panic!("{} does not start: {error}", path.display()))
    }

    /// Runs the program with this input and gives all that it writes.
    pub fn run<A: AsRef<OsStr>>(&self, arguments: &[A], input: &[u8]) -> String {
        self.run_fed(arguments, |child| feed(child, input))
    }

    /// Runs the program and gives all that it writes. What `feed_it` does goes on beside the
    /// reading, so that neither side waits for the other when a pipe is full.
    pub fn run_fed<A: AsRef<OsStr>>(
        &self,
        arguments: &[A],
        feed_it: impl FnOnce(&mut Child) + Send,
    ) -> String {
        let mut child = self.start(arguments);
        let output = child.stdout.take().expect("the output is a pipe");
        let text = thread::scope(|scope| {
            let reader = scope.spawn(|| std::io::read_to_string(output));
            feed_it(&mut child);
            drop(child.stdin.take());
            reader.join().expect("the output is read")
        });
        child.wait().expect("the program ends");
        text.expect("the output is text")
    }
}

/// The executable of the program with this name, which must be there.
pub fn path_of(name: &str) -> PathBuf {
    let crates = Path::new(env!("CARGO_MANIFEST_DIR")).join("../crates");
    let path = crates.join(name).join("out").join(name);
    assert!(
        path.is_file(),
        "{} is missing: run `rt ci` at the top of the repository, or `rt run` in crates/{name}",
        path.display()
    );
    path
}

/// Writes to a program, which need not read more than it wants.
pub fn feed(child: &mut Child, bytes: &[u8]) {
    let input = child.stdin.as_mut().expect("the input is a pipe");
    match input.write_all(bytes) {
        Err(error) if error.kind() != ErrorKind::BrokenPipe => panic!("writing: {error}"),
        _ => {}
    }
}

/// A file that is there as long as this value is.
pub struct TemporaryFile {
    path: PathBuf,
}

impl TemporaryFile {
    /// A new file with these bytes.
    pub fn holding(bytes: &[u8]) -> TemporaryFile {
        let file = TemporaryFile { path: free_path() };
        fs::write(&file.path, bytes)
            .unwrap_or_else(|error| panic!("{}: {error}", file.path.display()));
        file
    }

    pub fn path(&self) -> &Path {
        &self.path
    }
}

impl Drop for TemporaryFile {
    fn drop(&mut self) {
        _ = fs::remove_file(&self.path);
    }
}

/// A path at which there is no file: tests run side by side, in one process and in several.
pub fn free_path() -> PathBuf {
    static COUNT: AtomicUsize = AtomicUsize::new(0);
    let number = COUNT.fetch_add(1, Ordering::Relaxed);
    env::temp_dir().join(format!("gurvoke-{}-{number}", process::id()))
}
