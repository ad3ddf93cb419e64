//! A folder of files for the program to be run on.

use sojimu_tool::{run, World};
use std::ffi::OsString;
use std::path::{Path, PathBuf};
use std::sync::atomic::{AtomicUsize, Ordering};
use std::time::SystemTime;

/// The repository.
pub fn root() -> PathBuf {
    Path::new(env!("CARGO_MANIFEST_DIR")).join("../..")
}

/// A file of the examples.
pub fn example(name: &str) -> PathBuf {
    root().join("examples").join(name)
}

/// What a run of the program gave: its status, standard output and standard error, in which files have their bare names.
#[derive(Debug, PartialEq, Eq)]
pub struct Run {
    pub status: u8,
    pub out: String,
    pub err: String,
}

/// A folder that is there until it is dropped.
pub struct Folder {
    path: PathBuf,
}

impl Folder {
    /// An empty one.
    pub fn new() -> Folder {
        static MADE: AtomicUsize = AtomicUsize::new(0);
        let since = SystemTime::UNIX_EPOCH.elapsed().unwrap().as_nanos();
        let name = format!("sojimu-{}-{since}-{}", std::process::id(), MADE.fetch_add(1, Ordering::Relaxed));
        let path = std::env::temp_dir().join(name);
        std::fs::create_dir(&path).unwrap();
        Folder { path }
    }

    /// One with these files.
    pub fn with(files: &[(&str, &[u8])]) -> Folder {
        let folder = Folder::new();
        files.iter().for_each(|(name, bytes)| folder.put(name, bytes));
        folder
    }

    /// Where it is.
    pub fn path(&self) -> &Path {
        &self.path
    }

    /// Writes a file.
    pub fn put(&self, name: &str, bytes: &[u8]) {
        std::fs::write(self.path.join(name), bytes).unwrap();
    }

    /// What a file holds; it is there no longer.
    pub fn take(&self, name: &str) -> String {
        let path = self.path.join(name);
        let held = std::fs::read_to_string(&path).unwrap();
        std::fs::remove_file(path).unwrap();
        held
    }

    /// Whether there is a file.
    pub fn has(&self, name: &str) -> bool {
        self.path.join(name).exists()
    }

    /// Runs the program. An argument that has a dot is a file of this folder.
    pub fn run(&self, arguments: &[&str]) -> Run {
        self.run_on(arguments, b"")
    }

    /// The same with something on standard input.
    pub fn run_on(&self, arguments: &[&str], input: &[u8]) -> Run {
        self.run_in(arguments, input, false)
    }

    /// The same as on a terminal.
    pub fn run_coloured(&self, arguments: &[&str]) -> Run {
        self.run_in(arguments, b"", true)
    }

    fn run_in(&self, arguments: &[&str], mut input: &[u8], colours: bool) -> Run {
        let placed = |word: &&str| match word.contains('.') {
            true => self.path.join(word).into_os_string(),
            false => OsString::from(word),
        };
        let arguments: Vec<OsString> = arguments.iter().map(placed).collect();
        let (mut out, mut err) = (Vec::new(), Vec::new());
        let mut world = World { input: &mut input, out: &mut out, err: &mut err, colours, progress: false };
        let status = run(&arguments, &mut world);
        let bare = |bytes: Vec<u8>| String::from_utf8(bytes).unwrap().replace(&format!("{}/", self.path.display()), "");
        Run { status, out: bare(out), err: bare(err) }
    }
}

impl Drop for Folder {
    fn drop(&mut self) {
        std::fs::remove_dir_all(&self.path).ok();
    }
}
