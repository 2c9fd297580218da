//! A folder of its own for each test, in which the command is called.

use crate::schema;
use dezghuri::{Layout, Plan, Verdict};
use std::ffi::OsString;
use std::fs;
use std::path::{Path, PathBuf};
use std::process::{Child, Command, Output, Stdio};

const BINARY: &str = env!("CARGO_BIN_EXE_dezghuri");

/// The moment at which all calls are made, by the clock that they are given: 2026-11-17T21:23:02Z.
pub const NOW: &str = "1794950582";

pub struct Folder {
    path: PathBuf,
    /// For all calls in it.
    variables: Vec<(&'static str, OsString)>,
}

/// No link stays behind: `rt ci` refuses one wherever it lies in the checkout, also in what a test has left.
impl Drop for Folder {
    fn drop(&mut self) {
        if self.variables.is_empty() {
            remove_links(&self.path);
        }
    }
}

fn remove_links(folder: &Path) {
    for entry in fs::read_dir(folder).into_iter().flatten().flatten() {
        let path = entry.path();
        if path.is_symlink() {
            let _ = fs::remove_file(&path);
        } else if path.is_dir() {
            remove_links(&path);
        }
    }
}

/// What a call came to.
pub struct Done {
    pub status: i32,
    pub bytes: Vec<u8>,
    pub out: String,
    /// What it says besides, but for notes.
    pub err: String,
    /// Lines that are no warnings: what the history has to say where all is well.
    pub notes: String,
}

impl Folder {
    /// An empty folder; tests use different names, so that they can run at once.
    pub fn new(name: &str) -> Folder {
        let path = Path::new(env!("CARGO_TARGET_TMPDIR")).join(format!("command-{name}"));
        if path.exists() {
            fs::remove_dir_all(&path).expect("an old folder can go");
        }
        fs::create_dir_all(&path).expect("a folder can be made");
        let variables = Vec::new();
        Folder { path, variables }
    }

    /// The same folder, its calls with the library, and without what these words name.
    pub fn without(&self, library: &Library, lacking: &str) -> Folder {
        let variables = vec![
            ("LD_PRELOAD", library.0.as_os_str().into()),
            ("WITHOUT", lacking.into()),
        ];
        let path = self.path.clone();
        Folder { path, variables }
    }

    pub fn path(&self, file: &str) -> PathBuf {
        self.path.join(file)
    }

    pub fn write(&self, file: &str, bytes: impl AsRef<[u8]>) {
        fs::write(self.path(file), bytes).expect("a file can be written");
    }

    pub fn read(&self, file: &str) -> Vec<u8> {
        fs::read(self.path(file)).expect("the file is there")
    }

    /// The names of all that is in the folder, sorted.
    pub fn names(&self) -> Vec<String> {
        let entries = fs::read_dir(&self.path).expect("the folder is there");
        let name = |entry: fs::DirEntry| entry.file_name().into_string().expect("plain names");
        let mut names: Vec<String> = entries.map(|entry| name(entry.unwrap())).collect();
        names.sort();
        names
    }

    /// The same without histories, for what is about something else.
    pub fn names_but_histories(&self) -> Vec<String> {
        let mut names = self.names();
        names.retain(|name| !name.ends_with(".history"));
        names
    }

    /// Removes the history of a text: layouts that no plan has written are none to warn of then.
    pub fn forget_layouts_of(&self, text: &str) {
        fs::remove_file(self.path(&format!("{text}.history"))).expect("a layout was written");
    }

    /// Calls the command with these words, in this folder.
    pub fn call(&self, words: &str) -> Done {
        self.call_words(&words.split_whitespace().collect::<Vec<_>>())
    }

    /// Calls it with words that may have spaces in them.
    pub fn call_words(&self, words: &[&str]) -> Done {
        let mut command = self.command();
        command.args(words);
        finish(&mut command)
    }

    /// Calls it with another moment by the clock that it is given.
    pub fn call_at(&self, words: &str, now: &str) -> Done {
        let mut command = self.command();
        command.args(words.split_whitespace());
        finish(command.env("SOURCE_DATE_EPOCH", now))
    }

    /// Calls it with something else for its standard output.
    pub fn call_into(&self, words: &str, out: Stdio) -> Done {
        let mut command = self.command();
        command.args(words.split_whitespace()).stdout(out);
        finish(&mut command)
    }

    /// Calls it with a standard stream closed, as the shell's `>&-` and `<&-` do.
    pub fn call_closed(&self, words: &str, stream: &str) -> Done {
        self.shell(&format!("exec \"$0\" {words} {stream}&-"))
    }

    /// Has the shell do a line in which the command is `"$0"`.
    pub fn shell(&self, line: &str) -> Done {
        let mut shell = Command::new("sh");
        shell.current_dir(&self.path).env("SOURCE_DATE_EPOCH", NOW);
        finish(shell.args(["-c", line, BINARY]))
    }

    /// Calls it with these bytes as its standard input.
    pub fn call_with(&self, words: &str, input: &[u8]) -> Done {
        self.write("input", input);
        let input = fs::File::open(self.path("input")).expect("it was written");
        let mut command = self.command();
        command.args(words.split_whitespace()).stdin(input);
        finish(&mut command)
    }

    /// Calls it with the library that ends it at this step; whether it ended by itself before.
    pub fn call_cut(&self, words: &str, step: usize) -> bool {
        let mut command = self.command();
        command.args(words.split_whitespace());
        command.env("CUT_AT", step.to_string());
        let output = command.output().expect("the command is built");
        output.status.code().is_some()
    }

    /// Starts all calls before it waits for the first; what each came to.
    pub fn call_at_once<'a>(&self, lines: impl IntoIterator<Item = &'a String>) -> Vec<Done> {
        let started = lines
            .into_iter()
            .map(|line| self.start(line, Stdio::piped()));
        let started: Vec<Child> = started.collect();
        let end = |child: Child| child.wait_with_output().expect("it was started").into();
        started.into_iter().map(end).collect()
    }

    /// Starts a call, and does not wait for its end.
    pub fn start(&self, words: &str, out: Stdio) -> Child {
        let mut command = self.command();
        command.args(words.split_whitespace());
        command.stdout(out).stderr(Stdio::piped());
        command.spawn().expect("the command is built")
    }

    fn command(&self) -> Command {
        let mut command = Command::new(BINARY);
        command
            .current_dir(&self.path)
            .env("SOURCE_DATE_EPOCH", NOW);
        command.envs(self.variables.iter().map(|(name, value)| (name, value)));
        command
    }
}

fn finish(command: &mut Command) -> Done {
    command.output().expect("the command is built").into()
}

impl From<Output> for Done {
    /// What the call came to; an object is one of the schema, whatever the test asks of it.
    fn from(output: Output) -> Done {
        let told = String::from_utf8_lossy(&output.stderr);
        let is_note = |line: &&str| line.starts_with("note: ");
        let (notes, err): (Vec<&str>, Vec<&str>) = told.split_inclusive('\n').partition(is_note);
        let done = Done {
            status: output.status.code().expect("it ends by itself"),
            out: String::from_utf8_lossy(&output.stdout).into_owned(),
            err: err.concat(),
            notes: notes.concat(),
            bytes: output.stdout,
        };
        if done.out.starts_with('{') {
            schema::hold(&done.out);
        }
        done
    }
}

/// What is loaded before a call so that file functions fail it, or end it.
pub struct Library(PathBuf);

impl Library {
    /// Built in a folder of this name.
    pub fn new(name: &str) -> Library {
        let source = Path::new(env!("CARGO_MANIFEST_DIR")).join("tests/c/file_functions.c");
        let built = Folder::new(&format!("{name}-library")).path("file_functions.so");
        let mut compiler = Command::new("cc");
        compiler.args(["-shared", "-fPIC", "-Wall", "-Werror", "-o"]);
        let status = compiler.arg(&built).arg(source).arg("-ldl").status();
        assert!(status.expect("cc is there").success());
        Library(built)
    }
}

/// The layout record of these rows, one for each of 2^bits partitions.
pub fn layout_record(bits: u8, size: u32, rows: &[&[u32]]) -> Vec<u8> {
    assert_eq!(rows.len(), 1 << bits);
    let mut layout = Layout::default();
    for (partition, ids) in (0..=u8::MAX).zip(rows) {
        layout.set_row(partition, ids);
    }
    let plan = Plan {
        bits,
        replication: u8::try_from(rows[0].len()).expect("at most eight"),
        size,
        sent: 0,
        verdict: Verdict::Finished,
        improvements: 0,
        layout,
    };
    plan.to_record().expect("the rows make a layout")
}
