//! What the test programs share: the stream of cases, the files of a folder, and running a built program.
use std::fs::{self, File};
use std::io::{Read, Seek, Write};
use std::path::PathBuf;
use std::process::{ChildStdin, Command, ExitStatus, Stdio};
use std::sync::atomic::{AtomicUsize, Ordering};
use std::thread::{self, JoinHandle};
use std::time::{Duration, Instant};

/// A case of the stream: its entry, and its bytes, header included.
pub struct Case<'a> {
    pub entry: u32,
    pub bytes: &'a [u8],
}

fn word(bytes: &[u8], i: usize) -> usize {
    u32::from_le_bytes(bytes[4 * i..4 * i + 4].try_into().expect("four bytes")) as usize
}

/// Splits a stream by its headers: six words, of which 3, 4 and 5 say how many bytes and words follow.
pub fn split(mut stream: &[u8]) -> Vec<Case<'_>> {
    let mut cases = vec![];
    while !stream.is_empty() {
        let size = 24 + word(stream, 3) + word(stream, 4) + 4 * word(stream, 5);
        let (bytes, rest) = stream.split_at(size);
        cases.push(Case { entry: word(bytes, 0) as u32, bytes });
        stream = rest;
    }
    cases
}

/// The files of a folder with this extension, in order of their names.
pub fn files(folder: &str, extension: &str) -> Vec<PathBuf> {
    let mut paths: Vec<_> = fs::read_dir(folder)
        .expect("the folder")
        .map(|entry| entry.expect("a file").path())
        .filter(|path| path.extension().is_some_and(|e| e == extension))
        .collect();
    paths.sort();
    paths
}

/// Writes beside the reading: both pipes may fill up. A program may also end before it has read everything.
fn feed(mut stdin: ChildStdin, input: &[u8]) -> JoinHandle<()> {
    let input = input.to_vec();
    thread::spawn(move || {
        let _ = stdin.write_all(&input);
    })
}

/// What a built program prints for an input, through the script that starts it.
pub fn print_of(launch: &str, program: &str, input: &[u8]) -> Vec<u8> {
    let mut child = Command::new(launch)
        .arg(program)
        .stdin(Stdio::piped())
        .stdout(Stdio::piped())
        .spawn()
        .expect("the program starts");
    let writer = feed(child.stdin.take().expect("standard input"), input);
    let output = child.wait_with_output().expect("the program ends");
    writer.join().expect("the writer ends");
    output.stdout
}

/// How a program ended, and what it left on standard output and standard error.
pub struct Ended {
    /// None where it still ran at the time limit.
    pub status: Option<ExitStatus>,
    pub printed: Vec<u8>,
    pub complaint: Vec<u8>,
}

impl Ended {
    pub fn good(&self) -> bool {
        self.status.is_some_and(|status| status.success())
    }

    pub fn how(&self) -> String {
        self.status.map_or("the time limit".to_string(), |status| status.to_string())
    }
}

/// A file without a name, to print to: into a pipe, each line of a program wakes the reader.
fn nameless() -> File {
    static MADE: AtomicUsize = AtomicUsize::new(0);
    let name = format!("driver-{}-{}", std::process::id(), MADE.fetch_add(1, Ordering::Relaxed));
    let path = std::env::temp_dir().join(name);
    let file = File::options().read(true).write(true).create_new(true).open(&path).expect("a new file");
    fs::remove_file(path).expect("its name can go");
    file
}

fn read_back(mut file: File) -> Vec<u8> {
    let mut bytes = vec![];
    file.rewind().expect("the file's start");
    file.read_to_end(&mut bytes).expect("the file");
    bytes
}

/// Runs a command on an input, and ends it where it still runs at the time limit.
pub fn run(command: &mut Command, input: &[u8], limit: Duration) -> Ended {
    let (printed, complaint) = (nameless(), nameless());
    let mut child = command
        .stdin(Stdio::piped())
        .stdout(printed.try_clone().expect("a second handle"))
        .stderr(complaint.try_clone().expect("a second handle"))
        .spawn()
        .expect("the program starts");
    let writer = feed(child.stdin.take().expect("standard input"), input);
    let begun = Instant::now();
    let status = loop {
        let status = child.try_wait().expect("the program's status");
        if status.is_some() || begun.elapsed() > limit {
            break status;
        }
        thread::sleep(Duration::from_millis(1));
    };
    if status.is_none() {
        child.kill().expect("the program can be ended");
        child.wait().expect("the program ends");
    }
    writer.join().expect("the writer ends");
    Ended { status, printed: read_back(printed), complaint: read_back(complaint) }
}

/// Counts what passed and failed, and prints the closing line.
#[derive(Default)]
pub struct Tally {
    pub passed: usize,
    pub failed: usize,
}

impl Tally {
    pub fn record(&mut self, name: &str, good: bool, told: impl FnOnce() -> String) {
        if good {
            self.passed += 1;
        } else {
            self.failed += 1;
            println!("{name}: {}", told());
        }
    }

    pub fn close(&self) -> ! {
        println!("{} passed, {} failed", self.passed, self.failed);
        std::process::exit(if self.failed == 0 && self.passed > 0 { 0 } else { 1 });
    }
}
