//! What the checks of a program share: its path and the seed, one run of it, inputs
//! that try how it reads, and the count of the numbers that came.

use crate::plans::{encode, named, put, tight, Layout, FILE_MAX};
use std::io::{ErrorKind, Read, Write};
use std::process::{exit, Child, ChildStdin, Command, Stdio};
use std::sync::mpsc;
use std::thread;
use std::time::Duration;

const DEFAULT_SEED: u64 = 20_240_229;
const RUN_LIMIT: Duration = Duration::from_secs(20);
const PAUSE: Duration = Duration::from_millis(5);

/// A program, and the check that runs it.
pub struct Program {
    check: &'static str,
    path: String,
}

/// The program and the seed that the check was called with.
pub fn arguments(check: &'static str) -> (Program, u64) {
    let given = || {
        let mut arguments = std::env::args().skip(1);
        let path = arguments.next()?;
        let seed = match arguments.next() {
            None => DEFAULT_SEED,
            Some(text) => text.parse().ok()?,
        };
        Some((Program { check, path }, seed))
    };
    given().unwrap_or_else(|| {
        eprintln!("usage: {check} PROGRAM [SEED]");
        exit(2)
    })
}

// One run of the program.

/// What the program is given on standard input, part by part.
pub type Parts = Vec<Vec<u8>>;

/// What a run wrote and how it ended.
pub struct Run {
    pub output: Vec<u8>,
    pub errors: Vec<u8>,
    pub status: Option<i32>,
}

/// The parts one after the other, with a pause between them. The program may end
/// without reading all of them; any other error is one of this check.
fn write_parts(mut input: ChildStdin, parts: &[Vec<u8>]) {
    for (k, part) in parts.iter().enumerate() {
        if k > 0 {
            thread::sleep(PAUSE);
        }
        match input.write_all(part) {
            Err(error) if error.kind() == ErrorKind::BrokenPipe => return,
            written => written.expect("write to the program"),
        }
    }
}

/// All that the program writes, read beside the wait so that the wait can end.
fn read_beside(child: &mut Child, parts: Parts) -> mpsc::Receiver<(Vec<u8>, Vec<u8>)> {
    let input = child.stdin.take().expect("a pipe");
    let mut output_pipe = child.stdout.take().expect("a pipe");
    let mut error_pipe = child.stderr.take().expect("a pipe");
    let (sender, receiver) = mpsc::channel();
    thread::spawn(move || {
        write_parts(input, &parts);
        let (mut output, mut errors) = (Vec::new(), Vec::new());
        output_pipe.read_to_end(&mut output).expect("read from the program");
        error_pipe.read_to_end(&mut errors).expect("read from the program");
        // Nobody listens any more after the time limit.
        let _ = sender.send((output, errors));
    });
    receiver
}

impl Program {
    pub fn run(&self, parts: Parts) -> Option<Run> {
        self.run_with(&[], parts)
    }

    /// None when the program is not done in time; it is ended then.
    pub fn run_with(&self, arguments: &[&str], parts: Parts) -> Option<Run> {
        let mut child = Command::new(&self.path)
            .args(arguments)
            .stdin(Stdio::piped())
            .stdout(Stdio::piped())
            .stderr(Stdio::piped())
            .spawn()
            .unwrap_or_else(|error| {
                println!("{}: {}: {error}", self.check, self.path);
                exit(1)
            });
        let Ok((output, errors)) = read_beside(&mut child, parts).recv_timeout(RUN_LIMIT) else {
            child.kill().expect("end the program");
            return None;
        };
        let status = child.wait().expect("wait for the program").code();
        Some(Run { output, errors, status })
    }
}

// Inputs.

/// The files of plans/ that are of a version.
pub fn sample_files(version: u64) -> Vec<Vec<u8>> {
    let folder = std::fs::read_dir("plans").expect("plans/: run this from the repository's root");
    let mut paths: Vec<_> = folder.map(|entry| entry.expect("an entry of plans/").path()).collect();
    paths.sort();
    let files = paths.iter().map(|path| std::fs::read(path).expect("a file of plans/"));
    files.filter(|file| u64::from(file[0]) == version).collect()
}

/// A file of one task.
fn single(layout: &Layout) -> Vec<u8> {
    encode(&named(&[(5, 3, 10, 1_000, 1)]), layout)
}

/// Inputs of all lengths about the limits, zeros and with a sound head; a program
/// takes 2,049 bytes and may leave the rest.
pub fn lengths() -> Vec<Vec<u8>> {
    let mut inputs = Vec::new();
    for length in [0, 1, 15, 16, 17, 51, 52, 2_047, 2_048, 2_049, 2_050, 4_096, 65_536, 65_537, 100_000] {
        inputs.push(vec![0; length]);
        let mut file = single(&tight(1, 1));
        file.resize(length.max(52), 0);
        put(&mut file, 12, length as u64, 4);
        file.truncate(length);
        inputs.push(file);
    }
    inputs
}

/// The file in two parts: the first `at` bytes, a pause, the rest.
pub fn cut(file: &[u8], at: usize) -> Parts {
    vec![file[..at].to_vec(), file[at..].to_vec()]
}

/// The file cut about the header's end, in the middle and at the last byte.
pub fn cuts(file: &[u8]) -> Vec<Parts> {
    let places = [0, 1, 15, 16, 17, file.len() / 2, file.len() - 1, file.len()];
    places.iter().map(|&at| cut(file, at)).collect()
}

/// The longest file and inputs past the limit, cut.
pub fn long_cuts() -> Vec<Parts> {
    let longest = single(&Layout { version: 1, rows: 16, names: FILE_MAX - 16, total: FILE_MAX });
    let mut longer = longest.clone();
    longer.push(0);
    let zeros = vec![0; 100_000];
    vec![
        cut(&longest, 36),
        cut(&longest, FILE_MAX - 1),
        cut(&longer, 1),
        cut(&longer, FILE_MAX - 1),
        cut(&longer, FILE_MAX),
        cut(&zeros, FILE_MAX),
        cut(&zeros, FILE_MAX + 1),
    ]
}

/// A short file, one byte at a time.
pub fn byte_by_byte() -> Parts {
    single(&tight(1, 1)).iter().map(|&byte| vec![byte]).collect()
}

// Reports.

pub fn hex(bytes: &[u8]) -> String {
    bytes.iter().map(|byte| format!("{byte:02x}")).collect()
}

/// Whether every number that the program can print came with files of a version.
pub fn coverage(version: u64, times: &[u64], numbers: impl Iterator<Item = usize>) -> bool {
    let mut complete = true;
    for number in numbers {
        println!("version {version}, number {number:2}: {:5} times", times[number]);
        if times[number] == 0 {
            println!("number {number} is missing");
            complete = false;
        }
    }
    complete
}
