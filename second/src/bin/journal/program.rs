//! The program under test, started on a journal.

use std::ffi::OsStr;
use std::io::{BufRead, BufReader, Read, Write};
use std::path::Path;
use std::process::{Child, ChildStderr, ChildStdin, ChildStdout, Command, Stdio};
use std::sync::mpsc::{self, Sender};
use std::thread::{self, ScopedJoinHandle};
use std::time::Duration;

/// How the program is started.
pub struct Program {
    words: Vec<String>,
}

/// What a run wrote, and whether it ended with status 0.
pub struct Wrote {
    pub out: Vec<u8>,
    pub err: Vec<u8>,
    pub succeeded: bool,
}

impl Program {
    /// The program behind a command.
    pub fn new(words: Vec<String>) -> Self {
        assert!(!words.is_empty(), "there is no program to start");
        Program { words }
    }

    /// The program as a person runs it.
    pub fn by_name() -> Self {
        Program::new(["./run", "handlers"].map(String::from).to_vec())
    }

    /// The program under a limit of 1,024 bytes for a file; a write beyond it fails, or else ends the program.
    pub fn limited(&self, fails: bool) -> Self {
        let trap = if fails { "trap '' XFSZ; " } else { "" };
        let script = format!("set +o posix; {trap}ulimit -c 0; ulimit -f 1; exec \"$@\"");
        let shell = ["bash", "-c", &script, "bash"].map(String::from);
        Program::new(shell.into_iter().chain(self.words.clone()).collect())
    }

    /// Starts it, to be asked line by line.
    pub fn start(&self, journal: &Path) -> Running {
        let mut child = self.spawn(journal);
        let (input, out) = (child.stdin.take(), child.stdout.take().map(BufReader::new));
        Running { child, input: input.expect("a pipe"), out: out.expect("a pipe") }
    }

    /// Starts it, puts an input to it, and waits for its end.
    pub fn run(&self, journal: &Path, input: &[u8]) -> Wrote {
        self.stopped(journal, input, usize::MAX, Duration::ZERO)
    }

    /// The same, but it is killed so long after so many lines of its answers came.
    pub fn stopped(&self, journal: &Path, input: &[u8], lines: usize, later: Duration) -> Wrote {
        let mut child = self.spawn(journal);
        let (pipe, out, err) = (child.stdin.take(), child.stdout.take(), child.stderr.take());
        let (came, coming) = mpsc::channel();
        thread::scope(|scope| {
            // A program that has ended takes no more input.
            scope.spawn(move || pipe.is_some_and(|mut pipe: ChildStdin| pipe.write_all(input).is_ok()));
            let out = scope.spawn(move || out.map(|pipe| told_of(pipe, lines, &came)));
            let err = scope.spawn(move || err.map(all_of::<ChildStderr>));
            if coming.recv().is_ok() {
                thread::sleep(later);
                child.kill().expect("it can be killed");
            }
            let succeeded = child.wait().expect("it ends").success();
            let read = |pipe: ScopedJoinHandle<Option<Vec<u8>>>| pipe.join().expect("a thread").expect("a pipe");
            Wrote { out: read(out), err: read(err), succeeded }
        })
    }

    fn spawn(&self, journal: &Path) -> Child {
        let words = self.words.iter().map(OsStr::new).chain([journal.as_os_str()]);
        let mut words = words.skip(1);
        let mut command = Command::new(&self.words[0]);
        command.args(&mut words).stdin(Stdio::piped()).stdout(Stdio::piped()).stderr(Stdio::piped());
        command.spawn().expect("the program can be started")
    }
}

/// A program that waits for lines.
pub struct Running {
    child: Child,
    input: ChildStdin,
    out: BufReader<ChildStdout>,
}

impl Running {
    /// The answer to a line, without its end.
    pub fn ask(&mut self, line: &[u8]) -> Vec<u8> {
        self.input.write_all(&[line, b"\n"].concat()).expect("the program takes a line");
        let mut answer = Vec::new();
        self.out.read_until(b'\n', &mut answer).expect("the program answers");
        assert_eq!(answer.pop(), Some(b'\n'), "an answer ends");
        answer
    }

    /// Kills it (SIGKILL), and gives what it wrote on standard error.
    pub fn kill(mut self) -> Vec<u8> {
        self.child.kill().expect("it can be killed");
        self.child.wait().expect("it ends");
        self.child.stderr.take().map(all_of::<ChildStderr>).expect("a pipe")
    }
}

/// All that comes; and says so once so many lines did.
fn told_of(mut pipe: ChildStdout, lines: usize, came: &Sender<()>) -> Vec<u8> {
    let (mut read, mut part, mut count) = (Vec::new(), [0; 4096], 0);
    loop {
        let got = pipe.read(&mut part).expect("a pipe can be read");
        let before = count;
        count += part[..got].iter().filter(|&&byte| byte == b'\n').count();
        read.extend(&part[..got]);
        if before < lines && lines <= count {
            came.send(()).expect("it is waited for");
        }
        if got == 0 {
            return read;
        }
    }
}

fn all_of<P: Read>(mut pipe: P) -> Vec<u8> {
    let mut read = Vec::new();
    pipe.read_to_end(&mut read).expect("a pipe can be read");
    read
}
