//! Runs a program with something on its standard input, and tells what it did.

use std::fs::{self, File};
use std::io::{self, PipeWriter, Read, Seek, Write};
use std::os::fd::AsRawFd;
use std::os::unix::fs::OpenOptionsExt;
use std::path::Path;
use std::process::{self, Child, Command, Stdio};
use std::sync::atomic::{AtomicU64, Ordering};
use std::time::{Duration, Instant};
use std::{env, thread};

/// What is on standard input.
#[derive(Clone, Copy, Debug)]
pub enum Input<'a> {
    /// A pipe with these bytes, written in pieces of so many.
    Pipe(&'a [u8], usize),
    /// A pipe that never ends: these bytes again and again.
    Endless(&'a [u8]),
    /// A file with these bytes.
    File(&'a [u8]),
    /// A pipe with these bytes. To read on behind them fails.
    Failing(&'a [u8]),
    /// A directory, which can be opened but not read.
    Directory,
    /// A file that is open for writing alone.
    Unreadable,
    /// Nothing that is open.
    Closed,
}

/// What a program did.
#[derive(Clone, Debug, Default, PartialEq)]
pub struct Ran {
    /// Its exit status, unless a signal ended it.
    pub status: Option<i32>,
    /// What it wrote to standard output, up to some length.
    pub output: Vec<u8>,
    /// The same of standard error.
    pub message: Vec<u8>,
    /// How much of a file it read.
    pub read: Option<u64>,
}

/// How much of what a program writes is kept.
const KEPT: u64 = 1 << 20;

/// How long a piece waits for the one before it to be read.
const PAUSE: Duration = Duration::from_micros(200);

/// Linux's flag of a file that is not waited for.
const O_NONBLOCK: i32 = 0o4000;

/// Runs a program, and ends it if it takes longer than this.
pub fn run(program: &Path, input: Input, patience: Duration) -> io::Result<Ran> {
    let mut handed = Handed::new(input)?;
    let mut child = command(program, input)
        .stdin(handed.stdin.take().unwrap_or(Stdio::piped()))
        .stdout(Stdio::piped())
        .stderr(Stdio::piped())
        .spawn()?;
    let (stdin, stdout, stderr) = (child.stdin.take(), child.stdout.take(), child.stderr.take());
    let mut ran = thread::scope(|scope| {
        scope.spawn(|| stdin.map(|pipe| feed(pipe, input)));
        let output = scope.spawn(|| kept(stdout));
        let message = scope.spawn(|| kept(stderr));
        let status = ended(&mut child, patience)?;
        io::Result::Ok(Ran {
            status,
            output: output.join().expect("a reader does not panic"),
            message: message.join().expect("a reader does not panic"),
            read: None,
        })
    })?;
    if let Some(file) = &mut handed.file {
        ran.read = Some(file.stream_position()?);
    }
    Ok(ran)
}

/// The program, or a shell that closes its standard input and then becomes it.
fn command(program: &Path, input: Input) -> Command {
    let Input::Closed = input else {
        return Command::new(program);
    };
    let mut shell = Command::new("sh");
    shell.args(["-c", "exec \"$0\" <&-"]).arg(program);
    shell
}

/// What is opened for a program.
#[derive(Default)]
struct Handed {
    /// Its standard input, unless it is fed by a pipe.
    stdin: Option<Stdio>,
    /// The same file, whose place tells how much was read.
    file: Option<File>,
    /// The other end of a pipe, which has to stay open.
    _writer: Option<PipeWriter>,
}

impl Handed {
    fn new(input: Input) -> io::Result<Self> {
        let mut handed = Self::default();
        handed.stdin = match input {
            Input::Pipe(..) | Input::Endless(_) => None,
            Input::File(bytes) => {
                let file = file_of(bytes)?;
                let stdin = file.try_clone()?;
                handed.file = Some(file);
                Some(stdin.into())
            }
            Input::Failing(bytes) => {
                let (stdin, writer) = failing(bytes)?;
                handed._writer = Some(writer);
                Some(stdin.into())
            }
            Input::Directory => Some(File::open(env::temp_dir())?.into()),
            Input::Unreadable => Some(File::options().write(true).open("/dev/null")?.into()),
            Input::Closed => Some(Stdio::null()),
        };
        Ok(handed)
    }
}

/// An open file with these bytes, which has no name any more.
fn file_of(bytes: &[u8]) -> io::Result<File> {
    static COUNT: AtomicU64 = AtomicU64::new(0);
    let number = COUNT.fetch_add(1, Ordering::Relaxed);
    let path = env::temp_dir().join(format!("column-text-{}-{number}", process::id()));
    let mut options = File::options();
    options.read(true).write(true).create_new(true);
    let mut file = options.open(&path)?;
    fs::remove_file(path)?;
    file.write_all(bytes)?;
    file.rewind()?;
    Ok(file)
}

/// A pipe with these bytes that is not waited for: while its other end is open, a
/// read fails where they end.
fn failing(bytes: &[u8]) -> io::Result<(File, PipeWriter)> {
    let (reader, mut writer) = io::pipe()?;
    writer.write_all(bytes)?;
    let mut options = File::options();
    options.read(true).custom_flags(O_NONBLOCK);
    let file = options.open(format!("/proc/self/fd/{}", reader.as_raw_fd()))?;
    Ok((file, writer))
}

/// Writes until everything is written or nobody reads any more.
fn feed(mut pipe: impl Write, input: Input) -> Option<()> {
    match input {
        Input::Pipe(bytes, size) if size < bytes.len() => {
            for piece in bytes.chunks(size) {
                pipe.write_all(piece).ok()?;
                thread::sleep(PAUSE);
            }
        }
        Input::Pipe(bytes, _) => pipe.write_all(bytes).ok()?,
        Input::Endless(bytes) => loop {
            pipe.write_all(bytes).ok()?;
        },
        _ => {}
    }
    Some(())
}

/// What a program writes to a pipe.
fn kept(pipe: Option<impl Read>) -> Vec<u8> {
    let mut bytes = Vec::new();
    if let Some(pipe) = pipe {
        // what was read before an error is enough to see a difference
        let _ = pipe.take(KEPT).read_to_end(&mut bytes);
    }
    bytes
}

/// The exit status of a program, unless a signal ends it, as it does if the program
/// takes too long.
fn ended(child: &mut Child, patience: Duration) -> io::Result<Option<i32>> {
    let start = Instant::now();
    while start.elapsed() < patience {
        if let Some(status) = child.try_wait()? {
            return Ok(status.code());
        }
        thread::sleep(PAUSE);
    }
    child.kill()?;
    child.wait().map(|status| status.code())
}

#[cfg(test)]
mod tests {
    use super::*;

    const SOON: Duration = Duration::from_secs(20);

    fn ran(program: &str, input: Input) -> Ran {
        run(Path::new(program), input, SOON).expect("a program that runs")
    }

    fn wrote(output: &[u8], read: Option<u64>) -> Ran {
        Ran {
            status: Some(0),
            output: output.to_vec(),
            message: Vec::new(),
            read,
        }
    }

    #[test]
    fn every_input_comes_through() {
        for size in [1, 2, 5, 9] {
            let ran = ran("cat", Input::Pipe(b"1 2 3", size));
            assert_eq!(ran, wrote(b"1 2 3", None));
        }
        assert_eq!(ran("cat", Input::File(b"1 2 3")), wrote(b"1 2 3", Some(5)));
        assert_eq!(ran("cat", Input::Pipe(b"", 1)), wrote(b"", None));
        assert_eq!(ran("true", Input::File(b"1 2 3")), wrote(b"", Some(0)));
    }

    #[test]
    fn an_endless_input_ends_with_the_program() {
        let ran = ran("head", Input::Endless(b"abcd\n"));
        assert_eq!(ran, wrote(&b"abcd\n".repeat(10), None));
    }

    #[test]
    fn a_failed_read_and_an_exit_status_are_seen() {
        for input in [
            Input::Directory,
            Input::Unreadable,
            Input::Closed,
            Input::Failing(b"abcd"),
        ] {
            let ran = ran("cat", input);
            assert_eq!(ran.status, Some(1), "{input:?}");
            assert!(!ran.message.is_empty(), "{input:?}");
        }
        assert_eq!(ran("cat", Input::Failing(b"abcd")).output, b"abcd");
        assert_eq!(ran("false", Input::File(b"")).status, Some(1));
    }

    #[test]
    fn a_program_that_goes_on_is_ended() {
        let short = Duration::from_millis(100);
        for program in ["cat", "yes"] {
            let ran = run(Path::new(program), Input::Endless(b"a"), short);
            let ran = ran.expect("a program that runs");
            assert_eq!(ran.status, None);
            assert!(ran.output.len() <= KEPT as usize);
        }
    }

    #[test]
    fn a_program_that_is_not_there_is_an_error() {
        assert!(run(Path::new("./no-such-program"), Input::Directory, SOON).is_err());
    }
}
