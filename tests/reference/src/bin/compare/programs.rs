//! Runs the programs under test as processes. Whatever goes wrong with a run is kept beside its output.

use std::io::{self, ErrorKind, Read, Write};
use std::path::{Path, PathBuf};
use std::process::{Child, Command, ExitStatus, Stdio};
use std::sync::{mpsc, OnceLock};
use std::thread::{self, ScopedJoinHandle};
use std::time::{Duration, Instant};

/// A run that takes longer is ended and counted as a difference.
const LONGEST_RUN: Duration = Duration::from_secs(30);
/// So much of what stands on standard error is said.
const LONGEST_QUOTE: usize = 200;

/// The programs, found from the repository's root.
const DRIVE: &str = "target/bin/drive";
const DRIVE_IN_PLACE: &str = "target/bin/drive_in_place";
pub const REPLAY: &str = "target/bin/replay";
pub const DRIVE_SENDER: &str = "target/bin/drive_sender";
pub const MEND: &str = "target/bin/mend";
pub const MEND_SCRIPT: &str = "target/bin/mend_script";
pub const WINDOWS_SCRIPT: &str = "target/bin/windows_script";
pub const COMPARE_WINDOWS: &str = "target/bin/compare_windows";
pub const DELTA_SCRIPT: &str = "target/bin/delta_script";
pub const PATCH: &str = "target/bin/patch";

static PLAYER: OnceLock<&str> = OnceLock::new();

/// The receiver's scripts are played with the calls in place; said before any run.
pub fn play_in_place() {
    PLAYER.get_or_init(|| DRIVE_IN_PLACE);
}

/// The program that plays the receiver's scripts.
pub fn player() -> &'static str {
    PLAYER.get_or_init(|| DRIVE)
}

/// Those of the programs that are not there.
pub fn missing(programs: &[&'static str]) -> Vec<&'static str> {
    programs.iter().copied().filter(|path| !Path::new(path).exists()).collect()
}

/// What a run gave. A fault is anything but a start, an end with status 0 and output alone.
#[derive(Debug, Default)]
pub struct Outcome {
    pub output: Vec<u8>,
    pub faults: Vec<String>,
}

impl Outcome {
    pub fn agrees(&self, expected: &[u8]) -> bool {
        self.faults.is_empty() && self.output == expected
    }

    /// Why it does not agree, in one line.
    pub fn why(&self, expected: &[u8]) -> String {
        let other = (self.output != expected).then(|| "other output".to_string());
        let reasons: Vec<String> = other.into_iter().chain(self.faults.iter().cloned()).collect();
        reasons.join("; ")
    }

    /// The output and a line for each fault, as it is kept for a look.
    pub fn kept(&self) -> Vec<u8> {
        let faults = self.faults.iter().map(|fault| format!("({fault})\n"));
        [&self.output[..], faults.collect::<String>().as_bytes()].concat()
    }
}

/// Runs the program on the input, written in pieces of `step` bytes, so that its reads are cut differently.
pub fn run(path: &Path, input: &[u8], step: usize) -> Outcome {
    silent(run_within(LONGEST_RUN, Command::new(path), input, step))
}

/// Runs the program with arguments, on no input.
pub fn run_with(path: &Path, arguments: &[PathBuf]) -> Outcome {
    silent(run_aloud_with(path, arguments))
}

/// The same for a program that is to write on standard error, which is given too.
pub fn run_aloud_with(path: &Path, arguments: &[PathBuf]) -> (Outcome, Vec<u8>) {
    let mut command = Command::new(path);
    command.args(arguments);
    run_within(LONGEST_RUN, command, b"", 1)
}

/// What stands on standard error is a fault.
fn silent((mut outcome, errors): (Outcome, Vec<u8>)) -> Outcome {
    outcome.faults.extend(said(&errors));
    outcome
}

/// The same for a program that is to write on standard error: both outputs are one, as `aloud` joins them.
pub fn run_aloud(path: &Path, input: &[u8], step: usize) -> Outcome {
    let (outcome, errors) = run_within(LONGEST_RUN, Command::new(path), input, step);
    Outcome { output: aloud(&outcome.output, &errors), ..outcome }
}

/// A line with the length of what stands on standard output, that, and what stands on standard error.
pub fn aloud(output: &[u8], errors: &[u8]) -> Vec<u8> {
    [format!("{}\n", output.len()).as_bytes(), output, errors].concat()
}

/// The two outputs that `aloud` joined.
pub fn apart(joined: &[u8]) -> (&[u8], &[u8]) {
    let line = joined.iter().position(|&b| b == b'\n').unwrap_or(0);
    let len = std::str::from_utf8(&joined[..line]).ok().and_then(|text| text.parse().ok());
    let rest = joined.get(line + 1..).unwrap_or_default();
    rest.split_at_checked(len.unwrap_or(0)).unwrap_or_default()
}

/// What a run gave, and what it wrote on standard error.
fn run_within(
    limit: Duration,
    mut command: Command,
    input: &[u8],
    step: usize,
) -> (Outcome, Vec<u8>) {
    command.stdin(Stdio::piped()).stdout(Stdio::piped()).stderr(Stdio::piped());
    match command.spawn() {
        Ok(child) => watch(child, limit, input, step),
        Err(error) => {
            let faults = vec![format!("cannot be started: {error}")];
            (Outcome { faults, ..Outcome::default() }, Vec::new())
        }
    }
}

/// Writes, reads both outputs and waits at the same time, since any of them may be what the program waits for.
fn watch(mut child: Child, limit: Duration, input: &[u8], step: usize) -> (Outcome, Vec<u8>) {
    let end = Instant::now() + limit;
    let (stdin, stdout, stderr) = (child.stdin.take(), child.stdout.take(), child.stderr.take());
    let (sender, closed) = mpsc::channel();
    thread::scope(|scope| {
        let written = scope.spawn(move || write(stdin, input, step));
        let errors = scope.spawn(move || read(stderr));
        let output = scope.spawn(move || {
            let output = read(stdout);
            let _ = sender.send(()); // nobody listens any more once the time is over
            output
        });
        let _ = closed.recv_timeout(limit); // what matters is how the program ends
        let ended = ended(&mut child, end);
        let (output, unread) = joined(output);
        let (errors, errors_unread) = joined(errors);
        let faults = [ended, unread, errors_unread, joined(written)];
        (Outcome { output, faults: faults.into_iter().flatten().collect() }, errors)
    })
}

fn joined<T>(handle: ScopedJoinHandle<T>) -> T {
    handle.join().unwrap_or_else(|panic| std::panic::resume_unwind(panic))
}

/// Waits for the program's end; ends it when the time is over. Its threads then see their pipes closed.
fn ended(child: &mut Child, end: Instant) -> Option<String> {
    loop {
        match child.try_wait() {
            Ok(Some(status)) => return status_fault(status),
            Err(error) => return Some(format!("cannot be waited for: {error}")),
            Ok(None) if Instant::now() < end => thread::sleep(Duration::from_micros(100)),
            Ok(None) => break,
        }
    }
    let _ = child.kill(); // it may have ended by itself meanwhile
    let _ = child.wait();
    Some("did not end".into())
}

fn status_fault(status: ExitStatus) -> Option<String> {
    (!status.success()).then(|| format!("ended with {status}"))
}

fn said(errors: &[u8]) -> Option<String> {
    let quote = &errors[..errors.len().min(LONGEST_QUOTE)];
    (!errors.is_empty()).then(|| format!("wrote on standard error: {}", quote.escape_ascii()))
}

fn read(from: Option<impl Read>) -> (Vec<u8>, Option<String>) {
    let mut bytes = Vec::new();
    let result = from.map_or(Ok(0), |mut from| from.read_to_end(&mut bytes));
    (bytes, result.err().map(|error| format!("cannot be read from: {error}")))
}

/// A program that ends early closes its end: what it wrote by then is judged, and that is no fault of the writing.
fn write(to: Option<impl Write>, input: &[u8], step: usize) -> Option<String> {
    let mut to = to?;
    let result: io::Result<()> = input.chunks(step).try_for_each(|part| to.write_all(part));
    let error = result.err().filter(|error| error.kind() != ErrorKind::BrokenPipe)?;
    Some(format!("cannot be written to: {error}"))
}

#[cfg(test)]
mod tests {
    use super::*;

    /// The shell as the program under test: its input is what it does.
    fn shell(script: &str) -> Outcome {
        run(Path::new("/bin/sh"), script.as_bytes(), 7)
    }

    fn faults(script: &str) -> String {
        shell(script).faults.join("; ")
    }

    #[test]
    fn a_good_run_has_no_fault() {
        let outcome = shell("printf well");
        assert!(outcome.agrees(b"well"), "{outcome:?}");
        assert!(!outcome.agrees(b"other"));
        assert_eq!(outcome.why(b"other"), "other output");
    }

    #[test]
    fn the_same_output_is_no_agreement_if_the_run_failed() {
        let outcome = shell("printf well; exit 3");
        assert!(!outcome.agrees(b"well"));
        assert_eq!(outcome.why(b"well"), "ended with exit status: 3");
        assert_eq!(outcome.kept(), b"well(ended with exit status: 3)\n");
    }

    #[test]
    fn every_failure_is_said() {
        assert!(faults("kill -KILL $$").contains("signal: 9"));
        assert_eq!(faults("echo oh >&2"), "wrote on standard error: oh\\n");
        assert_eq!(faults("echo oh >&2; exit 2").split("; ").count(), 2);
        let missing = run(Path::new("/no/such/program"), b"", 1);
        assert!(missing.faults[0].starts_with("cannot be started"), "{missing:?}");
        assert!(!missing.agrees(b""));
    }

    #[test]
    fn what_is_said_aloud_is_no_fault() {
        let script = b"printf well; echo oh >&2";
        let outcome = run_aloud(Path::new("/bin/sh"), script, 7);
        assert!(outcome.agrees(b"4\nwelloh\n"), "{outcome:?}");
        assert_eq!(apart(&outcome.output), (&b"well"[..], &b"oh\n"[..]));
        assert_eq!(apart(b""), (&b""[..], &b""[..]));
    }

    #[test]
    fn a_run_without_end_is_ended() {
        for script in [&b"exec sleep 60"[..], b"exec >&- 2>&-; while :; do :; done"] {
            let (limit, shell) = (Duration::from_millis(300), Command::new("/bin/sh"));
            let (outcome, _) = run_within(limit, shell, script, script.len());
            assert_eq!(outcome.faults[0], "did not end");
        }
    }

    #[test]
    fn input_that_is_not_wanted_is_no_fault() {
        let script = ["printf well; exec <&-; exit 0\n", &"#".repeat(1 << 20)].concat();
        assert!(shell(&script).agrees(b"well"));
    }

    #[test]
    fn only_a_closed_pipe_is_forgiven() {
        struct Failing(ErrorKind);
        impl Write for Failing {
            fn write(&mut self, _: &[u8]) -> io::Result<usize> {
                Err(self.0.into())
            }
            fn flush(&mut self) -> io::Result<()> {
                Ok(())
            }
        }
        assert_eq!(write(Some(Failing(ErrorKind::BrokenPipe)), b"x", 1), None);
        assert!(write(Some(Failing(ErrorKind::StorageFull)), b"x", 1).is_some());
    }
}
