//! The listing program as a child process: its input handed over and its output taken, at once or bit by bit.

use std::fmt::{Display, Formatter};
use std::io::{ErrorKind, Read, Write};
use std::path::Path;
use std::process::{Child, ChildStdin, ChildStdout, Command, Stdio};
use std::sync::mpsc::{channel, RecvTimeoutError};
use std::thread::{scope, sleep};
use std::time::{Duration, Instant};

/// A program that takes longer is ended, and fails.
const LIMIT: Duration = Duration::from_secs(60);
/// The pause before each bit of input or output.
const PAUSE: Duration = Duration::from_millis(1);

const SIGKILL: i32 = 9;
const SIGCONT: i32 = 18;
const SIGSTOP: i32 = 19;

/// How the input is handed over and the output taken.
#[derive(Clone)]
pub struct Way {
    /// Where the input is cut: before each part but the first there is a pause.
    pub cuts: Vec<usize>,
    /// So many bytes are taken at a time, with a pause before each; 0 takes all without a pause.
    pub taken: usize,
    /// At each pause the program is stopped and continued, which cuts short a write that waits.
    pub stopped: bool,
}

impl Way {
    pub fn at_once() -> Way {
        Way { cuts: Vec::new(), taken: 0, stopped: false }
    }

    /// The input of this length in pieces of so many bytes.
    pub fn in_pieces(len: usize, bytes: usize) -> Way {
        Way { cuts: (bytes..len).step_by(bytes).collect(), ..Way::at_once() }
    }

    /// The input cut at one place.
    pub fn cut_at(cut: usize) -> Way {
        Way { cuts: vec![cut], ..Way::at_once() }
    }

    /// The output taken slowly, so that writes of the program wait.
    pub fn slowly(taken: usize) -> Way {
        Way { taken, ..Way::at_once() }
    }

    /// The output taken slowly, and writes that wait cut short.
    pub fn interrupted(taken: usize) -> Way {
        Way { taken, stopped: true, ..Way::at_once() }
    }
}

impl Display for Way {
    fn fmt(&self, out: &mut Formatter) -> std::fmt::Result {
        write!(out, "input in {} parts, output ", self.cuts.len() + 1)?;
        match self.taken {
            0 => write!(out, "at once"),
            taken => write!(out, "{taken} bytes at a time{}", if self.stopped { ", writes cut" } else { "" }),
        }
    }
}

/// All that the program writes to standard output for an input; an error if it fails or takes too long.
pub fn output(program: &Path, input: &[u8], way: &Way) -> Result<Vec<u8>, String> {
    let mut child = Command::new(program)
        .stdin(Stdio::piped())
        .stdout(Stdio::piped())
        .spawn()
        .map_err(|error| format!("{} cannot be run: {error}", program.display()))?;
    let stdin = child.stdin.take().unwrap();
    let stdout = child.stdout.take().unwrap();
    let pid = child.id();
    let output = scope(|threads| {
        let (over, watch) = channel::<()>();
        threads.spawn(move || {
            if watch.recv_timeout(LIMIT) == Err(RecvTimeoutError::Timeout) {
                signal(pid, SIGKILL);
            }
        });
        let writer = threads.spawn(|| hand_over(stdin, input, way));
        let output = take(stdout, pid, way);
        drop(over);
        writer.join().unwrap().and(output)
    });
    ended(&mut child)?;
    output.map_err(|error| format!("the program's input or output failed: {error}"))
}

/// Hands over the input part by part. A program that has read enough may end before the rest.
fn hand_over(mut stdin: ChildStdin, input: &[u8], way: &Way) -> std::io::Result<()> {
    let mut from = 0;
    for to in way.cuts.iter().copied().chain([input.len()]) {
        if from > 0 {
            sleep(PAUSE);
        }
        match stdin.write_all(&input[from..to]) {
            Err(error) if error.kind() == ErrorKind::BrokenPipe => return Ok(()),
            other => other?,
        }
        from = to;
    }
    Ok(())
}

fn take(mut stdout: ChildStdout, pid: u32, way: &Way) -> std::io::Result<Vec<u8>> {
    let mut output = Vec::new();
    if way.taken == 0 {
        stdout.read_to_end(&mut output)?;
        return Ok(output);
    }
    let mut bytes = vec![0; way.taken];
    loop {
        sleep(PAUSE);
        if way.stopped {
            signal(pid, SIGSTOP);
            sleep(PAUSE);
            signal(pid, SIGCONT);
        }
        match stdout.read(&mut bytes)? {
            0 => return Ok(output),
            count => output.extend(&bytes[..count]),
        }
    }
}

/// Sends a signal to the child, which has not been waited for, so that its number is still its own.
fn signal(pid: u32, number: i32) {
    extern "C" {
        fn kill(pid: i32, signal: i32) -> i32;
    }
    unsafe { kill(pid as i32, number) };
}

/// Waits for the program's end.
fn ended(child: &mut Child) -> Result<(), String> {
    let start = Instant::now();
    loop {
        match child.try_wait().map_err(|error| error.to_string())? {
            Some(status) if status.success() => return Ok(()),
            Some(status) => return Err(format!("the program failed: {status}")),
            None if start.elapsed() > LIMIT => {
                let _ = child.kill();
                let _ = child.wait();
                return Err("the program does not end".into());
            }
            None => sleep(Duration::from_micros(100)),
        }
    }
}
