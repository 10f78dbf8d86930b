//! The tool as a process that is killed at a chosen moment.
use std::fs::File;
use std::os::unix::fs::FileExt;
use std::os::unix::process::ExitStatusExt;
use std::path::Path;
use std::process::{Child, Command, Output, Stdio};
use std::thread::sleep;
use std::time::{Duration, Instant};

/// When to kill.
pub enum Moment {
    /// So long after the start.
    AfterStart(Duration),
    /// So long after the first write was seen.
    AfterFirstWrite(Duration),
}

/// How a process ended: by the kill, or by itself before it. And the time from its start, or from its first write where that
/// was waited for.
pub struct End {
    pub killed: bool,
    pub lived: Duration,
}

/// The tool's words, and the file that is its standard input, if one is.
#[derive(Clone, Copy)]
pub struct Line<'a> {
    pub words: &'a [&'a str],
    pub input: Option<&'a str>,
}

/// These words alone.
pub fn line<'a>(words: &'a [&'a str]) -> Line<'a> {
    Line { words, input: None }
}

fn tool(line: Line) -> Command {
    let mut command = Command::new(env!("CARGO_BIN_EXE_varnucht"));
    let input = line.input.map(|path| File::open(path).expect("the input"));
    command.args(line.words).stdin(input.map_or(Stdio::null(), Stdio::from));
    command
}

/// Runs the tool to its end.
pub fn run(line: Line) -> Output {
    tool(line).output().expect("the tool runs")
}

/// Runs the tool until the moment, and kills it then.
pub fn kill_at(line: Line, moment: Moment, image: &Path, first: usize) -> End {
    let watched = File::open(image).expect("the image");
    let before = sector(&watched, first);
    let mut child = tool(line)
        .stdout(Stdio::null())
        .stderr(Stdio::null())
        .spawn()
        .expect("the tool starts");
    let mut start = Instant::now();
    match moment {
        Moment::AfterStart(wait) => sleep(wait),
        Moment::AfterFirstWrite(wait) => {
            wait_for_write(&mut child, &watched, first, &before);
            start = Instant::now();
            sleep(wait);
        }
    }
    // A process that has ended by itself is no longer there to kill: that is no fault.
    let _ = child.kill();
    let lived = start.elapsed();
    let status = child.wait().expect("the tool ends");
    let killed = status.signal() == Some(9);
    assert!(killed || status.success(), "the tool was neither killed nor done: {status}");
    End { killed, lived }
}

/// Returns when the sector is no longer what it was, or the process has ended.
fn wait_for_write(child: &mut Child, watched: &File, first: usize, before: &[u8]) {
    while sector(watched, first) == before {
        if child.try_wait().expect("the tool's state").is_some() {
            return;
        }
        sleep(Duration::from_micros(20));
    }
}

fn sector(image: &File, number: usize) -> Vec<u8> {
    let mut bytes = vec![0; 512];
    image
        .read_exact_at(&mut bytes, 512 * number as u64)
        .expect("a sector of the image");
    bytes
}
