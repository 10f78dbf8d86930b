//! `report`: many images in numbers. Several threads read and check images, each into a report of its own and with one
//! buffer of its own; then the reports are joined.
mod format;
mod image_search;

use crate::tool::command_line::arguments::Arguments;
use crate::tool::command_line::values;
use crate::tool::failure::{Failure, Outcome};
use crate::tool::files::image_file::{self, LockPolicy};
use crate::tool::files::input;
use crate::tool::output;
use crate::tool::output::progress::Progress;
use crate::tool::printable::printable;
use image_search::{ImageSearch, PathList, SearchItem};
use std::collections::BTreeMap;
use std::ffi::{OsStr, OsString};
use std::fs::File;
use std::io::{self, Read};
use std::sync::{Mutex, MutexGuard, PoisonError};
use std::thread;
use varnucht::{IMAGE_LENGTH, MOST_DISKS, Report};

/// Prints the report over all images that are named or found.
pub fn run(arguments: &Arguments) -> Outcome {
    let (colour, threads) = (values::colour(arguments)?, threads(arguments)?);
    let queue = WorkQueue::new(search(arguments)?);
    let reports = thread::scope(|scope| {
        let work = || work(&queue, arguments);
        // Where the system gives no more threads, those that are there do the work.
        let others: Vec<_> = (1..threads)
            .map_while(|_| thread::Builder::new().spawn_scoped(scope, work).ok())
            .collect();
        let own = work();
        let others = others.into_iter().map(|other| other.join().expect("a thread ends well"));
        others.chain([own]).collect::<Vec<Report>>()
    });
    let (images, unread) = queue.finish()?;
    let report = joined(&reports)?;
    output::print(match arguments.has("--json") {
        true => format::json(&report, unread),
        false => format::table(&report, unread, colour),
    })?;
    match unread {
        0 => Ok(()),
        _ => Err(Failure::Unread(format!(
            "{unread} of {} could not be read, and the report is without them",
            images + unread
        ))),
    }
}

/// How many threads read, as `--threads` says: else as many as can run at once, and no more than sixteen.
fn threads(arguments: &Arguments) -> Result<usize, Failure> {
    let usual = || thread::available_parallelism().map_or(1, |many| many.get().min(16));
    let Some(word) = arguments.value("--threads") else {
        return Ok(usual());
    };
    match values::number(arguments, word)? {
        many @ 1..=64 => Ok(many as usize),
        _ => Err(arguments.usage(format!("`--threads` takes 1 to 64, and not `{}`", printable(word)))),
    }
}

/// The images that the command line names.
fn search(arguments: &Arguments) -> Result<ImageSearch<'_>, Failure> {
    let list = arguments.value("--files-from");
    if arguments.words().is_empty() && list.is_none() {
        return Err(arguments.usage("`report` takes IMAGE... or `--files-from LIST`: neither is given"));
    }
    input::standard_once(arguments, list)?;
    Ok(ImageSearch::new(arguments.words(), list.map(PathList::open).transpose()?))
}

/// The report over the images of all threads. Refused 31 where they are too many.
fn joined(reports: &[Report]) -> Result<Report, Failure> {
    let mut all = Report::new();
    for report in reports {
        all.join(report)
            .map_err(|refused| Failure::Refused("report".into(), refused.into()))?;
    }
    Ok(all)
}

/// Takes image after image until none is left.
fn work(queue: &WorkQueue, arguments: &Arguments) -> Report {
    let (mut report, mut buffer) = (Report::new(), vec![0; IMAGE_LENGTH + 1]);
    let say = |words: &str| locked(&queue.state).say(words);
    let wait = LockPolicy::new(arguments, &say);
    while let Some((turn, image)) = queue.take() {
        let added = image.and_then(|path| add(&mut report, &path, &wait, &mut buffer));
        locked(&queue.state).done(turn, added);
    }
    report
}

/// Adds the image in a file to the report. Of a longer file no more is read than shows that it is too long.
fn add(report: &mut Report, path: &OsStr, wait: &LockPolicy, buffer: &mut [u8]) -> Outcome {
    let fill = |file: &mut File| fill(file, buffer).map_err(|error| Failure::io(path, error));
    let length = image_file::open(path, wait, fill)?;
    report
        .add(&buffer[..length])
        .map(|_| ())
        .map_err(|refused| Failure::Refused("report".into(), refused.into()))
}

/// Fills a buffer from a file, to its end or to the file's. Gives how many bytes came.
fn fill(file: &mut File, buffer: &mut [u8]) -> io::Result<usize> {
    let mut came = 0;
    while came < buffer.len() {
        match file.read(&mut buffer[came..]) {
            Ok(0) => break,
            Ok(more) => came += more,
            Err(error) if error.kind() == io::ErrorKind::Interrupted => {}
            Err(error) => return Err(error),
        }
    }
    Ok(came)
}

/// What the threads share. The next image may have to be waited for, where standard input names it: meanwhile the others work
/// on, and what they did is told.
struct WorkQueue<'a> {
    search: Mutex<ImageSearch<'a>>,
    state: Mutex<QueueState>,
}

/// How far the work has come.
struct QueueState {
    /// How many images were handed out, which is the turn of the next; and the turns of those that are not done yet.
    turn: usize,
    busy: Vec<usize>,
    /// What is to be said of images, by their turn: it is said when all before them are done.
    said: BTreeMap<usize, String>,
    images: usize,
    unread: usize,
    /// Why no more is handed out.
    stopped: Option<Failure>,
    progress: Progress,
}

/// What is shared, for one thread at a time.
fn locked<T>(shared: &Mutex<T>) -> MutexGuard<'_, T> {
    shared.lock().unwrap_or_else(PoisonError::into_inner)
}

impl<'a> WorkQueue<'a> {
    fn new(search: ImageSearch<'a>) -> WorkQueue<'a> {
        let state = QueueState {
            turn: 0,
            busy: Vec::new(),
            said: BTreeMap::new(),
            images: 0,
            unread: 0,
            stopped: None,
            progress: Progress::new(),
        };
        WorkQueue {
            search: Mutex::new(search),
            state: Mutex::new(state),
        }
    }

    /// Hands out the next image, or what is in its way, and its turn.
    fn take(&self) -> Option<(usize, Result<OsString, Failure>)> {
        let mut search = locked(&self.search);
        // The state is free again before the next image is asked for.
        let over = locked(&self.state).is_over();
        let next = if over { None } else { search.next() };
        locked(&self.state).begin(next?)
    }

    /// How many images were read and how many could not be.
    fn finish(self) -> Result<(usize, usize), Failure> {
        let mut state = self.state.into_inner().unwrap_or_else(PoisonError::into_inner);
        state.progress.clear();
        match state.stopped {
            Some(failure) => Err(failure),
            None => Ok((state.images, state.unread)),
        }
    }
}

impl QueueState {
    /// Whether no more is handed out: something stands against it, or there are more images than a report holds.
    fn is_over(&self) -> bool {
        self.stopped.is_some() || self.images > MOST_DISKS as usize
    }

    /// Gives an image its turn.
    fn begin(&mut self, next: SearchItem) -> Option<(usize, Result<OsString, Failure>)> {
        let image = match next {
            SearchItem::Image(path) => Ok(path),
            SearchItem::Unread(failure) => Err(failure),
            SearchItem::Broken(failure) => {
                self.stopped = Some(failure);
                return None;
            }
        };
        let turn = self.turn;
        self.turn += 1;
        self.busy.push(turn);
        Some((turn, image))
    }

    /// The image of this turn is added, or could not be read.
    fn done(&mut self, turn: usize, added: Outcome) {
        self.busy.retain(|busy| *busy != turn);
        match added {
            Ok(()) => self.images += 1,
            Err(failure @ Failure::Refused(..)) => self.stopped = Some(failure),
            Err(failure) => {
                self.unread += 1;
                self.said.extend(failure.words().map(|words| (turn, words)));
            }
        }
        let first = self.busy.iter().copied().min().unwrap_or(self.turn);
        while let Some(next) = self.said.first_entry()
            && *next.key() < first
        {
            let words = next.remove();
            self.say(&words);
        }
        let (images, unread) = (self.images, self.unread);
        self.progress.show(|| match unread {
            0 => format!("{images} read "),
            _ => format!("{images} read, {unread} could not be "),
        });
    }

    /// Says something on a line of its own.
    fn say(&mut self, words: &str) {
        self.progress.clear();
        output::say(words);
    }
}
