//! `record`: standard input, saved as it comes.
use crate::tool::command_line::arguments::Arguments;
use crate::tool::command_line::file_options::FileOptions;
use crate::tool::command_line::values::NameArgument;
use crate::tool::disk::changes::explained;
use crate::tool::failure::{Failure, Outcome};
use crate::tool::files::image_file;
use crate::tool::files::input::{self, STANDARD};
use crate::tool::output;
use crate::tool::output::counts::counted;
use crate::tool::output::progress::Progress;
use crate::tool::system::{self, SignalGuard};
use std::io::{self, ErrorKind, Read};
use varnucht::{RecordError, Recording, Store};

/// How many bytes are read at once, at most: some eight sectors. What comes slower comes in smaller pieces.
const PIECE: usize = 4_096;

/// Records standard input under the name.
pub fn run(arguments: &Arguments) -> Outcome {
    let name = NameArgument::at(arguments, 1)?;
    let options = FileOptions::read(arguments)?;
    input::not_standard(arguments)?;
    let mut input = input::standard_input()?;
    let what = name.to_string();
    let refused = |reason| Failure::refused(arguments.word(0), &what, reason);
    let (mut locked, mut disk) = image_file::open_for_change(arguments)?;
    let file = options.file(&name).map_err(refused)?;
    let opened = disk.record(&file, &mut locked);
    let recording = opened.map_err(|reason| refused(explained(reason)))?;
    let recorded = follow(recording, &mut *input);
    locked.still_whole().map_err(|error| Failure::io(arguments.word(0), error))?;
    let (bytes, sectors) = recorded.map_err(|stop| match stop {
        RecordingFailure::Input(error) => Failure::io(STANDARD.as_ref(), error),
        RecordingFailure::Signal(error) => Failure::given_up(arguments.word(0), error),
        RecordingFailure::Record(RecordError::Refused(reason)) => refused(explained(reason)),
        RecordingFailure::Record(RecordError::Unwritten(error)) => Failure::write(arguments.word(0), error),
    })?;
    locked
        .holds(disk.image())
        .map_err(|error| Failure::io(arguments.word(0), error))?;
    let bytes = counted(bytes as usize, "byte");
    output::confirm(&format!("recorded {what}: {bytes}, {} written", counted(sectors, "sector")));
    Ok(())
}

/// Why a recording came to no end.
enum RecordingFailure {
    Input(io::Error),
    Signal(io::Error),
    Record(RecordError),
}

impl From<RecordError> for RecordingFailure {
    fn from(error: RecordError) -> RecordingFailure {
        RecordingFailure::Record(error)
    }
}

/// Adds what the input gives, as it comes, and closes the recording at its end. Gives how many bytes came, and how many sectors
/// were written. While it waits for input a signal ends the tool at once.
fn follow<S: Store>(mut recording: Recording<S>, input: &mut impl Read) -> Result<(u64, usize), RecordingFailure> {
    let (mut piece, mut sectors) = ([0; PIECE], 0);
    let mut progress = Progress::new();
    loop {
        let came = match input.read(&mut piece) {
            Err(error) if error.kind() == ErrorKind::Interrupted => continue,
            came => came.map_err(RecordingFailure::Input)?,
        };
        let guard = SignalGuard::new();
        if came == 0 {
            let bytes = recording.bytes();
            return Ok((bytes, sectors + recording.close()?));
        }
        sectors += recording.add(&piece[..came])?;
        drop(guard);
        // One that came after the last sector of the piece was only noted.
        system::check_signals().map_err(RecordingFailure::Signal)?;
        progress.show(|| format!("{} bytes recorded, {sectors} sectors written ", recording.bytes()));
    }
}
