//! Many files, erased at once.
use crate::calls;
use crate::image::Image;
use crate::name::{NAME_LENGTH, Name};
use crate::refusal::{Refusal, Refused};
use crate::sectors::Sectors;

/// The bytes of a list with room for every sector that a directory can have: 389 on 39 tracks, two bytes to a number.
const ERASE_LIST_LENGTH: usize = 2 * 389;

/// What became of many names. [`Disk::erase_many`](crate::Disk::erase_many) gives it.
#[derive(Debug)]
#[must_use = "some of the files may be refused, and the others are erased in memory alone until the sectors are written"]
pub struct Erased<'d> {
    /// For each name, in the order asked for: its file is erased, or why it is not.
    pub answers: Vec<Result<(), Refusal>>,
    /// The directory's sectors that are to be written, each once and rising. Each of them is a change of its own: cut short,
    /// the files erased in the sectors written are gone, and all others are still there.
    pub sectors: Sectors<'d>,
}

/// What the library answered: for each name, and the list of the sectors with how many they are.
pub(crate) struct EraseAnswers {
    pub answers: Vec<Result<(), Refusal>>,
    pub list: [u8; ERASE_LIST_LENGTH],
    pub many: u32,
}

/// Erases the files of these names in the image: the library does it.
pub(crate) fn erase_many(image: &mut Image, names: &[Name]) -> Result<EraseAnswers, Refused> {
    let names: Vec<u8> = names.iter().flat_map(|name| *name.as_bytes()).collect();
    let mut answers = vec![0; names.len() / NAME_LENGTH];
    let mut list = [0; ERASE_LIST_LENGTH];
    let done = calls::erase_many(image.as_bytes_mut(), &names, &mut answers, &mut list).decode()?;
    let answer = |number: &u8| Refusal::from_number(*number).map_or(Ok(()), Err);
    Ok(EraseAnswers {
        answers: answers.iter().map(answer).collect(),
        list,
        many: done.value,
    })
}
