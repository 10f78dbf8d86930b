//! `tree`: the directories, and what lies beneath each of them.
use crate::tool::command_line::arguments::Arguments;
use crate::tool::command_line::values::NameArgument;
use crate::tool::failure::{Failure, Outcome, Reason};
use crate::tool::files::image_file;
use crate::tool::output;
use crate::tool::output::counts::{counted, directories};
use varnucht::{Disk, Entry, Name, Refusal, Refused, Slot, Tree, Within};

/// Prints the tree of the directory named, or that of the whole disk.
pub fn run(arguments: &Arguments) -> Outcome {
    let asked = match arguments.words() {
        [_, _, ..] => Some(NameArgument::at(arguments, 1)?),
        _ => None,
    };
    // As in the library an empty name is the root.
    let asked = asked.filter(|name| !name.is_empty());
    let disk = image_file::disk(arguments)?;
    let name = asked.as_ref().map(|name| name.name("it")).transpose();
    let drawn = name.and_then(|name| drawing(&disk, name.as_ref()));
    let refused = |reason| match &asked {
        Some(name) => Failure::refused(arguments.word(0), &name.to_string(), reason),
        None => Failure::not_accepted(arguments.word(0), reason),
    };
    output::print(drawn.map_err(refused)?)
}

/// The whole picture: a line for each file and each directory, and how many there are.
fn drawing(disk: &Disk, name: Option<&Name>) -> Result<String, Reason> {
    let tree = disk.tree(name).map_err(|refused| explained(disk, refused))?;
    let top = name.and_then(|name| disk.listing().find(name));
    let rows: Vec<[String; 4]> = top.into_iter().map(|entry| row("", entry)).chain(rows(&tree, top)).collect();
    let header = ["slot", "name", "kind", "sectors"].map(String::from);
    let lines: String = columns(&[vec![header], rows].concat()).collect();
    let beneath = top.map_or(String::new(), |entry| format!(" beneath {}", entry.name()));
    Ok(format!("{lines}{}{beneath}\n", summary(&tree)))
}

/// What is said of each file and each directory of a tree, from the first to the last.
fn rows(tree: &Tree, top: Option<&Entry>) -> Vec<[String; 4]> {
    let least = usize::from(top.is_none());
    let mut rows = Vec::new();
    // From the last on: so it is known whether something follows in each of the directories around.
    let mut follows: Vec<bool> = Vec::new();
    for branch in tree.all().collect::<Vec<_>>().into_iter().rev() {
        follows.resize(branch.depth() + 1, false);
        let last = follows.len() - 1;
        let line = |(depth, follows): (usize, &bool)| match (depth == last, follows) {
            (true, true) => "├─ ",
            (true, false) => "└─ ",
            (false, true) => "│  ",
            (false, false) => "   ",
        };
        let lines: String = follows.iter().enumerate().skip(least).map(line).collect();
        rows.push(row(&lines, branch.entry()));
        follows[last] = true;
    }
    rows.reverse();
    rows
}

/// What is said of a file or of a directory, with the lines before its name.
fn row(lines: &str, entry: &Entry) -> [String; 4] {
    [
        entry.slot().to_string(),
        format!("{lines}{}", entry.name()),
        entry.kind().to_string(),
        match entry.kind().is_directory() {
            true => "-".to_string(),
            false => entry.sector_count().to_string(),
        },
    ]
}

/// The lines of a table: numbers to the right, words to the left.
fn columns(rows: &[[String; 4]]) -> impl Iterator<Item = String> {
    let width = |column: usize| rows.iter().map(|row| row[column].chars().count()).max().unwrap_or(0);
    let [slot, name, kind, sectors] = [0, 1, 2, 3].map(width);
    rows.iter()
        .map(move |[s, n, k, c]| format!("{s:>slot$}  {n:<name$}  {k:<kind$}  {c:>sectors$}\n"))
}

/// How many directories and files a tree has.
fn summary(tree: &Tree) -> String {
    let found = tree.all().filter(|branch| branch.entry().kind().is_directory()).count();
    format!("{}, {}", directories(found), counted(tree.len() - found, "file"))
}

/// A refusal; of directories that do not fit together it says too what is wrong.
fn explained(disk: &Disk, refused: Refused) -> Reason {
    let more = refused.slot.and_then(|slot| fault(disk, refused.refusal, slot));
    Reason { refused, more }
}

/// What is wrong with the file or the directory in a slot.
fn fault(disk: &Disk, refusal: Refusal, slot: Slot) -> Option<String> {
    let entries = disk.listing().entries();
    let entry = entries.iter().find(|entry| entry.slot() == slot)?;
    let name = entry.name();
    match refusal {
        Refusal::CodeNotOwn => {
            let other = entries.iter().find(|other| other.code() == entry.code())?;
            Some(match entry.code()? {
                0 => format!("{name} has code 0"),
                code => format!("{name} has code {code}, and so has {}", other.name()),
            })
        }
        Refusal::DirectoryMissing | Refusal::DirectoryInItself => Some(format!("{name} {}", place(disk, entry))),
        Refusal::WrongKind => Some(format!("it is no directory but of kind {}", entry.kind())),
        _ => None,
    }
}

/// Where a file or a directory is.
fn place(disk: &Disk, entry: &Entry) -> String {
    match disk.listing().within(entry) {
        Within::Root => "is in the root".to_string(),
        Within::Directory(directory) => format!("is in {}", directory.name()),
        Within::Nowhere(code) => format!("is in a directory with code {code}, which is not there"),
    }
}
