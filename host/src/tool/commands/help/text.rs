//! Help in plain text: on all commands, and on one.
use crate::tool::command_line::command::{Command, CommandOption, CommandTable};

/// What stands above and below the commands.
const HEAD: &str = "varnucht: disks of the SAM Coupé in image files of 819,200 bytes\n\n";
pub const FOOT: &str = "
Exit status:
  0  done
  1  refused: the disk or the request is against the rules; the number and the
     words of the refusal are printed, with the slot that it was found at
  2  the command line was not understood
  3  something could not be read or written
";

/// The help on all commands.
pub fn all(table: &CommandTable) -> String {
    let line = |called: &str, brief: &str| format!("  {called:<27} {brief}\n");
    let lines: String = table
        .commands
        .iter()
        .map(|command| line(&called(command), command.brief))
        .collect();
    let others: String = table
        .aliases
        .iter()
        .map(|(alias, name)| line(alias, &format!("the same as `{name}`")))
        .collect();
    let more = others
        + &line("help [COMMAND]", "this, or more on a command")
        + &line("help --man", "a man page; --bash, --zsh, --fish: completions")
        + &line("--version", "the version");
    format!("{HEAD}{lines}{more}{FOOT}")
}

/// The help on one command.
pub fn one(table: &CommandTable, command: &Command) -> String {
    let options = if command.options.is_empty() { "" } else { " [OPTION]..." };
    let head = format!("varnucht {}{options}\n\n{}\n\n", called(command), sentence(command.brief));
    let lines: String = command.options.iter().map(|option| described(option)).collect();
    let gap = if lines.is_empty() { "" } else { "\n" };
    let others = table
        .aliases
        .iter()
        .filter(|(_, name)| *name == command.name)
        .map(|(alias, _)| format!("`{alias}`"));
    let others = others.collect::<Vec<_>>().join(" and ");
    let also = if others.is_empty() {
        others
    } else {
        format!("It is also called {others}.\n")
    };
    format!("{head}{lines}{gap}{}\n{also}{FOOT}", command.more.join("\n"))
}

/// A command's name and what it takes.
pub fn called(command: &Command) -> String {
    format!("{} {}", command.name, command.places.join(" "))
}

/// Words with a capital and a full stop.
pub fn sentence(words: &str) -> String {
    let mut letters = words.chars();
    letters
        .next()
        .into_iter()
        .flat_map(char::to_uppercase)
        .chain(letters)
        .chain(['.'])
        .collect()
}

/// An option, what it takes and what it does.
fn described(option: &CommandOption) -> String {
    let value = option.value.map_or(String::new(), |value| format!(" {value}"));
    let indent = format!("\n{:21}", "");
    format!(
        "  {:<17}  {}\n",
        format!("{}{value}", option.names.join(", ")),
        option.says.replace('\n', &indent)
    )
}
