//! The shape of the table of commands: what a command takes, what help says of it, and the function that does it.
use crate::tool::command_line::arguments::Arguments;
use crate::tool::failure::Outcome;

/// A command of the tool.
pub struct Command {
    /// What it is called by.
    pub name: &'static str,
    /// What it takes, in order: a word for each place. A last place `WORD...` takes one or more, `[WORD...]` any number, none
    /// too, and `[WORD]` one or none.
    pub places: &'static [&'static str],
    /// Its options.
    pub options: &'static [&'static CommandOption],
    /// What it does, in a line.
    pub brief: &'static str,
    /// What else is to be known of it, by paragraphs.
    pub more: &'static [&'static str],
    /// Does it.
    pub run: fn(&Arguments) -> Outcome,
}

/// An option of a command.
pub struct CommandOption {
    /// What it is called by; the first is its name in the code.
    pub names: &'static [&'static str],
    /// What value it takes, if it takes one.
    pub value: Option<&'static str>,
    /// What it does.
    pub says: &'static str,
}

/// All commands, and what some of them are called too.
pub struct CommandTable {
    /// All commands but `help`.
    pub commands: &'static [Command],
    /// Other names of commands, each with the name that it stands for.
    pub aliases: &'static [(&'static str, &'static str)],
}

impl CommandTable {
    /// The command of this name, or that is called so too.
    pub fn find(&self, name: &str) -> Option<&'static Command> {
        let alias = self.aliases.iter().find(|(alias, _)| *alias == name);
        let name = alias.map_or(name, |(_, name)| *name);
        self.commands.iter().find(|command| command.name == name)
    }
}
