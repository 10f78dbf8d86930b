//! The table of commands as a man page.
use crate::tool::command_line::command::{Command, CommandOption, CommandTable};
use crate::tool::commands::help::text;

/// Words of a man page: a backslash and a dash as themselves, and no line that gives an order.
fn roff(words: &str) -> String {
    let words = words.replace('\\', "\\e").replace('-', "\\-");
    let line = |line: &str| match line.starts_with(['.', '\'']) {
        true => format!("\\&{line}\n"),
        false => format!("{line}\n"),
    };
    words.lines().map(line).collect()
}

/// The man page.
pub fn man(table: &CommandTable) -> String {
    let version = env!("CARGO_PKG_VERSION");
    let commands: String = table.commands.iter().map(section).collect();
    let aliases: String = table
        .aliases
        .iter()
        .map(|(alias, name)| format!(".TP\n.B {alias}\nThe same as\n.BR {name} .\n"))
        .collect();
    format!(
        ".TH VARNUCHT 1 \"\" \"varnucht {version}\" \"User Commands\"\n\
         .SH NAME\nvarnucht \\- disks of the SAM Coupé in image files\n\
         .SH SYNOPSIS\n.B varnucht\n.I COMMAND\n.RI [ WORD ]...\n.RI [ OPTION ]...\n\
         .SH DESCRIPTION\nAn image file has 819,200 bytes. What a command does to it is done by a library that is proved correct.\n\
         .SH COMMANDS\n{commands}.SS Other names\n{aliases}\
         .SH EXIT STATUS\n.nf\n{}.fi\n.SH SEE ALSO\n.BR varnucht (3)\n",
        roff(text::FOOT.trim_start().trim_start_matches("Exit status:\n"))
    )
}

/// What a man page says of a command.
fn section(command: &Command) -> String {
    let options: String = command.options.iter().map(|option| described(option)).collect();
    let more: String = command.more.iter().map(|words| format!(".PP\n{}", roff(words))).collect();
    format!(
        ".SS \"{}\"\n{}{options}{more}",
        roff(&text::called(command)).trim_end(),
        roff(&text::sentence(command.brief))
    )
}

/// What a man page says of an option.
fn described(option: &CommandOption) -> String {
    let value = option.value.map_or(String::new(), |value| format!(" {value}"));
    let called = roff(&format!("{}{value}", option.names.join(", ")));
    format!(".TP\n.B {}\n{}", called.trim_end(), roff(option.says))
}
