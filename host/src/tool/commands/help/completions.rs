//! The table of commands as completions for bash, zsh and fish.
use crate::tool::command_line::command::{Command, CommandOption, CommandTable};

/// The names of all commands, by other names too.
fn names(table: &CommandTable) -> String {
    let aliases = table.aliases.iter().map(|(alias, _)| *alias);
    let names = table
        .commands
        .iter()
        .map(|command| command.name)
        .chain(aliases)
        .chain(["help"]);
    names.collect::<Vec<_>>().join(" ")
}

/// A command's name and those that it has too, with something between them.
fn called(table: &CommandTable, command: &Command, between: &str) -> String {
    let aliases = table
        .aliases
        .iter()
        .filter(|(_, name)| *name == command.name)
        .map(|(alias, _)| *alias);
    std::iter::once(command.name).chain(aliases).collect::<Vec<_>>().join(between)
}

/// Where it says what it is made from.
const MADE: &str = "made from the tool's own table of commands";

/// The completions for bash.
pub fn bash(table: &CommandTable) -> String {
    let options = |command: &Command| {
        let names = command.options.iter().flat_map(|option| option.names).copied();
        names.chain(["--help"]).collect::<Vec<_>>().join(" ")
    };
    let cases: String = table
        .commands
        .iter()
        .map(|command| format!("        {}) options='{}' ;;\n", called(table, command, "|"), options(command)))
        .collect();
    format!(
        "# bash completion of varnucht, {MADE}\n\
         _varnucht() {{\n\
         \x20   local word=${{COMP_WORDS[COMP_CWORD]}} options=\n\
         \x20   COMPREPLY=()\n\
         \x20   if [ \"$COMP_CWORD\" -eq 1 ] || [ \"${{COMP_WORDS[1]}}\" = help ]; then\n\
         \x20       COMPREPLY=($(compgen -W '{}' -- \"$word\"))\n\
         \x20       return\n\
         \x20   fi\n\
         \x20   case ${{COMP_WORDS[1]}} in\n{cases}\
         \x20   esac\n\
         \x20   case $word in\n\
         \x20       -*) COMPREPLY=($(compgen -W \"$options\" -- \"$word\")) ;;\n\
         \x20   esac\n\
         }}\n\
         complete -o default -F _varnucht varnucht\n",
        names(table)
    )
}

/// Words between single quotes of a shell.
fn quoted(words: &str) -> String {
    format!("'{}'", words.replace('\'', r"'\''"))
}

/// What an option does, in one line.
fn says(option: &CommandOption) -> String {
    option.says.replace('\n', " ")
}

/// Whether the value of an option is a file.
fn takes_file(option: &CommandOption) -> bool {
    matches!(option.value, Some("FILE" | "NEW" | "LIST"))
}

/// The completions for zsh.
pub fn zsh(table: &CommandTable) -> String {
    let plain = |words: &str| words.replace(':', r"\:").replace('[', r"\[").replace(']', r"\]");
    let described = |name: &str, brief: &str| format!("    {}\n", quoted(&format!("{name}:{}", plain(brief))));
    let commands = table.commands.iter().map(|command| described(command.name, command.brief));
    let aliases = table
        .aliases
        .iter()
        .map(|(alias, name)| described(alias, &format!("the same as `{name}`")));
    let names: String = commands
        .chain(aliases)
        .chain([described("help", "help on a command")])
        .collect();
    let spec = |option: &CommandOption, name: &str| {
        let value = match option.value {
            None => String::new(),
            Some(value) if takes_file(option) => format!(":{value}:_files"),
            Some(value) => format!(":{value}: "),
        };
        let joined = if option.value.is_some() && name.starts_with("--") {
            "="
        } else {
            ""
        };
        format!(" {}", quoted(&format!("{name}{joined}[{}]{value}", plain(&says(option)))))
    };
    let case = |command: &Command| {
        let each = command.options.iter();
        let options: String = each
            .flat_map(|option| option.names.iter().map(move |name| spec(option, name)))
            .collect();
        format!(
            "    {}) _arguments{options} '*:file:_files' ;;\n",
            called(table, command, "|")
        )
    };
    let cases: String = table.commands.iter().map(case).collect();
    format!(
        "#compdef varnucht\n# zsh completion of varnucht, {MADE}\n\
         _varnucht() {{\n  local -a commands=(\n{names}  )\n\
         \x20 if (( CURRENT == 2 )) || [[ $words[2] == help ]]; then\n    _describe command commands\n    return\n  fi\n\
         \x20 local command=$words[2]\n  shift words\n  (( CURRENT-- ))\n\
         \x20 case $command in\n{cases}  esac\n}}\n_varnucht \"$@\"\n"
    )
}

/// The completions for fish.
pub fn fish(table: &CommandTable) -> String {
    let quoted = |words: &str| format!("'{}'", words.replace('\\', r"\\").replace('\'', r"\'"));
    let name = |name: &str, brief: &str| {
        format!(
            "complete -c varnucht -n __fish_use_subcommand -f -a {name} -d {}\n",
            quoted(brief)
        )
    };
    let commands = table.commands.iter().map(|command| name(command.name, command.brief));
    let aliases = table
        .aliases
        .iter()
        .map(|(alias, of)| name(alias, &format!("the same as `{of}`")));
    let names: String = commands.chain(aliases).chain([name("help", "help on a command")]).collect();
    let line = |command: &Command, option: &CommandOption| {
        let names: String = option
            .names
            .iter()
            .map(|name| match name.strip_prefix("--") {
                Some(long) => format!(" -l {long}"),
                None => format!(" -s {}", &name[1..]),
            })
            .collect();
        let value = match option.value {
            None => "",
            Some(_) if takes_file(option) => " -r",
            Some(_) => " -x",
        };
        let seen = called(table, command, " ");
        format!(
            "complete -c varnucht -n '__fish_seen_subcommand_from {seen}'{names}{value} -d {}\n",
            quoted(&says(option))
        )
    };
    let each = table.commands.iter();
    let options: String = each
        .flat_map(|command| command.options.iter().map(move |option| line(command, option)))
        .collect();
    format!("# fish completion of varnucht, {MADE}\n{names}{options}")
}
