//! Colour on a terminal.
use std::env;
use std::io::{self, IsTerminal};

/// Whether to print in colour where nothing else is asked for: on a terminal, where the environment allows it.
pub fn is_usual() -> bool {
    io::stdout().is_terminal() && allowed()
}

/// Whether the environment allows colour: NO_COLOR is not set or empty, and the terminal is not a dumb one.
fn allowed() -> bool {
    let plain = env::var_os("NO_COLOR").is_some_and(|value| !value.is_empty());
    !plain && env::var_os("TERM").is_none_or(|term| term != "dumb")
}

/// A colour of the terminal.
#[derive(Clone, Copy, PartialEq, Eq)]
pub enum Style {
    /// As the terminal prints.
    Plain,
    /// Faint, for what is free.
    Faint,
    /// Bold, for the directory.
    Bold,
    /// One of twelve colours.
    Hue(usize),
}

impl Style {
    /// What switches the terminal to this colour.
    pub fn code(self) -> String {
        match self {
            Style::Plain => "\x1b[0m".to_string(),
            Style::Faint => "\x1b[0;2m".to_string(),
            Style::Bold => "\x1b[0;1m".to_string(),
            Style::Hue(hue) => format!("\x1b[0;{}m", HUES[hue % HUES.len()]),
        }
    }
}

/// The terminal's colours but black and white, neighbours well apart.
const HUES: [u8; 12] = [32, 35, 36, 33, 34, 31, 92, 95, 96, 93, 94, 91];

/// Text with colours, or without where they are not wanted.
pub struct StyledText {
    text: String,
    colour: bool,
    now: Style,
}

impl StyledText {
    /// No text yet.
    pub fn new(colour: bool) -> StyledText {
        StyledText {
            text: String::new(),
            colour,
            now: Style::Plain,
        }
    }

    /// Adds words in a colour.
    pub fn add(&mut self, style: Style, words: &str) {
        if self.colour && style != self.now {
            self.text.push_str(&style.code());
            self.now = style;
        }
        self.text.push_str(words);
    }

    /// The text, ending in the terminal's own colour.
    pub fn finish(mut self) -> String {
        self.add(Style::Plain, "");
        self.text
    }
}
