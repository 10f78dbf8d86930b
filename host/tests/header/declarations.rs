//! The calls that the header and `raw.rs` declare, each read from its text and brought to one form to compare.

/// A call: its name, and each argument's name and type, the type in Rust's words.
#[derive(Clone, Debug, PartialEq, Eq, PartialOrd, Ord)]
pub struct Declaration {
    pub name: String,
    pub arguments: Vec<(String, String)>,
}

/// The text without its comments of the form `/* .. */`.
fn without_comments(text: &str) -> String {
    let mut rest = text;
    let mut plain = String::new();
    while let Some((before, after)) = rest.split_once("/*") {
        plain.push_str(before);
        rest = after.split_once("*/").expect("a comment ends").1;
    }
    plain + rest
}

/// The pieces of `text` that stand between `opening` and `closing`, each up to the first `closing`.
fn between<'a>(text: &'a str, opening: &str, closing: &str) -> Vec<&'a str> {
    let after = text.split(opening).skip(1);
    after
        .filter_map(|piece| piece.split_once(closing))
        .map(|(inside, _)| inside)
        .collect()
}

/// `name(arguments` taken apart; an empty last argument, after a comma, is none.
fn taken_apart(declared: &str, argument: impl Fn(&str) -> (String, String)) -> Declaration {
    let (name, arguments) = declared.split_once('(').expect("a call has arguments");
    let arguments = arguments
        .split(',')
        .map(str::trim)
        .filter(|one| !one.is_empty())
        .map(argument)
        .collect();
    Declaration {
        name: name.trim().to_string(),
        arguments,
    }
}

fn rust_type(c: &str) -> String {
    match c {
        "const uint8_t *" => "*const u8".to_string(),
        "uint8_t *" => "*mut u8".to_string(),
        // It has 64 bits on every machine, and a `usize` has where the crate is built.
        "varnucht_length" => "usize".to_string(),
        "uint32_t" => "u32".to_string(),
        other => panic!("the header has an argument of another type: {other}"),
    }
}

/// `type name`, where the name is what stands behind the last space or star.
fn c_argument(argument: &str) -> (String, String) {
    let flat = argument.split_whitespace().collect::<Vec<_>>().join(" ");
    let start = flat.rfind([' ', '*']).expect("an argument has a name") + 1;
    let (kind, name) = flat.split_at(start);
    (name.to_string(), rust_type(kind.trim()))
}

/// `name: type`. `new` is a word of C++, so the header says `new_name`.
fn rust_argument(argument: &str) -> (String, String) {
    let (name, kind) = argument.split_once(':').expect("an argument has a type");
    let name = match name.trim() {
        "new" => "new_name",
        "new_len" => "new_name_len",
        name => name,
    };
    (name.to_string(), kind.trim().to_string())
}

/// The calls of the header, sorted: its declarations, and not the functions written out there.
pub fn of_header(text: &str) -> Vec<Declaration> {
    let plain = without_comments(text);
    let mut calls: Vec<Declaration> = between(&plain, "uint64_t varnucht_", ");")
        .into_iter()
        .filter(|one| !one.contains('{'))
        .map(|one| taken_apart(one, c_argument))
        .collect();
    calls.sort();
    calls
}

/// The calls of `raw.rs`, sorted. Every one answers a `u64`.
pub fn of_raw(text: &str) -> Vec<Declaration> {
    let mut calls: Vec<Declaration> = between(text, "pub fn varnucht_", ") -> u64;")
        .into_iter()
        .map(|one| taken_apart(one, rust_argument))
        .collect();
    calls.sort();
    calls
}
