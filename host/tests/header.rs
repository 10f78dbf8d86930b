//! The C header and its example: both compile without a warning as C99 and as C++, the header says what document 01 and
//! `raw.rs` say, every call links and takes empty slices, and the example does its work on a disk.
#[path = "header/archive.rs"]
mod archive;
#[path = "header/compilers.rs"]
mod compilers;
#[path = "header/declarations.rs"]
mod declarations;
#[path = "header/example.rs"]
mod example;
#[path = "support/table.rs"]
mod table;

use compilers::{BOTH, Folder, Language, build, compile, link, part, root, try_compile};
use std::fs;
use std::process::Command;

/// The parts of the program that checks the header from inside.
const CHECKS: [&str; 14] = [
    "main.c",
    "constants.c",
    "answers.c",
    "prototypes.c",
    "entries.c",
    "empty.c",
    "sizes.c",
    "pieces.c",
    "reports.c",
    "bigger.c",
    "tree.c",
    "gather.c",
    "erase_many.c",
    "recording.c",
];

fn header_text() -> String {
    fs::read_to_string(root().join("include/varnucht.h")).expect("the header")
}

#[test]
fn the_header_compiles_alone() {
    let folder = Folder::new("alone");
    let source = folder.write("alone.c", "#include \"varnucht.h\"\n#include \"varnucht.h\"\n");
    let standards = [
        (Language::C, "c99"),
        (Language::C, "c11"),
        (Language::Cpp, "c++11"),
        (Language::Cpp, "c++17"),
    ];
    for (language, standard) in standards {
        for flags in [
            &["-O0"][..],
            &["-O2"],
            &["-Wconversion", "-Wsign-conversion", "-Wshadow", "-Wundef", "-Wcast-qual"],
        ] {
            compile(language, standard, flags, &source, &folder.file("alone.o"));
        }
    }
}

/// Two units that both include the header, each in C or in C++, and call into each other and into the archive.
#[test]
fn two_units_link() {
    let folder = Folder::new("two");
    let (calls, main) = (part("unit.c"), part("units.c"));
    for one in BOTH {
        for two in BOTH {
            let objects = [folder.file("one.o"), folder.file("two.o")];
            compile(one, one.standard(), &[], &calls, &objects[0]);
            compile(two, two.standard(), &[], &main, &objects[1]);
            let linker = if one == Language::C && two == Language::C {
                Language::C
            } else {
                Language::Cpp
            };
            link(linker, &objects, &[], &folder.file("units"));
            let status = Command::new(folder.file("units")).status().expect("the program runs");
            assert!(status.success(), "{one:?} with {two:?}: {status}");
        }
    }
}

#[test]
fn the_checks_hold() {
    let folder = Folder::new("checks");
    let sources: Vec<_> = CHECKS.iter().map(|name| part(name)).collect();
    for language in BOTH {
        for optimized in ["-O0", "-O2"] {
            let program = build(language, &[optimized], &sources, &folder, "checks");
            let output = Command::new(program).output().expect("the checks run");
            let text = String::from_utf8_lossy(&output.stdout);
            println!("{language:?} {optimized}\n{text}");
            let last = text.lines().last().unwrap_or_default();
            let held = last.strip_prefix("held ").and_then(|rest| rest.strip_suffix(", failed 0"));
            assert!(output.status.success(), "{language:?} {optimized}: {}\n{text}", output.status);
            assert!(
                held.and_then(|held| held.parse().ok()).is_some_and(|held: u32| held > 60_000),
                "{text}"
            );
        }
    }
}

/// The checks of types can fail: with another type in place of a call's own no compiler takes them.
#[test]
fn a_wrong_type_is_refused() {
    let folder = Folder::new("wrong");
    let text = fs::read_to_string(part("prototypes.c")).expect("the checks of types");
    let wrong = [
        (
            "list_call(const uint8_t *, size_t, uint8_t *",
            "list_call(const uint8_t *, size_t, const uint8_t *",
        ),
        ("image_call(const uint8_t *, size_t)", "image_call(const uint8_t *, uint32_t)"),
        ("size_t, uint32_t, uint32_t, uint32_t);", "size_t, uint32_t, uint32_t);"),
        (
            "next_call(const uint8_t *, size_t, uint32_t, uint32_t, uint32_t,",
            "next_call(const uint8_t *, size_t, uint32_t, uint32_t, size_t,",
        ),
        (
            "many_call(uint8_t *, size_t, const uint8_t *, size_t, uint8_t *",
            "many_call(uint8_t *, size_t, const uint8_t *, size_t, const uint8_t *",
        ),
        (
            "piece_call(uint8_t *, size_t, const uint8_t *, size_t, uint8_t *",
            "piece_call(uint8_t *, size_t, const uint8_t *, size_t, const uint8_t *",
        ),
        (
            "join_call(uint8_t *, size_t, const uint8_t *, size_t)",
            "join_call(uint8_t *, size_t, uint8_t *, size_t)",
        ),
    ];
    for (right, other) in wrong {
        assert_eq!(text.matches(right).count(), 1, "{right}");
        let source = folder.write("wrong.c", text.replace(right, other));
        for language in BOTH {
            let output = try_compile(
                language,
                language.standard(),
                &compilers::STRICT,
                &source,
                &folder.file("wrong.o"),
            );
            assert!(!output.status.success(), "{language:?} takes {other}");
        }
    }
}

#[test]
fn the_words_are_the_papers() {
    let folder = Folder::new("words");
    let sources: Vec<_> = CHECKS.iter().map(|name| part(name)).collect();
    for language in BOTH {
        let program = build(language, &[], &sources, &folder, "words");
        let output = Command::new(program).arg("words").output().expect("the words are printed");
        let text = String::from_utf8(output.stdout).expect("the words are UTF-8");
        let lines: Vec<&str> = text.lines().collect();
        assert_eq!(lines.len(), 256);
        assert_eq!(lines[0], "0 accepted");
        for (number, line) in (1..=255).zip(&lines[1..]) {
            let words = table::words(number).unwrap_or("not a number of refusal");
            assert_eq!(*line, format!("{number} {words}"));
        }
    }
}

#[test]
fn the_header_declares_what_raw_declares() {
    let header = declarations::of_header(&header_text());
    let raw_text = fs::read_to_string(root().join("host/src/raw.rs")).expect("raw.rs");
    let raw = declarations::of_raw(&raw_text);
    assert_eq!(
        raw.len(),
        raw_text.matches("pub fn ").count(),
        "every function of raw.rs is read"
    );
    assert_eq!(header.len(), 23);
    assert_eq!(header, raw);
    for call in &header {
        for (at, (name, kind)) in call
            .arguments
            .iter()
            .enumerate()
            .filter(|(_, (_, kind))| kind.starts_with('*'))
        {
            let next = call
                .arguments
                .get(at + 1)
                .unwrap_or_else(|| panic!("{}: no length behind {name}: {kind}", call.name));
            assert_eq!(next, &(format!("{name}_len"), "usize".to_string()), "{}", call.name);
        }
    }
}
