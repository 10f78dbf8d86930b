//! What the header says of the archive: which calls it has, that it keeps no state and calls next to nothing, and how much
//! stack its calls take.
use crate::compilers::{Folder, Language, archive, build, part};
use crate::{declarations, header_text};
use std::collections::BTreeSet;
use std::process::Command;

/// The archive's symbols, each with the letter that `nm` gives its kind.
fn symbols() -> Vec<(String, char)> {
    let output = Command::new("nm")
        .arg("-P")
        .arg(archive())
        .output()
        .expect("`nm` is needed for this test");
    assert!(output.status.success(), "{}", String::from_utf8_lossy(&output.stderr));
    let of_line = |line: &str| {
        let mut words = line.split_whitespace();
        Some((words.next()?.to_string(), words.next()?.chars().next()?))
    };
    String::from_utf8_lossy(&output.stdout).lines().filter_map(of_line).collect()
}

/// Every call of the archive is declared, and every one declared is there.
#[test]
fn the_archive_has_what_the_header_declares() {
    let symbols = symbols();
    let calls = symbols.iter().filter(|(_, letter)| *letter == 'T');
    let there: BTreeSet<&str> = calls
        .map(|(name, _)| name.strip_prefix("varnucht_").unwrap_or(name))
        .collect();
    let header = declarations::of_header(&header_text());
    let declared: BTreeSet<&str> = header.iter().map(|call| call.name.as_str()).collect();
    assert_eq!(there, declared);
}

/// Of what others define it calls the functions on memory alone; and it has code and constants, but no variable.
#[test]
fn the_archive_keeps_no_state() {
    let outside = ["memcpy", "memmove", "memset", "memcmp", "bcmp"];
    for (name, letter) in symbols() {
        match letter {
            'U' => assert!(outside.contains(&name.as_str()), "{name} is called"),
            'T' | 't' | 'R' | 'r' => {}
            _ => panic!("{name} is of kind {letter}: neither code nor a constant"),
        }
    }
}

/// The stack that the header says a call needs, for each call that it says it of.
fn stack_said() -> Vec<(String, usize)> {
    let figure = |piece: &str| {
        let (bytes, after) = piece.split_once(" bytes. */\nuint64_t varnucht_")?;
        let (call, _) = after.split_once('(')?;
        Some((call.to_string(), bytes.replace(',', "").parse().ok()?))
    };
    let header = header_text();
    let pieces = header.split("Stack: ").skip(1);
    pieces
        .map(|piece| figure(piece).expect("a figure, and then its call"))
        .collect()
}

/// `stack.c` says of each call how many bytes of painted stack it wrote over. A save took less than 5,900 bytes, the calls on
/// reports less than 3,000 and every other call less than 2,030 when bigger directories came; an erase of many 6,392 when it
/// came, the most of it an index of the names and the list as numbers; a piece of a recording 8,360 and its close 9,016, of which the
/// record by value is 1,300 wherever it is handed on. A piece that grows the record where it lies takes 7,016, and a close, which is lent
/// the record, 7,368. The frames in the compiled code have fixed sizes and no call leads back to itself, so that their sum, about the
/// same, holds for every input; but for the tree, which calls itself once for each directory around: at most 255 times, and one of
/// the disks is as deep as that. Where no directory lies in another it takes less than 7 KiB, 5,736 when the header said so.
#[test]
fn the_calls_need_little_stack() {
    let folder = Folder::new("stack");
    let program = build(Language::C, &[], &[part("stack.c")], &folder, "stack");
    let output = Command::new(program).output().expect("the program runs");
    let text = String::from_utf8_lossy(&output.stdout);
    println!("{text}");
    assert!(output.status.success());
    let (mut calls, said, mut trees) = (BTreeSet::new(), stack_said(), 0);
    assert!(!said.is_empty(), "the header says nothing of the stack");
    for line in text.lines() {
        let words: Vec<&str> = line.split(' ').collect();
        let [call, bytes, "refused", number] = words[..] else {
            panic!("{line}")
        };
        let bytes: usize = bytes.parse().expect("a number");
        let said = said.iter().find(|(name, _)| name == call).map(|(_, most)| *most);
        assert!(said.is_none_or(|most| bytes <= most), "{line}: the header says {said:?}");
        let most = match call {
            "save" => 6144,
            "record_open" | "record_add" | "record_close" => 8192,
            "erase_many" => 5120,
            "gather" => 3072,
            // The deep disk is the last of the four.
            "tree" => {
                trees += 1;
                if trees < 4 { 7 * 1024 } else { 17 * 1024 }
            }
            _ => 2048,
        };
        assert!(bytes > 0 && bytes < most, "{line}");
        let checks = ["check", "check_release"].contains(&call);
        assert!(number == "0" || checks && number == "10", "{line}");
        calls.insert((call, number));
    }
    assert_eq!(
        calls.len(),
        25,
        "twenty-three calls that are accepted, and two checks that are refused"
    );
}
