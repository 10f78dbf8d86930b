//! Drawn names. A live slot's name may be any ten bytes but for the first, which is not 0; a new name keeps to 32 to 126.
//! Two names are the same where they differ in a to z against A to Z alone.

use super::random::Random;

pub type Name = [u8; 10];

/// Shorter names are filled with 32.
pub fn filled(given: &[u8]) -> Name {
    let mut name = [32; 10];
    name[..given.len()].copy_from_slice(given);
    name
}

/// Whether two names are the same: a to z count as A to Z, and all other bytes as they are.
pub fn same(one: &Name, other: &Name) -> bool {
    one.iter().zip(other).all(|(&a, &b)| a == b || is_letter(a) && a ^ b == 32)
}

/// A to Z and a to z: the bytes that have a partner 32 away.
pub fn is_letter(byte: u8) -> bool {
    (65..=90).contains(&(byte & !32))
}

/// The name with some of its letters turned, often with none or all.
pub fn turned(name: Name, random: &mut Random) -> Name {
    let often = random.pick(&[1, 2, 2, 4, 1_000]);
    name.map(|byte| {
        if is_letter(byte) && random.one_in(often) {
            byte ^ 32
        } else {
            byte
        }
    })
}

/// A new name that is usable, of 1 to 10 bytes; the edges of 32 to 126 are frequent, and so are names of few letters, which
/// meet each other.
pub fn usable(random: &mut Random) -> Vec<u8> {
    let length = random.between(1, 10);
    let (few, letters) = (random.one_in(4), random.one_in(3));
    let mut name: Vec<u8> = (0..length)
        .map(|_| match few {
            true => random.pick(b"Aa ~"),
            false if letters => random.pick(b"AZaz@[`{Mm"),
            false => printable(random),
        })
        .collect();
    while name[0] == 32 {
        name[0] = printable(random);
    }
    name
}

fn printable(random: &mut Random) -> u8 {
    if random.one_in(5) {
        random.pick(&[32, 126])
    } else {
        random.between(32, 126) as u8
    }
}

/// A name that no slot of `taken` has, capitals or not: plain, or of any bytes, or one of those with a single byte changed.
pub fn draw(random: &mut Random, taken: &[Name]) -> Name {
    loop {
        let name = match random.below(5) {
            0 | 1 => filled(&usable(random)),
            2 if !taken.is_empty() => changed(turned(random.pick(taken), random), random),
            3 => zeroes_behind(random),
            _ => any(random),
        };
        if name[0] != 0 && !taken.iter().any(|other| same(other, &name)) {
            return name;
        }
    }
}

fn any(random: &mut Random) -> Name {
    let mut name = [0; 10];
    random.fill(&mut name);
    name
}

/// One letter, and then bytes 0: a C string would end there.
fn zeroes_behind(random: &mut Random) -> Name {
    let mut name = [0; 10];
    name[0] = random.byte();
    name[9] = random.pick(&[0, 1, 32]);
    name
}

/// One byte made another: its case, its high bit, one more or less, or to the space.
pub fn changed(mut name: Name, random: &mut Random) -> Name {
    let at = random.below(10);
    let old = name[at];
    name[at] = match random.below(5) {
        0 => old ^ 32,
        1 => old ^ 128,
        2 => old.wrapping_add(1),
        3 => old.wrapping_sub(1),
        _ => 32,
    };
    name
}

/// The name without its spaces at the end.
pub fn without_spaces(name: &Name) -> &[u8] {
    let length = name.iter().rposition(|&byte| byte != 32).map_or(0, |last| last + 1);
    &name[..length]
}
