//! Answers decode and names print, whatever they are.
use super::*;
use varnucht::{Answer, escape};

/// Every number decodes, also those that no call gives.
#[test]
fn answers_decode_whatever_they_are() {
    let (mut accepted, mut refused) = (0, 0);
    for seed in 0..100_000u64 {
        let number = seed.wrapping_mul(0x9e37_79b9_7f4a_7c15) ^ seed << 40;
        let number = if seed % 4 == 0 { number & !0xff } else { number };
        match Answer::from_number(number).decode() {
            Ok(done) => {
                accepted += 1;
                let parts = u64::from(done.sector) << 8 | u64::from(done.value) << 24 | u64::from(done.free) << 48;
                assert_eq!(parts, number);
            }
            Err(at) => {
                refused += 1;
                let slot = at.slot.map_or(0, Slot::number);
                assert_eq!(u64::from(at.refusal.number()) + 256 * u64::from(slot), number & 0xff_ffff);
            }
        }
    }
    println!("{accepted} accepted, {refused} refused");
    assert!(accepted > 1_000 && refused > 1_000);
}

/// Names print so that they can be typed back, whatever their bytes are.
#[test]
fn names_print_and_are_typed_back() {
    let mut tried = 0;
    for seed in 0..20_000u64 {
        let mixed = seed.wrapping_mul(0x9e37_79b9_7f4a_7c15);
        let length = 1 + (seed % 10) as usize;
        let bytes: Vec<u8> = (0..length)
            .map(|place| (mixed.rotate_left(7 * place as u32) >> 13) as u8 | u8::from(place == 0))
            .collect();
        let name = Name::new(&bytes).expect("a usable name");
        let printed = name.to_string();
        assert!(printed.bytes().all(|byte| (32..=126).contains(&byte)), "{printed}");
        let typed = Name::new(escape::unescape(printed.as_bytes()).expect("its own escapes")).expect("it is usable");
        assert_eq!(typed.as_bytes(), name.as_bytes());
        tried += 1;
    }
    println!("{tried} names");
    for (bytes, printed) in [
        (&b"A"[..], "A"),
        (b" ", r"\x20"),
        (b" A B ", r"\x20A B"),
        (b"\\", r"\\"),
        (b"A\n", r"A\x0a"),
    ] {
        assert_eq!(Name::new(bytes).unwrap().to_string(), printed);
    }
    for (bad, at) in [
        (&br"\"[..], 0),
        (br"A\x", 1),
        (br"A\x1", 1),
        (br"\\\y", 2),
        (br"\xg0", 0),
        (br"\X41", 0),
    ] {
        assert_eq!(escape::unescape(bad), Err(escape::BadEscape { at }));
    }
}
