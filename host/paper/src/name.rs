//! Names as the caller gives them.

/// The ten name bytes of a slot.
pub type Name = [u8; 10];

/// A name asked for: 1 to 10 bytes, the first not 0.
pub fn asked_name(given: &[u8]) -> Option<Name> {
    let mut name = [b' '; 10];
    name.get_mut(..given.len())?.copy_from_slice(given);
    (!given.is_empty() && given[0] != 0).then_some(name)
}

/// A new name keeps to that too; every byte given is 32 to 126 and the first is not 32.
pub fn new_name(given: &[u8]) -> Option<Name> {
    let printable = given.iter().all(|byte| (32..=126).contains(byte));
    asked_name(given).filter(|name| printable && name[0] != b' ')
}

/// The name with A to Z for a to z. Two names are the same where these are equal; what a slot stores stays as typed.
pub fn folded(name: &Name) -> Name {
    name.map(|byte| match byte {
        b'a'..=b'z' => byte - b'a' + b'A',
        other => other,
    })
}

#[cfg(test)]
mod tests {
    use super::*;

    #[test]
    fn names_asked_for() {
        assert_eq!(asked_name(b"A"), Some(*b"A         "));
        assert_eq!(asked_name(b"ABCDEFGHIJ"), Some(*b"ABCDEFGHIJ"));
        assert_eq!(asked_name(b" \x00\xff"), Some(*b" \x00\xff       "));
        for refused in [&b""[..], b"\x00", b"\x00A", b"ABCDEFGHIJK"] {
            assert_eq!(asked_name(refused), None);
        }
    }

    /// Letters are a to z and A to Z, and nothing else: not their neighbours, and no letter of another alphabet.
    #[test]
    fn letters() {
        for byte in 0..=255 {
            let capital = match byte {
                97..=122 => byte - 32,
                other => other,
            };
            assert_eq!(folded(&[byte; 10]), [capital; 10]);
        }
        assert_eq!(folded(b"@AZ[`az{\xc1\xe1"), *b"@AZ[`AZ{\xc1\xe1");
    }

    #[test]
    fn new_names() {
        assert_eq!(new_name(b"A B"), Some(*b"A B       "));
        assert_eq!(new_name(b"!~"), Some(*b"!~        "));
        for refused in [
            &b""[..],
            b" ",
            b" A",
            b"\x00",
            b"A\x1f",
            b"A\x7f",
            b"A\x00",
            b"\xff",
            b"ABCDEFGHIJK",
        ] {
            assert_eq!(new_name(refused), None);
        }
    }
}
