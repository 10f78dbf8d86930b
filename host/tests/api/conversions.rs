//! The conversions of the standard library: each draws the line where the function does that it stands for.
use super::*;
use varnucht::{BadName, Directory, IMAGE_LENGTH, Kind};

#[test]
fn names_from_text() {
    // Every name of two bytes is printed and read back.
    for (first, second) in (1..=255u8).flat_map(|first| (0..=255u8).map(move |second| (first, second))) {
        let name = Name::new([first, second]).unwrap();
        let back: Name = name.to_string().parse().unwrap();
        assert_eq!(back.as_bytes(), name.as_bytes());
        let new = NewName::new([first, second]).ok();
        assert_eq!(name.to_string().parse::<NewName>().ok(), new);
        assert_eq!(NewName::try_from(name).ok(), NewName::new(name.trimmed()).ok());
        assert_eq!(Name::try_from([first, second].as_slice()).unwrap(), name);
        assert_eq!(Name::try_from(*name.as_bytes()).unwrap(), name);
        assert_eq!(NewName::try_from([first, second].as_slice()).ok(), new);
    }
    for (text, words) in [
        (
            "",
            "refusal 12: the name is not usable: it has no byte, and a name has 1 to 10",
        ),
        (r"\x00A", "refusal 12: the name is not usable: it begins with the byte 0"),
        (
            "A\\",
            r"a backslash begins `\\` or `\xHH`, and the one at place 2 begins neither",
        ),
    ] {
        assert_eq!(text.parse::<Name>().unwrap_err().to_string(), words);
        assert_eq!(text.parse::<NewName>().unwrap_err().to_string(), words);
    }
    assert!(matches!(r"\q".parse::<Name>(), Err(BadName::Escape(bad)) if bad.at == 0));
    assert!(" A".parse::<Name>().is_ok() && " A".parse::<NewName>().is_err());
    assert_eq!(Name::try_from([].as_slice()).unwrap_err().refusal.number(), 12);
    assert_eq!(Name::try_from([0; 10]).unwrap_err().refusal.number(), 12);
}

#[test]
fn kinds_from_text_and_numbers() {
    for number in 0..=255u8 {
        let kind = Kind::from(number);
        assert_eq!(kind, Kind::new(number));
        for text in [
            kind.to_string(),
            kind.to_string().to_uppercase().replace("KIND", "kind"),
            number.to_string(),
        ] {
            assert_eq!(text.parse::<Kind>(), Ok(kind), "{text}");
            assert_eq!(text.parse::<CarriedKind>(), CarriedKind::from_number(number.into()), "{text}");
        }
        assert_eq!(CarriedKind::try_from(number), CarriedKind::from_number(number.into()));
        assert_eq!(CarriedKind::try_from(kind), CarriedKind::from_number(number.into()));
    }
    for text in ["", "tune", "256", "-1", "+1", "1.5", "kind", "kind x", "code "] {
        assert_eq!(text.parse::<Kind>().unwrap_err().refusal.number(), 2, "{text}");
        assert_eq!(text.parse::<CarriedKind>().unwrap_err().refusal.number(), 2, "{text}");
    }
    assert_eq!("numeric-array".parse::<CarriedKind>(), Ok(CarriedKind::NumericArray));
}

#[test]
fn images_and_disks() {
    let image = pair().into_image();
    let bytes: &[u8] = image.as_ref();
    assert!(bytes == image.as_bytes());
    assert!(Image::try_from(bytes).unwrap() == image);
    assert!(Image::try_from(bytes.to_vec()).unwrap() == image);
    assert!(Disk::try_from(image.clone()).unwrap() == pair());
    for length in [0, 1, IMAGE_LENGTH - 1, IMAGE_LENGTH + 1] {
        let bytes = vec![7; length];
        assert_eq!(Image::try_from(&bytes[..]).unwrap_err().refusal.number(), 1);
        assert!(Image::try_from(bytes.clone()).unwrap_err().into_bytes() == bytes);
    }
    let not_accepted = Disk::try_from(damaged(&[(0, 13)])).unwrap_err();
    assert_eq!(not_accepted.refused.refusal.number(), 2);
    assert!(Disk::blank() == blank());
    assert_eq!(Disk::blank_with(Directory::new(39).unwrap()).directory().slots(), 778);
}

#[test]
fn listings_and_sectors_are_gone_through() {
    let mut disk = pair();
    let listed: Vec<_> = disk.listing().into_iter().map(|entry| entry.slot()).collect();
    assert_eq!(
        listed,
        disk.listing().entries().iter().map(|entry| entry.slot()).collect::<Vec<_>>()
    );
    let mut copy = disk.image().clone();
    let bytes = body(3_000);
    let sectors = disk.save(&code("NEW", &bytes)).unwrap();
    let mut numbers = Vec::new();
    for (number, bytes) in &sectors {
        numbers.push(number);
        copy.as_bytes_mut()[number.place()..][..512].copy_from_slice(bytes);
    }
    assert_eq!(numbers, sectors.numbers());
    assert_eq!((&sectors).into_iter().len(), numbers.len());
    assert!(&copy == disk.image());
}

/// The places of slots are those that the library lists.
#[test]
fn places_of_slots() {
    for tracks in 4..=39 {
        let directory = Directory::new(tracks).unwrap();
        let places: Vec<_> = directory.places().collect();
        assert_eq!(places.len(), directory.slots());
        let mut image = Image::blank_with(directory);
        for (slot, place) in &places {
            let bytes = &mut image.as_bytes_mut()[*place..][..255];
            bytes[..11].copy_from_slice(format!("\x15{:<10}", slot.number()).as_bytes());
        }
        let disk = Disk::open(image).unwrap();
        assert_eq!(disk.listing().entries().len(), places.len());
        for (entry, (slot, _)) in disk.listing().into_iter().zip(&places) {
            assert_eq!((entry.slot(), entry.name().to_string()), (*slot, slot.number().to_string()));
        }
    }
}
