//! Every refusal prints its words, and every one of them is met but 3, which is given no more.
use super::table::{self, TABLE};
use super::*;
use std::collections::HashSet;
use varnucht::{Answer, LONGEST_BODY, Refusal, Track, calls};

#[test]
fn every_number_prints_with_and_without_a_slot() {
    for number in 1..=255u8 {
        let refusal = Refusal::from_number(number).expect("0 alone is no refusal");
        assert_eq!(refusal.number(), number);
        let words = table::words(number).unwrap_or("a refusal that is not in the table");
        assert_eq!(refusal.words(), words);
        assert_eq!(Refused::from(refusal).to_string(), format!("refusal {number}: {words}"));
        let at = Answer::from_number(u64::from(number) + 256 * 778).decode().unwrap_err();
        assert_eq!(at.to_string(), format!("refusal {number} at slot 778: {words}"));
    }
    assert_eq!(Refusal::from_number(0), None);
    let distinct: HashSet<_> = TABLE.map(|(number, _)| Refusal::from_number(number).unwrap()).into();
    assert_eq!(distinct.len(), TABLE.len());
}

/// Each of the refusals but 3, brought about and caught as an error.
#[test]
fn every_refusal_is_met() {
    let mut met = Vec::new();
    for (number, slot, refused) in provoked() {
        let words = table::words(number).expect("it has words");
        let at = if slot == 0 {
            String::new()
        } else {
            format!(" at slot {slot}")
        };
        assert_eq!(parts(refused), (number, slot, format!("refusal {number}{at}: {words}")));
        met.push(number);
    }
    let given = TABLE.iter().map(|(number, _)| number).filter(|&&number| number != 3);
    assert!(met.iter().eq(given), "{met:?}");
}

/// A refusal of every number, each with the number and the slot that it should have.
fn provoked() -> Vec<(u8, u16, Refused)> {
    let mut all = vec![(1, 0, Image::from_bytes(vec![0; 819_199]).unwrap_err().into())];
    all.extend(refused_disks());
    all.push((12, 0, Name::new("ELEVEN BYTE").unwrap_err()));
    let strange = Disk::open(damaged(&[(0, 5)])).expect("a snapshot is accepted");
    all.push((13, 2, strange.read(&name("TWO")).unwrap_err()));
    let low = Disk::open(damaged(&[(238, 0x7f)])).expect("an offset is not checked");
    all.push((14, 2, low.start(&name("TWO")).unwrap_err()));
    all.push((15, 0, pair().erase(&name("THREE")).unwrap_err()));
    all.push((16, 1, pair().rename(&name("TWO"), &NewName::new("ONE").unwrap()).unwrap_err()));
    let mut kept = pair();
    drop(kept.protect(&name("TWO")).unwrap());
    all.push((17, 2, kept.erase(&name("TWO")).unwrap_err()));
    let mut full = blank();
    for slot in 1..=80 {
        save(&mut full, &code(&format!("F{slot}"), b""));
    }
    all.push((18, 0, full.save(&code("ONE MORE", b"")).unwrap_err()));
    all.push((19, 0, blank().save(&code("LONG", &body(LONGEST_BODY + 1))).unwrap_err()));
    all.push((
        20,
        0,
        calls::list(pair().image().as_bytes(), &mut [0; 515]).decode().unwrap_err(),
    ));
    all.push((21, 0, Track::new(80).unwrap_err()));
    all.push((22, 2, shortened(501).check_release().unwrap_err()));
    let mut image = Image::blank();
    let nine = calls::erase_many(image.as_bytes_mut(), &[b'A'; 9], &mut [0], &mut [0; 2]);
    all.push((23, 0, nine.decode().unwrap_err()));
    let mut tracks = Image::blank();
    tracks.as_bytes_mut()[255] = 36;
    all.push((24, 0, Disk::open(tracks).unwrap_err().into()));
    all.push((25, 2, Disk::open(spectrum(4, 1_012, 0)).unwrap_err().into()));
    all.push((26, 5, tree::spoilt(5, 250, 7).tree(None).unwrap_err()));
    all.push((27, 1, tree::spoilt(1, 254, 9).tree(None).unwrap_err()));
    all.push((28, 4, tree::spoilt(4, 254, 255).tree(None).unwrap_err()));
    all.push((29, 3, tree::spoilt(1, 0, 0).erase(&name("GAMES")).unwrap_err()));
    all.push((30, 0, recording::moved()));
    all.push((31, 0, reports::full().add(b"").unwrap_err()));
    all.push((32, 0, gathering::crowded().gather(&name("TUNES")).unwrap_err()));
    all
}

/// Refusals 2 to 11, each from damage to slot 2 of the pair or to its first sector.
fn refused_disks() -> Vec<(u8, u16, Refused)> {
    let accepted = pair();
    let one = *accepted.listing().entries()[0].as_bytes();
    let two_sector = accepted.listing().entries()[1].sectors().next().expect("it has two").place();
    // Slot 2 with the first address and the map of slot 1.
    let shared: Vec<(usize, u8)> = (13..210).map(|place| (place, one[place])).collect();
    let mut broken = damaged(&[]);
    broken.as_bytes_mut()[two_sector + 511] ^= 1;
    let mut headed = damaged(&[]);
    headed.as_bytes_mut()[two_sector] = 20;
    let images = [
        (2, damaged(&[(0, 13)])),
        (4, damaged(&[(12, 0)])),
        (5, damaged(&[(12, 3)])),
        (6, damaged(&[(13, 3)])),
        (7, damaged(&[(239, 1)])),
        (8, damaged(&shared)),
        (9, damaged(&[(1, b'O'), (2, b'N'), (3, b'E')])),
        (10, broken),
        (11, headed),
    ];
    let refuse = |(number, image): (u8, Image)| {
        let before = image.clone();
        assert_eq!(parts(image.check().unwrap_err()).0, number);
        let not_accepted = Disk::open(image).unwrap_err();
        assert!(not_accepted.image == before, "the image comes back as it was");
        (number, 2, not_accepted.into())
    };
    images.into_iter().map(refuse).collect()
}
