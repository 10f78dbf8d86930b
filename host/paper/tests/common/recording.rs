//! A recording on a disk, as a caller has it.

use super::*;
use paper::{RECORD_BYTES, Refused, record_add, record_close, record_open};

/// The bytes of a list that has room for any piece.
const LIST: usize = 3_116;

/// A recording, and the disk that it is on.
pub struct TestRecording {
    pub image: Vec<u8>,
    pub record: Vec<u8>,
    /// What the calls named.
    pub named: Vec<usize>,
}

impl TestRecording {
    pub fn open(image: &[u8], name: &[u8]) -> TestRecording {
        let mut record = vec![0x5c; RECORD_BYTES + 3];
        assert_eq!(record_open(image, &request(name, b"not looked at"), &mut record), Ok(()));
        assert_eq!(record[RECORD_BYTES..], [0x5c; 3], "the rest stays");
        TestRecording {
            image: image.to_vec(),
            record,
            named: Vec::new(),
        }
    }

    /// Adds a piece; a refused one changes nothing, an accepted one the named sectors alone, and nothing that is seen.
    pub fn add(&mut self, piece: &[u8]) -> Result<usize, Refused> {
        let (old, record) = (self.image.clone(), self.record.clone());
        let mut list = vec![0x5c; LIST + 1];
        let answer = record_add(&mut self.image, piece, &mut self.record, &mut list);
        let count = self.listed(&old, answer, &list);
        match answer {
            Ok(_) => assert!(count <= 1_558 && self.record[RECORD_BYTES..] == [0x5c; 3]),
            Err(_) => assert_eq!(self.record, record),
        }
        assert_eq!(paper::check(&self.image), Ok(()));
        assert_eq!(listing(&self.image), listing(&old));
        answer
    }

    /// Closes; the record stays as it is.
    pub fn close(&mut self) -> Result<usize, Refused> {
        let old = self.image.clone();
        let mut list = vec![0x5c; 9];
        let answer = record_close(&mut self.image, &self.record, &mut list);
        self.listed(&old, answer, &list);
        assert_eq!(paper::check(&self.image), Ok(()));
        answer
    }

    fn listed(&mut self, old: &[u8], answer: Result<usize, Refused>, list: &[u8]) -> usize {
        let count = answer.unwrap_or_default();
        let named = numbers(&list[..2 * count]);
        assert!(changed(old, &self.image).iter().all(|sector| named.contains(sector)));
        assert!(list[2 * count..].iter().all(|byte| *byte == 0x5c));
        self.named.extend(named);
        count
    }
}

/// What a listing gives, with every byte of it.
pub fn listing(image: &[u8]) -> (Result<paper::Listed, Refused>, Vec<u8>) {
    let mut out = vec![0; 200_724];
    (paper::list(image, &mut out), out)
}

/// A file's body.
pub fn read(image: &[u8], name: &[u8]) -> Vec<u8> {
    let mut out = vec![0; 795_591];
    let length = paper::read(image, name, &mut out).expect("it is there");
    out.truncate(length);
    out
}
