//! Where a file starts in the SAM's memory.
use crate::refusal::{Refusal, Refused};

/// A start page, 0 to 31, and an offset in it, 32,768 to 49,151.
///
/// ```
/// use varnucht::Start;
///
/// assert_eq!(Start::new(29, 32_768)?.address(), 491_520);
/// assert_eq!(Start::new(31, 49_151)?.address(), 540_671);
/// assert_eq!(Start::new(31, 49_152).unwrap_err().refusal.number(), 14);
/// # Ok::<(), varnucht::Refused>(())
/// ```
#[derive(Clone, Copy, Debug, PartialEq, Eq, PartialOrd, Ord, Hash)]
pub struct Start {
    page: u8,
    offset: u16,
}

impl Start {
    /// The start at this page and offset.
    ///
    /// # Errors
    ///
    /// Refused 14 where one is out of its range.
    pub fn new(page: u32, offset: u32) -> Result<Start, Refused> {
        match (u8::try_from(page), u16::try_from(offset)) {
            (Ok(page @ 0..=31), Ok(offset @ 32_768..=49_151)) => Ok(Start { page, offset }),
            _ => Err(Refusal::StartOutside.into()),
        }
    }

    /// The page.
    pub fn page(self) -> u8 {
        self.page
    }

    /// The offset.
    pub fn offset(self) -> u16 {
        self.offset
    }

    /// The start address: page × 16,384 + offset − 16,384.
    pub fn address(self) -> u32 {
        u32::from(self.page) * 16_384 + u32::from(self.offset) - 16_384
    }
}
