use std::fmt;

/// Why a call was refused. A name that h3 has is h3's; the others are the added answers. The number is the C header's.
#[derive(Debug, Clone, Copy, PartialEq, Eq, Hash)]
pub enum Error {
    /// A section ends early.
    UnexpectedEnd = 1,
    /// An integer's ninth byte continues, or an increment on the decoder stream is above 64.
    Overflow,
    /// A string is Huffman coded, which is not read.
    HuffmanString,
    /// A static index of 99 or more.
    InvalidStaticIndex,
    /// A relative reference to no live entry.
    BadRelativeIndex,
    /// A post-base reference to no live entry.
    BadPostbaseIndex,
    /// A reference above the newest entry.
    BadIndex,
    /// An entry larger than a capacity above 0.
    MaxTableSizeReached,
    /// A capacity above 1,073,741,823.
    MaximumTableSizeTooLarge,
    /// A capacity of 16,385 to 1,073,741,823.
    AboveLentRoom,
    /// A blocked maximum of 65,535 or more.
    MaxBlockedStreamsTooLarge,
    /// No section of the stream is queued.
    UnknownStreamId,
    /// The required count is above the inserted one, or a dynamic reference stands where there is no table.
    MissingRefs,
    /// A section prefix whose base is out of range.
    BadBaseIndex,
    /// A section prefix for which RFC 9204 4.5.1.1 gives no count.
    BadInsertCount,
    /// 256 or more entries were inserted in one call on the encoder stream: all are kept, no increment is written.
    BufSize,
    /// A smaller capacity would drop an entry that is in use.
    ShrinkBlocked,
    /// The call needs that no section is open.
    SectionOpen,
    /// A section's call while none is open.
    NoSection,
    /// More than 32 entries or 255 uses in a section, 32 queued sections, 64 blocked values, or 65,535 blocked sections.
    TrackingFull,
    /// A commit's largest reference is above the inserted count.
    BadLargest,
    /// A buffer for an increment under 3 bytes.
    BadCall,
    /// A count past 2^62-1.
    CountTooLarge,
    /// The next field or its bytes do not fit.
    OutputFull,
    /// The size sum of a section that is read with no table is above the given maximum.
    HeaderTooLong,
    /// A reader of one instruction was given another one; no call of this crate gives it.
    InvalidPrefix,
}

/// Every error, in the order of the numbers 1 to 26.
const ALL: [Error; 26] = [
    Error::UnexpectedEnd,
    Error::Overflow,
    Error::HuffmanString,
    Error::InvalidStaticIndex,
    Error::BadRelativeIndex,
    Error::BadPostbaseIndex,
    Error::BadIndex,
    Error::MaxTableSizeReached,
    Error::MaximumTableSizeTooLarge,
    Error::AboveLentRoom,
    Error::MaxBlockedStreamsTooLarge,
    Error::UnknownStreamId,
    Error::MissingRefs,
    Error::BadBaseIndex,
    Error::BadInsertCount,
    Error::BufSize,
    Error::ShrinkBlocked,
    Error::SectionOpen,
    Error::NoSection,
    Error::TrackingFull,
    Error::BadLargest,
    Error::BadCall,
    Error::CountTooLarge,
    Error::OutputFull,
    Error::HeaderTooLong,
    Error::InvalidPrefix,
];

impl Error {
    /// The answer's number, 1 to 26.
    pub fn number(self) -> u8 {
        self as u8
    }

    /// The error of a number; none for 0 and above 26.
    pub fn from_number(number: u8) -> Option<Error> {
        ALL.get(usize::from(number).checked_sub(1)?).copied()
    }

    /// A call's answer as a result.
    pub(crate) fn check(answer: u8) -> Result<(), Error> {
        if answer == 0 {
            return Ok(());
        }
        Err(Error::from_number(answer).expect("the archive answers 0 to 26"))
    }
}

impl fmt::Display for Error {
    fn fmt(&self, f: &mut fmt::Formatter<'_>) -> fmt::Result {
        write!(f, "{self:?} (answer {})", self.number())
    }
}

impl std::error::Error for Error {}

#[cfg(test)]
mod tests {
    use super::*;

    #[test]
    fn each_number_has_its_error() {
        for number in 1..=26 {
            assert_eq!(Error::from_number(number).map(Error::number), Some(number));
        }
        assert_eq!(Error::from_number(0), None);
        assert_eq!(Error::from_number(27), None);
    }
}
