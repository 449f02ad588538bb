//! The specification's number for each of the crate's errors.
use h3::qpack::{decoder::DecoderError, dynamic, encoder::EncoderError, parse_error::ParseError, prefix_int, prefix_string, vas};

/// A panic of the crate: no number of the specification.
pub const PANIC: u32 = 100;

pub fn of_int(e: &prefix_int::Error) -> u32 {
    match e {
        prefix_int::Error::UnexpectedEnd => 1,
        prefix_int::Error::Overflow => 2,
    }
}

pub fn of_string(e: &prefix_string::Error) -> u32 {
    match e {
        prefix_string::Error::UnexpectedEnd => 1,
        prefix_string::Error::Integer(e) => of_int(e),
        prefix_string::Error::HuffmanDecoding(_) | prefix_string::Error::HuffmanEncoding(_) => 3,
        prefix_string::Error::BufSize(_) => 2,
    }
}

pub fn of_parse(e: &ParseError) -> u32 {
    match e {
        ParseError::Integer(e) => of_int(e),
        ParseError::String(e) => of_string(e),
        ParseError::InvalidPrefix(_) => 26,
        ParseError::InvalidBase(_) => 14,
    }
}

pub fn of_table(e: &dynamic::Error) -> u32 {
    use dynamic::Error::*;
    match e {
        BadRelativeIndex(_) => 5,
        BadPostbaseIndex(_) => 6,
        BadIndex(_) => 7,
        MaxTableSizeReached => 8,
        MaximumTableSizeTooLarge => 9,
        MaxBlockedStreamsTooLarge => 11,
        UnknownStreamId(_) => 12,
        // an error of the crate's own bookkeeping, which nothing should reach
        NoTrackingData | InvalidTrackingCount => PANIC,
    }
}

pub fn of_vas(e: &vas::Error) -> u32 {
    match e {
        vas::Error::RelativeIndex(_) => 5,
        vas::Error::PostbaseIndex(_) => 6,
        vas::Error::Index(_) => 7,
    }
}

pub fn of_decoder(e: &DecoderError) -> u32 {
    match e {
        DecoderError::InvalidInteger(e) => of_int(e),
        DecoderError::InvalidString(e) => of_string(e),
        DecoderError::InvalidIndex(e) => of_vas(e),
        DecoderError::DynamicTable(e) => of_table(e),
        DecoderError::InvalidStaticIndex(_) => 4,
        DecoderError::UnknownPrefix(_) => 26,
        DecoderError::MissingRefs(_) => 13,
        DecoderError::BadBaseIndex(_) => 14,
        DecoderError::UnexpectedEnd => 1,
        DecoderError::HeaderTooLong(_) => 25,
        DecoderError::BufSize(_) => 16,
    }
}

pub fn of_encoder(e: &EncoderError) -> u32 {
    match e {
        EncoderError::Insertion(e) => of_table(e),
        EncoderError::InvalidString(e) => of_string(e),
        EncoderError::InvalidInteger(e) => of_int(e),
        EncoderError::UnknownDecoderInstruction(_) => 26,
    }
}
