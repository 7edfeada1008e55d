//! Why a call refuses.

use std::fmt;

/// Why a call refuses, as include/vex.h says of each.
#[derive(Clone, Copy, PartialEq, Eq, Hash, Debug)]
#[repr(u32)]
pub enum Error {
    /// A byte is wanted where none is left.
    ExhaustedInput = 1,
    /// No instruction has this map, opcode byte or group, or the settings don't permit it.
    InvalidOpcode,
    /// vvvv, L or the kind of operand isn't the instruction's.
    InvalidOperand,
    /// The first byte is neither C4 nor C5.
    Outside,
    /// No bytes spell the meaning.
    NoSpelling,
    /// No instruction can be made of the struct.
    BadInstruction,
    /// A count of bytes is above 15.
    BadEncoding,
    /// The text is no meaning's.
    BadText,
    /// There is no such syntax.
    BadSyntax,
    /// The text doesn't fit.
    NoRoom,
    /// Nothing has that name.
    NoSuchName,
    /// Nothing has that number.
    NoSuchNumber,
    /// An instruction has the EVEX mark.
    Marked,
}

const ALL: [Error; 13] = [
    Error::ExhaustedInput,
    Error::InvalidOpcode,
    Error::InvalidOperand,
    Error::Outside,
    Error::NoSpelling,
    Error::BadInstruction,
    Error::BadEncoding,
    Error::BadText,
    Error::BadSyntax,
    Error::NoRoom,
    Error::NoSuchName,
    Error::NoSuchNumber,
    Error::Marked,
];

impl Error {
    /// What a call's answer says.
    pub(crate) fn of(answer: u32) -> Result<(), Error> {
        match answer {
            0 => Ok(()),
            number => Err(ALL[number as usize - 1]),
        }
    }
}

impl fmt::Display for Error {
    fn fmt(&self, f: &mut fmt::Formatter<'_>) -> fmt::Result {
        fmt::Debug::fmt(self, f)
    }
}

impl std::error::Error for Error {}

#[cfg(test)]
mod tests {
    use super::*;
    use crate::{calls, text_of};

    #[test]
    fn each_error_has_the_name_of_its_number() {
        for (number, error) in (1..).zip(ALL) {
            assert_eq!(error as u32, number);
            // SAFETY: `text_of` hands on so many bytes.
            let name = text_of(|text, room| unsafe { calls::vex_error_name(number, text, room) });
            assert_eq!(name, Ok(error.to_string()));
        }
        // SAFETY: `text_of` hands on so many bytes.
        let past = text_of(|text, room| unsafe { calls::vex_error_name(ALL.len() as u32 + 1, text, room) });
        assert_eq!(past, Err(Error::NoSuchNumber));
    }
}
