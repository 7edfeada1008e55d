//! A proved decoder and shortest encoder of 64-bit VEX instructions.
//!
//! ```
//! let settings = vex::Settings::default();
//! let sum = vex::decode(&settings, &[0xC4, 0xE1, 0x70, 0x58, 0xC2])?;
//! assert_eq!(sum.to_string(), "VADDPS x0 x1 x2 0");
//! assert_eq!(sum.length, 5);
//! assert_eq!(*sum.encode()?, [0xC5, 0xF0, 0x58, 0xC2]);
//! # Ok::<(), vex::Error>(())
//! ```
#![warn(missing_docs)]

mod calls;
mod error;

pub use error::Error;

use std::fmt;
use std::ops::Deref;
use std::str::FromStr;

/// Which instructions are permitted: 128 bits, of which all values are settings. The default permits every one.
#[repr(C)]
#[derive(Clone, Copy, PartialEq, Eq, Hash, Debug)]
pub struct Settings {
    /// Bits 0 to 63.
    pub low: u64,
    /// Bits 64 to 127.
    pub high: u64,
}

impl Default for Settings {
    fn default() -> Settings {
        Settings { low: u64::MAX, high: u64::MAX }
    }
}

impl Settings {
    /// The settings of `default`, `minimal` or a microarchitecture, as `haswell`, or `NoSuchName`.
    pub fn named(name: &str) -> Result<Settings, Error> {
        let mut settings = Settings { low: 0, high: 0 };
        // SAFETY: the pointers name a text of that length and settings.
        let answer = unsafe { calls::vex_settings_named(name.as_ptr(), name.len(), &mut settings) };
        Error::of(answer).map(|()| settings)
    }

    /// The least settings that permit each instruction of a run of bytes: the error is that of the first place that has
    /// one.
    pub fn needed(bytes: &[u8]) -> Result<Settings, Error> {
        let mut settings = Settings { low: 0, high: 0 };
        // SAFETY: the pointers name so many bytes and settings.
        let answer = unsafe { calls::vex_settings_needed(bytes.as_ptr(), bytes.len(), &mut settings) };
        Error::of(answer).map(|()| settings)
    }
}

/// A register: the number of its bank, 1 to 6 for Q, D, X, Y, Z and RIP, and its number there. Bank 0 is no register.
#[repr(C)]
#[derive(Clone, Copy, PartialEq, Eq, Hash, Debug, Default)]
pub struct Register {
    /// The number of the bank.
    pub bank: u8,
    /// The number in the bank.
    pub number: u8,
}

/// An operand. Fields that its kind doesn't use are 0, and play no part where it goes to a call.
#[repr(C)]
#[derive(Clone, Copy, PartialEq, Eq, Hash, Debug, Default)]
pub struct Operand {
    /// 1 for a register, 2 for a signed and 3 for an unsigned immediate, 4 for an address, 0 for none.
    pub kind: u8,
    /// The factor of the index of an address.
    pub scale: u8,
    /// The register.
    pub reg: Register,
    /// The base of an address.
    pub base: Register,
    /// The index of an address.
    pub index: Register,
    /// The displacement of an address.
    pub displacement: i32,
    /// The immediate.
    pub immediate: i32,
}

/// An instruction.
#[repr(C)]
#[derive(Clone, Copy, PartialEq, Eq, Hash, Debug, Default)]
pub struct Instruction {
    /// The number of the opcode.
    pub opcode: u16,
    /// 1 where it has the EVEX mark.
    pub mark: u8,
    /// How many operands there are, at most 4.
    pub operand_count: u8,
    /// The size of the memory operand in bytes, 63 where the instruction alone doesn't tell it, 0 where there is none.
    pub size: u8,
    /// The number of bytes that spelled it.
    pub length: u8,
    /// 0.
    pub reserved: u16,
    /// The operands, 0 from their count on.
    pub operands: [Operand; 4],
}

/// The bytes of an instruction.
#[repr(C)]
#[derive(Clone, Copy, PartialEq, Eq, Hash, Debug, Default)]
pub struct Encoding {
    length: u8,
    bytes: [u8; 15],
}

impl Deref for Encoding {
    type Target = [u8];

    fn deref(&self) -> &[u8] {
        &self.bytes[..usize::from(self.length)]
    }
}

#[repr(C)]
#[derive(Default)]
struct Taken {
    instructions: usize,
    bytes: usize,
}

/// The instruction at the front of bytes, or the error of the first step that fails.
pub fn decode(settings: &Settings, bytes: &[u8]) -> Result<Instruction, Error> {
    let mut instruction = Instruction::default();
    // SAFETY: the pointers name settings, so many bytes and an instruction.
    let answer = unsafe { calls::vex_decode(settings, bytes.as_ptr(), bytes.len(), &mut instruction) };
    Error::of(answer).map(|()| instruction)
}

/// The same, and the shortest bytes of its meaning.
pub fn recode(settings: &Settings, bytes: &[u8]) -> Result<(Instruction, Encoding), Error> {
    let (mut instruction, mut encoding) = (Instruction::default(), Encoding::default());
    // SAFETY: the pointers name settings, so many bytes, an instruction and an encoding.
    let answer =
        unsafe { calls::vex_recode(settings, bytes.as_ptr(), bytes.len(), &mut instruction, &mut encoding) };
    Error::of(answer).map(|()| (instruction, encoding))
}

/// One instruction after another from the front of bytes into the places, as many as there are or fit: how many
/// instructions and bytes that were, and the error of the bytes behind them, where they are refused.
pub fn decode_all(
    settings: &Settings,
    bytes: &[u8],
    places: &mut [Instruction],
) -> (usize, usize, Result<(), Error>) {
    let mut taken = Taken::default();
    // SAFETY: the pointers name settings, so many bytes, so many instructions and what was taken.
    let answer = unsafe {
        calls::vex_decode_all(
            settings,
            bytes.as_ptr(),
            bytes.len(),
            places.as_mut_ptr(),
            places.len(),
            &mut taken,
        )
    };
    (taken.instructions, taken.bytes, Error::of(answer))
}

impl Instruction {
    /// The name of the opcode, as `VADDPS`, or `NoSuchNumber`.
    pub fn name(&self) -> Result<String, Error> {
        // SAFETY: `text_of` hands on so many bytes.
        text_of(|text, room| unsafe { calls::vex_opcode_name(self.opcode, text, room) })
    }

    /// The text of the instruction, as `VADDPS x0 x1 x2 0`, or `BadInstruction`.
    pub fn plain(&self) -> Result<String, Error> {
        // SAFETY: `self` is an instruction, and `text_of` hands on so many bytes.
        text_of(|text, room| unsafe { calls::vex_format(self, calls::PLAIN, text, room) })
    }

    /// The shortest bytes of the instruction's meaning, or `BadInstruction` or `NoSpelling`.
    pub fn encode(&self) -> Result<Encoding, Error> {
        let mut encoding = Encoding::default();
        // SAFETY: the pointers name an instruction and an encoding.
        let answer = unsafe { calls::vex_encode(self, &mut encoding) };
        Error::of(answer).map(|()| encoding)
    }

    /// All bytes that have the instruction's meaning, in ascending order; none where no instruction can be made of it.
    pub fn spellings(&self) -> Spellings<'_> {
        Spellings { instruction: self, after: Encoding::default() }
    }
}

/// The spellings of an instruction.
#[derive(Clone, Debug)]
pub struct Spellings<'a> {
    instruction: &'a Instruction,
    after: Encoding,
}

impl Iterator for Spellings<'_> {
    type Item = Encoding;

    fn next(&mut self) -> Option<Encoding> {
        let mut next = Encoding::default();
        // SAFETY: the pointers name an instruction and two encodings.
        let answer = unsafe { calls::vex_next_spelling(self.instruction, &self.after, &mut next) };
        Error::of(answer).ok()?;
        self.after = next;
        Some(next)
    }
}

impl fmt::Display for Instruction {
    fn fmt(&self, f: &mut fmt::Formatter<'_>) -> fmt::Result {
        match self.plain() {
            Ok(text) => f.write_str(&text),
            Err(error) => write!(f, "({error})"),
        }
    }
}

impl FromStr for Instruction {
    type Err = Error;

    /// The instruction, of length 0, that a text writes, or `BadText`.
    fn from_str(text: &str) -> Result<Instruction, Error> {
        let (mut instruction, mut place) = (Instruction::default(), 0);
        // SAFETY: the pointers name a text of that length, an instruction and a number.
        let answer = unsafe {
            calls::vex_parse(calls::PLAIN, text.as_ptr(), text.len(), &mut instruction, &mut place)
        };
        Error::of(answer).map(|()| instruction)
    }
}

/// The number of the opcode of a name, or `NoSuchName`.
pub fn opcode_named(name: &str) -> Result<u16, Error> {
    let mut number = 0;
    // SAFETY: the pointers name a text of that length and a number.
    let answer = unsafe { calls::vex_opcode_named(name.as_ptr(), name.len(), &mut number) };
    Error::of(answer).map(|()| number)
}

/// The version of the library, with the toolchain and the logic that it is proved with.
pub fn version() -> String {
    // SAFETY: `text_of` hands on so many bytes.
    text_of(|text, room| unsafe { calls::vex_version(text, room) }).unwrap_or_default()
}

/// What a call writes into room for a text, without the 0 behind it.
fn text_of(call: impl FnOnce(*mut u8, usize) -> u32) -> Result<String, Error> {
    let mut room = [0; calls::TEXT_ROOM];
    Error::of(call(room.as_mut_ptr(), room.len()))?;
    let end = room.iter().position(|byte| *byte == 0).unwrap_or(room.len());
    Ok(String::from_utf8_lossy(&room[..end]).into_owned())
}

#[cfg(test)]
mod layout {
    use super::*;
    use std::mem::{offset_of, size_of};

    #[test]
    fn structs_are_those_of_c() {
        assert_eq!((size_of::<Settings>(), offset_of!(Settings, high)), (16, 8));
        assert_eq!((size_of::<Register>(), offset_of!(Register, number)), (2, 1));
        assert_eq!(size_of::<Operand>(), 16);
        assert_eq!((offset_of!(Operand, kind), offset_of!(Operand, scale), offset_of!(Operand, reg)), (0, 1, 2));
        assert_eq!((offset_of!(Operand, base), offset_of!(Operand, index)), (4, 6));
        assert_eq!((offset_of!(Operand, displacement), offset_of!(Operand, immediate)), (8, 12));
        assert_eq!(size_of::<Instruction>(), 72);
        assert_eq!((offset_of!(Instruction, mark), offset_of!(Instruction, operand_count)), (2, 3));
        assert_eq!((offset_of!(Instruction, size), offset_of!(Instruction, length)), (4, 5));
        assert_eq!((offset_of!(Instruction, reserved), offset_of!(Instruction, operands)), (6, 8));
        assert_eq!((size_of::<Encoding>(), offset_of!(Encoding, bytes)), (16, 1));
        assert_eq!((size_of::<Taken>(), offset_of!(Taken, bytes)), (16, 8));
    }
}
