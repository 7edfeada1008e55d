//! The calls of include/vex.h.

use crate::{Encoding, Instruction, Settings, Taken};

/// The one syntax that there is.
pub const PLAIN: u32 = 0;

/// Room enough for every text that a call writes.
pub const TEXT_ROOM: usize = 256;

extern "C" {
    pub fn vex_settings_named(name: *const u8, length: usize, settings: &mut Settings) -> u32;
    pub fn vex_decode(settings: &Settings, bytes: *const u8, count: usize, instruction: &mut Instruction) -> u32;
    pub fn vex_recode(
        settings: &Settings,
        bytes: *const u8,
        count: usize,
        instruction: &mut Instruction,
        encoding: &mut Encoding,
    ) -> u32;
    pub fn vex_encode(instruction: &Instruction, encoding: &mut Encoding) -> u32;
    pub fn vex_next_spelling(instruction: &Instruction, after: &Encoding, encoding: &mut Encoding) -> u32;
    pub fn vex_decode_all(
        settings: &Settings,
        bytes: *const u8,
        count: usize,
        instructions: *mut Instruction,
        room: usize,
        taken: &mut Taken,
    ) -> u32;
    pub fn vex_format(instruction: &Instruction, syntax: u32, text: *mut u8, room: usize) -> u32;
    pub fn vex_parse(
        syntax: u32,
        text: *const u8,
        length: usize,
        instruction: &mut Instruction,
        place: &mut usize,
    ) -> u32;
    pub fn vex_settings_needed(bytes: *const u8, count: usize, settings: &mut Settings) -> u32;
    pub fn vex_opcode_name(opcode: u16, text: *mut u8, room: usize) -> u32;
    pub fn vex_opcode_named(name: *const u8, length: usize, opcode: &mut u16) -> u32;
    #[cfg(test)]
    pub fn vex_error_name(error: u32, text: *mut u8, room: usize) -> u32;
    pub fn vex_version(text: *mut u8, room: usize) -> u32;
}
