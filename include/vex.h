/*
 * vex: a proved decoder and shortest encoder of 64-bit VEX instructions.
 *
 * Each call answers 0 (VEX_OK), or the number of an error, and after an error leaves what its pointers name as it was,
 * unless it says otherwise. What a call writes it writes whole: fields and places that the instruction doesn't use hold
 * 0. No call takes memory or keeps anything between calls, so that all may be called from any thread.
 *
 * A pointer to bytes or to text may be null where the count beside it is 0. Every other pointer has to name a place of
 * its type that no other argument overlaps; that can't be told, and so isn't tested.
 */
#ifndef VEX_H
#define VEX_H

#include <stddef.h>
#include <stdint.h>

#include "vex_opcodes.h"

#ifdef __cplusplus
extern "C" {
#endif

/* Errors. The numbers never change; new ones come at the end. */
enum vex_error {
    VEX_OK = 0,
    VEX_EXHAUSTED_INPUT = 1, /* a byte is wanted where none is left */
    VEX_INVALID_OPCODE = 2,  /* no instruction has this map, opcode byte or group, or the settings don't permit it */
    VEX_INVALID_OPERAND = 3, /* vvvv, L or the kind of operand isn't the instruction's */
    VEX_OUTSIDE = 4,         /* the first byte is neither C4 nor C5 */
    VEX_NO_SPELLING = 5,     /* no bytes spell the meaning, or none that come after those given */
    VEX_BAD_INSTRUCTION = 6, /* no instruction can be made of the struct: see vex_instruction */
    VEX_BAD_ENCODING = 7,    /* a count of bytes above 15 */
    VEX_BAD_TEXT = 8,        /* the text is no meaning's */
    VEX_BAD_SYNTAX = 9,      /* there is no such syntax */
    VEX_NO_ROOM = 10,        /* the text and the 0 behind it don't fit */
    VEX_NO_SUCH_NAME = 11,   /* nothing has that name */
    VEX_NO_SUCH_NUMBER = 12, /* nothing has that number */
    VEX_MARKED = 13,         /* an instruction has the EVEX mark, for which no least settings are known */
    VEX_ERROR_COUNT = 14
};

/* Banks of registers; 0 stands for no register. */
enum vex_bank {
    VEX_BANK_NONE = 0,
    VEX_BANK_Q = 1,  /* rax to r15: numbers 0 to 15 */
    VEX_BANK_D = 2,  /* eax to r15d: numbers 0 to 15 */
    VEX_BANK_X = 3,  /* xmm0 to xmm31 */
    VEX_BANK_Y = 4,  /* ymm0 to ymm31 */
    VEX_BANK_Z = 5,  /* zmm0 to zmm31 */
    VEX_BANK_RIP = 6 /* rip: number 0 */
};

/* Kinds of operands. */
enum vex_kind {
    VEX_KIND_NONE = 0,
    VEX_KIND_REGISTER = 1,
    VEX_KIND_SIGNED = 2,   /* an immediate, -128 to 127 */
    VEX_KIND_UNSIGNED = 3, /* an immediate, 0 to 255 */
    VEX_KIND_MEMORY = 4
};

/* Ways to write an instruction. */
enum vex_syntax {
    VEX_PLAIN = 0 /* as VADDPS x0 x1 mq0/q1*4/-16 16 */
};

enum {
    VEX_MAX_BYTES = 11,    /* the most bytes of an instruction in VEX form */
    VEX_MAX_OPERANDS = 4,
    VEX_SIZE_UNKNOWN = 63, /* a size that the instruction alone doesn't tell */
    VEX_TEXT_ROOM = 256    /* room enough for every text that a call writes */
};

/* Settings, by which instructions are permitted: 128 bits, the lowest first. All values are settings. */
typedef struct vex_settings {
    uint64_t low;  /* bits 0 to 63 */
    uint64_t high; /* bits 64 to 127 */
} vex_settings;

/* A register: enum vex_bank, and its number there. */
typedef struct vex_register {
    uint8_t bank;
    uint8_t number;
} vex_register;

/* An operand. Fields that its kind doesn't use are 0 where it comes from a call, and ignored where it goes to one. */
typedef struct vex_operand {
    uint8_t kind;         /* enum vex_kind */
    uint8_t scale;        /* of the index of an address: the factor; 0 where there is none */
    vex_register reg;     /* of a register */
    vex_register base;    /* of an address; bank 0 where there is none */
    vex_register index;   /* of an address; bank 0 where there is none */
    int32_t displacement; /* of an address */
    int32_t immediate;    /* of an immediate */
} vex_operand;

/*
 * An instruction. Where it goes to a call, length, reserved and the operands from operand_count on are ignored, and a
 * mark other than 0 is 1. VEX_BAD_INSTRUCTION is answered exactly where operand_count is above 4, size above 64, opcode
 * above 550, or of an operand below operand_count the kind is above 4, a register that it uses has no bank from 1 to 6
 * or a number beyond its bank (a base or an index of bank 0 is none), or its immediate doesn't fit.
 */
typedef struct vex_instruction {
    uint16_t opcode;       /* enum vex_opcode */
    uint8_t mark;          /* 1 where it has the EVEX mark */
    uint8_t operand_count; /* 0 to 4 */
    uint8_t size;          /* of its memory operand in bytes, 1 to 64 or VEX_SIZE_UNKNOWN; 0 where there is none */
    uint8_t length;        /* of the bytes that spelled it */
    uint16_t reserved;     /* 0 */
    vex_operand operands[4];
} vex_instruction;

/* Bytes of an instruction. Those from length on are 0 where they come from a call, and ignored where they go to one. */
typedef struct vex_encoding {
    uint8_t length;
    uint8_t bytes[15];
} vex_encoding;

/* How far a run of instructions was decoded. */
typedef struct vex_taken {
    size_t instructions; /* how many */
    size_t bytes;        /* of how many bytes */
} vex_taken;

/*
 * The settings of `default` (all bits), `minimal` (none) or a microarchitecture, as `haswell` or `zen4`.
 * VEX_NO_SUCH_NAME where there are none of that name; case counts.
 */
uint32_t vex_settings_named(const char *name, size_t length, vex_settings *settings);

/*
 * The instruction at the front of the bytes. Its length is at most 11; later bytes play no part. The error is that of
 * the first step that fails: VEX_OUTSIDE, VEX_EXHAUSTED_INPUT, VEX_INVALID_OPCODE or VEX_INVALID_OPERAND.
 */
uint32_t vex_decode(const vex_settings *settings, const uint8_t *bytes, size_t count, vex_instruction *instruction);

/* The same, and the shortest bytes of the same meaning. The errors are those of vex_decode. */
uint32_t vex_recode(const vex_settings *settings, const uint8_t *bytes, size_t count, vex_instruction *instruction,
                    vex_encoding *encoding);

/*
 * The shortest bytes of an instruction. VEX_BAD_INSTRUCTION, or VEX_NO_SPELLING where no bytes spell it, as with a
 * scale of 3 or operands that the opcode doesn't take.
 */
uint32_t vex_encode(const vex_instruction *instruction, vex_encoding *encoding);

/*
 * The least bytes of an instruction that come after the given ones, byte by byte, where a beginning comes before what
 * it begins: from length 0 on, each of all its spellings once. VEX_BAD_INSTRUCTION, VEX_BAD_ENCODING where
 * after->length is above 15, or VEX_NO_SPELLING where there are no further ones. `after` and `encoding` may not be one
 * place.
 */
uint32_t vex_next_spelling(const vex_instruction *instruction, const vex_encoding *after, vex_encoding *encoding);

/*
 * One instruction after another from the front of the bytes into the places, as many as there are or as fit. *taken
 * says how many instructions and bytes that were, also after an error, which is that of the bytes behind them (those of
 * vex_decode); places from taken->instructions on are as they were. Where room ends first, 0 is answered: go on from
 * bytes + taken->bytes. With VEX_OK and taken->instructions below room, all bytes were taken.
 */
uint32_t vex_decode_all(const vex_settings *settings, const uint8_t *bytes, size_t count, vex_instruction *instructions,
                        size_t room, vex_taken *taken);

/*
 * The text of an instruction, and a 0 behind it. VEX_BAD_SYNTAX, VEX_BAD_INSTRUCTION, or VEX_NO_ROOM, which doesn't
 * come with room for VEX_TEXT_ROOM.
 */
uint32_t vex_format(const vex_instruction *instruction, uint32_t syntax, char *text, size_t room);

/*
 * The instruction, of length 0, that a text writes. VEX_BAD_SYNTAX or VEX_BAD_TEXT. What no bytes spell is an
 * instruction all the same. After VEX_BAD_TEXT *place is where the text goes wrong; with VEX_PLAIN that isn't known,
 * and 0. Otherwise *place is as it was.
 */
uint32_t vex_parse(uint32_t syntax, const char *text, size_t length, vex_instruction *instruction, size_t *place);

/*
 * The least settings that permit each instruction of a run, which the bytes are as for vex_decode_all with all
 * settings. The errors are those of vex_decode, at the first place where one stands, and VEX_MARKED.
 */
uint32_t vex_settings_needed(const uint8_t *bytes, size_t count, vex_settings *settings);

/* The name of an opcode, as VADDPS, and a 0 behind it. VEX_NO_SUCH_NUMBER or VEX_NO_ROOM. */
uint32_t vex_opcode_name(uint16_t opcode, char *text, size_t room);

/* The opcode of a name. VEX_NO_SUCH_NAME; case counts. */
uint32_t vex_opcode_named(const char *name, size_t length, uint16_t *opcode);

/* The name of an error, as InvalidOpcode, and Ok of 0, and a 0 behind it. VEX_NO_SUCH_NUMBER or VEX_NO_ROOM. */
uint32_t vex_error_name(uint32_t error, char *text, size_t room);

/* The version of this library and the logic that it is proved in, and a 0 behind it. VEX_NO_ROOM. */
uint32_t vex_version(char *text, size_t room);

#ifdef __cplusplus
}
#endif

#endif
