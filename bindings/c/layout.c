/* The layout of each struct of vex.h, and the values of its enums that the crates state. It only has to compile. */
#include <vex.h>

#ifdef __cplusplus
#define STATIC_ASSERT(holds, name) static_assert(holds, #name)
#else
#define STATIC_ASSERT(holds, name) typedef char name[(holds) ? 1 : -1]
#endif

STATIC_ASSERT(sizeof(vex_settings) == 16, settings_size);
STATIC_ASSERT(offsetof(vex_settings, low) == 0, settings_low);
STATIC_ASSERT(offsetof(vex_settings, high) == 8, settings_high);

STATIC_ASSERT(sizeof(vex_register) == 2, register_size);
STATIC_ASSERT(offsetof(vex_register, bank) == 0, register_bank);
STATIC_ASSERT(offsetof(vex_register, number) == 1, register_number);

STATIC_ASSERT(sizeof(vex_operand) == 16, operand_size);
STATIC_ASSERT(offsetof(vex_operand, kind) == 0, operand_kind);
STATIC_ASSERT(offsetof(vex_operand, scale) == 1, operand_scale);
STATIC_ASSERT(offsetof(vex_operand, reg) == 2, operand_reg);
STATIC_ASSERT(offsetof(vex_operand, base) == 4, operand_base);
STATIC_ASSERT(offsetof(vex_operand, index) == 6, operand_index);
STATIC_ASSERT(offsetof(vex_operand, displacement) == 8, operand_displacement);
STATIC_ASSERT(offsetof(vex_operand, immediate) == 12, operand_immediate);

STATIC_ASSERT(sizeof(vex_instruction) == 72, instruction_size);
STATIC_ASSERT(offsetof(vex_instruction, opcode) == 0, instruction_opcode);
STATIC_ASSERT(offsetof(vex_instruction, mark) == 2, instruction_mark);
STATIC_ASSERT(offsetof(vex_instruction, operand_count) == 3, instruction_operand_count);
STATIC_ASSERT(offsetof(vex_instruction, size) == 4, instruction_memory_size);
STATIC_ASSERT(offsetof(vex_instruction, length) == 5, instruction_length);
STATIC_ASSERT(offsetof(vex_instruction, reserved) == 6, instruction_reserved);
STATIC_ASSERT(offsetof(vex_instruction, operands) == 8, instruction_operands);

STATIC_ASSERT(sizeof(vex_encoding) == 16, encoding_size);
STATIC_ASSERT(offsetof(vex_encoding, length) == 0, encoding_length);
STATIC_ASSERT(offsetof(vex_encoding, bytes) == 1, encoding_bytes);

STATIC_ASSERT(sizeof(vex_taken) == 16, taken_size);
STATIC_ASSERT(offsetof(vex_taken, instructions) == 0, taken_instructions);
STATIC_ASSERT(offsetof(vex_taken, bytes) == 8, taken_bytes);
