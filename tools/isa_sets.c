// Reads bytes in hex, a line an instruction, and writes for each Zydis' mnemonic, the instruction set that Zydis counts
// it to, and its length, or a line `refused`.
#include <Zydis/Zydis.h>
#include <stdio.h>

int main(void) {
    ZydisDecoder decoder;
    ZydisDecoderInit(&decoder, ZYDIS_MACHINE_MODE_LONG_64, ZYDIS_STACK_WIDTH_64);
    char line[256];
    while (fgets(line, sizeof line, stdin)) {
        unsigned char bytes[16];
        unsigned value;
        int count = 0;
        while (count < 16 && sscanf(line + 2 * count, "%2x", &value) == 1)
            bytes[count++] = value;
        ZydisDecodedInstruction found;
        ZydisDecodedOperand operands[ZYDIS_MAX_OPERAND_COUNT];
        if (ZYAN_SUCCESS(ZydisDecoderDecodeFull(&decoder, bytes, count, &found, operands)))
            printf("%s %s %d\n", ZydisMnemonicGetString(found.mnemonic), ZydisISASetGetString(found.meta.isa_set),
                   found.length);
        else
            puts("refused");
    }
    return 0;
}
