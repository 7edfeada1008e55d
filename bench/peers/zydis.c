#include "hexline.h"
#include <Zydis/Zydis.h>
int main(void) {
  ZydisDecoder decoder; ZydisFormatter formatter;
  if (ZYAN_FAILED(ZydisDecoderInit(&decoder, ZYDIS_MACHINE_MODE_LONG_64, ZYDIS_STACK_WIDTH_64)) ||
      ZYAN_FAILED(ZydisFormatterInit(&formatter, ZYDIS_FORMATTER_STYLE_INTEL)))
    return 1;
  ZydisDecodedInstruction insn; ZydisDecodedOperand operands[ZYDIS_MAX_OPERAND_COUNT];
  static char line[1 << 15]; uint8_t buf[8192]; char text[256];
  while (fgets(line, sizeof line, stdin)) {
    int n = unhex(line, buf, sizeof buf);
    if (n > 0 && ZYAN_SUCCESS(ZydisDecoderDecodeFull(&decoder, buf, n, &insn, operands)) &&
        ZYAN_SUCCESS(ZydisFormatterFormatInstruction(&formatter, &insn, operands, insn.operand_count_visible, text,
                                                     sizeof text, 0, NULL)))
      printf("%u %s\n", insn.length, text);
    else puts("error");
  }
  return 0;
}
