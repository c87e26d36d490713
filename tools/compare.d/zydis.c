/* Steps through the image on standard input with Zydis, ZYDIS_MACHINE_MODE_REAL_16. Where that reads nothing, the next step
 * starts one byte on.
 *
 *     cc -O2 tools/compare.d/zydis.c -lZydis -o target/compare/zydis */
#include "image.h"

#include <Zydis/Zydis.h>

int main(void)
{
    ZydisDecoder decoder;
    ZydisFormatter formatter;
    if (ZYAN_FAILED(ZydisDecoderInit(&decoder, ZYDIS_MACHINE_MODE_REAL_16, ZYDIS_STACK_WIDTH_16))
        || ZYAN_FAILED(ZydisFormatterInit(&formatter, ZYDIS_FORMATTER_STYLE_INTEL)))
        return 2;
    size_t length = read_image();
    size_t at = 0;
    while (at < length) {
        ZydisDecodedInstruction step;
        ZydisDecodedOperand operands[ZYDIS_MAX_OPERAND_COUNT];
        char text[256];
        if (ZYAN_FAILED(ZydisDecoderDecodeFull(&decoder, image + at, length - at, &step, operands))) {
            print_refused(at++);
            continue;
        }
        if (ZYAN_FAILED(ZydisFormatterFormatInstruction(
                &formatter, &step, operands, step.operand_count_visible, text, sizeof text, at, NULL)))
            return 3;
        print_read(at, step.length, text, "");
        at += step.length;
    }
    return 0;
}
