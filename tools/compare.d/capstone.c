/* Steps through the image on standard input with Capstone's cs_disasm, CS_MODE_16. Where that reads nothing more, the next
 * step starts one byte on.
 *
 *     cc -O2 tools/compare.d/capstone.c -lcapstone -o target/compare/capstone */
#include "image.h"

#include <capstone/capstone.h>

int main(void)
{
    csh handle;
    if (cs_open(CS_ARCH_X86, CS_MODE_16, &handle) != CS_ERR_OK)
        return 2;
    size_t length = read_image();
    size_t at = 0;
    while (at < length) {
        cs_insn *steps = NULL;
        size_t count = cs_disasm(handle, image + at, length - at, at, 0, &steps);
        for (size_t i = 0; i < count; i++) {
            print_read(steps[i].address, steps[i].size, steps[i].mnemonic, steps[i].op_str);
            at = steps[i].address + steps[i].size;
        }
        cs_free(steps, count);
        if (at < length)
            print_refused(at++);
    }
    cs_close(&handle);
    return 0;
}
