/* A fuzz target for libFuzzer. Any bytes are a script. Each line must be answered by a text that is empty or ends with a line feed, and
 * one call must give the same text as the lines.
 *
 *     clang -fsanitize=fuzzer,address -Iinclude examples/library/fuzz.c libvmosim.a -o fuzz && ./fuzz -max_total_time=60
 *
 * To fuzz a kernel or a model of your own, give it the same line where vmosim_line stands, and compare what it answers. */
#include "vmosim.h"

#include <stdlib.h>
#include <string.h>

enum { FRAMES = 64, ROOM = 1 << 20 };

int LLVMFuzzerTestOneInput(const uint8_t *script, size_t len);

int LLVMFuzzerTestOneInput(const uint8_t *script, size_t len) {
    static uint8_t text[ROOM], again[ROOM];
    static const uint8_t no_byte;
    struct vmosim machine = {0};
    size_t used = 0;
    if (vmosim_open(&machine, FRAMES) != VMOSIM_DONE) abort();
    for (size_t at = 0; at < len;) {
        const uint8_t *feed = memchr(script + at, '\n', len - at);
        size_t n = feed ? (size_t)(feed - script) - at : len - at;
        struct vmosim_answered told = vmosim_line(&machine, script + at, n, text + used, ROOM - used);
        if (told.status == VMOSIM_OUT_OF_ROOM) break;
        if (told.status != VMOSIM_DONE) abort();
        used += told.len;
        if (told.len > 0 && text[used - 1] != '\n') abort();
        at += n + 1;
    }
    vmosim_close(&machine);
    struct vmosim_answered told = vmosim_script(FRAMES, len ? script : &no_byte, len, again, ROOM);
    if (told.status == VMOSIM_DONE && (told.len != used || memcmp(text, again, used) != 0)) abort();
    if (told.status != VMOSIM_DONE && told.status != VMOSIM_OUT_OF_ROOM) abort();
    return 0;
}
