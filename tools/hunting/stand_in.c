/* A library that stands in for one that is hunted. It has the calls of vmosim.h that `tools/hunt --library` makes, answers every line as
 * one outside the grammar, dies at the line `die`, and hangs at the line `hang`. It opens no machine with 13 page frames. */
#include "vmosim.h"

#include <stdlib.h>
#include <string.h>
#include <unistd.h>

static bool is_line(const uint8_t *line, size_t len, const char *word) { return len == strlen(word) && memcmp(line, word, len) == 0; }

uint8_t vmosim_open(struct vmosim *machine, uint32_t frames) {
    machine->is_open = frames != 13;
    return machine->is_open ? VMOSIM_DONE : VMOSIM_OUT_OF_MEMORY;
}

struct vmosim_answered vmosim_line(struct vmosim *machine, const uint8_t *line, size_t len, uint8_t *out, size_t room) {
    static const char REPLY[] = "SYNTAX\n";
    struct vmosim_answered told = {0, machine->is_open ? VMOSIM_DONE : VMOSIM_CLOSED};
    if (is_line(line, len, "die")) abort();
    if (is_line(line, len, "hang")) pause();
    if (machine->is_open && room >= sizeof REPLY - 1) {
        told.len = sizeof REPLY - 1;
        memcpy(out, REPLY, told.len);
    }
    return told;
}

void vmosim_close(struct vmosim *machine) { machine->is_open = false; }
