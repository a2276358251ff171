/* A unit test that compares a model of one's own with the machine, line by line. The model is one VMO of two pages and its snapshots,
 * as plain bytes: a snapshot copies them at once. Random writes, reads, snapshots and closes are done in the model and told to the
 * machine, whose replies must be those of the model. It ends with 0, or prints the line, both replies and the seed, and ends with 1.
 *
 *     model [TRIALS [SEED]] */
#include "vmosim.h"

#include <inttypes.h>
#include <stdio.h>
#include <stdlib.h>
#include <string.h>

enum { SIZE = 8192, VMOS = 6, LINES = 200, SHOWN = 8 };

/* The model: whether there is a VMO of this name, and its bytes. */
static struct vmo {
    bool is_there;
    uint8_t bytes[SIZE];
} vmos[VMOS];

static uint64_t state;

/* Returns a number below so many, from a seed that it changes. */
static unsigned below(unsigned count) {
    state ^= state << 13;
    state ^= state >> 7;
    state ^= state << 17;
    return (unsigned)(state % count);
}

/* Does a random call in the model, and writes its line and the reply that the model gives. */
static void do_call(char *line, size_t room, char *reply) {
    /* The places lie around the border between the two pages. */
    unsigned v = below(VMOS), w = below(VMOS), at = 4088 + below(15);
    struct vmo *vmo = &vmos[v];
    switch (below(4)) {
    case 0:
        snprintf(line, room, "vmo_write v%u %u %02x%02x", v, at, at & 255, w);
        strcpy(reply, vmo->is_there ? "OK\n" : "BAD_HANDLE\n");
        if (vmo->is_there) {
            vmo->bytes[at] = (uint8_t)at;
            vmo->bytes[at + 1] = (uint8_t)w;
        }
        return;
    case 1:
        snprintf(line, room, "vmo_read v%u %u 2", v, at);
        if (vmo->is_there) snprintf(reply, SHOWN + 1, "OK %02x%02x\n", vmo->bytes[at], vmo->bytes[at + 1]);
        else strcpy(reply, "BAD_HANDLE\n");
        return;
    case 2:
        snprintf(line, room, "vmo_create_child v%u v%u snapshot 0 %d", w, v, SIZE);
        strcpy(reply, !vmo->is_there ? "BAD_HANDLE\n" : vmos[w].is_there ? "NAME_IN_USE\n" : "OK\n");
        if (vmo->is_there && !vmos[w].is_there) vmos[w] = *vmo;
        return;
    default:
        /* The first VMO stays, or the rest would be of closed names. */
        v = 1 + below(VMOS - 1);
        snprintf(line, room, "vmo_close v%u", v);
        strcpy(reply, vmos[v].is_there ? "OK\n" : "BAD_HANDLE\n");
        vmos[v].is_there = false;
    }
}

static bool is_told(struct vmosim *machine, const char *line, const char *wanted) {
    static char reply[VMOSIM_REPLY];
    struct vmosim_answered told =
        vmosim_line(machine, (const uint8_t *)line, strlen(line), (uint8_t *)reply, sizeof reply);
    if (told.status == VMOSIM_DONE && told.len == strlen(wanted) && memcmp(reply, wanted, told.len) == 0) return true;
    printf("%s\nthe model:   %sthe machine: %.*s", line, wanted, (int)told.len, reply);
    return false;
}

int main(int count, char **words) {
    int trials = count > 1 ? atoi(words[1]) : 1000;
    uint64_t seed = count > 2 ? strtoull(words[2], NULL, 10) : 1;
    struct vmosim machine = {0};
    for (int trial = 0; trial < trials; trial++, seed++) {
        state = seed * 0x9e3779b97f4a7c15u | 1;
        memset(vmos, 0, sizeof vmos);
        vmos[0].is_there = true;
        bool is_right = vmosim_open(&machine, 256) == VMOSIM_DONE && is_told(&machine, "vmo_create v0 8192", "OK\n");
        for (int i = 0; is_right && i < LINES; i++) {
            char line[64], reply[32];
            do_call(line, sizeof line, reply);
            is_right = is_told(&machine, line, reply);
        }
        if (!is_right) {
            printf("in the trial of the seed %" PRIu64 "\n", seed);
            return 1;
        }
    }
    vmosim_close(&machine);
    printf("%d trials of %d lines: as the model says\n", trials, LINES);
    return 0;
}
