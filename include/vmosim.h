/* vmosim in process: the machine of `vmosim run` for C, and for what calls as C does. docs/MACHINE.md has the language of its scripts,
 * docs/LIBRARY.md how to build, link and use this.
 *
 * Units. Lengths are bytes. A page frame has 4,096 bytes. Text is ASCII, and each line of a reply ends with a line feed.
 *
 * What is proved of the library, whatever bytes it is given: it touches no other memory, never aborts, and each call ends. What a line
 * or a script is answered is what the plain machine answers, the same definition as in the theorem of `vmosim run`. A machine that is
 * opened is empty, and no call but those below changes it. The clauses stand in crates/vmosim_c/src/exports.rt. That closing gives
 * memory back, and that VMOSIM_OUT_OF_MEMORY comes only where malloc fails, is tested and not proved.
 *
 * What is not proved is up to the caller:
 * - A struct vmosim is all zeros, or as the last call on it left it. It may be moved, but of two copies only one is used from then on.
 * - machine, line, script and out are not null, even for a length of 0. Each has as many bytes as its length says, and at most 2^63 - 1.
 *   out overlaps neither line nor script nor the struct.
 * - One call at a time on a struct, by one thread, or by several that a lock orders. Calls on different structs may run at once if
 *   malloc may. No call from a signal handler, nor in a child that a program with several threads forked.
 * - malloc, realloc and free belong together, and align as the C standard asks.
 * - The thread has 16 KiB of stack left. That each call takes less is measured, and not proved. */
#ifndef VMOSIM_H
#define VMOSIM_H

#include <stdbool.h>
#include <stddef.h>
#include <stdint.h>

#ifdef __cplusplus
extern "C" {
#endif

/* What a caller keeps of a machine, 16 bytes where a pointer has 8. All zeros are a closed machine: struct vmosim m = {0}; */
struct vmosim {
    void *at;
    bool is_open;
};

/* What a call tells. The numbers stay as they are. */
enum {
    VMOSIM_DONE = 0,
    VMOSIM_OUT_OF_ROOM = 1,   /* the text is longer than out, which has the front of it */
    VMOSIM_OUT_OF_MEMORY = 2, /* malloc has too little memory; nothing was done. No line is told this */
    VMOSIM_OUT_OF_KOIDS = 3,  /* the machine has given all koids below 2^63; nothing was done */
    VMOSIM_CLOSED = 4,        /* the machine is closed; nothing was done */
    VMOSIM_FRAME_COUNT = 5    /* a machine has from 1 to 65,536 page frames; nothing was done */
};

/* The length of the text at the front of out, 0 but for VMOSIM_DONE, and a status. */
struct vmosim_answered {
    size_t len;
    uint8_t status;
};

/* A line takes at most so many bytes; a longer one is answered SYNTAX. */
enum { VMOSIM_LINE = 16384 };

/* A reply has at most so many bytes, but that of maps, which has a line for each mapping. */
enum { VMOSIM_REPLY = 8300 };

/* Opens a machine with so many page frames and nothing else. A machine that was open there is closed first, whatever is told.
 * VMOSIM_DONE, VMOSIM_FRAME_COUNT or VMOSIM_OUT_OF_MEMORY. */
uint8_t vmosim_open(struct vmosim *machine, uint32_t frames);

/* Answers one line, without its line feed, and writes the reply to out: no byte for a comment or a blank line. The bytes of out behind
 * the reply stay as they are. VMOSIM_CLOSED if and only if the machine is closed, and VMOSIM_OUT_OF_KOIDS if and only if it has given all
 * koids. Of others VMOSIM_OUT_OF_ROOM if and only if the reply is longer than room: the line was done then, and a line maps, which changes
 * nothing, may be given again with more room. A line takes memory for its command alone, whatever room is; if malloc has too little, the
 * reply is HOST_MEMORY. */
struct vmosim_answered vmosim_line(struct vmosim *machine, const uint8_t *line, size_t len, uint8_t *out, size_t room);

/* Closes the machine, and gives its memory back. A closed one stays as it is. */
void vmosim_close(struct vmosim *machine);

/* Answers a whole script on a machine of its own with so many page frames, as `vmosim run --frames N` does, and writes the text of all
 * replies to out. VMOSIM_DONE, VMOSIM_OUT_OF_ROOM, VMOSIM_FRAME_COUNT or VMOSIM_OUT_OF_MEMORY. */
struct vmosim_answered vmosim_script(uint32_t frames, const uint8_t *script, size_t len, uint8_t *out, size_t room);

#ifdef __cplusplus
}
#endif
#endif
