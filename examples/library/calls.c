/* Plays the script on standard input over the library, line by line, as `vmosim run` does, and writes the replies to standard output.
 * A second machine answers the whole script by one call, which must give the same text. What the calls tell of a closed machine, of
 * too little room and of wrong numbers of page frames is tried too. It ends with 0, or says what is wrong and ends with 1.
 *
 *     calls <SCRIPT           plays it
 *     calls TIMES <SCRIPT     plays it so often in both ways, writes no replies, and tells what a line and a script cost
 *
 * It is C and C++. */
#include "vmosim.h"

#include <stdio.h>
#include <stdlib.h>
#include <string.h>
#include <time.h>

enum { FRAMES = 1024 };

struct bytes {
    uint8_t *at;
    size_t len, room;
};

static void must(bool holds, const char *what) {
    if (holds) return;
    fprintf(stderr, "calls: %s\n", what);
    exit(1);
}

/* Makes room for so many bytes more. */
static void reserve(struct bytes *bytes, size_t more) {
    if (bytes->room - bytes->len >= more && bytes->at) return;
    bytes->room = 2 * (bytes->len + more) + 1;
    bytes->at = (uint8_t *)realloc(bytes->at, bytes->room);
    must(bytes->at != NULL, "no memory");
}

static struct bytes read_all(FILE *from) {
    struct bytes all = {NULL, 0, 0};
    for (;;) {
        reserve(&all, 1 << 16);
        size_t n = fread(all.at + all.len, 1, 1 << 16, from);
        if (n == 0) return all;
        all.len += n;
    }
}

/* Answers one line, and puts the reply behind the text. */
static void answer(struct vmosim *machine, const uint8_t *line, size_t len, struct bytes *text) {
    for (size_t room = VMOSIM_REPLY;; room *= 2) {
        reserve(text, room);
        struct vmosim_answered told = vmosim_line(machine, line, len, text->at + text->len, room);
        if (told.status == VMOSIM_DONE) {
            text->len += told.len;
            return;
        }
        must(told.status == VMOSIM_OUT_OF_ROOM, "a line was not answered");
        must(len >= 4 && memcmp(line, "maps", 4) == 0, "a reply is longer than VMOSIM_REPLY");
    }
}

/* Answers a script line by line on an open machine, and returns how many lines it has. */
static size_t play(struct vmosim *machine, const struct bytes *script, struct bytes *text) {
    size_t lines = 0;
    for (size_t at = 0; at < script->len; lines++) {
        const uint8_t *line = script->at + at;
        const uint8_t *feed = (const uint8_t *)memchr(line, '\n', script->len - at);
        size_t len = feed ? (size_t)(feed - line) : script->len - at;
        answer(machine, line, len, text);
        at += len + 1;
    }
    return lines;
}

static void try_statuses(const struct bytes *script, const struct bytes *text) {
    struct bytes out = {NULL, 0, 0};
    reserve(&out, text->len + 1);
    struct vmosim_answered told = vmosim_script(FRAMES, script->at, script->len, out.at, text->len);
    must(told.status == VMOSIM_DONE && told.len == text->len, "one call tells something else than its lines");
    must(memcmp(out.at, text->at, text->len) == 0, "one call gives another text than its lines");
    if (text->len > 0) {
        told = vmosim_script(FRAMES, script->at, script->len, out.at, text->len - 1);
        must(told.status == VMOSIM_OUT_OF_ROOM && told.len == 0, "a text that is longer than its room is no refusal");
        must(memcmp(out.at, text->at, text->len - 1) == 0, "what has no room for its last byte has another front");
    }
    must(vmosim_script(0, script->at, 0, out.at, 0).status == VMOSIM_FRAME_COUNT, "a script ran on no page frames");
    must(vmosim_script(65537, script->at, 0, out.at, 0).status == VMOSIM_FRAME_COUNT, "a script ran on too many page frames");

    static struct vmosim machine;
    const uint8_t stat[] = {'s', 't', 'a', 't'};
    must(vmosim_line(&machine, stat, 4, out.at, 0).status == VMOSIM_CLOSED, "a closed machine answers");
    must(vmosim_open(&machine, 0) == VMOSIM_FRAME_COUNT, "a machine has no page frames");
    must(vmosim_open(&machine, 65537) == VMOSIM_FRAME_COUNT, "a machine has too many page frames");
    must(vmosim_line(&machine, stat, 4, out.at, 0).status == VMOSIM_CLOSED, "a machine that was refused is open");
    must(vmosim_open(&machine, 65536) == VMOSIM_DONE, "the largest machine is not opened");
    must(vmosim_open(&machine, 1) == VMOSIM_DONE, "a machine is not opened again");
    must(vmosim_line(&machine, stat, 4, out.at, 0).status == VMOSIM_OUT_OF_ROOM, "a reply has room in no bytes");
    must(vmosim_line(&machine, stat, 0, out.at, 0).status == VMOSIM_DONE, "a blank line has a reply");
    vmosim_close(&machine);
    vmosim_close(&machine);
    must(vmosim_line(&machine, stat, 4, out.at, 0).status == VMOSIM_CLOSED, "a machine answers after it was closed");
    free(out.at);
}

static double now(void) {
    struct timespec t;
    clock_gettime(CLOCK_MONOTONIC, &t);
    return (double)t.tv_sec + (double)t.tv_nsec / 1e9;
}

static void measure(const struct bytes *script, struct bytes *text, int times) {
    static struct vmosim machine;
    double begun = now();
    size_t lines = 0;
    for (int i = 0; i < times; i++) {
        text->len = 0;
        must(vmosim_open(&machine, FRAMES) == VMOSIM_DONE, "a machine is not opened");
        lines += play(&machine, script, text);
    }
    vmosim_close(&machine);
    double by_lines = now() - begun;
    begun = now();
    for (int i = 0; i < times; i++) {
        struct vmosim_answered told = vmosim_script(FRAMES, script->at, script->len, text->at, text->room);
        must(told.status == VMOSIM_DONE, "a script is not answered");
    }
    double at_once = now() - begun;
    printf("%.0f ns a line, opening and all; %.1f us a script by lines, %.1f us by one call\n", by_lines / (double)lines * 1e9,
           by_lines / times * 1e6, at_once / times * 1e6);
}

int main(int count, char **words) {
    struct bytes script = read_all(stdin), text = {NULL, 0, 0};
    reserve(&text, 1);
    if (count > 1) {
        measure(&script, &text, atoi(words[1]));
    } else {
        static struct vmosim machine;
        must(vmosim_open(&machine, FRAMES) == VMOSIM_DONE, "a machine is not opened");
        play(&machine, &script, &text);
        vmosim_close(&machine);
        fwrite(text.at, 1, text.len, stdout);
        try_statuses(&script, &text);
    }
    free(script.at);
    free(text.at);
    return 0;
}
