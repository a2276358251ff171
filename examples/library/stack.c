/* Measures how much stack each call of the library takes, on the script on standard input: in a thread whose stack is painted before a
 * call, and looked through behind it. It writes a line for each call, with the most bytes that any call of it took. It ends with 0, or
 * says what is wrong and ends with 1.
 *
 *     stack <SCRIPT
 *
 * It is C, and takes POSIX threads. */
#undef _POSIX_C_SOURCE
#define _POSIX_C_SOURCE 200809L

#include "vmosim.h"

#include <pthread.h>
#include <stdio.h>
#include <stdlib.h>
#include <string.h>

enum { FRAMES = 1024, STACK = 1 << 20, PAINT = 0xa5, MOST = 1 << 20 };

enum call { OPEN, LINE, SCRIPT, CLOSE, CALLS };

static const char *const names[CALLS] = {"vmosim_open", "vmosim_line", "vmosim_script", "vmosim_close"};
static size_t most[CALLS];

static uint8_t script[MOST], out[MOST];
static size_t script_len;
static struct vmosim machine;
static uint8_t *stack;

static void must(bool holds, const char *what) {
    if (holds) return;
    fprintf(stderr, "stack: %s\n", what);
    exit(1);
}

/* Makes one call. */
static __attribute__((noinline)) void make(enum call call, const uint8_t *line, size_t len) {
    switch (call) {
    case OPEN: must(vmosim_open(&machine, FRAMES) == VMOSIM_DONE, "a machine is not opened"); break;
    case LINE: must(vmosim_line(&machine, line, len, out, MOST).status == VMOSIM_DONE, "a line is not answered"); break;
    case SCRIPT: must(vmosim_script(FRAMES, script, script_len, out, MOST).status == VMOSIM_DONE, "a script is not answered"); break;
    case CLOSE: vmosim_close(&machine); break;
    default: break;
    }
}

/* Makes a call over painted stack, and notes how far down it wrote. */
static __attribute__((noinline)) void measure(enum call call, const uint8_t *line, size_t len) {
    volatile uint8_t here = 0;
    /* A little below this frame. */
    size_t own = (size_t)((uintptr_t)&here - (uintptr_t)stack);
    uint8_t *top = stack + own - 256;
    for (volatile uint8_t *at = stack; at < top; at++) *at = PAINT;
    make(call, line, len);
    uint8_t *at = stack;
    while (at < top && *at == PAINT) at++;
    size_t took = own - (size_t)(at - stack);
    if (took > most[call]) most[call] = took;
}

static void *play(void *unused) {
    (void)unused;
    measure(OPEN, NULL, 0);
    for (size_t at = 0; at < script_len;) {
        const uint8_t *feed = (const uint8_t *)memchr(script + at, '\n', script_len - at);
        size_t len = feed ? (size_t)(feed - script) - at : script_len - at;
        measure(LINE, script + at, len);
        at += len + 1;
    }
    /* An open machine is closed first. */
    measure(OPEN, NULL, 0);
    measure(CLOSE, NULL, 0);
    measure(SCRIPT, NULL, 0);
    return NULL;
}

int main(void) {
    script_len = fread(script, 1, MOST, stdin);
    pthread_attr_t how;
    pthread_t thread;
    must(posix_memalign((void **)&stack, 4096, STACK) == 0, "no memory");
    must(pthread_attr_init(&how) == 0 && pthread_attr_setstack(&how, stack, STACK) == 0, "a stack is not taken");
    must(pthread_create(&thread, &how, play, NULL) == 0 && pthread_join(thread, NULL) == 0, "a thread is not started");
    for (int call = 0; call < CALLS; call++) printf("%s %zu\n", names[call], most[call]);
    return 0;
}
