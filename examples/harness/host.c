/*
 * A harness over the kernel of the host: reads commands of the script language, makes calls of Linux for them, and writes
 * the replies. A VMO is a file in memory (memfd_create), and its mappings are those of this process (mmap).
 *
 *     gcc -std=c11 -Wall -Wextra -Wpedantic -O2 -fPIE -pie -o host host.c
 *
 * README.md says which commands it knows and what it must refuse by itself. After its start it allocates no memory, so that
 * nothing of its own comes to lie where a script has unmapped something.
 */
#define _GNU_SOURCE
#include <errno.h>
#include <fcntl.h>
#include <inttypes.h>
#include <setjmp.h>
#include <signal.h>
#include <stdatomic.h>
#include <stdbool.h>
#include <stdint.h>
#include <stdio.h>
#include <stdlib.h>
#include <string.h>
#include <sys/mman.h>
#include <sys/stat.h>
#include <unistd.h>

#define PAGE UINT64_C(4096)
#define ROOT UINT64_C(0x200000)
#define ROOT_END (UINT64_C(1) << 47)
#define MOST_SIZE (UINT64_C(1) << 48)
#define FILE_NAME "vmosim"
enum { MOST_DATA = 4096, MOST_LINE = 16384, WORDS = 16, NAMES = 64, NAME_SIZE = 12, VMOS = 65536, ROWS = 4096 };

/* A name that is open: the file of its VMO, the VMO's koid, and whether it may change the size. */
struct name {
    bool is_open;
    char word[NAME_SIZE];
    int file;
    unsigned koid;
    bool is_resizable;
};

/* A row of mapped pages, as the kernel lists it. */
struct row {
    uint64_t start, end, offset;
    unsigned koid;
    char permissions[5];
};

static struct name names[NAMES];
/* Of each VMO by its koid the number of its file, and whether pages of it may have been committed by a load. */
static struct {
    uint64_t inode;
    bool is_loaded;
} vmos[VMOS];
static unsigned vmo_count;
static char root_name[NAME_SIZE];
static bool is_planted;
static char *words[WORDS];
static int word_count;

/* ---- words */

/* Ends the harness, which can't go on. */
static void stop(const char *what, const char *more) {
    fprintf(stderr, "host: %s%s\n", more, what);
    exit(2);
}

/* Returns whether a flag is among the words. */
static bool has(const char *flag) {
    for (int it = 1; it < word_count; it++)
        if (strcmp(words[it], flag) == 0) return true;
    return false;
}

/* Returns the number that a word is: decimal, or hexadecimal behind 0x. */
static uint64_t number(const char *word) {
    bool is_hexadecimal = strncmp(word, "0x", 2) == 0;
    return strtoull(is_hexadecimal ? word + 2 : word, NULL, is_hexadecimal ? 16 : 10);
}

/* Returns a size rounded up to whole pages. */
static uint64_t rounded(uint64_t size) { return size / PAGE * PAGE + (size % PAGE ? PAGE : 0); }

/* Returns the bytes that a word spells, and how many there are, or NULL if they are too many. */
static const uint8_t *bytes_of(const char *word, size_t *count) {
    static uint8_t bytes[MOST_DATA];
    *count = strcmp(word, "-") == 0 ? 0 : strlen(word) / 2;
    if (*count > MOST_DATA) return NULL;
    for (size_t at = 0; at < *count; at++) {
        char digits[3] = {word[2 * at], word[2 * at + 1], 0};
        bytes[at] = (uint8_t)strtoul(digits, NULL, 16);
    }
    return bytes;
}

/* Writes bytes as words spell them. */
static void write_bytes(const uint8_t *bytes, size_t count) {
    if (count == 0) putchar('-');
    for (size_t at = 0; at < count; at++) printf("%02x", bytes[at]);
    putchar('\n');
}

/* Returns the reply for what a call returned, by errno if it failed. */
static const char *reply_of(bool is_done) {
    if (is_done) return "OK";
    switch (errno) {
        case EINVAL: return "INVALID_ARGS";
        case EEXIST: return "ALREADY_EXISTS";
        case EPERM: return "UNAVAILABLE";
        case EFBIG: return "OUT_OF_RANGE";
        case ENOMEM:
        case ENOSPC: return "NO_MEMORY";
        default: return strerror(errno);
    }
}

/* ---- VMOs */

/* Returns the name that a word is, if it is open, and else NULL. */
static struct name *open_name(const char *word) {
    for (int it = 0; it < NAMES; it++)
        if (names[it].is_open && strcmp(names[it].word, word) == 0) return &names[it];
    return NULL;
}

/* Returns the size of a VMO. */
static uint64_t size_of(const struct name *name) {
    struct stat about;
    return fstat(name->file, &about) == 0 ? (uint64_t)about.st_size : 0;
}

/* Returns whether a range passes the end of a VMO. Linux lets reads end there, and lets writes move the end. */
static bool passes(const struct name *name, uint64_t offset, uint64_t length) {
    uint64_t size = size_of(name);
    return length > size || offset > size - length;
}

/* vmo_create: a file in memory. If it may not change its size, its size is sealed, so that the kernel refuses a change. */
static const char *vmo_create(void) {
    struct name *name = names;
    struct stat about;
    if (open_name(words[1])) return "NAME_IN_USE";
    if (number(words[2]) > MOST_SIZE) return "OUT_OF_RANGE";
    while (name->is_open)
        if (++name == names + NAMES) stop("names are open, and no more fit", "64 ");
    if (vmo_count + 1 == VMOS) stop("VMOs were made, and no more fit", "65535 ");
    int file = memfd_create(FILE_NAME, MFD_CLOEXEC | MFD_ALLOW_SEALING);
    if (file < 0) return reply_of(false);
    bool is_sized = ftruncate(file, (off_t)rounded(number(words[2]))) == 0;
    bool is_sealed = has("resizable") || fcntl(file, F_ADD_SEALS, F_SEAL_GROW | F_SEAL_SHRINK) == 0;
    if (!is_sized || !is_sealed || fstat(file, &about) != 0) return reply_of(false);
    *name = (struct name){.is_open = true, .file = file, .koid = ++vmo_count, .is_resizable = has("resizable")};
    snprintf(name->word, NAME_SIZE, "%s", words[1]);
    vmos[vmo_count].inode = about.st_ino;
    return "OK";
}

/* vmo_close: what is mapped of the VMO stays. */
static const char *vmo_close(void) {
    struct name *name = open_name(words[1]);
    if (!name) return "BAD_HANDLE";
    name->is_open = false;
    return reply_of(close(name->file) == 0);
}

/* vmo_size. */
static const char *vmo_size(void) {
    struct name *name = open_name(words[1]);
    if (!name) return "BAD_HANDLE";
    printf("OK %" PRIu64 "\n", size_of(name));
    return NULL;
}

/* vmo_set_size: Linux lets a sealed size be set to what it is already. */
static const char *vmo_set_size(void) {
    struct name *name = open_name(words[1]);
    uint64_t size = number(words[2]);
    if (!name) return "BAD_HANDLE";
    if (size > MOST_SIZE) return name->is_resizable ? "OUT_OF_RANGE" : "UNAVAILABLE";
    if (!name->is_resizable && rounded(size) == size_of(name)) return "UNAVAILABLE";
    return reply_of(ftruncate(name->file, (off_t)rounded(size)) == 0);
}

/* vmo_read. */
static const char *vmo_read(void) {
    static uint8_t bytes[MOST_DATA];
    struct name *name = open_name(words[1]);
    uint64_t length = number(words[3]);
    if (!name) return "BAD_HANDLE";
    if (length > MOST_DATA) return "INVALID_ARGS";
    if (passes(name, number(words[2]), length)) return "OUT_OF_RANGE";
    if (pread(name->file, bytes, length, (off_t)number(words[2])) != (ssize_t)length) return reply_of(false);
    fputs("OK ", stdout);
    write_bytes(bytes, length);
    return NULL;
}

/* vmo_write. */
static const char *vmo_write(void) {
    struct name *name = open_name(words[1]);
    size_t count;
    const uint8_t *bytes = bytes_of(words[3], &count);
    if (!bytes) return "SYNTAX";
    if (!name) return "BAD_HANDLE";
    if (passes(name, number(words[2]), count)) return "OUT_OF_RANGE";
    return reply_of(pwrite(name->file, bytes, count, (off_t)number(words[2])) == (ssize_t)count);
}

/* vmo_fill: writes of one page each. */
static const char *vmo_fill(void) {
    static uint8_t bytes[PAGE];
    struct name *name = open_name(words[1]);
    uint64_t offset = number(words[2]), length = number(words[3]);
    if (!name) return "BAD_HANDLE";
    if (passes(name, offset, length)) return "OUT_OF_RANGE";
    memset(bytes, (int)number(words[4]), PAGE);
    while (length > 0) {
        size_t piece = length < PAGE ? length : PAGE;
        if (pwrite(name->file, bytes, piece, (off_t)offset) != (ssize_t)piece) return reply_of(false);
        offset += piece;
        length -= piece;
    }
    return "OK";
}

/* Does vmo_commit, vmo_decommit or vmo_zero. Linux refuses a range of no bytes. */
static const char *on_range(int mode, bool is_of_pages) {
    struct name *name = open_name(words[1]);
    uint64_t offset = number(words[2]), length = number(words[3]);
    if (!name) return "BAD_HANDLE";
    if (is_of_pages && (offset % PAGE || length % PAGE)) return "INVALID_ARGS";
    if (passes(name, offset, length)) return "OUT_OF_RANGE";
    return reply_of(length == 0 || fallocate(name->file, mode, (off_t)offset, (off_t)length) == 0);
}

static const char *vmo_commit(void) { return on_range(0, false); }
static const char *vmo_decommit(void) { return on_range(FALLOC_FL_PUNCH_HOLE | FALLOC_FL_KEEP_SIZE, true); }
static const char *vmo_zero(void) { return on_range(FALLOC_FL_PUNCH_HOLE | FALLOC_FL_KEEP_SIZE, false); }

/* vmo_info: the kernel counts blocks of 512 bytes. A load of a page that is not there commits it on Linux, so how many pages
 * are there is not known of a VMO that was loaded from. */
static const char *vmo_info(void) {
    struct name *name = open_name(words[1]);
    struct stat about;
    char held[24] = "?";
    if (!name) return "BAD_HANDLE";
    if (fstat(name->file, &about) != 0) return reply_of(false);
    if (!vmos[name->koid].is_loaded) snprintf(held, sizeof held, "%" PRIu64, (uint64_t)about.st_blocks * 512 / PAGE);
    printf("OK koid=%u size=%" PRIu64 " held=%s private=%s shared=0 charged=%s children=0\n", name->koid,
           (uint64_t)about.st_size, held, held, held);
    return NULL;
}

/* ---- mappings */

/* Returns the koid of the VMO with a file of this number, or 0. */
static unsigned koid_of(uint64_t inode) {
    for (unsigned koid = vmo_count; koid > 0; koid--)
        if (vmos[koid].inode == inode) return koid;
    return 0;
}

/* Reads the rows of mapped pages that show a VMO, from what the kernel lists, and joins those that show one page after
 * another. Returns how many there are. */
static size_t read_rows(struct row *rows) {
    static char text[1 << 20];
    size_t length = 0, count = 0;
    ssize_t piece;
    int file = open("/proc/self/maps", O_RDONLY | O_CLOEXEC);
    while ((piece = read(file, text + length, sizeof text - 1 - length)) > 0) length += (size_t)piece;
    close(file);
    text[length] = 0;
    for (char *line = strtok(text, "\n"); line; line = strtok(NULL, "\n")) {
        struct row it, *last = count ? &rows[count - 1] : NULL;
        uint64_t inode;
        int form = sscanf(line, "%" SCNx64 "-%" SCNx64 " %4s %" SCNx64 " %*s %" SCNu64, &it.start, &it.end, it.permissions,
                          &it.offset, &inode);
        if (form != 5 || !strstr(line, "/memfd:" FILE_NAME)) continue;
        it.koid = koid_of(inode);
        if (last && last->end == it.start && last->koid == it.koid && last->offset + (last->end - last->start) == it.offset &&
            strcmp(last->permissions, it.permissions) == 0)
            last->end = it.end;
        else if (count < ROWS)
            rows[count++] = it;
    }
    return count;
}

/* Returns the protection that a word such as rw means. */
static int protection(const char *word) {
    if (strcmp(word, "none") == 0) return PROT_NONE;
    return (strchr(word, 'r') ? PROT_READ : 0) | (strchr(word, 'w') ? PROT_WRITE : 0) | (strchr(word, 'x') ? PROT_EXEC : 0);
}

/* Returns whether a protection has writing or executing and not reading, which Linux allows. */
static bool is_unreadable(int protection) { return protection != PROT_NONE && !(protection & PROT_READ); }

/* root_create: the address space of this process, which is the only one. */
static const char *root_create(void) {
    if (strcmp(root_name, words[1]) == 0) return "NAME_IN_USE";
    if (root_name[0]) stop("a process has one address space", "");
    snprintf(root_name, NAME_SIZE, "%s", words[1]);
    return "OK";
}

/* Maps a VMO at an address. Returns where, or MAP_FAILED. */
static void *map_at(uint64_t address, uint64_t length, int protection, int flags, const struct name *name, uint64_t offset) {
    flags |= is_planted ? MAP_PRIVATE : MAP_SHARED;
    void *at = mmap((void *)(uintptr_t)address, length, protection, flags, name->file, (off_t)offset);
    /* A kernel that does not know MAP_FIXED_NOREPLACE maps elsewhere. */
    if (at == MAP_FAILED || (uintptr_t)at == address) return at;
    munmap(at, length);
    errno = EEXIST;
    return MAP_FAILED;
}

/* Maps a VMO where the kernel finds room, with a free page on either side: memory of this process's own may lie beside it, and
 * an access over the edge must not reach that. Returns where, or MAP_FAILED. */
static void *map_anywhere(uint64_t length, int protection, const struct name *name, uint64_t offset) {
    void *room = mmap(NULL, length + 2 * PAGE, PROT_NONE, MAP_PRIVATE | MAP_ANONYMOUS | MAP_NORESERVE, -1, 0);
    if (room == MAP_FAILED) return room;
    munmap(room, length + 2 * PAGE);
    return map_at((uintptr_t)room + PAGE, length, protection, MAP_FIXED_NOREPLACE, name, offset);
}

/* Maps a VMO at the highest free place that ends at or below an offset. Returns where, or MAP_FAILED. */
static void *map_below(uint64_t limit, uint64_t length, int protection, const struct name *name, uint64_t offset) {
    void *at = MAP_FAILED;
    uint64_t end = ROOT + (limit < ROOT_END - ROOT ? limit : ROOT_END - ROOT);
    errno = EEXIST;
    for (; at == MAP_FAILED && errno == EEXIST && end >= ROOT + length; end -= PAGE)
        at = map_at(end - length, length, protection, MAP_FIXED_NOREPLACE, name, offset);
    return at;
}

/* vmar_map: a fixed place, the highest below a limit, or one that the kernel chooses. */
static const char *vmar_map(void) {
    struct name *name = open_name(words[3]);
    uint64_t place = number(words[2]), offset = number(words[4]), length = rounded(number(words[5]));
    bool is_fixed = has("specific"), is_over = has("specific_overwrite"), is_below = has("upper_limit");
    int wanted = protection(words[6]);
    void *at = MAP_FAILED;
    if (strcmp(root_name, words[1]) != 0 || !name) return "BAD_HANDLE";
    if (place % PAGE || is_fixed + is_over + is_below > 1 || (is_fixed + is_over + is_below == 0 && place)) return "INVALID_ARGS";
    if (offset % PAGE || length == 0 || is_unreadable(wanted)) return "INVALID_ARGS";
    if (length > MOST_SIZE || offset > MOST_SIZE - length) return "OUT_OF_RANGE";
    if (!has("allow_faults") && passes(name, offset, length)) return "BUFFER_TOO_SMALL";
    if (!is_below && place > ROOT_END - ROOT - length) stop(" is past the addresses of a process", words[2]);
    if (is_over) at = map_at(ROOT + place, length, wanted, MAP_FIXED, name, offset);
    if (is_fixed) at = map_at(ROOT + place, length, wanted, MAP_FIXED_NOREPLACE, name, offset);
    if (is_fixed + is_over + is_below == 0) at = map_anywhere(length, wanted, name, offset);
    if (is_below) at = map_below(place, length, wanted, name, offset);
    if (at == MAP_FAILED) return is_below && errno == EEXIST ? "NO_RESOURCES" : reply_of(false);
    printf("OK 0x%" PRIxPTR "\n", (uintptr_t)at);
    return NULL;
}

/* vmar_unmap. */
static const char *vmar_unmap(void) {
    if (strcmp(root_name, words[1]) != 0) return "BAD_HANDLE";
    return reply_of(munmap((void *)(uintptr_t)number(words[2]), number(words[3])) == 0);
}

/* vmar_protect: Linux changes what lies before a page that is not mapped, so it is asked for one first. */
static const char *vmar_protect(void) {
    static unsigned char pages[1 << 20];
    void *at = (void *)(uintptr_t)number(words[2]);
    uint64_t length = rounded(number(words[3]));
    int wanted = protection(words[4]);
    if (strcmp(root_name, words[1]) != 0) return "BAD_HANDLE";
    if ((uintptr_t)at % PAGE || length == 0 || is_unreadable(wanted)) return "INVALID_ARGS";
    if (length / PAGE > sizeof pages) stop("pages are the most that are protected at once", "1048576 ");
    if (mincore(at, length, pages) != 0) return errno == ENOMEM ? "NOT_FOUND" : reply_of(false);
    return reply_of(mprotect(at, length, wanted) == 0);
}

/* maps. */
static const char *maps(void) {
    static struct row rows[ROWS];
    if (strcmp(root_name, words[1]) != 0) return "BAD_HANDLE";
    size_t count = read_rows(rows);
    printf("OK %zu\n", count);
    for (struct row *it = rows; it < rows + count; it++) {
        char permissions[5] = "", *end = permissions;
        for (int at = 0; at < 3; at++)
            if (it->permissions[at] != '-') *end++ = it->permissions[at];
        printf("+ 0x%" PRIx64 " %" PRIu64 " %s vmo=%u offset=%" PRIu64 " region=%s\n", it->start, it->end - it->start,
               *permissions ? permissions : "none", it->koid, it->offset, root_name);
    }
    return NULL;
}

/* ---- accesses */

static sigjmp_buf before_access;
static volatile sig_atomic_t is_accessing;

/* Goes back to before an access that is refused, with the signal and whether the page is mapped. */
static void on_fault(int number, siginfo_t *info, void *context) {
    (void)context;
    if (!is_accessing) {
        signal(number, SIG_DFL);
        return;
    }
    siglongjmp(before_access, number == SIGBUS ? 1 : info->si_code == SEGV_ACCERR ? 2 : 3);
}

/* Returns the reply for how an access was refused: behind the end of the file, by its protection, or not mapped. */
static const char *refusal(int how) { return how == 1 ? "OUT_OF_RANGE" : how == 2 ? "ACCESS_DENIED" : "NOT_FOUND"; }

/* Notes of each VMO that is mapped in a range that pages of it may have been committed. */
static void note_loaded(uint64_t address, uint64_t length) {
    static struct row rows[ROWS];
    size_t count = read_rows(rows);
    for (struct row *it = rows; it < rows + count; it++)
        if (address < it->end && it->start < address + length) vmos[it->koid].is_loaded = true;
}

/* mem_read: loads from the first byte to the last. */
static const char *mem_read(void) {
    static uint8_t bytes[MOST_DATA];
    const volatile uint8_t *from = (const volatile uint8_t *)(uintptr_t)number(words[2]);
    uint64_t length = number(words[3]);
    if (strcmp(root_name, words[1]) != 0) return "BAD_HANDLE";
    if (length > MOST_DATA) return "INVALID_ARGS";
    note_loaded((uintptr_t)from, length);
    int how = sigsetjmp(before_access, 1);
    if (how == 0) {
        is_accessing = 1;
        for (uint64_t at = 0; at < length; at++) bytes[at] = from[at];
    }
    is_accessing = 0;
    if (how) return refusal(how);
    fputs("OK faults=? ", stdout);
    write_bytes(bytes, length);
    return NULL;
}

/* Stores to a byte what is there, by one instruction: a load before the store could be refused for another reason. */
static void touch(volatile uint8_t *byte) {
    uint8_t zero = 0;
    atomic_compare_exchange_strong((volatile _Atomic uint8_t *)byte, &zero, 0);
}

/* mem_write: touches each page first, so that nothing is written if a page refuses, and then stores the bytes. */
static const char *mem_write(void) {
    size_t count;
    const uint8_t *bytes = bytes_of(words[3], &count);
    volatile uint8_t *to = (volatile uint8_t *)(uintptr_t)number(words[2]);
    if (!bytes) return "SYNTAX";
    if (strcmp(root_name, words[1]) != 0) return "BAD_HANDLE";
    int how = sigsetjmp(before_access, 1);
    if (how == 0) {
        is_accessing = 1;
        for (size_t at = 0; at < count; at++)
            if (at == 0 || (uintptr_t)(to + at) % PAGE == 0) touch(to + at);
        for (size_t at = 0; at < count; at++) to[at] = bytes[at];
    }
    is_accessing = 0;
    if (how == 0) return "OK faults=?";
    /* What lies before the page that refuses was touched. */
    note_loaded((uintptr_t)to, count);
    return refusal(how);
}

/* stat: the kernel counts the memory of the whole host. */
static const char *stat_all(void) { return "OK frames=? used=? free=? vmos=?"; }

/* ---- lines */

static const struct {
    const char *word;
    const char *(*answer)(void);
    int least_words;
} commands[] = {
    {"vmo_create", vmo_create, 3},     {"vmo_close", vmo_close, 2},       {"vmo_size", vmo_size, 2},
    {"vmo_set_size", vmo_set_size, 3}, {"vmo_read", vmo_read, 4},         {"vmo_write", vmo_write, 4},
    {"vmo_fill", vmo_fill, 5},         {"vmo_commit", vmo_commit, 4},     {"vmo_decommit", vmo_decommit, 4},
    {"vmo_zero", vmo_zero, 4},         {"vmo_info", vmo_info, 2},         {"root_create", root_create, 2},
    {"vmar_map", vmar_map, 7},         {"vmar_unmap", vmar_unmap, 4},     {"vmar_protect", vmar_protect, 5},
    {"maps", maps, 2},                 {"mem_read", mem_read, 4},         {"mem_write", mem_write, 4},
    {"stat", stat_all, 1},
};

/* Answers the line whose words are read. Returns the reply, or NULL if it is written. */
static const char *answer(void) {
    for (size_t it = 0; it < sizeof commands / sizeof *commands; it++)
        if (strcmp(commands[it].word, words[0]) == 0)
            return word_count < commands[it].least_words ? "SYNTAX" : commands[it].answer();
    stop(" is no command that this harness knows", words[0]);
    return NULL;
}

/* Reads the words of a line. */
static void read_line(char *line) {
    word_count = 0;
    for (char *it = strtok(line, " \t\r\n"); it && word_count < WORDS; it = strtok(NULL, " \t\r\n")) words[word_count++] = it;
}

/* Reads lines and answers each, and flushes the reply before it reads on. A line that is too long is passed over whole. */
static void answer_all(void) {
    static char line[MOST_LINE + 2];
    while (fgets(line, sizeof line, stdin)) {
        bool is_too_long = strlen(line) > MOST_LINE && !strchr(line, '\n');
        if (is_too_long)
            for (int it = 0; it != EOF && it != '\n';) it = getchar();
        read_line(line);
        if (!is_too_long && (word_count == 0 || words[0][0] == '#')) continue;
        const char *reply = is_too_long ? "SYNTAX" : answer();
        if (reply) puts(reply);
        fflush(stdout);
    }
}

static const char help[] =
    "usage: host [--plant]\n"
    "\n"
    "Reads commands of a script from the standard input, makes calls of the kernel of this host for them, and writes the\n"
    "replies. With --plant the mappings are private, which is wrong: a store does not reach the VMO.\n"
    "\n"
    "exit status: 0 the input was read to its end, 2 a wrong word, or a command that this harness does not know\n";

/* Reads the words of the command line, and answers lines until the input ends. */
int main(int argument_count, char **arguments) {
    static char in[1 << 16], out[1 << 16];
    struct sigaction action = {.sa_sigaction = on_fault, .sa_flags = SA_SIGINFO};
    setvbuf(stdin, in, _IOFBF, sizeof in);
    setvbuf(stdout, out, _IOFBF, sizeof out);
    if (argument_count == 2 && strcmp(arguments[1], "--help") == 0) return fputs(help, stdout) < 0;
    is_planted = argument_count == 2 && strcmp(arguments[1], "--plant") == 0;
    if (argument_count > 1 && !is_planted) stop(" is a wrong word; 'host --help' lists the words", arguments[argument_count - 1]);
    sigaction(SIGSEGV, &action, NULL);
    sigaction(SIGBUS, &action, NULL);
    answer_all();
    return 0;
}
