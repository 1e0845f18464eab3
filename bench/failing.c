/* Is preloaded by bench/allocations, and makes calls of the program's fail, by their number from 1 on. The environment says which:

   FAILING_ALLOCATION=N   the Nth request for memory is refused; with FAILING_BEHIND=1 all behind it too
   FAILING_THREAD=N       the Nth thread isn't started; with FAILING_BEHIND=1 none behind it either
   FAILING_READ=N         the Nth read of standard input fails
   FAILING_WRITE=N        the Nth write to standard output fails, or to the stream that FAILING_STREAM numbers
   FAILING_AS=WORD        how a read or a write fails: EIO, EINTR, EAGAIN, ENOSPC or EPIPE; with `short` it is done for one byte
   FAILING_COUNTS=PATH    at the end, how many of each kind were counted is written there

   Requests for memory are counted where the program's own text makes them, and not those inside of the C library. */
#define _GNU_SOURCE
#include <dlfcn.h>
#include <errno.h>
#include <fcntl.h>
#include <link.h>
#include <pthread.h>
#include <stdatomic.h>
#include <stdint.h>
#include <stdio.h>
#include <stdlib.h>
#include <string.h>
#include <sys/mman.h>
#include <sys/uio.h>
#include <unistd.h>

extern void *__libc_malloc(size_t);
extern void *__libc_calloc(size_t, size_t);
extern void *__libc_realloc(void *, size_t);
extern void *__libc_memalign(size_t, size_t);

enum kind { ALLOCATION, THREAD, READ, WRITE, KINDS };

static const char *const names[KINDS] = {"ALLOCATION", "THREAD", "READ", "WRITE"};
static atomic_long counted[KINDS];
static long failing[KINDS];
static int behind, stream = STDOUT_FILENO, fault = EIO, is_short, is_ready;
static uintptr_t text, text_end;
static char counts[4096];

/* Notes where the program's own text lies: the first object is the program. */
static int note_text(struct dl_phdr_info *info, size_t size, void *data) {
    (void)size, (void)data;
    for (int place = 0; place < info->dlpi_phnum && !text; place++) {
        const ElfW(Phdr) *part = &info->dlpi_phdr[place];
        if (part->p_type == PT_LOAD && part->p_flags & PF_X) {
            text = info->dlpi_addr + part->p_vaddr;
            text_end = text + part->p_memsz;
        }
    }
    return 1;
}

static long number(const char *name, long otherwise) {
    const char *value = getenv(name);
    return value ? atol(value) : otherwise;
}

static void note_fault(const char *word) {
    static const struct { const char *word; int fault; } faults[] = {
        {"EIO", EIO}, {"EINTR", EINTR}, {"EAGAIN", EAGAIN}, {"ENOSPC", ENOSPC}, {"EPIPE", EPIPE}};
    is_short = !strcmp(word, "short");
    for (size_t place = 0; place < sizeof faults / sizeof *faults; place++)
        if (!strcmp(word, faults[place].word))
            fault = faults[place].fault;
}

__attribute__((constructor)) static void begin(void) {
    char name[64];
    dl_iterate_phdr(note_text, 0);
    for (int kind = 0; kind < KINDS; kind++) {
        snprintf(name, sizeof name, "FAILING_%s", names[kind]);
        failing[kind] = number(name, 0);
    }
    behind = number("FAILING_BEHIND", 0);
    stream = number("FAILING_STREAM", STDOUT_FILENO);
    note_fault(getenv("FAILING_AS") ? getenv("FAILING_AS") : "EIO");
    if (getenv("FAILING_COUNTS"))
        snprintf(counts, sizeof counts, "%s", getenv("FAILING_COUNTS"));
    is_ready = 1;
}

/* Counts a call, and says whether it is to fail. */
static int fails(enum kind kind) {
    long place = atomic_fetch_add(&counted[kind], 1) + 1;
    return failing[kind] && (place == failing[kind] || (behind && place > failing[kind]));
}

static void *next(const char *name) {
    return dlsym(RTLD_NEXT, name);
}

static void tell(void) {
    char line[128];
    ssize_t (*put)(int, const void *, size_t) = next("write");
    int file = counts[0] ? open(counts, O_WRONLY | O_CREAT | O_TRUNC, 0644) : -1;
    if (file < 0)
        return;
    int length = snprintf(line, sizeof line, "%ld %ld %ld %ld\n", counted[ALLOCATION], counted[THREAD], counted[READ], counted[WRITE]);
    put(file, line, length);
    close(file);
}

__attribute__((destructor)) static void end(void) {
    tell();
}

void _exit(int status) {
    void (*leave)(int) = next("_exit");
    tell();
    leave(status);
    __builtin_unreachable();
}

/* Whether this request is the program's own, and is refused. */
#define REFUSED \
    (is_ready && (uintptr_t)__builtin_return_address(0) >= text && (uintptr_t)__builtin_return_address(0) < text_end && fails(ALLOCATION))

static void *none(void) {
    errno = ENOMEM;
    return 0;
}

void *malloc(size_t size) {
    return REFUSED ? none() : __libc_malloc(size);
}

void *calloc(size_t count, size_t size) {
    return REFUSED ? none() : __libc_calloc(count, size);
}

void *realloc(void *block, size_t size) {
    return REFUSED ? none() : __libc_realloc(block, size);
}

void *memalign(size_t align, size_t size) {
    return REFUSED ? none() : __libc_memalign(align, size);
}

void *aligned_alloc(size_t align, size_t size) {
    return REFUSED ? none() : __libc_memalign(align, size);
}

int posix_memalign(void **block, size_t align, size_t size) {
    void *made = REFUSED ? 0 : __libc_memalign(align, size);
    if (!made)
        return ENOMEM;
    *block = made;
    return 0;
}

void *mmap(void *where, size_t length, int may, int flags, int file, off_t offset) {
    static void *(*map)(void *, size_t, int, int, int, off_t);
    if (!map)
        map = next("mmap");
    if (REFUSED) {
        errno = ENOMEM;
        return MAP_FAILED;
    }
    return map(where, length, may, flags, file, offset);
}

int pthread_create(pthread_t *thread, const pthread_attr_t *how, void *(*run)(void *), void *with) {
    int (*create)(pthread_t *, const pthread_attr_t *, void *(*)(void *), void *) = next("pthread_create");
    return fails(THREAD) ? EAGAIN : create(thread, how, run, with);
}

ssize_t read(int file, void *bytes, size_t length) {
    ssize_t (*get)(int, void *, size_t) = next("read");
    if (file != STDIN_FILENO || !fails(READ))
        return get(file, bytes, length);
    if (is_short)
        return get(file, bytes, length > 1 ? 1 : length);
    errno = fault;
    return -1;
}

ssize_t write(int file, const void *bytes, size_t length) {
    ssize_t (*put)(int, const void *, size_t) = next("write");
    if (file != stream || !fails(WRITE))
        return put(file, bytes, length);
    if (is_short)
        return put(file, bytes, length > 1 ? 1 : length);
    errno = fault;
    return -1;
}

ssize_t writev(int file, const struct iovec *pieces, int count) {
    ssize_t (*put)(int, const struct iovec *, int) = next("writev");
    if (file != stream || !fails(WRITE))
        return put(file, pieces, count);
    errno = fault;
    return -1;
}
