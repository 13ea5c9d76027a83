// Loaded before the C library: makes allocations, reads of standard input, writes to standard output and starts of
// threads fail.
//
// FAIL_ALLOC=N: the Nth allocation fails. FAIL_READ=N, FAIL_WRITE=N, FAIL_THREAD=N: the Nth read, write or start of a
// thread does. FAIL_ON=1: and all later ones of this kind. INTERRUPTIONS=N: N interruptions before each read and write.
// SHORT=1: one byte a read and write. COUNTS=PATH: at the end the numbers of allocations, reads, writes and starts of
// threads go there, and that of reads after a failed read or the end of the input and of writes after a failed write.
#define _GNU_SOURCE
#include <dlfcn.h>
#include <errno.h>
#include <fcntl.h>
#include <pthread.h>
#include <stdio.h>
#include <stdlib.h>
#include <sys/syscall.h>
#include <sys/uio.h>
#include <unistd.h>

extern void *__libc_malloc(size_t), *__libc_calloc(size_t, size_t), *__libc_realloc(void *, size_t);
extern void *__libc_memalign(size_t, size_t);

enum { ALLOC, READ, WRITE, THREAD, KINDS };
static const char *const names[KINDS] = {"FAIL_ALLOC", "FAIL_READ", "FAIL_WRITE", "FAIL_THREAD"};
static _Atomic long calls[KINDS], interrupted[KINDS], ended, late;

static long number(const char *name) {
    const char *text = getenv(name);
    return text ? atol(text) : 0;
}

static int fails(int kind) {
    long at = number(names[kind]), call = ++calls[kind];
    if ((kind == READ || kind == WRITE) && at && call > at) late++;
    return at && (call == at || (call > at && number("FAIL_ON")));
}

static int faulty(int kind) {
    if (interrupted[kind]++ < number("INTERRUPTIONS")) {
        errno = EINTR;
        return 1;
    }
    interrupted[kind] = 0;
    errno = EIO;
    return fails(kind);
}

#define ALLOCATION(call) (fails(ALLOC) ? (errno = ENOMEM, (void *)0) : (call))
void *malloc(size_t size) { return ALLOCATION(__libc_malloc(size)); }
void *calloc(size_t count, size_t size) { return ALLOCATION(__libc_calloc(count, size)); }
void *realloc(void *at, size_t size) { return ALLOCATION(__libc_realloc(at, size)); }
void *memalign(size_t align, size_t size) { return ALLOCATION(__libc_memalign(align, size)); }
void *aligned_alloc(size_t align, size_t size) { return memalign(align, size); }
int posix_memalign(void **out, size_t align, size_t size) { return (*out = memalign(align, size)) ? 0 : ENOMEM; }

ssize_t read(int file, void *to, size_t size) {
    if (file == 0 && faulty(READ)) return -1;
    late += file == 0 && ended;
    ssize_t count = syscall(SYS_read, file, to, file == 0 && size > 1 && number("SHORT") ? 1 : size);
    ended |= file == 0 && count == 0 && size > 0;
    return count;
}

ssize_t write(int file, const void *from, size_t size) {
    if (file == 1 && faulty(WRITE)) return -1;
    return syscall(SYS_write, file, from, file == 1 && size > 1 && number("SHORT") ? 1 : size);
}

// a short call is one buffer's
ssize_t readv(int file, const struct iovec *parts, int count) {
    return count > 0 ? read(file, parts->iov_base, parts->iov_len) : 0;
}

ssize_t writev(int file, const struct iovec *parts, int count) {
    return count > 0 ? write(file, parts->iov_base, parts->iov_len) : 0;
}

typedef int starts(pthread_t *, const pthread_attr_t *, void *(*)(void *), void *);

int pthread_create(pthread_t *thread, const pthread_attr_t *how, void *(*body)(void *), void *with) {
    starts *start = (starts *)dlsym(RTLD_NEXT, "pthread_create");
    return fails(THREAD) ? EAGAIN : start(thread, how, body, with);
}

__attribute__((destructor)) static void told(void) {
    const char *path = getenv("COUNTS");
    char text[128];
    int size = snprintf(text, sizeof text, "%ld %ld %ld %ld %ld\n", (long)calls[ALLOC], (long)calls[READ],
                        (long)calls[WRITE], (long)calls[THREAD], (long)late);
    int file = path ? open(path, O_WRONLY | O_CREAT | O_TRUNC, 0600) : -1;
    if (file >= 0 && write(file, text, size) == size) close(file);
}

// a program with threads ends so, and runs no destructor
void _exit(int status) {
    told();
    for (;;) syscall(SYS_exit_group, status);
}
