/* Loaded before a program (LD_PRELOAD), makes calls of the system go wrong. FAULT is a CALL, a KIND, and the numbers of the first and the
 * last of these calls that go wrong, counted from 1: `recv garbage 1 5`. The kinds:
 *   an error's number   the call fails with it
 *   garbage             what is received are random bytes, and as many as were asked for
 *   zeros               likewise, zeros
 *   changed             of each piece that is received one bit is changed
 *   nothing             what the peer sends, and what is sent to it, is lost
 *   end                 the peer has ended its side
 *   one                 one byte is read, written, sent or received
 *   stranger            another connection comes to the listener first, and sends garbage
 * The file named in FAULT_COUNT has how many of these calls there were, as a number of 8 bytes. It is no part of the gate. */
#define _GNU_SOURCE
#include <dlfcn.h>
#include <errno.h>
#include <fcntl.h>
#include <pthread.h>
#include <stdarg.h>
#include <stdatomic.h>
#include <stdio.h>
#include <stdlib.h>
#include <string.h>
#include <sys/ioctl.h>
#include <sys/mman.h>
#include <sys/socket.h>
#include <unistd.h>

static char call[32], kind[32];
static unsigned long first = 1, last;
static atomic_ulong own;
static atomic_ulong *made = &own;

/* Before there are threads. */
__attribute__((constructor)) static void begin(void) {
    const char *words = getenv("FAULT"), *name = getenv("FAULT_COUNT");
    if (words) sscanf(words, "%31s %31s %lu %lu", call, kind, &first, &last);
    int file = name ? open(name, O_RDWR | O_CREAT | O_TRUNC, 0600) : -1;
    if (file < 0 || ftruncate(file, sizeof own) != 0) return;
    void *at = mmap(NULL, sizeof own, PROT_READ | PROT_WRITE, MAP_SHARED, file, 0);
    if (at != MAP_FAILED) made = at;
}

/* Whether this call, which is counted, is to go wrong. */
static int is_wrong(const char *name) {
    if (strcmp(name, call) != 0) return 0;
    unsigned long number = atomic_fetch_add(made, 1) + 1;
    return first <= number && number <= last;
}

static int is(const char *what) { return strcmp(kind, what) == 0; }

/* Fails with the error that stands as the kind. */
static int fail(void) {
    errno = atoi(kind);
    return -1;
}

static void fill(unsigned char *bytes, size_t length) {
    static atomic_ulong seed = 88172645463325252UL;
    unsigned long it = atomic_fetch_add(&seed, 0x9E3779B97F4A7C15UL);
    for (size_t at = 0; at < length; at++) {
        it ^= it << 13, it ^= it >> 7, it ^= it << 17;
        bytes[at] = is("zeros") ? 0 : (unsigned char)(it >> 32);
    }
}

#define REAL(name) \
    static __typeof__(&name) real; \
    if (!real) real = (__typeof__(&name))dlsym(RTLD_NEXT, #name);

/* What comes in place of `length` bytes of a peer, where this call goes wrong. */
#define INCOMING(name, really_one, really) \
    REAL(name) \
    if (!is_wrong(#name)) return really; \
    if (is("end")) return 0; \
    if (is("nothing")) { \
        ssize_t came; \
        do came = really; while (came > 0); \
        return came; \
    } \
    if (is("one")) return really_one; \
    if (is("garbage") || is("zeros")) { fill(buf, length); return (ssize_t)length; } \
    if (is("changed")) { \
        ssize_t came = really; \
        if (came > 0) ((unsigned char *)buf)[came / 2] ^= 4; \
        return came; \
    } \
    return fail();

#define OUTGOING(name, really_one, really) \
    REAL(name) \
    if (!is_wrong(#name)) return really; \
    if (is("one")) return really_one; \
    if (is("nothing")) return (ssize_t)length; \
    return fail();

ssize_t recv(int fd, void *buf, size_t length, int flags) {
    INCOMING(recv, real(fd, buf, length ? 1 : 0, flags), real(fd, buf, length, flags))
}

ssize_t read(int fd, void *buf, size_t length) {
    INCOMING(read, real(fd, buf, length ? 1 : 0), real(fd, buf, length))
}

ssize_t send(int fd, const void *buf, size_t length, int flags) {
    OUTGOING(send, real(fd, buf, length ? 1 : 0, flags), real(fd, buf, length, flags))
}

ssize_t write(int fd, const void *buf, size_t length) {
    OUTGOING(write, real(fd, buf, length ? 1 : 0), real(fd, buf, length))
}

#define OPENING(name, params, args) \
    int name params { \
        REAL(name) \
        return is_wrong(#name) ? fail() : real args; \
    }

/* The one request that a program makes here has one argument. */
int ioctl(int fd, unsigned long request, ...) {
    REAL(ioctl)
    va_list more;
    va_start(more, request);
    void *argument = va_arg(more, void *);
    va_end(more);
    return is_wrong("ioctl") ? fail() : real(fd, request, argument);
}

OPENING(socket, (int domain, int type, int protocol), (domain, type, protocol))
OPENING(bind, (int fd, const struct sockaddr *at, socklen_t length), (fd, at, length))
OPENING(listen, (int fd, int most), (fd, most))
OPENING(accept4, (int fd, struct sockaddr *from, socklen_t *length, int flags), (fd, from, length, flags))
OPENING(getsockname, (int fd, struct sockaddr *at, socklen_t *length), (fd, at, length))
OPENING(setsockopt, (int fd, int level, int name, const void *value, socklen_t length), (fd, level, name, value, length))

int connect(int fd, const struct sockaddr *to, socklen_t length) {
    REAL(connect)
    if (!is_wrong("connect")) return real(fd, to, length);
    if (!is("stranger")) return fail();
    unsigned char garbage[4096];
    int stranger = socket(AF_INET, SOCK_STREAM, 0);
    real(stranger, to, length);
    fill(garbage, sizeof garbage);
    if (send(stranger, garbage, sizeof garbage, MSG_NOSIGNAL) < 0) close(stranger);
    return real(fd, to, length);
}

int pthread_create(pthread_t *thread, const pthread_attr_t *form, void *(*begin)(void *), void *with) {
    REAL(pthread_create)
    return is_wrong("pthread_create") ? atoi(kind) : real(thread, form, begin, with);
}
