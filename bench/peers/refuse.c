/* Loaded before a program (LD_PRELOAD), refuses the allocation whose number, from 1, stands in REFUSE, once, and as many more
 * behind it as stand in REFUSE_MORE. The file named in REFUSE_COUNT has how many allocations there were so far, as a number of 8 bytes, so
 * that it holds however the program ends. It is no part of the gate. */
#define _GNU_SOURCE
#include <dlfcn.h>
#include <fcntl.h>
#include <stdatomic.h>
#include <stdlib.h>
#include <sys/mman.h>
#include <unistd.h>

static atomic_ulong own;
static atomic_ulong *made = &own;
static unsigned long which, more;

/* The first allocation is made before there are threads. */
static void begin(void) {
    const char *word = getenv("REFUSE"), *further = getenv("REFUSE_MORE"), *name = getenv("REFUSE_COUNT");
    which = word ? strtoul(word, NULL, 10) : 0;
    more = further ? strtoul(further, NULL, 10) : 0;
    int file = name ? open(name, O_RDWR | O_CREAT | O_TRUNC, 0600) : -1;
    if (file < 0 || ftruncate(file, sizeof own) != 0) return;
    void *at = mmap(NULL, sizeof own, PROT_READ | PROT_WRITE, MAP_SHARED, file, 0);
    if (at != MAP_FAILED) made = at;
}

static int is_refused(void) {
    static int is_begun;
    if (!is_begun) {
        is_begun = 1;
        begin();
    }
    unsigned long number = atomic_fetch_add(made, 1) + 1;
    return which && which <= number && number <= which + more;
}

#define REAL(name) \
    static __typeof__(&name) real; \
    if (!real) real = (__typeof__(&name))dlsym(RTLD_NEXT, #name);

void *malloc(size_t size) {
    REAL(malloc)
    return is_refused() ? NULL : real(size);
}

void *realloc(void *old, size_t size) {
    REAL(realloc)
    return is_refused() ? NULL : real(old, size);
}

void *aligned_alloc(size_t align, size_t size) {
    REAL(aligned_alloc)
    return is_refused() ? NULL : real(align, size);
}

int posix_memalign(void **out, size_t align, size_t size) {
    REAL(posix_memalign)
    return is_refused() ? 12 : real(out, align, size);
}
