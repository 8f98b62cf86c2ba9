/* What .ci/try-faults loads before the program: memory, reads and writes that fail or fall short as the environment says.
 *
 *     cc -shared -fPIC -O2 -fno-builtin -o shim.so .ci/try-faults.c && LD_PRELOAD=./shim.so FAULTS_MEMORY=17 PROGRAM ...
 *
 *   FAULTS_MEMORY=N  FAULTS_READ=N  FAULTS_WRITE=N    number N, counted from 1, fails: no memory, or EIO; N-M: each from N to M;
 *                                                     N+: this one and all behind it
 *   FAULTS_READ_SHORT=N      FAULTS_WRITE_SHORT=N     number N moves one byte at most
 *   FAULTS_READ_MOST=BYTES   FAULTS_WRITE_MOST=BYTES  each moves so many bytes at most
 *   FAULTS_COUNTS=FILE       at exit the file has a line for each of memory, read and write: how many there were, how many of them
 *                            failed, how many were let move less than they asked for, and how many bytes were moved
 *
 * A request for memory is one that returns into the code of the program itself, the first object that the loader lists. All others
 * are the C library's and the loader's own, among them all before main, and go on uncounted. Reads are of descriptor 0, writes to
 * descriptor 1. For the GNU C library, and one thread. */
#define _GNU_SOURCE
#include <errno.h>
#include <limits.h>
#include <link.h>
#include <stdint.h>
#include <stdio.h>
#include <stdlib.h>
#include <sys/syscall.h>
#include <unistd.h>

extern void *__libc_malloc(size_t size);
extern void *__libc_calloc(size_t count, size_t size);
extern void *__libc_realloc(void *old, size_t size);
extern void *__libc_memalign(size_t align, size_t size);

struct kind {
    const char *name;
    unsigned long fails, fails_to, short_at, most; /* as the environment says; 0 where it says nothing */
    unsigned long made, failed, cut, bytes;
};

static struct kind memory = {.name = "MEMORY"}, reads = {.name = "READ"}, writes = {.name = "WRITE"};
static uintptr_t code_start = UINTPTR_MAX, code_end;

/* The number that a variable says, and how far it goes on from there. */
static unsigned long said(const char *kind, const char *rest, unsigned long *to) {
    char name[64];
    snprintf(name, sizeof name, "FAULTS_%s%s", kind, rest);
    const char *value = getenv(name);
    if (value == NULL)
        return 0;
    char *end;
    unsigned long number = strtoul(value, &end, 10);
    if (to != NULL)
        *to = *end == '+' ? ULONG_MAX : *end == '-' ? strtoul(end + 1, NULL, 10) : number;
    return number;
}

static int first_object(struct dl_phdr_info *object, size_t size, void *none) {
    (void)size, (void)none;
    for (int i = 0; i < object->dlpi_phnum; i++) {
        const ElfW(Phdr) *part = &object->dlpi_phdr[i];
        if (part->p_type != PT_LOAD || !(part->p_flags & PF_X))
            continue;
        uintptr_t start = object->dlpi_addr + part->p_vaddr;
        if (start < code_start)
            code_start = start;
        if (start + part->p_memsz > code_end)
            code_end = start + part->p_memsz;
    }
    return 1;
}

__attribute__((constructor)) static void begin(void) {
    struct kind *kinds[] = {&memory, &reads, &writes};
    for (int i = 0; i < 3; i++) {
        kinds[i]->fails = said(kinds[i]->name, "", &kinds[i]->fails_to);
        kinds[i]->short_at = said(kinds[i]->name, "_SHORT", NULL);
        kinds[i]->most = said(kinds[i]->name, "_MOST", NULL);
    }
    dl_iterate_phdr(first_object, NULL);
}

__attribute__((destructor)) static void end(void) {
    const char *path = getenv("FAULTS_COUNTS");
    FILE *file = path == NULL ? NULL : fopen(path, "w");
    if (file == NULL)
        return;
    struct kind *kinds[] = {&memory, &reads, &writes};
    for (int i = 0; i < 3; i++)
        fprintf(file, "%lu %lu %lu %lu\n", kinds[i]->made, kinds[i]->failed, kinds[i]->cut, kinds[i]->bytes);
    fclose(file);
}

/* Counts one more of a kind, and tells whether it is to fail. */
static int fails(struct kind *kind) {
    kind->made++;
    if (kind->fails == 0 || kind->made < kind->fails || kind->made > kind->fails_to)
        return 0;
    kind->failed++;
    return 1;
}

/* Whether a request for memory that returns to `back` is the program's, and is to be refused. */
static int refused(void *back, size_t size) {
    if ((uintptr_t)back < code_start || (uintptr_t)back >= code_end)
        return 0;
    if (fails(&memory)) {
        errno = ENOMEM;
        return 1;
    }
    memory.bytes += size;
    return 0;
}

#define REFUSED(size) refused(__builtin_return_address(0), size)

void *malloc(size_t size) {
    return REFUSED(size) ? NULL : __libc_malloc(size);
}

void *calloc(size_t count, size_t size) {
    return REFUSED(count * size) ? NULL : __libc_calloc(count, size);
}

void *realloc(void *old, size_t size) {
    return REFUSED(size) ? NULL : __libc_realloc(old, size);
}

void *aligned_alloc(size_t align, size_t size) {
    return REFUSED(size) ? NULL : __libc_memalign(align, size);
}

int posix_memalign(void **place, size_t align, size_t size) {
    void *given = REFUSED(size) ? NULL : __libc_memalign(align, size);
    if (given == NULL)
        return ENOMEM;
    *place = given;
    return 0;
}

/* How many bytes the read or write that was just counted may move. */
static size_t may_move(struct kind *kind, size_t asked) {
    size_t most = asked;
    if (kind->most != 0 && most > kind->most)
        most = kind->most;
    if (kind->made == kind->short_at && most > 1)
        most = 1;
    kind->cut += most < asked;
    return most;
}

static ssize_t moved(struct kind *kind, ssize_t count) {
    if (count > 0)
        kind->bytes += (unsigned long)count;
    return count;
}

ssize_t read(int descriptor, void *buffer, size_t asked) {
    if (descriptor != 0)
        return syscall(SYS_read, descriptor, buffer, asked);
    if (fails(&reads)) {
        errno = EIO;
        return -1;
    }
    return moved(&reads, syscall(SYS_read, descriptor, buffer, may_move(&reads, asked)));
}

ssize_t write(int descriptor, const void *piece, size_t asked) {
    if (descriptor != 1)
        return syscall(SYS_write, descriptor, piece, asked);
    if (fails(&writes)) {
        errno = EIO;
        return -1;
    }
    return moved(&writes, syscall(SYS_write, descriptor, piece, may_move(&writes, asked)));
}

ssize_t __write(int descriptor, const void *piece, size_t asked) {
    return write(descriptor, piece, asked);
}
