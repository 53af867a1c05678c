/* Lets one request of a process for memory fail, put before a program by LD_PRELOAD. REFUSED_REQUEST says which, from 1
   on; 0 is none. REFUSED_COUNT names a file of sixteen octets, in which the requests and the octets that they ask for
   are counted as they come, also where the process is killed. */

#define _GNU_SOURCE
#include <errno.h>
#include <fcntl.h>
#include <stddef.h>
#include <stdint.h>
#include <stdlib.h>
#include <sys/mman.h>
#include <unistd.h>

extern void *__libc_malloc(size_t size);
extern void *__libc_calloc(size_t count, size_t size);
extern void *__libc_realloc(void *old, size_t size);

struct counts {
    uint64_t requests;
    uint64_t octets;
};

static uint64_t refused;
static struct counts nowhere;
static struct counts *counts = &nowhere;

static int is_refused(size_t size)
{
    if (counts == &nowhere)
        return 0;
    __atomic_add_fetch(&counts->octets, size, __ATOMIC_RELAXED);
    if (__atomic_add_fetch(&counts->requests, 1, __ATOMIC_RELAXED) != refused)
        return 0;
    errno = ENOMEM;
    return 1;
}

__attribute__((constructor)) static void begin(void)
{
    const char *which = getenv("REFUSED_REQUEST");
    const char *name = getenv("REFUSED_COUNT");
    if (!which || !name)
        return;
    int file = open(name, O_RDWR);
    if (file < 0)
        return;
    void *place = mmap(NULL, sizeof *counts, PROT_READ | PROT_WRITE, MAP_SHARED, file, 0);
    close(file);
    if (place == MAP_FAILED)
        return;
    counts = place;
    refused = strtoull(which, NULL, 10);
}

void *malloc(size_t size)
{
    return is_refused(size) ? NULL : __libc_malloc(size);
}

void *calloc(size_t count, size_t size)
{
    return is_refused(count * size) ? NULL : __libc_calloc(count, size);
}

void *realloc(void *old, size_t size)
{
    return is_refused(size) ? NULL : __libc_realloc(old, size);
}
