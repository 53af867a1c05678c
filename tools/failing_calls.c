/* Put before a program by LD_PRELOAD, it has calls of the system fail: the file that FAILING_CALLS names has three numbers
   of eight octets each, which may change while the program runs. So many further calls of epoll_wait fail, or all where
   that is negative; the clock that is never set can't be read where the second isn't 0; and by the third each call of
   write takes so many milliseconds more, if it is to a file on a disk. */

#define _GNU_SOURCE
#include <errno.h>
#include <fcntl.h>
#include <stdint.h>
#include <stdlib.h>
#include <sys/epoll.h>
#include <sys/mman.h>
#include <sys/stat.h>
#include <sys/syscall.h>
#include <time.h>
#include <unistd.h>

static volatile int64_t *failing;

__attribute__((constructor)) static void find_failing(void) {
    const char *name = getenv("FAILING_CALLS");
    int file = name ? open(name, O_RDWR) : -1;
    if (file < 0)
        return;
    void *found = mmap(NULL, 3 * sizeof *failing, PROT_READ | PROT_WRITE, MAP_SHARED, file, 0);
    if (found != MAP_FAILED)
        failing = found;
    close(file);
}

int epoll_wait(int poll, struct epoll_event *events, int most, int milliseconds) {
    if (failing && failing[0] != 0) {
        if (failing[0] > 0)
            failing[0]--;
        errno = EBADF;
        return -1;
    }
    return (int)syscall(SYS_epoll_pwait, poll, events, most, milliseconds, NULL, 8);
}

int clock_gettime(clockid_t clock, struct timespec *now) {
    if (failing && failing[1] != 0 && clock == CLOCK_MONOTONIC) {
        errno = EINVAL;
        return -1;
    }
    return (int)syscall(SYS_clock_gettime, clock, now);
}

ssize_t write(int file, const void *octets, size_t count) {
    struct stat found;
    if (failing && failing[2] != 0 && fstat(file, &found) == 0 && S_ISREG(found.st_mode)) {
        struct timespec pause = {failing[2] / 1000, failing[2] % 1000 * 1000000};
        nanosleep(&pause, NULL);
    }
    return syscall(SYS_write, file, octets, count);
}
