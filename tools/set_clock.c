/* Put before a program by LD_PRELOAD, it sets the program's wall clock: the file that CLOCK_LEAD names has the seconds
   that are added to what the system says, eight octets that may change while the program runs. Other clocks stay. */

#define _GNU_SOURCE
#include <fcntl.h>
#include <stdint.h>
#include <stdlib.h>
#include <sys/mman.h>
#include <sys/syscall.h>
#include <time.h>
#include <unistd.h>

static const volatile int64_t *lead;

__attribute__((constructor)) static void find_lead(void) {
    const char *name = getenv("CLOCK_LEAD");
    int file = name ? open(name, O_RDONLY) : -1;
    if (file < 0)
        return;
    void *found = mmap(NULL, sizeof *lead, PROT_READ, MAP_SHARED, file, 0);
    if (found != MAP_FAILED)
        lead = found;
    close(file);
}

int clock_gettime(clockid_t clock, struct timespec *now) {
    int status = (int)syscall(SYS_clock_gettime, clock, now);
    if (status == 0 && clock == CLOCK_REALTIME && lead)
        now->tv_sec += *lead;
    return status;
}
