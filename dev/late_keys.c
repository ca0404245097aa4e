/* Where it is preloaded (LD_PRELOAD), a `select` that waits for standard input alone answers late that there is a key, as that of
   a process that is put aside just behind it. */
#define _GNU_SOURCE
#include <dlfcn.h>
#include <sys/select.h>
#include <time.h>
#define LATE 300000000      /* nanoseconds */

int select(int count, fd_set *in, fd_set *out, fd_set *other, struct timeval *limit)
{
    int (*real)(int, fd_set *, fd_set *, fd_set *, struct timeval *) = dlsym(RTLD_NEXT, "select");
    int found = real(count, in, out, other, limit);
    if (count == 1 && found > 0) {
        struct timespec left = {0, LATE};
        while (nanosleep(&left, &left))     /* signals come meanwhile */
            ;
    }
    return found;
}
