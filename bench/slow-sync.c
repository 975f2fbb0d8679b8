// Lets each sync of a file take longer by SYNC_MICROSECONDS, as on a slower disk: `bench/store --sync N` loads it before the C
// library, into itself and into the wiki alike.
#define _GNU_SOURCE
#include <dlfcn.h>
#include <stdlib.h>
#include <time.h>

static void wait_longer(void)
{
    long microseconds = atol(getenv("SYNC_MICROSECONDS"));
    struct timespec longer = { microseconds / 1000000, microseconds % 1000000 * 1000 };
    nanosleep(&longer, NULL);
}

int fdatasync(int file)
{
    int (*sync)(int) = (int (*)(int))dlsym(RTLD_NEXT, "fdatasync");
    wait_longer();
    return sync(file);
}

int fsync(int file)
{
    int (*sync)(int) = (int (*)(int))dlsym(RTLD_NEXT, "fsync");
    wait_longer();
    return sync(file);
}
