/*
 * Stands before the system's library: kills the process in place of a write at a file's place or a
 * sync, once as many of them as KILL_AT says have been done.
 */
#define _GNU_SOURCE

#include <signal.h>
#include <stdlib.h>
#include <sys/syscall.h>
#include <unistd.h>

static void step(void)
{
    static long done;

    if (done++ == atol(getenv("KILL_AT")))
        raise(SIGKILL);
}

ssize_t pwrite64(int file, const void *bytes, size_t size, off64_t place)
{
    step();
    return syscall(SYS_pwrite64, file, bytes, size, place);
}

int fdatasync(int file)
{
    step();
    return (int)syscall(SYS_fdatasync, file);
}
