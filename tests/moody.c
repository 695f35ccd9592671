/* Loaded before the C library: reads and writes that move little, and now and then fail as a system's may. */
#define _GNU_SOURCE
#include <dlfcn.h>
#include <errno.h>
#include <sys/types.h>

static unsigned turn;

/* Two of three calls move nothing: one is interrupted, one is not ready. */
static int moves(void)
{
    turn += 1;
    if (turn % 3 != 0) {
        errno = turn % 3 == 1 ? EINTR : EAGAIN;
        return 0;
    }
    return 1;
}

ssize_t read(int fd, void *buf, size_t n)
{
    ssize_t (*real)(int, void *, size_t) = (ssize_t (*)(int, void *, size_t))dlsym(RTLD_NEXT, "read");
    if (!moves())
        return -1;
    return real(fd, buf, n < 7 ? n : 1 + turn % 7);
}

ssize_t write(int fd, const void *buf, size_t n)
{
    ssize_t (*real)(int, const void *, size_t) = (ssize_t (*)(int, const void *, size_t))dlsym(RTLD_NEXT, "write");
    if (!moves())
        return -1;
    return real(fd, buf, n < 5 ? n : 1 + turn % 5);
}
