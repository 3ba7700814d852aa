/* Preloaded by tools/gate/refuse_calls: of the calls named CALL the one with the number REFUSE, counted from 1, is refused, with ENOSPC, and then
   the file REFUSED is made. A refused write puts nothing, a refused close closes all the same, as the system's does. */
#define _GNU_SOURCE
#include <dlfcn.h>
#include <errno.h>
#include <fcntl.h>
#include <stdio.h>
#include <stdlib.h>
#include <string.h>
#include <sys/types.h>
#include <unistd.h>

static unsigned long refuse, calls;
static const char *refused_call = "";

__attribute__((constructor)) static void begin(void)
{
    const char *number = getenv("REFUSE"), *call = getenv("CALL");
    refuse = number ? strtoul(number, NULL, 10) : 0;
    refused_call = call ? call : "";
}

static int is_refused(const char *call)
{
    if (strcmp(call, refused_call) != 0 || ++calls != refuse)
        return 0;
    const char *name = getenv("REFUSED");
    int (*real_open)(const char *, int, ...) = dlsym(RTLD_NEXT, "open");
    int (*real_close)(int) = dlsym(RTLD_NEXT, "close");
    if (name)
        real_close(real_open(name, O_CREAT | O_WRONLY, 0600));
    errno = ENOSPC;
    return 1;
}

int close(int fd)
{
    int (*real)(int) = dlsym(RTLD_NEXT, "close");
    int answer = real(fd);
    return is_refused("close") ? -1 : answer;
}

int fsync(int fd)
{
    int (*real)(int) = dlsym(RTLD_NEXT, "fsync");
    return is_refused("fsync") ? -1 : real(fd);
}

int rename(const char *from, const char *to)
{
    int (*real)(const char *, const char *) = dlsym(RTLD_NEXT, "rename");
    return is_refused("rename") ? -1 : real(from, to);
}

ssize_t write(int fd, const void *bytes, size_t count)
{
    ssize_t (*real)(int, const void *, size_t) = dlsym(RTLD_NEXT, "write");
    return fd > 2 && is_refused("write") ? -1 : real(fd, bytes, count);
}
