/* Loaded before a program. Ends it at the call of a file function that CUT_AT counts to, as a loss of power would; and by
 * the words in WITHOUT makes a file system that has no locks, no links, or no speed: there it takes a second until what is
 * staged is open. */
#define _GNU_SOURCE
#include <dlfcn.h>
#include <errno.h>
#include <fcntl.h>
#include <signal.h>
#include <stdarg.h>
#include <stdlib.h>
#include <string.h>
#include <sys/types.h>
#include <unistd.h>

static void step(void)
{
    static long calls;
    const char *at = getenv("CUT_AT");
    if (at && ++calls == atol(at))
        raise(SIGKILL);
}

static int lacks(const char *what, int error)
{
    const char *all = getenv("WITHOUT");
    if (!all || !strstr(all, what))
        return 0;
    errno = error;
    return 1;
}

#define NEXT(name, result, ...) ((result(*)(__VA_ARGS__))dlsym(RTLD_NEXT, name))

int flock(int file, int operation)
{
    if (lacks("locks", EOPNOTSUPP))
        return -1;
    return NEXT("flock", int, int, int)(file, operation);
}

int open64(const char *name, int flags, ...)
{
    va_list more;
    va_start(more, flags);
    mode_t mode = flags & O_CREAT ? va_arg(more, mode_t) : 0;
    va_end(more);
    if (strstr(name, ".staged") && lacks("speed", 0))
        sleep(1);
    return NEXT("open64", int, const char *, int, ...)(name, flags, mode);
}

ssize_t write(int file, const void *bytes, size_t length)
{
    step();
    return NEXT("write", ssize_t, int, const void *, size_t)(file, bytes, length);
}

int fsync(int file)
{
    step();
    return NEXT("fsync", int, int)(file);
}

int chmod(const char *name, mode_t mode)
{
    step();
    return NEXT("chmod", int, const char *, mode_t)(name, mode);
}

int fchmod(int file, mode_t mode)
{
    step();
    return NEXT("fchmod", int, int, mode_t)(file, mode);
}

int rename(const char *from, const char *to)
{
    step();
    return NEXT("rename", int, const char *, const char *)(from, to);
}

int linkat(int from_folder, const char *from, int to_folder, const char *to, int flags)
{
    step();
    if (lacks("links", EPERM))
        return -1;
    return NEXT("linkat", int, int, const char *, int, const char *, int)(from_folder, from, to_folder, to, flags);
}

int unlink(const char *name)
{
    step();
    return NEXT("unlink", int, const char *)(name);
}
