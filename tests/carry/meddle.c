/* Loaded before the C library into the program carry, so that a test can look at its calls of the system and meddle with them. What to do stands in the
   environment:

   CARRY_STEPS  a name: each call is written to that file, a line with its name and the path that it is about
   CARRY_KILL   k: the process is killed just before its k-th call
   CARRY_FAIL   a call's name and an error's number: such a call fails; if it is one on a descriptor, then on the file aside alone
   CARRY_SHORT  n: a read or a write moves n bytes at most
   CARRY_MAKE   a name: a file of that name is made at the first fsync */
#define _GNU_SOURCE
#include <errno.h>
#include <fcntl.h>
#include <signal.h>
#include <stdarg.h>
#include <stdio.h>
#include <stdlib.h>
#include <string.h>
#include <sys/stat.h>
#include <sys/syscall.h>
#include <unistd.h>

/* Writes the call to the file of steps. */
static void note(const char *name, const char *path)
{
    const char *steps = getenv("CARRY_STEPS");
    char line[8192];
    if (steps == NULL)
        return;
    int len = snprintf(line, sizeof line, "%s %s\n", name, path);
    long fd = syscall(SYS_open, steps, O_WRONLY | O_CREAT | O_APPEND, 0600);
    syscall(SYS_write, fd, line, len);
    syscall(SYS_close, fd);
}

/* Counts a call that is about a path. Returns whether it has to fail. */
static int call(const char *name, const char *path, int may_fail)
{
    static int calls;
    const char *kill_at = getenv("CARRY_KILL");
    const char *fail = getenv("CARRY_FAIL");
    size_t len = strlen(name);
    calls++;
    if (kill_at != NULL && calls == atoi(kill_at))
        raise(SIGKILL);
    note(name, path);
    if (fail == NULL || !may_fail || strncmp(fail, name, len) != 0 || fail[len] != ' ')
        return 0;
    errno = atoi(fail + len);
    return 1;
}

/* The same of a call on a descriptor. That of the file aside is the only one that is opened to be written alone. */
static int call_on(const char *name, int fd, int always)
{
    char link[32], path[4096];
    long flags = syscall(SYS_fcntl, fd, F_GETFL);
    int aside = fd > STDERR_FILENO && flags != -1 && (flags & O_ACCMODE) == O_WRONLY;
    snprintf(link, sizeof link, "/proc/self/fd/%d", fd);
    long len = fd > STDERR_FILENO ? syscall(SYS_readlink, link, path, sizeof path - 1) : snprintf(path, sizeof path, "%d", fd);
    path[len < 0 ? 0 : len] = 0;
    return call(name, path, always || aside);
}

static size_t most(size_t len)
{
    const char *bound = getenv("CARRY_SHORT");
    size_t n = bound == NULL ? len : (size_t)atoi(bound);
    return n < len ? n : len;
}

int open(const char *path, int flags, ...)
{
    va_list rest;
    va_start(rest, flags);
    mode_t mode = (flags & O_CREAT) != 0 ? va_arg(rest, mode_t) : 0;
    va_end(rest);
    return call((flags & O_CREAT) != 0 ? "create" : "open", path, 1) ? -1 : (int)syscall(SYS_open, path, flags, mode);
}

ssize_t read(int fd, void *bytes, size_t len)
{
    return call_on("read", fd, 1) ? -1 : syscall(SYS_read, fd, bytes, most(len));
}

ssize_t write(int fd, const void *bytes, size_t len)
{
    return call_on("write", fd, 0) ? -1 : syscall(SYS_write, fd, bytes, most(len));
}

int fsync(int fd)
{
    const char *made = getenv("CARRY_MAKE");
    if (made != NULL)
        syscall(SYS_close, syscall(SYS_open, made, O_WRONLY | O_CREAT, 0600));
    return call_on("fsync", fd, 0) ? -1 : (int)syscall(SYS_fsync, fd);
}

int close(int fd)
{
    return call_on("close", fd, 0) ? -1 : (int)syscall(SYS_close, fd);
}

/* The library asks so what an open file is, with no path. */
int statx(int fd, const char *restrict path, int flags, unsigned mask, struct statx *restrict told)
{
    return call_on("fstat", fd, 1) ? -1 : (int)syscall(SYS_statx, fd, path, flags, mask, told);
}

int fchown(int fd, uid_t owner, gid_t group)
{
    return call_on("fchown", fd, 0) ? -1 : (int)syscall(SYS_fchown, fd, owner, group);
}

int fchmod(int fd, mode_t mode)
{
    return call_on("fchmod", fd, 0) ? -1 : (int)syscall(SYS_fchmod, fd, mode);
}

int rename(const char *from, const char *to)
{
    return call("rename", to, 1) ? -1 : (int)syscall(SYS_rename, from, to);
}

int unlink(const char *path)
{
    return call("unlink", path, 1) ? -1 : (int)syscall(SYS_unlink, path);
}

ssize_t readlink(const char *path, char *text, size_t len)
{
    return call("readlink", path, 1) ? -1 : syscall(SYS_readlink, path, text, len);
}

int getentropy(void *bytes, size_t len)
{
    return call("getentropy", "", 1) ? -1 : syscall(SYS_getrandom, bytes, len, 0) == (long)len ? 0 : -1;
}
