/* Preloaded into the command by the tests: stands before the system calls that
 * read and replace a file, so that the command meets a kill, an error or half a
 * write at a chosen one of them, without any help from the command itself.
 *
 *   FAULT_LOG   a file that gets a line for each of these calls
 *   FAULT_AT    the call at which the fault happens, from 0
 *   FAULT_HOW   "kill": a SIGKILL in the place of the call
 *               "short": a write takes half of its bytes
 *               a number: the call fails with this errno
 *   FAULT_CALL  beside FAULT_HOW: every call of this name fails, at no number
 *   FAULT_LOCK  set: a lock is given to everybody, as if each were alone
 *   FAULT_BOOT  a file that stands for the running system's number, so that the
 *               command seems to run on another machine */
#define _GNU_SOURCE
#include <dlfcn.h>
#include <errno.h>
#include <fcntl.h>
#include <signal.h>
#include <stdarg.h>
#include <stdio.h>
#include <stdlib.h>
#include <string.h>
#include <sys/file.h>
#include <sys/syscall.h>
#include <sys/types.h>
#include <unistd.h>

static int calls;

/* Straight to the system, past the functions below. */
static void log_call(const char *name, const char *path)
{
    char line[5000];
    const char *log = getenv("FAULT_LOG");
    long file;
    if (log == NULL)
        return;
    file = syscall(SYS_open, log, O_WRONLY | O_APPEND | O_CREAT, 0666);
    snprintf(line, sizeof line, "%s %s\n", name, path);
    syscall(SYS_write, file, line, strlen(line));
    syscall(SYS_close, file);
}

/* What is to happen at this call, or null. */
static const char *fault(const char *name, const char *path)
{
    const char *at = getenv("FAULT_AT"), *how = getenv("FAULT_HOW");
    const char *call = getenv("FAULT_CALL");
    log_call(name, path);
    if (call != NULL && how != NULL && strcmp(call, name) == 0)
        return how;
    if (at == NULL || how == NULL || calls++ != atoi(at))
        return NULL;
    if (strcmp(how, "kill") == 0)
        kill(getpid(), SIGKILL);
    return how;
}

static const char *fault_of_file(const char *name, int file)
{
    static char path[4096];
    char link[64];
    ssize_t length;
    snprintf(link, sizeof link, "/proc/self/fd/%d", file);
    length = readlink(link, path, sizeof path - 1);
    path[length < 0 ? 0 : length] = '\0';
    return fault(name, path);
}

/* Calls the system's own function unless there is a fault. */
#define PASS(how, name, type, parameters, arguments)                           \
    do {                                                                       \
        type(*next) parameters = (type(*) parameters)dlsym(RTLD_NEXT, name);   \
        const char *what = how;                                                \
        if (what != NULL && atoi(what) != 0) {                                 \
            errno = atoi(what);                                                \
            return -1;                                                         \
        }                                                                      \
        return next arguments;                                                 \
    } while (0)

int open64(const char *path, int flags, ...)
{
    mode_t mode = 0;
    if (flags & O_CREAT) {
        va_list rest;
        va_start(rest, flags);
        mode = va_arg(rest, mode_t);
        va_end(rest);
    }
    if (strcmp(path, "/proc/sys/kernel/random/boot_id") == 0 &&
        getenv("FAULT_BOOT") != NULL)
        path = getenv("FAULT_BOOT");
    PASS(fault("open", path), "open64", int, (const char *, int, ...),
         (path, flags, mode));
}

ssize_t read(int file, void *bytes, size_t count)
{
    PASS(fault_of_file("read", file), "read", ssize_t, (int, void *, size_t),
         (file, bytes, count));
}

ssize_t write(int file, const void *bytes, size_t count)
{
    const char *how = fault_of_file("write", file);
    if (how != NULL && strcmp(how, "short") == 0)
        count = (count + 1) / 2;
    PASS(how, "write", ssize_t, (int, const void *, size_t),
         (file, bytes, count));
}

int flock(int file, int operation)
{
    /* An unlocking always succeeds and keeps nobody out. */
    if (getenv("FAULT_LOCK") != NULL)
        operation = LOCK_UN;
    PASS(fault_of_file("flock", file), "flock", int, (int, int),
         (file, operation));
}

int fchown(int file, uid_t owner, gid_t group)
{
    PASS(fault_of_file("fchown", file), "fchown", int, (int, uid_t, gid_t),
         (file, owner, group));
}

int fchmod(int file, mode_t mode)
{
    PASS(fault_of_file("fchmod", file), "fchmod", int, (int, mode_t),
         (file, mode));
}

int fsync(int file)
{
    PASS(fault_of_file("fsync", file), "fsync", int, (int), (file));
}

int rename(const char *old, const char *new)
{
    PASS(fault("rename", old), "rename", int, (const char *, const char *),
         (old, new));
}

int unlink(const char *path)
{
    PASS(fault("unlink", path), "unlink", int, (const char *), (path));
}

int linkat(int old_at, const char *old, int new_at, const char *new, int flags)
{
    PASS(fault("link", old), "linkat", int,
         (int, const char *, int, const char *, int),
         (old_at, old, new_at, new, flags));
}

ssize_t flistxattr(int file, char *names, size_t size)
{
    PASS(fault_of_file("flistxattr", file), "flistxattr", ssize_t,
         (int, char *, size_t), (file, names, size));
}

ssize_t fgetxattr(int file, const char *name, void *value, size_t size)
{
    PASS(fault_of_file("fgetxattr", file), "fgetxattr", ssize_t,
         (int, const char *, void *, size_t), (file, name, value, size));
}

int fsetxattr(int file, const char *name, const void *value, size_t size,
              int flags)
{
    PASS(fault_of_file("fsetxattr", file), "fsetxattr", int,
         (int, const char *, const void *, size_t, int),
         (file, name, value, size, flags));
}

int fremovexattr(int file, const char *name)
{
    PASS(fault_of_file("fremovexattr", file), "fremovexattr", int,
         (int, const char *), (file, name));
}
