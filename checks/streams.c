/* Makes one call go wrong that the program makes of the system: the one whose number stands in NUMBER, counted from 1, or each of them where it is 0. WHERE says
   which calls are counted: `out` those of write(2) to standard output, `errors` those to standard error, `files` those to files, `reads` those of read(2) from files
   and from standard input, and `names`, `owners` and `modes` those that give a file a name, an owner or permissions. HOW says what such a call does: a number is
   the error that it fails with, and a read or write with `none` takes or gives nothing and answers 0, with `byte` one byte; before a read with `grow` the file that
   GROWN names has one byte more, a question mark. Where a call was made so, the file that REACHED names is made. To be loaded before the C library. */
#define _GNU_SOURCE
#include <errno.h>
#include <fcntl.h>
#include <stdio.h>
#include <stdlib.h>
#include <string.h>
#include <sys/stat.h>
#include <sys/syscall.h>
#include <unistd.h>

static unsigned long calls;

/* Writes so many bytes after those of the file that this variable of the environment names. */
static void append(const char *variable, const char *bytes, size_t size)
{
    const char *name = getenv(variable);
    long file = name ? syscall(SYS_openat, AT_FDCWD, name, O_WRONLY | O_CREAT | O_APPEND, 0600) : -1;
    if (file < 0 || syscall(SYS_write, file, bytes, size) != (long)size)
        abort();
    syscall(SYS_close, file);
}

static void tell(void)
{
    append("REACHED", "", 0);
}

/* Whether this call from such a place goes wrong. */
static int goes_wrong(const char *place)
{
    const char *where = getenv("WHERE"), *number = getenv("NUMBER");
    unsigned long wanted = number ? strtoul(number, NULL, 10) : 0;
    if (!where || strcmp(where, place) != 0)
        return 0;
    calls++;
    return wanted == 0 || wanted == calls;
}

/* The call, or what stands for it. */
static ssize_t done(const char *place, long call, int file, void *bytes, size_t size)
{
    const char *how = getenv("HOW");
    if (!how || !goes_wrong(place))
        return syscall(call, file, bytes, size);
    tell();
    if (strcmp(how, "byte") == 0)
        return syscall(call, file, bytes, size < 1 ? size : 1);
    if (strcmp(how, "none") == 0)
        return 0;
    if (strcmp(how, "grow") == 0) {
        append("GROWN", "?", 1);
        return syscall(call, file, bytes, size);
    }
    errno = atoi(how);
    return -1;
}

ssize_t write(int file, const void *bytes, size_t size)
{
    return done(file == STDOUT_FILENO ? "out" : file == STDERR_FILENO ? "errors" : "files", SYS_write, file, (void *)bytes, size);
}

ssize_t __write(int file, const void *bytes, size_t size)
{
    return write(file, bytes, size);
}

ssize_t read(int file, void *bytes, size_t size)
{
    return done("reads", SYS_read, file, bytes, size);
}

/* Whether this call, which takes no bytes, fails, with its error. */
static int fails(const char *place)
{
    const char *how = getenv("HOW");
    if (!how || !goes_wrong(place))
        return 0;
    tell();
    errno = atoi(how);
    return 1;
}

int rename(const char *old, const char *new)
{
    return fails("names") ? -1 : (int)syscall(SYS_rename, old, new);
}

int fchown(int file, uid_t owner, gid_t group)
{
    return fails("owners") ? -1 : (int)syscall(SYS_fchown, file, owner, group);
}

int fchmod(int file, mode_t mode)
{
    return fails("modes") ? -1 : (int)syscall(SYS_fchmod, file, mode);
}
