/* Put before the C library of `floors` by LD_PRELOAD. It writes down, to the file that CALLS names, which files are created,
 * flushed, renamed and removed; it can make one kind of call fail (FAIL) or wait (SLOW), milliseconds before each flush. */
#define _GNU_SOURCE
#include <dlfcn.h>
#include <errno.h>
#include <fcntl.h>
#include <stdarg.h>
#include <stdio.h>
#include <stdlib.h>
#include <string.h>
#include <sys/stat.h>
#include <unistd.h>

static void note(const char *call, const char *path)
{
    const char *file = getenv("CALLS");
    if (file == NULL)
        return;
    char line[600];
    const char *slash = strrchr(path, '/');
    int length = snprintf(line, sizeof line, "%s %s\n", call, slash == NULL ? path : slash + 1);
    int (*real)(const char *, int, ...) = dlsym(RTLD_NEXT, "open");
    int to = real(file, O_WRONLY | O_APPEND | O_CREAT, 0644);
    if (to >= 0) {
        if (write(to, line, (size_t)length) < 0)
            abort();
        close(to);
    }
}

static int fails(const char *call)
{
    const char *kind = getenv("FAIL");
    if (kind == NULL || strcmp(kind, call) != 0)
        return 0;
    errno = EIO;
    return 1;
}

int open64(const char *path, int flags, ...)
{
    int (*real)(const char *, int, ...) = dlsym(RTLD_NEXT, "open64");
    if (!(flags & O_CREAT))
        return real(path, flags);
    va_list more;
    va_start(more, flags);
    mode_t mode = va_arg(more, mode_t);
    va_end(more);
    note("create", path);
    return real(path, flags, mode);
}

int open(const char *path, int flags, ...) __attribute__((alias("open64")));

int fsync(int file)
{
    int (*real)(int) = dlsym(RTLD_NEXT, "fsync");
    char link[64], path[512];
    struct stat data;
    snprintf(link, sizeof link, "/proc/self/fd/%d", file);
    ssize_t length = readlink(link, path, sizeof path - 1);
    path[length < 0 ? 0 : length] = 0;
    int is_folder = fstat(file, &data) == 0 && S_ISDIR(data.st_mode);
    note(is_folder ? "flush-folder" : "flush", path);
    if (!is_folder && getenv("SLOW") != NULL)
        usleep((useconds_t)atoi(getenv("SLOW")) * 1000);
    return fails(is_folder ? "flush-folder" : "flush") ? -1 : real(file);
}

int rename(const char *from, const char *to)
{
    int (*real)(const char *, const char *) = dlsym(RTLD_NEXT, "rename");
    note("rename", to);
    return fails("rename") ? -1 : real(from, to);
}

int unlink(const char *path)
{
    int (*real)(const char *) = dlsym(RTLD_NEXT, "unlink");
    note("remove", path);
    return real(path);
}
