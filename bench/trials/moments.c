/* Lets chosen calls fail, or runs a command before them. A part of moments.py. */
#define _GNU_SOURCE
#include <dlfcn.h>
#include <errno.h>
#include <fcntl.h>
#include <stdarg.h>
#include <stdio.h>
#include <stdlib.h>
#include <string.h>
#include <sys/file.h>
#include <sys/stat.h>
#include <sys/wait.h>
#include <unistd.h>
enum { MOST = 8 };
static struct { char *call, *path, *does; long first, last, seen; int error; } moments[MOST];
static int count = -1;
static void read_moments(void) {
    char *rest = strdup(getenv("MOMENTS") ? getenv("MOMENTS") : ""), *part;
    for (count = 0; count < MOST && (part = strsep(&rest, "\x1e")) && *part; count++) {
        moments[count].call = strsep(&part, "\x1f");
        moments[count].path = strsep(&part, "\x1f");
        moments[count].first = atol(strsep(&part, "\x1f"));
        moments[count].last = atol(strsep(&part, "\x1f"));
        moments[count].error = atoi(strsep(&part, "\x1f"));
        moments[count].does = strsep(&part, "\x1f");
    }
}
static int ends_so(const char *path, const char *end) {
    size_t n = strlen(path), m = strlen(end);
    return m <= n && !strcmp(path + n - m, end);
}
static void run(const char *command) {
    pid_t child = fork();
    if (!child) {
        unsetenv("LD_PRELOAD");
        execl("/bin/sh", "sh", "-c", command, (char *)0);
        _exit(127);
    }
    waitpid(child, 0, 0);
}
static void note(int n) {
    static int met = -1;
    static int (*real)(const char *, int, ...);
    if (!real) real = dlsym(RTLD_NEXT, "open");
    if (met < 0) met = real(getenv("MOMENTS_MET"), O_CREAT | O_WRONLY | O_APPEND | O_CLOEXEC, 0600);
    char name = '0' + n;
    (void)!write(met, &name, 1);
}
static int fails(const char *call, const char *path) {
    int error = 0;
    if (count < 0) read_moments();
    for (int n = 0; n < count; n++) {
        if (strcmp(moments[n].call, call) || !ends_so(path, moments[n].path)) continue;
        long seen = ++moments[n].seen;
        if (seen < moments[n].first || seen > moments[n].last) continue;
        if (seen == moments[n].first) note(n);
        if (*moments[n].does) run(moments[n].does);
        if (moments[n].error) error = moments[n].error;
    }
    if (error) errno = error;
    return error != 0;
}
static int fails_at(const char *call, int fd) {
    char link[64], path[4096];
    snprintf(link, sizeof link, "/proc/self/fd/%d", fd);
    long n = readlink(link, path, sizeof path - 1);
    path[n < 0 ? 0 : n] = 0;
    return fails(call, path);
}
#define REAL(name) static __typeof__(&name) real; if (!real) real = dlsym(RTLD_NEXT, #name)
#define OPENS(name) int name(const char *path, int flags, ...) { \
    REAL(name); va_list more; va_start(more, flags); mode_t mode = va_arg(more, mode_t); \
    va_end(more); return fails("open", path) ? -1 : real(path, flags, mode); }
OPENS(open)
OPENS(open64)
int openat(int at, const char *path, int flags, ...) {
    REAL(openat); va_list more; va_start(more, flags); mode_t mode = va_arg(more, mode_t);
    va_end(more); return fails("open", path) ? -1 : real(at, path, flags, mode);
}
#define READS(name) ssize_t name(int fd, void *b, size_t n, off_t at) { \
    REAL(name); return fails_at("pread", fd) ? -1 : real(fd, b, n, at); }
READS(pread)
READS(pread64)
#define WRITES(name) ssize_t name(int fd, const void *b, size_t n, off_t at) { \
    REAL(name); return fails_at("pwrite", fd) ? -1 : real(fd, b, n, at); }
WRITES(pwrite)
WRITES(pwrite64)
ssize_t read(int fd, void *b, size_t n) {
    REAL(read); return fails_at("read", fd) ? -1 : real(fd, b, n);
}
int fsync(int fd) { REAL(fsync); return fails_at("fsync", fd) ? -1 : real(fd); }
int flock(int fd, int how) { REAL(flock); return fails_at("flock", fd) ? -1 : real(fd, how); }
int unlink(const char *path) { REAL(unlink); return fails("unlink", path) ? -1 : real(path); }
