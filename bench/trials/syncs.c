/* Takes down the calls that write, cut and sync. A part of test_syncs.py. */
#define _GNU_SOURCE
#include <dlfcn.h>
#include <fcntl.h>
#include <stdio.h>
#include <stdlib.h>
#include <string.h>
#include <unistd.h>
static void note(int fd, const char *what, long place, long length, const void *bytes) {
    static ssize_t (*real)(int, const void *, size_t);
    static int log_fd = -1;
    char link[64], path[4096], line[8192];
    if (!real) real = (ssize_t (*)(int, const void *, size_t))dlsym(RTLD_NEXT, "write");
    if (log_fd < 0) log_fd = open(getenv("CALLS"), O_CREAT | O_WRONLY | O_APPEND, 0600);
    snprintf(link, sizeof link, "/proc/self/fd/%d", fd);
    long n = readlink(link, path, sizeof path - 1);
    path[n < 0 ? 0 : n] = 0;
    int first = bytes && length ? *(const unsigned char *)bytes : -1;
    n = snprintf(line, sizeof line, "%d %s %ld %ld %d %s\n", fd, what, place, length, first, path);
    real(log_fd, line, n);
}
#define REAL(name) static __typeof__(&name) real; if (!real) real = dlsym(RTLD_NEXT, #name)
ssize_t write(int fd, const void *b, size_t n) {
    REAL(write); ssize_t done = real(fd, b, n); note(fd, "write", -1, done, b); return done;
}
ssize_t pwrite(int fd, const void *b, size_t n, off_t at) {
    REAL(pwrite); ssize_t done = real(fd, b, n, at); note(fd, "write", at, done, b); return done;
}
ssize_t pwrite64(int fd, const void *b, size_t n, off64_t at) {
    REAL(pwrite64); ssize_t done = real(fd, b, n, at); note(fd, "write", at, done, b); return done;
}
int fsync(int fd) { REAL(fsync); int r = real(fd); if (!r) note(fd, "sync", -1, 0, 0); return r; }
int fdatasync(int fd) {
    REAL(fdatasync); int r = real(fd); if (!r) note(fd, "sync", -1, 0, 0); return r;
}
int ftruncate(int fd, off_t n) {
    REAL(ftruncate); int r = real(fd, n); if (!r) note(fd, "cut", n, 0, 0); return r;
}
