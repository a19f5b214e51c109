/* Refuses requests for memory, by their numbers, or where there is no room. A part of
   growths_harness.py. */
#include <errno.h>
#include <fcntl.h>
#include <malloc.h>
#include <stddef.h>
#include <stdlib.h>
#include <sys/mman.h>
extern void *__libc_malloc(size_t), *__libc_calloc(size_t, size_t), *__libc_realloc(void *, size_t);
extern void __libc_free(void *);
static long first = -1, left;
/* Three numbers of the file ROOM: how many more bytes may be allocated, which is less than 0 where all
   may; how many requests there was no room for; and how many bytes one of these lacked at least. */
static volatile long *room;
static void begin(void) {
    const char *number = getenv("REFUSE"), *count = getenv("REFUSE_COUNT"), *file = getenv("ROOM");
    int shared = file ? open(file, O_RDWR) : -1;
    first = number ? atol(number) : 0;
    left = count ? atol(count) : 0;
    void *at = shared < 0 ? MAP_FAILED
                          : mmap(0, 3 * sizeof(long), PROT_READ | PROT_WRITE, MAP_SHARED, shared, 0);
    if (at != MAP_FAILED) room = at;
}
static int is_bounded(void) { return room && room[0] >= 0; }
/* Whether a request with this number is refused. */
static int refuses(void) {
    if (first < 0) begin();
    if (first > 1) { first--; return 0; }
    if (left == 0) return 0;
    left--;
    if (first == 1) { first = 0; open(getenv("REFUSED"), O_CREAT | O_WRONLY, 0600); }
    errno = ENOMEM;
    return 1;
}
static void *none(long lacks) {
    if (!room[1]++ || lacks < room[2]) room[2] = lacks;
    errno = ENOMEM;
    return NULL;
}
/* What was allocated, if there is room for it. */
static void *fits(void *p) {
    long bytes = malloc_usable_size(p);
    if (!p || !is_bounded()) return p;
    if (bytes > room[0]) { __libc_free(p); return none(bytes - room[0]); }
    room[0] -= bytes;
    return p;
}
void *malloc(size_t n) { return refuses() ? NULL : fits(__libc_malloc(n)); }
void *calloc(size_t n, size_t m) { return refuses() ? NULL : fits(__libc_calloc(n, m)); }
void *realloc(void *p, size_t n) {
    long old = malloc_usable_size(p);
    if (refuses()) return NULL;
    if (!is_bounded()) return __libc_realloc(p, n);
    if ((long)n - old > room[0]) return none(n - old - room[0]);
    void *q = __libc_realloc(p, n);
    if (q) room[0] -= (long)malloc_usable_size(q) - old;
    if (room[0] < 0) room[0] = 0;
    return q;
}
void free(void *p) {
    if (is_bounded()) room[0] += malloc_usable_size(p);
    __libc_free(p);
}
