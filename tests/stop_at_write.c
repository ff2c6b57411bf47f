/* Stops a program at one of its calls that change a file at places: for tests/image_crash.

   Loaded in front of the C library (LD_PRELOAD), it counts the calls of pwrite, ftruncate, fsync and fdatasync. Before the
   call number STOP_AT, from 1, the program ends with status 99, and what was not brought to the disk yet becomes what a
   crash may leave of it, as STOP_LEAVES says:

     keep    the file as it reads
     lose    the file as it was after the last sync
     spoil   each byte that was written since the last sync is 1, and the longer of both lengths stays
     part    half of each written piece is there, and the rest as it was
*/
#define _GNU_SOURCE
#include <dlfcn.h>
#include <stdlib.h>
#include <string.h>
#include <sys/stat.h>
#include <unistd.h>

#define MOST 4096

/* what stood where a call wrote or cut: bytes from `at` on, and the length of the file */
struct change {
    int fd;
    off_t at;
    size_t len;
    off_t size;
    unsigned char *old;
    size_t old_len;
};

static struct change changes[MOST];
static int count, calls;

static ssize_t (*real_pwrite)(int, const void *, size_t, off_t);
static int (*real_ftruncate)(int, off_t);
static int (*real_fsync)(int);
static int (*real_fdatasync)(int);

static void find(void) {
    if (real_pwrite)
        return;
    real_ftruncate = dlsym(RTLD_NEXT, "ftruncate");
    real_fsync = dlsym(RTLD_NEXT, "fsync");
    real_fdatasync = dlsym(RTLD_NEXT, "fdatasync");
    real_pwrite = dlsym(RTLD_NEXT, "pwrite");
}

static void fail(void) {
    static const char text[] = "stop_at_write: no memory, or too many changes\n";
    if (write(2, text, sizeof text - 1) < 0)
        _exit(97);
    _exit(98);
}

/* Notes what a change of `len` bytes at a place takes away. */
static void note(int fd, off_t at, size_t len) {
    struct stat found;
    if (count == MOST || fstat(fd, &found) != 0)
        fail();
    struct change *it = &changes[count++];
    *it = (struct change){.fd = fd, .at = at, .len = len, .size = found.st_size};
    it->old = malloc(len ? len : 1);
    if (!it->old)
        fail();
    ssize_t got = pread(fd, it->old, len, at);
    it->old_len = got > 0 ? (size_t)got : 0;
}

/* Puts back what a change took away, from `from` on. */
static void undo(const struct change *it, size_t from) {
    if (from < it->old_len)
        real_pwrite(it->fd, it->old + from, it->old_len - from, it->at + (off_t)from);
}

static void spoil(const struct change *it) {
    unsigned char *ones = malloc(it->len ? it->len : 1);
    if (!ones)
        fail();
    memset(ones, 1, it->len);
    real_pwrite(it->fd, ones, it->len, it->at);
    free(ones);
}

static void leave(const char *how) {
    for (int i = count - 1; i >= 0; i--) {
        struct change *it = &changes[i];
        if (strcmp(how, "lose") == 0) {
            undo(it, 0);
            real_ftruncate(it->fd, it->size);
        } else if (strcmp(how, "spoil") == 0) {
            spoil(it);
        } else if (strcmp(how, "part") == 0) {
            undo(it, it->len / 2);
        }
    }
}

static void meet(void) {
    const char *at = getenv("STOP_AT"), *how = getenv("STOP_LEAVES");
    find();
    if (++calls != (at ? atoi(at) : 0))
        return;
    leave(how ? how : "keep");
    _exit(99);
}

ssize_t pwrite(int fd, const void *piece, size_t len, off_t at) {
    meet();
    note(fd, at, len);
    return real_pwrite(fd, piece, len, at);
}

ssize_t pwrite64(int fd, const void *piece, size_t len, off_t at) {
    return pwrite(fd, piece, len, at);
}

int ftruncate(int fd, off_t size) {
    struct stat found;
    meet();
    if (fstat(fd, &found) != 0)
        fail();
    note(fd, size, found.st_size > size ? (size_t)(found.st_size - size) : 0);
    return real_ftruncate(fd, size);
}

int ftruncate64(int fd, off_t size) {
    return ftruncate(fd, size);
}

/* Brings all changes to the disk. */
static void settle(void) {
    while (count > 0)
        free(changes[--count].old);
}

int fsync(int fd) {
    meet();
    int done = real_fsync(fd);
    settle();
    return done;
}

int fdatasync(int fd) {
    meet();
    int done = real_fdatasync(fd);
    settle();
    return done;
}
