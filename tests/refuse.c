/* Refuses a program one of its calls: for tests/refusals.

   Loaded in front of the C library (LD_PRELOAD), it counts either the allocations of the program, those too that the C library makes for it
   (REFUSE_AS=memory), or its calls of the system that open, read, write, send and receive. The call number REFUSE_AT, from 1, it answers
   itself:

     memory               no memory
     EIO, ENOSPC, EINTR   by that error; nothing is done
     short                one byte is read or written, where more were asked for

   What was refused, and on what, it writes to the file REFUSE_NOTE. All others go on to the C library, and so do those on an eventfd, by
   which threads of one program wake each other. Programs that this one starts are refused nothing. */
#define _GNU_SOURCE
#include <dlfcn.h>
#include <errno.h>
#include <fcntl.h>
#include <stdarg.h>
#include <stdio.h>
#include <stdlib.h>
#include <string.h>
#include <sys/eventfd.h>
#include <sys/socket.h>
#include <sys/stat.h>
#include <unistd.h>

#define MOST 4096

extern void *__libc_malloc(size_t);
extern void *__libc_calloc(size_t, size_t);
extern void *__libc_realloc(void *, size_t);

enum way { NOTHING, MEMORY, ERROR, SHORT };

static enum way way;
static int error;
static long at, count;
static const char *note;
/* the descriptors that are eventfds */
static char wakes[MOST];

static int (*real_open)(const char *, int, ...);
static int (*real_close)(int);
static int (*real_socket)(int, int, int);
static int (*real_accept4)(int, struct sockaddr *, socklen_t *, int);
static int (*real_eventfd)(unsigned, int);
static int (*real_ftruncate)(int, off_t);
static int (*real_fsync)(int);
static int (*real_fdatasync)(int);
static ssize_t (*real_read)(int, void *, size_t);
static ssize_t (*real_pread)(int, void *, size_t, off_t);
static ssize_t (*real_recv)(int, void *, size_t, int);
static ssize_t (*real_write)(int, const void *, size_t);
static ssize_t (*real_pwrite)(int, const void *, size_t, off_t);
static ssize_t (*real_send)(int, const void *, size_t, int);

/* Runs before the program, and before anything is refused. */
__attribute__((constructor)) static void begin(void) {
    const char *as = getenv("REFUSE_AS"), *number = getenv("REFUSE_AT");
    real_open = dlsym(RTLD_NEXT, "open");
    real_close = dlsym(RTLD_NEXT, "close");
    real_socket = dlsym(RTLD_NEXT, "socket");
    real_accept4 = dlsym(RTLD_NEXT, "accept4");
    real_eventfd = dlsym(RTLD_NEXT, "eventfd");
    real_ftruncate = dlsym(RTLD_NEXT, "ftruncate");
    real_fsync = dlsym(RTLD_NEXT, "fsync");
    real_fdatasync = dlsym(RTLD_NEXT, "fdatasync");
    real_read = dlsym(RTLD_NEXT, "read");
    real_pread = dlsym(RTLD_NEXT, "pread");
    real_recv = dlsym(RTLD_NEXT, "recv");
    real_write = dlsym(RTLD_NEXT, "write");
    real_pwrite = dlsym(RTLD_NEXT, "pwrite");
    real_send = dlsym(RTLD_NEXT, "send");
    note = getenv("REFUSE_NOTE");
    at = number ? atol(number) : 0;
    unsetenv("LD_PRELOAD");
    if (!as || !note)
        return;
    error = !strcmp(as, "ENOSPC") ? ENOSPC : !strcmp(as, "EINTR") ? EINTR : EIO;
    way = !strcmp(as, "memory") ? MEMORY : !strcmp(as, "short") ? SHORT : ERROR;
}

static const char *kind_of_socket(int fd) {
    int family = 0, listens = 0;
    socklen_t len = sizeof family;
    getsockopt(fd, SOL_SOCKET, SO_DOMAIN, &family, &len);
    len = sizeof listens;
    getsockopt(fd, SOL_SOCKET, SO_ACCEPTCONN, &listens, &len);
    return family == AF_UNIX ? "pair" : listens ? "listener" : "link";
}

static const char *kind_of(int fd) {
    struct stat found;
    if (fd >= 0 && fd <= 2)
        return fd == 0 ? "input" : fd == 1 ? "output" : "log";
    if (fd < 0 || fstat(fd, &found) != 0)
        return "none";
    if (S_ISREG(found.st_mode) || S_ISDIR(found.st_mode))
        return "file";
    return S_ISSOCK(found.st_mode) ? kind_of_socket(fd) : S_ISFIFO(found.st_mode) ? "pipe" : "other";
}

static void tell(const char *what, const char *on) {
    char text[128];
    int len = snprintf(text, sizeof text, "%s %s\n", what, on);
    int fd = real_open(note, O_WRONLY | O_CREAT | O_APPEND, 0666);
    if (fd < 0 || real_write(fd, text, (size_t)len) != len)
        _exit(97);
    real_close(fd);
}

static int is_refused(enum way refused, const char *what, const char *on) {
    if (way != refused || __atomic_add_fetch(&count, 1, __ATOMIC_SEQ_CST) != at)
        return 0;
    tell(what, on);
    errno = way == MEMORY ? ENOMEM : error;
    return 1;
}

void *malloc(size_t size) {
    return is_refused(MEMORY, "malloc", "memory") ? NULL : __libc_malloc(size);
}

void *calloc(size_t number, size_t size) {
    return is_refused(MEMORY, "calloc", "memory") ? NULL : __libc_calloc(number, size);
}

void *realloc(void *old, size_t size) {
    return size && is_refused(MEMORY, "realloc", "memory") ? NULL : __libc_realloc(old, size);
}

/* Whether a call fails that opens or changes something. */
static int fails(const char *what, const char *on) {
    return is_refused(ERROR, what, on);
}

/* Whether a call fails that moves bytes; how many it may move changes where it is to move few. */
static int fails_to_move(const char *what, int fd, size_t *len) {
    if (fd >= 0 && fd < MOST && wakes[fd])
        return 0;
    if (is_refused(ERROR, what, kind_of(fd)))
        return 1;
    if (*len > 1 && is_refused(SHORT, what, kind_of(fd)))
        *len = 1;
    return 0;
}

int open(const char *path, int flags, ...) {
    va_list rest;
    va_start(rest, flags);
    mode_t mode = flags & (O_CREAT | O_TMPFILE) ? va_arg(rest, mode_t) : 0;
    va_end(rest);
    return fails("open", "file") ? -1 : real_open(path, flags, mode);
}

int close(int fd) {
    if (fd >= 0 && fd < MOST)
        wakes[fd] = 0;
    return real_close(fd);
}

int eventfd(unsigned first, int flags) {
    int fd = real_eventfd(first, flags);
    if (fd >= 0 && fd < MOST)
        wakes[fd] = 1;
    return fd;
}

int socket(int domain, int type, int protocol) {
    return fails("socket", "network") ? -1 : real_socket(domain, type, protocol);
}

int accept4(int fd, struct sockaddr *address, socklen_t *len, int flags) {
    return fails("accept4", "listener") ? -1 : real_accept4(fd, address, len, flags);
}

int ftruncate(int fd, off_t size) {
    return fails("ftruncate", kind_of(fd)) ? -1 : real_ftruncate(fd, size);
}

int fsync(int fd) {
    return fails("fsync", kind_of(fd)) ? -1 : real_fsync(fd);
}

int fdatasync(int fd) {
    return fails("fdatasync", kind_of(fd)) ? -1 : real_fdatasync(fd);
}

ssize_t read(int fd, void *piece, size_t len) {
    return fails_to_move("read", fd, &len) ? -1 : real_read(fd, piece, len);
}

ssize_t pread(int fd, void *piece, size_t len, off_t from) {
    return fails_to_move("pread", fd, &len) ? -1 : real_pread(fd, piece, len, from);
}

ssize_t recv(int fd, void *piece, size_t len, int flags) {
    return fails_to_move("recv", fd, &len) ? -1 : real_recv(fd, piece, len, flags);
}

ssize_t write(int fd, const void *piece, size_t len) {
    return fails_to_move("write", fd, &len) ? -1 : real_write(fd, piece, len);
}

ssize_t __write(int fd, const void *piece, size_t len) {
    return write(fd, piece, len);
}

ssize_t pwrite(int fd, const void *piece, size_t len, off_t to) {
    return fails_to_move("pwrite", fd, &len) ? -1 : real_pwrite(fd, piece, len, to);
}

ssize_t send(int fd, const void *piece, size_t len, int flags) {
    return fails_to_move("send", fd, &len) ? -1 : real_send(fd, piece, len, flags);
}
