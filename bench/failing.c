// Loaded before a program (LD_PRELOAD), fails its FAIL_AT-th request for memory, or its FAIL_AT-th call on files and
// sockets, as FAIL_KIND is "memory" or "device". Or it ends the program, with the status ENDED, at that call on files
// and sockets: "before" it, "after" it, or as it has written "half" of its bytes, for which only calls that write are
// counted. The name of the request or call is written to the descriptor FAIL_TOLD.
#define _GNU_SOURCE
#include <dlfcn.h>
#include <errno.h>
#include <stdlib.h>
#include <string.h>
#include <sys/stat.h>
#include <sys/syscall.h>
#include <unistd.h>

enum { ENDED = 99 };
enum kind { MEMORY, DEVICE, WRITES };
enum what { NOTHING, FAILS, BEFORE, AFTER, HALF };

static int is_wanted(const char *word) {
    return !strcmp(word, getenv("FAIL_KIND"));
}

static enum what wanted(enum kind kind) {
    if (is_wanted(kind == MEMORY ? "memory" : "device")) return FAILS;
    if (kind != MEMORY && is_wanted("before")) return BEFORE;
    if (kind != MEMORY && is_wanted("after")) return AFTER;
    return kind == WRITES && is_wanted("half") ? HALF : NOTHING;
}

// What is to become of this request or call. Before it the program may end.
static enum what begins(enum kind kind, const char *name) {
    static long calls;
    enum what what = wanted(kind);
    if (what == NOTHING || ++calls != atol(getenv("FAIL_AT"))) return NOTHING;
    syscall(SYS_write, atoi(getenv("FAIL_TOLD")), name, strlen(name));
    if (what == BEFORE) _exit(ENDED);
    return what;
}

static const char *sync_of(int file) {
    struct stat about;
    return fstat(file, &about) == 0 && S_ISDIR(about.st_mode) ? "fsync of the folder" : "fsync";
}

#define CALL(result, name, told, kind, error, none, takes, given, halved) \
    result name takes { \
        result(*real) takes = (result(*) takes)dlsym(RTLD_NEXT, #name); \
        enum what what = begins(kind, told); \
        if (what == FAILS) return errno = error, (result)none; \
        if (what == HALF) { halved; } \
        result came = real given; \
        if (what != NOTHING) _exit(ENDED); \
        return came; \
    }
#define GROWS(name, takes, given) CALL(void *, name, #name, MEMORY, ENOMEM, 0, takes, given, )
#define READS(name, takes, given) CALL(ssize_t, name, #name, DEVICE, EIO, -1, takes, given, )
#define GIVES(name, told, takes, given) CALL(ssize_t, name, told, WRITES, EIO, -1, takes, given, size /= 2)
#define DOES(name, takes, given) CALL(int, name, #name, DEVICE, EIO, -1, takes, given, )

GROWS(malloc, (size_t size), (size))
GROWS(calloc, (size_t count, size_t size), (count, size))
GROWS(realloc, (void *old, size_t size), (old, size))
READS(read, (int file, void *to, size_t size), (file, to, size))
GIVES(write, file == 1 ? "output" : file == 2 ? "standard error" : "write", (int file, const void *from, size_t size),
      (file, from, size))
GIVES(pwrite, "pwrite", (int file, const void *from, size_t size, off_t place), (file, from, size, place))
GIVES(pwrite64, "pwrite", (int file, const void *from, size_t size, off_t place), (file, from, size, place))
READS(recv, (int file, void *to, size_t size, int flags), (file, to, size, flags))
GIVES(send, "send", (int file, const void *from, size_t size, int flags), (file, from, size, flags))
DOES(open, (const char *path, int flags, unsigned mode), (path, flags, mode))
CALL(int, open64, "open", DEVICE, EIO, -1, (const char *path, int flags, unsigned mode), (path, flags, mode), )
DOES(fcntl, (int file, int command, long rest), (file, command, rest))
DOES(flock, (int file, int operation), (file, operation))
DOES(statx, (int folder, const char *path, int flags, unsigned mask, struct statx *to), (folder, path, flags, mask, to))
CALL(char *, realpath, "realpath", DEVICE, EIO, 0, (const char *path, char *to), (path, to), )
DOES(unlink, (const char *path), (path))
DOES(fchmod, (int file, unsigned mode), (file, mode))
CALL(int, fsync, sync_of(file), DEVICE, EIO, -1, (int file), (file), )
DOES(fdatasync, (int file), (file))
DOES(ftruncate, (int file, off_t length), (file, length))
CALL(int, ftruncate64, "ftruncate", DEVICE, EIO, -1, (int file, off_t length), (file, length), )
DOES(rename, (const char *from, const char *to), (from, to))
DOES(socket, (int family, int kind, int protocol), (family, kind, protocol))
DOES(bind, (int file, const void *address, unsigned size), (file, address, size))
DOES(listen, (int file, int backlog), (file, backlog))
DOES(getsockname, (int file, void *address, unsigned *size), (file, address, size))
DOES(connect, (int file, const void *address, unsigned size), (file, address, size))
DOES(accept4, (int file, void *address, unsigned *size, int flags), (file, address, size, flags))
DOES(getsockopt, (int file, int level, int name, void *value, unsigned *size), (file, level, name, value, size))
DOES(setsockopt, (int file, int level, int name, const void *value, unsigned size), (file, level, name, value, size))
DOES(shutdown, (int file, int how), (file, how))
DOES(epoll_create1, (int flags), (flags))
DOES(epoll_ctl, (int poll, int operation, int file, void *event), (poll, operation, file, event))
DOES(epoll_wait, (int poll, void *events, int most, int timeout), (poll, events, most, timeout))
