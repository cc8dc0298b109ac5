// Loaded before a program (LD_PRELOAD), writes a line for each call that changes files or says something to the file
// RECORD_TO, after it is made, and ends the program after the RECORD_END-th of them, if that isn't 0. `bench/power`
// reads the lines:
//
//     CALL INODE REST    made PATH, wrote PLACE BYTES, cut LENGTH, synced, renamed FROM TO, unlinked PATH;
//                        said 0 BYTES, sent
#define _GNU_SOURCE
#include <dlfcn.h>
#include <fcntl.h>
#include <stdarg.h>
#include <stdio.h>
#include <stdlib.h>
#include <string.h>
#include <sys/socket.h>
#include <sys/stat.h>
#include <sys/syscall.h>
#include <unistd.h>

enum { ENDED = 99, LINE = 1 << 19, PATHS = 1 << 13 };
#define REAL(name, type) ((type)dlsym(RTLD_NEXT, name))

// A line of what is known of a call, in one write, so that lines of two programs don't mix.
static void record(const char *line, int size) {
    static long calls;
    const char *path = getenv("RECORD_TO");
    if (!path) return;
    int to = syscall(SYS_openat, AT_FDCWD, path, O_WRONLY | O_APPEND | O_CREAT, 0600);
    syscall(SYS_write, to, line, size);
    syscall(SYS_close, to);
    const char *end = getenv("RECORD_END");
    if (++calls == (end ? atol(end) : 0)) _exit(ENDED);
}

// Which file a descriptor has: its number on the disk, or 0 for what is none or no folder.
static unsigned long on_disk(int file) {
    struct stat about;
    if (fstat(file, &about) != 0) return 0;
    return S_ISREG(about.st_mode) || S_ISDIR(about.st_mode) ? about.st_ino : 0;
}

#define OPENS(name) \
    int name(const char *path, int flags, ...) { \
        va_list rest; \
        va_start(rest, flags); \
        unsigned mode = va_arg(rest, unsigned); \
        va_end(rest); \
        int file = REAL(#name, int (*)(const char *, int, ...))(path, flags, mode); \
        char line[PATHS]; \
        if (file >= 0 && flags & O_CREAT) record(line, snprintf(line, PATHS, "made %lu %s\n", on_disk(file), path)); \
        return file; \
    }
OPENS(open)
OPENS(open64)

// A line of bytes that were written from this place of a file on.
static void record_bytes(unsigned long inode, off_t place, const unsigned char *bytes, ssize_t size) {
    static char line[LINE];
    int at = inode ? snprintf(line, LINE, "wrote %lu %lld ", inode, (long long)place) : snprintf(line, LINE, "said 0 ");
    for (ssize_t byte = 0; byte < size && at < LINE - 3; byte++)
        at += snprintf(line + at, 3, "%02x", bytes[byte]);
    line[at++] = '\n';
    record(line, at);
}

ssize_t write(int file, const void *from, size_t size) {
    ssize_t came = REAL("write", ssize_t (*)(int, const void *, size_t))(file, from, size);
    if (file == 2 || came < 0) return came;
    unsigned long inode = file == 1 ? 0 : on_disk(file);
    if (file == 1 || inode) record_bytes(inode, inode ? lseek(file, 0, SEEK_CUR) - came : 0, from, came);
    return came;
}

#define WRITES_AT(name) \
    ssize_t name(int file, const void *from, size_t size, off_t place) { \
        ssize_t came = REAL(#name, ssize_t (*)(int, const void *, size_t, off_t))(file, from, size, place); \
        if (came >= 0) record_bytes(on_disk(file), place, from, came); \
        return came; \
    }
WRITES_AT(pwrite)
WRITES_AT(pwrite64)

#define CUTS(name) \
    int name(int file, off_t length) { \
        int came = REAL(#name, int (*)(int, off_t))(file, length); \
        char line[64]; \
        if (came == 0) record(line, snprintf(line, sizeof line, "cut %lu %lld\n", on_disk(file), (long long)length)); \
        return came; \
    }
CUTS(ftruncate)
CUTS(ftruncate64)

ssize_t send(int file, const void *from, size_t size, int flags) {
    ssize_t came = REAL("send", ssize_t (*)(int, const void *, size_t, int))(file, from, size, flags);
    if (came > 0) record("sent 0 \n", 8);
    return came;
}

#define SYNCS(name) \
    int name(int file) { \
        int came = REAL(#name, int (*)(int))(file); \
        char line[64]; \
        if (came == 0) record(line, snprintf(line, sizeof line, "synced %lu \n", on_disk(file))); \
        return came; \
    }
SYNCS(fsync)
SYNCS(fdatasync)

int rename(const char *from, const char *to) {
    int came = REAL("rename", int (*)(const char *, const char *))(from, to);
    char line[2 * PATHS];
    if (came == 0) record(line, snprintf(line, 2 * PATHS, "renamed 0 %s %s\n", from, to));
    return came;
}

int unlink(const char *path) {
    int came = REAL("unlink", int (*)(const char *))(path);
    char line[PATHS];
    if (came == 0) record(line, snprintf(line, PATHS, "unlinked 0 %s\n", path));
    return came;
}
