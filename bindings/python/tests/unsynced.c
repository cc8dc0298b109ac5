/* Loaded before a program (LD_PRELOAD): after a rename, a folder can't be synced. */
#define _GNU_SOURCE
#include <dlfcn.h>
#include <errno.h>
#include <sys/stat.h>

static int is_renamed;

int renameat(int from, const char *old, int to, const char *new) {
    is_renamed = 1;
    return ((int (*)(int, const char *, int, const char *))dlsym(RTLD_NEXT, "renameat"))(from, old, to, new);
}

int fsync(int file) {
    struct stat about;
    if (is_renamed && fstat(file, &about) == 0 && S_ISDIR(about.st_mode)) {
        errno = EIO;
        return -1;
    }
    return ((int (*)(int))dlsym(RTLD_NEXT, "fsync"))(file);
}
