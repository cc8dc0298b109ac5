/* A replica that lives in a file: opened, locked and kept as `rds_node` does it. */
#define _GNU_SOURCE
#include "rds.h"

#include <errno.h>
#include <fcntl.h>
#include <stdio.h>
#include <stdlib.h>
#include <string.h>
#include <sys/file.h>
#include <sys/stat.h>
#include <unistd.h>

/* The most bytes of a file: those of the longest snapshot, and of the record of its checksum. */
#define LIMIT (268435456u + 69u)

/* The most bytes of a record, and how many records of a small file may come to. */
#define RECORD (36 + 65536)
#define RECORDS 65536u

/* How often a file is opened again that was replaced between its opening and its lock. */
#define TRIES 100

/* Where the parts of a file stand, as the proved library tells it. */
typedef struct layout {
    uint64_t takes_records; /* 1 where records may follow the snapshot */
    uint64_t snapshot;      /* where the snapshot ends, with its checksum where it has one */
    uint64_t whole;         /* where the last whole record ends */
} layout;

/* The file of a replica. The folder is held open, so that a change of the process's folder changes nothing. */
typedef struct held {
    int file;      /* open and locked */
    int folder;    /* open */
    int unsure;    /* 1 where a rename may not last, since the folder wasn't synced */
    char *name;    /* of the file, in the folder */
    char *beside;  /* the same with .new */
    layout layout; /* of the file; it takes no records where it isn't open for writing */
} held;

/* Calls of the proved library that rds.h doesn't have: they open a file's replica, tell the record of what changed it
 * since it was kept (RDS_TOO_LONG where there is none), and say that it was kept. */
uint32_t file_open(rds *replica, const uint8_t *bytes, size_t length, layout *layout);
uint32_t file_change(rds *replica, uint8_t *room, size_t room_length, size_t *length);
uint32_t file_kept(rds *replica);

static void let_go(int descriptor) {
    int was = errno;
    if (descriptor >= 0)
        close(descriptor);
    errno = was;
}

static void free_held(held *it) {
    if (it == NULL)
        return;
    let_go(it->file);
    let_go(it->folder);
    free(it->name);
    free(it->beside);
    free(it);
}

static uint32_t device(int number) {
    errno = number;
    return RDS_DEVICE;
}

static uint32_t ends_beside(const char *path, size_t length) {
    return length >= 4 && memcmp(path + length - 4, ".new", 4) == 0;
}

/* The path as a text that ends in a 0. */
static uint32_t text_of(const uint8_t *path, size_t length, char **text) {
    if (length == 0)
        return device(ENOENT);
    if (memchr(path, 0, length) != NULL)
        return device(EINVAL);
    char *made = malloc(length + 1);
    if (made == NULL)
        return RDS_MEMORY;
    memcpy(made, path, length);
    made[length] = 0;
    *text = made;
    return ends_beside(made, length) ? RDS_BESIDE : RDS_OK;
}

/* In place of a path that is a symbolic link's, the path of what it leads to. */
static uint32_t follow(char **path) {
    struct stat about;
    if (lstat(*path, &about) != 0)
        return RDS_DEVICE;
    if (!S_ISLNK(about.st_mode))
        return RDS_OK;
    char *behind = realpath(*path, NULL);
    if (behind == NULL)
        return errno == ENOMEM ? RDS_MEMORY : RDS_DEVICE;
    free(*path);
    *path = behind;
    return ends_beside(behind, strlen(behind)) ? RDS_BESIDE : RDS_OK;
}

/* Opens the folder of a path, and names the file in it. */
static uint32_t place(const char *path, held **made) {
    const char *slash = strrchr(path, '/');
    const char *name = slash == NULL ? path : slash + 1;
    size_t before = (size_t)(name - path), length = strlen(name);
    if (length == 0)
        return device(EISDIR);
    held *it = calloc(1, sizeof *it);
    if (it == NULL)
        return RDS_MEMORY;
    it->file = it->folder = -1;
    it->name = malloc(length + 1);
    it->beside = malloc(length + sizeof ".new");
    char *folder = malloc(before + 2);
    if (it->name == NULL || it->beside == NULL || folder == NULL) {
        free(folder);
        free_held(it);
        return RDS_MEMORY;
    }
    memcpy(it->name, name, length + 1);
    memcpy(it->beside, name, length);
    memcpy(it->beside + length, ".new", sizeof ".new");
    memcpy(folder, before == 0 ? "." : path, before == 0 ? 1 : before);
    folder[before == 0 ? 1 : before] = 0;
    it->folder = open(folder, O_RDONLY | O_DIRECTORY | O_CLOEXEC);
    free(folder);
    if (it->folder < 0) {
        free_held(it);
        return RDS_DEVICE;
    }
    *made = it;
    return RDS_OK;
}

/* Takes the lock of what is open, if it is free. */
static uint32_t lock(int descriptor) {
    while (flock(descriptor, LOCK_EX | LOCK_NB) != 0) {
        if (errno == EWOULDBLOCK)
            return RDS_BUSY;
        if (errno != EINTR)
            return RDS_DEVICE;
    }
    return RDS_OK;
}

/* Whether what is at the name still is the file that is held: RDS_REPLACED where it isn't. */
static uint32_t is_there(const held *it, struct stat *about) {
    struct stat there;
    if (fstat(it->file, about) != 0)
        return RDS_DEVICE;
    if (fstatat(it->folder, it->name, &there, AT_SYMLINK_NOFOLLOW) != 0)
        return errno == ENOENT ? RDS_REPLACED : RDS_DEVICE;
    return about->st_dev == there.st_dev && about->st_ino == there.st_ino ? RDS_OK : RDS_REPLACED;
}

/* Whether a file may be replaced. */
static uint32_t is_replaceable(const struct stat *about) {
    if (S_ISDIR(about->st_mode))
        return device(EISDIR);
    if (!S_ISREG(about->st_mode))
        return device(EINVAL);
    if ((about->st_mode & 0222) == 0)
        return device(EACCES);
    return about->st_nlink > 1 ? RDS_LINKED : RDS_OK;
}

/* Opens the file for reading and writing, or for reading where it can't be written: then it is kept by a new one. */
static int open_there(held *it) {
    int flags = O_NONBLOCK | O_NOFOLLOW | O_CLOEXEC;
    int file = openat(it->folder, it->name, O_RDWR | flags);
    it->layout.takes_records = file >= 0;
    if (file < 0 && (errno == EACCES || errno == EPERM || errno == EROFS || errno == ETXTBSY || errno == EISDIR))
        file = openat(it->folder, it->name, O_RDONLY | flags);
    return file;
}

/* Opens and locks the file. One that is replaced meanwhile keeps the lock of whoever replaced it, so it is opened
 * anew. */
static uint32_t open_locked(held *it, struct stat *about) {
    for (int tries = 0; tries < TRIES; tries++) {
        it->file = open_there(it);
        if (it->file < 0)
            return RDS_DEVICE;
        uint32_t status = lock(it->file);
        if (status == RDS_OK)
            status = is_there(it, about);
        if (status != RDS_REPLACED)
            return status == RDS_OK ? is_replaceable(about) : status;
        let_go(it->file);
        it->file = -1;
    }
    return RDS_BUSY;
}

/* Syncs the folder, so that a rename outlasts a loss of power. Some file systems can't, and that is no fault. */
static uint32_t sync_folder(const held *it) {
    if (fsync(it->folder) == 0 || errno == EINVAL || errno == ENOTSUP || errno == ENOSYS)
        return RDS_OK;
    return RDS_DEVICE;
}

/* All bytes of the file, which is to have this many. One more is read where it has. */
static uint32_t read_all(const held *it, off_t size, uint8_t **bytes, size_t *length) {
    if (size > (off_t)LIMIT)
        return RDS_TOO_LONG;
    size_t room = (size_t)size + 1, filled = 0;
    uint8_t *made = malloc(room);
    if (made == NULL)
        return RDS_MEMORY;
    while (filled < room) {
        ssize_t count = read(it->file, made + filled, room - filled);
        if (count < 0 && errno == EINTR)
            continue;
        if (count < 0) {
            free(made);
            return RDS_DEVICE;
        }
        if (count == 0)
            break;
        filled += (size_t)count;
    }
    *bytes = made;
    *length = filled;
    return RDS_OK;
}

/* Reads the file into the replica. What others did to it lasts from then on, as this replica may tell of it. */
static uint32_t read_replica(rds *replica, held *it, const struct stat *about) {
    uint8_t *bytes = NULL;
    size_t length = 0;
    uint64_t can_write = it->layout.takes_records;
    uint32_t status = read_all(it, about->st_size, &bytes, &length);
    if (status == RDS_OK && fsync(it->file) != 0)
        status = RDS_DEVICE;
    if (status == RDS_OK)
        status = sync_folder(it);
    if (status == RDS_OK)
        status = file_open(replica, bytes, length, &it->layout);
    it->layout.takes_records &= can_write;
    free(bytes);
    return status;
}

uint32_t rds_open_file(rds_file *file, const uint8_t *path, size_t path_length) {
    if (file->replica.is_open || file->held != NULL)
        return RDS_OPEN_ALREADY;
    char *text = NULL;
    held *it = NULL;
    struct stat about;
    uint32_t status = text_of(path, path_length, &text);
    if (status == RDS_OK)
        status = follow(&text);
    if (status == RDS_OK)
        status = place(text, &it);
    free(text);
    if (status == RDS_OK)
        status = open_locked(it, &about);
    if (status == RDS_OK)
        status = read_replica(&file->replica, it, &about);
    if (status == RDS_OK)
        file->held = it;
    else
        free_held(it);
    return status;
}

/* Gives the bytes of a new file, in a block of their own. */
static uint32_t snapshot_of(rds *replica, size_t guess, uint8_t **bytes, size_t *length) {
    size_t room = guess + guess / 8 + 4096;
    uint8_t *made = malloc(room);
    if (made == NULL)
        return RDS_MEMORY;
    uint32_t status = rds_snapshot(replica, made, room, length);
    if (status == RDS_NO_ROOM) {
        uint8_t *more = realloc(made, *length);
        if (more == NULL) {
            free(made);
            return RDS_MEMORY;
        }
        made = more;
        status = rds_told(replica, made, *length, length);
    }
    if (status == RDS_OK)
        *bytes = made;
    else
        free(made);
    return status;
}

static uint32_t write_all(int descriptor, const uint8_t *bytes, size_t length) {
    while (length > 0) {
        ssize_t count = write(descriptor, bytes, length);
        if (count < 0 && errno == EINTR)
            continue;
        if (count <= 0)
            return count < 0 ? RDS_DEVICE : device(EIO);
        bytes += count;
        length -= (size_t)count;
    }
    return RDS_OK;
}

/* Removes the file beside, which didn't take the other's place. */
static void drop_beside(const held *it, int beside) {
    int was = errno;
    unlinkat(it->folder, it->beside, 0);
    close(beside);
    errno = was;
}

/* Makes the file beside the one that is held, with the mode of that one where there is one. Until it has that mode, its
 * owner alone may open it. What was left behind there is removed first. */
static int make_beside(const held *it, const struct stat *like) {
    if (unlinkat(it->folder, it->beside, 0) != 0 && errno != ENOENT)
        return -1;
    int flags = O_WRONLY | O_CREAT | O_EXCL | O_CLOEXEC;
    int beside = openat(it->folder, it->beside, flags, like == NULL ? 0666 : 0600);
    if (beside >= 0 && like != NULL && fchmod(beside, like->st_mode & 07777) != 0) {
        drop_beside(it, beside);
        return -1;
    }
    return beside;
}

/* Writes and syncs the bytes, and renames the file beside to the name of the other. It is locked by then, so that no
 * other opener comes between. */
static uint32_t write_over(const held *it, int beside, const uint8_t *bytes, size_t length) {
    uint32_t status = lock(beside);
    if (status == RDS_OK)
        status = write_all(beside, bytes, length);
    if (status == RDS_OK && fsync(beside) != 0)
        status = RDS_DEVICE;
    if (status == RDS_OK && renameat(it->folder, it->beside, it->folder, it->name) != 0)
        status = RDS_DEVICE;
    return status;
}

/* Syncs the folder after a rename. Where that fails the new file is there, and may not last. */
static uint32_t make_sure(held *it) {
    it->unsure = sync_folder(it) != RDS_OK;
    return it->unsure ? RDS_UNSURE : RDS_OK;
}

/* Puts a new file of the replica in the place of the one that is held, if any. From the rename on, it is what is held,
 * also where the folder can't be synced (RDS_UNSURE). */
static uint32_t put(rds *replica, held *it, const struct stat *like) {
    uint8_t *bytes = NULL;
    size_t length = 0;
    uint32_t status = snapshot_of(replica, it->layout.snapshot, &bytes, &length);
    if (status != RDS_OK)
        return status;
    int beside = make_beside(it, like);
    status = beside < 0 ? RDS_DEVICE : write_over(it, beside, bytes, length);
    free(bytes);
    if (status != RDS_OK) {
        if (beside >= 0)
            drop_beside(it, beside);
        return status;
    }
    let_go(it->file);
    it->file = beside;
    it->layout = (layout){1, length, length};
    file_kept(replica);
    return make_sure(it);
}

/* Cuts off what stands behind the last whole record. */
static uint32_t cut_off(const held *it) {
    if (ftruncate(it->file, (off_t)it->layout.whole) != 0)
        return RDS_DEVICE;
    return fsync(it->file) == 0 ? RDS_OK : RDS_DEVICE;
}

/* Writes bytes at a place of the file. */
static uint32_t write_at(int descriptor, const uint8_t *bytes, size_t length, off_t at) {
    while (length > 0) {
        ssize_t count = pwrite(descriptor, bytes, length, at);
        if (count < 0 && errno == EINTR)
            continue;
        if (count <= 0)
            return count < 0 ? RDS_DEVICE : device(EIO);
        bytes += count;
        length -= (size_t)count;
        at += count;
    }
    return RDS_OK;
}

/* Whether a record of this length may follow: the records may come to as much as the snapshot. */
static int has_room(const layout *it, size_t length) {
    uint64_t most = it->snapshot < RECORDS ? RECORDS : it->snapshot;
    return it->whole - it->snapshot + length <= most && it->whole + length <= LIMIT;
}

/* Appends a record to the file. Where all was written and isn't synced, it may last or not: the next keep is a new
 * file. */
static uint32_t append(rds *replica, held *it, off_t size, const uint8_t *record, size_t length) {
    uint32_t status = size == (off_t)it->layout.whole ? RDS_OK : cut_off(it);
    if (status == RDS_OK)
        status = write_at(it->file, record, length, (off_t)it->layout.whole);
    if (status != RDS_OK)
        return status;
    if (fsync(it->file) != 0) {
        it->layout.takes_records = 0;
        return RDS_UNSURE;
    }
    it->layout.whole += length;
    file_kept(replica);
    return it->unsure ? make_sure(it) : RDS_OK;
}

uint32_t rds_keep(rds_file *file) {
    held *it = file->held;
    struct stat about;
    if (!file->replica.is_open || it == NULL)
        return RDS_CLOSED;
    uint32_t status = is_there(it, &about);
    if (status == RDS_OK)
        status = is_replaceable(&about);
    if (status != RDS_OK)
        return status;
    uint8_t record[RECORD];
    size_t length = 0;
    if (it->layout.takes_records && about.st_size >= (off_t)it->layout.whole)
        status = file_change(&file->replica, record, sizeof record, &length);
    if (length == 0 || status != RDS_OK || !has_room(&it->layout, length))
        return put(&file->replica, it, &about);
    return append(&file->replica, it, about.st_size, record, length);
}

/* Puts the replica in a new file, under the folder's lock, so that of two at once one is refused. */
static uint32_t put_new(rds *replica, held *it) {
    struct stat about;
    uint32_t status = lock(it->folder);
    if (status != RDS_OK)
        return status;
    if (fstatat(it->folder, it->name, &about, AT_SYMLINK_NOFOLLOW) == 0)
        status = RDS_EXISTS;
    else
        status = errno == ENOENT ? put(replica, it, NULL) : RDS_DEVICE;
    int was = errno;
    flock(it->folder, LOCK_UN);
    errno = was;
    return status;
}

uint32_t rds_make_file(rds_file *file, const uint8_t *path, size_t path_length) {
    if (!file->replica.is_open)
        return RDS_CLOSED;
    if (file->held != NULL)
        return RDS_OPEN_ALREADY;
    char *text = NULL;
    held *it = NULL;
    uint32_t status = text_of(path, path_length, &text);
    if (status == RDS_OK)
        status = place(text, &it);
    free(text);
    if (status == RDS_OK)
        status = put_new(&file->replica, it);
    /* Where the folder alone couldn't be synced, the file is there. */
    if (it != NULL && it->file >= 0)
        file->held = it;
    else
        free_held(it);
    return status;
}

void rds_close(rds_file *file) {
    rds_free(&file->replica);
    free_held(file->held);
    file->held = NULL;
}
