/* Random calls of the library, in any order, with bytes that were cut, lengthened and changed.
 *
 *     hostile SEED CALLS [FAIL]
 *
 * It is run in an empty folder, where it makes files. Each text and each room is a block of its very length, so that
 * valgrind and AddressSanitizer see what passes an end. After each call this has to hold:
 *   - the status is one of the header's, and want of memory comes only where an allocation failed;
 *   - after a refusal, and after a call that only looks, the snapshot is what it was, byte by byte;
 *   - bytes that were given fit into the room, and those that weren't didn't.
 * After a file was kept it holds the replica; where keeping failed it holds what it did, or the replica too where that
 * is unsure. Now and then a replica's view is compared with that of its snapshot, opened anew.
 *
 * With FAIL, what the library asks for fails by chance: of a call's allocations and system calls, one in a number from
 * 2 to FAIL. For that it is linked with --wrap of each name below that begins with __wrap_. */
#define _GNU_SOURCE
#include "rds.h"

#include <errno.h>
#include <fcntl.h>
#include <stdarg.h>
#include <stdio.h>
#include <stdlib.h>
#include <string.h>
#include <sys/file.h>
#include <sys/stat.h>
#include <unistd.h>

enum { REPLICAS = 4, KEPT = 16, ROOM = 1 << 18, STATUSES = 128 };

#define ONE_OF(list) ((list)[chance(sizeof(list) / sizeof *(list))])

typedef struct text {
    uint8_t *bytes;
    size_t length;
} text;

static rds_file replicas[REPLICAS];
static const char *names[REPLICAS];
static text kept[KEPT];
static long statuses[STATUSES];
static const char *call = "the start";
static long step;

/* ---- Chance, and allocations that fail by it ---- */

static uint64_t seed;

static uint32_t chance(size_t below) {
    seed ^= seed << 13;
    seed ^= seed >> 7;
    seed ^= seed << 17;
    return (uint32_t)((seed >> 11) % below);
}

/* One allocation or system call in so many fails; none where it is 0. */
static uint32_t failing;
static long starved, broken;

static int lacks_memory(void) {
    if (failing == 0 || chance(failing) != 0)
        return 0;
    starved++;
    return 1;
}

static int breaks(void) {
    if (failing == 0 || chance(failing) != 0)
        return 0;
    broken++;
    errno = EIO;
    return 1;
}

#define MAY_LACK(name, parameters, arguments)                                                                          \
    void *__real_##name parameters;                                                                                    \
    void *__wrap_##name parameters {                                                                                   \
        return lacks_memory() ? NULL : __real_##name arguments;                                                        \
    }

MAY_LACK(malloc, (size_t size), (size))
MAY_LACK(calloc, (size_t count, size_t size), (count, size))
MAY_LACK(realloc, (void *block, size_t size), (block, size))

#define MAY_BREAK(type, name, parameters, arguments)                                                                   \
    type __real_##name parameters;                                                                                     \
    type __wrap_##name parameters {                                                                                    \
        return breaks() ? -1 : __real_##name arguments;                                                                \
    }

MAY_BREAK(int, flock, (int file, int how), (file, how))
MAY_BREAK(int, fstat, (int file, struct stat *about), (file, about))
MAY_BREAK(int, fstatat, (int folder, const char *name, struct stat *about, int how), (folder, name, about, how))
MAY_BREAK(int, fsync, (int file), (file))
MAY_BREAK(int, fchmod, (int file, mode_t mode), (file, mode))
MAY_BREAK(int, unlinkat, (int folder, const char *name, int how), (folder, name, how))
MAY_BREAK(int, renameat, (int from, const char *name, int to, const char *other), (from, name, to, other))

/* A part of what was asked for is read or written, too. */
MAY_BREAK(ssize_t, read, (int file, void *room, size_t size), (file, room, failing && size > 1 ? size / 2 : size))
MAY_BREAK(ssize_t, write, (int file, const void *all, size_t size), (file, all, failing && size > 1 ? size / 2 : size))

MAY_BREAK(ssize_t, pwrite, (int file, const void *all, size_t size, off_t at),
          (file, all, failing && size > 1 ? size / 2 : size, at))
MAY_BREAK(int, ftruncate, (int file, off_t size), (file, size))

int __real_openat(int folder, const char *name, int how, ...);

int __wrap_openat(int folder, const char *name, int how, ...) {
    va_list more;
    va_start(more, how);
    mode_t mode = how & O_CREAT ? va_arg(more, mode_t) : 0;
    va_end(more);
    return breaks() ? -1 : __real_openat(folder, name, how, mode);
}

/* ---- Texts ---- */

static void stop(const char *why) {
    fprintf(stderr, "step %ld, %s: %s\n", step, call, why);
    exit(1);
}

static text block(size_t length) {
    text made = {__real_malloc(length ? length : 1), length};
    if (made.bytes == NULL)
        stop("the driver has no memory");
    return made;
}

static text copy(const void *bytes, size_t length) {
    text made = block(length);
    memcpy(made.bytes, bytes, length);
    return made;
}

static void keep(const uint8_t *bytes, size_t length) {
    text *place = &kept[chance(KEPT)];
    free(place->bytes);
    *place = copy(bytes, length);
}

static text random_bytes(size_t length) {
    text made = block(length);
    for (size_t at = 0; at < length; at++)
        made.bytes[at] = (uint8_t)chance(256);
    return made;
}

/* A text that a call gave: as it was, cut, lengthened, or with some bits or a byte changed. */
static text some_text(void) {
    const text *from = &kept[chance(KEPT)];
    if (from->length == 0 || chance(8) == 0)
        return random_bytes(chance(64));
    uint32_t how = chance(6);
    size_t length = how == 0 ? chance(from->length) : from->length;
    text made = random_bytes(how == 1 ? length + chance(9) : length);
    memcpy(made.bytes, from->bytes, length);
    if (how == 2)
        for (uint32_t left = 1 + chance(4); left > 0; left--)
            made.bytes[chance(made.length)] ^= (uint8_t)(1u << chance(8));
    if (how == 3)
        made.bytes[chance(made.length)] = (uint8_t)chance(256);
    return made;
}

static text some_path(void) {
    static const char *const paths[] = {"a", "a/b", "a/b/c", "d", "e/f", "", "a//b", "k k", "a/b/c/d/e/f/g/h/i",
                                        "\xc3\xbc", "\xff/x"};
    const char *path = ONE_OF(paths);
    return copy(path, strlen(path));
}

static text some_value(void) {
    if (chance(20) == 0)
        return random_bytes(chance(8));
    static const char *const values[] = {"red", "", "\xc3\xbc", "\xf0\x9f\x8d\x8e"};
    const char *value = ONE_OF(values);
    text made = copy(value, strlen(value));
    if (chance(20) != 0)
        return made;
    free(made.bytes);
    made = block(1024 + chance(2));
    memset(made.bytes, 'x', made.length);
    return made;
}

/* A line of an edit, now and then with a byte changed. */
static text some_line(void) {
    static const char *const verbs[] = {"set", "add", "del", "set", "add", "del", "inc", "dec", "clear", "dance"};
    static const char *const paths[] = {"a", "a/b", "a/b/c", "d", "e/f", "", "a//b", "a/b/c/d/e/f/g/h/i"};
    static const char *const values[] = {"1", "\"red\"", "null", "true", "-5", "99999999999999999999", "{}", "[1]",
                                         "\"\\ud800\"", "\"\xc3\xbc\"", "1e3"};
    char line[100];
    const char *verb = ONE_OF(verbs), *path = ONE_OF(paths);
    int length;
    if (strcmp(verb, "clear") == 0)
        length = snprintf(line, sizeof line, "[\"clear\",\"%s\"]", path);
    else if (strcmp(verb, "inc") == 0 || strcmp(verb, "dec") == 0)
        length = snprintf(line, sizeof line, "[\"%s\",\"%s\",%u]", verb, path, chance(100));
    else
        length = snprintf(line, sizeof line, "[\"%s\",\"%s\",%s]", verb, path, ONE_OF(values));
    if (chance(10) == 0)
        line[chance((size_t)length)] = (char)chance(256);
    return copy(line, (size_t)length);
}

static text some_lines(void) {
    text lines = block(0);
    for (uint32_t left = chance(6); left > 0; left--) {
        text line = some_line(), more = block(lines.length + line.length + 1);
        memcpy(more.bytes, lines.bytes, lines.length);
        memcpy(more.bytes + lines.length, line.bytes, line.length);
        more.bytes[more.length - 1] = '\n';
        free(lines.bytes);
        free(line.bytes);
        lines = more;
    }
    return lines;
}

/* The snapshot of a replica, and nothing of one that is closed. */
static size_t snapshot_of(rds *replica, uint8_t *room) {
    size_t length = 0;
    uint32_t status = rds_snapshot(replica, room, ROOM, &length);
    if (status != RDS_OK && status != RDS_CLOSED)
        stop("there is no snapshot");
    return status == RDS_OK ? length : 0;
}

/* ---- Calls that give bytes ---- */

typedef uint32_t gives(rds *, uint8_t *, size_t, size_t *);
typedef uint32_t gives_of(rds *, const uint8_t *, size_t, uint8_t *, size_t, size_t *);

/* One of the two is called, with the text where it takes one. The text is freed. */
static uint32_t given(rds *replica, gives *plain, gives_of *of, text with) {
    text room = block(chance(3) ? 8192 : chance(200));
    size_t length = 0, again = 0;
    long starved_before = starved;
    uint32_t status = plain != NULL ? plain(replica, room.bytes, room.length, &length)
                                    : of(replica, with.bytes, with.length, room.bytes, room.length, &length);
    if (status == RDS_OK && length > room.length)
        stop("bytes were given that don't fit");
    if (status == RDS_OK)
        keep(room.bytes, length);
    /* Lines that were done, where there was no memory for what they are answered. */
    int is_untold = of == rds_edit_lines && status == RDS_NO_ROOM && length == 0 && starved != starved_before;
    if (status == RDS_NO_ROOM && !is_untold) {
        if (length <= room.length)
            stop("there was no room, though the bytes fit");
        text whole = block(length);
        if (rds_told(replica, whole.bytes, whole.length, &again) != RDS_OK || again != length)
            stop("what didn't fit isn't told");
        keep(whole.bytes, length);
        free(whole.bytes);
    }
    free(room.bytes);
    free(with.bytes);
    return status;
}

static uint32_t look(rds_file *file) {
    static gives_of *const at_path[] = {rds_view, rds_get, rds_conflicts, rds_dump};
    return given(&file->replica, NULL, ONE_OF(at_path), some_path());
}

static uint32_t look_at_all(rds_file *file) {
    static gives *const whole[] = {rds_snapshot, rds_snapshot, rds_ask, rds_ask, rds_status_json, rds_mark, rds_told};
    return given(&file->replica, ONE_OF(whole), NULL, block(0));
}

static uint32_t answer(rds_file *file) {
    return given(&file->replica, NULL, rds_answer, some_text());
}

/* ---- Calls that change the replica ---- */

static uint32_t edit_lines(rds_file *file) {
    return given(&file->replica, NULL, rds_edit_lines, some_lines());
}

static uint32_t edit(rds_file *file) {
    text line = some_line();
    rds_edited edited;
    uint32_t status = rds_edit(&file->replica, line.bytes, line.length, &edited);
    free(line.bytes);
    return status;
}

static uint32_t edit_without_json(rds *replica, text path, text value, rds_edited *edited) {
    const uint8_t *at = path.bytes, *bytes = value.bytes;
    size_t length = path.length, size = value.length;
    uint8_t is_so = (uint8_t)chance(3);
    int64_t number = chance(4) ? (int64_t)chance(4) : (int64_t)(seed ^ (seed << 40));
    uint64_t amount = chance(8) ? chance(100) : seed;
    switch (chance(15)) {
    case 0: return rds_set_text(replica, at, length, bytes, size, edited);
    case 1: return rds_add_text(replica, at, length, bytes, size, edited);
    case 2: return rds_del_text(replica, at, length, bytes, size, edited);
    case 3: return rds_set_int(replica, at, length, number, edited);
    case 4: return rds_add_int(replica, at, length, number, edited);
    case 5: return rds_del_int(replica, at, length, number, edited);
    case 6: return rds_set_bool(replica, at, length, is_so, edited);
    case 7: return rds_add_bool(replica, at, length, is_so, edited);
    case 8: return rds_del_bool(replica, at, length, is_so, edited);
    case 9: return rds_set_null(replica, at, length, edited);
    case 10: return rds_add_null(replica, at, length, edited);
    case 11: return rds_del_null(replica, at, length, edited);
    case 12: return rds_clear(replica, at, length, edited);
    case 13: return rds_inc(replica, at, length, amount, edited);
    default: return rds_dec(replica, at, length, amount, edited);
    }
}

static uint32_t edit_at(rds_file *file) {
    text path = some_path(), value = some_value();
    rds_edited edited;
    uint32_t status = edit_without_json(&file->replica, path, value, &edited);
    if (status == RDS_OK && (edited.has_dot > 1 || (edited.has_dot == 0) != (edited.number == 0)))
        stop("what the edit did makes no sense");
    free(path.bytes);
    free(value.bytes);
    return status;
}

/* An exchange with another replica, or this same one, as it should be. */
static uint32_t exchange(rds_file *file) {
    static uint8_t question[ROOM], answered[ROOM];
    size_t asked_length, answer_length;
    uint64_t taken;
    rds *theirs = &replicas[chance(REPLICAS)].replica;
    uint32_t status = rds_ask(&file->replica, question, ROOM, &asked_length);
    if (status != RDS_OK)
        return status;
    keep(question, asked_length);
    status = rds_answer(theirs, question, asked_length, answered, ROOM, &answer_length);
    if (status != RDS_OK)
        return status;
    keep(answered, answer_length);
    return rds_take(&file->replica, question, asked_length, answered, answer_length, &taken);
}

static uint32_t take(rds_file *file) {
    text asked = some_text(), answered = some_text();
    uint64_t taken;
    uint32_t status = rds_take(&file->replica, asked.bytes, asked.length, answered.bytes, answered.length, &taken);
    free(asked.bytes);
    free(answered.bytes);
    return status;
}

static uint32_t merge(rds_file *file) {
    text snapshot = some_text();
    uint64_t taken;
    uint32_t status = rds_merge(&file->replica, snapshot.bytes, snapshot.length, &taken);
    free(snapshot.bytes);
    return status;
}

static uint32_t grow(rds_file *file) {
    static const char *const new_names[] = {"e", "f", "a", "", "A", "-x"};
    const char *words = ONE_OF(new_names);
    text name = chance(20) ? copy(words, strlen(words)) : some_text();
    uint32_t status = rds_grow(&file->replica, name.bytes, name.length);
    free(name.bytes);
    return status;
}

/* ---- Calls that open and close ---- */

static uint32_t new_one(rds_file *file) {
    static const char *const rosters[] = {"[\"roster\",\"g\",\"a\",\"b\",\"c\",\"d\"]",
                                          "[\"roster\",\"g\",\"a\",\"b\",\"c\",\"d\",\"e\"]",
                                          "[\"roster\",\"h\",\"a\"]", "[\"roster\"]", "[\"roster\",\"g\",\"A\"]", "no"};
    const char *words = chance(16) < 12 ? rosters[chance(2)] : ONE_OF(rosters);
    text line = copy(words, strlen(words));
    uint8_t own = (uint8_t)(chance(10) ? file - replicas : chance(256));
    uint32_t status = rds_new(&file->replica, line.bytes, line.length, own);
    free(line.bytes);
    return status;
}

static uint32_t open_bytes(rds_file *file) {
    text snapshot = some_text();
    uint32_t status = rds_open(&file->replica, snapshot.bytes, snapshot.length);
    free(snapshot.bytes);
    return status;
}

static uint32_t close_one(rds_file *file) {
    if (file->held == NULL)
        rds_free(&file->replica);
    else
        rds_close(file);
    return RDS_OK;
}

/* Opens, or makes, one of a few files, or what is none. */
static uint32_t use_file(rds_file *file, uint32_t (*use)(rds_file *, const uint8_t *, size_t)) {
    static const char *const files[] = {"f0", "f1", "f2"};
    static const char *const odd[] = {"", "f0.new", "no/f0", ".", "/", "f0/"};
    const char *path = chance(8) ? ONE_OF(files) : ONE_OF(odd);
    if (use == rds_make_file && chance(2))
        remove(files[chance(3)]);
    text given_path = copy(path, strlen(path));
    int had = file->held != NULL;
    uint32_t status = use(file, given_path.bytes, given_path.length);
    if (!had && file->held != NULL)
        names[file - replicas] = path;
    free(given_path.bytes);
    return status;
}

static uint32_t open_file(rds_file *file) {
    return use_file(file, rds_open_file);
}

static uint32_t make_file(rds_file *file) {
    return use_file(file, rds_make_file);
}

/* The bytes of the file that a replica has; none where it has none, or the file is gone. */
static text bytes_of(const rds_file *file) {
    const char *name = names[file - replicas];
    FILE *in = file->held != NULL ? fopen(name, "rb") : NULL;
    text found = block(in != NULL ? ROOM : 0);
    if (in != NULL) {
        found.length = fread(found.bytes, 1, ROOM, in);
        fclose(in);
    }
    return found;
}

/* The snapshot of the replica that a file holds; nothing where it holds none. */
static text held_by(const rds_file *file) {
    text bytes = bytes_of(file), found = block(ROOM);
    rds anew = RDS_CLOSED_REPLICA;
    found.length = rds_open(&anew, bytes.bytes, bytes.length) == RDS_OK ? snapshot_of(&anew, found.bytes) : 0;
    rds_free(&anew);
    free(bytes.bytes);
    return found;
}

static int is_same(text one, text other) {
    return one.length == other.length && memcmp(one.bytes, other.bytes, one.length) == 0;
}

static uint32_t keep_file(rds_file *file) {
    static uint8_t room[ROOM];
    uint32_t was = failing;
    failing = 0;
    text before = held_by(file), due = {room, snapshot_of(&file->replica, room)};
    failing = was;
    uint32_t status = rds_keep(file);
    failing = 0;
    text after = held_by(file);
    if (status == RDS_OK && !is_same(after, due))
        stop("the file hasn't what was kept");
    if (status != RDS_OK && !is_same(after, before) && !(status == RDS_UNSURE && is_same(after, due)))
        stop("the file holds neither the old nor the new");
    free(before.bytes);
    free(after.bytes);
    return status;
}

/* ---- What has to hold ---- */

enum { LOOKS = 1, OPENS = 2 };

typedef struct deed {
    const char *name;
    uint32_t (*does)(rds_file *);
    uint32_t weight;
    int kind; /* LOOKS: it never changes the replica. OPENS: it opens one that is closed. */
} deed;

static const deed DEEDS[] = {
    {"an edit without JSON", edit_at, 24, 0},
    {"rds_edit", edit, 12, 0},
    {"rds_edit_lines", edit_lines, 6, 0},
    {"a look at a path", look, 8, LOOKS},
    {"a look at all", look_at_all, 8, LOOKS},
    {"rds_answer", answer, 8, LOOKS},
    {"an exchange", exchange, 8, 0},
    {"rds_take", take, 8, 0},
    {"rds_merge", merge, 8, 0},
    {"rds_grow", grow, 2, 0},
    {"rds_new", new_one, 4, OPENS},
    {"rds_open", open_bytes, 4, OPENS},
    {"rds_free or rds_close", close_one, 2, 0},
    {"rds_open_file", open_file, 3, OPENS},
    {"rds_make_file", make_file, 4, 0},
    {"rds_keep", keep_file, 6, LOOKS},
};

static const deed *any_deed(void) {
    uint32_t left = 0;
    for (size_t at = 0; at < sizeof DEEDS / sizeof *DEEDS; at++)
        left += DEEDS[at].weight;
    left = chance(left);
    const deed *found = DEEDS;
    while (left >= found->weight)
        left -= found++->weight;
    return found;
}

/* What is closed is mostly opened. */
static const deed *some_deed(const rds *replica) {
    const deed *found = any_deed();
    while (!replica->is_open && !(found->kind & OPENS) && chance(16) != 0)
        found = any_deed();
    return found;
}

static void compare_views(rds *replica) {
    static uint8_t bytes[ROOM], one[ROOM], other[ROOM];
    rds anew = RDS_CLOSED_REPLICA;
    size_t length = snapshot_of(replica, bytes), first = 0, second = 0;
    if (length == 0)
        return;
    if (rds_open(&anew, bytes, length) != RDS_OK || rds_view(&anew, RDS_TEXT(""), one, ROOM, &first) != RDS_OK ||
        rds_view(replica, RDS_TEXT(""), other, ROOM, &second) != RDS_OK)
        stop("a view can't be made");
    if (first != second || memcmp(one, other, first) != 0)
        stop("the view isn't that of the snapshot");
    rds_free(&anew);
}

static void judge(const deed *done, uint32_t status, int is_kept, int was_starved) {
    if (status > RDS_UNSURE && (status < RDS_CLOSED || status > RDS_BESIDE))
        stop("the status is none of the header's");
    if (status == RDS_MEMORY && !was_starved)
        stop("there was no memory, though no allocation failed");
    if (!is_kept && ((done->kind & LOOKS) || (status != RDS_OK && status != RDS_NO_ROOM)))
        stop("the replica was changed");
    statuses[status]++;
}

static void one_step(uint32_t most) {
    static uint8_t before[ROOM], after[ROOM];
    rds_file *file = &replicas[chance(REPLICAS)];
    const deed *chosen = some_deed(&file->replica);
    long starved_before = starved;
    size_t length = snapshot_of(&file->replica, before);
    call = chosen->name;
    failing = most ? 2 + chance(most - 1) : 0;
    uint32_t status = chosen->does(file);
    failing = 0;
    int is_kept = length == snapshot_of(&file->replica, after) && memcmp(before, after, length) == 0;
    judge(chosen, status, is_kept, starved != starved_before);
    if (step % 64 == 0)
        compare_views(&file->replica);
}

int main(int count, char **words) {
    if (count < 3) {
        fprintf(stderr, "hostile SEED CALLS [FAIL]\n");
        return 2;
    }
    long steps = atol(words[2]);
    uint32_t most = count > 3 ? (uint32_t)atol(words[3]) : 0;
    seed = strtoull(words[1], NULL, 10) * 2654435761u + 88172645463325252u;
    for (step = 0; step < steps; step++)
        one_step(most);
    for (int at = 0; at < REPLICAS; at++)
        rds_close(&replicas[at]);
    for (int at = 0; at < KEPT; at++)
        free(kept[at].bytes);
    printf("%ld calls, %ld allocations and %ld system calls failed;", steps, starved, broken);
    for (int at = 0; at < STATUSES; at++)
        if (statuses[at] > 0)
            printf(" %s %ld", rds_status_name((uint32_t)at), statuses[at]);
    printf("\n");
    return 0;
}
