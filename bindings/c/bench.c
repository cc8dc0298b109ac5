/* How long calls take, over a document of so many registers, m{0..99}/k{i}: bench ELEMENTS
 * Each line: what it was, how often, the processor's microseconds for one, bytes or nothing, with tabs between. Where
 * it runs under callgrind, each has dumps of its own, by which `bindings/speeds --count` tells its instructions. */
#define _GNU_SOURCE
#include "rds.h"

#include <stdio.h>
#include <stdlib.h>
#include <string.h>
#include <time.h>
#include <unistd.h>
#if __has_include(<valgrind/callgrind.h>)
#include <valgrind/callgrind.h>
#else
#define CALLGRIND_ZERO_STATS
#define CALLGRIND_DUMP_STATS_AT(what) (void)(what)
#endif

#define ROSTER "[\"roster\",\"g\",\"a\",\"b\"]"

enum { EDITS = 2000, PATH = 64, LINE = 56 };

/* A text, made before it is needed, so that only the library is timed. */
typedef struct text {
    size_t length;
    char bytes[LINE];
} text;

static const size_t ROOM = (size_t)1 << 27;
static rds first = RDS_CLOSED_REPLICA, second = RDS_CLOSED_REPLICA;
static uint8_t *room, *snapshot, *question, *answer;
static text *paths, lines[EDITS];
static size_t snapshot_length;
static long elements;
static double begun;

/* What the process has used of a processor, in microseconds: what it waits for others or for a disk isn't in it. */
static double now(void) {
    struct timespec at;
    clock_gettime(CLOCK_PROCESS_CPUTIME_ID, &at);
    return (double)at.tv_sec * 1e6 + (double)at.tv_nsec / 1e3;
}

static void start(void) {
    CALLGRIND_ZERO_STATS;
    begun = now();
}

static double stop(const char *what) {
    double took = now() - begun;
    CALLGRIND_DUMP_STATS_AT(what);
    return took;
}

static void need(uint32_t status) {
    if (status == RDS_OK)
        return;
    fprintf(stderr, "bench: %s\n", rds_status_text(status));
    exit(1);
}

static void *memory(size_t size) {
    void *made = malloc(size);
    if (made == NULL)
        exit(1);
    return made;
}

static void say(const char *what, double microseconds, long times, size_t bytes) {
    printf(bytes ? "%s\t%ld\t%.4f\t%zu\n" : "%s\t%ld\t%.4f\n", what, times, microseconds / (double)times, bytes);
}

/* Says how long a statement takes, which is done `times` times with i from 0 on. */
#define EACH(what, times, bytes, statement)                                                                            \
    do {                                                                                                               \
        start();                                                                                                       \
        for (long i = 0; i < (times); i++)                                                                             \
            statement;                                                                                                 \
        double took_ = stop(what);                                                                                     \
        say(what, took_, times, bytes);                                                                                \
    } while (0)

static void make_paths(long count) {
    paths = memory((size_t)count * sizeof *paths);
    for (long i = 0; i < count; i++)
        paths[i].length = (size_t)snprintf(paths[i].bytes, LINE, "m%ld/k%ld", i % 100, i);
}

static void set(rds *replica, long number, int64_t value) {
    const text *path = &paths[number];
    rds_edited edited;
    need(rds_set_int(replica, (const uint8_t *)path->bytes, path->length, value, &edited));
}

/* Makes the lines that set some registers anew, from a number on. */
static void make_lines(long first_number, long step, long most) {
    for (long i = 0; i < EDITS; i++) {
        const char *path = paths[first_number + i * step % most].bytes;
        lines[i].length = (size_t)snprintf(lines[i].bytes, LINE, "[\"set\",\"%s\",%ld]\n", path, i);
    }
}

static void set_by_json(const text *line) {
    rds_edited edited;
    need(rds_edit(&first, (const uint8_t *)line->bytes, line->length - 1, &edited));
}

static void set_by_lines(void) {
    static char all[EDITS * LINE];
    const char *what = "edit: one line of 2,000 in a call";
    size_t length = 0, told;
    for (long i = 0; i < EDITS; i++) {
        memcpy(all + length, lines[i].bytes, lines[i].length);
        length += lines[i].length;
    }
    start();
    need(rds_edit_lines(&first, (const uint8_t *)all, length, room, ROOM, &told));
    say(what, stop(what), EDITS, 0);
}

static void time_edits(void) {
    make_lines(0, 37, elements);
    set_by_lines();
    EACH("edit: an old register set anew, by JSON", EDITS, 0, set_by_json(&lines[i]));
    EACH("edit: an old register set anew", EDITS, 0, set(&first, i * 37 % elements, i));
    EACH("edit: a new register", EDITS, 0, set(&first, elements + i, i));
    make_lines(elements + EDITS, 1, EDITS);
    EACH("edit: a new register, by JSON", EDITS, 0, set_by_json(&lines[i]));
}

static void time_looks(long times) {
    size_t length = 0;
    EACH("crossing (rds_told, without room)", 200000, 0, rds_told(&first, room, 0, &length));
    EACH("get of one register", times, 0, need(rds_get(&first, RDS_TEXT("m5/k5"), room, ROOM, &length)));
    EACH("view of a path that shows nothing", EDITS, 0, need(rds_view(&first, RDS_TEXT("m5/no"), room, ROOM, &length)));
    EACH("view of one map of 100", times, 0, need(rds_view(&first, RDS_TEXT("m5"), room, ROOM, &length)));
    EACH("view of all", times, 0, need(rds_view(&first, RDS_TEXT(""), room, ROOM, &length)));
}

static void open_and_free(void) {
    rds anew = RDS_CLOSED_REPLICA;
    need(rds_open(&anew, snapshot, snapshot_length));
    rds_free(&anew);
}

static void merge(rds *replica) {
    uint64_t taken;
    need(rds_merge(replica, snapshot, snapshot_length, &taken));
}

static void time_snapshots(long times) {
    need(rds_snapshot(&first, snapshot, ROOM, &snapshot_length));
    EACH("snapshot", times, snapshot_length, need(rds_snapshot(&first, snapshot, ROOM, &snapshot_length)));
    EACH("snapshot opened, and freed", times, 0, open_and_free());
    EACH("merge of a snapshot into an empty replica", 1, 0, merge(&second));
    EACH("merge of a snapshot that is there", times, 0, merge(&second));
}

static void time_meetings(long times) {
    const char *ask = "ask, after ten edits", *give = "answer", *take = "take";
    double asking = 0, answering = 0, taking = 0;
    size_t asked = 0, answered = 0;
    uint64_t taken;
    for (long i = 0; i < times; i++) {
        for (long edit = 0; edit < 10; edit++)
            set(&first, (i * 10 + edit) * 91 % elements, -i);
        start();
        need(rds_ask(&second, question, ROOM, &asked));
        asking += stop(ask);
        start();
        need(rds_answer(&first, question, asked, answer, ROOM, &answered));
        answering += stop(give);
        start();
        need(rds_take(&second, question, asked, answer, answered, &taken));
        taking += stop(take);
    }
    say(ask, asking, times, asked);
    say(give, answering, times, answered);
    say(take, taking, times, 0);
}

static void open_and_close(const char *path) {
    rds_file file = RDS_CLOSED_FILE;
    need(rds_open_file(&file, (const uint8_t *)path, strlen(path)));
    rds_close(&file);
}

static void set_and_keep(rds_file *file, long number) {
    set(&file->replica, number * 37 % elements, number);
    need(rds_keep(file));
}

/* Each keep is synced; the time that a disk takes isn't in it. */
static void time_files(long times) {
    char path[PATH];
    rds_file file = RDS_CLOSED_FILE;
    snprintf(path, PATH, "%s/rds-bench-%ld.rds", P_tmpdir, (long)getpid());
    need(rds_snapshot(&first, snapshot, ROOM, &snapshot_length));
    need(rds_open(&file.replica, snapshot, snapshot_length));
    need(rds_make_file(&file, (const uint8_t *)path, strlen(path)));
    EACH("edit in a file: an old register set anew", EDITS, 0, set(&file.replica, i * 37 % elements, i));
    EACH("edit in a file: a new register", EDITS, 0, set(&file.replica, elements + 2 * EDITS + i, i));
    EACH("keep of these", 1, 0, need(rds_keep(&file)));
    EACH("edit and keep", 100, 0, set_and_keep(&file, i));
    rds_close(&file);
    EACH("file opened, and closed", times, 0, open_and_close(path));
    unlink(path);
}

int main(int count, char **words) {
    elements = count > 1 ? atol(words[1]) : 0;
    if (elements < 1) {
        fprintf(stderr, "bench ELEMENTS\n");
        return 2;
    }
    long times = elements > 10000 ? 5 : 200;
    room = memory(ROOM), snapshot = memory(ROOM), question = memory(ROOM), answer = memory(ROOM);
    make_paths(elements + 3 * EDITS);
    need(rds_new(&first, RDS_TEXT(ROSTER), 0));
    need(rds_new(&second, RDS_TEXT(ROSTER), 1));
    EACH("edit: a new register, from an empty document on", elements, 0, set(&first, i, i));
    time_looks(times);
    time_snapshots(times);
    time_meetings(times);
    time_edits();
    time_files(times);
    rds_free(&first);
    rds_free(&second);
    return 0;
}
