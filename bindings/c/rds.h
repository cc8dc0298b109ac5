/* rds.h: a replica of a convergent document store, inside a program.
 *
 * A replica is a document that is edited here, offline if need be, and that joins with its fellows when they meet.
 * A document has nested maps, add-wins sets and multi-value registers at the leaves, and counters at the root.
 * Replicas that have the same updates hold the same document, whatever the order in which they met.
 *
 *     rds shop = RDS_CLOSED_REPLICA;
 *     rds_edited edited;
 *     uint32_t status = rds_new(&shop, RDS_TEXT("[\"roster\",\"inventory\",\"shop\",\"store\"]"), 0);
 *     if (status == RDS_OK)
 *         status = rds_add_text(&shop, RDS_TEXT("apples/tags"), RDS_TEXT("red"), &edited);
 *     ...
 *     rds_free(&shop);
 *
 * To link: librds.a, or librds.so (-lrds). Both need the C library alone.
 *
 * Memory
 *   - A `rds` belongs to the caller and begins as RDS_CLOSED_REPLICA (all zeros). What is behind it belongs to the
 *     library: rds_new and rds_open make it, rds_free frees it. Read or write no member of a `rds`. While it is open
 *     pass its address, and make no copy that is used beside it.
 *   - Texts and bytes that are passed in stay the caller's, and may be freed after the call. Each is a pointer and a
 *     length in bytes, and needs no 0 at its end. Texts are UTF-8.
 *   - Bytes that a call gives are written into `room`, which is the caller's and has `room_length` bytes. *length
 *     becomes their number. Where they don't fit, nothing is written into the room, the status is RDS_NO_ROOM, and
 *     rds_told gives the same bytes, if it is the next call of that replica.
 *   - No pointer may be NULL, also where its length is 0. No two arguments of a call may overlap, but for two that are
 *     only read.
 *   - The library takes memory by malloc and realloc, and gives it back by free.
 *
 * Statuses
 *   - Each call but rds_free, rds_close and the two that say what a status is returns one of `enum rds_status`.
 *   - After any status but RDS_OK and RDS_NO_ROOM the replica is as it was before the call (of rds_keep and
 *     rds_make_file: its document is).
 *   - *length, *edited and *taken are written at RDS_OK, and *length at RDS_NO_ROOM too. Else it isn't said what they
 *     hold.
 *   - Want of memory is RDS_MEMORY. No call ends the process, prints anything, or keeps anything outside its replica.
 *
 * Threads: two replicas share nothing, so each may be used on a thread of its own. A replica may be opened, used and
 * closed on different threads, one call at a time: order its calls by a lock, or by the start or join of a thread. Call
 * nothing from a signal handler.
 *
 * The premise: a replica is edited at one place, and what it has sent or answered is never taken back. So:
 *   - edit no copy of a file beside the original, and open no snapshot twice for editing;
 *   - where a replica lives in a file, call rds_keep before an answer or a snapshot of it goes to another;
 *   - docs/FAULTS.md says how a backup is put back.
 */
#ifndef RDS_H
#define RDS_H

#include <stddef.h>
#include <stdint.h>

#ifdef __cplusplus
extern "C" {
#endif

/* A replica, or none: its members are the library's. */
typedef struct rds {
    uint64_t is_open;
    void *at;
} rds;

/* A replica that lives in a file, and the file, which is locked. `replica` may be passed to each call below that takes
 * a `rds`, but rds_free: rds_close closes both. */
typedef struct rds_file {
    rds replica;
    void *held;
} rds_file;

/* How a `rds`, and a `rds_file`, begin. */
#define RDS_CLOSED_REPLICA {0, NULL}
#define RDS_CLOSED_FILE {{0, NULL}, NULL}

/* The two arguments of a text that is a literal. */
#define RDS_TEXT(literal) ((const uint8_t *)(literal)), (sizeof(literal) - 1)

/* How a call ended. 1 to 63 are the faults of docs/FAULTS.md; some of them no call here returns. */
enum rds_status {
    RDS_OK = 0,
    RDS_MEMORY = 1,           /* there was no memory left */
    RDS_BAD_NAME = 2,         /* no name of a replica: 1 to 16 bytes, first a to z, then a to z, 0 to 9 and '-' */
    RDS_BAD_KEY = 3,          /* no key: 1 to 64 bytes of UTF-8 without '/' */
    RDS_BAD_PATH = 4,         /* more than 8 keys, or none where a value has to stand */
    RDS_BAD_SCALAR = 5,       /* no value: a text of more than 1,024 bytes, a number beyond 64 bits, a list, .. */
    RDS_BAD_ROSTER = 6,       /* a roster without a name, with more than 256 or with one twice; or a number beyond it */
    RDS_SEQ_FULL = 7,         /* this replica has used its last dot, 281,474,976,710,655 */
    RDS_COUNTER_FULL = 8,     /* a counter's number of this replica would pass 281,474,976,710,655 */
    RDS_CONFLICT = 9,         /* a dot is live on both sides with different entries: the premise was broken */
    RDS_OWN_AHEAD = 10,       /* the other side has something of this replica's own that it lacks: it is older */
    RDS_WRONG_ASKER = 11,     /* the answer was made for another replica, or for a later state of this one */
    RDS_CUT = 12,             /* bytes end before the text that they begin is whole */
    RDS_BAD = 13,             /* bytes are no text of this kind */
    RDS_EXTRA = 14,           /* more bytes follow a whole text */
    RDS_TOO_LONG = 15,        /* a text has more than 268,435,456 bytes, or a line more than 65,536 */
    RDS_BAD_CERTIFICATE = 17, /* the certificate of an answer doesn't hold */
    RDS_WRONG_VERSION = 18,   /* the other side speaks another version */
    RDS_WRONG_GROUP = 19,     /* the two replicas are of different groups */
    RDS_WRONG_ROSTER = 20,    /* neither roster begins the other */
    RDS_SAME_REPLICA = 21,    /* both sides are the same replica */
    RDS_DEVICE = 24,          /* a call of the system failed, and errno says how (files alone) */
    RDS_BAD_LINE = 25,        /* a line is no command */
    RDS_UNSURE = 29,          /* all was written, and may not last: errno says how (files alone) */
    /* of this header: */
    RDS_CLOSED = 64,       /* the replica isn't open; of rds_keep: it has no file */
    RDS_OPEN_ALREADY = 65, /* the replica, or the file, is open already */
    RDS_NO_ROOM = 66,      /* the bytes don't fit into the room */
    RDS_NOT_UTF8 = 67,     /* a text isn't UTF-8 */
    RDS_BUSY = 68,         /* another program, or another `rds_file`, has the file */
    RDS_LINKED = 69,       /* the file has several names (hard links), and the others wouldn't follow */
    RDS_REPLACED = 70,     /* the path leads to another file than the one that is held, or to none */
    RDS_EXISTS = 71,       /* something is at the path already */
    RDS_BESIDE = 72        /* the path ends in .new, as files do that are written beside others */
};

/* What an edit did: whether it added a dot (0 or 1), the dot's number (1 to 281,474,976,710,655, or 0 where there is
 * none), and how many dots it killed. */
typedef struct rds_edited {
    uint64_t has_dot;
    uint64_t number;
    uint64_t killed;
} rds_edited;

/* ---- Opening and closing ---- */

/* Opens an empty replica: number `own`, from 0, of the roster that a line of JSON names, its group first, as
 * ["roster","inventory","shop","store"]. Each name is for one replica, for good.
 * RDS_BAD_LINE, RDS_BAD_KEY (the group), RDS_BAD_NAME, RDS_BAD_ROSTER, RDS_NOT_UTF8, RDS_OPEN_ALREADY, RDS_MEMORY. */
uint32_t rds_new(rds *replica, const uint8_t *line, size_t line_length, uint8_t own);

/* Opens the replica of a snapshot: bytes that rds_snapshot gave, or those of a file of `rds_node`.
 * RDS_CUT, RDS_BAD, RDS_TOO_LONG, RDS_OPEN_ALREADY, RDS_MEMORY. */
uint32_t rds_open(rds *replica, const uint8_t *snapshot, size_t snapshot_length);

/* Closes a replica and frees what it has. It does nothing to one that is closed. */
void rds_free(rds *replica);

/* ---- Edits ----
 *
 * A path is 1 to 8 keys with '/' between them, as apples/tags. Where a path leads to a map, set, register or counter
 * says the edit alone: one of each may stand at one path.
 *
 * Besides what stands with a call, each returns RDS_BAD_KEY, RDS_BAD_PATH, RDS_NOT_UTF8, RDS_CLOSED, RDS_MEMORY. */

/* Sets the register at a path to a value: what it showed before is gone. A text has at most 1,024 bytes
 * (RDS_BAD_SCALAR); of a bool 0 is false, and anything else true. Also RDS_SEQ_FULL. */
uint32_t rds_set_text(rds *replica, const uint8_t *path, size_t path_length, const uint8_t *text, size_t text_length,
                      rds_edited *edited);
uint32_t rds_set_int(rds *replica, const uint8_t *path, size_t path_length, int64_t value, rds_edited *edited);
uint32_t rds_set_bool(rds *replica, const uint8_t *path, size_t path_length, uint8_t value, rds_edited *edited);
uint32_t rds_set_null(rds *replica, const uint8_t *path, size_t path_length, rds_edited *edited);

/* Adds a value to the set at a path. Also RDS_BAD_SCALAR, RDS_SEQ_FULL. */
uint32_t rds_add_text(rds *replica, const uint8_t *path, size_t path_length, const uint8_t *text, size_t text_length,
                      rds_edited *edited);
uint32_t rds_add_int(rds *replica, const uint8_t *path, size_t path_length, int64_t value, rds_edited *edited);
uint32_t rds_add_bool(rds *replica, const uint8_t *path, size_t path_length, uint8_t value, rds_edited *edited);
uint32_t rds_add_null(rds *replica, const uint8_t *path, size_t path_length, rds_edited *edited);

/* Deletes a value from the set at a path. Where it isn't there nothing is killed. Also RDS_BAD_SCALAR. */
uint32_t rds_del_text(rds *replica, const uint8_t *path, size_t path_length, const uint8_t *text, size_t text_length,
                      rds_edited *edited);
uint32_t rds_del_int(rds *replica, const uint8_t *path, size_t path_length, int64_t value, rds_edited *edited);
uint32_t rds_del_bool(rds *replica, const uint8_t *path, size_t path_length, uint8_t value, rds_edited *edited);
uint32_t rds_del_null(rds *replica, const uint8_t *path, size_t path_length, rds_edited *edited);

/* Clears what is at a path and below it, but counters. The empty path is the root: all of the document. */
uint32_t rds_clear(rds *replica, const uint8_t *path, size_t path_length, rds_edited *edited);

/* Raises, or lowers, the counter with this key, which stands at the root. All that one replica adds to a counter is at
 * most 281,474,976,710,655, and so is all that it subtracts (RDS_COUNTER_FULL). */
uint32_t rds_inc(rds *replica, const uint8_t *key, size_t key_length, uint64_t amount, rds_edited *edited);
uint32_t rds_dec(rds *replica, const uint8_t *key, size_t key_length, uint64_t amount, rds_edited *edited);

/* Edits by a line of JSON: ["set",PATH,VALUE], ["add",PATH,VALUE], ["del",PATH,VALUE], ["clear",PATH],
 * ["inc",KEY,AMOUNT], ["dec",KEY,AMOUNT]. Also RDS_BAD_LINE, RDS_TOO_LONG and what the calls above return. */
uint32_t rds_edit(rds *replica, const uint8_t *line, size_t line_length, rds_edited *edited);

/* Edits by many such lines, each ended by a line feed (the last one's may lack), one after the other. Gives a line for
 * each, as `rds_node edit` does: {"dot":["shop",7],"killed":1} with null where no dot was added, or, where the line was
 * refused, {"fault":25,"name":"BadLine","line":2} with the line's number from 1. Empty lines are skipped.
 * A refused line changes nothing, the others are done, and the status is RDS_OK. At RDS_NO_ROOM they are done too, and
 * rds_told gives the answers; where *length is 0 then, there was no memory for them. At any other status no line is
 * done. */
uint32_t rds_edit_lines(rds *replica, const uint8_t *lines, size_t lines_length, uint8_t *room, size_t room_length,
                        size_t *length);

/* ---- Looking ----
 *
 * All but the mark and the snapshot give JSON, as UTF-8. The empty path is the root. Each returns RDS_NO_ROOM,
 * RDS_CLOSED, RDS_MEMORY, and those with a path RDS_BAD_KEY, RDS_BAD_PATH, RDS_NOT_UTF8 besides. */

/* Gives what the document shows at a path and below: {"maps":{..},"regs":{..},"sets":{..}} by the keys below it, and
 * at the root {"counters":{..},..} too. Registers and sets are lists of values; a register has several where it was set
 * apart. */
uint32_t rds_view(rds *replica, const uint8_t *path, size_t path_length, uint8_t *room, size_t room_length,
                  size_t *length);

/* Gives what stands at one path: {"counter":null,"reg":[],"set":[1999]}, the counter's sum or null, the values of the
 * register and those of the set. RDS_BAD_PATH also for the root. */
uint32_t rds_get(rds *replica, const uint8_t *path, size_t path_length, uint8_t *room, size_t room_length,
                 size_t *length);

/* Gives each register at or below a path that has more than one value, a line each: {"path":"k","values":[4,9]}. */
uint32_t rds_conflicts(rds *replica, const uint8_t *path, size_t path_length, uint8_t *room, size_t room_length,
                       size_t *length);

/* Gives the edits that make what stands at a path and below, as lines that rds_edit_lines takes. Of a register with
 * several values the last one stands after that. Counters are among them where the path is the root. */
uint32_t rds_dump(rds *replica, const uint8_t *path, size_t path_length, uint8_t *room, size_t room_length,
                  size_t *length);

/* Gives whose replica it is and how much it holds, as `rds_node status` does: {"group":..,"own":..,"names":[..],
 * "live":..,"dead":..,"counters":..,"components":..,"bytes":..,"mark":".."}. `bytes` are those of its snapshot, and
 * `mark` has 32 hex digits: replicas that hold the same entries and numbers have the same. */
uint32_t rds_status_json(rds *replica, uint8_t *room, size_t room_length, size_t *length);

/* Gives the mark of the document: 32 hex digits, by which replicas are compared at a glance. Those that have the same
 * updates have the same mark. That others have another isn't promised, since values can be chosen for it. */
uint32_t rds_mark(rds *replica, uint8_t *room, size_t room_length, size_t *length);

/* Gives the bytes of a new file: the snapshot, and 69 bytes with its checksum. rds_open, rds_merge and `rds_node` read
 * them (docs/FORMATS.md). Also RDS_TOO_LONG. */
uint32_t rds_snapshot(rds *replica, uint8_t *room, size_t room_length, size_t *length);

/* ---- Meeting ----
 *
 * `mine` takes what `theirs` has and it lacks: rds_ask(mine), rds_answer(theirs), rds_take(mine). The bytes may go by
 * any means, also as files of `rds_node ask`, `answer` and `take`. */

/* Gives the question of a replica: who asks, and what it has seen. Also RDS_TOO_LONG. */
uint32_t rds_ask(rds *replica, uint8_t *room, size_t room_length, size_t *length);

/* Gives the answer to another's question: the least that brings it all that this one has, with a certificate.
 * Of the question RDS_CUT, RDS_BAD, RDS_EXTRA, RDS_TOO_LONG, RDS_WRONG_VERSION, RDS_WRONG_GROUP, RDS_WRONG_ROSTER,
 * RDS_SAME_REPLICA. */
uint32_t rds_answer(rds *replica, const uint8_t *question, size_t question_length, uint8_t *room, size_t room_length,
                    size_t *length);

/* Takes the answer to a question of this replica's, which may have been edited since. *taken becomes the number of
 * components (live dots, runs of dead ones, counters' numbers) that were taken. The longer of the two rosters stands
 * after it. Of either text as rds_answer; then RDS_WRONG_ASKER, RDS_BAD_CERTIFICATE, RDS_OWN_AHEAD, RDS_CONFLICT. */
uint32_t rds_take(rds *replica, const uint8_t *question, size_t question_length, const uint8_t *answer,
                  size_t answer_length, uint64_t *taken);

/* Takes all that a snapshot of another replica has seen, or its file. *taken becomes the number of components that were
 * lacking. As rds_open and rds_take. A snapshot of this same replica is taken where nothing of its own is lacking here,
 * and is RDS_OWN_AHEAD else. */
uint32_t rds_merge(rds *replica, const uint8_t *snapshot, size_t snapshot_length, uint64_t *taken);

/* Puts a name last in the roster, for a new replica. To be done at one replica alone, for good: rosters that grow at
 * two can't meet again. RDS_BAD_NAME, RDS_BAD_ROSTER, RDS_NOT_UTF8, RDS_CLOSED, RDS_MEMORY. */
uint32_t rds_grow(rds *replica, const uint8_t *name, size_t name_length);

/* ---- Words ---- */

/* Gives, after RDS_NO_ROOM, the bytes that didn't fit, and after a fault (1 to 63) of an open replica what it was, as
 * "Conflict: the dot 7 of replica 1 has two entries". It is to be the next call of that replica; it may be called
 * several times. After any other call the bytes are none, or are those of an earlier one. RDS_NO_ROOM, RDS_CLOSED. */
uint32_t rds_told(rds *replica, uint8_t *room, size_t room_length, size_t *length);

/* The name of a status, as "BadKey", and what it says, as "the text is no key". Both are texts that stay, ended by a 0,
 * also for a number that is no status ("Unknown"). */
const char *rds_status_name(uint32_t status);
const char *rds_status_text(uint32_t status);

/* ---- Files ----
 *
 * The files are those of `rds_node`, and so are the rules. A file is opened under its lock (flock), which is held until
 * rds_close: meanwhile `rds_node` and other programs with this library wait for it or are refused. It is a snapshot,
 * its checksum, and behind them records of what changed since. Each keep appends a record, or writes a new file beside
 * it (FILE.new), which is synced and renamed: that is where the records would be longer than the snapshot. Where a path
 * is a symbolic link, all that is done to the file that it leads to. A system without these calls has no such files:
 * Windows isn't supported.
 *
 * A process that forks keeps the lock until the child too has ended or called exec. */

/* Opens the file at a path, and the replica in it. Nobody is waited for. Also what rds_open returns, and
 * RDS_DEVICE where it can't be opened, locked, read or synced, or its mode lets nobody write it (errno EACCES);
 * RDS_BUSY, RDS_LINKED, RDS_BESIDE, RDS_OPEN_ALREADY. */
uint32_t rds_open_file(rds_file *file, const uint8_t *path, size_t path_length);

/* Makes a file at a path, where nothing may be, for the replica in `file`, which was opened by rds_new or rds_open, and
 * locks it. RDS_EXISTS, RDS_BESIDE, RDS_BUSY, RDS_CLOSED, RDS_OPEN_ALREADY (it has a file), RDS_TOO_LONG, RDS_DEVICE,
 * RDS_MEMORY. At RDS_UNSURE the file is there, and is the replica's: call rds_keep before anything is told of it. */
uint32_t rds_make_file(rds_file *file, const uint8_t *path, size_t path_length);

/* Keeps the replica in its file: at RDS_OK all edits and takes so far outlast a crash of the machine. It costs by what
 * changed since the last keep, but where the file is written anew. The file has the mode that it had. RDS_REPLACED,
 * RDS_LINKED, RDS_TOO_LONG, RDS_DEVICE, RDS_CLOSED, RDS_MEMORY: the file holds what it did. RDS_UNSURE, where only a
 * last sync failed: it holds the replica, and may not outlast a loss of power. In each case the replica stays open, and
 * rds_keep may be called again. */
uint32_t rds_keep(rds_file *file);

/* Closes the replica and lets the file go. Edits since the last rds_keep are lost. Does nothing to what is closed. */
void rds_close(rds_file *file);

#ifdef __cplusplus
}
#endif
#endif
