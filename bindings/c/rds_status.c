/* What a status is, in words: those that the program has for the faults (crates/rds_names/src/fault.rt). */
#include "rds.h"

typedef struct words {
    const char *name;
    const char *text;
} words;

/* Those of the faults, by their numbers. */
static const words FAULTS[] = {
    {"Ok", "the call was done"},
    {"Memory", "there was no memory left"},
    {"BadName", "the text is no name of a replica"},
    {"BadKey", "the text is no key"},
    {"BadPath", "the path has more than 8 keys, or none where one is needed"},
    {"BadScalar", "the value is none that a leaf may hold"},
    {"BadRoster", "the roster has no name, more than 256 or one twice, or lacks a number"},
    {"SeqFull", "the replica has used its last dot"},
    {"CounterFull", "the counter's number would pass its limit"},
    {"Conflict", "a dot has two entries"},
    {"OwnAhead", "something of the replica's own isn't known to it"},
    {"WrongAsker", "the answer was made for another replica"},
    {"Cut", "the bytes end too early"},
    {"Bad", "the bytes are no text"},
    {"Extra", "more bytes follow a whole text"},
    {"TooLong", "the text or the line is longer than its limit"},
    {"TooManyDots", "the set of dots is larger than its limit"},
    {"BadCertificate", "the certificate of the delta doesn't hold"},
    {"WrongVersion", "the peer speaks another version"},
    {"WrongGroup", "the replicas are of different groups"},
    {"WrongRoster", "the replicas have different rosters"},
    {"SameReplica", "both ends are the same replica"},
    {"OutOfTurn", "the peer sent another message than the one awaited"},
    {"PeerEnded", "the peer ended before the exchange was done"},
    {"Device", "reading, writing or another call of the system failed"},
    {"BadLine", "the line is no command"},
    {"NoSuch", "there is no such replica, ask or answer"},
    {"Usage", "the words of the command line are none that the program takes"},
    {"Forked", "both ends have seen the same, and hold different entries"},
    {"Unsure", "it is written, and may not last: read before you repeat"},
};

/* Those of the header's own, from RDS_CLOSED on. */
static const words OWN[] = {
    {"Closed", "the replica isn't open, or has no file"},
    {"OpenAlready", "the replica or the file is open already"},
    {"NoRoom", "the bytes don't fit into the room"},
    {"NotUtf8", "the text isn't UTF-8"},
    {"Busy", "another program has the file"},
    {"Linked", "the file has several names"},
    {"Replaced", "another file, or none, is at the path by now"},
    {"Exists", "something is at the path already"},
    {"Beside", "the path ends in .new, as of a file that is written beside another"},
};

static const words UNKNOWN = {"Unknown", "the number is no status"};

static const words *words_of(uint32_t status) {
    if (status < sizeof FAULTS / sizeof *FAULTS)
        return &FAULTS[status];
    if (status >= RDS_CLOSED && status - RDS_CLOSED < sizeof OWN / sizeof *OWN)
        return &OWN[status - RDS_CLOSED];
    return &UNKNOWN;
}

const char *rds_status_name(uint32_t status) {
    return words_of(status)->name;
}

const char *rds_status_text(uint32_t status) {
    return words_of(status)->text;
}
