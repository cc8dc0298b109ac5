/* Replicas on several threads: one that all edit by turns, under a lock, and one of each thread's own that takes what
 * the shared one has. The shared one is opened on one thread, used on others, and freed on yet another. */
#include "rds.h"

#include <pthread.h>
#include <stdio.h>
#include <stdlib.h>
#include <string.h>

enum { THREADS = 4, TIMES = 200, ROOM = 1 << 16 };

static rds shared = RDS_CLOSED_REPLICA;
static pthread_mutex_t turn = PTHREAD_MUTEX_INITIALIZER;

static void need(uint32_t status, const char *call) {
    if (status == RDS_OK)
        return;
    fprintf(stderr, "%s: %s\n", call, rds_status_name(status));
    exit(1);
}

static void open_replica(rds *replica, uint8_t own) {
    need(rds_new(replica, RDS_TEXT("[\"roster\",\"g\",\"shared\",\"a\",\"b\",\"c\",\"d\"]"), own), "rds_new");
}

static void *open_shared(void *nothing) {
    open_replica(&shared, 0);
    return nothing;
}

static void *free_shared(void *nothing) {
    rds_free(&shared);
    return nothing;
}

/* A replica takes what it lacks of the shared one, which others use meanwhile. */
static void pull(rds *mine, uint8_t *question, uint8_t *answer) {
    size_t asked, answered;
    uint64_t taken;
    need(rds_ask(mine, question, ROOM, &asked), "rds_ask");
    pthread_mutex_lock(&turn);
    need(rds_answer(&shared, question, asked, answer, ROOM, &answered), "rds_answer");
    pthread_mutex_unlock(&turn);
    need(rds_take(mine, question, asked, answer, answered, &taken), "rds_take");
}

static void *edit(void *number) {
    uint8_t own = (uint8_t)(uintptr_t)number;
    uint8_t *question = malloc(ROOM), *answer = malloc(ROOM);
    rds mine = RDS_CLOSED_REPLICA;
    rds_edited edited;
    if (question == NULL || answer == NULL)
        exit(1);
    open_replica(&mine, own);
    for (int at = 0; at < TIMES; at++) {
        pthread_mutex_lock(&turn);
        need(rds_inc(&shared, RDS_TEXT("n"), 1, &edited), "rds_inc");
        need(rds_add_text(&shared, RDS_TEXT("a/tags"), RDS_TEXT("red"), &edited), "rds_add_text");
        pthread_mutex_unlock(&turn);
        need(rds_set_int(&mine, RDS_TEXT("k"), at, &edited), "rds_set_int");
        if (at % 20 == 0)
            pull(&mine, question, answer);
    }
    rds_free(&mine);
    free(question);
    free(answer);
    return NULL;
}

static void *show(void *nothing) {
    char text[4096];
    size_t length;
    need(rds_get(&shared, RDS_TEXT("n"), (uint8_t *)text, sizeof text - 1, &length), "rds_get");
    text[length] = 0;
    printf("%s\n", text);
    return nothing;
}

/* Does a work on a thread of its own, and waits for its end. */
static void alone(void *(*work)(void *)) {
    pthread_t thread;
    if (pthread_create(&thread, NULL, work, NULL) != 0 || pthread_join(thread, NULL) != 0)
        exit(1);
}

int main(void) {
    pthread_t threads[THREADS];
    alone(open_shared);
    for (uintptr_t at = 0; at < THREADS; at++)
        if (pthread_create(&threads[at], NULL, edit, (void *)(at + 1)) != 0)
            exit(1);
    for (int at = 0; at < THREADS; at++)
        pthread_join(threads[at], NULL);
    alone(show);
    alone(free_shared);
    return 0;
}
