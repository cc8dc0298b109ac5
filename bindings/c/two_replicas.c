/* Two replicas are edited apart, and the store takes what it lacks of the shop. */
#include "rds.h"

#include <stdio.h>
#include <stdlib.h>

#define ROSTER "[\"roster\",\"inventory\",\"shop\",\"store\"]"

static void need(uint32_t status, const char *call) {
    if (status == RDS_OK)
        return;
    fprintf(stderr, "%s: %s: %s\n", call, rds_status_name(status), rds_status_text(status));
    exit(1);
}

/* One replica takes what it lacks of another: its question goes there, and the answer comes back. */
static void pull(rds *mine, rds *theirs) {
    uint8_t question[4096], answer[4096];
    size_t asked, answered;
    uint64_t taken;
    need(rds_ask(mine, question, sizeof question, &asked), "rds_ask");
    need(rds_answer(theirs, question, asked, answer, sizeof answer, &answered), "rds_answer");
    need(rds_take(mine, question, asked, answer, answered, &taken), "rds_take");
}

static void show(rds *replica) {
    uint8_t text[4096];
    size_t length;
    need(rds_view(replica, RDS_TEXT(""), text, sizeof text, &length), "rds_view");
    printf("%.*s\n", (int)length, (const char *)text);
}

int main(void) {
    rds shop = RDS_CLOSED_REPLICA, store = RDS_CLOSED_REPLICA;
    rds_edited edited;

    need(rds_new(&shop, RDS_TEXT(ROSTER), 0), "rds_new");
    need(rds_new(&store, RDS_TEXT(ROSTER), 1), "rds_new");
    need(rds_add_text(&shop, RDS_TEXT("apples/tags"), RDS_TEXT("red"), &edited), "rds_add_text");
    need(rds_inc(&store, RDS_TEXT("apples"), 10, &edited), "rds_inc");

    pull(&store, &shop);
    show(&store);

    rds_free(&shop);
    rds_free(&store);
    return 0;
}
