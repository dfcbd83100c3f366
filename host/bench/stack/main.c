/* Prints the stack of each call as a table in Markdown, or, with --check, whether each call keeps its bound. */
#include <stdio.h>
#include <string.h>

#include "rows.h"

/* What a call may take: request L5 of document 02, which salvage keeps too, and what those below it take (DECISIONS 93, 167). The calls of rds.h have no bound. */
static const struct {
    const char *name;
    size_t bound;
} calls[] = {
    { "wtp_table_bytes", 8 }, { "wtp_fresh", 40 }, { "wtp_read", 1024 }, { "wtp_write", 1024 }, { "wtp_separate", 40 },
    { "wtp_join", 96 }, { "wtp_request", 1024 }, { "wtp_answer", 1024 }, { "wtp_result", 1024 }, { "wtp_abort", 1024 },
    { "wtp_receive", 1024 }, { "wtp_timer", 1024 }, { "wtp_fire", 1024 }, { "wtp_deadline", 272 },
    { "wtp_salvage", 1024 },
    { "wtp_read_part", 1024 }, { "wtp_data", 56 },
};

#define CALLS (sizeof calls / sizeof calls[0])

/* A line a call, and last their count: whether all keep their bounds. */
static int all_keep(void)
{
    size_t good = 0;
    for (size_t k = 0; k < CALLS; k++) {
        size_t reached = most(calls[k].name);
        int keeps = reached > 0 && reached <= calls[k].bound;
        printf("%s: %s takes %s octets of stack", keeps ? "ok" : "FAILED", calls[k].name, thousands(reached));
        printf(", %s at most\n", thousands(calls[k].bound));
        good += keeps;
    }
    printf("%zu passed, %zu failed\n", good, CALLS - good);
    return good == CALLS;
}

int main(int count, char **arguments)
{
    int checks = count == 2 && strcmp(arguments[1], "--check") == 0;
    rows_shown = !checks;
    if (rows_shown)
        puts("| Call | Input | Octets |\n|---|---|---:|");
    codec_rows();
    user_rows();
    receive_rows();
    timer_rows();
    salvage_rows();
    if (rows_shown)
        rds_rows();
    return checks && !all_keep();
}
