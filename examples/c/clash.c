/* Says of each two jobs of a bench, and of a trolley, why they clash and over which fact. */
#include <stdio.h>

#include "nuzzlefleece.h"

#define FACT(n) ((uint64_t)1 << (n))

/* Four jobs, and the names of the facts and of the jobs. */
typedef struct job_table {
    const char *facts[5];
    const char *names[4];
    nuzzlefleece_action jobs[4];
} job_table;

static const job_table bench = {
    {"packed", "unpacked", "drenched", "warm", "washed"},
    {"unpack", "drench", "warm", "wash"},
    {
        {.conditions = FACT(0), .additions = FACT(1), .deletions = FACT(0), .duration = 4},
        {.conditions = FACT(1), .additions = FACT(2), .duration = 2},
        {.conditions = FACT(1), .additions = FACT(3), .duration = 8},
        {.conditions = FACT(1), .additions = FACT(4), .deletions = FACT(2), .duration = 3},
    },
};

static const job_table trolley = {
    {"here", "there", "dropped", "picked", ""},
    {"go", "back", "drop", "pick"},
    {
        {.conditions = FACT(0), .additions = FACT(1), .deletions = FACT(0), .duration = 1},
        {.conditions = FACT(1), .additions = FACT(0), .deletions = FACT(1), .duration = 1},
        {.conditions = FACT(1), .additions = FACT(2), .duration = 1},
        {.conditions = FACT(0) | FACT(2), .additions = FACT(3), .duration = 1},
    },
};

/* A line on two jobs; the fact of jobs that do not clash has no name. */
static void explain(const job_table *table, size_t one, size_t other) {
    nuzzlefleece_clash clash = nuzzlefleece_why_clash(table->jobs[one], table->jobs[other]);
    printf("%s and %s: ", table->names[one], table->names[other]);
    switch (clash.kind) {
    case NUZZLEFLEECE_CLASH_CONDITION:
        printf("a condition, one deletes what the other needs: fact %d, %s\n", clash.fact, table->facts[clash.fact]);
        break;
    case NUZZLEFLEECE_CLASH_ADDITION:
        printf("an addition, one deletes what the other adds: fact %d, %s\n", clash.fact, table->facts[clash.fact]);
        break;
    default:
        puts("none");
    }
}

static void explain_all(const job_table *table) {
    for (size_t one = 0; one < 4; one++) {
        for (size_t other = one + 1; other < 4; other++) {
            explain(table, one, other);
        }
    }
}

int main(void) {
    if (nuzzlefleece_version() != NUZZLEFLEECE_VERSION) {
        puts("header and library are of two versions");
        return 1;
    }
    explain_all(&bench);
    explain_all(&trolley);
    return 0;
}
