/* A desk that keeps its job table open. Begins it, adds jobs U, replaces wash by one that does not undo the drench, removes warm, and adds it
 * again, in the room that is free; after each edit it plans from the table and shows which jobs clash, by the rows that the table keeps. In the
 * end it removes a job that is not there, and is refused. */
#include <stdio.h>
#include <string.h>

#include "nuzzlefleece.h"

#define FACT(n) ((uint64_t)1 << (n))

/* The table, and a name a job beside it. */
static nuzzlefleece_open_table table;
static const char *names[NUZZLEFLEECE_MOST_JOBS];

static const nuzzlefleece_action unpack = {.conditions = FACT(0), .additions = FACT(1), .deletions = FACT(0), .duration = 4};
static const nuzzlefleece_action drench = {.conditions = FACT(1), .additions = FACT(2), .duration = 2};
static const nuzzlefleece_action warm = {.conditions = FACT(1), .additions = FACT(3), .duration = 8};
static const nuzzlefleece_action wash = {.conditions = FACT(1), .additions = FACT(4), .deletions = FACT(2), .duration = 3};
static const nuzzlefleece_action dry_wash = {.conditions = FACT(1), .additions = FACT(4), .duration = 3};

static int done(nuzzlefleece_answer answer) {
    if (answer.number != NUZZLEFLEECE_DONE) {
        printf("refused %d: %s, job %d\n", answer.number, nuzzlefleece_words(answer.number), answer.place);
    }
    return answer.number == NUZZLEFLEECE_DONE;
}

static int add(const char *name, nuzzlefleece_action job) {
    nuzzlefleece_answer answer = nuzzlefleece_add(&table, job);
    if (answer.number == NUZZLEFLEECE_DONE) {
        names[answer.value] = name;
    }
    return done(answer);
}

static int replace(uint8_t job, const char *name, nuzzlefleece_action record) {
    nuzzlefleece_replacement replacement = {.job = job, .record = record};
    nuzzlefleece_answer answer = nuzzlefleece_replace(&table, replacement);
    if (answer.number == NUZZLEFLEECE_DONE) {
        names[job] = name;
    }
    return done(answer);
}

/* The later names move down with their jobs. */
static int take_out(uint8_t job) {
    nuzzlefleece_answer answer = nuzzlefleece_remove(&table, job);
    if (answer.number == NUZZLEFLEECE_DONE) {
        memmove(&names[job], &names[job + 1], (table.count - job) * sizeof names[0]);
    }
    return done(answer);
}

/* A line a job: its start in the plan and the jobs of its row. */
static void show_job(size_t job, uint16_t start) {
    printf("%d %s at %d, clashes with", (int)job, names[job], start);
    for (size_t other = 0; other < table.count; other++) {
        if (table.rows[job] >> other & 1) {
            printf(" %s", names[other]);
        }
    }
    puts(table.rows[job] == 0 ? " none" : "");
}

/* The plan at the least bound for all that the jobs behind unpack add. */
static int show(const char *edit) {
    uint16_t starts[NUZZLEFLEECE_MOST_JOBS];
    nuzzlefleece_wanted wanted = {.opening = FACT(0), .bound = NUZZLEFLEECE_MOST_BOUND};
    nuzzlefleece_answer answer;
    for (size_t job = 1; job < table.count; job++) {
        wanted.goals |= table.jobs[job].additions;
    }
    answer = nuzzlefleece_least_bound_open(&table, wanted, starts, NUZZLEFLEECE_MOST_JOBS);
    if (done(answer)) {
        printf("%s: %d jobs, least bound %d\n", edit, (int)table.count, (int)answer.value);
        for (size_t job = 0; job < table.count; job++) {
            show_job(job, starts[job]);
        }
    }
    return answer.number == NUZZLEFLEECE_DONE;
}

int main(void) {
    int fine = nuzzlefleece_version() == NUZZLEFLEECE_VERSION && done(nuzzlefleece_begin(&table, 5));
    fine = fine && add("unpack", unpack) && add("drench", drench) && add("warm", warm) && add("wash", wash) && show("jobs U");
    fine = fine && replace(3, "dry-wash", dry_wash) && show("another wash");
    fine = fine && take_out(2) && show("warm removed");
    fine = fine && add("warm", warm) && show("warm added again");
    return !fine || take_out(4);
}
