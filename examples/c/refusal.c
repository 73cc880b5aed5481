/* Follows refusals: an offered plan is mended job by job as the checks say, and a bound that is too short is widened. */
#include <stdio.h>

#include "nuzzlefleece.h"

#define FACT(n) ((uint64_t)1 << (n))

static const char *const names[] = {"unpack", "drench", "warm", "wash"};
static const char *const facts[] = {"packed", "unpacked", "drenched", "warm", "washed"};

static const nuzzlefleece_action jobs[] = {
    {.conditions = FACT(0), .additions = FACT(1), .deletions = FACT(0), .duration = 4},
    {.conditions = FACT(1), .additions = FACT(2), .duration = 2},
    {.conditions = FACT(1), .additions = FACT(3), .duration = 8},
    {.conditions = FACT(1), .additions = FACT(4), .deletions = FACT(2), .duration = 3},
};

/* The number and the place of a refusal in words, and the fact of an overlap. */
static void explain(nuzzlefleece_answer answer) {
    switch (answer.number) {
    case NUZZLEFLEECE_OVERLAP:
        printf("%s overlaps a job that it interferes with, over %s\n", names[answer.place], facts[answer.second]);
        break;
    case NUZZLEFLEECE_CONDITION_MISSING:
        printf("%s lacks a condition at its start\n", names[answer.place]);
        break;
    default:
        printf("refused %d %d: %s\n", answer.number, answer.place, nuzzlefleece_words(answer.number));
    }
}

/* Starts a job a quarter hour later as long as the checks name it; 0 once the plan is valid. */
static int mend(nuzzlefleece_ask ask, uint16_t *starts) {
    nuzzlefleece_answer answer = nuzzlefleece_check_plan(jobs, 4, ask, starts, 4);
    while (answer.number == NUZZLEFLEECE_OVERLAP || answer.number == NUZZLEFLEECE_CONDITION_MISSING) {
        printf("with %s at %d: ", names[answer.place], starts[answer.place]);
        explain(answer);
        starts[answer.place]++;
        answer = nuzzlefleece_check_plan(jobs, 4, ask, starts, 4);
    }
    if (answer.number != NUZZLEFLEECE_DONE) {
        explain(answer);
    }
    return answer.number;
}

int main(void) {
    if (nuzzlefleece_version() != NUZZLEFLEECE_VERSION) {
        puts("header and library are of two versions");
        return 1;
    }
    nuzzlefleece_ask ask = {.jobs = 4, .atoms = 5, .opening = FACT(0), .goals = FACT(2) | FACT(3) | FACT(4), .bound = 12};
    uint16_t starts[4] = {0, 5, 4, 4};
    nuzzlefleece_answer answer;

    if (mend(ask, starts) == NUZZLEFLEECE_DONE) {
        printf("valid with drench at %d\n", starts[1]);
    }
    for (ask.bound = 10; ask.bound <= 12; ask.bound++) {
        answer = nuzzlefleece_plan_within(jobs, 4, ask, starts, 4);
        printf("within %d: ", ask.bound);
        if (answer.number == NUZZLEFLEECE_DONE) {
            printf("drench starts at %d\n", starts[1]);
        } else {
            explain(answer);
        }
    }
    return 0;
}
