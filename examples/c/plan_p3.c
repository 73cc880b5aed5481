/* Plans the four jobs of the scope's example P3 and prints the plan and the pairs whose order binds. */
#include <stdio.h>

#include "nuzzlefleece.h"

#define FACT(n) ((uint64_t)1 << (n))

static const char *const names[] = {"unpack", "drench", "warm", "wash"};

static const nuzzlefleece_action jobs[] = {
    {.conditions = FACT(0), .additions = FACT(1), .deletions = FACT(0), .duration = 4},
    {.conditions = FACT(1), .additions = FACT(2), .duration = 2},
    {.conditions = FACT(1), .additions = FACT(3), .duration = 8},
    {.conditions = FACT(1), .additions = FACT(4), .deletions = FACT(2), .duration = 3},
};

/* A line a job: when it starts and finishes, or that it is out. */
static void print_plan(const uint16_t *starts, size_t count) {
    for (size_t job = 0; job < count; job++) {
        if (starts[job] == NUZZLEFLEECE_OUT) {
            printf("%s is out\n", names[job]);
        } else {
            printf("%s from %d to %d\n", names[job], starts[job], starts[job] + jobs[job].duration);
        }
    }
}

static int refused(nuzzlefleece_answer answer) {
    printf("refused %d %d: %s\n", answer.number, answer.place, nuzzlefleece_words(answer.number));
    return 1;
}

int main(void) {
    if (nuzzlefleece_version() != NUZZLEFLEECE_VERSION) {
        puts("header and library are of two versions");
        return 1;
    }
    nuzzlefleece_ask ask = {.jobs = 4, .atoms = 5, .opening = FACT(0), .goals = FACT(2) | FACT(3) | FACT(4), .bound = 2880};
    uint16_t starts[4] = {0};
    uint8_t pairs[NUZZLEFLEECE_PAIRS_BYTES] = {0};

    nuzzlefleece_answer answer = nuzzlefleece_least_bound(jobs, 4, ask, starts, 4);
    if (answer.number != NUZZLEFLEECE_DONE) {
        return refused(answer);
    }
    printf("least bound %d\n", (int)answer.value);
    print_plan(starts, 4);

    ask.bound = (uint16_t)answer.value;
    answer = nuzzlefleece_binding_pairs(jobs, 4, ask, starts, 4, pairs, sizeof pairs);
    if (answer.number != NUZZLEFLEECE_DONE) {
        return refused(answer);
    }
    for (size_t pair = 0; pair < answer.value; pair++) {
        printf("%s before %s\n", names[pairs[2 * pair]], names[pairs[2 * pair + 1]]);
    }
    return 0;
}
