/* The research partner sends and takes plans as text, a line a step. Writes P3's plan; then takes the plan of another planner, which writes no
 * zeros and has its lines in an order of its own, checks it, and says of a text that is refused in which line, and of a plan by which job. */
#include <stdio.h>

#include "nuzzlefleece.h"

#define FACT(n) ((uint64_t)1 << (n))

enum { JOBS = 4, ROOM = JOBS * NUZZLEFLEECE_LINE_BYTES };

/* A name a job, zeros behind it. */
static const uint8_t names[JOBS][NUZZLEFLEECE_NAME_BYTES] = {"unpack", "drench", "warm", "wash"};

static const nuzzlefleece_action jobs[JOBS] = {
    {.conditions = FACT(0), .additions = FACT(1), .deletions = FACT(0), .duration = 4},
    {.conditions = FACT(1), .additions = FACT(2), .duration = 2},
    {.conditions = FACT(1), .additions = FACT(3), .duration = 8},
    {.conditions = FACT(1), .additions = FACT(4), .deletions = FACT(2), .duration = 3},
};
static const nuzzlefleece_ask ask = {.jobs = JOBS, .atoms = 5, .opening = FACT(0), .goals = FACT(2) | FACT(3) | FACT(4), .bound = 12};

/* The least bound, and the text of its plan; no zero byte ends it. */
static nuzzlefleece_answer write_ours(void) {
    uint8_t text[ROOM];
    uint16_t starts[JOBS];
    nuzzlefleece_answer answer = nuzzlefleece_least_bound(jobs, JOBS, ask, starts, JOBS);
    if (answer.number == NUZZLEFLEECE_DONE) {
        answer = nuzzlefleece_write_text(jobs, JOBS, ask, names[0], sizeof names, starts, JOBS, text, sizeof text);
    }
    if (answer.number == NUZZLEFLEECE_DONE) {
        printf("%u bytes:\n", (unsigned)answer.value);
        fwrite(text, 1, answer.value, stdout);
    }
    return answer;
}

/* Reads a text, and checks the plan read, which reading does not. */
static nuzzlefleece_answer take_theirs(const char *text, size_t length) {
    uint16_t starts[JOBS];
    nuzzlefleece_answer answer = nuzzlefleece_read_text(jobs, JOBS, ask, names[0], sizeof names, (const uint8_t *)text, length, starts, JOBS);
    if (answer.number != NUZZLEFLEECE_DONE) {
        printf("refused %d: %s, in line %d from 0\n", answer.number, nuzzlefleece_words(answer.number), answer.place);
        return answer;
    }
    answer = nuzzlefleece_check_plan(jobs, JOBS, ask, starts, JOBS);
    if (answer.number == NUZZLEFLEECE_DONE) {
        printf("valid, drench starts at %d\n", starts[1]);
    } else {
        printf("refused %d: %s, job %d\n", answer.number, nuzzlefleece_words(answer.number), answer.place);
    }
    return answer;
}

int main(void) {
    static const char theirs[] = "7: (drench) [2]\n4: (wash) [3]\n0: (unpack) [4]\n4: (warm) [8]\n";
    static const char too_near[] = "0.0: (unpack) [4.0]\n4.0: (wash) [3.0]\n4.0: (warm) [8.0]\n6.0: (drench) [2.0]\n";
    static const char unknown[] = "0: (unpack) [4]\n4: (warm) [8]\n4: (rinse) [3]\n";
    if (nuzzlefleece_version() != NUZZLEFLEECE_VERSION) {
        puts("header and library are of two versions");
        return 1;
    }
    return write_ours().number != NUZZLEFLEECE_DONE || take_theirs(theirs, sizeof theirs - 1).number != NUZZLEFLEECE_DONE
        || take_theirs(too_near, sizeof too_near - 1).number != NUZZLEFLEECE_OVERLAP
        || take_theirs(unknown, sizeof unknown - 1).number != NUZZLEFLEECE_NAME_UNKNOWN;
}
