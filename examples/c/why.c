/* Answers a dispatcher. Why does this job start at seven? Plans P3, settles the jobs of the plan by its binding pairs and shows of each the chain
 * of jobs that its start follows from. And why is there no plan? Asks it of a bound one too small, of a goal that no job adds, and of two goals
 * that exclude each other, where the estimates have no answer. */
#include <stdio.h>

#include "nuzzlefleece.h"

#define FACT(n) ((uint64_t)1 << (n))

static const char *const names[] = {"unpack", "drench", "warm", "wash"};
static const char *const facts[] = {"packed", "unpacked", "drenched", "warm", "washed", "labelled"};

static const nuzzlefleece_action jobs[] = {
    {.conditions = FACT(0), .additions = FACT(1), .deletions = FACT(0), .duration = 4},
    {.conditions = FACT(1), .additions = FACT(2), .duration = 2},
    {.conditions = FACT(1), .additions = FACT(3), .duration = 8},
    {.conditions = FACT(1), .additions = FACT(4), .deletions = FACT(2), .duration = 3},
};

static uint16_t starts[4];
static uint8_t pairs[NUZZLEFLEECE_PAIRS_BYTES];

static int refused(nuzzlefleece_answer answer) {
    printf("refused %d %d: %s\n", answer.number, answer.place, nuzzlefleece_words(answer.number));
    return 1;
}

/* Plans within the least bound, and settles the jobs of the plan by the pairs that bind it: the ask is then that of the settling. */
static nuzzlefleece_answer plan_and_settle(nuzzlefleece_ask *ask) {
    nuzzlefleece_answer answer = nuzzlefleece_least_bound(jobs, 4, *ask, starts, 4);
    if (answer.number != NUZZLEFLEECE_DONE) {
        return answer;
    }
    ask->bound = (uint16_t)answer.value;
    for (size_t job = 0; job < 4; job++) {
        ask->set |= starts[job] == NUZZLEFLEECE_OUT ? 0 : (uint64_t)1 << job;
    }
    answer = nuzzlefleece_binding_pairs(jobs, 4, *ask, starts, 4, pairs, sizeof pairs);
    ask->pairs = answer.value;
    return answer.number == NUZZLEFLEECE_DONE ? nuzzlefleece_settle(jobs, 4, *ask, pairs, sizeof pairs, starts, 4) : answer;
}

/* A line: when a job starts, and the jobs that this follows from, one behind the other. */
static int explain_start(nuzzlefleece_ask ask, uint8_t job) {
    uint8_t chain[4];
    nuzzlefleece_question question = {.ask = ask, .job = job};
    nuzzlefleece_answer answer = nuzzlefleece_why_start(jobs, 4, question, pairs, sizeof pairs, chain, sizeof chain);
    if (answer.number != NUZZLEFLEECE_DONE) {
        return refused(answer);
    }
    printf("%s starts at %d: %s at its release %d", names[job], starts[job], names[chain[0]], starts[chain[0]]);
    for (size_t at = 1; at < answer.value; at++) {
        printf(", then %s at %d", names[chain[at]], starts[chain[at]]);
    }
    puts("");
    return 0;
}

/* A line: what the estimates say against a plan, where there is none. What planning takes is not refused here. */
static int explain_no_plan(nuzzlefleece_ask ask) {
    nuzzlefleece_answer answer = nuzzlefleece_plan_within(jobs, 4, ask, starts, 4);
    nuzzlefleece_reason reason = nuzzlefleece_why_no_plan(jobs, 4, ask);
    if (answer.number == NUZZLEFLEECE_DONE) {
        printf("a plan within %d\n", ask.bound);
        return 0;
    }
    if (answer.number != NUZZLEFLEECE_NO_PLAN) {
        return refused(answer);
    }
    printf("no plan within %d: ", ask.bound);
    if (reason.kind == NUZZLEFLEECE_WHY_NEVER) {
        printf("%s is never reachable\n", facts[reason.fact]);
    } else if (reason.kind == NUZZLEFLEECE_WHY_TOO_DEAR) {
        printf("%s costs more than that\n", facts[reason.fact]);
    } else {
        puts("no goal by itself is the reason");
    }
    return 0;
}

int main(void) {
    if (nuzzlefleece_version() != NUZZLEFLEECE_VERSION) {
        puts("header and library are of two versions");
        return 1;
    }
    nuzzlefleece_ask ask = {.jobs = 4, .atoms = 6, .opening = FACT(0), .goals = FACT(2) | FACT(3) | FACT(4), .bound = 2880};
    nuzzlefleece_answer answer = plan_and_settle(&ask);
    if (answer.number != NUZZLEFLEECE_DONE) {
        return refused(answer);
    }
    printf("least bound %d\n", ask.bound);
    int failed = 0;
    for (uint8_t job = 0; job < 4; job++) {
        failed |= explain_start(ask, job);
    }

    ask.bound--;
    failed |= explain_no_plan(ask);
    ask.bound = 2880;
    ask.goals = FACT(2) | FACT(5);
    failed |= explain_no_plan(ask);
    ask.goals = FACT(0) | FACT(1);
    failed |= explain_no_plan(ask);
    return failed;
}
