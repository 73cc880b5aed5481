/* Answers a dispatcher: how late can it get? Plans P3 by either rule and says of each job when it is finished if nothing runs over, then within
 * which time all is finished if no job runs over, and if each does by up to 1, 4 or 96 quarter hours. In the end he asks for 97 and is refused. */
#include <stdio.h>

#include "nuzzlefleece.h"

#define FACT(n) ((uint64_t)1 << (n))

static const char *const names[] = {"unpack", "drench", "warm", "wash"};

static const nuzzlefleece_action jobs[] = {
    {.conditions = FACT(0), .additions = FACT(1), .deletions = FACT(0), .duration = 4},
    {.conditions = FACT(1), .additions = FACT(2), .duration = 2},
    {.conditions = FACT(1), .additions = FACT(3), .duration = 8},
    {.conditions = FACT(1), .additions = FACT(4), .deletions = FACT(2), .duration = 3},
};

static int refused(nuzzlefleece_answer answer) {
    printf("refused %d %d: %s\n", answer.number, answer.place, nuzzlefleece_words(answer.number));
    return 1;
}

static void print_count(unsigned count, const char *what) {
    printf(" %u %s%s", count, what, count == 1 ? "" : "s");
}

/* The end of a line: so many quarter hours from the start, in hours and quarters. */
static void print_time(unsigned quarters) {
    print_count(quarters / 4, "hour");
    if (quarters % 4 != 0) {
        print_count(quarters % 4, "quarter");
    }
    puts("");
}

/* A line a job: when it is finished at the least starts that the plan's binding pairs allow. */
static nuzzlefleece_answer print_settled(nuzzlefleece_ask ask, const uint16_t *starts) {
    uint8_t pairs[NUZZLEFLEECE_PAIRS_BYTES];
    uint16_t settled[4];
    nuzzlefleece_answer answer = nuzzlefleece_binding_pairs(jobs, 4, ask, starts, 4, pairs, sizeof pairs);
    ask.pairs = answer.value;
    for (size_t job = 0; job < 4; job++) {
        ask.set |= starts[job] == NUZZLEFLEECE_OUT ? 0 : (uint64_t)1 << job;
    }
    if (answer.number == NUZZLEFLEECE_DONE) {
        answer = nuzzlefleece_settle(jobs, 4, ask, pairs, sizeof pairs, settled, 4);
    }
    for (size_t job = 0; job < 4 && answer.number == NUZZLEFLEECE_DONE; job++) {
        if (settled[job] != NUZZLEFLEECE_OUT) {
            printf("%s is finished after", names[job]);
            print_time(settled[job] + jobs[job].duration);
        }
    }
    return answer;
}

/* A line: within which time all is finished if each job runs over by up to so many quarter hours; its end is left to a refusal. */
static nuzzlefleece_answer print_late(nuzzlefleece_ask ask, const uint16_t *starts, uint16_t most) {
    nuzzlefleece_overruns overruns = {.ask = ask, .most = most};
    nuzzlefleece_answer answer = nuzzlefleece_how_late(jobs, 4, overruns, starts, 4);
    printf("each job up to");
    print_count(most, "quarter hour");
    printf(" over: ");
    if (answer.number == NUZZLEFLEECE_DONE) {
        printf("all is finished within");
        print_time(answer.value);
    }
    return answer;
}

/* Plans P3 by the rule of the atom count and tells of the plan. */
static nuzzlefleece_answer print_plan(nuzzlefleece_ask ask, uint16_t *starts) {
    static const uint16_t overruns[] = {0, 1, 4, NUZZLEFLEECE_MOST_OVERRUN};
    nuzzlefleece_answer answer = nuzzlefleece_least_bound(jobs, 4, ask, starts, 4);
    if (answer.number == NUZZLEFLEECE_DONE) {
        answer = print_settled(ask, starts);
    }
    for (size_t i = 0; i < sizeof overruns / sizeof overruns[0] && answer.number == NUZZLEFLEECE_DONE; i++) {
        answer = print_late(ask, starts, overruns[i]);
    }
    return answer;
}

int main(void) {
    if (nuzzlefleece_version() != NUZZLEFLEECE_VERSION) {
        puts("header and library are of two versions");
        return 1;
    }
    static const uint8_t atoms[] = {5, 5 + NUZZLEFLEECE_RULE_2};
    nuzzlefleece_ask ask = {.jobs = 4, .opening = FACT(0), .goals = FACT(2) | FACT(3) | FACT(4), .bound = 2880};
    nuzzlefleece_answer answer;
    uint16_t starts[4];
    for (int rule = 0; rule < 2; rule++) {
        printf("rule %d\n", rule + 1);
        ask.atoms = atoms[rule];
        answer = print_plan(ask, starts);
        if (answer.number != NUZZLEFLEECE_DONE) {
            return refused(answer);
        }
    }
    answer = print_late(ask, starts, NUZZLEFLEECE_MOST_OVERRUN + 1);
    refused(answer);
    return answer.number != NUZZLEFLEECE_OVERRUN_WRONG;
}
