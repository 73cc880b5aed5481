/* The acclimatisation desk enters batches by their house groups, 7, 7 and 1, and asks by when all is done at the earliest. Prints the plan by
 * start, each job with its batch and its stage. In the end a group is entered that there is not, then one batch too many: both are refused. */
#include <stdio.h>

#include "nuzzlefleece.h"

#define FACT(n) ((uint64_t)1 << (n))

static int refused(nuzzlefleece_answer answer) {
    printf("refused %d %d: %s\n", answer.number, answer.place, nuzzlefleece_words(answer.number));
    return 1;
}

/* A job's batch and stage, by its done fact: a batch ends at its goal. */
static void print_stage(uint64_t goals, uint64_t done) {
    char batch = 'a';
    unsigned stage = 1;
    for (uint64_t fact = FACT(1); fact != done; fact <<= 1) {
        stage++;
        if (goals & fact) {
            batch++;
            stage = 1;
        }
    }
    printf("batch %c, stage %u", batch, stage);
}

/* A line: when a job starts and is finished, and what it is. A clearing job adds the bay, which is fact 0. */
static void print_job(nuzzlefleece_action job, uint64_t goals, unsigned start) {
    int clears = job.additions == FACT(0);
    printf("%u to %u: ", start, start + job.duration);
    print_stage(goals, clears ? job.conditions : job.additions);
    puts(clears ? ", the bay is cleared" : job.deletions & FACT(0) ? ", in the bay" : "");
}

/* The jobs of the plan in the order of their starts. */
static void print_plan(const nuzzlefleece_action *jobs, nuzzlefleece_ask ask, const uint16_t *starts) {
    for (unsigned time = 0; time < ask.bound; time++) {
        for (size_t job = 0; job < ask.jobs; job++) {
            if (starts[job] == time) {
                print_job(jobs[job], ask.goals, time);
            }
        }
    }
}

/* Expands the batches, sets the bound, and plans. */
static nuzzlefleece_answer plan_batches(const uint8_t *groups, size_t batches) {
    nuzzlefleece_action jobs[NUZZLEFLEECE_MOST_JOBS];
    uint16_t starts[NUZZLEFLEECE_MOST_JOBS];
    nuzzlefleece_batch_answer told = nuzzlefleece_batches(groups, batches, jobs, NUZZLEFLEECE_MOST_JOBS);
    nuzzlefleece_ask ask = {.jobs = told.jobs, .atoms = told.atoms, .opening = told.opening, .goals = told.goals, .bound = 2880};
    nuzzlefleece_answer answer = told.answer;
    if (answer.number == NUZZLEFLEECE_DONE) {
        answer = nuzzlefleece_least_bound(jobs, NUZZLEFLEECE_MOST_JOBS, ask, starts, NUZZLEFLEECE_MOST_JOBS);
    }
    if (answer.number == NUZZLEFLEECE_DONE) {
        printf("%u jobs, all is done after %u quarter hours\n", (unsigned)ask.jobs, (unsigned)answer.value);
        print_plan(jobs, ask, starts);
    }
    return answer;
}

int main(void) {
    if (nuzzlefleece_version() != NUZZLEFLEECE_VERSION) {
        puts("header and library are of two versions");
        return 1;
    }
    static const uint8_t groups[] = {7, 7, 1}, unknown[] = {7, 12, 1}, many[] = {7, 7, 1, 1, 1};
    nuzzlefleece_answer answer = plan_batches(groups, sizeof groups);
    if (answer.number != NUZZLEFLEECE_DONE) {
        return refused(answer);
    }
    answer = plan_batches(unknown, sizeof unknown);
    refused(answer);
    if (answer.number != NUZZLEFLEECE_GROUP_UNKNOWN) {
        return 1;
    }
    answer = plan_batches(many, sizeof many);
    refused(answer);
    return answer.number != NUZZLEFLEECE_TOO_MANY_BATCHES;
}
