/* Saves the four jobs of P3 until the file is full, tidies it, and saves once more. */
#include <stdio.h>

#include "nuzzlefleece.h"

#define FACT(n) ((uint64_t)1 << (n))

static const nuzzlefleece_action jobs[] = {
    {.conditions = FACT(0), .additions = FACT(1), .deletions = FACT(0), .duration = 4},
    {.conditions = FACT(1), .additions = FACT(2), .duration = 2},
    {.conditions = FACT(1), .additions = FACT(3), .duration = 8},
    {.conditions = FACT(1), .additions = FACT(4), .deletions = FACT(2), .duration = 3},
};

/* The buffer, and how many of its bytes are the file. */
static uint8_t buffer[NUZZLEFLEECE_MOST_FILE];
static size_t used;

/* One save more; the answer has the new length. */
static nuzzlefleece_answer append(void) {
    nuzzlefleece_save save = {
        .ask = {.jobs = 4, .atoms = 5, .opening = FACT(0), .goals = FACT(2) | FACT(3) | FACT(4), .bound = 2880},
        .used = used,
    };
    nuzzlefleece_answer answer = nuzzlefleece_write_file(jobs, 4, save, buffer, sizeof buffer);
    if (answer.number == NUZZLEFLEECE_DONE) {
        used = answer.value;
    }
    return answer;
}

static int refused(nuzzlefleece_answer answer) {
    printf("refused %d %d: %s\n", answer.number, answer.place, nuzzlefleece_words(answer.number));
    return 1;
}

int main(void) {
    if (nuzzlefleece_version() != NUZZLEFLEECE_VERSION) {
        puts("header and library are of two versions");
        return 1;
    }
    nuzzlefleece_answer answer = append();
    int saves = 0;
    while (answer.number == NUZZLEFLEECE_DONE) {
        saves++;
        answer = append();
    }
    printf("%d saves, %d bytes\n", saves, (int)used);
    refused(answer);

    answer = nuzzlefleece_tidy(used, buffer, sizeof buffer);
    if (answer.number != NUZZLEFLEECE_DONE) {
        return refused(answer);
    }
    used = answer.value;
    printf("tidied: %d bytes\n", (int)used);

    answer = append();
    if (answer.number != NUZZLEFLEECE_DONE) {
        return refused(answer);
    }
    printf("one save more: %d bytes\n", (int)used);
    return 0;
}
