/* Plans P3 and follows the house as it works. The foreman always starts the highest job that may start; when there is none he waits until the
 * highest job that runs has finished. In the end he starts a job again and is refused. */
#include <stdio.h>

#include "nuzzlefleece.h"

#define FACT(n) ((uint64_t)1 << (n))
#define JOB(n) ((uint64_t)1 << (n))

static const char *const names[] = {"unpack", "drench", "warm", "wash"};
static const char *const facts[] = {"packed", "unpacked", "drenched", "warm", "washed"};

static const nuzzlefleece_action jobs[] = {
    {.conditions = FACT(0), .additions = FACT(1), .deletions = FACT(0), .duration = 4},
    {.conditions = FACT(1), .additions = FACT(2), .duration = 2},
    {.conditions = FACT(1), .additions = FACT(3), .duration = 8},
    {.conditions = FACT(1), .additions = FACT(4), .deletions = FACT(2), .duration = 3},
};

static uint16_t starts[4];

static int refused(nuzzlefleece_answer answer) {
    printf("refused %d %d: %s\n", answer.number, answer.place, nuzzlefleece_words(answer.number));
    return 1;
}

/* The jobs of the plan, one bit each. */
static uint64_t jobs_in(void) {
    uint64_t word = 0;
    for (int job = 0; job < 4; job++) {
        word |= starts[job] == NUZZLEFLEECE_OUT ? 0 : JOB(job);
    }
    return word;
}

/* The highest job of a word. */
static uint8_t highest(uint64_t word) {
    uint8_t job = 0;
    while (word >>= 1) {
        job++;
    }
    return job;
}

/* What the bits of a word are called. */
static void print_word(const char *what, uint64_t word, const char *const *called, int count) {
    printf("%s%s", what, word == 0 ? " none" : "");
    for (int bit = 0; bit < count; bit++) {
        if ((word >> bit & 1) != 0) {
            printf(" %s", called[bit]);
        }
    }
}

/* A line: the event, the facts now, the jobs that may start. */
static void print_event(const nuzzlefleece_watch *watch, nuzzlefleece_screen screen) {
    printf("%s %s", names[watch->job], watch->event == NUZZLEFLEECE_STARTED ? "starts" : "finishes");
    print_word("; facts:", screen.facts, facts, 5);
    print_word("; may start:", screen.may_start, names, 4);
    puts("");
}

/* One event of a job. The screen has the words for the next; on refusal they are as before. */
static nuzzlefleece_screen tell(nuzzlefleece_watch *watch, uint8_t event, uint8_t job) {
    nuzzlefleece_screen screen;
    watch->event = event;
    watch->job = job;
    screen = nuzzlefleece_follow(jobs, 4, *watch, starts, 4);
    watch->started = screen.started;
    watch->finished = screen.finished;
    return screen;
}

/* Nothing is shown before the first event, so the jobs are tried from the highest down until one may start. */
static nuzzlefleece_screen first(nuzzlefleece_watch *watch) {
    uint8_t job = 3;
    nuzzlefleece_screen screen = tell(watch, NUZZLEFLEECE_STARTED, job);
    while (screen.answer.number == NUZZLEFLEECE_NOT_ALLOWED && job > 0) {
        screen = tell(watch, NUZZLEFLEECE_STARTED, --job);
    }
    return screen;
}

static nuzzlefleece_screen next(nuzzlefleece_watch *watch, uint64_t may_start) {
    uint64_t running = watch->started & ~watch->finished;
    if (may_start != 0) {
        return tell(watch, NUZZLEFLEECE_STARTED, highest(may_start));
    }
    return tell(watch, NUZZLEFLEECE_FINISHED, highest(running));
}

int main(void) {
    if (nuzzlefleece_version() != NUZZLEFLEECE_VERSION) {
        puts("header and library are of two versions");
        return 1;
    }
    nuzzlefleece_watch watch = {
        .ask = {.jobs = 4, .atoms = 5, .opening = FACT(0), .goals = FACT(2) | FACT(3) | FACT(4), .bound = 2880},
    };
    nuzzlefleece_answer answer = nuzzlefleece_least_bound(jobs, 4, watch.ask, starts, 4);
    if (answer.number != NUZZLEFLEECE_DONE) {
        return refused(answer);
    }
    watch.ask.bound = (uint16_t)answer.value;

    nuzzlefleece_screen screen = first(&watch);
    while (screen.answer.number == NUZZLEFLEECE_DONE) {
        print_event(&watch, screen);
        if (screen.finished == jobs_in()) {
            break;
        }
        screen = next(&watch, screen.may_start);
    }
    if (screen.answer.number != NUZZLEFLEECE_DONE) {
        return refused(screen.answer);
    }

    screen = tell(&watch, NUZZLEFLEECE_STARTED, 3);
    printf("%s starts again: ", names[watch.job]);
    refused(screen.answer);
    return screen.answer.number != NUZZLEFLEECE_NOT_ALLOWED;
}
