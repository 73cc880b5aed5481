/*
 * Calls every function of the C library on the scope's example P3, with warm released later, under rule 2, on jobs that clash, on events as
 * they come, for reasons, where jobs run over, on batches of every house group, on plans as text, on open tables, on full files, with nothing lent
 * and with bad input, and holds each answer to the scope's numbers. Last line: 'N passed, M failed'; any failure gives status 1.
 */
#include <stdio.h>
#include <string.h>

#include "nuzzlefleece.h"

#define FACT(n) ((uint64_t)1 << (n))
#define ALL_FACTS (~(uint64_t)0)

static int passed, failed;

static const nuzzlefleece_action p3[] = {
    {.conditions = FACT(0), .additions = FACT(1), .deletions = FACT(0), .duration = 4},
    {.conditions = FACT(1), .additions = FACT(2), .duration = 2},
    {.conditions = FACT(1), .additions = FACT(3), .duration = 8},
    {.conditions = FACT(1), .additions = FACT(4), .deletions = FACT(2), .duration = 3},
};
/* The same with warm released at 6. */
static const nuzzlefleece_action late[] = {
    {.conditions = FACT(0), .additions = FACT(1), .deletions = FACT(0), .duration = 4},
    {.conditions = FACT(1), .additions = FACT(2), .duration = 2},
    {.conditions = FACT(1), .additions = FACT(3), .duration = 8, .release = 6},
    {.conditions = FACT(1), .additions = FACT(4), .deletions = FACT(2), .duration = 3},
};
static const nuzzlefleece_ask p3_ask = {4, 5, FACT(0), FACT(2) | FACT(3) | FACT(4), 12, 0, 0};
static const uint16_t p3_starts[] = {0, 7, 4, 4};
static const uint16_t late_starts[] = {0, 7, 6, 4};
static const uint16_t ruled_starts[] = {0, 9, 5, 5};
static const uint8_t p3_pairs[] = {0, 1, 0, 2, 0, 3, 3, 1};
static const char p3_page[] =
    "least 12\n0 4 0\n4 12 2\n4 7 3\n7 9 1\n0 before 1\n0 before 2\n0 before 3\n3 before 1\n";
static const char ruled_page[] =
    "least 13\n0 4 0\n5 13 2\n5 8 3\n9 11 1\n0 before 1\n0 before 2\n0 before 3\n3 before 1\n";

static void expect(const char *what, int holds) {
    if (holds) {
        passed++;
    } else {
        failed++;
        printf("edges: %s\n", what);
    }
}

/* The answer has these numbers, and stands in its bytes as the header says. */
static void says_all(const char *what, nuzzlefleece_answer answer, unsigned number, unsigned second, unsigned place, unsigned value) {
    const uint8_t bytes[] = {(uint8_t)number, (uint8_t)second, (uint8_t)place, (uint8_t)(place >> 8), (uint8_t)value,
        (uint8_t)(value >> 8), (uint8_t)(value >> 16), (uint8_t)(value >> 24)};
    int holds = answer.number == number && answer.second == second && answer.place == place && answer.value == value
        && memcmp(&answer, bytes, sizeof bytes) == 0;
    expect(what, holds);
    if (!holds) {
        printf("edges: answered %u %u %u %u\n", (unsigned)answer.number, (unsigned)answer.second, (unsigned)answer.place,
            (unsigned)answer.value);
    }
}

/* The answer has this number, place and value, and no second number. */
static void says(const char *what, nuzzlefleece_answer answer, unsigned number, unsigned place, unsigned value) {
    says_all(what, answer, number, 0, place, value);
}

/* The plan is refused with 12 at this place, over this fact. */
static void overlaps(const char *what, nuzzlefleece_answer answer, unsigned place, unsigned fact) {
    says_all(what, answer, NUZZLEFLEECE_OVERLAP, fact, place, 0);
}

static int all_are(const uint8_t *bytes, size_t count, uint8_t byte) {
    size_t i = 0;
    while (i < count && bytes[i] == byte) {
        i++;
    }
    return i == count;
}

/* P3 and P4, and what is lent behind the answer stays as it was. */
static void answers_p3(void) {
    uint16_t starts[6] = {1, 1, 1, 1, 1, 1}, moved[4] = {0, 6, 4, 4};
    uint8_t pairs[NUZZLEFLEECE_PAIRS_BYTES], supports[321];
    memset(pairs, 9, sizeof pairs);
    memset(supports, 9, sizeof supports);
    says("least bound", nuzzlefleece_least_bound(p3, 4, p3_ask, starts, 5), 0, 0, 12);
    expect("starts of the least bound", memcmp(starts, p3_starts, 8) == 0 && starts[4] == 1 && starts[5] == 1);
    memset(starts, 1, sizeof starts);
    says("plan within", nuzzlefleece_plan_within(p3, 4, p3_ask, starts, 4), 0, 0, 0);
    expect("starts within 12", memcmp(starts, p3_starts, 8) == 0 && starts[4] == 257);
    says("check plan", nuzzlefleece_check_plan(p3, 4, p3_ask, starts, 4), 0, 0, 0);
    overlaps("drench at 6", nuzzlefleece_check_plan(p3, 4, p3_ask, moved, 4), 1, 2);
    says("binding pairs", nuzzlefleece_binding_pairs(p3, 4, p3_ask, starts, 4, pairs, sizeof pairs), 0, 0, 4);
    expect("the pairs", memcmp(pairs, p3_pairs, 8) == 0 && pairs[8] == 9 && pairs[551] == 9);
    says("supports", nuzzlefleece_supports(p3, 4, p3_ask, starts, 4, supports, 320), 0, 0, 0);
    expect("Start supports unpack, unpack the rest", supports[0] == NUZZLEFLEECE_SUPPORTED_BY_START && supports[64 + 1] == 0);
    expect("drench, warm and wash support End", supports[256 + 2] == 1 && supports[256 + 3] == 2 && supports[256 + 4] == 3);
    expect("no condition, and the byte behind", supports[1] == NUZZLEFLEECE_NO_CONDITION && supports[320] == 9);
}

static void answers_estimates(void) {
    uint16_t out[4] = {0};
    nuzzlefleece_ask ask = p3_ask;
    says("estimates", nuzzlefleece_earliest(p3, 4, ask, out, 4), 0, 0, 0);
    expect("all but unpack from 4", out[0] == 0 && out[1] == 4 && out[2] == 4 && out[3] == 4);
    ask.opening = 0;
    says("estimates from nothing", nuzzlefleece_earliest(p3, 4, ask, out, 4), 0, 0, 0);
    expect("never reachable", out[0] == NUZZLEFLEECE_OUT && out[3] == NUZZLEFLEECE_OUT);
}

static void answers_settling(void) {
    uint16_t out[4] = {0};
    uint8_t itself[] = {1, 1};
    nuzzlefleece_ask ask = p3_ask;
    ask.set = 11;
    ask.pairs = 1;
    says("settle", nuzzlefleece_settle(p3, 4, ask, p3_pairs, 8, out, 4), 0, 0, 0);
    expect("unpack before drench, warm out", out[0] == 0 && out[1] == 4 && out[2] == NUZZLEFLEECE_OUT && out[3] == 0);
    says("a job before itself", nuzzlefleece_settle(p3, 4, ask, itself, 2, out, 4), NUZZLEFLEECE_NO_STARTS, 0, 0);
    ask.pairs = 2;
    says("a pair outside the set", nuzzlefleece_settle(p3, 4, ask, p3_pairs, 8, out, 4), NUZZLEFLEECE_PAIRS_WRONG, 1, 0);
    ask.set = 16;
    says("no such job", nuzzlefleece_settle(p3, 4, ask, p3_pairs, 8, out, 4), NUZZLEFLEECE_PAIRS_WRONG, 601, 0);
}

/* The late crate's least bound, plan, estimates and settled starts. */
static void answers_releases(void) {
    uint16_t out[4] = {0};
    nuzzlefleece_ask ask = p3_ask;
    ask.bound = 2880;
    says("least bound of the late crate", nuzzlefleece_least_bound(late, 4, ask, out, 4), 0, 0, 14);
    expect("its starts", memcmp(out, late_starts, 8) == 0);
    ask.bound = 13;
    says("no sooner", nuzzlefleece_plan_within(late, 4, ask, out, 4), NUZZLEFLEECE_NO_PLAN, 0, 0);
    says("estimates of the late crate", nuzzlefleece_earliest(late, 4, ask, out, 4), 0, 0, 0);
    expect("warm from 6", out[0] == 0 && out[1] == 4 && out[2] == 6 && out[3] == 4);
    ask.set = 15;
    ask.pairs = 4;
    says("settling from 6 ends too late", nuzzlefleece_settle(late, 4, ask, p3_pairs, 8, out, 4), NUZZLEFLEECE_NO_STARTS, 0, 0);
    ask.bound = 14;
    says("settling of the late crate", nuzzlefleece_settle(late, 4, ask, p3_pairs, 8, out, 4), 0, 0, 0);
    expect("settled from the release", memcmp(out, late_starts, 8) == 0);
}

/* A start before the release is refused after a late end and before an overlap, by all that take a plan. */
static void refuses_early_starts(void) {
    static uint8_t out[NUZZLEFLEECE_PAIRS_BYTES];
    uint16_t starts[4] = {0, 7, 6, 4};
    nuzzlefleece_ask ask = p3_ask;
    ask.bound = 14;
    says("warm at its release", nuzzlefleece_check_plan(late, 4, ask, starts, 4), 0, 0, 0);
    says("binding pairs of the late crate", nuzzlefleece_binding_pairs(late, 4, ask, starts, 4, out, sizeof out), 0, 0, 4);
    expect("the pairs of P3", memcmp(out, p3_pairs, 8) == 0);
    starts[2] = 5;
    says("warm at 5", nuzzlefleece_check_plan(late, 4, ask, starts, 4), NUZZLEFLEECE_BEFORE_RELEASE, 2, 0);
    says("its supports", nuzzlefleece_supports(late, 4, ask, starts, 4, out, 320), NUZZLEFLEECE_BEFORE_RELEASE, 2, 0);
    says("its binding pairs", nuzzlefleece_binding_pairs(late, 4, ask, starts, 4, out, sizeof out), NUZZLEFLEECE_BEFORE_RELEASE, 2, 0);
    starts[1] = 6;
    says("before an overlap", nuzzlefleece_check_plan(late, 4, ask, starts, 4), NUZZLEFLEECE_BEFORE_RELEASE, 2, 0);
    starts[3] = 12;
    says("behind a late end", nuzzlefleece_check_plan(late, 4, ask, starts, 4), NUZZLEFLEECE_ENDS_TOO_LATE, 3, 0);
}

/* The release stands behind the duration in a file, four zeros behind it. */
static void keeps_releases_in_files(void) {
    static const uint8_t behind[] = {8, 0, 6, 0, 0, 0, 0, 0};
    static uint8_t file[152];
    nuzzlefleece_action back[4] = {{.duration = 0}};
    nuzzlefleece_save save = {p3_ask, 0};
    says("write releases", nuzzlefleece_write_file(late, 4, save, file, sizeof file), 0, 0, sizeof file);
    expect("warm's record", memcmp(file + 64 + 24, behind, sizeof behind) == 0);
    says("read releases", nuzzlefleece_read_file(file, sizeof file, back, 4).answer, 0, 0, 0);
    expect("the releases read", back[0].release == 0 && back[2].release == 6 && back[2].duration == 8);
    for (size_t at = 28; at < 32; at++) {
        file[64 + at] = 1;
        says("one of the four bytes", nuzzlefleece_read_file(file, sizeof file, back, 4).answer, NUZZLEFLEECE_FILE_DAMAGED, 0, 0);
        file[64 + at] = 0;
    }
    file[64 + 26] = 2880 & 255;
    file[64 + 27] = 2880 >> 8;
    says("release 2880 in a file", nuzzlefleece_read_file(file, sizeof file, back, 4).answer, 0, 0, 0);
    expect("the last release", back[2].release == NUZZLEFLEECE_MOST_RELEASE);
    file[64 + 26]++;
    says("release 2881 in a file", nuzzlefleece_read_file(file, sizeof file, back, 4).answer, NUZZLEFLEECE_RELEASE_WRONG, 2, 0);
    expect("the records are as before", back[2].release == NUZZLEFLEECE_MOST_RELEASE);
    back[2].release = NUZZLEFLEECE_MOST_RELEASE + 1;
    says("write release 2881", nuzzlefleece_write_file(back, 4, save, file, sizeof file), NUZZLEFLEECE_RELEASE_WRONG, 2, 0);
}

/* P3's numbers within a bound, under rule 2. */
static nuzzlefleece_ask ruled_ask(uint16_t bound) {
    nuzzlefleece_ask ask = p3_ask;
    ask.atoms += NUZZLEFLEECE_RULE_2;
    ask.bound = bound;
    return ask;
}

/* P3 under rule 2: least bound, plan, estimates and settled starts. */
static void answers_rule_2(void) {
    uint16_t out[4] = {0};
    nuzzlefleece_ask ask = ruled_ask(13);
    says("least bound under rule 2", nuzzlefleece_least_bound(p3, 4, ruled_ask(2880), out, 4), 0, 0, 13);
    expect("its starts", memcmp(out, ruled_starts, 8) == 0);
    says("none within 12", nuzzlefleece_plan_within(p3, 4, ruled_ask(12), out, 4), NUZZLEFLEECE_NO_PLAN, 0, 0);
    says("estimates under rule 2", nuzzlefleece_earliest(p3, 4, ask, out, 4), 0, 0, 0);
    expect("all but unpack from 5", out[0] == 0 && out[1] == 5 && out[2] == 5 && out[3] == 5);
    ask.set = 15;
    ask.pairs = 4;
    says("settling with gaps", nuzzlefleece_settle(p3, 4, ask, p3_pairs, 8, out, 4), 0, 0, 0);
    expect("settled with gaps", memcmp(out, ruled_starts, 8) == 0);
    ask.bound = 12;
    says("no room for gaps", nuzzlefleece_settle(p3, 4, ask, p3_pairs, 8, out, 4), NUZZLEFLEECE_NO_STARTS, 0, 0);
    ask.opening = 0;
    says("estimates from nothing", nuzzlefleece_earliest(p3, 4, ask, out, 4), 0, 0, 0);
    expect("never reachable with a gap", out[0] == NUZZLEFLEECE_OUT && out[3] == NUZZLEFLEECE_OUT);
}

/* Plans under rule 2: jobs that touch are refused, and so is a start that sees a finish too soon; End may stand at a finish. */
static void refuses_touching(void) {
    static uint8_t out[NUZZLEFLEECE_PAIRS_BYTES];
    static const uint16_t touching[] = {0, 8, 5, 5}, early[] = {0, 9, 4, 5};
    nuzzlefleece_ask ask = ruled_ask(13);
    says("a quarter hour apart", nuzzlefleece_check_plan(p3, 4, ask, ruled_starts, 4), 0, 0, 0);
    overlaps("drench touches wash", nuzzlefleece_check_plan(p3, 4, ask, touching, 4), 1, 2);
    overlaps("the plan of rule 1", nuzzlefleece_check_plan(p3, 4, ask, p3_starts, 4), 1, 2);
    says("warm touches unpack", nuzzlefleece_check_plan(p3, 4, ask, early, 4), NUZZLEFLEECE_CONDITION_MISSING, 2, 0);
    says("no supports of it", nuzzlefleece_supports(p3, 4, ask, early, 4, out, 320), NUZZLEFLEECE_CONDITION_MISSING, 2, 0);
    says("supports under rule 2", nuzzlefleece_supports(p3, 4, ask, ruled_starts, 4, out, 320), 0, 0, 0);
    expect("unpack supports warm, warm End at the bound", out[128 + 1] == 0 && out[256 + 3] == 2);
    says("binding pairs under rule 2", nuzzlefleece_binding_pairs(p3, 4, ask, ruled_starts, 4, out, sizeof out), 0, 0, 4);
    expect("the pairs of rule 1", memcmp(out, p3_pairs, 8) == 0);
}

/* The mark is kept in a file, and the atom count is looked at without it. */
static void keeps_the_rule_in_files(void) {
    static const uint8_t wrong[] = {0, 65, 127, 128, 193, 255};
    static uint8_t file[152], text[NUZZLEFLEECE_PAGE_BYTES];
    uint16_t out[4] = {0};
    nuzzlefleece_action back[4] = {{.duration = 0}};
    nuzzlefleece_save save = {ruled_ask(2880), 0};
    says("write rule 2", nuzzlefleece_write_file(p3, 4, save, file, sizeof file), 0, 0, sizeof file);
    expect("the mark in the file", file[147] == 133 && nuzzlefleece_read_file(file, sizeof file, back, 4).ask.atoms == 133);
    says("page under rule 2", nuzzlefleece_page(file, sizeof file, text, sizeof text), 0, 0, sizeof ruled_page - 1);
    expect("the page under rule 2", memcmp(text, ruled_page, sizeof ruled_page - 1) == 0);
    for (size_t i = 0; i < sizeof wrong; i++) {
        file[147] = save.ask.atoms = wrong[i];
        says("atoms wrong in a file", nuzzlefleece_read_file(file, sizeof file, back, 4).answer, NUZZLEFLEECE_ATOMS_WRONG, 0, 0);
        says("atoms wrong in a call", nuzzlefleece_least_bound(p3, 4, save.ask, out, 4), NUZZLEFLEECE_ATOMS_WRONG, 0, 65535);
    }
    file[147] = 128 + 4;
    says("a fact at the atom count", nuzzlefleece_read_file(file, sizeof file, back, 4).answer, NUZZLEFLEECE_FACT_WRONG, 3, 0);
    file[147] = 128 + 64;
    says("64 atoms under rule 2", nuzzlefleece_read_file(file, sizeof file, back, 4).answer, 0, 0, 0);
}

/* The clash is of this kind, over this fact, and has these two bytes. */
static void clashes(const char *what, nuzzlefleece_clash clash, unsigned kind, unsigned fact) {
    const uint8_t bytes[] = {(uint8_t)kind, (uint8_t)fact};
    expect(what, clash.kind == kind && clash.fact == fact && memcmp(&clash, bytes, sizeof bytes) == 0);
}

/* Two records in either order. */
static void both_clash(const char *what, nuzzlefleece_action one, nuzzlefleece_action other, unsigned kind, unsigned fact) {
    clashes(what, nuzzlefleece_why_clash(one, other), kind, fact);
    clashes(what, nuzzlefleece_why_clash(other, one), kind, fact);
}

static nuzzlefleece_action of_facts(uint64_t conditions, uint64_t additions, uint64_t deletions) {
    nuzzlefleece_action action = {.conditions = conditions, .additions = additions, .deletions = deletions, .duration = 1};
    return action;
}

/* Why two jobs clash: a condition or else an addition, the lowest fact of it, whichever job deletes it. */
static void answers_clashes(void) {
    nuzzlefleece_action nothing = of_facts(0, 0, 0), everything = of_facts(ALL_FACTS, ALL_FACTS, ALL_FACTS);
    nuzzlefleece_action last = of_facts(0, 0, FACT(63)), washes = of_facts(0, 0, FACT(3) | FACT(40));
    both_clash("drench and wash", p3[1], p3[3], NUZZLEFLEECE_CLASH_ADDITION, 2);
    both_clash("unpack and drench", p3[0], p3[1], NUZZLEFLEECE_CLASH_NONE, NUZZLEFLEECE_NO_FACT);
    both_clash("unpack and one more", p3[0], p3[0], NUZZLEFLEECE_CLASH_CONDITION, 0);
    both_clash("wash and one more", p3[3], p3[3], NUZZLEFLEECE_CLASH_NONE, NUZZLEFLEECE_NO_FACT);
    both_clash("a record that adds what it deletes, twice", of_facts(0, 8, 8), of_facts(0, 8, 8), NUZZLEFLEECE_CLASH_ADDITION, 3);
    both_clash("nothing twice", nothing, nothing, NUZZLEFLEECE_CLASH_NONE, NUZZLEFLEECE_NO_FACT);
    both_clash("nothing and everything", nothing, everything, NUZZLEFLEECE_CLASH_NONE, NUZZLEFLEECE_NO_FACT);
    both_clash("everything twice", everything, everything, NUZZLEFLEECE_CLASH_CONDITION, 0);
    both_clash("the last fact and everything", last, everything, NUZZLEFLEECE_CLASH_CONDITION, 63);
    both_clash("the last fact needed", last, of_facts(FACT(63), 0, 0), NUZZLEFLEECE_CLASH_CONDITION, 63);
    both_clash("the last fact added", last, of_facts(0, FACT(63), 0), NUZZLEFLEECE_CLASH_ADDITION, 63);
    both_clash("the last fact deleted by both", last, last, NUZZLEFLEECE_CLASH_NONE, NUZZLEFLEECE_NO_FACT);
    both_clash("a condition above an addition", washes, of_facts(FACT(40), FACT(3), 0), NUZZLEFLEECE_CLASH_CONDITION, 40);
    both_clash("conditions both ways", of_facts(FACT(9), 0, FACT(50)), of_facts(FACT(50), 0, FACT(9)), NUZZLEFLEECE_CLASH_CONDITION, 9);
    both_clash("additions both ways", of_facts(0, FACT(50), FACT(9)), of_facts(0, FACT(9), FACT(50)), NUZZLEFLEECE_CLASH_ADDITION, 9);
}

/* Times and reserved bytes may be any. */
static void looks_at_facts_alone(void) {
    for (int byte = 0; byte < 256; byte += 51) {
        nuzzlefleece_action one, other;
        memset(&one, byte, sizeof one);
        memset(&other, 255 - byte, sizeof other);
        one.conditions = FACT(20);
        one.additions = FACT(5);
        one.deletions = FACT(30);
        other.conditions = FACT(30) | FACT(21);
        other.additions = FACT(6);
        other.deletions = FACT(5) | FACT(21);
        both_clash("whatever the times and the reserved bytes", one, other, NUZZLEFLEECE_CLASH_CONDITION, 30);
        other.conditions = 0;
        both_clash("the same without the condition", one, other, NUZZLEFLEECE_CLASH_ADDITION, 5);
        one.additions = 0;
        both_clash("the same without the addition", one, other, NUZZLEFLEECE_CLASH_NONE, NUZZLEFLEECE_NO_FACT);
    }
}

/* Refusal 12 has the fact of the first pair that is too near, in all that take a plan, and fills nothing. */
static void carries_the_fact(void) {
    static const nuzzlefleece_action jobs[] = {
        {.conditions = FACT(20), .deletions = FACT(50) | FACT(30) | FACT(5), .duration = 2},
        {.additions = FACT(50), .duration = 2},
        {.conditions = FACT(30), .additions = FACT(5), .deletions = FACT(20), .duration = 2},
        {.additions = FACT(5), .duration = 2},
    };
    static uint8_t out[NUZZLEFLEECE_PAIRS_BYTES];
    uint16_t starts[] = {0, 2, 1, 1};
    nuzzlefleece_ask ask = {.jobs = 4, .atoms = 64, .bound = 9};
    memset(out, 9, sizeof out);
    overlaps("a condition of the second partner", nuzzlefleece_check_plan(jobs, 4, ask, starts, 4), 0, 20);
    overlaps("no supports", nuzzlefleece_supports(jobs, 4, ask, starts, 4, out, 320), 0, 20);
    overlaps("no binding pairs", nuzzlefleece_binding_pairs(jobs, 4, ask, starts, 4, out, sizeof out), 0, 20);
    expect("nothing filled", out[0] == 9 && out[319] == 9 && out[551] == 9);
    ask.atoms += NUZZLEFLEECE_RULE_2;
    overlaps("the first partner touches", nuzzlefleece_check_plan(jobs, 4, ask, starts, 4), 0, 50);
    ask.atoms -= NUZZLEFLEECE_RULE_2;
    starts[2] = NUZZLEFLEECE_OUT;
    overlaps("an addition of the last partner", nuzzlefleece_check_plan(jobs, 4, ask, starts, 4), 0, 5);
    ask.bound = 3;
    says("ends too late", nuzzlefleece_check_plan(jobs, 4, ask, starts, 4), NUZZLEFLEECE_ENDS_TOO_LATE, 1, 0);
}

/* An event of a job, and the screen that it must give. */
typedef struct step {
    uint8_t event, job;
    uint64_t started, finished, facts, may_start;
} step;

/* P3 to the end: unpack before all others, wash before drench. Warm starts last, against the order of the starts. */
static const step p3_steps[] = {
    {NUZZLEFLEECE_STARTED, 0, 1, 0, FACT(0), 0},
    {NUZZLEFLEECE_FINISHED, 0, 1, 1, FACT(1), 4 | 8},
    {NUZZLEFLEECE_STARTED, 3, 1 | 8, 1, FACT(1), 4},
    {NUZZLEFLEECE_FINISHED, 3, 1 | 8, 1 | 8, FACT(1) | FACT(4), 2 | 4},
    {NUZZLEFLEECE_STARTED, 1, 1 | 2 | 8, 1 | 8, FACT(1) | FACT(4), 4},
    {NUZZLEFLEECE_FINISHED, 1, 1 | 2 | 8, 1 | 2 | 8, FACT(1) | FACT(2) | FACT(4), 4},
    {NUZZLEFLEECE_STARTED, 2, 15, 1 | 2 | 8, FACT(1) | FACT(2) | FACT(4), 0},
    {NUZZLEFLEECE_FINISHED, 2, 15, 15, FACT(1) | FACT(2) | FACT(3) | FACT(4), 0},
};

/* The screen shows these words, facts and jobs. */
static void shows(const char *what, nuzzlefleece_screen screen, uint64_t started, uint64_t finished, uint64_t facts, uint64_t may_start) {
    expect(what, screen.started == started && screen.finished == finished && screen.facts == facts && screen.may_start == may_start);
}

/* From no events on, each event with the words of the screen before it. */
static void follows_to_the_end(const char *what, const nuzzlefleece_action *jobs, nuzzlefleece_ask ask, const uint16_t *starts) {
    nuzzlefleece_watch watch = {.ask = ask};
    for (size_t i = 0; i < sizeof p3_steps / sizeof p3_steps[0]; i++) {
        nuzzlefleece_screen screen;
        watch.event = p3_steps[i].event;
        watch.job = p3_steps[i].job;
        screen = nuzzlefleece_follow(jobs, 4, watch, starts, 4);
        says(what, screen.answer, 0, 0, 0);
        shows(what, screen, p3_steps[i].started, p3_steps[i].finished, p3_steps[i].facts, p3_steps[i].may_start);
        watch.started = screen.started;
        watch.finished = screen.finished;
    }
}

/* P3 by either rule and with warm released at 6. */
static void follows_p3(void) {
    nuzzlefleece_ask ask = p3_ask;
    follows_to_the_end("following P3", p3, ask, p3_starts);
    follows_to_the_end("following P3 under rule 2", p3, ruled_ask(13), ruled_starts);
    ask.bound = 14;
    follows_to_the_end("following the late crate", late, ask, late_starts);
}

/* Two jobs add what a third needs. It waits for its named support alone: by rule 1 the first, by rule 2 the second, which does not touch it. */
static void waits_for_supports(void) {
    static const nuzzlefleece_action jobs[] = {
        {.additions = FACT(0), .duration = 2},
        {.additions = FACT(0), .duration = 1},
        {.conditions = FACT(0), .additions = FACT(1), .duration = 1},
    };
    static const uint16_t starts[] = {0, 0, 2};
    nuzzlefleece_watch watch = {.ask = {.jobs = 3, .atoms = 2, .goals = FACT(1), .bound = 3}, .started = 1, .event = NUZZLEFLEECE_FINISHED};
    shows("the first adder", nuzzlefleece_follow(jobs, 3, watch, starts, 3), 1, 1, FACT(0), 2 | 4);
    watch.ask.atoms += NUZZLEFLEECE_RULE_2;
    shows("the first adder under rule 2", nuzzlefleece_follow(jobs, 3, watch, starts, 3), 1, 1, FACT(0), 2);
    watch.started = 2;
    watch.job = 1;
    shows("the second adder under rule 2", nuzzlefleece_follow(jobs, 3, watch, starts, 3), 2, 2, FACT(0), 1 | 4);
    watch.ask.atoms -= NUZZLEFLEECE_RULE_2;
    shows("the second adder", nuzzlefleece_follow(jobs, 3, watch, starts, 3), 2, 2, FACT(0), 1);
}

/* A plan of P3's jobs is refused with this number, second number and place; the words are handed back and nothing else is shown. */
static void refuses(const char *what, nuzzlefleece_watch watch, const uint16_t *starts, size_t lent, unsigned number, unsigned second,
    unsigned place) {
    nuzzlefleece_screen screen = nuzzlefleece_follow(p3, 4, watch, starts, lent);
    says_all(what, screen.answer, number, second, place, 0);
    shows(what, screen, watch.started, watch.finished, 0, 0);
}

/* The plan of P3 with any words and any event. */
static void not_allowed(const char *what, uint64_t started, uint64_t finished, uint8_t event, uint8_t job, unsigned place) {
    nuzzlefleece_watch watch = {p3_ask, started, finished, event, job};
    refuses(what, watch, p3_starts, 4, NUZZLEFLEECE_NOT_ALLOWED, 0, place);
}

/* Events after events that were allowed: the place is the job. */
static void refuses_events(void) {
    not_allowed("drench before wash has finished", 9, 1, NUZZLEFLEECE_STARTED, 1, 1);
    not_allowed("wash before unpack has finished", 1, 0, NUZZLEFLEECE_STARTED, 3, 3);
    not_allowed("a second start", 9, 1, NUZZLEFLEECE_STARTED, 3, 3);
    not_allowed("a start after the finish", 9, 9, NUZZLEFLEECE_STARTED, 3, 3);
    not_allowed("a second finish", 9, 9, NUZZLEFLEECE_FINISHED, 3, 3);
    not_allowed("a finish without a start", 1, 1, NUZZLEFLEECE_FINISHED, 3, 3);
    not_allowed("a finish before any start", 0, 0, NUZZLEFLEECE_FINISHED, 0, 0);
    not_allowed("all has finished", 15, 15, NUZZLEFLEECE_FINISHED, 2, 2);
    for (uint8_t event = 0; event < 2; event++) {
        not_allowed("job 4", 1, 1, event, 4, 4);
        not_allowed("job 66", 1 | 4 * event, 1, event, 66, 66);
        not_allowed("job 255", 1, 1, event, 255, 255);
        not_allowed("event 2", 1 | 4 * event, 1, 2, 2, 2);
        not_allowed("event 255", 1 | 4 * event, 1, 255, 2, 2);
    }
}

/* Words that no allowed events give, whatever the event. */
static void refuses_words(void) {
    not_allowed("finished without a start", 1, 3, NUZZLEFLEECE_STARTED, 2, NUZZLEFLEECE_NO_LOG);
    not_allowed("started before unpack has finished", 5, 0, NUZZLEFLEECE_FINISHED, 0, NUZZLEFLEECE_NO_LOG);
    not_allowed("drench started before wash has finished", 11, 1, NUZZLEFLEECE_FINISHED, 3, NUZZLEFLEECE_NO_LOG);
    not_allowed("all bits", ALL_FACTS, ALL_FACTS, NUZZLEFLEECE_STARTED, 0, NUZZLEFLEECE_NO_LOG);
    not_allowed("the words before the event", 2, 0, 255, 255, NUZZLEFLEECE_NO_LOG);
    for (int bit = 4; bit < 64; bit++) {
        not_allowed("a bit of no job started", 1 | FACT(bit), 1, NUZZLEFLEECE_STARTED, 2, NUZZLEFLEECE_NO_LOG);
        not_allowed("a bit of no job finished", 1, 1 | FACT(bit), NUZZLEFLEECE_STARTED, 2, NUZZLEFLEECE_NO_LOG);
        not_allowed("a bit of no job in both", 1 | FACT(bit), 1 | FACT(bit), NUZZLEFLEECE_STARTED, 2, NUZZLEFLEECE_NO_LOG);
    }
}

/* Wash is out of the plan: it neither starts nor finishes, and words with its bit are refused. */
static void refuses_jobs_out(void) {
    static const uint16_t starts[] = {0, 4, 4, NUZZLEFLEECE_OUT};
    nuzzlefleece_watch watch = {p3_ask, 1, 1, NUZZLEFLEECE_STARTED, 3};
    watch.ask.goals = FACT(2) | FACT(3);
    refuses("wash is out", watch, starts, 4, NUZZLEFLEECE_NOT_ALLOWED, 0, 3);
    watch.event = NUZZLEFLEECE_FINISHED;
    refuses("and does not finish", watch, starts, 4, NUZZLEFLEECE_NOT_ALLOWED, 0, 3);
    watch.started = 9;
    refuses("nor has it started", watch, starts, 4, NUZZLEFLEECE_NOT_ALLOWED, 0, NUZZLEFLEECE_NO_LOG);
    watch.started = 1;
    watch.event = NUZZLEFLEECE_STARTED;
    watch.job = 1;
    shows("drench waits for unpack alone", nuzzlefleece_follow(p3, 4, watch, starts, 4), 3, 1, FACT(1), 4);
}

/* The table and the plan are looked at before the words. */
static void refuses_wrong_plans(void) {
    uint16_t starts[5] = {0, 7, 4, 4, 0};
    nuzzlefleece_watch watch = {p3_ask, 2, 1, NUZZLEFLEECE_STARTED, 1};
    refuses("too few starts", watch, starts, 3, NUZZLEFLEECE_LENT_TOO_SHORT, 0, 0);
    watch.ask.jobs = 5;
    refuses("too few records", watch, starts, 5, NUZZLEFLEECE_LENT_TOO_SHORT, 0, 0);
    watch.ask.jobs = 4;
    watch.ask.bound = 11;
    refuses("a late end", watch, starts, 4, NUZZLEFLEECE_ENDS_TOO_LATE, 0, 2);
    watch.ask.bound = 12;
    starts[1] = 6;
    refuses("an overlap", watch, starts, 4, NUZZLEFLEECE_OVERLAP, 2, 1);
    starts[1] = 7;
    starts[2] = 3;
    refuses("a condition missing", watch, starts, 4, NUZZLEFLEECE_CONDITION_MISSING, 0, 2);
    starts[2] = 4;
    starts[1] = NUZZLEFLEECE_OUT;
    refuses("a goal missing", watch, starts, 4, NUZZLEFLEECE_GOAL_MISSING, 0, 2);
    watch.ask.atoms = 65;
    refuses("65 atoms", watch, starts, 4, NUZZLEFLEECE_ATOMS_WRONG, 0, 0);
}

/* P3's numbers within a bound, with all four jobs to settle by the binding pairs. */
static nuzzlefleece_ask settling_ask(uint16_t bound) {
    nuzzlefleece_ask ask = p3_ask;
    ask.bound = bound;
    ask.set = 15;
    ask.pairs = 4;
    return ask;
}

/* The chain of one of four jobs by the binding pairs of P3, so many jobs long; all behind it stays as it was. */
static void explains(const char *what, const nuzzlefleece_action *jobs, nuzzlefleece_ask ask, uint8_t job, const uint8_t *wanted,
    unsigned count) {
    uint8_t chain[6];
    nuzzlefleece_question question = {ask, job};
    memset(chain, 99, sizeof chain);
    says(what, nuzzlefleece_why_start(jobs, 4, question, p3_pairs, 8, chain, 4), 0, 0, count);
    expect(what, memcmp(chain, wanted, count) == 0 && all_are(chain + count, sizeof chain - count, 99));
}

/* P3 by either rule, and the late crate: warm starts at its release. */
static void explains_p3(void) {
    static const uint8_t drench[] = {0, 3, 1}, warm[] = {0, 2};
    nuzzlefleece_ask asks[] = {settling_ask(12), settling_ask(13)};
    asks[1].atoms += NUZZLEFLEECE_RULE_2;
    for (int rule = 0; rule < 2; rule++) {
        explains("unpack at its release", p3, asks[rule], 0, drench, 1);
        explains("drench behind wash behind unpack", p3, asks[rule], 1, drench, 3);
        explains("warm behind unpack", p3, asks[rule], 2, warm, 2);
        explains("wash behind unpack", p3, asks[rule], 3, drench, 2);
    }
    explains("warm at its release", late, settling_ask(14), 2, warm + 1, 1);
    explains("drench beside the late crate", late, settling_ask(14), 1, drench, 3);
}

/* Drench released a quarter hour before wash is over, just then, and later: from then on no other job is the reason. */
static void ends_chains_at_releases(void) {
    static const uint8_t behind[] = {0, 3, 1}, alone[] = {1};
    nuzzlefleece_action jobs[4];
    nuzzlefleece_ask ask = settling_ask(20);
    memcpy(jobs, p3, sizeof jobs);
    for (uint16_t over = 7; over <= 9; over += 2) {
        jobs[1].release = over - 1;
        explains("released before wash is over", jobs, ask, 1, behind, 3);
        jobs[1].release = over;
        explains("released when wash is over", jobs, ask, 1, alone, 1);
        jobs[1].release = over + 1;
        explains("released later", jobs, ask, 1, alone, 1);
        ask.atoms += NUZZLEFLEECE_RULE_2;
    }
}

/* The reason why a job of P3 starts is refused, and nothing is filled. */
static void refuses_start(const char *what, nuzzlefleece_ask ask, uint8_t job, const uint8_t *pairs, unsigned number, unsigned place) {
    uint8_t chain[4] = {99, 99, 99, 99};
    nuzzlefleece_question question = {ask, job};
    says(what, nuzzlefleece_why_start(p3, 4, question, pairs, 8, chain, 4), number, place, 0);
    expect(what, all_are(chain, sizeof chain, 99));
}

/* The job is looked for in the set last of all. */
static void refuses_starts(void) {
    static const uint8_t circle[] = {0, 1, 1, 0, 0, 3, 3, 0}, itself[] = {0, 1, 0, 3, 1, 1, 0, 1}, outside[] = {0, 1, 0, 2, 0, 3, 2, 2};
    static const uint8_t strange[] = {2, 4, 23, 24, 63, 64, 66, 128, 255};
    nuzzlefleece_ask ask = settling_ask(9);
    ask.set = 11;
    ask.pairs = 1;
    for (size_t i = 0; i < sizeof strange; i++) {
        refuses_start("a job outside the set", ask, strange[i], p3_pairs, NUZZLEFLEECE_NOT_IN_SET, strange[i]);
    }
    ask.pairs = 3;
    refuses_start("a circle before the job", ask, 2, circle, NUZZLEFLEECE_NO_STARTS, 0);
    refuses_start("a job before itself", ask, 3, itself, NUZZLEFLEECE_NO_STARTS, 0);
    refuses_start("a pair outside the set before the job", ask, 2, outside, NUZZLEFLEECE_PAIRS_WRONG, 1);
    ask.set = 11 | FACT(4);
    refuses_start("no such job in the set", ask, 4, outside, NUZZLEFLEECE_PAIRS_WRONG, 601);
    ask.set = 0;
    ask.pairs = 0;
    refuses_start("nothing in the set", ask, 0, p3_pairs, NUZZLEFLEECE_NOT_IN_SET, 0);
    ask.bound = 2881;
    refuses_start("the bound before the job", ask, 0, p3_pairs, NUZZLEFLEECE_BOUND_WRONG, 0);
    refuses_start("too little time", settling_ask(11), 255, p3_pairs, NUZZLEFLEECE_NO_STARTS, 0);
}

/* One byte a job and two a pair are enough, and one less of either is not; nor is a record less. */
static void takes_exact_lengths(void) {
    uint8_t chain[4] = {99, 99, 99, 99};
    nuzzlefleece_question question = {settling_ask(12), 1};
    says("just enough", nuzzlefleece_why_start(p3, 4, question, p3_pairs, 8, chain, 4), 0, 0, 3);
    memset(chain, 99, sizeof chain);
    says("three bytes for four jobs", nuzzlefleece_why_start(p3, 4, question, p3_pairs, 8, chain, 3), NUZZLEFLEECE_LENT_TOO_SHORT, 0, 0);
    says("seven bytes for four pairs", nuzzlefleece_why_start(p3, 4, question, p3_pairs, 7, chain, 4), NUZZLEFLEECE_LENT_TOO_SHORT, 0, 0);
    says("three records", nuzzlefleece_why_start(p3, 3, question, p3_pairs, 8, chain, 4), NUZZLEFLEECE_LENT_TOO_SHORT, 0, 0);
    question.ask.pairs = ((size_t)-1) / 2 + 5;
    says("more pairs than there are bytes", nuzzlefleece_why_start(p3, 4, question, p3_pairs, 8, chain, 4), NUZZLEFLEECE_LENT_TOO_SHORT, 0, 0);
    question.ask.jobs = (size_t)-1;
    says("more jobs than there are bytes", nuzzlefleece_why_start(p3, 4, question, p3_pairs, 8, chain, 4), NUZZLEFLEECE_LENT_TOO_SHORT, 0, 0);
    expect("nothing filled", all_are(chain, sizeof chain, 99));
}

/* 24 jobs one behind the other, the last job first, by 600 pairs that are asked again and again: the chain has them all. */
static void explains_full_tables(void) {
    static uint8_t pairs[2 * 601], chain[26];
    nuzzlefleece_action jobs[24];
    nuzzlefleece_question question = {.ask = {.jobs = 24, .atoms = 1, .bound = 24 * 2 + 23, .set = FACT(24) - 1, .pairs = 600}};
    int in_order = 1;
    for (size_t i = 0; i < 24; i++) {
        jobs[i] = of_facts(0, 1, 0);
        jobs[i].duration = 2;
    }
    for (size_t pair = 0; pair <= 600; pair++) {
        pairs[2 * pair] = (uint8_t)(23 - pair % 23);
        pairs[2 * pair + 1] = (uint8_t)(22 - pair % 23);
    }
    for (int rule = 0; rule < 2; rule++) {
        memset(chain, 99, sizeof chain);
        says("600 pairs", nuzzlefleece_why_start(jobs, 24, question, pairs, 1200, chain, 24), 0, 0, 24);
        for (size_t i = 0; i < 24; i++) {
            in_order = in_order && chain[i] == 23 - i;
        }
        expect("all 24 jobs, and the bytes behind", in_order && all_are(chain + 24, 2, 99));
        question.ask.atoms += NUZZLEFLEECE_RULE_2;
    }
    question.ask.atoms = 1;
    question.ask.pairs = 601;
    says("601 pairs", nuzzlefleece_why_start(jobs, 24, question, pairs, 1202, chain, 24), NUZZLEFLEECE_PAIRS_WRONG, 600, 0);
}

/* The answer to why there is no plan, and the reason in its two bytes. */
static void reasons(const char *what, nuzzlefleece_reason reason, unsigned number, unsigned place, unsigned kind, unsigned fact) {
    const uint8_t bytes[] = {(uint8_t)kind, (uint8_t)fact};
    says(what, reason.answer, number, place, 0);
    expect(what, reason.kind == kind && reason.fact == fact && memcmp((const uint8_t *)&reason + 8, bytes, sizeof bytes) == 0);
}

/* Why four jobs have no plan from P3's opening facts to these goals, the atom count with its mark. */
static void says_why(const char *what, const nuzzlefleece_action *jobs, unsigned atoms, uint64_t goals, uint16_t bound, unsigned kind,
    unsigned fact) {
    nuzzlefleece_ask ask = p3_ask;
    ask.atoms = (uint8_t)atoms;
    ask.goals = goals;
    ask.bound = bound;
    reasons(what, nuzzlefleece_why_no_plan(jobs, 4, ask), 0, 0, kind, fact);
}

/* P2, P1, P6 and the late crate; by rule 2 all behind unpack costs a quarter hour more, and a goal sees a finish at once. */
static void answers_no_plan(void) {
    const unsigned ruled = 5 + NUZZLEFLEECE_RULE_2, never = NUZZLEFLEECE_WHY_NEVER, dear = NUZZLEFLEECE_WHY_TOO_DEAR;
    const unsigned neither = NUZZLEFLEECE_WHY_NEITHER, none = NUZZLEFLEECE_NO_FACT;
    const uint64_t two = FACT(2) | FACT(3);
    says_why("P2", p3, 5, two, 11, dear, 3);
    says_why("P1 has a plan", p3, 5, two, 12, neither, none);
    says_why("P2 under rule 2", p3, ruled, two, 12, dear, 3);
    says_why("P1 under rule 2", p3, ruled, two, 13, neither, none);
    says_why("P6", p3, 5, FACT(0) | FACT(1), 2880, neither, none);
    says_why("the late crate", late, 5, two, 13, dear, 3);
    says_why("the late crate in time", late, 5, two, 14, neither, none);
    says_why("unpack alone under rule 2", p3, ruled, FACT(1), 4, neither, none);
    says_why("unpack alone, too short", p3, ruled, FACT(1), 3, dear, 1);
    says_why("both too dear", p3, 5, FACT(3) | FACT(4), 6, dear, 3);
    says_why("nothing wanted", p3, 5, 0, 0, neither, none);
    says_why("an open goal", p3, 5, FACT(0), 0, neither, none);
    says_why("a goal that nothing adds", p3, 64, FACT(63), 2880, never, 63);
    says_why("never before too dear", p3, 64, two | FACT(9) | FACT(40), 0, never, 9);
}

/* The first and the last fact, never reachable and too dear. */
static void names_edge_facts(void) {
    nuzzlefleece_action jobs[] = {of_facts(0, FACT(0), 0), of_facts(FACT(7), FACT(63), 0)};
    nuzzlefleece_ask ask = {.jobs = 2, .atoms = 64, .goals = FACT(0) | FACT(63)};
    reasons("the last never, the first too dear", nuzzlefleece_why_no_plan(jobs, 2, ask), 0, 0, NUZZLEFLEECE_WHY_NEVER, 63);
    ask.opening = FACT(7);
    reasons("both too dear", nuzzlefleece_why_no_plan(jobs, 2, ask), 0, 0, NUZZLEFLEECE_WHY_TOO_DEAR, 0);
    jobs[1].release = NUZZLEFLEECE_MOST_RELEASE;
    ask.bound = NUZZLEFLEECE_MOST_BOUND;
    reasons("the last too dear", nuzzlefleece_why_no_plan(jobs, 2, ask), 0, 0, NUZZLEFLEECE_WHY_TOO_DEAR, 63);
    jobs[0].conditions = FACT(0);
    reasons("the first never", nuzzlefleece_why_no_plan(jobs, 2, ask), 0, 0, NUZZLEFLEECE_WHY_NEVER, 0);
}

/* Every refusal of a table, each before those behind it: no kind and no fact. */
static void refuses_reasons(void) {
    nuzzlefleece_action jobs[25];
    nuzzlefleece_ask ask = {.jobs = 26, .atoms = 65, .goals = FACT(5), .bound = 2881};
    for (size_t i = 0; i < 25; i++) {
        jobs[i] = of_facts(1, 2, 2);
    }
    jobs[9].duration = 0;
    jobs[4].release = 2881;
    jobs[7].conditions = FACT(6);
    reasons("too few records", nuzzlefleece_why_no_plan(jobs, 25, ask), NUZZLEFLEECE_LENT_TOO_SHORT, 0, 0, 64);
    ask.jobs = 25;
    reasons("65 atoms", nuzzlefleece_why_no_plan(jobs, 25, ask), NUZZLEFLEECE_ATOMS_WRONG, 0, 0, 64);
    ask.atoms = 5 + NUZZLEFLEECE_RULE_2;
    reasons("25 jobs", nuzzlefleece_why_no_plan(jobs, 25, ask), NUZZLEFLEECE_TOO_MANY_JOBS, 0, 0, 64);
    ask.jobs = 24;
    reasons("no duration", nuzzlefleece_why_no_plan(jobs, 25, ask), NUZZLEFLEECE_DURATION_WRONG, 9, 0, 64);
    jobs[9].duration = 1;
    reasons("a release over 2,880", nuzzlefleece_why_no_plan(jobs, 25, ask), NUZZLEFLEECE_RELEASE_WRONG, 4, 0, 64);
    jobs[4].release = 2880;
    reasons("a fact of a job", nuzzlefleece_why_no_plan(jobs, 25, ask), NUZZLEFLEECE_FACT_WRONG, 7, 0, 64);
    jobs[7].conditions = 1;
    reasons("a goal", nuzzlefleece_why_no_plan(jobs, 25, ask), NUZZLEFLEECE_FACT_WRONG, 24, 0, 64);
    ask.goals = 2;
    reasons("adds and deletes", nuzzlefleece_why_no_plan(jobs, 25, ask), NUZZLEFLEECE_ADDS_AND_DELETES, 0, 0, 64);
    ask.jobs = 0;
    reasons("bound 2,881", nuzzlefleece_why_no_plan(jobs, 25, ask), NUZZLEFLEECE_BOUND_WRONG, 0, 0, 64);
    ask.bound = 2880;
    reasons("in order", nuzzlefleece_why_no_plan(jobs, 25, ask), 0, 0, NUZZLEFLEECE_WHY_NEVER, 1);
}

/* How late a plan of four jobs can get, with ones in every byte that a caller does not set. */
static nuzzlefleece_answer how_late(const nuzzlefleece_action *jobs, nuzzlefleece_ask ask, uint16_t most, const uint16_t *starts) {
    nuzzlefleece_overruns overruns;
    memset(&overruns, 255, sizeof overruns);
    overruns.ask = ask;
    overruns.most = most;
    return nuzzlefleece_how_late(jobs, 4, overruns, starts, 4);
}

/* The numbers of change request Twelve, also for a plan of P3 that takes its time, and whatever else is asked beside. */
static void tells_how_late(void) {
    static const uint16_t slack[] = {5, 30, 12, 20};
    nuzzlefleece_ask ask = p3_ask;
    says("P3, nothing over", how_late(p3, ask, 0, p3_starts), 0, 0, 12);
    says("P3, a quarter hour over", how_late(p3, ask, 1, p3_starts), 0, 0, 15);
    says("P3, a day over", how_late(p3, ask, NUZZLEFLEECE_MOST_OVERRUN, p3_starts), 0, 0, 300);
    ask.set = ALL_FACTS;
    ask.pairs = (size_t)-1;
    ask.bound = 2880;
    says("slack, nothing over", how_late(p3, ask, 0, slack), 0, 0, 12);
    says("slack, a quarter hour over", how_late(p3, ask, 1, slack), 0, 0, 15);
    says("slack, a day over", how_late(p3, ask, 96, slack), 0, 0, 300);
}

/* By rule 2 and with warm released at 6 P3 is finished later; unpack, wash and drench are still the longest chain. */
static void tells_by_rule_and_release(void) {
    nuzzlefleece_ask ask = p3_ask;
    ask.bound = 14;
    for (uint16_t most = 0; most <= NUZZLEFLEECE_MOST_OVERRUN; most++) {
        says("P3 under rule 2", how_late(p3, ruled_ask(13), most, ruled_starts), 0, 0, 13 + 3u * most);
        says("the late crate", how_late(late, ask, most, late_starts), 0, 0, 14 + 3u * most);
    }
}

/* The overrun stands in the two bytes behind the numbers, the low one first. */
static void reads_the_overrun(void) {
    uint8_t bytes[64] = {0};
    nuzzlefleece_overruns overruns;
    memcpy(bytes, &p3_ask, sizeof p3_ask);
    for (unsigned high = 0; high < 2; high++) {
        bytes[56] = 1;
        bytes[57] = (uint8_t)high;
        memcpy(&overruns, bytes, sizeof overruns);
        says("the overrun by its bytes", nuzzlefleece_how_late(p3, 4, overruns, p3_starts, 4), high * NUZZLEFLEECE_OVERRUN_WRONG, 0, 15 - 15 * high);
    }
}

/* Three jobs one behind the other, the last job first, and a long one beside them that is released; then fewer of them. */
static void counts_the_longest_chain(void) {
    static const nuzzlefleece_action jobs[] = {
        {.conditions = FACT(1), .additions = FACT(0), .duration = 2},
        {.conditions = FACT(2), .additions = FACT(1), .duration = 3},
        {.additions = FACT(2), .duration = 4},
        {.additions = FACT(3), .duration = 50, .release = 7},
    };
    static const uint16_t out = NUZZLEFLEECE_OUT;
    const uint16_t all[] = {20, 10, 1, 9}, three[] = {20, 10, 1, out}, two[] = {out, 10, 1, 9}, lone[] = {out, out, out, 9};
    const uint16_t none[] = {out, out, out, out};
    nuzzlefleece_ask ask = {.jobs = 4, .atoms = 4, .bound = 60};
    for (unsigned gap = 0; gap < 2; gap++) {
        for (uint16_t most = 0; most <= NUZZLEFLEECE_MOST_OVERRUN; most += 32) {
            says("a chain of three beside a long job", how_late(jobs, ask, most, all), 0, 0, 7 + 50 + 3u * most);
            says("the chain alone", how_late(jobs, ask, most, three), 0, 0, 4 + 3 + 2 + 2 * gap + 3u * most);
            says("a chain of two beside it", how_late(jobs, ask, most, two), 0, 0, 7 + 50 + 2u * most);
            says("a lone job", how_late(jobs, ask, most, lone), 0, 0, 7 + 50 + most);
            says("no jobs", how_late(jobs, ask, most, none), 0, 0, 0);
        }
        ask.atoms += NUZZLEFLEECE_RULE_2;
    }
}

/* 24 jobs one behind the other, the last job first, up to the last bound, by either rule. */
static void tells_of_full_tables(void) {
    nuzzlefleece_action jobs[24];
    uint16_t starts[24];
    for (unsigned gap = 0; gap < 2; gap++) {
        nuzzlefleece_overruns overruns = {.ask = {.jobs = 24, .atoms = 25, .opening = FACT(24), .goals = 1, .bound = 2880}};
        overruns.ask.atoms += (uint8_t)(gap * NUZZLEFLEECE_RULE_2);
        for (size_t i = 0; i < 24; i++) {
            jobs[i] = of_facts(FACT(i + 1), FACT(i), 0);
            jobs[i].duration = (uint16_t)(i == 0 ? 120 : 120 - gap);
            starts[i] = (uint16_t)(120 * (23 - i));
        }
        for (unsigned most = 0; most <= NUZZLEFLEECE_MOST_OVERRUN; most += 48) {
            overruns.most = (uint16_t)most;
            says("24 jobs", nuzzlefleece_how_late(jobs, 24, overruns, starts, 24), 0, 0, 2880 + 24 * most);
        }
    }
}

/* Overruns over 96, also those that would be taken without their high bits: place and value are 0. */
static void refuses_overruns(void) {
    static const uint16_t over[] = {97, 98, 127, 128, 255, 256, 257, 352, 32768, 65535};
    static const uint16_t none[] = {NUZZLEFLEECE_OUT, NUZZLEFLEECE_OUT, NUZZLEFLEECE_OUT, NUZZLEFLEECE_OUT};
    nuzzlefleece_ask ask = p3_ask;
    ask.goals = FACT(0);
    for (size_t i = 0; i < sizeof over / sizeof over[0]; i++) {
        says("over 96", how_late(p3, p3_ask, over[i], p3_starts), NUZZLEFLEECE_OVERRUN_WRONG, 0, 0);
        says("over 96 with no jobs", how_late(p3, ask, over[i], none), NUZZLEFLEECE_OVERRUN_WRONG, 0, 0);
    }
}

/* Every refusal of a table, each before those behind it, also that of the plan, which has no goal, and 34. */
static void refuses_late_tables(void) {
    nuzzlefleece_action jobs[25];
    static const uint16_t starts[26] = {0};
    nuzzlefleece_overruns overruns = {{.jobs = 26, .atoms = 65, .goals = FACT(5), .bound = 2881}, 97};
    for (size_t i = 0; i < 25; i++) {
        jobs[i] = of_facts(1, 2, 2);
    }
    jobs[9].duration = 0;
    jobs[4].release = 2881;
    jobs[7].conditions = FACT(6);
    says("too few records", nuzzlefleece_how_late(jobs, 25, overruns, starts, 26), NUZZLEFLEECE_LENT_TOO_SHORT, 0, 0);
    overruns.ask.jobs = 25;
    says("too few starts", nuzzlefleece_how_late(jobs, 25, overruns, starts, 24), NUZZLEFLEECE_LENT_TOO_SHORT, 0, 0);
    says("65 atoms", nuzzlefleece_how_late(jobs, 25, overruns, starts, 26), NUZZLEFLEECE_ATOMS_WRONG, 0, 0);
    overruns.ask.atoms = 5 + NUZZLEFLEECE_RULE_2;
    says("25 jobs", nuzzlefleece_how_late(jobs, 25, overruns, starts, 26), NUZZLEFLEECE_TOO_MANY_JOBS, 0, 0);
    overruns.ask.jobs = 24;
    says("no duration", nuzzlefleece_how_late(jobs, 25, overruns, starts, 26), NUZZLEFLEECE_DURATION_WRONG, 9, 0);
    jobs[9].duration = 1;
    says("a release over 2,880", nuzzlefleece_how_late(jobs, 25, overruns, starts, 26), NUZZLEFLEECE_RELEASE_WRONG, 4, 0);
    jobs[4].release = 2880;
    says("a fact of a job", nuzzlefleece_how_late(jobs, 25, overruns, starts, 26), NUZZLEFLEECE_FACT_WRONG, 7, 0);
    jobs[7].conditions = 1;
    says("a goal", nuzzlefleece_how_late(jobs, 25, overruns, starts, 26), NUZZLEFLEECE_FACT_WRONG, 24, 0);
    overruns.ask.goals = 2;
    says("adds and deletes", nuzzlefleece_how_late(jobs, 25, overruns, starts, 26), NUZZLEFLEECE_ADDS_AND_DELETES, 0, 0);
    overruns.ask.jobs = 0;
    says("bound 2,881", nuzzlefleece_how_late(jobs, 25, overruns, starts, 26), NUZZLEFLEECE_BOUND_WRONG, 0, 0);
    overruns.ask.bound = 2880;
    says("no jobs, and a goal", nuzzlefleece_how_late(jobs, 25, overruns, starts, 26), NUZZLEFLEECE_GOAL_MISSING, 1, 0);
}

/* Every refusal of a plan of P3's jobs, each before those behind it, and 34 last of all. What is lent stays as it was, also behind the plan. */
static void refuses_late_plans(void) {
    nuzzlefleece_action jobs[5] = {{.duration = 0}}, once[5];
    uint16_t starts[5] = {0, 6, 3, 4, 7}, before[5];
    nuzzlefleece_ask ask = p3_ask;
    nuzzlefleece_overruns overruns = {p3_ask, 96};
    memcpy(jobs, p3, sizeof p3);
    jobs[2].release = 4;
    ask.goals |= FACT(0);
    ask.bound = 10;
    says("a late end", how_late(jobs, ask, 97, starts), NUZZLEFLEECE_ENDS_TOO_LATE, 2, 0);
    ask.bound = 12;
    says("before its release", how_late(jobs, ask, 97, starts), NUZZLEFLEECE_BEFORE_RELEASE, 2, 0);
    jobs[2].release = 0;
    overlaps("an overlap", how_late(jobs, ask, 97, starts), 1, 2);
    starts[1] = 7;
    says("a condition missing", how_late(jobs, ask, 97, starts), NUZZLEFLEECE_CONDITION_MISSING, 2, 0);
    starts[2] = 4;
    says("a goal missing", how_late(jobs, ask, 97, starts), NUZZLEFLEECE_GOAL_MISSING, 0, 0);
    memcpy(once, jobs, sizeof once);
    memcpy(before, starts, sizeof before);
    says("97 over", how_late(jobs, p3_ask, 97, starts), NUZZLEFLEECE_OVERRUN_WRONG, 0, 0);
    says("more lent than needed", nuzzlefleece_how_late(jobs, 5, overruns, starts, 5), 0, 0, 300);
    expect("nothing lent is changed", memcmp(jobs, once, sizeof once) == 0 && memcmp(starts, before, sizeof before) == 0);
}

/* The jobs of each house group alone: conditions, additions and deletions as words of facts, then the quarter hours. */
static const uint8_t house_jobs[][4] = {
    {0, 2, 0, 4},
    {0, 2, 0, 4}, {3, 4, 1, 3}, {4, 1, 0, 1},
    {0, 2, 0, 6}, {3, 4, 1, 3}, {4, 1, 0, 1}, {4, 8, 0, 8},
    {0, 2, 0, 4}, {2, 4, 0, 12},
    {0, 2, 0, 8}, {3, 4, 1, 3}, {4, 1, 0, 1}, {4, 8, 0, 16},
    {0, 2, 0, 4}, {3, 4, 1, 3}, {4, 1, 0, 1}, {4, 8, 0, 8}, {8, 16, 0, 24},
    {0, 2, 0, 12},
    {0, 2, 0, 6}, {3, 4, 1, 2}, {4, 1, 0, 1}, {4, 8, 0, 12}, {9, 16, 1, 3}, {16, 1, 0, 1},
    {0, 2, 0, 4}, {2, 4, 0, 8}, {4, 8, 0, 16}, {8, 16, 0, 32},
    {0, 2, 0, 8}, {3, 4, 1, 3}, {4, 1, 0, 1}, {4, 8, 0, 24}, {9, 16, 1, 3}, {16, 1, 0, 1}, {16, 32, 0, 48},
    {0, 2, 0, 4}, {3, 4, 1, 2}, {4, 1, 0, 1}, {4, 8, 0, 8}, {9, 16, 1, 2}, {16, 1, 0, 1}, {16, 32, 0, 16}, {32, 64, 0, 32},
    {0, 2, 0, 96},
};
/* How many jobs each has, the first of them above, and how many facts there are with the bay. */
static const struct {
    uint8_t jobs, first, atoms;
} house_groups[] = {{1, 0, 2}, {3, 1, 3}, {4, 4, 4}, {2, 8, 3}, {4, 10, 4}, {5, 14, 5}, {1, 19, 2}, {6, 20, 5}, {4, 26, 5}, {7, 30, 6}, {8, 37, 7},
    {1, 45, 2}};

/* The records that are lent for batches, and the byte that fills them before each call. */
enum { BATCH_RECORDS = 40, BEFORE = 165 };
static nuzzlefleece_action batch_records[BATCH_RECORDS];

static nuzzlefleece_batch_answer enter(const uint8_t *groups, size_t batches, size_t lent) {
    memset(batch_records, BEFORE, sizeof batch_records);
    return nuzzlefleece_batches(groups, batches, batch_records, lent);
}

/* Whether the records from the first one behind the jobs on are as they were. */
static int untouched_from(size_t jobs) {
    return all_are((const uint8_t *)(batch_records + jobs), (BATCH_RECORDS - jobs) * sizeof(nuzzlefleece_action), BEFORE);
}

/* Batches are expanded to so many jobs and facts, with these goals. */
static void expands(const char *what, nuzzlefleece_batch_answer told, size_t jobs, unsigned atoms, uint64_t goals) {
    says(what, told.answer, 0, 0, 0);
    expect(what, told.jobs == jobs && told.atoms == atoms && told.opening == FACT(0) && told.goals == goals && untouched_from(jobs));
}

/* Batches are refused: all numbers are 0, and no record is touched. */
static void refuses_batches(const char *what, nuzzlefleece_batch_answer told, unsigned number, unsigned place) {
    says(what, told.answer, number, place, 0);
    expect(what, told.jobs == 0 && told.atoms == 0 && told.opening == 0 && told.goals == 0 && untouched_from(0));
}

/* The bay stays where it is, and the done facts are moved up behind those of the batches before. */
static uint64_t moved(uint64_t facts, unsigned by) {
    return (facts & 1) | (facts & ~(uint64_t)1) << by;
}

/* The records from a place on are the jobs of a group, with their done facts moved up. */
static void has_group(const char *what, size_t at, unsigned group, unsigned by) {
    int same = 1;
    for (size_t i = 0; i < house_groups[group].jobs; i++) {
        const uint8_t *wanted = house_jobs[house_groups[group].first + i];
        nuzzlefleece_action job = batch_records[at + i];
        same = same && job.conditions == moved(wanted[0], by) && job.additions == moved(wanted[1], by)
            && job.deletions == moved(wanted[2], by) && job.duration == wanted[3] && job.release == 0;
    }
    expect(what, same);
}

/* Every group alone, and with every other one behind it; none; every group that there is not. */
static void expands_groups(void) {
    for (unsigned one = 0; one < 256; one++) {
        uint8_t groups[] = {(uint8_t)one, 0};
        if (one >= NUZZLEFLEECE_HOUSE_GROUPS) {
            refuses_batches("no such group", enter(groups, 1, BATCH_RECORDS), NUZZLEFLEECE_GROUP_UNKNOWN, 0);
            continue;
        }
        const unsigned jobs = house_groups[one].jobs, last = house_groups[one].atoms - 1u;
        expands("one batch", enter(groups, 1, jobs), jobs, last + 1, FACT(last));
        has_group("its jobs", 0, one, 0);
        for (unsigned other = 0; other < NUZZLEFLEECE_HOUSE_GROUPS; other++) {
            const unsigned goal = last + house_groups[other].atoms - 1;
            groups[1] = (uint8_t)other;
            expands("two batches", enter(groups, 2, 24), jobs + house_groups[other].jobs, goal + 1, FACT(last) | FACT(goal));
            has_group("the first", 0, one, 0);
            has_group("the second", jobs, other, last);
        }
    }
    expands("no batches", enter(NULL, 0, BATCH_RECORDS), 0, 1, 0);
}

/* As many jobs as there may be, and more; records for just the jobs, and one too few. */
static void expands_full_tables(void) {
    static const uint8_t sevens[] = {7, 7, 7, 7}, three[] = {10, 10, 10}, over[] = {10, 10, 10, 0, 10, 10, 10, 1, 10, 10, 10, 10};
    expands("four batches of group 7", enter(sevens, 4, 24), 24, 17, FACT(4) | FACT(8) | FACT(12) | FACT(16));
    for (unsigned batch = 0; batch < 4; batch++) {
        has_group("each of group 7", 6 * batch, 7, 4 * batch);
    }
    expands("three batches of group 10", enter(three, 3, 25), 24, 19, FACT(6) | FACT(12) | FACT(18));
    for (unsigned batch = 0; batch < 3; batch++) {
        has_group("each of group 10", 8 * batch, 10, 6 * batch);
    }
    for (size_t lent = 0; lent < 24; lent++) {
        refuses_batches("too few records", enter(sevens, 4, lent), NUZZLEFLEECE_LENT_TOO_SHORT, 0);
    }
    for (size_t first = 0; first < sizeof over; first += 4) {
        refuses_batches("over 24 jobs", enter(over + first, 4, BATCH_RECORDS), NUZZLEFLEECE_BATCHES_TOO_LARGE, 0);
        refuses_batches("over 24 jobs, no records", enter(over + first, 4, 0), NUZZLEFLEECE_BATCHES_TOO_LARGE, 0);
    }
}

/* A group that there is not comes before too many batches, wherever it stands, and both before too few records. */
static void refuses_groups(void) {
    static const uint16_t far[] = {65534, 65535, 65535};
    static const size_t stands[] = {65534, 65535, 70000};
    static uint8_t groups[70001];
    for (size_t place = 0; place < 8; place++) {
        uint8_t few[] = {7, 10, 10, 10, 0, 0, 0, 0};
        few[place] = place % 2 == 0 ? 12 : 255;
        refuses_batches("an unknown group", enter(few, 8, 0), NUZZLEFLEECE_GROUP_UNKNOWN, (unsigned)place);
        refuses_batches("as the last", enter(few, place + 1, BATCH_RECORDS), NUZZLEFLEECE_GROUP_UNKNOWN, (unsigned)place);
        few[7] = 200;
        refuses_batches("the lowest of two", enter(few, 8, 24), NUZZLEFLEECE_GROUP_UNKNOWN, (unsigned)place);
    }
    for (size_t batches = 5; batches < 70000; batches *= 3) {
        refuses_batches("more than four", enter(groups, batches, BATCH_RECORDS), NUZZLEFLEECE_TOO_MANY_BATCHES, 4);
        refuses_batches("more than four, no records", enter(groups, batches, 0), NUZZLEFLEECE_TOO_MANY_BATCHES, 4);
    }
    for (size_t i = 0; i < 3; i++) {
        groups[stands[i]] = 12;
        refuses_batches("far behind", enter(groups, stands[i] + 1, 24), NUZZLEFLEECE_GROUP_UNKNOWN, far[i]);
        groups[stands[i]] = 0;
    }
}

/* What batches are expanded to is planned as it stands, by either rule: the second batch of group 7 waits twice for the bay. */
static void plans_batches(void) {
    static const uint8_t sevens[] = {7, 7};
    uint16_t starts[12] = {0};
    nuzzlefleece_batch_answer told = enter(sevens, 2, BATCH_RECORDS);
    nuzzlefleece_ask ask = {.jobs = told.jobs, .atoms = told.atoms, .opening = told.opening, .goals = told.goals, .bound = 2880};
    says("two batches of group 7", nuzzlefleece_least_bound(batch_records, BATCH_RECORDS, ask, starts, 12), 0, 0, 27);
    expect("the last clearing is left out", starts[10] == 24 && starts[11] == NUZZLEFLEECE_OUT);
    ask.bound = 26;
    says("no sooner", nuzzlefleece_plan_within(batch_records, BATCH_RECORDS, ask, starts, 12), NUZZLEFLEECE_NO_PLAN, 0, 0);
    ask.bound = 2880;
    ask.atoms += NUZZLEFLEECE_RULE_2;
    says("the same under rule 2", nuzzlefleece_least_bound(batch_records, BATCH_RECORDS, ask, starts, 12), 0, 0, 32);
    ask = (nuzzlefleece_ask){.atoms = 1, .opening = 1};
    says("no batches", nuzzlefleece_least_bound(batch_records, BATCH_RECORDS, ask, starts, 12), 0, 0, 0);
}

/* P3's plan as text, its name table, and the text as another planner might write it. */
static const char p3_text[] = "0.000: (unpack) [4.000]\n4.000: (warm) [8.000]\n4.000: (wash) [3.000]\n7.000: (drench) [2.000]\n";
static const char p3_names[][NUZZLEFLEECE_NAME_BYTES] = {"unpack", "drench", "warm", "wash"};
static const char other_text[] = "7: (drench) [2]\n0004.0: (wash) [3]\n0: (unpack) [4.00000]\n4: (warm) [0008]\n";

/* Memory that is lent for starts and for a text stands between bytes that no call may touch. */
enum { GUARD = 8, MOST_STARTS = 24, TEXT_BYTES = NUZZLEFLEECE_MOST_JOBS * NUZZLEFLEECE_LINE_BYTES };
static uint16_t guarded_starts[GUARD + MOST_STARTS + GUARD];
static uint8_t guarded_text[GUARD + TEXT_BYTES + GUARD];

/* Whether the bytes of some memory are as they were, but for some of them from a place on. */
static int untouched_but(const void *memory, size_t size, size_t from, size_t count) {
    const uint8_t *bytes = memory;
    return all_are(bytes, from, BEFORE) && all_are(bytes + from + count, size - from - count, BEFORE);
}

static nuzzlefleece_answer read_bytes(nuzzlefleece_ask ask, const void *names, size_t names_length, const char *text, size_t length, size_t starts) {
    memset(guarded_starts, BEFORE, sizeof guarded_starts);
    return nuzzlefleece_read_text(p3, 4, ask, names, names_length, (const uint8_t *)text, length, guarded_starts + GUARD, starts);
}

/* A text of P3 is refused: nothing is filled. */
static void refuses_text(const char *text, unsigned number, unsigned line) {
    says(text, read_bytes(p3_ask, p3_names, sizeof p3_names, text, strlen(text), 4), number, line, 0);
    expect("nothing filled", untouched_but(guarded_starts, sizeof guarded_starts, 0, 0));
}

/* A text of P3 gives these starts, and no place but the four is touched. */
static void reads_text(const char *text, const uint16_t *wanted) {
    says(text, read_bytes(p3_ask, p3_names, sizeof p3_names, text, strlen(text), 6), 0, 0, 0);
    expect(text, memcmp(guarded_starts + GUARD, wanted, 8) == 0 && untouched_but(guarded_starts, sizeof guarded_starts, 2 * GUARD, 8));
}

static nuzzlefleece_answer write_plan(nuzzlefleece_ask ask, const void *names, size_t names_length, const uint16_t *starts, size_t lent, size_t room) {
    memset(guarded_text, BEFORE, sizeof guarded_text);
    return nuzzlefleece_write_text(p3, 4, ask, names, names_length, starts, lent, guarded_text + GUARD, room);
}

/* A plan is refused: no byte is filled. */
static void refuses_plan(const char *what, nuzzlefleece_answer answer, unsigned number, unsigned second, unsigned place) {
    says_all(what, answer, number, second, place, 0);
    expect("no byte filled", untouched_but(guarded_text, sizeof guarded_text, 0, 0));
}

/* P3 is written with 92 bytes, in 156 and in more, and read back; lines in any order, numbers in any form. */
static void answers_texts(void) {
    static const uint16_t none[] = {NUZZLEFLEECE_OUT, NUZZLEFLEECE_OUT, NUZZLEFLEECE_OUT, NUZZLEFLEECE_OUT};
    static const uint16_t last[] = {NUZZLEFLEECE_OUT, NUZZLEFLEECE_OUT, 2880, NUZZLEFLEECE_OUT};
    static const size_t rooms[] = {156, 157, TEXT_BYTES};
    nuzzlefleece_ask ask = p3_ask;
    for (size_t i = 0; i < 3; i++) {
        says("P3 written", write_plan(p3_ask, p3_names, sizeof p3_names, p3_starts, 4, rooms[i]), 0, 0, 92);
        expect("92 bytes, and no other", memcmp(guarded_text + GUARD, p3_text, 92) == 0 && untouched_but(guarded_text, sizeof guarded_text, GUARD, 92));
    }
    reads_text(p3_text, p3_starts);
    reads_text(other_text, p3_starts);
    reads_text("", none);
    reads_text("2880: (warm) [8]\n", last);
    ask.bound = 65535;
    says("reading looks at no bound", read_bytes(ask, p3_names, sizeof p3_names, p3_text, 92, 4), 0, 0, 0);
    ask.bound = 2881;
    refuses_plan("writing does", write_plan(ask, p3_names, sizeof p3_names, p3_starts, 4, 156), NUZZLEFLEECE_BOUND_WRONG, 0, 0);
    ask = p3_ask;
    ask.goals = 0;
    says("the plan without jobs", write_plan(ask, p3_names, sizeof p3_names, none, 4, 156), 0, 0, 0);
    expect("the empty text", untouched_but(guarded_text, sizeof guarded_text, 0, 0));
}

/* Every byte of the text dropped, and each of some others put in its place, of which a 7 as a start alone is taken; what is refused fills nothing. */
static void reads_damaged_texts(void) {
    static const char others[] = "\0 \n(.7Z\xff";
    char text[sizeof p3_text];
    unsigned read = 0;
    for (size_t at = 0; at < 92; at++) {
        memcpy(text, p3_text, at);
        memcpy(text + at, p3_text + at + 1, 91 - at);
        nuzzlefleece_answer answer = read_bytes(p3_ask, p3_names, sizeof p3_names, text, 91, 4);
        expect("a byte dropped", answer.number == 0 || untouched_but(guarded_starts, sizeof guarded_starts, 0, 0));
        read += answer.number == 0;
        memcpy(text, p3_text, sizeof text);
        for (size_t i = 0; i < sizeof others - 1; i++) {
            text[at] = others[i];
            answer = read_bytes(p3_ask, p3_names, sizeof p3_names, text, 92, 4);
            expect("a byte put in", (answer.number == 0) == (text[at] == p3_text[at] || (text[at] == '7' && (at == 0 || p3_text[at - 1] == '\n'))));
            expect("the line is told", answer.number == 0 || (answer.place < 5 && untouched_but(guarded_starts, sizeof guarded_starts, 0, 0)));
        }
    }
    expect("24 zeros may be dropped, and the point of 0.000", read == 25);
}

/* What a line is refused with, the lowest number first, and the first bad line. */
static void refuses_lines(void) {
    refuses_text("00004: (warm) [8]\n", NUZZLEFLEECE_LINE_WRONG, 0);
    refuses_text("4.: (warm) [8]\n", NUZZLEFLEECE_LINE_WRONG, 0);
    refuses_text(".0: (warm) [8]\n", NUZZLEFLEECE_LINE_WRONG, 0);
    refuses_text("4.01: (warm) [8]\n", NUZZLEFLEECE_LINE_WRONG, 0);
    refuses_text("4: (Warm) [8]\n", NUZZLEFLEECE_LINE_WRONG, 0);
    refuses_text("4: (warmwarmwarmwarmw) [8]\n", NUZZLEFLEECE_LINE_WRONG, 0);
    refuses_text("4: (warmwarmwarmwarm) [8]\n", NUZZLEFLEECE_NAME_UNKNOWN, 0);
    refuses_text("2881: (rinse) [9]\n", NUZZLEFLEECE_LINE_WRONG, 0);
    refuses_text("9999: (warm) [8]\n", NUZZLEFLEECE_LINE_WRONG, 0);
    refuses_text("4: (warm) [8]", NUZZLEFLEECE_LINE_WRONG, 0);
    refuses_text("4: (warm) [8]\n\n", NUZZLEFLEECE_LINE_WRONG, 1);
    refuses_text("4: (warm) [8]\n4: (warm) [8]\n", NUZZLEFLEECE_JOB_TWICE, 1);
    refuses_text("4: (warm) [8]\n5: (wash) [3]\n6: (warm) [9]\n", NUZZLEFLEECE_JOB_TWICE, 2);
    refuses_text("4: (warm) [0]\n", NUZZLEFLEECE_OTHER_DURATION, 0);
    refuses_text("4: (warm) [961]\n", NUZZLEFLEECE_OTHER_DURATION, 0);
    refuses_text("5: (wash) [3]\n4: (warm) [9999]\nx", NUZZLEFLEECE_OTHER_DURATION, 1);
    refuses_text("5: (wash) [3]\n4: (rinse) [9]\n5: (wash) [3]\n", NUZZLEFLEECE_NAME_UNKNOWN, 1);
}

/* A name table that is bad at a job: in reading before any line, in writing behind any fault of the plan. */
static void refuses_names(const char *what, const void *names, unsigned job) {
    static const uint16_t early[] = {0, 6, 4, 4};
    says(what, read_bytes(p3_ask, names, 64, "x", 1, 4), NUZZLEFLEECE_NAMES_WRONG, job, 0);
    expect("nothing filled", untouched_but(guarded_starts, sizeof guarded_starts, 0, 0));
    refuses_plan(what, write_plan(p3_ask, names, 64, p3_starts, 4, 156), NUZZLEFLEECE_NAMES_WRONG, 0, job);
    refuses_plan(what, write_plan(p3_ask, names, 64, early, 4, 156), NUZZLEFLEECE_OVERLAP, 2, 1);
}

/* Each job with a bad name, and every two alike. */
static void refuses_name_tables(void) {
    static const char bad[][NUZZLEFLEECE_NAME_BYTES] = {"", "Warm", "wa_m", "wa m", "w\x80", "a\0b", {[0] = 'a', [15] = 'b'}};
    char names[4][NUZZLEFLEECE_NAME_BYTES];
    for (unsigned job = 0; job < 4; job++) {
        for (size_t i = 0; i < sizeof bad / sizeof bad[0]; i++) {
            memcpy(names, p3_names, sizeof names);
            memcpy(names[job], bad[i], sizeof bad[i]);
            refuses_names("a bad name", names, job);
        }
        for (unsigned other = 0; other < job; other++) {
            memcpy(names, p3_names, sizeof names);
            memcpy(names[job], names[other], sizeof names[other]);
            refuses_names("two alike", names, other);
        }
    }
}

/* One byte or element too few of each thing that is lent, just enough, and more; counts that would overflow. */
static void refuses_short_texts(void) {
    static const size_t counts[] = {5, (size_t)1 << 60, ((size_t)1 << 60) + 4, (size_t)1 << 63, (size_t)-1};
    static const uint16_t more[] = {0, 7, 4, 4, 1};
    char names[97];
    nuzzlefleece_ask ask = p3_ask;
    memset(names, 1, sizeof names);
    memcpy(names, p3_names, sizeof p3_names);
    says("64 bytes of names", read_bytes(ask, names, 64, p3_text, 92, 4), 0, 0, 0);
    says("97 bytes of names", read_bytes(ask, names, 97, p3_text, 92, 24), 0, 0, 0);
    says("97 bytes of names", write_plan(ask, names, 97, more, 5, 156), 0, 0, 92);
    says("63 bytes of names", read_bytes(ask, names, 63, p3_text, 92, 4), NUZZLEFLEECE_LENT_TOO_SHORT, 0, 0);
    says("three starts", read_bytes(ask, names, 64, p3_text, 92, 3), NUZZLEFLEECE_LENT_TOO_SHORT, 0, 0);
    says("no names", read_bytes(ask, NULL, 0, p3_text, 92, 4), NUZZLEFLEECE_LENT_TOO_SHORT, 0, 0);
    refuses_plan("63 bytes of names", write_plan(ask, names, 63, p3_starts, 4, 156), NUZZLEFLEECE_LENT_TOO_SHORT, 0, 0);
    refuses_plan("three starts", write_plan(ask, names, 64, p3_starts, 3, 156), NUZZLEFLEECE_LENT_TOO_SHORT, 0, 0);
    refuses_plan("155 bytes of text", write_plan(ask, names, 64, p3_starts, 4, 155), NUZZLEFLEECE_LENT_TOO_SHORT, 0, 0);
    for (size_t i = 0; i < sizeof counts / sizeof counts[0]; i++) {
        ask.jobs = counts[i];
        says("more jobs than names", read_bytes(ask, names, 64, p3_text, 92, MOST_STARTS), NUZZLEFLEECE_LENT_TOO_SHORT, 0, 0);
        refuses_plan("more jobs than names", write_plan(ask, names, 64, more, 5, TEXT_BYTES), NUZZLEFLEECE_LENT_TOO_SHORT, 0, 0);
    }
}

/* 24 lines of 39 bytes are written and read back; one more is refused, whatever its job; 25 jobs are refused. */
static void fills_texts(void) {
    nuzzlefleece_action jobs[25];
    nuzzlefleece_ask ask = {.jobs = 24, .atoms = 1, .goals = 1, .bound = 2880};
    char names[25][NUZZLEFLEECE_NAME_BYTES], text[TEXT_BYTES + 39];
    uint16_t starts[24], back[25] = {0};
    for (size_t i = 0; i < 25; i++) {
        jobs[i] = (nuzzlefleece_action){.additions = 1, .duration = 960};
        memset(names[i], 'a', sizeof names[i]);
        names[i][15] = (char)('a' + i);
    }
    for (size_t i = 0; i < 24; i++) {
        starts[i] = (uint16_t)(1920 - i);
    }
    memset(guarded_text, BEFORE, sizeof guarded_text);
    says("24 lines", nuzzlefleece_write_text(jobs, 25, ask, (const uint8_t *)names, sizeof names, starts, 24, guarded_text + GUARD, TEXT_BYTES), 0, 0, TEXT_BYTES);
    expect("all bytes filled, and no other", untouched_but(guarded_text, sizeof guarded_text, GUARD, TEXT_BYTES));
    expect("the last job first", memcmp(guarded_text + GUARD, "1897.000: (aaaaaaaaaaaaaaax) [960.000]\n", 39) == 0);
    memcpy(text, guarded_text + GUARD, TEXT_BYTES);
    memcpy(text + TEXT_BYTES, text, 39);
    says("read back", nuzzlefleece_read_text(jobs, 25, ask, (const uint8_t *)names, sizeof names, (const uint8_t *)text, TEXT_BYTES, back, 25), 0, 0, 0);
    expect("the same starts", memcmp(back, starts, sizeof starts) == 0 && back[24] == 0);
    says("a job again", nuzzlefleece_read_text(jobs, 25, ask, (const uint8_t *)names, sizeof names, (const uint8_t *)text, sizeof text, back, 25),
        NUZZLEFLEECE_JOB_TWICE, 24, 0);
    text[TEXT_BYTES + 11] = 'b';
    says("a strange name", nuzzlefleece_read_text(jobs, 25, ask, (const uint8_t *)names, sizeof names, (const uint8_t *)text, sizeof text, back, 25),
        NUZZLEFLEECE_NAME_UNKNOWN, 24, 0);
    ask.jobs = 25;
    says("25 jobs", nuzzlefleece_read_text(jobs, 25, ask, (const uint8_t *)names, sizeof names, NULL, 0, back, 25), NUZZLEFLEECE_TOO_MANY_JOBS, 0, 0);
}

/* Plans that are not valid, with the second number, each before the names; the same texts are read. */
static void refuses_texts_of_plans(void) {
    static const struct {
        uint16_t starts[4];
        unsigned bound, number, second, place;
    } plans[] = {{{0, 7, 4, 4}, 11, NUZZLEFLEECE_ENDS_TOO_LATE, 0, 2}, {{0, 6, 4, 4}, 12, NUZZLEFLEECE_OVERLAP, 2, 1},
        {{NUZZLEFLEECE_OUT, 7, 4, 4}, 12, NUZZLEFLEECE_CONDITION_MISSING, 0, 1}, {{0, 7, 4, NUZZLEFLEECE_OUT}, 12, NUZZLEFLEECE_GOAL_MISSING, 0, 4}};
    for (size_t i = 0; i < sizeof plans / sizeof plans[0]; i++) {
        nuzzlefleece_ask ask = p3_ask;
        ask.bound = (uint16_t)plans[i].bound;
        refuses_plan("not valid", write_plan(ask, p3_names, 64, plans[i].starts, 4, 156), plans[i].number, plans[i].second, plans[i].place);
        refuses_plan("before the names", write_plan(ask, "", 0, plans[i].starts, 4, 156), NUZZLEFLEECE_LENT_TOO_SHORT, 0, 0);
    }
    memset(guarded_text, BEFORE, sizeof guarded_text);
    refuses_plan("before a release", nuzzlefleece_write_text(late, 4, p3_ask, (const uint8_t *)p3_names, 64, p3_starts, 4, guarded_text + GUARD, 156),
        NUZZLEFLEECE_BEFORE_RELEASE, 0, 2);
}

/* The desk's open table, and bytes around it that no edit may touch. */
static struct {
    uint8_t before[64];
    nuzzlefleece_open_table table;
    uint8_t behind[64];
} desk;

/* One edit of it: an addition names no job. */
typedef enum edit_kind { ADDS, REPLACES, REMOVES } edit_kind;
typedef struct edit {
    edit_kind kind;
    uint8_t job;
    nuzzlefleece_action record;
} edit;

static nuzzlefleece_answer make_edit(edit e) {
    nuzzlefleece_replacement replacement = {e.job, e.record};
    if (e.kind == ADDS) {
        return nuzzlefleece_add(&desk.table, e.record);
    }
    return e.kind == REPLACES ? nuzzlefleece_replace(&desk.table, replacement) : nuzzlefleece_remove(&desk.table, e.job);
}

static nuzzlefleece_answer add_job(nuzzlefleece_action record) {
    edit e = {ADDS, 0, record};
    return make_edit(e);
}

static nuzzlefleece_answer replace_job(uint8_t job, nuzzlefleece_action record) {
    edit e = {REPLACES, job, record};
    return make_edit(e);
}

static int unharmed(void) {
    return all_are(desk.before, sizeof desk.before, BEFORE) && all_are(desk.behind, sizeof desk.behind, BEFORE);
}

/* Whether a record has the fields of another; its reserved bytes are not looked at. */
static int same_job(nuzzlefleece_action one, nuzzlefleece_action other) {
    return one.conditions == other.conditions && one.additions == other.additions && one.deletions == other.deletions
        && one.duration == other.duration && one.release == other.release;
}

/* Whether the table has just these jobs, zeros behind them, and in every bit of every row what nuzzlefleece_why_clash says. */
static int right_table(unsigned atoms, const nuzzlefleece_action *jobs, size_t count) {
    nuzzlefleece_action none = {.duration = 0};
    int right = unharmed() && desk.table.atoms == atoms && desk.table.count == count;
    for (size_t i = 0; i < NUZZLEFLEECE_MOST_JOBS; i++) {
        uint32_t row = 0;
        for (size_t j = 0; i < count && j < count; j++) {
            int clash = i != j && nuzzlefleece_why_clash(jobs[i], jobs[j]).kind != NUZZLEFLEECE_CLASH_NONE;
            row |= (uint32_t)clash << j;
        }
        right = right && same_job(desk.table.jobs[i], i < count ? jobs[i] : none) && desk.table.rows[i] == row;
    }
    return right;
}

/* Bytes of no meaning everywhere, then a table of these jobs, added one by one. */
static void open_desk(uint8_t atoms, const nuzzlefleece_action *jobs, size_t count) {
    memset(&desk, BEFORE, sizeof desk);
    says("begin", nuzzlefleece_begin(&desk.table, atoms), 0, 0, 0);
    for (size_t i = 0; i < count; i++) {
        says("the number of an addition", add_job(jobs[i]), 0, 0, (unsigned)i);
    }
    expect("the table begun", right_table(atoms, jobs, count));
}

/* The edit is refused, and not a byte has changed, around the table neither. */
static void refuses_edit(const char *what, edit e, unsigned number, unsigned place) {
    static uint8_t once[sizeof desk];
    memcpy(once, &desk, sizeof desk);
    says(what, make_edit(e), number, place, 0);
    expect(what, memcmp(once, &desk, sizeof desk) == 0);
}

/* All three edits, those of a job with this one. */
static void refuses_all(const char *what, uint8_t job, nuzzlefleece_action record, unsigned number, unsigned place) {
    for (int kind = ADDS; kind <= REMOVES; kind++) {
        edit e = {(edit_kind)kind, job, record};
        refuses_edit(what, e, number, place);
    }
}

/* Every byte as an atom count, over bytes of no meaning. */
static void begins_tables(void) {
    static uint8_t once[sizeof desk];
    for (unsigned byte = 0; byte < 256; byte++) {
        int taken = byte % 128 >= 1 && byte % 128 <= 64;
        memset(&desk, BEFORE, sizeof desk);
        memset(&desk.table, (int)(byte ^ 255), sizeof desk.table);
        memcpy(once, &desk, sizeof desk);
        says("begin with any byte", nuzzlefleece_begin(&desk.table, (uint8_t)byte), taken ? 0 : NUZZLEFLEECE_ATOMS_WRONG, 0, 0);
        expect("begun, or as it was", taken ? right_table(byte, NULL, 0) : memcmp(once, &desk, sizeof desk) == 0);
    }
}

/* P3's jobs: drench and wash clash. One is replaced and some are removed; the fields stand where the header has them. */
static void edits_p3(void) {
    static const uint8_t numbers[] = {5, 4, 0, 0, 0, 0, 0, 0, 0}, rows[] = {0, 0, 0, 0, 8, 0, 0, 0, 0, 0, 0, 0, 2, 0, 0, 0, 0, 0, 0, 0};
    const uint8_t *bytes = (const uint8_t *)&desk.table;
    nuzzlefleece_action jobs[5];
    memcpy(jobs, p3, sizeof p3);
    open_desk(5, p3, 4);
    expect("atoms and count in their bytes", bytes[0] == numbers[0] && memcmp(bytes + 8, numbers + 1, 8) == 0);
    expect("records and rows in their bytes", memcmp(bytes + 16 + 96, &p3[3], 28) == 0 && memcmp(bytes + 784, rows, sizeof rows) == 0);
    jobs[3].deletions = 0;
    says("a wash that undoes nothing", replace_job(3, jobs[3]), 0, 0, 0);
    expect("no clash is left", right_table(5, jobs, 4) && desk.table.rows[1] == 0 && desk.table.rows[3] == 0);
    jobs[4] = jobs[0];
    says("one more unpack", add_job(jobs[4]), 0, 0, 4);
    expect("two that clash", right_table(5, jobs, 5) && desk.table.rows[0] == 16 && desk.table.rows[4] == 1);
    says("remove drench", nuzzlefleece_remove(&desk.table, 1), 0, 0, 0);
    memmove(jobs + 1, jobs + 2, 3 * sizeof jobs[0]);
    expect("the later ones moved down", right_table(5, jobs, 4) && desk.table.rows[0] == 8 && desk.table.rows[3] == 1);
    for (size_t left = 4; left > 0; left--) {
        says("remove the last", nuzzlefleece_remove(&desk.table, (uint8_t)(left - 1)), 0, 0, 0);
        expect("one less", right_table(5, jobs, left - 1));
    }
    says("remove from none", nuzzlefleece_remove(&desk.table, 0), NUZZLEFLEECE_NO_SUCH_JOB, 0, 0);
}

/* Other calls on the table's own jobs, without a copy. */
static void lends_its_jobs(void) {
    static uint8_t pairs[NUZZLEFLEECE_PAIRS_BYTES], file[152];
    const nuzzlefleece_open_table *table = &desk.table;
    nuzzlefleece_save save = {p3_ask, 0};
    uint16_t out[4] = {0};
    open_desk(5, p3, 4);
    says("check plan", nuzzlefleece_check_plan(table->jobs, table->count, p3_ask, p3_starts, 4), 0, 0, 0);
    says("binding pairs", nuzzlefleece_binding_pairs(table->jobs, table->count, p3_ask, p3_starts, 4, pairs, sizeof pairs), 0, 0, 4);
    expect("the pairs of P3", memcmp(pairs, p3_pairs, 8) == 0);
    says("estimates", nuzzlefleece_earliest(table->jobs, table->count, p3_ask, out, 4), 0, 0, 0);
    expect("all but unpack from 4", out[0] == 0 && out[1] == 4 && out[2] == 4 && out[3] == 4);
    clashes("drench and wash", nuzzlefleece_why_clash(table->jobs[1], table->jobs[3]), NUZZLEFLEECE_CLASH_ADDITION, 2);
    says("a save", nuzzlefleece_write_file(table->jobs, table->count, save, file, sizeof file), 0, 0, sizeof file);
    expect("nothing changed", right_table(5, p3, 4));
}

/* Job i of 24 that all clash: each adds a fact of its own and deletes those of all others. */
static nuzzlefleece_action against_all(size_t i) {
    return of_facts(0, FACT(i), (FACT(24) - 1) & ~FACT(i));
}

/* 24 jobs of which all clash, and no room for one more; each removed, and its room used again. */
static void fills_tables(void) {
    nuzzlefleece_action jobs[NUZZLEFLEECE_MOST_JOBS];
    for (size_t i = 0; i < NUZZLEFLEECE_MOST_JOBS; i++) {
        jobs[i] = against_all(i);
    }
    open_desk(24 + NUZZLEFLEECE_RULE_2, jobs, 24);
    for (size_t i = 0; i < NUZZLEFLEECE_MOST_JOBS; i++) {
        edit more = {ADDS, 0, against_all(i)}, none = {REMOVES, 24, against_all(i)};
        expect("all but its own bit", desk.table.rows[i] == (0xffffffu & ~((uint32_t)1 << i)));
        refuses_edit("no room", more, NUZZLEFLEECE_TOO_MANY_JOBS, 0);
        refuses_edit("job 24 of 24", none, NUZZLEFLEECE_NO_SUCH_JOB, 24);
        says("remove one of 24", nuzzlefleece_remove(&desk.table, (uint8_t)i), 0, 0, 0);
        memmove(jobs + i, jobs + i + 1, (23 - i) * sizeof jobs[0]);
        expect("23 are left", right_table(24 + NUZZLEFLEECE_RULE_2, jobs, 23));
        jobs[23] = of_facts(FACT(i), 0, 0);
        says("its room again", add_job(jobs[23]), 0, 0, 23);
        expect("24 again", right_table(24 + NUZZLEFLEECE_RULE_2, jobs, 24));
        says("and as before", replace_job(23, against_all(i)), 0, 0, 0);
        jobs[23] = against_all(i);
    }
}

/* A record for each fault of a record, the last to be told first. */
static const struct {
    nuzzlefleece_action record;
    unsigned number;
} bad_jobs[] = {
    {{.additions = FACT(1), .deletions = FACT(1), .duration = 2}, NUZZLEFLEECE_ADDS_AND_DELETES},
    {{.conditions = FACT(5), .duration = 2}, NUZZLEFLEECE_FACT_WRONG},
    {{.duration = 2, .release = NUZZLEFLEECE_MOST_RELEASE + 1}, NUZZLEFLEECE_RELEASE_WRONG},
    {{.duration = NUZZLEFLEECE_MOST_DURATION + 1}, NUZZLEFLEECE_DURATION_WRONG},
};

/* A bad record in a good table: as a new job, which has its number as place, and instead of a job. */
static void refuses_bad_jobs(void) {
    open_desk(5, p3, 4);
    for (size_t i = 0; i < 4; i++) {
        edit more = {ADDS, 0, bad_jobs[i].record}, other = {REPLACES, 2, bad_jobs[i].record};
        refuses_edit("a bad job more", more, bad_jobs[i].number, 4);
        refuses_edit("a bad job instead", other, bad_jobs[i].number, 2);
    }
    expect("the good table", right_table(5, p3, 4));
}

/* One bad job after the other put into the table: each is told before those put in earlier, by any edit of another job. A good one may take the place of
 * the only bad one, which cannot be removed. */
static void refuses_bad_tables(void) {
    open_desk(5, p3, 4);
    for (size_t i = 0; i < 4; i++) {
        desk.table.jobs[i] = bad_jobs[i].record;
        refuses_all("the first fault", i < 3 ? 3 : 0, p3[1], bad_jobs[i].number, (unsigned)i);
    }
    for (size_t i = 3; i > 0; i--) {
        edit good = {REPLACES, (uint8_t)i, p3[i]}, gone = {REMOVES, (uint8_t)i, p3[i]};
        refuses_edit("the others are bad", good, bad_jobs[i - 1].number, (unsigned)(i - 1));
        refuses_edit("a bad job stays", gone, bad_jobs[i].number, (unsigned)i);
        desk.table.jobs[i] = p3[i];
    }
    says("the only bad one replaced", replace_job(0, p3[0]), 0, 0, 0);
    expect("a good table again", right_table(5, p3, 4));
}

/* A job that is not there is told before all else, then the atom count, then too many jobs, then the jobs. */
static void refuses_in_order(void) {
    edit gone = {REMOVES, 25, p3[0]}, other = {REPLACES, 25, p3[0]};
    open_desk(5, p3, 4);
    desk.table.jobs[1] = bad_jobs[3].record;
    desk.table.count = 25;
    desk.table.atoms = 65;
    refuses_edit("not there, in a bad table", gone, NUZZLEFLEECE_NO_SUCH_JOB, 25);
    refuses_edit("not there, in a bad table", other, NUZZLEFLEECE_NO_SUCH_JOB, 25);
    refuses_all("65 atoms", 24, bad_jobs[3].record, NUZZLEFLEECE_ATOMS_WRONG, 0);
    desk.table.atoms = NUZZLEFLEECE_RULE_2;
    refuses_all("no atoms under rule 2", 0, bad_jobs[3].record, NUZZLEFLEECE_ATOMS_WRONG, 0);
    desk.table.atoms = 64 + NUZZLEFLEECE_RULE_2;
    refuses_all("25 jobs", 24, bad_jobs[3].record, NUZZLEFLEECE_TOO_MANY_JOBS, 0);
    desk.table.count = 4;
    refuses_all("a bad job", 0, p3[0], NUZZLEFLEECE_DURATION_WRONG, 1);
}

/* Counts from 0 to the last one there is, with jobs at the edges of the table and of a byte; all 24 records are good. */
static void takes_any_count(void) {
    static const size_t counts[] = {0, 1, 22, 23, 24, 25, 255, 256, (size_t)1 << 32, (size_t)1 << 63, (size_t)-2, (size_t)-1};
    static const uint8_t named[] = {0, 22, 23, 24, 25, 254, 255};
    for (size_t i = 0; i < sizeof counts / sizeof counts[0] * sizeof named; i++) {
        size_t count = counts[i / sizeof named];
        uint8_t job = named[i % sizeof named];
        edit more = {ADDS, 0, p3[1]}, other = {REPLACES, job, p3[1]}, gone = {REMOVES, job, p3[1]};
        int there = job < count;
        open_desk(5, p3, 4);
        for (size_t at = 4; at < NUZZLEFLEECE_MOST_JOBS; at++) {
            desk.table.jobs[at] = p3[at % 4];
        }
        desk.table.count = count;
        if (!there || count > 24) {
            refuses_edit("not there, or too many", other, there ? NUZZLEFLEECE_TOO_MANY_JOBS : NUZZLEFLEECE_NO_SUCH_JOB, there ? 0 : job);
            refuses_edit("not there, or too many", gone, there ? NUZZLEFLEECE_TOO_MANY_JOBS : NUZZLEFLEECE_NO_SUCH_JOB, there ? 0 : job);
        }
        if (count >= 24) {
            refuses_edit("no room", more, NUZZLEFLEECE_TOO_MANY_JOBS, 0);
        } else {
            says("room", make_edit(more), 0, 0, (unsigned)count);
            expect("one more", desk.table.count == count + 1 && same_job(desk.table.jobs[count], p3[1]) && unharmed());
        }
    }
}

/* Whether a job's row has these bits, its column the same, and every other bit of the 24 rows is 1. */
static int rows_but(size_t job, uint32_t bits) {
    size_t i = 0;
    while (i < NUZZLEFLEECE_MOST_JOBS
        && desk.table.rows[i] == (i == job ? bits : bits >> i & 1 ? 0xffffffffu : ~((uint32_t)1 << job))) {
        i++;
    }
    return i == NUZZLEFLEECE_MOST_JOBS && unharmed();
}

/* Rows of all 32 bits: an edit works out the row and the column of its job, a removal takes them out, and all other bits stay. */
static void keeps_other_bits(void) {
    int moved = 1;
    open_desk(5, p3, 4);
    memset(desk.table.rows, 255, sizeof desk.table.rows);
    says("drench again", replace_job(1, p3[1]), 0, 0, 0);
    expect("drench's bits alone", rows_but(1, 8));
    memset(desk.table.rows, 255, sizeof desk.table.rows);
    says("one more wash", add_job(p3[3]), 0, 0, 4);
    expect("its bits alone", rows_but(4, 2));
    desk.table.rows[1] = 0x80000005;
    memset(&desk.table.jobs[23], 255, sizeof desk.table.jobs[23]);
    says("remove the first", nuzzlefleece_remove(&desk.table, 0), 0, 0, 0);
    expect("a row and its bits moved down", desk.table.rows[0] == 0x40000002 && desk.table.rows[3] == 1 && desk.table.rows[23] == 0);
    expect("the last record moved down", desk.table.jobs[22].duration == 65535 && desk.table.jobs[23].duration == 0 && desk.table.count == 4);
    for (size_t i = 4; i < 23; i++) {
        moved = moved && desk.table.rows[i] == 0x7ffffff7;
    }
    expect("all other rows", moved && unharmed());
}

/* Reserved bytes of any kind: the fields are taken as they are. */
static void looks_at_no_reserved_bytes(void) {
    for (int byte = 0; byte < 256; byte += 51) {
        nuzzlefleece_action jobs[4];
        memcpy(jobs, p3, sizeof jobs);
        for (size_t i = 0; i < 4; i++) {
            memset(jobs[i].reserved, byte, sizeof jobs[i].reserved);
        }
        open_desk(5, jobs, 4);
        says("any reserved bytes", replace_job(2, jobs[0]), 0, 0, 0);
        says("any reserved bytes", nuzzlefleece_remove(&desk.table, 2), 0, 0, 0);
        jobs[2] = jobs[3];
        expect("the fields alone", right_table(5, jobs, 3));
    }
}

/* The next of numbers that look random, below a limit. */
static uint64_t thrown(uint64_t limit) {
    static uint64_t state = 20160725;
    state = state * 6364136223846793005u + 1442695040888963407u;
    return (state >> 33) % limit;
}

static nuzzlefleece_action drawn_job(void) {
    uint64_t additions = FACT(thrown(7));
    nuzzlefleece_action job = {.conditions = FACT(thrown(7)), .additions = additions, .deletions = thrown(128) & thrown(128) & ~additions,
        .duration = (uint16_t)(1 + thrown(960)), .release = (uint16_t)thrown(2881)};
    return job;
}

/* Some hundred edits beside a list of jobs of our own: after each the table has the list's jobs, and every bit is what nuzzlefleece_why_clash says. */
static void edits_all_day(void) {
    nuzzlefleece_action jobs[NUZZLEFLEECE_MOST_JOBS];
    size_t count = 0;
    open_desk(7, NULL, 0);
    for (int turn = 0; turn < 600; turn++) {
        static const edit_kind kinds[] = {ADDS, ADDS, ADDS, REPLACES, REPLACES, REMOVES, REMOVES};
        edit e = {kinds[thrown(7)], (uint8_t)thrown(count + 2), drawn_job()};
        if (e.kind == ADDS && count == NUZZLEFLEECE_MOST_JOBS) {
            refuses_edit("a full table", e, NUZZLEFLEECE_TOO_MANY_JOBS, 0);
        } else if (e.kind != ADDS && e.job >= count) {
            refuses_edit("a job that is not there", e, NUZZLEFLEECE_NO_SUCH_JOB, e.job);
        } else {
            says("an edit", make_edit(e), 0, 0, e.kind == ADDS ? (unsigned)count : 0);
            if (e.kind == REMOVES) {
                memmove(jobs + e.job, jobs + e.job + 1, (--count - e.job) * sizeof jobs[0]);
            } else {
                jobs[e.kind == ADDS ? count++ : e.job] = e.record;
            }
        }
        expect("the list's table", right_table(7, jobs, count));
    }
}

/* A plan of the open table fills one start a job and nothing behind; the table is as it was. */
static nuzzlefleece_answer plan_desk(nuzzlefleece_wanted wanted, size_t lent, int least) {
    static uint8_t once[sizeof desk];
    nuzzlefleece_answer answer;
    memcpy(once, &desk, sizeof desk);
    memset(guarded_starts, BEFORE, sizeof guarded_starts);
    answer = least ? nuzzlefleece_least_bound_open(&desk.table, wanted, guarded_starts + GUARD, lent)
                   : nuzzlefleece_plan_open(&desk.table, wanted, guarded_starts + GUARD, lent);
    expect("the table is as it was", memcmp(once, &desk, sizeof desk) == 0);
    expect("starts for a plan alone", answer.number == 0 ? untouched_but(guarded_starts, sizeof guarded_starts, 2 * GUARD, 2 * desk.table.count)
                                                         : untouched_but(guarded_starts, sizeof guarded_starts, 0, 0));
    return answer;
}

/* Both calls are refused with this number and place. */
static void refuses_wanted(const char *what, nuzzlefleece_wanted wanted, size_t lent, unsigned number, unsigned place) {
    says(what, plan_desk(wanted, lent, 0), number, place, 0);
    says(what, plan_desk(wanted, lent, 1), number, place, 65535);
}

static nuzzlefleece_wanted p3_wanted(uint16_t bound) {
    nuzzlefleece_wanted wanted = {FACT(0), FACT(2) | FACT(3) | FACT(4), bound};
    return wanted;
}

/* P3 planned from the table by either rule, whatever stands in its rows. */
static void plans_open_tables(void) {
    open_desk(5, p3, 4);
    memset(desk.table.rows, 255, sizeof desk.table.rows);
    says("plan P3", plan_desk(p3_wanted(12), 4, 0), 0, 0, 0);
    expect("its starts", memcmp(guarded_starts + GUARD, p3_starts, 8) == 0);
    says("least bound of P3", plan_desk(p3_wanted(2880), 24, 1), 0, 0, 12);
    expect("its starts", memcmp(guarded_starts + GUARD, p3_starts, 8) == 0);
    desk.table.atoms += NUZZLEFLEECE_RULE_2;
    says("least bound under rule 2", plan_desk(p3_wanted(13), 4, 1), 0, 0, 13);
    expect("its starts", memcmp(guarded_starts + GUARD, ruled_starts, 8) == 0);
    refuses_wanted("none within 12", p3_wanted(12), 4, NUZZLEFLEECE_NO_PLAN, 0);
    desk.table.atoms = 5;
    desk.table.jobs[2].release = 6;
    says("the late crate", plan_desk(p3_wanted(2880), 4, 1), 0, 0, 14);
    expect("its starts", memcmp(guarded_starts + GUARD, late_starts, 8) == 0);
}

/* What planning refuses, each before those below it: one start too few, the atom count, too many jobs, bad jobs, facts, the bound. */
static void refuses_open_plans(void) {
    static const size_t counts[] = {25, 255, (size_t)1 << 32, (size_t)-1};
    nuzzlefleece_wanted stray = p3_wanted(2881);
    open_desk(5, p3, 4);
    refuses_wanted("bound 2881", stray, 4, NUZZLEFLEECE_BOUND_WRONG, 0);
    stray.goals |= FACT(5);
    refuses_wanted("a goal at the atom count", stray, 4, NUZZLEFLEECE_FACT_WRONG, 24);
    for (size_t i = 0; i < 4; i++) {
        desk.table.jobs[i] = bad_jobs[i].record;
        refuses_wanted("a bad job", stray, 4, i == 0 ? NUZZLEFLEECE_FACT_WRONG : bad_jobs[i].number, i == 0 ? 24 : (unsigned)i);
    }
    refuses_wanted("three starts", stray, 3, NUZZLEFLEECE_LENT_TOO_SHORT, 0);
    for (size_t i = 0; i < sizeof counts / sizeof counts[0]; i++) {
        desk.table.count = counts[i];
        refuses_wanted("too few starts for any count", stray, 24, NUZZLEFLEECE_LENT_TOO_SHORT, 0);
    }
    desk.table.count = 25;
    refuses_wanted("25 jobs", stray, 25, NUZZLEFLEECE_TOO_MANY_JOBS, 0);
    desk.table.atoms = 65;
    refuses_wanted("65 atoms", stray, 25, NUZZLEFLEECE_ATOMS_WRONG, 0);
}

/* A save is read back, and its page is bench-plan's text. */
static void answers_files(void) {
    static uint8_t file[200], text[NUZZLEFLEECE_PAGE_BYTES];
    nuzzlefleece_action back[4] = {{.duration = 0}};
    nuzzlefleece_save save = {p3_ask, 10};
    nuzzlefleece_read_answer read;
    says("write file", nuzzlefleece_write_file(p3, 4, save, file, sizeof file), 0, 0, 10 + 4 * 32 + 24);
    read = nuzzlefleece_read_file(file, 162, back, 4);
    says("read file", read.answer, 0, 0, 0);
    expect("the numbers read", read.ask.jobs == 4 && read.ask.atoms == 5 && read.ask.opening == 1 && read.ask.goals == 28 && read.ask.bound == 12);
    expect("the records read", back[0].deletions == 1 && back[3].deletions == 4 && back[3].duration == 3);
    says("too few records", nuzzlefleece_read_file(file, 162, back, 3).answer, NUZZLEFLEECE_LENT_TOO_SHORT, 0, 0);
    says("page", nuzzlefleece_page(file, 162, text, sizeof text), 0, 0, sizeof p3_page - 1);
    expect("the page", memcmp(text, p3_page, sizeof p3_page - 1) == 0 && text[sizeof p3_page] == 0);
    file[10 + 31] = 1;
    says("a damaged file", nuzzlefleece_read_file(file, 162, back, 4).answer, NUZZLEFLEECE_FILE_DAMAGED, 0, 0);
    says("its page", nuzzlefleece_page(file, 162, text, sizeof text), 0, 0, 12);
    expect("the page of a damaged file", memcmp(text, "refused 2 0\n", 12) == 0);
    says("too little for a page", nuzzlefleece_page(file, 162, text, 8191), NUZZLEFLEECE_LENT_TOO_SHORT, 0, 0);
    save.used = 65536;
    says("a full file", nuzzlefleece_write_file(p3, 4, save, file, sizeof file), NUZZLEFLEECE_FILE_TOO_LONG, 0, 0);
}

/* A buffer in which saves of P3 stand one behind the other as often as a file takes them, and a byte behind it. */
static size_t fill_buffer(uint8_t *buffer, size_t length) {
    nuzzlefleece_save save = {p3_ask, 0};
    nuzzlefleece_answer answer = nuzzlefleece_write_file(p3, 4, save, buffer, length);
    while (answer.number == NUZZLEFLEECE_DONE) {
        save.used = answer.value;
        answer = nuzzlefleece_write_file(p3, 4, save, buffer, length);
    }
    says("no more room in the file", answer, NUZZLEFLEECE_FILE_TOO_LONG, 0, 0);
    return save.used;
}

/* A full file is tidied, written to again, and read as before; a second tidying changes nothing. */
static void tidies_full_files(void) {
    static uint8_t buffer[NUZZLEFLEECE_MOST_FILE + 8], once[NUZZLEFLEECE_MOST_FILE + 8];
    nuzzlefleece_action back[4] = {{.duration = 0}};
    nuzzlefleece_save save = {p3_ask, 152};
    size_t used;
    memset(buffer, 9, sizeof buffer);
    used = fill_buffer(buffer, sizeof buffer);
    expect("431 saves", used == 431 * 152);
    memcpy(once, buffer, sizeof once);
    says("tidy", nuzzlefleece_tidy(used, buffer, sizeof buffer), 0, 0, 152);
    expect("the last save at the front", memcmp(buffer, once + used - 152, 152) == 0);
    expect("zeros behind it", all_are(buffer + 152, used - 152, 0));
    expect("what stood behind stays", all_are(buffer + used, sizeof buffer - used, 9));
    says("read after tidying", nuzzlefleece_read_file(buffer, 152, back, 4).answer, 0, 0, 0);
    expect("the jobs of before", back[0].deletions == 1 && back[3].duration == 3);
    memcpy(once, buffer, sizeof once);
    says("tidy again", nuzzlefleece_tidy(152, buffer, sizeof buffer), 0, 0, 152);
    expect("nothing changed", memcmp(buffer, once, sizeof once) == 0);
    says("there is room again", nuzzlefleece_write_file(p3, 4, save, buffer, sizeof buffer), 0, 0, 304);
}

/* A save of P3 with notes that reach from its records to the end of a full file, or one byte further. */
static void tidies_notes(void) {
    static uint8_t buffer[NUZZLEFLEECE_MOST_FILE + 1], once[NUZZLEFLEECE_MOST_FILE + 1];
    nuzzlefleece_save save = {p3_ask, 0};
    size_t end = NUZZLEFLEECE_MOST_FILE;
    memset(buffer, 9, sizeof buffer);
    says("a save", nuzzlefleece_write_file(p3, 4, save, buffer, 152), 0, 0, 152);
    memcpy(buffer + end - 24, buffer + 128, 20);
    buffer[end - 4] = (uint8_t)(end - 24);
    buffer[end - 3] = (uint8_t)((end - 24) >> 8);
    buffer[end - 2] = buffer[end - 1] = 0;
    memcpy(once, buffer, sizeof once);
    says("notes to the end", nuzzlefleece_tidy(end, buffer, sizeof buffer), 0, 0, (unsigned)end);
    says("65,537 bytes", nuzzlefleece_tidy(end + 1, buffer, sizeof buffer), NUZZLEFLEECE_FILE_TOO_LONG, 0, 0);
    expect("no byte moved", memcmp(buffer, once, sizeof once) == 0);
    memmove(buffer + 40, buffer, 128);
    buffer[end - 4] = (uint8_t)(end - 24 - 40);
    says("notes longer than all before them", nuzzlefleece_tidy(end, buffer, end), 0, 0, (unsigned)end - 40);
    expect("the records at the front", memcmp(buffer, once, 128) == 0 && all_are(buffer + 128, 24, 9));
    expect("the trailer, then zeros", memcmp(buffer + end - 64, once + end - 24, 20) == 0 && all_are(buffer + end - 40, 40, 0));
    expect("the byte behind", buffer[end] == 9);
}

/* What tidying refuses, and that it then changes nothing. */
static void refuses_to_tidy(void) {
    static uint8_t buffer[176], once[176];
    nuzzlefleece_save save = {p3_ask, 10};
    memset(buffer, 9, sizeof buffer);
    says("a save behind ten bytes", nuzzlefleece_write_file(p3, 4, save, buffer, sizeof buffer), 0, 0, 162);
    memcpy(once, buffer, sizeof once);
    says("more in use than there is", nuzzlefleece_tidy(163, buffer, 162), NUZZLEFLEECE_LENT_TOO_SHORT, 0, 0);
    says("1 before 3", nuzzlefleece_tidy(65537, buffer, 162), NUZZLEFLEECE_FILE_TOO_LONG, 0, 0);
    says("the longest use", nuzzlefleece_tidy((size_t)-1, buffer, 162), NUZZLEFLEECE_FILE_TOO_LONG, 0, 0);
    says("a byte of the save missing", nuzzlefleece_tidy(161, buffer, sizeof buffer), NUZZLEFLEECE_FILE_DAMAGED, 0, 0);
    says("23 bytes", nuzzlefleece_tidy(23, buffer, sizeof buffer), NUZZLEFLEECE_FILE_DAMAGED, 0, 0);
    expect("nothing moved", memcmp(buffer, once, sizeof once) == 0);
    buffer[10 + 2 * 32 + 31] = once[10 + 2 * 32 + 31] = 1;
    says("one of the four bytes", nuzzlefleece_tidy(162, buffer, sizeof buffer), NUZZLEFLEECE_FILE_DAMAGED, 0, 0);
    buffer[10 + 2 * 32 + 31] = once[10 + 2 * 32 + 31] = 0;
    buffer[10 + 2 * 32 + 27] = once[10 + 2 * 32 + 27] = 255;
    says("a release over 2,880", nuzzlefleece_tidy(162, buffer, sizeof buffer), NUZZLEFLEECE_RELEASE_WRONG, 2, 0);
    expect("nothing moved on damage", memcmp(buffer, once, sizeof once) == 0);
    buffer[10 + 2 * 32 + 27] = 0;
    says("in order again", nuzzlefleece_tidy(162, buffer, sizeof buffer), 0, 0, 152);
    expect("ten zeros and the bytes behind", all_are(buffer + 152, 10, 0) && all_are(buffer + 162, 14, 9));
}

/* The facts from a reading are held to the number, the place and the facts; there is no second number. */
static void opens(const char *what, nuzzlefleece_opening o, unsigned number, unsigned place, uint64_t facts) {
    expect(what, o.number == number && o.second == 0 && o.place == place && o.facts == facts);
}

static void answers_readings(void) {
    uint8_t channels[] = {0, 1}, facts[] = {3, 63};
    int16_t levels[] = {240, -1};
    nuzzlefleece_reading just = {23.950000000000003, -0.15}, under = {23.95, -0.15000000000000002}, none = {0.0, 0.0};
    nuzzlefleece_reading outside = {2.3, 0.35}, halves = {0.25, -0.25};
    opens("both reached", nuzzlefleece_opening_facts(just, channels, 2, levels, 2, facts, 2, 2, 5), 0, 0, 5 | FACT(3) | FACT(63));
    opens("neither", nuzzlefleece_opening_facts(under, channels, 2, levels, 2, facts, 2, 2, 13), 0, 0, 5);
    opens("no marks", nuzzlefleece_opening_facts(just, NULL, 0, NULL, 0, NULL, 0, 0, 5), 0, 0, 5);
    opens("one level short", nuzzlefleece_opening_facts(just, channels, 2, levels, 1, facts, 2, 2, 5), NUZZLEFLEECE_LENT_TOO_SHORT, 0, 5);
    none.humidity /= none.temperature;
    opens("not a number", nuzzlefleece_opening_facts(none, channels, 2, levels, 2, facts, 2, 2, 5), NUZZLEFLEECE_READING_WRONG, 1, 5);
    levels[0] = 23, levels[1] = 4;
    opens("2.3 has 23, 0.35 has 3", nuzzlefleece_opening_facts(outside, channels, 2, levels, 2, facts, 2, 2, 5), 0, 0, 5 | FACT(3));
    levels[0] = 3, levels[1] = -2;
    opens("halves go up", nuzzlefleece_opening_facts(halves, channels, 2, levels, 2, facts, 2, 2, 5), 0, 0, 5 | FACT(3) | FACT(63));
    levels[0] = 4, levels[1] = -1;
    opens("and by one", nuzzlefleece_opening_facts(halves, channels, 2, levels, 2, facts, 2, 2, 5), 0, 0, 5);
    levels[1] = 1001;
    opens("a level of 1001", nuzzlefleece_opening_facts(just, channels, 2, levels, 2, facts, 2, 2, 5), NUZZLEFLEECE_MARK_WRONG, 1, 5);
}

/* Nothing lent, null pointers: P7's empty plan, and 3 where something is to be filled. */
static void takes_null(void) {
    const uint8_t group = 0;
    nuzzlefleece_ask ask = {.atoms = 2, .opening = 1};
    nuzzlefleece_save save = {.ask = ask};
    nuzzlefleece_watch watch = {.ask = ask, .job = 9};
    nuzzlefleece_question question = {.ask = ask, .job = 9};
    nuzzlefleece_overruns overruns = {.ask = ask, .most = 96};
    nuzzlefleece_open_table none = {.atoms = 2};
    nuzzlefleece_wanted wanted = {.opening = 1};
    says("null: check plan", nuzzlefleece_check_plan(NULL, 0, ask, NULL, 0), 0, 0, 0);
    says("null: plan within", nuzzlefleece_plan_within(NULL, 0, ask, NULL, 0), 0, 0, 0);
    says("null: least bound", nuzzlefleece_least_bound(NULL, 0, ask, NULL, 0), 0, 0, 0);
    says("null: supports", nuzzlefleece_supports(NULL, 0, ask, NULL, 0, NULL, 0), NUZZLEFLEECE_LENT_TOO_SHORT, 0, 0);
    says("null: binding pairs", nuzzlefleece_binding_pairs(NULL, 0, ask, NULL, 0, NULL, 0), NUZZLEFLEECE_LENT_TOO_SHORT, 0, 0);
    says("null: follow", nuzzlefleece_follow(NULL, 0, watch, NULL, 0).answer, NUZZLEFLEECE_NOT_ALLOWED, 9, 0);
    says("null: estimates", nuzzlefleece_earliest(NULL, 0, ask, NULL, 0), 0, 0, 0);
    says("null: settle", nuzzlefleece_settle(NULL, 0, ask, NULL, 0, NULL, 0), 0, 0, 0);
    says("null: why start", nuzzlefleece_why_start(NULL, 0, question, NULL, 0, NULL, 0), NUZZLEFLEECE_NOT_IN_SET, 9, 0);
    says("null: how late", nuzzlefleece_how_late(NULL, 0, overruns, NULL, 0), 0, 0, 0);
    overruns.most++;
    says("null: 97 over", nuzzlefleece_how_late(NULL, 0, overruns, NULL, 0), NUZZLEFLEECE_OVERRUN_WRONG, 0, 0);
    overruns.ask.goals = 2;
    says("null: a goal before 97", nuzzlefleece_how_late(NULL, 0, overruns, NULL, 0), NUZZLEFLEECE_GOAL_MISSING, 1, 0);
    reasons("null: why no plan", nuzzlefleece_why_no_plan(NULL, 0, ask), 0, 0, NUZZLEFLEECE_WHY_NEITHER, NUZZLEFLEECE_NO_FACT);
    says("null: batches", nuzzlefleece_batches(NULL, 0, NULL, 0).answer, 0, 0, 0);
    says("null: a batch", nuzzlefleece_batches(&group, 1, NULL, 0).answer, NUZZLEFLEECE_LENT_TOO_SHORT, 0, 0);
    says("null: read text", nuzzlefleece_read_text(NULL, 0, ask, NULL, 0, NULL, 0, NULL, 0), 0, 0, 0);
    says("null: a text for no job", nuzzlefleece_read_text(NULL, 0, ask, NULL, 0, (const uint8_t *)p3_text, 92, NULL, 0), NUZZLEFLEECE_NAME_UNKNOWN, 0, 0);
    says("null: write text", nuzzlefleece_write_text(NULL, 0, ask, NULL, 0, NULL, 0, NULL, 0), 0, 0, 0);
    says("null: plan an open table", nuzzlefleece_plan_open(&none, wanted, NULL, 0), 0, 0, 0);
    says("null: least bound of one", nuzzlefleece_least_bound_open(&none, wanted, NULL, 0), 0, 0, 0);
    none.count = 1;
    says("null: starts for a job", nuzzlefleece_plan_open(&none, wanted, NULL, 0), NUZZLEFLEECE_LENT_TOO_SHORT, 0, 0);
    says("null: starts for a job", nuzzlefleece_least_bound_open(&none, wanted, NULL, 0), NUZZLEFLEECE_LENT_TOO_SHORT, 0, 65535);
    says("null: read file", nuzzlefleece_read_file(NULL, 0, NULL, 0).answer, NUZZLEFLEECE_FILE_DAMAGED, 0, 0);
    says("null: write file", nuzzlefleece_write_file(NULL, 0, save, NULL, 0), NUZZLEFLEECE_LENT_TOO_SHORT, 0, 0);
    says("null: tidy", nuzzlefleece_tidy(0, NULL, 0), NUZZLEFLEECE_FILE_DAMAGED, 0, 0);
    says("null: tidy a byte", nuzzlefleece_tidy(1, NULL, 0), NUZZLEFLEECE_LENT_TOO_SHORT, 0, 0);
    says("null: page", nuzzlefleece_page(NULL, 0, NULL, 0), NUZZLEFLEECE_LENT_TOO_SHORT, 0, 0);
    ask.goals = 2;
    says("null: a goal that nothing adds", nuzzlefleece_least_bound(NULL, 0, ask, NULL, 0), NUZZLEFLEECE_NO_PLAN, 0, 65535);
    reasons("null: and why", nuzzlefleece_why_no_plan(NULL, 0, ask), 0, 0, NUZZLEFLEECE_WHY_NEVER, 1);
}

/* The refusals of a table, by the call that returns a value of its own on refusal. */
static void refuses_tables(void) {
    uint16_t out[30] = {0};
    nuzzlefleece_action jobs[30], job = {.conditions = 1, .additions = 2, .duration = 1};
    nuzzlefleece_ask ask = {.jobs = (size_t)-1, .atoms = 64};
    for (size_t i = 0; i < 30; i++) {
        jobs[i] = job;
    }
    says("more jobs than there are records", nuzzlefleece_least_bound(jobs, 30, ask, out, 30), NUZZLEFLEECE_LENT_TOO_SHORT, 0, 65535);
    ask.jobs = 25;
    says("25 jobs", nuzzlefleece_least_bound(jobs, 30, ask, out, 30), NUZZLEFLEECE_TOO_MANY_JOBS, 0, 65535);
    ask.jobs = 24;
    ask.atoms = 65;
    says("65 atoms", nuzzlefleece_least_bound(jobs, 30, ask, out, 30), NUZZLEFLEECE_ATOMS_WRONG, 0, 65535);
    ask.atoms = 2;
    ask.goals = 4;
    says("a goal at the atom count", nuzzlefleece_least_bound(jobs, 30, ask, out, 30), NUZZLEFLEECE_FACT_WRONG, 24, 65535);
    jobs[5].release = 2880;
    says("release 2880 is taken", nuzzlefleece_least_bound(jobs, 30, ask, out, 30), NUZZLEFLEECE_FACT_WRONG, 24, 65535);
    jobs[5].release = 2881;
    jobs[9].release = 65535;
    says("release 2881", nuzzlefleece_least_bound(jobs, 30, ask, out, 30), NUZZLEFLEECE_RELEASE_WRONG, 5, 65535);
    jobs[23].duration = 961;
    says("961 quarter hours", nuzzlefleece_least_bound(jobs, 30, ask, out, 30), NUZZLEFLEECE_DURATION_WRONG, 23, 65535);
    jobs[5] = jobs[9] = jobs[23] = job;
    jobs[7].deletions = 2;
    ask.goals = 2;
    says("adds and deletes", nuzzlefleece_least_bound(jobs, 30, ask, out, 30), NUZZLEFLEECE_ADDS_AND_DELETES, 7, 65535);
    jobs[7] = job;
    ask.bound = 2881;
    says("bound 2881", nuzzlefleece_least_bound(jobs, 30, ask, out, 30), NUZZLEFLEECE_BOUND_WRONG, 0, 65535);
    ask.bound = 2880;
    says("no opening facts", nuzzlefleece_least_bound(jobs, 30, ask, out, 30), NUZZLEFLEECE_NO_PLAN, 0, 65535);
}

/* Header and library are of one version, records are as long as in a file, and every refusal has words. */
static void describes_itself(void) {
    expect("version", nuzzlefleece_version() == NUZZLEFLEECE_VERSION);
    expect("a record has 32 bytes", sizeof(nuzzlefleece_action) == NUZZLEFLEECE_RECORD_BYTES);
    for (unsigned number = 0; number <= NUZZLEFLEECE_OVERRUN_WRONG + 1; number++) {
        int known = number <= NUZZLEFLEECE_BEFORE_RELEASE || (number >= NUZZLEFLEECE_LINE_WRONG && number <= NUZZLEFLEECE_BATCHES_TOO_LARGE)
            || number == NUZZLEFLEECE_NAMES_WRONG || number == NUZZLEFLEECE_OVERRUN_WRONG;
        expect("words of a refusal, and of no other", (strcmp(nuzzlefleece_words(number), "no such refusal") != 0) == known);
    }
    expect("words of 20", strcmp(nuzzlefleece_words(NUZZLEFLEECE_RELEASE_WRONG), "a release over 2,880") == 0);
    expect("words of 23", strcmp(nuzzlefleece_words(NUZZLEFLEECE_LINE_WRONG), "text: a line outside the form, or a start over 2,880") == 0);
    expect("words of 24", strcmp(nuzzlefleece_words(NUZZLEFLEECE_NAME_UNKNOWN), "text: no job has the name") == 0);
    expect("words of 25", strcmp(nuzzlefleece_words(NUZZLEFLEECE_JOB_TWICE), "text: a job twice") == 0);
    expect("words of 26", strcmp(nuzzlefleece_words(NUZZLEFLEECE_OTHER_DURATION), "text: a duration that is not the job's") == 0);
    expect("words of 27", strcmp(nuzzlefleece_words(NUZZLEFLEECE_NOT_IN_SET), "why a job starts: it is not in the set") == 0);
    expect("words of 28", strcmp(nuzzlefleece_words(NUZZLEFLEECE_GROUP_UNKNOWN), "batches: no such house group") == 0);
    expect("words of 29", strcmp(nuzzlefleece_words(NUZZLEFLEECE_TOO_MANY_BATCHES), "batches: more than 4") == 0);
    expect("words of 30", strcmp(nuzzlefleece_words(NUZZLEFLEECE_BATCHES_TOO_LARGE), "batches: over 24 jobs") == 0);
    expect("words of 33", strcmp(nuzzlefleece_words(NUZZLEFLEECE_NAMES_WRONG), "names: one that is no name, or two alike") == 0);
    expect("words of 34", strcmp(nuzzlefleece_words(NUZZLEFLEECE_OVERRUN_WRONG), "how late: more than 96 quarter hours over") == 0);
}

int main(void) {
    describes_itself();
    answers_p3();
    answers_estimates();
    answers_settling();
    answers_releases();
    refuses_early_starts();
    keeps_releases_in_files();
    answers_rule_2();
    refuses_touching();
    keeps_the_rule_in_files();
    answers_clashes();
    looks_at_facts_alone();
    carries_the_fact();
    follows_p3();
    waits_for_supports();
    refuses_events();
    refuses_words();
    refuses_jobs_out();
    refuses_wrong_plans();
    explains_p3();
    ends_chains_at_releases();
    refuses_starts();
    takes_exact_lengths();
    explains_full_tables();
    answers_no_plan();
    names_edge_facts();
    refuses_reasons();
    tells_how_late();
    tells_by_rule_and_release();
    reads_the_overrun();
    counts_the_longest_chain();
    tells_of_full_tables();
    refuses_overruns();
    refuses_late_tables();
    refuses_late_plans();
    expands_groups();
    expands_full_tables();
    refuses_groups();
    plans_batches();
    answers_texts();
    reads_damaged_texts();
    refuses_lines();
    refuses_name_tables();
    refuses_short_texts();
    fills_texts();
    refuses_texts_of_plans();
    begins_tables();
    edits_p3();
    lends_its_jobs();
    fills_tables();
    refuses_bad_jobs();
    refuses_bad_tables();
    refuses_in_order();
    takes_any_count();
    keeps_other_bits();
    looks_at_no_reserved_bytes();
    edits_all_day();
    plans_open_tables();
    refuses_open_plans();
    answers_files();
    tidies_full_files();
    tidies_notes();
    refuses_to_tidy();
    answers_readings();
    takes_null();
    refuses_tables();
    printf("%d passed, %d failed\n", passed, failed);
    return failed != 0;
}
