/*
 * The planner for C programs on x86-64 Linux: link with libnuzzlefleece.a (docs/LINKING.md).
 *
 * Each function is proved to meet the promise in its comment for every input that its types allow: it ends, and any
 * number in any field gets an answer. Beyond that a caller sees to this:
 *  - a pointer and the length behind it, in elements, name memory of the caller that is aligned for its type;
 *    with length 0 the pointer is not followed and may be null;
 *  - a pointer to an open table names one, aligned as its type is, and is not null; its fields may have any numbers;
 *  - memory that a call may fill overlaps no other memory lent to it, and nothing else changes lent memory meanwhile.
 * A call keeps nothing afterwards: no heap, no global state, no threads. 2 MiB of stack serve every input.
 *
 * On success number, second number and place are 0. A refusal gives its number and a place, and 12 gives a fact as second number, which
 * is 0 in all others; lent memory is then unchanged, and the value is 0 unless a comment says otherwise. After success lent memory that
 * the answer does not fill is unchanged.
 */
#ifndef NUZZLEFLEECE_H
#define NUZZLEFLEECE_H

#include <stddef.h>
#include <stdint.h>

#ifdef __cplusplus
extern "C" {
#endif

/* The version that this header describes, 10,000 times the first number, 100 times the second, and the third: 1.10.0.
 * nuzzlefleece_version() returns that of the library linked; where the two differ, header and library are not of one build. */
#define NUZZLEFLEECE_VERSION 11000

/* Sizes and limits. A fact is a number below the atom count; a word of facts has fact 0 in its lowest bit. */
enum {
    NUZZLEFLEECE_OUT = 65535,           /* as a start: the job is not in the plan; as an estimate: never reachable */
    NUZZLEFLEECE_MOST_JOBS = 24,
    NUZZLEFLEECE_MOST_ATOMS = 64,
    NUZZLEFLEECE_RULE_2 = 128,          /* added to the atom count: a quarter hour stands between jobs that bind */
    NUZZLEFLEECE_MOST_DURATION = 960,   /* quarter hours; the least is 1 */
    NUZZLEFLEECE_MOST_RELEASE = 2880,   /* quarter hours; the least is 0 */
    NUZZLEFLEECE_MOST_BOUND = 2880,     /* quarter hours */
    NUZZLEFLEECE_MOST_PAIRS = 600,      /* asked of settling */
    NUZZLEFLEECE_MOST_OVERRUN = 96,     /* quarter hours by which each job may run over; the least is 0 */
    NUZZLEFLEECE_MOST_BATCHES = 4,
    NUZZLEFLEECE_HOUSE_GROUPS = 12,     /* numbered from 0 */
    NUZZLEFLEECE_MOST_MARKS = 16,
    NUZZLEFLEECE_MOST_LEVEL = 1000,     /* tenths; the least is -1000 */
    NUZZLEFLEECE_NAME_BYTES = 16,       /* of a job's name in a name table */
    NUZZLEFLEECE_LINE_BYTES = 39,       /* lent for the text of a plan, for each job */
    NUZZLEFLEECE_MOST_START = 2880,     /* quarter hours, in a line of a text that is read */
    NUZZLEFLEECE_MOST_FILE = 65536,     /* bytes of a job file */
    NUZZLEFLEECE_RECORD_BYTES = 32,     /* of a job, in a file */
    NUZZLEFLEECE_TRAILER_BYTES = 24,    /* behind the records, in a file */
    NUZZLEFLEECE_SUPPORT_ROW = 64,      /* bytes of the support table for a job, and for End behind the last job */
    NUZZLEFLEECE_SUPPORTED_BY_START = 254,
    NUZZLEFLEECE_NO_CONDITION = 255,
    NUZZLEFLEECE_PAIRS_BYTES = 552,     /* lent for binding pairs: at most 276, two bytes each */
    NUZZLEFLEECE_PAGE_BYTES = 8192,     /* lent for the text of a page */
    NUZZLEFLEECE_NO_FACT = 64,          /* the fact of two jobs that do not clash, and of a reason that names none */
    NUZZLEFLEECE_NO_LOG = 65535         /* the place of refusal 19 for words that no allowed events give */
};

/* An event of a job; no other number is one. */
enum {
    NUZZLEFLEECE_STARTED = 0,
    NUZZLEFLEECE_FINISHED = 1
};

/* Why two jobs clash. */
enum {
    NUZZLEFLEECE_CLASH_NONE = 0,
    NUZZLEFLEECE_CLASH_CONDITION = 1,   /* one deletes a condition of the other */
    NUZZLEFLEECE_CLASH_ADDITION = 2     /* no condition, but one deletes an addition of the other */
};

/* Why there is no plan. */
enum {
    NUZZLEFLEECE_WHY_REFUSED = 0,       /* the call is refused and gives no reason */
    NUZZLEFLEECE_WHY_NEVER = 1,         /* a goal is never reachable */
    NUZZLEFLEECE_WHY_TOO_DEAR = 2,      /* every goal is reachable, and one costs more than the bound */
    NUZZLEFLEECE_WHY_NEITHER = 3        /* no goal costs more than the bound */
};

/* Refusals, checked in the order of their numbers, but 20 between 6 and 7, 21 between 11 and 12, in tidying 3 between 1 and 2, of
 * batches 28, 29 and 30 before 3, in reading a text 33 before 23 to 26, of which the first bad line decides before the number, and in edits
 * of an open table 22 first.
 * All that take or write a job table check 3 to 8 and 20, and 9 where there is a bound; edits, to which nothing is lent but the table, do not
 * check 3.
 * The place, and the second number, is 0 where the comment names none. A job is named by its number in the table, a fact by its own, a
 * pair by its number in the list asked, a line of a text by its number from 0. */
enum {
    NUZZLEFLEECE_DONE = 0,
    NUZZLEFLEECE_FILE_TOO_LONG = 1,      /* the file, or the file after appending, has over 65,536 bytes */
    NUZZLEFLEECE_FILE_DAMAGED = 2,       /* under 24 bytes, distance out of range, or one of a record's last four bytes is not zero */
    NUZZLEFLEECE_LENT_TOO_SHORT = 3,     /* lent memory is too short for the count given */
    NUZZLEFLEECE_ATOMS_WRONG = 4,        /* the atom count, without the mark of rule 2, is not 1 to 64 */
    NUZZLEFLEECE_TOO_MANY_JOBS = 5,      /* more than 24 */
    NUZZLEFLEECE_DURATION_WRONG = 6,     /* not 1 to 960; place: lowest job */
    NUZZLEFLEECE_FACT_WRONG = 7,         /* at or above the atom count; place: lowest job, 24 for opening facts or goals */
    NUZZLEFLEECE_ADDS_AND_DELETES = 8,   /* a job adds and deletes one fact; place: lowest job */
    NUZZLEFLEECE_BOUND_WRONG = 9,        /* over 2,880 */
    NUZZLEFLEECE_NO_PLAN = 10,           /* there is no valid plan within the bound */
    NUZZLEFLEECE_ENDS_TOO_LATE = 11,     /* offered plan: a job ends after the bound; place: lowest job */
    NUZZLEFLEECE_OVERLAP = 12,           /* offered plan: interfering jobs overlap or, under rule 2, are less than a quarter hour apart;
                                          * place: lower job of the first pair; second number: the fact of their clash */
    NUZZLEFLEECE_CONDITION_MISSING = 13, /* offered plan: at a start, or under rule 2 a quarter hour before it; place: lowest job */
    NUZZLEFLEECE_GOAL_MISSING = 14,      /* offered plan; place: lowest fact */
    NUZZLEFLEECE_PAIRS_WRONG = 15,       /* settling; place: 601 the set names no such job, 600 over 600 pairs, else the first pair with a job outside the set */
    NUZZLEFLEECE_NO_STARTS = 16,         /* settling: no starts keep the pairs and the releases within the bound */
    NUZZLEFLEECE_READING_WRONG = 17,     /* not finite or not -100 to 100; place: channel, lower first */
    NUZZLEFLEECE_MARK_WRONG = 18,        /* place: 16 for more than 16 marks, else the lowest mark out of range */
    NUZZLEFLEECE_NOT_ALLOWED = 19,       /* following; place: NUZZLEFLEECE_NO_LOG for words that no allowed events give, else the job of an event that
                                          * is not allowed after events that give them */
    NUZZLEFLEECE_RELEASE_WRONG = 20,     /* over 2,880; checked after 6 and before 7; place: lowest job */
    NUZZLEFLEECE_BEFORE_RELEASE = 21,    /* offered plan: a job starts before its release; checked after 11 and before 12; place: lowest job */
    NUZZLEFLEECE_NO_SUCH_JOB = 22,       /* edit of a job that is not there; checked first; place: its number */
    NUZZLEFLEECE_LINE_WRONG = 23,        /* reading a text: a line outside the form, or a start over 2,880; place: line */
    NUZZLEFLEECE_NAME_UNKNOWN = 24,      /* reading a text: no job of the table has the name; place: line */
    NUZZLEFLEECE_JOB_TWICE = 25,         /* reading a text: a line before has the same job; place: line */
    NUZZLEFLEECE_OTHER_DURATION = 26,    /* reading a text: not the duration of the job; place: line */
    NUZZLEFLEECE_NOT_IN_SET = 27,        /* why a job starts when it does: it is not in the set; place: the job */
    NUZZLEFLEECE_GROUP_UNKNOWN = 28,     /* batches: no such house group; place: lowest batch, 65,535 for any from there on */
    NUZZLEFLEECE_TOO_MANY_BATCHES = 29,  /* more than 4; place: 4 */
    NUZZLEFLEECE_BATCHES_TOO_LARGE = 30, /* batches: over 24 jobs */
    NUZZLEFLEECE_NAMES_WRONG = 33,       /* texts: a name is empty, has a byte that may not stand in it or a byte behind its first zero, or two are
                                          * alike; checked before 23 to 26 and after 14; place: lowest job of which that is so */
    NUZZLEFLEECE_OVERRUN_WRONG = 34      /* how late a plan can get: each job may run over by more than 96; checked after 14 */
};

/* What a refusal says, in words; the place and the second number are said by the comments above. */
static inline const char *nuzzlefleece_words(unsigned number) {
    static const char *const words[] = {
        "done",
        "file, or file after appending, over 65,536 bytes",
        "file under 24 bytes, distance out of range, or one of a record's four last bytes not zero",
        "a lent table or buffer is too short",
        "atom count not 1 to 64",
        "more than 24 jobs",
        "a duration not 1 to 960",
        "a fact at or above the atom count",
        "a job adds and deletes one fact",
        "bound over 2,880",
        "no valid plan within the bound",
        "offered plan: a job ends after the bound",
        "offered plan: interfering jobs overlap",
        "offered plan: a condition missing at a start",
        "offered plan: a goal missing",
        "settling: set names no such job; more than 600 pairs; a pair outside the set",
        "settling: no such starts",
        "reading not finite or out of range",
        "more than 16 marks, or a mark out of range",
        "following: words that no allowed events give, or an event that is not allowed",
        "a release over 2,880",
        "offered plan: a job starts before its release",
        NULL, /* 22: no such refusal */
        "text: a line outside the form, or a start over 2,880",
        "text: no job has the name",
        "text: a job twice",
        "text: a duration that is not the job's",
        "why a job starts: it is not in the set",
        "batches: no such house group",
        "batches: more than 4",
        "batches: over 24 jobs",
        NULL, NULL, /* 31 and 32: no such refusals */
        "names: one that is no name, or two alike",
        "how late: more than 96 quarter hours over",
    };
    return number < sizeof words / sizeof words[0] && words[number] != NULL ? words[number] : "no such refusal";
}

/* A job: three words of facts, the quarter hours it takes and its release. The bytes behind are reserved, to be zero: a later version
 * will read them. Initialise the fields by name, and they are; a release that is not named is 0. */
typedef struct nuzzlefleece_action {
    uint64_t conditions;
    uint64_t additions;
    uint64_t deletions;
    uint16_t duration;
    uint16_t release; /* in quarter hours, 0 to 2,880: the job does not start before */
    uint8_t reserved[4];
} nuzzlefleece_action;

/* The numbers of a call; set and pairs are looked at by settling and by nuzzlefleece_why_start alone, the bound by all but the
 * estimates and nuzzlefleece_read_text. */
typedef struct nuzzlefleece_ask {
    size_t jobs;      /* how many of the lent records are jobs, numbered from 0 */
    uint8_t atoms;    /* the atom count, 1 to 64, and under rule 2 NUZZLEFLEECE_RULE_2 more */
    uint64_t opening; /* the facts that hold at 0 */
    uint64_t goals;   /* the facts wanted at the bound */
    uint16_t bound;
    uint64_t set;     /* settling: the jobs to start, one bit each */
    size_t pairs;     /* settling: how many ordered pairs are asked */
} nuzzlefleece_ask;

/* What a call says. */
typedef struct nuzzlefleece_answer {
    uint8_t number; /* NUZZLEFLEECE_DONE or a refusal */
    uint8_t second; /* the fact of the clash with NUZZLEFLEECE_OVERLAP, where it may be 0 too; else 0 */
    uint16_t place; /* where the refusal was found */
    uint32_t value; /* the number returned; 0 where a call returns none */
} nuzzlefleece_answer;

/* Why two jobs clash, and over which fact. */
typedef struct nuzzlefleece_clash {
    uint8_t kind; /* NUZZLEFLEECE_CLASH_NONE, NUZZLEFLEECE_CLASH_CONDITION or NUZZLEFLEECE_CLASH_ADDITION */
    uint8_t fact; /* the lowest of that kind; NUZZLEFLEECE_NO_FACT for none */
} nuzzlefleece_clash;

/* What the foreman's screen is handed: the jobs that have started and those that have finished, one bit each, and an event of a job. */
typedef struct nuzzlefleece_watch {
    nuzzlefleece_ask ask;
    uint64_t started;
    uint64_t finished;
    uint8_t event; /* NUZZLEFLEECE_STARTED or NUZZLEFLEECE_FINISHED */
    uint8_t job;
} nuzzlefleece_watch;

/* What the screen shows after the event; on refusal the two words as they were handed in, and no facts and no jobs. */
typedef struct nuzzlefleece_screen {
    nuzzlefleece_answer answer;
    uint64_t started;
    uint64_t finished;
    uint64_t facts;     /* the facts now */
    uint64_t may_start; /* the jobs that may start, one bit each */
} nuzzlefleece_screen;

/* What nuzzlefleece_why_start is asked: the numbers of a settling, and the job whose start is to be explained. */
typedef struct nuzzlefleece_question {
    nuzzlefleece_ask ask;
    uint8_t job;
} nuzzlefleece_question;

/* What nuzzlefleece_how_late is asked. */
typedef struct nuzzlefleece_overruns {
    nuzzlefleece_ask ask;
    uint16_t most; /* by how many quarter hours each job may run over, 0 to 96 */
} nuzzlefleece_overruns;

/* Why there is no plan, and which goal is the cause. */
typedef struct nuzzlefleece_reason {
    nuzzlefleece_answer answer;
    uint8_t kind; /* NUZZLEFLEECE_WHY_NEVER, NUZZLEFLEECE_WHY_TOO_DEAR or NUZZLEFLEECE_WHY_NEITHER; NUZZLEFLEECE_WHY_REFUSED on refusal */
    uint8_t fact; /* the lowest goal of that kind; NUZZLEFLEECE_NO_FACT for neither and on refusal */
} nuzzlefleece_reason;

/* What a save is made of beside the records. */
typedef struct nuzzlefleece_save {
    nuzzlefleece_ask ask;
    size_t used; /* how many bytes of the buffer are in use already */
} nuzzlefleece_save;

/* What reading a job file says beside the records. */
typedef struct nuzzlefleece_read_answer {
    nuzzlefleece_answer answer;
    nuzzlefleece_ask ask; /* jobs, atoms, opening facts, goals and bound of the file; all 0 on refusal */
} nuzzlefleece_read_answer;

/* What expanding batches says beside the records; the four numbers behind the answer are 0 on refusal. */
typedef struct nuzzlefleece_batch_answer {
    nuzzlefleece_answer answer;
    size_t jobs;      /* how many of the records are filled */
    uint8_t atoms;    /* the bay and one fact a stage */
    uint64_t opening; /* the bay, which is fact 0, alone */
    uint64_t goals;   /* the done facts of the last stages */
} nuzzlefleece_batch_answer;

/* A job table that the service holds and edits where it stands, with a row of clash bits a job. Its jobs are 0 to count - 1; opening facts,
 * goals and bound are no part of it. A table that nuzzlefleece_begin began and that edits alone have changed is right: bit j of row i is 1 exactly
 * where i and j are two jobs of it and nuzzlefleece_why_clash of the two is not none; so a job's own bit, and every bit and row from count on,
 * is 0. Other calls take the jobs of such a table without a copy: lend table.jobs with table.count records. The rows handed to an edit are not
 * checked; where they were wrong, the bits stay wrong that the edit does not work out anew. */
typedef struct nuzzlefleece_open_table {
    uint8_t atoms; /* as nuzzlefleece_ask has it, with the mark of rule 2 */
    size_t count;  /* how many jobs there are */
    nuzzlefleece_action jobs[NUZZLEFLEECE_MOST_JOBS];
    uint32_t rows[NUZZLEFLEECE_MOST_JOBS];
} nuzzlefleece_open_table;

/* What nuzzlefleece_replace is asked. */
typedef struct nuzzlefleece_replacement {
    uint8_t job; /* the number of the job to be replaced */
    nuzzlefleece_action record;
} nuzzlefleece_replacement;

/* What is wanted of an open table's jobs: the numbers of a nuzzlefleece_ask that the table does not have. */
typedef struct nuzzlefleece_wanted {
    uint64_t opening;
    uint64_t goals;
    uint16_t bound;
} nuzzlefleece_wanted;

/* A bench reading as the probe sends it: degrees and per cent. */
typedef struct nuzzlefleece_reading {
    double temperature;
    double humidity;
} nuzzlefleece_reading;

/* The facts from a reading; on refusal they are as given. */
typedef struct nuzzlefleece_opening {
    uint8_t number;
    uint8_t second; /* always 0: none of its refusals is 12 */
    uint16_t place;
    uint64_t facts;
} nuzzlefleece_opening;

/* The library has these layouts; another compiler's would stop here. */
typedef char nuzzlefleece_layouts[sizeof(nuzzlefleece_action) == 32 && offsetof(nuzzlefleece_action, release) == 26
    && sizeof(nuzzlefleece_ask) == 56 && sizeof(nuzzlefleece_answer) == 8 && offsetof(nuzzlefleece_answer, second) == 1
    && offsetof(nuzzlefleece_answer, place) == 2 && sizeof(nuzzlefleece_clash) == 2 && sizeof(nuzzlefleece_save) == 64
    && sizeof(nuzzlefleece_watch) == 80 && offsetof(nuzzlefleece_watch, job) == 73 && sizeof(nuzzlefleece_screen) == 40
    && sizeof(nuzzlefleece_question) == 64 && offsetof(nuzzlefleece_question, job) == 56 && sizeof(nuzzlefleece_overruns) == 64
    && offsetof(nuzzlefleece_overruns, most) == 56 && sizeof(nuzzlefleece_reason) == 12
    && offsetof(nuzzlefleece_reason, kind) == 8 && offsetof(nuzzlefleece_reason, fact) == 9 && sizeof(nuzzlefleece_read_answer) == 64
    && sizeof(nuzzlefleece_batch_answer) == 40 && offsetof(nuzzlefleece_batch_answer, jobs) == 8
    && offsetof(nuzzlefleece_batch_answer, atoms) == 16 && offsetof(nuzzlefleece_batch_answer, opening) == 24
    && offsetof(nuzzlefleece_batch_answer, goals) == 32 && sizeof(nuzzlefleece_open_table) == 880
    && offsetof(nuzzlefleece_open_table, atoms) == 0 && offsetof(nuzzlefleece_open_table, count) == 8
    && offsetof(nuzzlefleece_open_table, jobs) == 16 && offsetof(nuzzlefleece_open_table, rows) == 784
    && sizeof(nuzzlefleece_replacement) == 40 && offsetof(nuzzlefleece_replacement, job) == 0
    && offsetof(nuzzlefleece_replacement, record) == 8 && sizeof(nuzzlefleece_wanted) == 24 && offsetof(nuzzlefleece_wanted, goals) == 8
    && offsetof(nuzzlefleece_wanted, bound) == 16 && sizeof(nuzzlefleece_opening) == 16 && offsetof(nuzzlefleece_opening, second) == 1
    && offsetof(nuzzlefleece_opening, place) == 2 ? 1 : -1];

/* The version of the library. */
uint32_t nuzzlefleece_version(void);

/*
 * Why two different jobs clash, each by its record: the lowest fact that one of them deletes and the other has among its conditions; if
 * there is none, the lowest that one deletes and the other adds; else none. Two jobs of a table interfere exactly where this is not none;
 * a job does not interfere with itself, and the same record given twice stands for two jobs that are alike. All 64 facts are looked at,
 * the times and the reserved bytes are not. Any two records get an answer; there is no refusal.
 */
nuzzlefleece_clash nuzzlefleece_why_clash(nuzzlefleece_action one, nuzzlefleece_action other);

/*
 * Checks an offered plan, one start a job, NUZZLEFLEECE_OUT for a job that is out.
 * Done exactly when the plan is valid; a valid plan starts no job before its release. Under rule 2 it also keeps interfering jobs a
 * quarter hour apart, and a finish shows its facts to starts a quarter hour later, to the goals at once.
 * Refusals 3 to 9 and 20, then 11 to 14 and 21. With 12 the place is the lower job of the first pair that is too near, by lower job and
 * then by higher, and the second number is the fact of nuzzlefleece_why_clash for this pair.
 */
nuzzlefleece_answer nuzzlefleece_check_plan(const nuzzlefleece_action *records, size_t lent, nuzzlefleece_ask ask,
    const uint16_t *starts, size_t starts_lent);

/*
 * Plans within the bound, no job before its release: fills one start a job with the first valid plan in the stated order (job 0
 * first, then job 1; out comes before every start, an earlier start before a later one). Refusals 3 to 9 and 20; 10 exactly when no
 * plan is valid.
 */
nuzzlefleece_answer nuzzlefleece_plan_within(const nuzzlefleece_action *records, size_t lent, nuzzlefleece_ask ask,
    uint16_t *starts, size_t starts_lent);

/*
 * The value is the smallest number from 0 to the bound that has a valid plan, no job before its release; the starts are those of the
 * first plan at that number. Refusals 3 to 9 and 20; 10 exactly when no plan is valid within the bound. On refusal the value is 65,535.
 */
nuzzlefleece_answer nuzzlefleece_least_bound(const nuzzlefleece_action *records, size_t lent, nuzzlefleece_ask ask,
    uint16_t *starts, size_t starts_lent);

/*
 * Fills 64 bytes a job and 64 for End behind the last job, by fact: the job that supports this condition,
 * NUZZLEFLEECE_SUPPORTED_BY_START, or NUZZLEFLEECE_NO_CONDITION where it is no condition or the job is out. If several fit,
 * Start is named, else the lowest job; under rule 2 a job that touches does not fit, save for End. Refusals 3 to 9 and 20, then
 * 11 to 14 and 21, with the second number of nuzzlefleece_check_plan: only a valid plan has supports.
 */
nuzzlefleece_answer nuzzlefleece_supports(const nuzzlefleece_action *records, size_t lent, nuzzlefleece_ask ask,
    const uint16_t *starts, size_t starts_lent, uint8_t *supports, size_t supports_lent);

/*
 * Fills two bytes a pair, first job then second, in order of first then second, each pair once: jobs that interfere, or of
 * which the first is the named support of a condition of the second. The value is the count, at most 276; 552 bytes are
 * to be lent. If the plan's jobs start and finish at other moments and each first job still finishes before its second starts,
 * every job finds its conditions and the goals hold at the end; releases and the rule play no part in that.
 * Refusals 3 to 9 and 20, then 11 to 14 and 21, with the second number of nuzzlefleece_check_plan.
 */
nuzzlefleece_answer nuzzlefleece_binding_pairs(const nuzzlefleece_action *records, size_t lent, nuzzlefleece_ask ask,
    const uint16_t *starts, size_t starts_lent, uint8_t *pairs, size_t pairs_lent);

/*
 * Follows the house as it works: one event of a job of the offered plan, after events that gave the words handed in. Before any event both
 * words are 0, and the jobs of the plan that are second in no binding pair may start; after each call the screen's two words are handed to
 * the next. A job of the plan may start once, when the first job of every binding pair with it as second has finished, and may finish once,
 * after it has started; facts change at finishes alone, which delete, then add. The screen has the words with the event, the facts then, and
 * the jobs that may start then. They are the same whatever the order of the events was; a job that may start finds its conditions, and while
 * a job of the plan has not finished some event is allowed. Releases, starts and the rule play no part in that, beyond the pairs. Refusals 3
 * to 9 and 20, then 11 to 14 and 21 as in nuzzlefleece_check_plan, then 19, for words that no allowed events give before an event that is
 * not allowed after events that give them.
 */
nuzzlefleece_screen nuzzlefleece_follow(const nuzzlefleece_action *records, size_t lent, nuzzlefleece_watch watch,
    const uint16_t *starts, size_t starts_lent);

/*
 * How late the offered plan can get where each of its jobs may run over by up to overruns.most quarter hours. Each job of the plan starts as
 * soon as its release has come and the first job of every binding pair with it as second has finished, under rule 2 a quarter hour before.
 * Whatever the overruns are, each from 0 to overruns.most, job by job, all is finished by the value. It is the settled finish plus
 * overruns.most times the greatest number of jobs in one chain of binding pairs. The settled finish is the last finish of all jobs of the
 * plan, also those in no pair, at the starts that nuzzlefleece_settle gives them by the binding pairs; a lone job is a chain of one. With
 * overruns.most 0 all is finished just at the value; for the empty plan it is 0, whatever overruns.most is. Two plans of one table with the
 * same jobs and the same binding pairs have the same value, whatever their starts; it may be above the bound. No lent memory is filled.
 * Refusals 3 to 9 and 20, then 11 to 14 and 21 as in nuzzlefleece_check_plan, then 34.
 */
nuzzlefleece_answer nuzzlefleece_how_late(const nuzzlefleece_action *records, size_t lent, nuzzlefleece_overruns overruns,
    const uint16_t *starts, size_t starts_lent);

/*
 * Fills one earliest estimate a job, the greater of its release and what its conditions cost, NUZZLEFLEECE_OUT where it is never
 * reachable. Under rule 2 a condition that is not open costs a quarter hour more. No valid plan starts a job before its estimate.
 * Refusals 3 to 8 and 20.
 */
nuzzlefleece_answer nuzzlefleece_earliest(const nuzzlefleece_action *records, size_t lent, nuzzlefleece_ask ask,
    uint16_t *estimates, size_t estimates_lent);

/*
 * Settles the jobs of ask.set: fills the least starts with which the first job of each of the ask.pairs pairs finishes no later
 * than the second starts, under rule 2 no later than a quarter hour before that, no job starts before its release and all end by the
 * bound; jobs outside the set get NUZZLEFLEECE_OUT. Two bytes a pair, at most 600 pairs. Conditions are not looked at. Refusals 3 to 9
 * and 20, then 15 and 16.
 */
nuzzlefleece_answer nuzzlefleece_settle(const nuzzlefleece_action *records, size_t lent, nuzzlefleece_ask ask,
    const uint8_t *pairs, size_t pairs_lent, uint16_t *starts, size_t starts_lent);

/*
 * Why a job starts when it does, in the starts of nuzzlefleece_settle for the same records, ask and pairs: fills one byte a job with a
 * chain of jobs that ends with question.job, the first job first, and the value is their count, 1 to the job count. The first job starts
 * at its release; each other job starts when the one before it has finished, under rule 2 a quarter hour later, and the two are a pair
 * asked for. Seen from the end, a job that starts at its release ends the chain, and before any other stands the lowest job that fits. Each
 * job of the set has just one such chain. One byte a job is to be lent. Refusals 3 to 9, 20, 15 and 16 as in nuzzlefleece_settle, then 27.
 */
nuzzlefleece_answer nuzzlefleece_why_start(const nuzzlefleece_action *records, size_t lent, nuzzlefleece_question question,
    const uint8_t *pairs, size_t pairs_lent, uint8_t *chain, size_t chain_lent);

/*
 * Why there is no plan within the bound, where the earliest estimates tell: the lowest goal that is never reachable; if every goal is,
 * the lowest whose cost is above the bound; else neither. A goal costs 0 if it is open, else the least of estimate plus duration over the
 * jobs that add it, with no gap under rule 2. A goal that is named leaves no valid plan within the bound, and one that is never reachable
 * leaves none within any bound; where there is a plan neither is said, but neither does not mean that there is one. Nothing is planned.
 * Refusals 3 to 9 and 20.
 */
nuzzlefleece_reason nuzzlefleece_why_no_plan(const nuzzlefleece_action *records, size_t lent, nuzzlefleece_ask ask);

/*
 * Expands batches, each given by its house group, into a job table: fills one record a job, batch by batch and stage by stage, each clearing
 * job right behind its stage. The stages of groups 0 to 11 in quarter hours, b where the wash bay is held: 4; 4 3b; 6 3b 8; 4 12; 8 3b 16;
 * 4 3b 8 24; 12; 6 2b 12 3b; 4 8 16 32; 8 3b 24 3b 48; 4 2b 8 2b 16 32; 96. Fact 0 is the wash bay; the done facts of the stages follow from 1
 * on, by batch, then stage. A stage needs the done fact of the stage before it in its batch, a first stage none, and adds its own; one that
 * holds the bay needs fact 0 too and deletes it. A clearing job is one quarter hour long, needs that stage's done fact and adds fact 0. Every
 * release is 0. No bound comes out: jobs, atoms, opening facts and goals go into a nuzzlefleece_ask, by either rule, and the caller sets its
 * bound; no call refuses such a table with 4 to 8 or 20. Without batches there are no jobs and no goals, and the bay is the one fact. 24 records
 * lent are always enough. Refusals 28, for which all batches are looked at, 29 and 30, then 3.
 */
nuzzlefleece_batch_answer nuzzlefleece_batches(const uint8_t *groups, size_t batches, nuzzlefleece_action *records, size_t lent);

/*
 * Begins an open table: no jobs, the atom count as given, with its mark, all records and all rows zero. What the table held before plays no
 * part. Refusal 4.
 */
nuzzlefleece_answer nuzzlefleece_begin(nuzzlefleece_open_table *table, uint8_t atoms);

/*
 * Adds a job behind the last one; the value is its number, the count of before. In its row and in its column every bit is worked out anew,
 * every other bit stays. Refusals 4 to 8 and 20 of the table with the job added, where 5 means that there is no room for it; the place is the
 * lowest job, for the new one the number that it would have. On refusal the table is as before.
 */
nuzzlefleece_answer nuzzlefleece_add(nuzzlefleece_open_table *table, nuzzlefleece_action job);

/*
 * Puts another record in the place of a job, which keeps its number. In its row and in its column every bit is worked out anew, every other bit
 * stays. Refusals 22, then 4 to 8 and 20 of the table with the record in its place, so that a good record may take the place of a bad one. On
 * refusal the table is as before.
 */
nuzzlefleece_answer nuzzlefleece_replace(nuzzlefleece_open_table *table, nuzzlefleece_replacement replacement);

/*
 * Removes a job: the later ones move down by one, their rows with them, and its column is taken out of every row; the last record and the last
 * row become zero, and the next addition uses the room. Nothing else is worked out anew. Refusals 22, then 4 to 8 and 20 of the table as it
 * stands, the job to be removed included. On refusal the table is as before.
 */
nuzzlefleece_answer nuzzlefleece_remove(nuzzlefleece_open_table *table, uint8_t job);

/*
 * What nuzzlefleece_plan_within says of the jobs of an open table, under its rule: the first valid plan in the stated order, one start a job.
 * The rows are not looked at, the table is not changed. Refusals 3, where fewer starts are lent than there are jobs, then 4 to 10 and 20.
 */
nuzzlefleece_answer nuzzlefleece_plan_open(const nuzzlefleece_open_table *table, nuzzlefleece_wanted wanted, uint16_t *starts, size_t starts_lent);

/*
 * What nuzzlefleece_least_bound says of the jobs of an open table: the value is the smallest bound that has a valid plan, the starts are those
 * of the first plan there. Refusals as of nuzzlefleece_plan_open, with the value 65,535.
 */
nuzzlefleece_answer nuzzlefleece_least_bound_open(const nuzzlefleece_open_table *table, nuzzlefleece_wanted wanted, uint16_t *starts,
    size_t starts_lent);

/*
 * Reads the last save of a job file: fills one record a job and gives the file's numbers, the atom count as it stands there, with the
 * mark of rule 2 where it has one. A file written before there were releases has zeros in their place. A library before 1.2.0 refuses
 * a file with the mark, with 4 unless something before that is wrong. Refusals 1 to 9 and 20.
 * 255 records lent take the count of any file, so that 3 cannot come; a count over 24 is then 5.
 */
nuzzlefleece_read_answer nuzzlefleece_read_file(const uint8_t *file, size_t file_length, nuzzlefleece_action *records, size_t lent);

/*
 * Appends a save of 32 bytes a job and 24 more behind the bytes of the buffer that are in use; the value is the new length in use.
 * Reading what was written gives back what was saved, the releases and the mark of rule 2 too. Refusals 1, 3 to 9 and 20.
 */
nuzzlefleece_answer nuzzlefleece_write_file(const nuzzlefleece_action *records, size_t lent, nuzzlefleece_save save,
    uint8_t *buffer, size_t buffer_length);

/*
 * Reads a plan from its text, a line a step, as `4.000: (warm) [8.000]`: start, name and duration of a job, blanks as here, and a newline, at the
 * last line too. A number is 1 to 4 digits and, if wanted, a point and one or more zeros; a start is at most 2,880. Names are those of the name
 * table, 16 bytes a job: 1 to 16 small letters, digits or hyphens, zeros behind them, no two alike; what stands behind the bytes of the jobs is not
 * looked at. Lines stand in any order. Fills one start a job, NUZZLEFLEECE_OUT for a job without a line; the empty text is the empty plan. The
 * plan is not checked, and ask.bound is not looked at: nuzzlefleece_check_plan does both. Reading what nuzzlefleece_write_text wrote, with the
 * same jobs and names, gives the plan back. 16 bytes of names a job are to be lent. Refusals 3 to 8 and 20, then 33, then of the first bad line the
 * lowest of 23 to 26.
 */
nuzzlefleece_answer nuzzlefleece_read_text(const nuzzlefleece_action *records, size_t lent, nuzzlefleece_ask ask,
    const uint8_t *names, size_t names_length, const uint8_t *text, size_t text_length, uint16_t *starts, size_t starts_lent);

/*
 * Writes the text of a valid plan into the first bytes of the lent text, in the form that nuzzlefleece_read_text takes: a line for each job of
 * the plan, by start, then job, each number with a point and three zeros. The value is its length, no zero byte ends it; the plan without jobs is
 * the empty text. 39 bytes a job are to be lent, and 16 bytes of names. Refusals 3 to 9 and 20, then 11 to 14 and 21, with the second number of
 * nuzzlefleece_check_plan, then 33.
 */
nuzzlefleece_answer nuzzlefleece_write_text(const nuzzlefleece_action *records, size_t lent, nuzzlefleece_ask ask,
    const uint8_t *names, size_t names_length, const uint16_t *starts, size_t starts_lent, uint8_t *text, size_t text_length);

/*
 * Tidies a job file of which the first `used` bytes of the buffer are in use: its last save, notes included, moves to the front, and the
 * bytes behind it become zero up to where those in use ended; what stands behind them is unchanged. The value is the new length in use,
 * the save's distance plus 24, never more than before. Reading the bytes then in use gives what reading gave before, and tidying them
 * again changes nothing and gives the same length. Refusals 1 to 9 and 20 of a reader, where 3 means that more bytes are said to be in
 * use than the buffer has, and comes between 1 and 2.
 */
nuzzlefleece_answer nuzzlefleece_tidy(size_t used, uint8_t *buffer, size_t buffer_length);

/*
 * Opening facts from a reading. A mark is a channel (0 temperature, 1 humidity), a level from -1000 to 1000 tenths and a fact below
 * 64; the first `count` of each table are the marks. A mark is reached when the tenths, the nearest whole number to ten times the
 * float's exact value, halves going up, are at or above its level: 2.3 has 23, 0.25 has 3, -0.25 has -2. A marked fact is set if every
 * mark on it is reached, else cleared; other facts stay as given. Refusals 3, 17 and 18, with the facts as given.
 */
nuzzlefleece_opening nuzzlefleece_opening_facts(nuzzlefleece_reading reading, const uint8_t *channels, size_t channels_lent,
    const int16_t *levels, size_t levels_lent, const uint8_t *facts, size_t facts_lent, size_t count, uint64_t given);

/*
 * The text that bench-plan prints of a job file, into the first bytes of the lent text; the value is its length, no zero byte ends it.
 * A file that is refused, or has no plan, gives the line `refused`, number and place. The call itself refuses with 3 alone, where
 * fewer than 8,192 bytes are lent.
 */
nuzzlefleece_answer nuzzlefleece_page(const uint8_t *file, size_t file_length, uint8_t *text, size_t text_lent);

#ifdef __cplusplus
}
#endif

#endif
