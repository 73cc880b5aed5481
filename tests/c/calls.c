/*
 * Answers the stream of calls of tests/second/README.md through the C library, one line a call.
 * Status 2 where the stream ends within a call or asks for more than tests/calls/call.py allows.
 */
#include <stdio.h>
#include <stdlib.h>
#include <string.h>

#include "nuzzlefleece.h"

enum { WORDS = 16, RECORD = 32, SAVED = 28, MOST_RECORDS = 255, MOST_OUT = 2048, MOST_TABLE = 72000 };
/* An open table's jobs, the bytes of its rows in the stream and of an edit, and the places behind the starts lent to an edit that are told too. */
enum { JOBS = NUZZLEFLEECE_MOST_JOBS, ROWS = 4 * JOBS, EDIT = 40, BEHIND = 8 };
/* What an edit is. */
enum { BEGIN, ADD, REPLACE, REMOVE, PLAN, LEAST };

/* One call as it stands in the stream, and what is lent to it. */
static uint64_t head[WORDS];
static nuzzlefleece_action records[MOST_RECORDS];
static uint8_t table[MOST_TABLE];
static uint16_t given[MOST_TABLE / 2];
static uint8_t bytes_out[MOST_OUT];
static uint16_t halves_out[MOST_OUT];
/* The open table that is edited, and bytes around it that no edit may touch. */
static struct {
    uint8_t before[64];
    nuzzlefleece_open_table table;
    uint8_t behind[64];
} held;

static void stop_unless(int fine) {
    if (!fine) {
        exit(2);
    }
}

static uint64_t number(const uint8_t *bytes, size_t count) {
    uint64_t value = 0;
    while (count > 0) {
        value = value << 8 | bytes[--count];
    }
    return value;
}

static void exactly(void *to, uint64_t count, uint64_t most) {
    stop_unless(count <= most);
    stop_unless(fread(to, 1, count, stdin) == count);
}

/* The bytes of the given tables: one table, or the three mark tables in a row. */
static uint64_t table_bytes(void) {
    return head[0] == 10 ? head[9] + 2 * head[10] + head[11] : head[9];
}

static void read_record(nuzzlefleece_action *record, const uint8_t *bytes) {
    record->conditions = number(bytes, 8);
    record->additions = number(bytes + 8, 8);
    record->deletions = number(bytes + 16, 8);
    record->duration = (uint16_t)number(bytes + 24, 2);
    record->release = (uint16_t)number(bytes + 26, 2);
}

static void read_records(void) {
    uint8_t bytes[RECORD];
    stop_unless(head[8] <= MOST_RECORDS);
    for (size_t i = 0; i < head[8]; i++) {
        exactly(bytes, RECORD, RECORD);
        read_record(&records[i], bytes);
    }
}

/* The next call; 0 at the end of the stream. */
static int next_call(void) {
    uint8_t bytes[8 * WORDS];
    size_t got = fread(bytes, 1, sizeof bytes, stdin);
    if (got == 0) {
        return 0;
    }
    stop_unless(got == sizeof bytes);
    for (size_t i = 0; i < WORDS; i++) {
        head[i] = number(bytes + 8 * i, 8);
    }
    read_records();
    stop_unless(head[9] <= MOST_TABLE && head[10] <= MOST_OUT && (head[0] != 10 || head[11] <= MOST_TABLE));
    stop_unless((head[0] != 18 && head[0] != 19) || head[6] <= head[9]);
    exactly(table, table_bytes(), MOST_TABLE);
    return 1;
}

/* The given bytes as numbers of two bytes. */
static const uint16_t *halves(const uint8_t *bytes, size_t count) {
    for (size_t i = 0; i < count; i++) {
        given[i] = (uint16_t)number(bytes + 2 * i, 2);
    }
    return given;
}

static void print_hex(const void *from, size_t count) {
    static char text[2 * MOST_TABLE];
    static const char digits[] = "0123456789abcdef";
    const uint8_t *bytes = from;
    for (size_t i = 0; i < count; i++) {
        text[2 * i] = digits[bytes[i] >> 4];
        text[2 * i + 1] = digits[bytes[i] & 15];
    }
    fwrite(text, 1, 2 * count, stdout);
}

/* What every answer begins with: number, second number and place. */
static void print_refusal(uint8_t number, uint8_t second, uint16_t place) {
    printf("%u %u %u ", (unsigned)number, (unsigned)second, (unsigned)place);
}

static void print_answer(nuzzlefleece_answer answer) {
    print_refusal(answer.number, answer.second, answer.place);
    printf("%lu", (unsigned long)answer.value);
}

/* The answer and a lent table after the call. */
static void print_with(nuzzlefleece_answer answer, const void *lent, size_t bytes) {
    print_answer(answer);
    printf(" ");
    print_hex(lent, bytes);
}

static nuzzlefleece_ask ask(void) {
    nuzzlefleece_ask q = {.jobs = head[1], .atoms = (uint8_t)head[2], .opening = head[3], .goals = head[4], .bound = (uint16_t)head[5]};
    if (head[0] == 7 || head[0] == 14) {
        q.set = head[6];
        q.pairs = head[7];
    }
    return q;
}

/* Calls 2, 3, 6 and 7 fill numbers of two bytes. */
static void answer_in_halves(void) {
    nuzzlefleece_answer answer;
    size_t lent = head[8], out = head[10];
    memset(halves_out, (int)(head[11] & 255), sizeof halves_out);
    if (head[0] == 2) {
        answer = nuzzlefleece_plan_within(records, lent, ask(), halves_out, out);
    } else if (head[0] == 3) {
        answer = nuzzlefleece_least_bound(records, lent, ask(), halves_out, out);
    } else if (head[0] == 6) {
        answer = nuzzlefleece_earliest(records, lent, ask(), halves_out, out);
    } else {
        answer = nuzzlefleece_settle(records, lent, ask(), table, head[9], halves_out, out);
    }
    print_with(answer, halves_out, 2 * out);
}

/* Calls 4 and 5 fill bytes. */
static void answer_in_bytes(void) {
    nuzzlefleece_answer answer;
    const uint16_t *starts = halves(table, head[9] / 2);
    memset(bytes_out, (int)(head[11] & 255), sizeof bytes_out);
    if (head[0] == 4) {
        answer = nuzzlefleece_supports(records, head[8], ask(), starts, head[9] / 2, bytes_out, head[10]);
    } else {
        answer = nuzzlefleece_binding_pairs(records, head[8], ask(), starts, head[9] / 2, bytes_out, head[10]);
    }
    print_with(answer, bytes_out, head[10]);
}

static void print_records_of(const nuzzlefleece_action *from, size_t count) {
    for (size_t i = 0; i < count; i++) {
        print_hex(&from[i], SAVED);
    }
}

/* The lent records after the call. */
static void print_records(void) {
    print_records_of(records, head[8]);
}

static void answer_reader(void) {
    nuzzlefleece_read_answer read = nuzzlefleece_read_file(table, head[9], records, head[8]);
    nuzzlefleece_ask q = read.ask;
    print_refusal(read.answer.number, read.answer.second, read.answer.place);
    printf("%lu %lu %u %lu %u ", (unsigned long)q.opening, (unsigned long)q.goals, (unsigned)q.bound, (unsigned long)q.jobs,
        (unsigned)q.atoms);
    print_records();
}

/* Call 17: as the reader, without a bound. */
static void answer_batches(void) {
    nuzzlefleece_batch_answer told = nuzzlefleece_batches(table, head[9], records, head[8]);
    print_refusal(told.answer.number, told.answer.second, told.answer.place);
    printf("%lu %lu %lu %u ", (unsigned long)told.opening, (unsigned long)told.goals, (unsigned long)told.jobs, (unsigned)told.atoms);
    print_records();
}

static void answer_writer(void) {
    nuzzlefleece_save save = {.ask = ask(), .used = head[6]};
    nuzzlefleece_answer answer = nuzzlefleece_write_file(records, head[8], save, table, head[9]);
    print_with(answer, table, head[9]);
}

static void answer_tidying(void) {
    nuzzlefleece_answer answer = nuzzlefleece_tidy(head[6], table, head[9]);
    print_with(answer, table, head[9]);
}

/* Call 13: the answer, then the screen. */
static void answer_following(void) {
    nuzzlefleece_watch watch = {.ask = ask(), .started = head[6], .finished = head[7], .event = (uint8_t)head[12], .job = (uint8_t)head[13]};
    nuzzlefleece_screen screen = nuzzlefleece_follow(records, head[8], watch, halves(table, head[9] / 2), head[9] / 2);
    print_answer(screen.answer);
    printf(" %lu %lu %lu %lu", (unsigned long)screen.started, (unsigned long)screen.finished, (unsigned long)screen.facts,
        (unsigned long)screen.may_start);
}

/* Call 14: the chain fills bytes. */
static void answer_start(void) {
    nuzzlefleece_question question = {.ask = ask(), .job = (uint8_t)head[13]};
    nuzzlefleece_answer answer;
    memset(bytes_out, (int)(head[11] & 255), sizeof bytes_out);
    answer = nuzzlefleece_why_start(records, head[8], question, table, head[9], bytes_out, head[10]);
    print_with(answer, bytes_out, head[10]);
}

/* Call 15: the answer, then the reason. */
static void answer_no_plan(void) {
    nuzzlefleece_reason reason = nuzzlefleece_why_no_plan(records, head[8], ask());
    print_answer(reason.answer);
    printf(" %u %u", (unsigned)reason.kind, (unsigned)reason.fact);
}

/* Call 16: the answer alone. */
static void answer_lateness(void) {
    nuzzlefleece_overruns overruns = {.ask = ask(), .most = (uint16_t)head[12]};
    print_answer(nuzzlefleece_how_late(records, head[8], overruns, halves(table, head[9] / 2), head[9] / 2));
}

/* Call 18: the names, then the text; the starts fill numbers of two bytes. */
static void answer_read_text(void) {
    nuzzlefleece_answer answer;
    memset(halves_out, (int)(head[11] & 255), sizeof halves_out);
    answer = nuzzlefleece_read_text(records, head[8], ask(), table, head[6], table + head[6], head[9] - head[6], halves_out, head[10]);
    print_with(answer, halves_out, 2 * head[10]);
}

/* Call 19: the names, then the starts; the text fills bytes. */
static void answer_write_text(void) {
    nuzzlefleece_answer answer;
    size_t starts = (head[9] - head[6]) / 2;
    memset(bytes_out, (int)(head[11] & 255), sizeof bytes_out);
    answer = nuzzlefleece_write_text(records, head[8], ask(), table, head[6], halves(table + head[6], starts), starts, bytes_out, head[10]);
    print_with(answer, bytes_out, head[10]);
}

static void answer_readings(void) {
    static int16_t levels[MOST_OUT];
    nuzzlefleece_reading reading;
    nuzzlefleece_opening opening;
    memcpy(levels, halves(table + head[9], head[10]), 2 * head[10]);
    memcpy(&reading.temperature, &head[6], 8);
    memcpy(&reading.humidity, &head[12], 8);
    opening = nuzzlefleece_opening_facts(reading, table, head[9], levels, head[10], table + head[9] + 2 * head[10], head[11], head[7], head[3]);
    print_refusal(opening.number, opening.second, opening.place);
    printf("%lu", (unsigned long)opening.facts);
}

/* The open table as it stands in the stream, in memory that is filled with the byte of word 11. */
static void open_table(void) {
    memset(&held, (int)(head[11] & 255), sizeof held);
    held.table.atoms = (uint8_t)head[2];
    held.table.count = head[1];
    for (size_t i = 0; i < JOBS; i++) {
        memcpy(&held.table.jobs[i], &records[i], SAVED);
        held.table.rows[i] = (uint32_t)number(table + 4 * i, 4);
    }
}

/* Every field of the open table; where a byte around it has changed, that is said instead. */
static void print_table(void) {
    for (size_t i = 0; i < sizeof held.before; i++) {
        if (held.before[i] != (head[11] & 255) || held.behind[i] != (head[11] & 255)) {
            printf(" outside");
            return;
        }
    }
    printf(" ");
    print_hex(&held.table.atoms, 1);
    print_hex(&held.table.count, 8);
    print_records_of(held.table.jobs, JOBS);
    print_hex(held.table.rows, ROWS);
}

/* A plan of the open table or its least bound, with the starts lent and what stands behind them. */
static void answer_wanted(const uint8_t *edit) {
    nuzzlefleece_wanted wanted = {.opening = number(edit + 8, 8), .goals = number(edit + 16, 8), .bound = (uint16_t)number(edit + 2, 2)};
    size_t lent = number(edit + 4, 2);
    stop_unless(lent + BEHIND <= MOST_OUT);
    memset(halves_out, (int)(head[11] & 255), sizeof halves_out);
    if (edit[0] == PLAN) {
        print_answer(nuzzlefleece_plan_open(&held.table, wanted, halves_out, lent));
    } else {
        print_answer(nuzzlefleece_least_bound_open(&held.table, wanted, halves_out, lent));
    }
    print_table();
    printf(" ");
    print_hex(halves_out, 2 * (lent + BEHIND));
}

static void answer_edit(const uint8_t *edit) {
    nuzzlefleece_replacement replacement = {.job = edit[1]};
    read_record(&replacement.record, edit + 8);
    switch (edit[0]) {
    case BEGIN:
        print_answer(nuzzlefleece_begin(&held.table, edit[1]));
        break;
    case ADD:
        print_answer(nuzzlefleece_add(&held.table, replacement.record));
        break;
    case REPLACE:
        print_answer(nuzzlefleece_replace(&held.table, replacement));
        break;
    case REMOVE:
        print_answer(nuzzlefleece_remove(&held.table, edit[1]));
        break;
    case PLAN: case LEAST:
        answer_wanted(edit);
        return;
    default:
        printf("unknown");
    }
    print_table();
}

/* Call 20: each edit's answer and the table behind it. */
static void answer_edits(void) {
    open_table();
    for (size_t at = ROWS; at < head[9]; at += EDIT) {
        printf("%s", at == ROWS ? "" : "; ");
        answer_edit(table + at);
    }
}

static void answer_clash(void) {
    nuzzlefleece_clash clash = nuzzlefleece_why_clash(records[0], records[1]);
    printf("%u %u", (unsigned)clash.kind, (unsigned)clash.fact);
}

/* The kind of the call; 0, which there is not, for a clash without exactly two records and for no open table with whole edits. */
static uint64_t kind(void) {
    int edits = head[8] == JOBS && head[9] >= ROWS && (head[9] - ROWS) % EDIT == 0;
    return (head[0] == 11 && head[8] != 2) || (head[0] == 20 && !edits) ? 0 : head[0];
}

static void answer_call(void) {
    switch (kind()) {
    case 1:
        print_answer(nuzzlefleece_check_plan(records, head[8], ask(), halves(table, head[9] / 2), head[9] / 2));
        break;
    case 2: case 3: case 6: case 7:
        answer_in_halves();
        break;
    case 4: case 5:
        answer_in_bytes();
        break;
    case 8:
        answer_reader();
        break;
    case 9:
        answer_writer();
        break;
    case 10:
        answer_readings();
        break;
    case 11:
        answer_clash();
        break;
    case 12:
        answer_tidying();
        break;
    case 13:
        answer_following();
        break;
    case 14:
        answer_start();
        break;
    case 15:
        answer_no_plan();
        break;
    case 16:
        answer_lateness();
        break;
    case 17:
        answer_batches();
        break;
    case 18:
        answer_read_text();
        break;
    case 19:
        answer_write_text();
        break;
    case 20:
        answer_edits();
        break;
    default:
        printf("unknown");
    }
    printf("\n");
}

int main(void) {
    while (next_call()) {
        answer_call();
    }
    return 0;
}
