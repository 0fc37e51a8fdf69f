/* Lives through a whole routine: loads it, runs it, prints each call that it sends, replies once it waits, and prints the
 * value that it comes to. Two tools stand in for the stall's: 900 gives a string, 901 gives true. */
#include <stdio.h>

#include "tca.h"

enum { LOCATE = 900, LOOK = 901, KIND_STR = 1, KIND_TRUE = 3 };

/* A row: what document 01 calls kind, n, type and word. */
typedef struct {
    unsigned kind, n, type;
    unsigned long word;
} row;

static unsigned read_u16(const uint8_t *at) { return at[0] | (unsigned)at[1] << 8; }

static unsigned long read_u32(const uint8_t *at) { return read_u16(at) | (unsigned long)read_u16(at + 2) << 16; }

static void write_u16(uint8_t *at, unsigned number) {
    at[0] = (uint8_t)number;
    at[1] = (uint8_t)(number >> 8);
}

static void write_u32(uint8_t *at, unsigned long number) {
    write_u16(at, (unsigned)(number & 0xFFFF));
    write_u16(at + 2, (unsigned)(number >> 16));
}

static void print_rows(const uint8_t *rows, unsigned count) {
    for (unsigned k = 0; k < count; k++) {
        const uint8_t *at = rows + k * TCA_ROW_BYTES;
        printf("  row %u: kind %u, n %u, type %u, word %lu\n", k, at[0], at[1], read_u16(at + 2), read_u32(at + 4));
    }
}

/* A call that waits for its reply. */
typedef struct {
    unsigned long number, tool;
    unsigned result_type;
} call;

/* Reads the call at the start of a work buffer, and prints it. */
static call take_call(const uint8_t *work) {
    call sent = {read_u32(work), read_u32(work + 4), read_u16(work + 10)};
    printf("sent call %lu to tool %lu for a result of type %u\n", sent.number, sent.tool, sent.result_type);
    print_rows(work + TCA_CALL_HEAD_BYTES, read_u16(work + 8));
    return sent;
}

/* What the tool gives for the call, as a reply of one row. */
static void answer(call sent, uint8_t reply[TCA_REPLY_HEAD_BYTES + TCA_ROW_BYTES]) {
    row found = {KIND_STR, 0, sent.result_type, 39 + sent.number};
    row clear = {KIND_TRUE, 0, sent.result_type, 0};
    row given = sent.tool == LOOK ? clear : found;
    write_u32(reply, sent.number);
    write_u16(reply + 4, 1);
    write_u16(reply + 6, 0);
    reply[8] = (uint8_t)given.kind;
    reply[9] = (uint8_t)given.n;
    write_u16(reply + 10, given.type);
    write_u32(reply + 12, given.word);
}

int main(int argc, char **argv) {
    static uint8_t file[TCA_MAX_FILE_BYTES + 1];
    static uint8_t record[TCA_RECORD_BYTES];
    static uint8_t work[TCA_WORK_BYTES];
    uint8_t reply[TCA_REPLY_HEAD_BYTES + TCA_ROW_BYTES];
    call waiting[TCA_MAX_OPEN_CALLS];
    unsigned waiting_count = 0;

    FILE *from = argc == 2 ? fopen(argv[1], "rb") : NULL;
    if (from == NULL) {
        fprintf(stderr, "usage: routine FILE\n");
        return 2;
    }
    size_t length = fread(file, 1, sizeof file, from);
    fclose(from);
    tca_verdict verdict = tca_load(file, length, record, sizeof record);
    if (verdict.refusal != TCA_ACCEPTED) {
        printf("load refused %lu at %lu\n", (unsigned long)verdict.refusal, (unsigned long)verdict.place);
        return 1;
    }

    unsigned long steps = 0;
    for (;;) {
        tca_run_answer ran = tca_run(record, sizeof record, work, sizeof work, 1000);
        if (ran.refusal != TCA_ACCEPTED) {
            printf("run refused %lu\n", (unsigned long)ran.refusal);
            return 1;
        }
        steps += ran.steps;
        if (ran.answer == TCA_SENT) {
            waiting[waiting_count++] = take_call(work);
        } else if ((ran.answer == TCA_WAITING || ran.answer == TCA_HELD) && waiting_count > 0) {
            /* The last call sent is replied to first: replies may come in any order. */
            call sent = waiting[--waiting_count];
            answer(sent, reply);
            verdict = tca_reply(record, sizeof record, work, sizeof work, reply, sizeof reply);
            if (verdict.refusal != TCA_ACCEPTED) {
                printf("reply refused %lu at %lu\n", (unsigned long)verdict.refusal, (unsigned long)verdict.place);
                return 1;
            }
            printf("took the reply to call %lu\n", sent.number);
        } else if (ran.answer == TCA_VALUE) {
            printf("value after %lu steps\n", steps);
            print_rows(record + TCA_RECORD_ROWS, read_u16(record + TCA_RECORD_ROW_COUNT));
            return 0;
        } else if (ran.answer != TCA_BUDGET) {
            printf("stopped with answer %lu\n", (unsigned long)ran.answer);
            return 1;
        }
    }
}
