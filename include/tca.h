/*
 * tca.h: the proved library for attachment routines, as C sees it.
 *
 * Link with libtca.a (tools/native-staticlib tca writes target/native/libtca.a):
 *
 *     cc -std=c11 -I include yours.c -L target/native -l:libtca.a
 *
 * The library keeps nothing between calls, allocates nothing, and reads and writes nothing but the buffers lent to a
 * call, so calls on different records may run at the same time on different threads.
 *
 * Nothing checks these declarations against the proved source, and what is proved of a function is proved for calls
 * that keep to these rules:
 *
 *   - A buffer is an address and a length in bytes. All bytes of that length can be read, and those of a buffer that is
 *     not const can be written, until the call returns.
 *   - No two buffers of one call share a byte, and nothing else writes to them during the call.
 *   - NULL may stand for the address of a buffer of length 0, and of no other. Nothing is read or written behind it.
 *   - Any address will do; none needs to be aligned.
 *
 * Within them, every content and every length is allowed: what a function cannot take it refuses, and changes no byte.
 */
#ifndef TCA_H
#define TCA_H

#include <stddef.h>
#include <stdint.h>

#ifdef __cplusplus
extern "C" {
#endif

/* A program file: a head, then its type rows, then its term rows. */
#define TCA_FILE_HEAD_BYTES 10 /* mark, version, a zero byte, type count, row count */
#define TCA_TYPE_BYTES 36      /* a type row */
#define TCA_ROW_BYTES 8        /* a term row */
#define TCA_MAX_TYPES 256      /* a file has 1 to 256 types */
#define TCA_MAX_FILE_ROWS 1024 /* a file has 1 to 1,024 rows */

/* The length of the longest program file: 17,418 bytes. A longer one is always refused. */
#define TCA_MAX_FILE_BYTES (TCA_FILE_HEAD_BYTES + TCA_MAX_TYPES * TCA_TYPE_BYTES + TCA_MAX_FILE_ROWS * TCA_ROW_BYTES)

/* A run record: always exactly this long. It holds the types, the open calls and the rows that the term has come to. */
#define TCA_RECORD_BYTES 26132
#define TCA_MAX_RECORD_ROWS 2048 /* rows that a term may grow to */
#define TCA_MAX_OPEN_CALLS 64    /* calls sent and not yet replied to */
#define TCA_RECORD_ROW_COUNT 8   /* where a record has its row count, u16 */
#define TCA_RECORD_ROWS 9748     /* where a record has its rows */

/* A work buffer, lent to tca_run and tca_reply: always exactly this long. */
#define TCA_WORK_BYTES 16400

/* A call that a run has sent, at the start of the work buffer: a head (number u32, tool u32, row count u16 of all
 * arguments, result type u16), then the argument rows. Numbers are little-endian here as everywhere. */
#define TCA_CALL_HEAD_BYTES 12

/* A reply: a head (number u32, row count u16, two zero bytes), then the rows of the value. */
#define TCA_REPLY_HEAD_BYTES 8
#define TCA_MAX_REPLY_ROWS 256 /* a reply has 1 to 256 rows */

/* The length of the longest reply: 2,056 bytes. A longer one is always refused. */
#define TCA_MAX_REPLY_BYTES (TCA_REPLY_HEAD_BYTES + TCA_MAX_REPLY_ROWS * TCA_ROW_BYTES)

/* Why a call is refused: the value of refusal in what it gives. "With its place" means that the verdict's place is the
 * first such row, counted from 0; where nothing is said, place is 0. */
enum tca_refusal {
    TCA_ACCEPTED = 0, /* not refused; place is 0 */

    /* What every entry gives, before all else. */
    TCA_LENGTH = 1, /* the record is not TCA_RECORD_BYTES long, or the work buffer not TCA_WORK_BYTES */

    /* What tca_load gives. It tests in this order, but that a file too short for a head is TCA_SIZE at once, and one of
     * another length than its counts need is TCA_SIZE only after TCA_COUNT. */
    TCA_SIZE = 2,     /* the file has under TCA_FILE_HEAD_BYTES bytes, or not the length that its counts need */
    TCA_MARK = 3,     /* the file does not begin with the letters TCA */
    TCA_VERSION = 4,  /* the file's version is not 1 */
    TCA_COUNT = 5,    /* the head's zero byte is not zero, or a count is 0 or over its limit */
    TCA_TYPE_ROW = 6, /* a bad type row; with its place among the type rows */
    TCA_ROW = 7,      /* a row of bad kind, field or type number, or behind the tree's end; with its place.
                         If the tree is unfinished, place is the row count */
    TCA_FUTURE = 8,   /* a future, which no program may hold; with its place */
    TCA_TYPING = 9,   /* a row that fails typing; with its place */

    /* What tca_run and tca_reply give next. */
    TCA_UNSOUND = 10, /* the record is not sound */

    /* What tca_reply gives, in this order. */
    TCA_HEADER = 11,       /* the reply's head or length */
    TCA_NOT_OPEN = 12,     /* the reply's number is not open */
    TCA_REPLY_ROW = 13,    /* a reply row, as TCA_ROW; with its place */
    TCA_REPLY_KIND = 14,   /* a reply row of a kind that no reply may hold; with its place */
    TCA_REPLY_TYPING = 15, /* a reply row that fails typing, or row 0 not of the call's result type; with its place */
    TCA_REPLY_ROOM = 16    /* the term would pass TCA_MAX_RECORD_ROWS rows */
};

/* Why a run ended: the value of tca_run_answer's answer. Before each step it is tested in the order of these lines. */
enum tca_answer {
    TCA_VALUE = 0,   /* the term is a value: the routine is done */
    TCA_WAITING = 1, /* no step can be made before a reply comes */
    TCA_HELD = 3,    /* the step would send a call, and TCA_MAX_OPEN_CALLS are open */
    TCA_NUMBERS = 6, /* the step would send a call, and number 65,535 has been sent */
    TCA_ROOM = 5,    /* the next term has over TCA_MAX_RECORD_ROWS rows */
    TCA_BUDGET = 4,  /* the budget's steps are made */
    TCA_SENT = 2     /* the step was made and sent a call, which ends the run; the work buffer holds it */
};

/* What a load or a reply gives: 0 and 0 if it is accepted, else the refusal and its place. */
typedef struct {
    uint32_t refusal; /* one of enum tca_refusal */
    uint32_t place;   /* a row, counted from 0, or 0 where the refusal names none */
} tca_verdict;

/* What a run gives. Of a refused one, answer, sent and steps are 0. */
typedef struct {
    uint32_t refusal; /* TCA_ACCEPTED if it ran, else TCA_LENGTH or TCA_UNSOUND */
    uint32_t answer;  /* one of enum tca_answer */
    uint32_t sent;    /* the number of the call that was sent, or 0 */
    uint32_t steps;   /* the steps made; a send is one of them */
} tca_run_answer;

/*
 * Loads a program file into a record.
 *
 *   file, file_len      the whole program file, and nothing after it
 *   record, record_len  where the record goes: TCA_RECORD_BYTES bytes, of any old content
 *
 * Accepted: refusal TCA_ACCEPTED, place 0, and every byte of the record is written: the file's types and rows, no open
 * call, next call number 1. Refused: refusal TCA_LENGTH to TCA_TYPING, and no byte of the record is changed. The file
 * is never changed.
 *
 * It uses no heap and under 26 KiB of stack (measured on the deepest programs, not proved).
 */
tca_verdict tca_load(const uint8_t *file, size_t file_len, uint8_t *record, size_t record_len);

#ifdef TCA_RUN
/*
 * Runs a record for at most the budget's steps.
 *
 *   record, record_len  a sound record: one that a load, a run or a reply has left
 *   work, work_len      TCA_WORK_BYTES bytes, of any old content
 *   budget              any number, 0 included
 *
 * Ran: the record holds the term after so many steps. After TCA_SENT the work buffer holds the call and zeros, after
 * other answers only zeros. Refused: no byte of either buffer is changed.
 *
 * It uses no heap and under 50 KiB of stack (measured on the deepest records, not proved).
 *
 * It is declared where TCA_RUN is defined, and comes with the library's run: an archive without it (tools/has-run tells)
 * cannot be linked with a program that calls it.
 */
tca_run_answer tca_run(uint8_t *record, size_t record_len, uint8_t *work, size_t work_len, uint32_t budget);
#endif

/*
 * Takes a reply into a record.
 *
 *   record, record_len  a sound record
 *   work, work_len      TCA_WORK_BYTES bytes, of any old content
 *   reply, reply_len    the whole reply, and nothing after it
 *
 * Accepted: refusal TCA_ACCEPTED, place 0; the reply's rows stand wherever the call did, the call is open no longer, and
 * the work buffer holds only zeros. Refused: no byte of either buffer is changed. The reply is never changed.
 *
 * It uses no heap and under 27 KiB of stack (measured on the deepest records, not proved).
 */
tca_verdict tca_reply(uint8_t *record, size_t record_len, uint8_t *work, size_t work_len, const uint8_t *reply,
                      size_t reply_len);

#ifdef __cplusplus
}
#endif

#endif
