/*
 * The bench box for a C host.
 *
 * The host owns everything: the box record, the ring that pictures wait in, the reply that a fetch fills, the buffer
 * that lines go to. The library keeps no state, allocates nothing, calls nothing but C's memcpy, memmove and memset,
 * and always returns.
 *
 * Any bytes and any lengths get an answer. What the host promises:
 *   - box and progress are not NULL; ring, reply, input and lines are not NULL unless their length is 0;
 *   - a pointer with its length spans memory that is the host's to lend (to read; to write where it is not const);
 *   - no two things lent to one call overlap;
 *   - no other thread uses them during the call;
 *   - a bench_box is aligned as C aligns it;
 *   - BENCH_BOX_STACK_MOST bytes of the stack are free, and what C's memcpy, memmove and memset take beside.
 *
 * Link with libbench_box.a, which is for x86-64 (System V's calling convention, 64-bit lengths, little-endian).
 */
#ifndef BENCH_BOX_H
#define BENCH_BOX_H

#if !defined(__x86_64__) || defined(__ILP32__)
#error "bench_box.h: libbench_box.a is for x86-64 alone"
#endif

#include <stdbool.h>
#include <stddef.h>
#include <stdint.h>

#ifdef __cplusplus
extern "C" {
#endif

/*
 * The box record. Opaque: copy it, keep it, put it back, but read it by bench_box_ask.
 *
 * A record begins with a version number, which a later layout changes. A record kept under another version is answered
 * like any that is no record: 604, and nothing changes. So a host that keeps records over a change of the library starts
 * with a fresh one. Version 2 keeps the last name that any job held; a record of version 1, which does not, is none.
 */
#define BENCH_BOX_VERSION_NUMBER 2
#define BENCH_BOX_WORDS 23
#define BENCH_BOX_SIZE 184
#define BENCH_BOX_ALIGN 8
typedef struct bench_box {
    uint64_t words[BENCH_BOX_WORDS];
} bench_box;

/* A ring has 1 to this many bytes, and always the same number while a record is kept for it. */
#define BENCH_BOX_RING_MOST 65536

/*
 * The reply of an accepted fetch: A5 5A 06 k, then k picture bytes. The bytes behind them stay as they were, and so does
 * the whole reply where the fetch is refused, or the record is none. A reply of BENCH_BOX_REPLY_MOST bytes never makes a
 * fetch shorter; one of less than BENCH_BOX_REPLY_HEAD bytes makes it 603.
 *
 * That these bytes are the last of the side stands in the line, as a ! behind k: `06 0 P U 1 2 0 2!:4142`. A host that
 * does not read lines asks for BENCH_BOX_SCAN_STATE before and after the call: the bytes were the last exactly where the
 * fetch is accepted, and the box was Finishing before it and is not any more.
 */
#define BENCH_BOX_REPLY_HEAD 4
#define BENCH_BOX_REPLY_MOST 259

/* No line is longer, and no record is answered into less room: a call that is lent less for its lines is 603. */
#define BENCH_BOX_LINE_MOST 640

/* No call takes more of the stack. */
#define BENCH_BOX_STACK_MOST 2048

/*
 * The numbers: 0 is acceptance, any other says why not. A refused call leaves all as it was, but for Load's 713.
 *
 * 603 is told of two things. A desk record is refused by it where ring or reply lack room: that record is answered, and
 * read is more than 0. And a call that is lent too little room for its lines answers nothing: read is 0.
 */
#define BENCH_BOX_ACCEPTED 0
#define BENCH_BOX_WRONG_NAME 404    /* the name is not the present picture's, or no job is held */
#define BENCH_BOX_WRONG_STATE 501   /* not in this state */
#define BENCH_BOX_WRONG_VALUE 601   /* a value that is not listed */
#define BENCH_BOX_NO_ROOM 603       /* more bytes than the ring has room for; or a reply, or lines, too short */
#define BENCH_BOX_UNSOUND 604       /* the box record is of another version, or not sound with the lent ring */
#define BENCH_BOX_FEEDER_FAILED 711 /* the feeder is Erred */
#define BENCH_BOX_WRONG_JOB 712     /* not the number of the job held */
#define BENCH_BOX_NO_SHEET 713      /* no sheet in the tray; by Load the feeder is Unloaded, the rest kept */

/* What bench_box_perform tells where no desk record reads at the front of its input. No desk record has this number. */
#define BENCH_BOX_NO_RECORD 0xFFFF

/*
 * Desk records: A5 5A, kind, length of the payload, payload. Below stand the payload's fields with their bytes. Numbers
 * are big-endian, SideCount in two's complement (all sheets there are: FF FF). 2 for UseFeeder or Append keeps the setting.
 */
#define BENCH_BOX_RECORD_HEAD 4
#define BENCH_BOX_RECORD_MOST 259
enum bench_box_kind {
    BENCH_BOX_KIND_START_SCAN = 0x01,           /* UseFeeder 1, SideCount 2, Append 1, time 2 */
    BENCH_BOX_KIND_START = 0x02,                /* job 4, UseFeeder 1, SideCount 2 */
    BENCH_BOX_KIND_STOP = 0x03,                 /* job 4 */
    BENCH_BOX_KIND_ABORT = 0x04,                /* job 4 */
    BENCH_BOX_KIND_GET_DESTINATION = 0x05,      /* job 4 */
    BENCH_BOX_KIND_FETCH = 0x06,                /* most 1, name 0 to 254 */
    BENCH_BOX_KIND_GET_STATE = 0x07,            /* none */
    BENCH_BOX_KIND_GET_SIDE_INFORMATION = 0x08, /* none */
    BENCH_BOX_KIND_LOAD = 0x10,                 /* job 4 */
    BENCH_BOX_KIND_EJECT = 0x11,                /* job 4, value 1: 0 leaves MorePages, 1 and 2 set it to 0 */
    BENCH_BOX_KIND_RESET = 0x12,                /* job 4 */
    BENCH_BOX_KIND_SET_FEEDER_MODE = 0x13,      /* job 4, mode 1 (0 is Simplex) */
    BENCH_BOX_KIND_FEEDER_GET_STATE = 0x14,     /* none */
    BENCH_BOX_KIND_GET_FEEDER_MODE = 0x15,      /* none */
    BENCH_BOX_KIND_BYTES = 0x20,                /* 0 to 255 picture bytes */
    BENCH_BOX_KIND_SIDE_ENDED = 0x21,           /* none */
    BENCH_BOX_KIND_TRAY = 0x22,                 /* value 1 (1 is more pages) */
    BENCH_BOX_KIND_PATH = 0x23,                 /* value 1 (1 is jammed) */
    BENCH_BOX_KIND_TICK = 0x24                  /* none */
};

/* What a call came to. */
typedef struct bench_box_progress {
    size_t read;    /* bytes of the input that are answered: whole records */
    size_t written; /* bytes of text at the front of the lines */
    size_t ended;   /* 1 after a bad record, whose line is the last one; else 0 */
} bench_box_progress;

/* A fresh box. What the record held before does not matter. */
void bench_box_fresh(bench_box *box);

/* A second has passed. 0; or 604: the record is no box record, or not sound with this ring, and is as it was. */
uint16_t bench_box_tick(bench_box *box, size_t ring_length);

/*
 * Answers the desk record at the front of the input, and puts its line. The result is the record's number: 0, or the
 * reason why it is refused. So 0 always means that a record is answered and accepted. A fetch fills the lent reply.
 *   - read is the record's length, and 0 where none is answered.
 *   - offset is the input's place in the whole input; a bad line counts from there. last says that no input follows.
 *   - BENCH_BOX_NO_RECORD: no record reads at the front, and ended says which way.
 *       ended 1: it is bad. A mark, a kind or a length is wrong; or it is cut, or there is no input at all, and last is
 *       true. The line is `bad` with the offset, and the stream is over.
 *       ended 0: it is only cut, and last is false. The bytes are right as far as they go, or there are none yet.
 *       Nothing is done, all three are 0: call again with the same bytes and more behind them.
 *     So a host performs a live input with last false whenever more has come, and a bad record is told at its first
 *     wrong byte. BENCH_BOX_RECORD_MOST bytes are never only cut. An input that ends behind a record is not bad: a host
 *     makes no call there.
 *   - 603 with read 0: the line has less than BENCH_BOX_LINE_MOST bytes. Nothing is done, all three are 0.
 *   - 604: the box is no box record, or not sound with this ring; before 603. Nothing is done, all three are 0.
 */
uint16_t bench_box_perform(bench_box *box, uint8_t *ring, size_t ring_length, uint8_t *reply, size_t reply_length,
                           const uint8_t *input, size_t input_length, uint64_t offset, bool last, uint8_t *line,
                           size_t line_length, bench_box_progress *progress);

/*
 * Answers the desk records of a window of the input one after the other, as the desk program does, and puts their
 * lines: as many as are whole and as have room. The reply of a fetch is the library's own, of 259 bytes.
 *   - offset is the window's place in the whole input; bad lines count from there. last says that no input follows.
 *   - Records that are not answered yet stand at input + read. A cut record waits for more input unless last is true.
 *   - ended is 1 once a bad record is met: the stream is over.
 * The result is 0, whatever the records' own numbers are, and for a bad record too; or, where nothing is done and all
 * three are 0:
 *   - 604: the box is no box record, or not sound with this ring.
 *   - 603: the lines have less than BENCH_BOX_LINE_MOST bytes, whatever the input is. 604 comes before it.
 */
uint16_t bench_box_serve(bench_box *box, uint8_t *ring, size_t ring_length, const uint8_t *input, size_t input_length,
                         uint64_t offset, bool last, uint8_t *lines, size_t lines_length,
                         bench_box_progress *progress);

/* States and FailureCodes, as bench_box_ask tells them. */
enum bench_box_scan_state {
    BENCH_BOX_SCAN_IDLE = 0,
    BENCH_BOX_SCAN_PENDING = 1,
    BENCH_BOX_SCAN_SCANNING = 2,
    BENCH_BOX_SCAN_FINISHING = 3,
    BENCH_BOX_SCAN_ERRED = 4
};
enum bench_box_feeder_state {
    BENCH_BOX_FEEDER_UNLOADED = 0,
    BENCH_BOX_FEEDER_LOADED = 1,
    BENCH_BOX_FEEDER_BUSY = 2,
    BENCH_BOX_FEEDER_ERRED = 3
};
enum bench_box_failure { BENCH_BOX_FAILURE_NONE = 0, BENCH_BOX_FAILURE_JAMMED = 1, BENCH_BOX_FAILURE_TIMEOUT = 2 };

/*
 * What the box is doing, part by part of the record.
 *
 * DestinationID follows the name, so a host that fetches afresh whenever it rises does so once for each name. It rises
 * by one (4294967295 goes to 0) exactly when the name differs from the last name that any job held: for a new job, of no
 * sides yet too; and with Append 1 whenever a side is drained and the job goes on, no side to follow yet too. With Append
 * 0 the name stays through a job, and so does the number. A side begun again after a jam keeps its name, and its number. The
 * last name is remembered while no job is held; no question asks for it.
 */
enum bench_box_question {
    BENCH_BOX_VERSION = 0, /* always BENCH_BOX_VERSION_NUMBER */

    /* the scanner */
    BENCH_BOX_SCAN_STATE = 1,   /* enum bench_box_scan_state */
    BENCH_BOX_SCAN_FAILURE = 2, /* enum bench_box_failure */

    /* the job */
    BENCH_BOX_JOB = 3,      /* the job held, 0 for none */
    BENCH_BOX_LAST_JOB = 4, /* the last job number given */
    BENCH_BOX_GRANTED = 5,  /* seconds */
    BENCH_BOX_QUIET = 6,    /* seconds since the last sign of life */
    BENCH_BOX_STOP_ASKED = 7,

    /* the side */
    BENCH_BOX_SIDE_NUMBER = 8,
    BENCH_BOX_SIDE_COUNT = 9, /* -1 as 4294967295: cast to int32_t */
    BENCH_BOX_DESTINATION = 10, /* DestinationID */

    /* the settings */
    BENCH_BOX_USE_FEEDER = 11,
    BENCH_BOX_APPEND = 12,

    /* the feeder */
    BENCH_BOX_FEEDER_STATE = 13,   /* enum bench_box_feeder_state */
    BENCH_BOX_FEEDER_FAILURE = 14, /* enum bench_box_failure */
    BENCH_BOX_TRAY = 15,           /* 1: more pages */
    BENCH_BOX_PATH = 16,           /* 1: jammed */

    /* the ring */
    BENCH_BOX_START = 17, /* the oldest picture byte's place in the ring */
    BENCH_BOX_STORED = 18 /* picture bytes waiting in the ring */
};

/* The answer to a question that is none, or about a record that is of another version or not sound with the ring. */
#define BENCH_BOX_NONE UINT64_MAX

uint64_t bench_box_ask(const bench_box *box, size_t ring_length, size_t question);

#ifdef __cplusplus
}
#endif

#endif
