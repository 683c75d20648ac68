/*
 * The box under trial: a program of its own, so that the machine that compares need not be the one that the box is
 * compiled for. It answers batches of operations from standard input on standard output. What the operations are,
 * and what an answer has, is at the other end in src/wire.rs; a batch, an operation and an answer are little-endian.
 *
 *     gcc -std=c11 -O2 -Iinclude trials/box.c -L target/staticlib -lbench_box -o box
 *
 * Whatever is lent to the box stands between guards, or before a page that nobody may touch. An answer has all that
 * the call left: what is not in it has not changed.
 *
 * The status is 0 where the input is over, 1 where the box touches memory that it is not lent (the answers up to
 * there are written, with a mark), 2 where a batch is malformed or cannot be answered.
 */
#define _DEFAULT_SOURCE

#include "bench_box.h"

#include <errno.h>
#include <signal.h>
#include <stdio.h>
#include <stdlib.h>
#include <string.h>
#include <sys/mman.h>
#include <unistd.h>

enum { TOUCHED = 1, UNUSABLE = 2 };

/* The longest things that are lent, the random bytes that they hold at first, and the arena. */
enum {
    RING_ROOM = BENCH_BOX_RING_MOST + 1,
    REPLY_ROOM = 1024,
    LINES_ROOM = 4 << 20,
    TABLE = 3 * RING_ROOM,
    ARENA = 40000,
};

/* A longer copy may be made byte by byte where the program is emulated. */
enum { COPY = 1024 };

/* A batch has this mark, then its answer has it. */
enum { MARK = 0x54414F42, BATCH_MOST = 1 << 28 };

enum kind { FILL = 1, RESET, LAYOUT, FRESH, TICK, ASK, PERFORM, SERVE };

/* What a call is lent, in this order, and where it finds it: between guards, in the arena, at the edge of pages. */
enum thing { RECORD, PROGRESS, RING, REPLY, INPUT, LINES, THINGS };
enum memory { USUAL, IN_ARENA, BEHIND_PAGE, BEFORE_PAGE };

struct batch {
    uint32_t mark;
    uint32_t status; /* of an answer: 0, or TOUCHED */
    uint64_t length; /* the bytes that follow */
};

struct operation {
    uint32_t kind;
    uint32_t memory;
    uint64_t offset;
    uint32_t last;
    uint32_t look_at_ring;
    uint32_t look_behind; /* so many bytes behind the text */
    uint32_t bytes;       /* that follow: a table, a record, questions, or a stream that is held from now on */
    uint32_t input_from;  /* the input is a window of the held stream */
    uint32_t input_length;
    uint32_t ring_from; /* its first bytes' place in the table, as for the reply */
    uint32_t ring_length;
    uint32_t reply_from;
    uint32_t reply_length;
    uint32_t lines_length;
    uint16_t places[THINGS]; /* in the arena */
};

/* What is broken, as bits: the guards around each thing by its number, and these. */
enum { INPUT_WRITTEN = 1 << INPUT, ARENA_GUARD = 64, BEHIND_TEXT = 128 };

/* An answer. Values, text, reply and the ring's bytes from the first that changed to the last stand behind it. */
struct answer {
    bench_box_progress progress;
    bench_box box;
    uint32_t number;
    uint32_t broken;
    uint32_t place; /* of a broken guard byte in the arena */
    uint32_t values;
    uint32_t text_length;
    uint32_t reply_length; /* 0: as it was */
    uint32_t ring_from;
    uint32_t ring_length;
};

_Static_assert(sizeof(struct batch) == 16 && sizeof(struct operation) == 72 && sizeof(struct answer) == 240,
               "no padding: the other end has the same layout");
_Static_assert(sizeof(bench_box) == BENCH_BOX_SIZE && _Alignof(bench_box) == BENCH_BOX_ALIGN,
               "a box is as the header says");

_Noreturn static void give_up(const char *why)
{
    fprintf(stderr, "box: %s\n", why);
    exit(UNUSABLE);
}

static void check(bool right, const char *what)
{
    if (!right) {
        give_up(what);
    }
}

static void copy(uint8_t *to, const uint8_t *from, size_t length)
{
    while (length > 0) {
        size_t part = length < COPY ? length : COPY;
        memcpy(to, from, part);
        to += part, from += part, length -= part;
    }
}

static bool alike(const void *one, const void *other, size_t length)
{
    return length == 0 || memcmp(one, other, length) == 0;
}

/* The bytes with room for so many. */
static uint8_t *grown(uint8_t *bytes, size_t *room, size_t length)
{
    if (length > *room) {
        *room = 2 * length;
        bytes = realloc(bytes, *room);
        check(bytes != NULL, "no memory");
    }
    return bytes;
}

/* ---- answers */

/* A handler reads these two: whole answers, and how many bytes they have. */
static uint8_t *volatile answers;
static volatile size_t answered;
static size_t said, answers_room;

/* Room for the next bytes of the answers. Gives its place. */
static size_t leave_room(size_t length)
{
    size_t place = said;
    answers = grown(answers, &answers_room, said + length);
    said += length;
    return place;
}

static void put(const void *bytes, size_t length)
{
    size_t place = leave_room(length);
    copy(answers + place, bytes, length);
}

static void write_all(const void *bytes, size_t length)
{
    const uint8_t *from = bytes;
    while (length > 0) {
        ssize_t part = write(STDOUT_FILENO, from, length);
        if (part < 0 && errno != EINTR) {
            _exit(UNUSABLE); /* nobody reads any more */
        }
        if (part > 0) {
            from += part, length -= (size_t)part;
        }
    }
}

static void write_answers(uint32_t status)
{
    const struct batch head = {MARK, status, answered};
    write_all(&head, sizeof head);
    write_all(answers, answered);
}

static void touched(int signal)
{
    (void)signal;
    write_answers(TOUCHED);
    _exit(TOUCHED);
}

/* ---- memory */

enum { GUARD = 64 };
static const uint64_t guard[GUARD / 8] = {
    0x9E3779B97F4A7C15, 0xBF58476D1CE4E5B9, 0x94D049BB133111EB, 0xC0DE5AFE0B0B5B5B,
    0xD6E8FEB86659FD93, 0xA0761D6478BD642F, 0xE7037ED1A0B428DB, 0x8EBC6AF09C88C6E3,
};

/* The box between calls and what is lent with it, each between guards; and what its ring and lines held before. */
static struct {
    uint8_t guard[GUARD];
    bench_box box;
    uint8_t guard_behind[GUARD];
} record;
static struct {
    uint8_t guard[GUARD];
    bench_box_progress progress;
    uint8_t guard_behind[GUARD];
} progress;
static uint8_t ring_room[GUARD + RING_ROOM + GUARD], ring_before[RING_ROOM];
static uint8_t reply_room[GUARD + REPLY_ROOM + GUARD];
static uint8_t lines_room[GUARD + LINES_ROOM + GUARD], lines_before[LINES_ROOM + GUARD];
static uint8_t *const ring = ring_room + GUARD, *const reply = reply_room + GUARD, *const lines = lines_room + GUARD;
static uint8_t *const usual[THINGS] = {
    (uint8_t *)&record.box, (uint8_t *)&progress.progress, ring_room + GUARD, reply_room + GUARD,
    [LINES] = lines_room + GUARD,
};

static size_t ring_length, ring_from;
static bool ring_is_as_filled;

static uint8_t table[TABLE];

/* The stream that inputs are windows of. */
static uint8_t *stream;
static size_t stream_length, stream_room;

static _Alignas(16) uint8_t arena[ARENA];
static uint8_t arena_guard[ARENA];

static void lay_guards(uint8_t *thing, size_t length)
{
    memcpy(thing - GUARD, guard, GUARD);
    memcpy(thing + length, guard, GUARD);
}

/* Word by word: where the program is emulated, a call of memcmp takes longer. */
static inline bool guards_hold(const uint8_t *thing, size_t length)
{
    uint64_t changed = 0;
    for (size_t place = 0; place < GUARD / 8; place++) {
        uint64_t before, behind;
        memcpy(&before, thing - GUARD + 8 * place, 8);
        memcpy(&behind, thing + length + 8 * place, 8);
        changed |= (before ^ guard[place]) | (behind ^ guard[place]);
    }
    return changed == 0;
}

/* Memory for each thing, with a page that nobody may touch before and behind it. */
static struct {
    uint8_t *at;
    size_t room;
} pages[THINGS];
static const size_t pages_room[THINGS] = {BENCH_BOX_SIZE, sizeof(bench_box_progress), 9000, 300, 4000, 6000};

static void lay_pages(void)
{
    size_t page = (size_t)sysconf(_SC_PAGESIZE);
    for (int thing = 0; thing < THINGS; thing++) {
        size_t room = (pages_room[thing] + page - 1) / page * page;
        uint8_t *at = mmap(NULL, room + 2 * page, PROT_NONE, MAP_PRIVATE | MAP_ANONYMOUS, -1, 0);
        check(at != MAP_FAILED && mprotect(at + page, room, PROT_READ | PROT_WRITE) == 0, "no pages");
        pages[thing].at = at + page;
        pages[thing].room = room;
    }
}

/* In pages, what a call may only read cannot be written. */
static void protect(const struct operation *operation, int access)
{
    int thing = operation->kind == ASK ? RECORD : INPUT;
    if (operation->memory >= BEHIND_PAGE) {
        check(mprotect(pages[thing].at, pages[thing].room, access) == 0, "no protection");
    }
}

/* Puts everything that is lent where it is to stand. Where a length is 0 a place of 0 in the arena is NULL. */
static void take_places(const struct operation *operation, const size_t *lengths, uint8_t **at)
{
    for (int thing = 0; thing < THINGS; thing++) {
        uint8_t *from = thing == INPUT ? stream + operation->input_from : usual[thing];
        at[thing] = from;
        if (operation->memory == IN_ARENA) {
            at[thing] = lengths[thing] == 0 && operation->places[thing] == 0 ? NULL : arena + operation->places[thing];
        } else if (operation->memory != USUAL) {
            size_t before = operation->memory == BEFORE_PAGE ? pages[thing].room - lengths[thing] : 0;
            at[thing] = pages[thing].at + before;
        }
        if (at[thing] != from) {
            copy(at[thing], from, lengths[thing]);
        }
    }
}

/* Brings back what was lent elsewhere. What the arena lent becomes guard again; then all of the arena is. */
static void give_back(const struct operation *operation, const size_t *lengths, uint8_t *const *at,
                      struct answer *answer)
{
    if (!alike(at[INPUT], stream + operation->input_from, lengths[INPUT])) {
        answer->broken |= INPUT_WRITTEN;
    }
    for (int thing = 0; thing < THINGS; thing++) {
        if (thing != INPUT && at[thing] != usual[thing]) {
            copy(usual[thing], at[thing], lengths[thing]);
        }
        if (operation->memory == IN_ARENA) {
            copy(arena + operation->places[thing], arena_guard + operation->places[thing], lengths[thing]);
        }
    }
    if (operation->memory == IN_ARENA && !alike(arena, arena_guard, ARENA)) {
        while (arena[answer->place] == arena_guard[answer->place]) {
            answer->place++;
        }
        answer->broken |= ARENA_GUARD;
        copy(arena, arena_guard, ARENA);
    }
}

/* ---- calls */

/* The header as the compiler reads it. */
static const uint64_t layout[] = {
    BENCH_BOX_VERSION_NUMBER, BENCH_BOX_WORDS, BENCH_BOX_SIZE, BENCH_BOX_ALIGN, BENCH_BOX_RING_MOST,
    BENCH_BOX_REPLY_HEAD, BENCH_BOX_REPLY_MOST, BENCH_BOX_LINE_MOST, BENCH_BOX_RECORD_HEAD, BENCH_BOX_RECORD_MOST,
    BENCH_BOX_NONE, BENCH_BOX_NO_RECORD,
    /* what the compiler makes of it */
    sizeof(bench_box), _Alignof(bench_box), sizeof(bench_box_progress), offsetof(bench_box_progress, read),
    offsetof(bench_box_progress, written), offsetof(bench_box_progress, ended),
    /* the numbers */
    BENCH_BOX_ACCEPTED, BENCH_BOX_WRONG_VALUE, BENCH_BOX_WRONG_JOB, BENCH_BOX_WRONG_NAME, BENCH_BOX_WRONG_STATE,
    BENCH_BOX_FEEDER_FAILED, BENCH_BOX_NO_SHEET, BENCH_BOX_NO_ROOM, BENCH_BOX_UNSOUND,
    /* the kinds */
    BENCH_BOX_KIND_START_SCAN, BENCH_BOX_KIND_START, BENCH_BOX_KIND_STOP, BENCH_BOX_KIND_ABORT,
    BENCH_BOX_KIND_GET_DESTINATION, BENCH_BOX_KIND_FETCH, BENCH_BOX_KIND_GET_STATE,
    BENCH_BOX_KIND_GET_SIDE_INFORMATION, BENCH_BOX_KIND_LOAD, BENCH_BOX_KIND_EJECT, BENCH_BOX_KIND_RESET,
    BENCH_BOX_KIND_SET_FEEDER_MODE, BENCH_BOX_KIND_FEEDER_GET_STATE, BENCH_BOX_KIND_GET_FEEDER_MODE,
    BENCH_BOX_KIND_BYTES, BENCH_BOX_KIND_SIDE_ENDED, BENCH_BOX_KIND_TRAY, BENCH_BOX_KIND_PATH,
    BENCH_BOX_KIND_TICK,
    /* the questions */
    BENCH_BOX_VERSION, BENCH_BOX_SCAN_STATE, BENCH_BOX_SCAN_FAILURE, BENCH_BOX_JOB, BENCH_BOX_LAST_JOB,
    BENCH_BOX_GRANTED, BENCH_BOX_QUIET, BENCH_BOX_STOP_ASKED, BENCH_BOX_SIDE_NUMBER, BENCH_BOX_SIDE_COUNT,
    BENCH_BOX_DESTINATION, BENCH_BOX_USE_FEEDER, BENCH_BOX_APPEND, BENCH_BOX_FEEDER_STATE,
    BENCH_BOX_FEEDER_FAILURE, BENCH_BOX_TRAY, BENCH_BOX_PATH, BENCH_BOX_START, BENCH_BOX_STORED,
    /* scan states, feeder states, FailureCodes */
    BENCH_BOX_SCAN_IDLE, BENCH_BOX_SCAN_PENDING, BENCH_BOX_SCAN_SCANNING, BENCH_BOX_SCAN_FINISHING,
    BENCH_BOX_SCAN_ERRED, BENCH_BOX_FEEDER_UNLOADED, BENCH_BOX_FEEDER_LOADED, BENCH_BOX_FEEDER_BUSY,
    BENCH_BOX_FEEDER_ERRED, BENCH_BOX_FAILURE_NONE, BENCH_BOX_FAILURE_JAMMED, BENCH_BOX_FAILURE_TIMEOUT,
};

/* The values of an answer, if the call has any: the header's, or the answers to questions. */
static uint32_t put_values(const struct operation *operation, const bench_box *box, const uint8_t *questions)
{
    if (operation->kind == LAYOUT) {
        put(layout, sizeof layout);
        return sizeof layout / sizeof layout[0];
    }
    if (operation->kind != ASK) {
        return 0;
    }
    size_t place = leave_room(operation->bytes);
    for (size_t byte = 0; byte < operation->bytes; byte += 8) {
        uint64_t question, value;
        memcpy(&question, questions + byte, 8);
        value = bench_box_ask(box, ring_length, question);
        memcpy(answers + place + byte, &value, 8);
    }
    return operation->bytes / 8;
}

static uint16_t call(const struct operation *operation, uint8_t *const *at)
{
    bench_box *box = (bench_box *)(void *)at[RECORD];
    bench_box_progress *told = (bench_box_progress *)(void *)at[PROGRESS];
    switch (operation->kind) {
    case FRESH:
        bench_box_fresh(box);
        return 0;
    case TICK:
        return bench_box_tick(box, ring_length);
    case PERFORM:
        return bench_box_perform(box, at[RING], ring_length, at[REPLY], operation->reply_length, at[INPUT],
                                 operation->input_length, operation->offset, operation->last != 0, at[LINES],
                                 operation->lines_length, told);
    case SERVE:
        return bench_box_serve(box, at[RING], ring_length, at[INPUT], operation->input_length, operation->offset,
                               operation->last != 0, at[LINES], operation->lines_length, told);
    default:
        return 0;
    }
}

/* What changed in the ring, from the first byte to the last. What it held before is made alike. */
static void put_ring(struct answer *answer)
{
    size_t first = 0, end = ring_length;
    if (alike(ring, ring_before, ring_length)) {
        return;
    }
    while (end - first > COPY && memcmp(ring + first, ring_before + first, COPY) == 0) {
        first += COPY;
    }
    while (end - first > COPY && memcmp(ring + end - COPY, ring_before + end - COPY, COPY) == 0) {
        end -= COPY;
    }
    while (ring[first] == ring_before[first]) {
        first++;
    }
    while (ring[end - 1] == ring_before[end - 1]) {
        end--;
    }
    answer->ring_from = (uint32_t)first;
    answer->ring_length = (uint32_t)(end - first);
    put(ring + first, end - first);
    copy(ring_before + first, ring + first, end - first);
}

/* What the call left, beside the ring. */
static void look(const struct operation *operation, const size_t *lengths, struct answer *answer)
{
    size_t most = operation->lines_length;
    answer->progress = progress.progress;
    answer->box = record.box;
    answer->text_length = (uint32_t)(answer->progress.written < most ? answer->progress.written : most);
    size_t behind = most - answer->text_length;
    behind = behind < operation->look_behind ? behind : operation->look_behind;
    if (!alike(lines + answer->text_length, lines_before + answer->text_length, behind)) {
        answer->broken |= BEHIND_TEXT;
    }
    if (!alike(reply, table + operation->reply_from, operation->reply_length)) {
        answer->reply_length = operation->reply_length;
    }
    for (int thing = 0; thing < THINGS; thing++) {
        bool is_lent = operation->kind >= PERFORM ? thing != INPUT : thing == RECORD || thing == RING;
        if (is_lent && !guards_hold(usual[thing], lengths[thing])) {
            answer->broken |= 1u << thing;
        }
    }
}

/* All that is lent has room. */
static void check_call(const struct operation *operation, const size_t *lengths)
{
    check(operation->kind >= LAYOUT && operation->kind <= SERVE && operation->memory <= BEFORE_PAGE, "no such call");
    check(lengths[REPLY] <= REPLY_ROOM && operation->reply_from <= TABLE - REPLY_ROOM, "a reply too long");
    check(lengths[LINES] <= LINES_ROOM, "lines too long");
    check(operation->input_from <= stream_length && lengths[INPUT] <= stream_length - operation->input_from,
          "a window outside the stream");
    for (int thing = 0; thing < THINGS && operation->memory != USUAL; thing++) {
        size_t room = operation->memory == IN_ARENA ? ARENA : pages[thing].room;
        check(operation->places[thing] + lengths[thing] <= room, "too much for the memory");
        check(thing > PROGRESS || operation->places[thing] % BENCH_BOX_ALIGN == 0, "a record or progress not aligned");
    }
}

/* Lays out what only perform and serve are lent, between guards. */
static void lend(const struct operation *operation, const size_t *lengths)
{
    progress.progress = (bench_box_progress){0, 0, 0};
    if (operation->kind >= PERFORM) {
        /* The call has to write over this. */
        progress.progress = (bench_box_progress){0xBAD00001, 0xBAD00002, 0xBAD00003};
        lay_guards(usual[PROGRESS], lengths[PROGRESS]);
        lay_guards(reply, lengths[REPLY]);
        copy(reply, table + operation->reply_from, lengths[REPLY]);
        lay_guards(lines, lengths[LINES]);
        memcpy(lines_before + lengths[LINES], guard, GUARD);
    }
}

static void answer_call(const struct operation *operation, const uint8_t *questions)
{
    struct answer answer = {.number = 0};
    const size_t lengths[THINGS] = {BENCH_BOX_SIZE,          sizeof progress.progress, ring_length,
                                    operation->reply_length, operation->input_length,  operation->lines_length};
    uint8_t *at[THINGS];
    check_call(operation, lengths);
    lend(operation, lengths);
    take_places(operation, lengths, at);
    size_t head = leave_room(sizeof answer);
    protect(operation, PROT_READ);
    answer.number = call(operation, at);
    answer.values = put_values(operation, (const bench_box *)(void *)at[RECORD], questions);
    protect(operation, PROT_READ | PROT_WRITE);
    give_back(operation, lengths, at, &answer);
    look(operation, lengths, &answer);
    put(lines, answer.text_length);
    put(reply, answer.reply_length);
    if (operation->look_at_ring) {
        put_ring(&answer);
    }
    memcpy(answers + head, &answer, sizeof answer);
    /* After a fault anything may have changed. */
    copy(lines_before, lines, answer.broken != 0 ? sizeof lines_before : answer.text_length);
    ring_is_as_filled &= answer.ring_length == 0 && answer.broken == 0;
}

static void reset(const struct operation *operation, const uint8_t *words)
{
    memcpy(&record.box, words, sizeof record.box);
    lay_guards(usual[RECORD], sizeof record.box);
    if (ring_is_as_filled && operation->ring_length == ring_length && operation->ring_from == ring_from) {
        return;
    }
    ring_length = operation->ring_length;
    ring_from = operation->ring_from;
    lay_guards(ring, ring_length);
    copy(ring, table + ring_from, ring_length);
    copy(ring_before, table + ring_from, ring_length);
    ring_is_as_filled = true;
}

static void hold(const uint8_t *bytes, size_t length)
{
    stream = grown(stream, &stream_room, length);
    copy(stream, bytes, length);
    stream_length = length;
}

/* ---- batches */

static uint8_t *batch;
static size_t batch_length, batch_room, taken;

/* The next bytes of the batch. */
static const uint8_t *take(size_t length)
{
    check(length <= batch_length - taken, "a batch is cut");
    taken += length;
    return batch + taken - length;
}

static void answer_next(void)
{
    struct operation operation;
    memcpy(&operation, take(sizeof operation), sizeof operation);
    const uint8_t *bytes = take(operation.bytes);
    if (operation.kind == FILL) {
        check(operation.bytes == TABLE, "no table");
        copy(table, bytes, TABLE);
    } else if (operation.kind == RESET) {
        check(operation.bytes == BENCH_BOX_SIZE, "no record");
        check(operation.ring_length <= RING_ROOM && operation.ring_from <= TABLE - RING_ROOM, "a ring too long");
        reset(&operation, bytes);
    } else {
        if (operation.kind >= PERFORM && operation.bytes > 0) {
            hold(bytes, operation.bytes);
        }
        answer_call(&operation, bytes);
    }
    answered = said;
}

/* A whole batch is read before its answers are written, so that the two ends never wait for each other. */
static bool read_batch(void)
{
    struct batch head;
    size_t got = fread(&head, 1, sizeof head, stdin);
    if (got == 0) {
        return false;
    }
    check(got == sizeof head && head.mark == MARK && head.length <= BATCH_MOST, "no batch");
    batch = grown(batch, &batch_room, head.length);
    batch_length = head.length;
    taken = 0;
    check(fread(batch, 1, batch_length, stdin) == batch_length, "a batch ends too soon");
    return true;
}

int main(void)
{
    const struct sigaction tell = {.sa_handler = touched};
    for (size_t place = 0; place < ARENA; place++) {
        arena_guard[place] = (uint8_t)(place * 151 ^ 0x3C);
    }
    copy(arena, arena_guard, ARENA);
    memset(lines_room, 0xD7, sizeof lines_room);
    memset(lines_before, 0xD7, sizeof lines_before);
    hold((const uint8_t *)"-", 1);
    lay_pages();
    sigaction(SIGSEGV, &tell, NULL);
    sigaction(SIGBUS, &tell, NULL);
    while (read_batch()) {
        answered = said = 0;
        while (taken < batch_length) {
            answer_next();
        }
        write_answers(0);
    }
    return 0;
}
