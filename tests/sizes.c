/*
 * What the header states, as a host meets it: sizes, every kind, number and state by its name, the reply's layout and how
 * the last bytes of a side are told, what is told where no record reads or a line has no room, the stack, box records that
 * are none, the last name; and that no function writes outside the box record.
 */
#define _DEFAULT_SOURCE

#include "bench_box.h"

#include <stdalign.h>
#include <stdio.h>
#include <stdlib.h>
#include <string.h>
#include <ucontext.h>

_Static_assert(sizeof(bench_box) == BENCH_BOX_SIZE, "the record's size");
_Static_assert(alignof(bench_box) == BENCH_BOX_ALIGN, "the record's alignment");
_Static_assert(sizeof(bench_box) == BENCH_BOX_WORDS * sizeof(uint64_t), "the record's words");
_Static_assert(BENCH_BOX_STORED == BENCH_BOX_WORDS - 5, "a question for each word but the last name's four");
_Static_assert(sizeof(size_t) == sizeof(uint64_t), "lengths of 64 bits");

enum { GUARD = 0xC3, RING = 4096, QUESTIONS = BENCH_BOX_STORED + 1 };

/* The last name's words: bytes by eight, eight and two, the first highest, and the length. */
enum { NAME_FIRST = QUESTIONS, NAME_SECOND, NAME_THIRD, NAME_LENGTH };

/* A record between guards. */
struct guarded {
    uint8_t before[64];
    bench_box box;
    uint8_t after[64];
};

static int failures;

static void expect(int holds, const char *what)
{
    if (!holds) {
        printf("sizes: %s\n", what);
        failures++;
    }
}

static int is_guarded(const struct guarded *g)
{
    for (size_t i = 0; i < sizeof g->before; i++) {
        if (g->before[i] != GUARD || g->after[i] != GUARD) {
            return 0;
        }
    }
    return 1;
}

/* ---- a shift by the header's names */

static bench_box box;
static uint8_t ring[RING], reply[BENCH_BOX_REPLY_MOST];
static char line[8 * BENCH_BOX_LINE_MOST];

/* What the calls are given and answer. */
static struct {
    uint8_t input[BENCH_BOX_RECORD_MOST];
    size_t length, reply_length, line_length;
    uint64_t offset;
    bool last;
    bench_box_progress progress;
    uint16_t number;
} lent = {.reply_length = sizeof reply, .line_length = sizeof line, .last = true};

/* Where they find it. */
static struct {
    bench_box *box;
    uint8_t *ring, *reply, *input, *line;
    bench_box_progress *progress;
} at = {&box, ring, reply, lent.input, (uint8_t *)line, &lent.progress};

static void *block(const void *from, size_t length)
{
    void *to = malloc(length);
    if (to == NULL) {
        puts("sizes: no memory");
        exit(2);
    }
    return memcpy(to, from, length);
}

static void give_back(void *to, void *from, size_t length)
{
    memcpy(to, from, length);
    free(from);
}

/* Each thing in a block of the heap, of its own length: memcheck tells what is touched beside it. */
static void in_blocks(void (*call)(void))
{
    at.box = block(&box, sizeof box);
    at.ring = block(ring, sizeof ring);
    at.reply = block(reply, lent.reply_length);
    at.input = block(lent.input, lent.length);
    at.line = block(line, lent.line_length);
    at.progress = block(&lent.progress, sizeof lent.progress);
    call();
    give_back(&box, at.box, sizeof box);
    give_back(ring, at.ring, sizeof ring);
    give_back(reply, at.reply, lent.reply_length);
    give_back(lent.input, at.input, lent.length);
    give_back(line, at.line, lent.line_length);
    give_back(&lent.progress, at.progress, sizeof lent.progress);
}

/* Each call has a painted stack of its own; what is no longer painted afterwards, it took. */
enum { PAINT = 0x5E, STACK = 65536 };
static uint8_t stack[STACK];
static size_t deepest;
static bool plain; /* on the usual stack and in blocks: memcheck does not know a painted one */
static ucontext_t here, there;

static void on_painted_stack(void (*call)(void))
{
    size_t kept = 0;
    if (plain) {
        in_blocks(call);
        return;
    }
    memset(stack, PAINT, sizeof stack);
    getcontext(&there);
    there.uc_stack.ss_sp = stack;
    there.uc_stack.ss_size = sizeof stack;
    there.uc_link = &here;
    makecontext(&there, call, 0);
    swapcontext(&here, &there);
    while (kept < sizeof stack && stack[kept] == PAINT) {
        kept++;
    }
    if (sizeof stack - kept > deepest) {
        deepest = sizeof stack - kept;
    }
}

static void call_perform(void)
{
    lent.number = bench_box_perform(at.box, at.ring, RING, at.reply, lent.reply_length, at.input, lent.length, lent.offset,
                                    lent.last, at.line, lent.line_length, at.progress);
}

static void call_serve(void)
{
    lent.number = bench_box_serve(at.box, at.ring, RING, at.input, lent.length, lent.offset, lent.last, at.line,
                                  lent.line_length, at.progress);
}

static void call_tick(void)
{
    bench_box_tick(at.box, RING);
}

static void call_fresh(void)
{
    bench_box_fresh(at.box);
}

static void call_ask(void)
{
    bench_box_ask(at.box, RING, BENCH_BOX_STORED);
}

static unsigned digit(char hex)
{
    return hex <= '9' ? (unsigned)(hex - '0') : (unsigned)(hex - 'A' + 10);
}

static void put_hex(const char *hex)
{
    for (; *hex != '\0'; hex += 2) {
        lent.input[lent.length++] = (uint8_t)(digit(hex[0]) * 16 + digit(hex[1]));
    }
}

static uint64_t ask(enum bench_box_question question)
{
    return bench_box_ask(&box, RING, question);
}

/* One record, with a payload in hex, performed with a reply of this length: its number. */
static uint16_t perform_with(size_t reply_length, enum bench_box_kind kind, const char *payload)
{
    const uint8_t head[BENCH_BOX_RECORD_HEAD] = {0xA5, 0x5A, (uint8_t)kind, (uint8_t)(strlen(payload) / 2)};
    memcpy(lent.input, head, sizeof head);
    lent.length = sizeof head;
    lent.reply_length = reply_length;
    put_hex(payload);
    memset(reply, GUARD, sizeof reply);
    on_painted_stack(call_perform);
    expect(lent.progress.read == lent.length && lent.progress.ended == 0, "a record of the shift is not read");
    line[lent.progress.written - 1] = '\0';
    return lent.number;
}

static uint16_t perform(enum bench_box_kind kind, const char *payload)
{
    return perform_with(sizeof reply, kind, payload);
}

/* The names of job 1's sides 1 and 2, behind a most of 2 and of 255. */
#define NAME_1 "4A303030303030303030313030312E6A7067"
#define NAME_2 "4A303030303030303030313030322E6A7067"

static void shift(void)
{
    bench_box_fresh(&box);
    expect(perform(BENCH_BOX_KIND_GET_STATE, "") == BENCH_BOX_ACCEPTED && strcmp(line, "07 0 I U 0 1 0 none") == 0,
           "GetState of a fresh box");
    expect(perform(BENCH_BOX_KIND_FETCH, "02" NAME_1) == BENCH_BOX_WRONG_NAME, "a fetch with no job");
    expect(perform(BENCH_BOX_KIND_STOP, "00000000") == BENCH_BOX_WRONG_JOB, "a stop with no job");
    expect(perform(BENCH_BOX_KIND_TRAY, "02") == BENCH_BOX_WRONG_VALUE, "a tray of 2");
    expect(perform(BENCH_BOX_KIND_START_SCAN, "01000201003C") == BENCH_BOX_NO_SHEET, "a job with no sheet");
    expect(perform(BENCH_BOX_KIND_TRAY, "01") == BENCH_BOX_ACCEPTED && ask(BENCH_BOX_TRAY) == 1, "a tray of 1");
    expect(perform(BENCH_BOX_KIND_LOAD, "00000000") == BENCH_BOX_ACCEPTED &&
               ask(BENCH_BOX_FEEDER_STATE) == BENCH_BOX_FEEDER_LOADED,
           "Load");
    expect(perform(BENCH_BOX_KIND_FEEDER_GET_STATE, "") == BENCH_BOX_ACCEPTED && strcmp(line, "14 0 I L 0 1 0 1:none") == 0,
           "the feeder's GetState");
    expect(perform(BENCH_BOX_KIND_SET_FEEDER_MODE, "0000000000") == BENCH_BOX_WRONG_STATE, "SetFeederMode in Loaded");
    expect(perform(BENCH_BOX_KIND_START_SCAN, "010002010005") == BENCH_BOX_ACCEPTED &&
               ask(BENCH_BOX_SCAN_STATE) == BENCH_BOX_SCAN_SCANNING &&
               ask(BENCH_BOX_FEEDER_STATE) == BENCH_BOX_FEEDER_BUSY && ask(BENCH_BOX_GRANTED) == 5,
           "StartScan of two sides");
    expect(perform(BENCH_BOX_KIND_EJECT, "0000000100") == BENCH_BOX_WRONG_STATE, "Eject in Busy");
    expect(perform(BENCH_BOX_KIND_GET_DESTINATION, "00000001") == BENCH_BOX_ACCEPTED &&
               strcmp(line, "05 0 S B 1 1 2 J0000000001001.jpg:1") == 0,
           "GetDestination");
    expect(perform(BENCH_BOX_KIND_BYTES, "414243") == BENCH_BOX_ACCEPTED && ask(BENCH_BOX_STORED) == 3, "Bytes");
    expect(perform(BENCH_BOX_KIND_SIDE_ENDED, "") == BENCH_BOX_ACCEPTED &&
               ask(BENCH_BOX_SCAN_STATE) == BENCH_BOX_SCAN_FINISHING &&
               ask(BENCH_BOX_FEEDER_STATE) == BENCH_BOX_FEEDER_UNLOADED,
           "Side ended");

    /* A reply too short for its head: the record's own 603, for it is read. Then two bytes of three; the last one. */
    expect(perform_with(BENCH_BOX_REPLY_HEAD - 1, BENCH_BOX_KIND_FETCH, "02" NAME_1) == BENCH_BOX_NO_ROOM &&
               reply[0] == GUARD,
           "a fetch into three bytes");
    expect(perform(BENCH_BOX_KIND_FETCH, "02" NAME_1) == BENCH_BOX_ACCEPTED &&
               memcmp(reply, "\xA5\x5A\x06\x02" "AB\xC3", 7) == 0 && strcmp(line, "06 0 F U 1 1 1 2:4142") == 0 &&
               ask(BENCH_BOX_SCAN_STATE) == BENCH_BOX_SCAN_FINISHING,
           "two bytes, and not the last");
    expect(perform(BENCH_BOX_KIND_FETCH, "FF" NAME_1) == BENCH_BOX_ACCEPTED &&
               memcmp(reply, "\xA5\x5A\x06\x01" "C\xC3", 6) == 0 && strcmp(line, "06 0 S B 1 2 1 1!:43") == 0 &&
               ask(BENCH_BOX_SCAN_STATE) != BENCH_BOX_SCAN_FINISHING && ask(BENCH_BOX_DESTINATION) == 2,
           "one byte, the last");

    /* A jam in the second side, its end by time, and what is left. */
    expect(perform(BENCH_BOX_KIND_PATH, "01") == BENCH_BOX_ACCEPTED &&
               ask(BENCH_BOX_SCAN_STATE) == BENCH_BOX_SCAN_ERRED &&
               ask(BENCH_BOX_FEEDER_STATE) == BENCH_BOX_FEEDER_ERRED &&
               ask(BENCH_BOX_SCAN_FAILURE) == BENCH_BOX_FAILURE_JAMMED &&
               ask(BENCH_BOX_FEEDER_FAILURE) == BENCH_BOX_FAILURE_JAMMED,
           "a jam");
    expect(perform(BENCH_BOX_KIND_START, "00000001010001") == BENCH_BOX_FEEDER_FAILED, "Start from a jammed feeder");
    expect(perform(BENCH_BOX_KIND_START, "00000001000000") == BENCH_BOX_ACCEPTED &&
               ask(BENCH_BOX_SCAN_STATE) == BENCH_BOX_SCAN_PENDING,
           "Start of no side");
    expect(perform(BENCH_BOX_KIND_START, "00000001000001") == BENCH_BOX_ACCEPTED && ask(BENCH_BOX_DESTINATION) == 2,
           "the number of a side begun again");
    expect(perform(BENCH_BOX_KIND_GET_SIDE_INFORMATION, "") == BENCH_BOX_ACCEPTED, "GetSideInformation");
    for (int second = 1; second <= 5; second++) {
        expect(perform(BENCH_BOX_KIND_TICK, "") == BENCH_BOX_ACCEPTED &&
                   (ask(BENCH_BOX_SCAN_STATE) == BENCH_BOX_SCAN_IDLE) == (second == 5),
               "the second at which the job ends");
    }
    expect(ask(BENCH_BOX_SCAN_FAILURE) == BENCH_BOX_FAILURE_TIMEOUT, "the end by time");
    expect(perform(BENCH_BOX_KIND_PATH, "00") == BENCH_BOX_ACCEPTED &&
               perform(BENCH_BOX_KIND_RESET, "00000000") == BENCH_BOX_ACCEPTED &&
               ask(BENCH_BOX_FEEDER_STATE) == BENCH_BOX_FEEDER_UNLOADED &&
               ask(BENCH_BOX_FEEDER_FAILURE) == BENCH_BOX_FAILURE_NONE,
           "Reset");
    expect(perform(BENCH_BOX_KIND_GET_FEEDER_MODE, "") == BENCH_BOX_ACCEPTED && strcmp(line, "15 0 I U 0 1 0 Simplex") == 0,
           "GetFeederMode");
    expect(perform(BENCH_BOX_KIND_START_SCAN, "000000010000") == BENCH_BOX_ACCEPTED && ask(BENCH_BOX_DESTINATION) == 3 &&
               perform(BENCH_BOX_KIND_ABORT, "00000002") == BENCH_BOX_ACCEPTED && ask(BENCH_BOX_JOB) == 0 &&
               ask(BENCH_BOX_DESTINATION) == 3,
           "Abort");
    expect(perform(BENCH_BOX_KIND_FETCH, "FF" NAME_2) == BENCH_BOX_WRONG_NAME, "a fetch after the end");
}

/* ---- where no record is answered */

/* What stands at the front of an input: a whole record; right bytes that end too soon, or none; a wrong byte. */
enum front { WHOLE, CUT, BAD };

static const struct {
    const char *hex;
    enum front front;
} inputs[] = {
    {"A55A0700", WHOLE}, {"A55A070000", WHOLE}, {"", CUT},           {"A5", CUT},       {"A55A", CUT},
    {"A55A07", CUT},     {"A55A2201", CUT},     {"A55A20FF41", CUT}, {"00", BAD},       {"0000FF", BAD},
    {"A500", BAD},       {"A55A99", BAD},       {"A55A0701", BAD},   {"A55A2202", BAD}, {"A55A0600", BAD},
};
enum { INPUTS = sizeof inputs / sizeof inputs[0] };

/* Calls with an input, this much room for the line, and with more input to come or not. */
static void call_with(void (*call)(void), const char *hex, size_t room, bool last)
{
    lent.length = 0;
    put_hex(hex);
    lent.offset = 907;
    lent.last = last;
    lent.line_length = room;
    lent.reply_length = sizeof reply;
    lent.progress = (bench_box_progress){7, 7, 7};
    memset(line, GUARD, sizeof line);
    memset(reply, GUARD, sizeof reply);
    on_painted_stack(call);
    lent.offset = 0;
    lent.last = true;
    lent.line_length = sizeof line;
}

static bool is_kept(const void *bytes, size_t from, size_t length)
{
    const uint8_t *kept = bytes;
    while (from < length && kept[from] == GUARD) {
        from++;
    }
    return from == length;
}

/* The last call came to this; it put this text, and neither the reply nor the fresh box is another one. */
static bool came_to(uint16_t number, size_t read, const char *text, size_t ended)
{
    size_t written = strlen(text);
    bench_box fresh;
    bench_box_fresh(&fresh);
    return lent.number == number && lent.progress.read == read && lent.progress.written == written &&
           lent.progress.ended == ended && memcmp(line, text, written) == 0 && is_kept(line, written, sizeof line) &&
           is_kept(reply, 0, sizeof reply) && memcmp(&box, &fresh, sizeof box) == 0;
}

/* An input on both sides of a line's room. Serve tells a bad record by ended alone, and an input of no bytes is not bad. */
static void answer_input(const char *hex, enum front front, bool last)
{
    bool bad = front == BAD || (front == CUT && last);
    bool served_bad = bad && hex[0] != '\0';
    const size_t short_rooms[] = {0, 1, BENCH_BOX_LINE_MOST - 1}, rooms[] = {BENCH_BOX_LINE_MOST, sizeof line};
    for (size_t place = 0; place < sizeof short_rooms / sizeof short_rooms[0]; place++) {
        call_with(call_perform, hex, short_rooms[place], last);
        expect(came_to(BENCH_BOX_NO_ROOM, 0, "", 0), "perform into less than a line's room");
        call_with(call_serve, hex, short_rooms[place], last);
        expect(came_to(BENCH_BOX_NO_ROOM, 0, "", 0), "serve into less than a line's room");
    }
    for (size_t place = 0; place < sizeof rooms / sizeof rooms[0]; place++) {
        call_with(call_perform, hex, rooms[place], last);
        if (front == WHOLE) {
            expect(came_to(BENCH_BOX_ACCEPTED, 4, "07 0 I U 0 1 0 none\n", 0), "perform of a whole record");
            continue;
        }
        expect(came_to(BENCH_BOX_NO_RECORD, 0, bad ? "bad 907\n" : "", bad), "perform where no record reads");
        call_with(call_serve, hex, rooms[place], last);
        expect(came_to(BENCH_BOX_ACCEPTED, 0, served_bad ? "bad 907\n" : "", served_bad), "serve where no record reads");
    }
}

static void no_record_answered(void)
{
    bench_box_fresh(&box);
    for (size_t place = 0; place < INPUTS; place++) {
        int before = failures;
        answer_input(inputs[place].hex, inputs[place].front, false);
        answer_input(inputs[place].hex, inputs[place].front, true);
        if (failures > before) {
            printf("sizes: this is with the input '%s'\n", inputs[place].hex);
        }
    }
}

/* A window of four records and a bad one, and the other functions, for the stack that they take. */
static void other_functions(void)
{
    on_painted_stack(call_fresh);
    lent.length = 0;
    put_hex("A55A220101A55A010602FFFF02000AA55A050400000001A55A20024142A55A99");
    on_painted_stack(call_serve);
    on_painted_stack(call_tick);
    on_painted_stack(call_ask);
    expect(lent.progress.ended == 1 && ask(BENCH_BOX_STORED) == 2 && ask(BENCH_BOX_QUIET) == 1, "a window of five records");
}

static bool is_none(const bench_box_progress *progress)
{
    return progress->read == 0 && progress->written == 0 && progress->ended == 0;
}

/* What is no box record: 604 by every call, no answer to a question, and nothing changes. */
static void no_box(const bench_box *none, const char *name)
{
    const uint8_t record[] = {0xA5, 0x5A, 0x07, 0x00};
    uint8_t lines[BENCH_BOX_LINE_MOST] = {0};
    struct guarded g;
    int before = failures;
    memset(&g, GUARD, sizeof g);
    g.box = *none;
    expect(bench_box_tick(&g.box, RING) == BENCH_BOX_UNSOUND, "tick of no box record");
    for (size_t question = 0; question <= BENCH_BOX_WORDS; question++) {
        expect(bench_box_ask(&g.box, RING, question) == BENCH_BOX_NONE, "the answer about no box record");
    }
    /* Whatever the input is, none and a cut one too, and however short the line. */
    for (size_t length = 0; length <= sizeof record; length++) {
        for (size_t room = BENCH_BOX_LINE_MOST - 1; room <= BENCH_BOX_LINE_MOST; room++) {
            bench_box_progress progress = {7, 7, 7};
            expect(bench_box_serve(&g.box, ring, RING, record, length, 0, true, lines, room, &progress) ==
                       BENCH_BOX_UNSOUND,
                   "serve with no box record");
            expect(is_none(&progress), "what serve with no box record came to");
            progress = (bench_box_progress){7, 7, 7};
            expect(bench_box_perform(&g.box, ring, RING, reply, sizeof reply, record, length, 0, true, lines, room,
                                     &progress) == BENCH_BOX_UNSOUND,
                   "perform with no box record");
            expect(is_none(&progress), "what perform with no box record came to");
        }
    }
    expect(is_guarded(&g) && memcmp(&g.box, none, sizeof g.box) == 0, "604 changes the record");
    if (failures > before) {
        printf("sizes: this is with %s\n", name);
    }
}

/* A last name: in Idle any that fits, else no record; while a job is held, that job's. */
static void last_names(void)
{
    const uint64_t right[] = {0x4A30303030303030, 0x3030313030312E6A, 0x7067, 18}; /* J0000000001001.jpg */
    const struct {
        int word;
        uint64_t least;
    } too_much[] = {{NAME_THIRD, 65536}, {NAME_LENGTH, 19}};
    bench_box changed;
    bench_box_fresh(&box);
    for (int word = NAME_FIRST; word <= NAME_LENGTH; word++) {
        expect(box.words[word] == 0, "a fresh last name");
    }
    box.words[NAME_FIRST] = box.words[NAME_SECOND] = UINT64_MAX;
    for (size_t place = 0; place < sizeof too_much / sizeof too_much[0]; place++) {
        changed = box;
        changed.words[too_much[place].word] = too_much[place].least;
        no_box(&changed, "a last name that does not fit");
        box.words[too_much[place].word] = too_much[place].least - 1;
    }
    expect(bench_box_tick(&box, RING) == 0, "any last name in Idle");
    expect(perform(BENCH_BOX_KIND_START_SCAN, "000000010000") == BENCH_BOX_ACCEPTED &&
               memcmp(box.words + NAME_FIRST, right, sizeof right) == 0 && ask(BENCH_BOX_DESTINATION) == 1,
           "the last name of a job");
    for (int bit = 0; bit < 8 * 18; bit++) {
        changed = box;
        changed.words[NAME_FIRST + bit / 64] ^= UINT64_C(1) << bit % 64;
        no_box(&changed, "another last name while a job is held");
    }
    for (uint64_t length = 0; length < 18; length++) {
        changed = box;
        changed.words[NAME_LENGTH] = length;
        no_box(&changed, "a last name of another length while a job is held");
    }

    /* The last name, remembered in Idle, is the one that StartScan gives: in a box that other hands have kept. */
    expect(perform(BENCH_BOX_KIND_ABORT, "00000001") == BENCH_BOX_ACCEPTED &&
               memcmp(box.words + NAME_FIRST, right, sizeof right) == 0,
           "the last name in Idle");
    box.words[BENCH_BOX_LAST_JOB] = UINT32_MAX;
    expect(perform(BENCH_BOX_KIND_START_SCAN, "000000010000") == BENCH_BOX_ACCEPTED && ask(BENCH_BOX_JOB) == 1 &&
               ask(BENCH_BOX_DESTINATION) == 1,
           "the same name again");
}

int main(int count, char **words)
{
    struct guarded a, b;
    plain = count == 2 && strcmp(words[1], "plain") == 0;
    shift();
    deepest = 0; /* the first calls also bring memcpy in */
    shift();
    no_record_answered();
    last_names();
    other_functions();
    expect(plain || (deepest > 0 && deepest <= BENCH_BOX_STACK_MOST), "the stack that a call takes");
    memset(&a, GUARD, sizeof a);
    memset(&b, GUARD, sizeof b);
    memset(&b.box, 0, sizeof b.box);

    /* A fresh record does not depend on what stood there: every word is written, and no byte around them. */
    bench_box_fresh(&a.box);
    bench_box_fresh(&b.box);
    expect(is_guarded(&a) && is_guarded(&b), "fresh writes outside the record");
    expect(memcmp(&a.box, &b.box, sizeof a.box) == 0, "fresh leaves words of the record as they were");

    /* Fresh as the requirements have it: both settings 1, granted 60, SideNumber 1, all else 0. The version is no field. */
    const uint64_t fresh[BENCH_BOX_WORDS] = {
        [BENCH_BOX_VERSION] = BENCH_BOX_VERSION_NUMBER,
        [BENCH_BOX_GRANTED] = 60,
        [BENCH_BOX_SIDE_NUMBER] = 1,
        [BENCH_BOX_USE_FEEDER] = 1,
        [BENCH_BOX_APPEND] = 1,
    };
    expect(memcmp(a.box.words, fresh, sizeof fresh) == 0, "a fresh record's words");
    for (size_t question = 0; question < QUESTIONS; question++) {
        expect(bench_box_ask(&a.box, RING, question) == fresh[question], "a fresh record's answer");
    }
    for (size_t question = QUESTIONS; question <= BENCH_BOX_WORDS; question++) {
        expect(bench_box_ask(&a.box, RING, question) == BENCH_BOX_NONE, "the answer to no question");
    }

    expect(bench_box_tick(&a.box, RING) == 0, "tick of a fresh record");
    expect(is_guarded(&a), "tick writes outside the record");
    expect(memcmp(&a.box, &b.box, sizeof a.box) == 0, "tick in Idle changes the record");

    /* A ring too short or too long; nonsense behind the right version, and a sound record behind another one. */
    expect(bench_box_tick(&a.box, 0) == BENCH_BOX_UNSOUND, "tick with no ring");
    expect(bench_box_tick(&a.box, BENCH_BOX_RING_MOST) == 0, "tick with the longest ring");
    expect(bench_box_tick(&a.box, BENCH_BOX_RING_MOST + 1) == BENCH_BOX_UNSOUND, "tick with too long a ring");
    memset(&b.box, 0xFF, sizeof b.box);
    b.box.words[BENCH_BOX_VERSION] = BENCH_BOX_VERSION_NUMBER;
    no_box(&b.box, "nonsense");
    const uint64_t versions[] = {0, BENCH_BOX_VERSION_NUMBER - 1, BENCH_BOX_VERSION_NUMBER + 1,
                                 UINT64_C(1) << 32 | BENCH_BOX_VERSION_NUMBER, UINT64_MAX};
    for (size_t place = 0; place < sizeof versions / sizeof versions[0]; place++) {
        b.box = a.box;
        b.box.words[BENCH_BOX_VERSION] = versions[place];
        no_box(&b.box, "another version");
    }

    /* NULL where the length is 0. */
    uint8_t lines[BENCH_BOX_LINE_MOST] = {0};
    bench_box_progress progress = {7, 7, 7};
    expect(bench_box_serve(&a.box, ring, RING, NULL, 0, 0, true, NULL, 0, &progress) == BENCH_BOX_NO_ROOM &&
               is_none(&progress),
           "serve of nothing into nothing");
    progress = (bench_box_progress){7, 7, 7};
    expect(bench_box_serve(&a.box, ring, RING, NULL, 0, 0, true, lines, sizeof lines, &progress) == BENCH_BOX_ACCEPTED &&
               is_none(&progress),
           "serve of nothing");
    progress = (bench_box_progress){7, 7, 7};
    expect(bench_box_perform(&a.box, ring, RING, NULL, 0, NULL, 0, 0, true, NULL, 0, &progress) == BENCH_BOX_NO_ROOM &&
               is_none(&progress),
           "perform of nothing into nothing");
    progress = (bench_box_progress){7, 7, 7};
    expect(bench_box_perform(&a.box, ring, RING, NULL, 0, NULL, 0, 0, false, lines, sizeof lines, &progress) ==
                   BENCH_BOX_NO_RECORD &&
               is_none(&progress),
           "perform of nothing, where more may come");
    expect(bench_box_perform(&a.box, ring, RING, NULL, 0, NULL, 0, 0, true, lines, sizeof lines, &progress) ==
                   BENCH_BOX_NO_RECORD &&
               progress.ended == 1 && progress.written == 6 && memcmp(lines, "bad 0\n", 6) == 0,
           "perform of nothing, where no more comes");
    return failures != 0;
}
