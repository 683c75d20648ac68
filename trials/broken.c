/*
 * Wrong boxes, to show that differ finds them. This stands between box.c and the library: box.c is compiled with the
 * library's names turned into those here. BENCH_BOX_BROKEN names the wrong; trials/broken builds and runs it.
 */
#include "bench_box.h"

#include <stdio.h>
#include <stdlib.h>
#include <string.h>
#include <unistd.h>

/* Each has a line of its own: trials/broken reads it. */
#define WRONGS(X)                                                                                                      \
    X(none)               /* the box as it is: agrees */                                                               \
    X(tick_300)           /* a second is not counted at 299 quiet ones */                                              \
    X(before_ring)        /* the byte before the ring changes */                                                       \
    X(behind_ring)        /* the byte behind the ring changes */                                                       \
    X(before_reply)       /* the byte before the reply changes */                                                      \
    X(behind_reply)       /* the byte behind the reply changes */                                                      \
    X(before_lines)       /* the byte before the lines changes */                                                      \
    X(behind_lines)       /* the byte behind the lines changes */                                                      \
    X(behind_record)      /* the byte behind the record changes */                                                     \
    X(behind_text)        /* a byte behind the text changes */                                                         \
    X(end_of_lines)       /* the last byte of long lines changes */                                                    \
    X(reads_past_input)   /* a byte behind the input is read */                                                        \
    X(reads_before_input) /* a byte before the input is read */                                                        \
    X(reads_past_record)  /* a word behind the record is read by a question */                                         \
    X(writes_input)       /* the input is written, with what it has */                                                 \
    X(writes_asked)       /* a question writes the record, with what it has */                                         \
    X(ended_unwritten)    /* ended is not written where it is 0 */                                                     \
    X(unsound_counts)     /* 604 changes a word */                                                                     \
    X(unsound_reads)      /* 604 leaves read at 1 */                                                                   \
    X(unsound_writes)     /* 604 changes the ring */                                                                   \
    X(refused_replies)    /* a refused call writes in the reply */                                                     \
    X(refused_sign)       /* a refused Stop is a sign of life */                                                       \
    X(ring_elsewhere)     /* Bytes change another byte of the ring */                                                  \
    X(asked_wrongly)      /* a question gets the wrong answer where a job is held */                                   \
    X(asked_too_far)      /* a question more than there are words gets an answer */                                    \
    X(asked_name)         /* a question gets the last name's length */                                                 \
    X(asked_high)         /* question 2^32 is taken for 0 */                                                           \
    X(longest_ring)       /* a ring of 65,536 is never quite full */                                                   \
    X(destination_wrap)   /* DestinationID 4,294,967,295 goes to 1 */                                                  \
    X(side_rises)         /* DestinationID rises at each side with Append 0 */                                         \
    X(start_rises)        /* it rises at a side that Start begins */                                                   \
    X(jam_rises)          /* it rises at Start after a jam */                                                          \
    X(end_rises)          /* it rises in the drain step that ends a job */                                             \
    X(end_renames)        /* the last name moves in the drain step that ends a job */                                  \
    X(pending_stays)      /* it does not rise in a drain step to Pending */                                            \
    X(erred_stays)        /* it does not rise in a drain step to Erred */                                              \
    X(zero_stays)         /* it does not rise at StartScan with SideCount 0 */                                         \
    X(stored_not_raised)  /* StartScan stores the last name, and the number does not rise */                           \
    X(job_rises)          /* it rises at StartScan though the name is the last one */                                  \
    X(idle_forgets)       /* the last name is forgotten in Idle */                                                     \
    X(lengths_compared)   /* names of one length are taken for the same */                                             \
    X(length_ignored)     /* names are compared but for their lengths */                                               \
    X(tail_ignored)       /* names are compared but for their last two bytes */                                        \
    X(far_offset)         /* bad lines beyond 2^32 are off by one */                                                   \
    X(lower_case)         /* a hex digit in lower case */                                                              \
    X(not_last)           /* last is not heeded by serve */                                                            \
    X(room_accepted)      /* perform tells 0 for a line too short */                                                   \
    X(serve_stands)       /* serve tells 0 for lines too short */                                                      \
    X(empty_stands)       /* serve of no input tells 0 for lines too short */                                          \
    X(room_first)         /* 603 comes before 604 */                                                                   \
    X(room_read)          /* 603 for lines too short leaves ended at 1 */                                              \
    X(room_639)           /* a line is answered into 639 bytes */                                                      \
    X(room_641)           /* a line is not answered into 640 bytes */                                                  \
    X(unread_accepted)    /* perform tells 0 where no record reads */                                                  \
    X(served_unread)      /* serve tells that no record reads */                                                       \
    X(cut_is_bad)         /* perform takes a cut record for bad while more may come */                                 \
    X(none_is_bad)        /* perform takes no input for bad while more may come */                                     \
    X(bad_waits)          /* perform withholds a bad record while more may come */                                     \
    X(length_waits)       /* so it does while fewer bytes are there than its fourth says */                            \
    X(cut_waits)          /* perform withholds a cut record where no input follows */                                  \
    X(first_after_fetch)  /* the first GetState after a fetch is refused */                                            \
    X(static_state)       /* the 20,000th call of all boxes changes a word */                                          \
    X(null_input)         /* a NULL input is answered by nothing */                                                    \
    X(null_reply)         /* a NULL reply is read */                                                                   \
    X(loose_sound)        /* quiet may be as much as granted */                                                        \
    X(loose_name)         /* while a job is held the last two bytes of the last name may be any */                     \
    X(loose_length)       /* while a job is held the length of the last name may be any */                             \
    X(idle_name)          /* in Idle the last name must be empty */                                                    \
    X(long_name)          /* a last name may have 19 bytes */                                                          \
    X(wide_name)          /* the last name's third word may have more than 16 bits */                                  \
    X(later_version)      /* a record of version 3 is taken for one of version 2 */                                    \
    X(earlier_version)    /* a record of version 1 is taken for one of version 2 */                                    \
    X(short_version)      /* only 32 bits of the version are read */                                                   \
    X(asked_version)      /* what is no record tells its version */                                                    \
    X(fresh_keeps)        /* fresh keeps the tray */                                                                   \
    X(load_713)           /* Load's 713 leaves the feeder as it was */                                                 \
    X(aborts)             /* the program aborts at SideCount 999 */                                                    \
    X(exits)              /* the program ends well at the 30,000th call */                                             \
    X(prints)             /* the program prints */                                                                     \
    X(hangs)              /* the program never returns where a side number is 500 */

enum wrong {
#define X(name) name,
    WRONGS(X)
#undef X
};

static const char *const names[] = {
#define X(name) #name,
    WRONGS(X)
#undef X
};

/* The words stand in the order of the questions. */
enum {
    VERSION = BENCH_BOX_VERSION,
    FEEDER = BENCH_BOX_FEEDER_STATE,
    JOB = BENCH_BOX_JOB,
    GRANTED = BENCH_BOX_GRANTED,
    QUIET = BENCH_BOX_QUIET,
    SIDE_COUNT = BENCH_BOX_SIDE_COUNT,
    SIDE_NUMBER = BENCH_BOX_SIDE_NUMBER,
    DESTINATION = BENCH_BOX_DESTINATION,
    TRAY = BENCH_BOX_TRAY,
    START = BENCH_BOX_START,
    STORED = BENCH_BOX_STORED,
    SCAN = BENCH_BOX_SCAN_STATE,
    APPEND = BENCH_BOX_APPEND,
    /* The last name has no question: bytes by eight, eight and two, the first highest, and its length. */
    NAME_FIRST = STORED + 1,
    NAME_SECOND,
    NAME_THIRD,
    NAME_LENGTH,
};

/* The last name of a job has these. */
enum { NAMED_THIRD = 0x7067, NAMED_LENGTH = 18, BARE_LENGTH = 15 };

static enum wrong wrong(void)
{
    static int known = -1;
    for (int place = 0; known < 0; place++) {
        const char *name = getenv("BENCH_BOX_BROKEN");
        if (name == NULL || place == sizeof names / sizeof names[0]) {
            fputs("broken: BENCH_BOX_BROKEN names no wrong\n", stderr);
            exit(2);
        }
        known = strcmp(name, names[place]) == 0 ? place : -1;
    }
    return (enum wrong)known;
}

static void touch(const volatile uint8_t *byte)
{
    (void)*byte;
}

static void flip(volatile uint8_t *thing, ptrdiff_t place)
{
    if (thing != NULL) {
        thing[place] ^= 1;
    }
}

/* What is wrong with any call of a box. */
static void spoil_box(bench_box *box)
{
    static unsigned calls;
    calls++;
    if (wrong() == static_state && calls == 20000) {
        box->words[DESTINATION] ^= 1;
    } else if (wrong() == exits && calls == 30000) {
        exit(0);
    } else if (wrong() == aborts && box->words[SIDE_COUNT] == 999) {
        abort();
    } else if (wrong() == prints && calls == 1000) {
        puts("here I am");
        fflush(stdout);
    } else if (wrong() == hangs && box->words[SIDE_NUMBER] == 500) {
        pause();
    } else if (wrong() == behind_record) {
        ((volatile uint8_t *)(box + 1))[0] ^= 1;
    }
}

/* Some take for sound what is not, or the other way round. */
static void loosen(bench_box *box)
{
    uint64_t *words = box->words;
    bool held = words[JOB] != 0, numbered = words[APPEND] == 1;
    if (wrong() == loose_name && held && words[NAME_THIRD] <= UINT16_MAX) {
        words[NAME_THIRD] = numbered ? NAMED_THIRD : 0;
    } else if (wrong() == loose_length && held && words[NAME_LENGTH] <= NAMED_LENGTH) {
        words[NAME_LENGTH] = numbered ? NAMED_LENGTH : BARE_LENGTH;
    } else if (wrong() == idle_name && !held && words[NAME_LENGTH] > 0) {
        words[NAME_LENGTH] = UINT64_MAX;
    } else if (wrong() == long_name && words[NAME_LENGTH] == NAMED_LENGTH + 1) {
        words[NAME_LENGTH] = NAMED_LENGTH;
    } else if (wrong() == wide_name) {
        words[NAME_THIRD] &= UINT16_MAX;
    } else if (wrong() == loose_sound && words[SCAN] != BENCH_BOX_SCAN_ERRED && words[GRANTED] > 5 &&
               words[QUIET] == words[GRANTED]) {
        words[QUIET]--;
    } else if ((wrong() == later_version && words[VERSION] == BENCH_BOX_VERSION_NUMBER + 1) ||
               (wrong() == earlier_version && words[VERSION] == BENCH_BOX_VERSION_NUMBER - 1) ||
               (wrong() == short_version && (uint32_t)words[VERSION] == BENCH_BOX_VERSION_NUMBER)) {
        words[VERSION] = BENCH_BOX_VERSION_NUMBER;
    }
}

/* What is not sound for all that is as it was. */
static void tighten(bench_box *box, const bench_box *was, uint16_t number)
{
    if (number == BENCH_BOX_UNSOUND) {
        *box = *was;
    }
}

void broken_fresh(bench_box *box)
{
    uint64_t tray = box->words[TRAY];
    bench_box_fresh(box);
    if (wrong() == fresh_keeps) {
        box->words[TRAY] = tray & 1;
    }
}

uint16_t broken_tick(bench_box *box, size_t ring_length)
{
    const bench_box was = *box;
    loosen(box);
    uint16_t number = bench_box_tick(box, ring_length);
    tighten(box, &was, number);
    spoil_box(box);
    if (wrong() == tick_300 && number == 0 && box->words[QUIET] == 300) {
        box->words[QUIET] = 299;
    } else if (wrong() == unsound_counts && number == BENCH_BOX_UNSOUND) {
        box->words[QUIET]++;
    }
    return number;
}

/* All that a call is lent, and the record before it. */
struct lent {
    bench_box *box, before;
    uint8_t *ring;
    size_t ring_length;
    uint8_t *reply;
    size_t reply_length;
    const uint8_t *input;
    size_t input_length;
    uint64_t offset;
    uint8_t *lines;
    size_t lines_length;
    bench_box_progress *progress, progress_before;
};

static void spoil_record(const struct lent *lent, uint8_t kind, uint16_t number)
{
    static bool fetched;
    uint64_t *words = lent->box->words;
    const uint64_t *before = lent->before.words;
    if (wrong() == refused_sign && kind == BENCH_BOX_KIND_STOP && number != 0) {
        words[QUIET] = 0;
    } else if (wrong() == ring_elsewhere && kind == BENCH_BOX_KIND_BYTES && number == 0 &&
               words[STORED] + 100 < lent->ring_length) {
        lent->ring[(words[START] + words[STORED] + 50) % lent->ring_length] ^= 1;
    } else if (wrong() == load_713 && kind == BENCH_BOX_KIND_LOAD && number == 713) {
        words[FEEDER] = before[FEEDER];
    } else if (wrong() == first_after_fetch && kind == BENCH_BOX_KIND_GET_STATE && fetched &&
               lent->progress->written > 4) {
        lent->lines[3] = '1';
    } else if (wrong() == longest_ring && lent->ring_length == 65536 && words[STORED] == 65536) {
        words[STORED] = 65535;
    } else if (wrong() == destination_wrap && before[DESTINATION] == UINT32_MAX && words[DESTINATION] == 0) {
        words[DESTINATION] = 1;
    }
    fetched = kind == BENCH_BOX_KIND_FETCH && number == 0 && before[STORED] > words[STORED];
}

/* The three digits of a side in the last name's second word. */
static uint64_t side_digits(uint64_t side)
{
    return ('0' + side / 100) << 32 | ('0' + side / 10 % 10) << 24 | ('0' + side % 10) << 16;
}

/* What is wrong with DestinationID and the last name, where a call answers one record. */
static void spoil_destination(const struct lent *lent, uint8_t kind)
{
    uint64_t *words = lent->box->words, raised = (uint32_t)(lent->before.words[DESTINATION] + 1);
    const uint64_t *before = lent->before.words;
    bool same_length = words[NAME_LENGTH] == before[NAME_LENGTH], same_third = words[NAME_THIRD] == before[NAME_THIRD];
    bool same_front = memcmp(words + NAME_FIRST, before + NAME_FIRST, 2 * sizeof words[0]) == 0;
    bool granted = before[JOB] == 0 && words[JOB] != 0, ended = before[JOB] != 0 && words[JOB] == 0;
    bool drains = kind == BENCH_BOX_KIND_FETCH || kind == BENCH_BOX_KIND_SIDE_ENDED;
    bool drained = drains && words[JOB] != 0 && words[SIDE_NUMBER] != before[SIDE_NUMBER];
    bool begun = words[SCAN] == BENCH_BOX_SCAN_SCANNING && (drained || before[SCAN] != words[SCAN]) && !granted;
    bool started = begun && kind == BENCH_BOX_KIND_START;
    switch (wrong()) {
    case side_rises:
        words[DESTINATION] = begun && words[APPEND] == 0 ? raised : words[DESTINATION];
        break;
    case start_rises:
        words[DESTINATION] = started ? raised : words[DESTINATION];
        break;
    case jam_rises:
        words[DESTINATION] = started && before[SCAN] == BENCH_BOX_SCAN_ERRED ? raised : words[DESTINATION];
        break;
    case end_rises:
        words[DESTINATION] = ended && drains ? raised : words[DESTINATION];
        break;
    case end_renames:
        if (ended && drains && words[APPEND] == 1) {
            words[NAME_SECOND] &= ~(UINT64_C(0xFFFFFF) << 16);
            words[NAME_SECOND] |= side_digits((before[SIDE_NUMBER] + 1) % 1000);
        }
        break;
    case pending_stays:
        words[DESTINATION] = drained && words[SCAN] == BENCH_BOX_SCAN_PENDING ? before[DESTINATION] : words[DESTINATION];
        break;
    case erred_stays:
        words[DESTINATION] = drained && words[SCAN] == BENCH_BOX_SCAN_ERRED ? before[DESTINATION] : words[DESTINATION];
        break;
    case zero_stays:
        words[DESTINATION] = granted && words[SCAN] == BENCH_BOX_SCAN_PENDING ? before[DESTINATION] : words[DESTINATION];
        break;
    case stored_not_raised:
        words[DESTINATION] = granted ? before[DESTINATION] : words[DESTINATION];
        break;
    case job_rises:
        words[DESTINATION] = granted ? raised : words[DESTINATION];
        break;
    case idle_forgets:
        if (ended) {
            memset(words + NAME_FIRST, 0, 4 * sizeof words[0]);
        }
        break;
    case lengths_compared:
        words[DESTINATION] = granted && same_length ? before[DESTINATION] : words[DESTINATION];
        break;
    case length_ignored:
        words[DESTINATION] = granted && same_front && same_third ? before[DESTINATION] : words[DESTINATION];
        break;
    case tail_ignored:
        words[DESTINATION] = granted && same_front && same_length ? before[DESTINATION] : words[DESTINATION];
        break;
    default:
        break;
    }
}

static void spoil_text(const struct lent *lent)
{
    bench_box_progress *progress = lent->progress;
    uint8_t *text_end = lent->lines + progress->written;
    if (wrong() == behind_text && progress->written < lent->lines_length) {
        *text_end ^= 1;
    } else if (wrong() == end_of_lines && lent->lines_length > 60000 && progress->written < lent->lines_length) {
        lent->lines[lent->lines_length - 1] ^= 1;
    } else if (wrong() == far_offset && progress->ended == 1 && lent->offset > UINT32_MAX) {
        text_end[-2] ^= 1;
    } else if (wrong() == lower_case && progress->written > 0) {
        uint8_t *digit = memchr(lent->lines, ':', progress->written);
        for (; digit != NULL && digit < text_end; digit++) {
            *digit = *digit == 'D' ? 'd' : *digit;
        }
    } else if (wrong() == ended_unwritten && progress->ended == 0) {
        progress->ended = lent->progress_before.ended;
    }
}

static void spoil_memory(const struct lent *lent, uint16_t number)
{
    bool unsound = number == BENCH_BOX_UNSOUND;
    switch (wrong()) {
    case before_ring:
        flip(lent->ring, -1);
        break;
    case behind_ring:
        flip(lent->ring, (ptrdiff_t)lent->ring_length);
        break;
    case before_reply:
        flip(lent->reply, -1);
        break;
    case behind_reply:
        flip(lent->reply, (ptrdiff_t)lent->reply_length);
        break;
    case before_lines:
        flip(lent->lines, -1);
        break;
    case behind_lines:
        flip(lent->lines, (ptrdiff_t)lent->lines_length);
        break;
    case reads_past_input:
        if (lent->input != NULL) {
            touch(lent->input + lent->input_length);
        }
        break;
    case reads_before_input:
        if (lent->input != NULL) {
            touch(lent->input - 1);
        }
        break;
    case writes_input:
        if (lent->input_length > 0) {
            volatile uint8_t *input = (volatile uint8_t *)(uintptr_t)lent->input;
            input[0] = lent->input[0];
        }
        break;
    case null_reply:
        touch(lent->reply);
        break;
    case unsound_counts:
        lent->box->words[QUIET] += unsound;
        break;
    case unsound_reads:
        lent->progress->read += unsound;
        break;
    case unsound_writes:
        if (unsound && lent->ring_length > 9) {
            lent->ring[9] ^= 1;
        }
        break;
    case refused_replies:
        if (number != 0 && lent->reply_length > 0) {
            lent->reply[0] ^= 1;
        }
        break;
    default:
        break;
    }
}

static void spoil(const struct lent *lent, uint16_t number)
{
    uint8_t kind = lent->input_length > 2 ? lent->input[2] : 0;
    spoil_box(lent->box);
    if (number != BENCH_BOX_UNSOUND && lent->progress->read > 0) {
        spoil_record(lent, kind, number);
    }
    if (number == 0 && lent->progress->read > 0 && lent->progress->read == 4 + (size_t)lent->input[3]) {
        spoil_destination(lent, kind);
    }
    spoil_text(lent);
    spoil_memory(lent, number);
    if (wrong() == null_input && lent->input == NULL && number == BENCH_BOX_NO_RECORD) {
        *lent->progress = (bench_box_progress){0, 0, 0};
    }
}

/* Some take last for something else. */
static bool heard(bool last, bool performs, size_t input_length)
{
    switch (wrong()) {
    case not_last:
        return last && performs;
    case cut_waits:
        return last && !performs;
    case cut_is_bad:
        return last || (performs && input_length > 0);
    case none_is_bad:
        return last || (performs && input_length == 0);
    default:
        return last;
    }
}

/* The room that a box with another test of it would have, where the lines have this much. */
static size_t room_for(size_t lines_length)
{
    if (wrong() == room_639 && lines_length == BENCH_BOX_LINE_MOST - 1) {
        return BENCH_BOX_LINE_MOST;
    }
    if (wrong() == room_641 && lines_length == BENCH_BOX_LINE_MOST) {
        return BENCH_BOX_LINE_MOST - 1;
    }
    return lines_length;
}

/* A bad record is not told, though it is met. */
static void withhold(const struct lent *lent, const uint8_t *line_before, uint16_t number)
{
    bool is_whole = lent->input_length >= 4 && lent->input_length - 4 >= lent->input[3];
    if (number == BENCH_BOX_NO_RECORD && (wrong() == bad_waits || (wrong() == length_waits && !is_whole))) {
        memcpy(lent->lines, line_before, lent->progress->written);
        *lent->progress = (bench_box_progress){0, 0, 0};
    }
}

/* What is told in place of a number. */
static uint16_t told(const struct lent *lent, bool performs, uint16_t number)
{
    bool no_room = number == BENCH_BOX_NO_ROOM && lent->progress->read == 0;
    switch (wrong()) {
    case room_accepted:
        return no_room && performs ? BENCH_BOX_ACCEPTED : number;
    case serve_stands:
        return no_room && !performs ? BENCH_BOX_ACCEPTED : number;
    case empty_stands:
        return no_room && !performs && lent->input_length == 0 ? BENCH_BOX_ACCEPTED : number;
    case room_first:
        return lent->lines_length < BENCH_BOX_LINE_MOST ? BENCH_BOX_NO_ROOM : number;
    case room_read:
        lent->progress->ended |= no_room;
        return number;
    case unread_accepted:
        return number == BENCH_BOX_NO_RECORD ? BENCH_BOX_ACCEPTED : number;
    case served_unread:
        return !performs && number == 0 && lent->progress->ended ? BENCH_BOX_NO_RECORD : number;
    default:
        return number;
    }
}

uint16_t broken_perform(bench_box *box, uint8_t *ring, size_t ring_length, uint8_t *reply, size_t reply_length,
                        const uint8_t *input, size_t input_length, uint64_t offset, bool last, uint8_t *line,
                        size_t line_length, bench_box_progress *progress)
{
    static uint8_t longer[BENCH_BOX_LINE_MOST], before[BENCH_BOX_LINE_MOST];
    size_t room = room_for(line_length);
    const bench_box was = *box;
    loosen(box);
    const struct lent lent = {box,          *box,   ring, ring_length, reply,    reply_length, input,
                              input_length, offset, line, line_length, progress, *progress};
    if (line_length >= sizeof before) {
        memcpy(before, line, sizeof before);
    }
    uint16_t number =
        bench_box_perform(box, ring, ring_length, reply, reply_length, input, input_length, offset,
                          heard(last, true, input_length), room > line_length ? longer : line, room, progress);
    tighten(box, &was, number);
    if (room > line_length) {
        memcpy(line, longer, progress->written);
    }
    if (!last) {
        withhold(&lent, before, number);
    }
    spoil(&lent, number);
    return told(&lent, true, number);
}

uint16_t broken_serve(bench_box *box, uint8_t *ring, size_t ring_length, const uint8_t *input, size_t input_length,
                      uint64_t offset, bool last, uint8_t *lines, size_t lines_length, bench_box_progress *progress)
{
    static uint8_t longer[BENCH_BOX_LINE_MOST];
    uint8_t none[2] = {0, 0};
    size_t room = room_for(lines_length);
    const bench_box was = *box;
    loosen(box);
    const struct lent lent = {box,          *box,   ring,  ring_length,  none + 1, 0,        input,
                              input_length, offset, lines, lines_length, progress, *progress};
    uint16_t number =
        bench_box_serve(box, ring, ring_length, input, input_length, offset, heard(last, false, input_length),
                        room > lines_length ? longer : lines, room, progress);
    tighten(box, &was, number);
    if (room > lines_length) {
        memcpy(lines, longer, progress->written);
    }
    spoil(&lent, number);
    return told(&lent, false, number);
}

uint64_t broken_ask(const bench_box *box, size_t ring_length, size_t question)
{
    uint64_t value = bench_box_ask(box, ring_length, question);
    if (wrong() == asked_wrongly && question == BENCH_BOX_QUIET && value != BENCH_BOX_NONE) {
        return value + (box->words[JOB] > 1);
    }
    if (wrong() == asked_too_far && question == BENCH_BOX_WORDS && value == BENCH_BOX_NONE) {
        return bench_box_ask(box, ring_length, BENCH_BOX_STORED);
    }
    if (wrong() == asked_name && question == NAME_LENGTH && bench_box_ask(box, ring_length, JOB) != BENCH_BOX_NONE) {
        return box->words[NAME_LENGTH];
    }
    if (wrong() == asked_version && question == BENCH_BOX_VERSION) {
        return box->words[VERSION];
    }
    if (wrong() == asked_high && question == (size_t)1 << 32) {
        return bench_box_ask(box, ring_length, 0);
    }
    if (wrong() == reads_past_record) {
        touch((const uint8_t *)(box + 1));
    }
    if (wrong() == writes_asked) {
        volatile uint64_t *words = (volatile uint64_t *)(uintptr_t)box->words;
        words[0] = box->words[0];
    }
    return value;
}
