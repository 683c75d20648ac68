/*
 * A host for the bench box: it runs a shift from desk records and prints a line for each.
 *
 *     host FILE                         serves the file as the desk program does
 *     host --tick FILE                  a second passes every second, while records are served as they come
 *     host --ticks-per-record N FILE    N seconds pass after each record, without waiting (for tests)
 *
 * FILE is - for standard input. With seconds, the box's state at the end goes to standard error.
 *
 * The status is 0 where the shift is over, a bad record and a reader that has gone away included; 1 where lines have no
 * room or cannot be written, or the box record is not sound; 2 where it is called wrongly or cannot read the file.
 *
 *     gcc -std=c11 -O2 -Iinclude examples/host.c -L target/staticlib -lbench_box -o target/host
 */
#define _POSIX_C_SOURCE 200809L

#include "bench_box.h"

#include <errno.h>
#include <fcntl.h>
#include <inttypes.h>
#include <poll.h>
#include <signal.h>
#include <stdio.h>
#include <stdlib.h>
#include <string.h>
#include <time.h>
#include <unistd.h>

enum { RING = 4096, WINDOW = 65536, LINES = 65536 };
enum { DONE = 0, BROKEN = 1, UNUSABLE = 2 };

/* All memory of the host, of constant size. The library has none of its own. */
struct host {
    bench_box box;
    uint8_t ring[RING];
    uint8_t reply[BENCH_BOX_REPLY_MOST];

    uint8_t window[WINDOW]; /* input that is not answered yet, a cut record at most between two reads */
    size_t held;            /* how much of it there is */
    uint64_t offset;        /* where it begins in the whole input */

    uint8_t lines[LINES]; /* text that is not written yet */
    size_t said;          /* how much of it there is */

    bool over; /* nothing is left to do */
    int status;
};

/* How seconds come to the box. */
enum seconds { NONE, EVERY_SECOND, AFTER_EACH_RECORD };

struct order {
    const char *file;
    enum seconds seconds;
    unsigned long ticks; /* after each record */
};

static void fail(struct host *host, int status, const char *what, const char *why)
{
    fprintf(stderr, "host: %s: %s\n", what, why);
    host->over = true;
    host->status = status;
}

/* Every call that takes the box may answer 604: the record is damaged, of another version, or kept for another ring. */
static bool is_sound(struct host *host, uint16_t number)
{
    if (number == BENCH_BOX_UNSOUND) {
        fail(host, BROKEN, "the box record", "not sound with the ring (604)");
        return false;
    }
    return true;
}

/* A call with less room than a line takes answers 603 and reads nothing. A record that is refused by 603 is read. */
static bool has_room(struct host *host, uint16_t number, const bench_box_progress *progress)
{
    if (number == BENCH_BOX_NO_ROOM && progress->read == 0) {
        fail(host, BROKEN, "the lines", "less room than a line takes (603)");
        return false;
    }
    return true;
}

/* ---- input and output */

/* Reads what has come, behind the bytes that wait. The answer says whether anything came. */
static bool read_more(struct host *host, int input, const char *name)
{
    for (;;) {
        ssize_t got = read(input, host->window + host->held, WINDOW - host->held);
        if (got >= 0) {
            host->held += (size_t)got;
            return got > 0;
        }
        if (errno != EINTR) {
            fail(host, UNUSABLE, name, strerror(errno));
            return false;
        }
    }
}

/* What is answered leaves the window. A cut record moves to its front, so that there is room behind it. */
static void drop_answered(struct host *host, size_t answered)
{
    host->held -= answered;
    host->offset += answered;
    memmove(host->window, host->window + answered, host->held);
}

/* Writes the lines out. Where nobody reads them any more, the shift is over. */
static void write_lines(struct host *host)
{
    size_t written = 0;
    while (written < host->said) {
        ssize_t n = write(STDOUT_FILENO, host->lines + written, host->said - written);
        if (n >= 0) {
            written += (size_t)n;
        } else if (errno == EPIPE) {
            host->over = true;
            break;
        } else if (errno != EINTR) {
            fail(host, BROKEN, "standard output", strerror(errno));
            break;
        }
    }
    host->said = 0;
}

/* ---- the box */

static void tick(struct host *host)
{
    is_sound(host, bench_box_tick(&host->box, RING));
}

/* A window of records at a time. Each call answers as many as have room for their lines. */
static void serve_window(struct host *host, bool last)
{
    bench_box_progress progress;
    size_t at = 0;
    do {
        uint16_t number = bench_box_serve(&host->box, host->ring, RING, host->window + at, host->held - at,
                                          host->offset + at, last, host->lines, LINES, &progress);
        if (!is_sound(host, number) || !has_room(host, number, &progress)) {
            return;
        }
        at += progress.read;
        host->said = progress.written;
        write_lines(host);
        if (progress.ended) {
            host->over = true;
        }
    } while (progress.read > 0 && !host->over);
    drop_answered(host, at);
}

/* One record at a time, and seconds behind each. After the call a fetch's record stands in the reply. */
static void perform_window(struct host *host, bool last, unsigned long ticks)
{
    size_t at = 0;
    while (!host->over && at < host->held) {
        bench_box_progress progress;
        uint16_t number = bench_box_perform(&host->box, host->ring, RING, host->reply, sizeof host->reply,
                                            host->window + at, host->held - at, host->offset + at, last,
                                            host->lines + host->said, LINES - host->said, &progress);
        if (!is_sound(host, number) || !has_room(host, number, &progress)) {
            break;
        }
        at += progress.read;
        host->said += progress.written;
        if (number == BENCH_BOX_NO_RECORD) {
            host->over = progress.ended != 0; /* a bad one ends the shift; one that is only cut waits for more input */
            break;
        }
        for (unsigned long i = 0; i < ticks && !host->over; i++) {
            tick(host);
        }
        if (LINES - host->said < BENCH_BOX_LINE_MOST) {
            write_lines(host);
        }
    }
    write_lines(host);
    drop_answered(host, at);
}

static const char *const SCAN_STATES[] = {"Idle", "Pending", "Scanning", "Finishing", "Erred"};
static const char *const FEEDER_STATES[] = {"Unloaded", "Loaded", "Busy", "Erred"};

/* Says where the box stands. */
static void report(struct host *host)
{
    uint64_t scan = bench_box_ask(&host->box, RING, BENCH_BOX_SCAN_STATE);
    uint64_t feeder = bench_box_ask(&host->box, RING, BENCH_BOX_FEEDER_STATE);
    uint64_t job = bench_box_ask(&host->box, RING, BENCH_BOX_JOB);
    uint64_t stored = bench_box_ask(&host->box, RING, BENCH_BOX_STORED);
    if (scan == BENCH_BOX_NONE) {
        is_sound(host, BENCH_BOX_UNSOUND);
        return;
    }
    fprintf(stderr, "job %" PRIu64 ", %s, feeder %s, %" PRIu64 " bytes stored\n", job, SCAN_STATES[scan],
            FEEDER_STATES[feeder], stored);
}

/* ---- the shift */

static int64_t now_in_ms(void)
{
    struct timespec now;
    clock_gettime(CLOCK_MONOTONIC, &now);
    return (int64_t)now.tv_sec * 1000 + now.tv_nsec / 1000000;
}

/* Waits until input comes. A tick for each second that passes; none is left out where the host was late. */
static void wait_ticking(struct host *host, int input, const char *name, int64_t *next_second)
{
    struct pollfd wanted = {.fd = input, .events = POLLIN};
    while (!host->over) {
        int64_t left = *next_second - now_in_ms();
        if (left <= 0) {
            tick(host);
            *next_second += 1000;
            continue;
        }
        int ready = poll(&wanted, 1, (int)left);
        if (ready > 0) {
            return;
        }
        if (ready < 0 && errno != EINTR) {
            fail(host, UNUSABLE, name, strerror(errno));
        }
    }
}

static void run_shift(struct host *host, int input, const struct order *order)
{
    int64_t next_second = now_in_ms() + 1000;
    bool last = false;
    bench_box_fresh(&host->box);
    while (!host->over && !last) {
        if (order->seconds == EVERY_SECOND) {
            wait_ticking(host, input, order->file, &next_second);
        }
        if (host->over) {
            break;
        }
        last = !read_more(host, input, order->file);
        if (host->over) {
            break;
        }
        if (order->seconds == NONE) {
            serve_window(host, last);
        } else {
            perform_window(host, last, order->ticks);
        }
    }
    if (order->seconds != NONE && host->status == DONE) {
        report(host);
    }
}

/* ---- the command line */

static bool read_number(const char *text, unsigned long *number)
{
    char *end;
    if (*text < '0' || *text > '9') {
        return false;
    }
    errno = 0;
    *number = strtoul(text, &end, 10);
    return errno == 0 && *end == '\0';
}

static bool read_order(int count, char **words, struct order *order)
{
    *order = (struct order){.file = NULL, .seconds = NONE, .ticks = 0};
    int at = 1;
    if (at < count && strcmp(words[at], "--tick") == 0) {
        order->seconds = EVERY_SECOND;
        at += 1;
    } else if (at + 1 < count && strcmp(words[at], "--ticks-per-record") == 0) {
        order->seconds = AFTER_EACH_RECORD;
        if (!read_number(words[at + 1], &order->ticks)) {
            return false;
        }
        at += 2;
    }
    /* An option that does not exist is no file. */
    if (at + 1 != count || (words[at][0] == '-' && words[at][1] != '\0')) {
        return false;
    }
    order->file = words[at];
    return true;
}

int main(int count, char **words)
{
    static struct host host;
    struct order order;
    if (!read_order(count, words, &order)) {
        fputs("usage: host [--tick | --ticks-per-record N] FILE, where FILE may be -\n", stderr);
        return UNUSABLE;
    }
    int input = STDIN_FILENO;
    if (strcmp(order.file, "-") == 0) {
        order.file = "standard input";
    } else {
        input = open(order.file, O_RDONLY);
    }
    if (input < 0) {
        fail(&host, UNUSABLE, order.file, strerror(errno));
        return host.status;
    }
    signal(SIGPIPE, SIG_IGN); /* write then says EPIPE */
    run_shift(&host, input, &order);
    return host.status;
}
