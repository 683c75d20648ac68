/*
 * Streams of desk records for tests/host.
 *
 *     streams long           a shift of about a megabyte
 *     streams ticks N        standard input, with N Tick records behind each record
 *     streams pieces N       standard input, N bytes at a time: the next ones once the reader has taken the last
 */
#define _DEFAULT_SOURCE

#include <poll.h>
#include <stdint.h>
#include <stdio.h>
#include <stdlib.h>
#include <string.h>
#include <sys/ioctl.h>
#include <unistd.h>

static void put_record(uint8_t kind, const void *payload, size_t length)
{
    const uint8_t head[] = {0xA5, 0x5A, kind, (uint8_t)length};
    fwrite(head, 1, sizeof head, stdout);
    fwrite(payload, 1, length, stdout);
}

static void put_job(uint8_t kind, uint32_t job)
{
    const uint8_t payload[] = {(uint8_t)(job >> 24), (uint8_t)(job >> 16), (uint8_t)(job >> 8), (uint8_t)job};
    put_record(kind, payload, sizeof payload);
}

static void put_fetch(uint8_t most, unsigned job, unsigned side)
{
    char payload[32];
    int length = snprintf(payload, sizeof payload, "%cJ%010u%03u.jpg", most, job, side);
    put_record(0x06, payload, (size_t)length);
}

/* Jobs of three sides from the feeder. Lengths vary, so that the ring's end comes anywhere; some calls are refused. */
static void put_long(void)
{
    uint8_t picture[255];
    unsigned pieces = 0;
    for (size_t i = 0; i < sizeof picture; i++) {
        picture[i] = (uint8_t)(i * 7 + 3);
    }
    put_record(0x22, "\1", 1);
    for (unsigned job = 1; job <= 80; job++) {
        put_record(0x01, "\1\0\3\1\0\74", 6);
        put_job(0x05, job);
        for (unsigned side = 1; side <= 3; side++) {
            for (unsigned piece = 0; piece < 24; piece++, pieces++) {
                put_record(0x20, picture, pieces * 101 % 256);
                put_fetch((uint8_t)(pieces * 67 % 255 + 1), job, side);
            }
            for (unsigned piece = 0; side == 2 && piece < 17; piece++) {
                put_record(0x20, picture, 255); /* more than the ring has room for */
            }
            put_record(0x24, "", 0);
            put_record(0x07, "", 0);
            put_record(0x21, "", 0);
            put_record(0x20, picture, 16);
            put_record(0x14, "", 0);
            for (unsigned fetch = 0; fetch < 17; fetch++) {
                put_fetch(255, job, side);
            }
        }
        put_job(0x03, job + 1);
        put_job(0x03, job);
    }
}

static void put_ticks(unsigned long ticks)
{
    uint8_t record[259];
    for (;;) {
        size_t got = fread(record, 1, 4, stdin);
        size_t length = got == 4 ? record[3] : 0;
        size_t more = fread(record + got, 1, length, stdin);
        fwrite(record, 1, got + more, stdout);
        if (got < 4 || more < length) {
            return; /* a cut record, or none */
        }
        for (unsigned long i = 0; i < ticks; i++) {
            put_record(0x24, "", 0);
        }
    }
}

static void put_pieces(size_t most)
{
    uint8_t piece[4096];
    size_t length;
    while ((length = fread(piece, 1, most < sizeof piece ? most : sizeof piece, stdin)) > 0) {
        int waiting = 0;
        if (write(STDOUT_FILENO, piece, length) < 0) {
            return; /* the reader is done: a bad record */
        }
        while (ioctl(STDOUT_FILENO, FIONREAD, &waiting) == 0 && waiting > 0) {
            struct pollfd reader = {.fd = STDOUT_FILENO, .events = 0};
            if (poll(&reader, 1, 0) > 0) {
                return; /* gone, with bytes unread */
            }
            usleep(1);
        }
    }
}

int main(int count, char **words)
{
    if (count == 2 && strcmp(words[1], "long") == 0) {
        put_long();
    } else if (count == 3 && strcmp(words[1], "ticks") == 0) {
        put_ticks(strtoul(words[2], NULL, 10));
    } else if (count == 3 && strcmp(words[1], "pieces") == 0) {
        put_pieces(strtoul(words[2], NULL, 10));
    } else {
        fputs("usage: streams long | ticks N | pieces N\n", stderr);
        return 2;
    }
    return 0;
}
