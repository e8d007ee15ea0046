/*
 * Times the proved reader of the C library beside a plain one, by turns, on one block of NCM with fields of 16 bits.
 * Its words are how many frames the block has and their length; it prints the best time of a reading, in nanoseconds,
 * of the plain reader in one pass, which writes as it goes, of the same in two passes, which leaves the array alone at a
 * fault as the proved one does, and of the proved one. bench/codec_c.py builds and runs it.
 */
#define _POSIX_C_SOURCE 199309L
#include <stdio.h>
#include <stdlib.h>
#include <string.h>
#include <time.h>

#include "../examples/c/plain_reader.h"
#include "usbnet_codec.h"

#define ROOM 4096
#define TURNS 15
#define LEAST 20000000.0 /* nanoseconds of a turn */

static uint8_t block[65536];
static size_t length;
static usbnet_span spans[ROOM];

static void put_short(size_t at, size_t number)
{
    block[at] = (uint8_t)number;
    block[at + 1] = (uint8_t)(number >> 8);
}

/* A block with its table behind its frames. */
static void make_block(size_t count, size_t size)
{
    size_t table = 12 + count * size + (4 - count * size % 4) % 4;

    length = table + 8 + 4 * (count + 1);
    memcpy(block, "NCMH", 4);
    put_short(4, 12);
    put_short(8, length);
    put_short(10, table);
    memcpy(block + table, "NCM0", 4);
    put_short(table + 4, 8 + 4 * (count + 1));
    for (size_t i = 0; i < count; i++) {
        put_short(table + 8 + 4 * i, 12 + i * size);
        put_short(table + 10 + 4 * i, size);
    }
}

static double now(void)
{
    struct timespec time;

    clock_gettime(CLOCK_MONOTONIC, &time);
    return 1e9 * (double)time.tv_sec + (double)time.tv_nsec;
}

static size_t read_plain(void)
{
    size_t frames = 0;

    return plain_ncm16(block, length, spans, ROOM, &frames) ? frames : 0;
}

static size_t read_kept(void)
{
    size_t frames = 0;

    if (!plain_ncm16(block, length, NULL, 0, &frames))
        return 0;
    return plain_ncm16(block, length, spans, ROOM, &frames) ? frames : 0;
}

static size_t read_proved(void)
{
    usbnet_answer answer;

    return usbnet_read(USBNET_NCM16, block, length, spans, ROOM, &answer) == USBNET_READ ? answer.frames : 0;
}

/* How long a reading takes, from so many that a turn isn't too short to be timed. */
static double time_of(size_t (*volatile reader)(void), size_t count)
{
    size_t times = 0;
    double start = now(), end;

    do {
        for (size_t i = 0; i < 100; i++)
            if (reader() != count)
                exit(1);
        times += 100;
        end = now();
    } while (end - start < LEAST);
    return (end - start) / (double)times;
}

int main(int words, char **word)
{
    size_t count = words == 3 ? strtoul(word[1], NULL, 10) : 0, size = words == 3 ? strtoul(word[2], NULL, 10) : 0;
    double plain = 1e18, kept = 1e18, proved = 1e18;

    if (count == 0 || count > ROOM || size < 14 || 12 + count * (size + 4) + 16 > 65535)
        return 4;
    make_block(count, size);
    for (int turn = 0; turn < TURNS; turn++) {
        double a = time_of(read_plain, count), b = time_of(read_kept, count), c = time_of(read_proved, count);
        plain = a < plain ? a : plain;
        kept = b < kept ? b : kept;
        proved = c < proved ? c : proved;
    }
    printf("%.1f %.1f %.1f\n", plain, kept, proved);
    return 0;
}
