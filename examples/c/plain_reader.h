/*
 * A reader of NCM blocks with fields of 16 bits as one writes it by hand: what the harness compares with the proved
 * one, and what bench/codec_c.py times beside it. It finds frames and makes no difference between faults.
 */
#ifndef PLAIN_READER_H
#define PLAIN_READER_H

#include <string.h>

#include "usbnet_codec.h"

static inline size_t plain_short(const uint8_t *at)
{
    return at[0] | (size_t)at[1] << 8;
}

/* Whether the bytes are a block. The number of its frames goes to `frames`, and as many as there is room for to `spans`. */
static inline int plain_ncm16(const uint8_t *bytes, size_t length, usbnet_span *spans, size_t room, size_t *frames)
{
    size_t seen[32], tables = 0, count = 0, size, table;

    if (length < 12 || memcmp(bytes, "NCMH", 4) != 0 || plain_short(bytes + 4) != 12)
        return 0;
    size = plain_short(bytes + 8);
    if (size == 0)
        size = length;
    if (size > length || size < 12)
        return 0;
    table = plain_short(bytes + 10);
    do {
        for (size_t i = 0; i < tables; i++)
            if (seen[i] == table)
                return 0;
        if (tables == 32 || table < 12 || table + 16 > size || memcmp(bytes + table, "NCM0", 4) != 0)
            return 0;
        size_t bound = plain_short(bytes + table + 4);
        if (bound < 16 || bound % 4 != 0 || table + bound > size)
            return 0;
        for (size_t pair = table + 8; pair + 4 < table + bound; pair += 4) {
            usbnet_span span = {plain_short(bytes + pair), plain_short(bytes + pair + 2)};
            if (span.at == 0 || span.size == 0)
                break;
            if (span.at < 12 || span.size < 14 || span.at + span.size > size)
                return 0;
            if (count < room)
                spans[count] = span;
            count++;
        }
        seen[tables++] = table;
        table = plain_short(bytes + table + 6);
    } while (table != 0);
    *frames = count;
    return 1;
}

#endif
