/*
 * Transfers of USB network links, read by proved code: ECM, EEM, NCM with fields of 16 or 32 bits, and RNDIS.
 *
 * Link with libusbnet_codec.a (`make -C c` builds it). No call takes memory, keeps anything between calls or has a
 * state; calls on different memory may run at the same time. What is proved is what the library does with the memory
 * that a call lends it; that the memory is what this page asks for, the caller sees to.
 */
#ifndef USBNET_CODEC_H
#define USBNET_CODEC_H

#include <stddef.h>
#include <stdint.h>

#ifdef __cplusplus
extern "C" {
#endif

/* The classes of transfers. */
enum {
    USBNET_ECM = 0,   /* one Ethernet frame (ECM 1.2, 3.3) */
    USBNET_EEM = 1,   /* packets, some of which may be commands (EEM 1.0, 5.1) */
    USBNET_NCM16 = 2, /* a block with fields of 16 bits (NCM 1.0, 3.2.1) */
    USBNET_NCM32 = 3, /* a block with fields of 32 bits (NCM 1.0, 3.2.2) */
    USBNET_RNDIS = 4  /* data messages (MS-RNDIS 2.2.14) */
};

/*
 * What a reading returns: that the transfer was read, its first fault, or that the call asked for what there isn't.
 * Where each fault is found is said with it; the place is told in bytes from the transfer's beginning.
 */
enum {
    USBNET_READ = 0,
    USBNET_TRUNCATED = 1,           /* EEM: the bytes end before a packet does. NCM and RNDIS: before a header does */
    USBNET_BAD_SENTINEL = 2,        /* EEM: a data packet doesn't end in de ad be ef, at the packet */
    USBNET_CRC_PACKET = 3,          /* EEM: a data packet says that a check value follows, at the packet */
    USBNET_SHORT_FRAME = 4,         /* ECM, EEM and RNDIS: a frame of fewer than 14 bytes */
    USBNET_BAD_SIGNATURE = 5,       /* NCM: another signature than the class's, of the header or of a table */
    USBNET_BAD_HEADER_LENGTH = 6,   /* NCM: the header's length isn't the class's, at 4 */
    USBNET_BAD_BLOCK_LENGTH = 7,    /* NCM: the block's length is too short, or goes past the transfer, at 8 */
    USBNET_BAD_NDP_INDEX = 8,       /* NCM: a table has no room in the block, at the field that names it */
    USBNET_BAD_NDP_LENGTH = 9,      /* NCM: a table's length is none that a table has, at its field */
    USBNET_CRC_TABLE = 10,          /* NCM: a table's signature says that check values follow, at the table */
    USBNET_NDP_LOOP = 11,           /* NCM: a table was read before, or 32 were, at the field that names the next */
    USBNET_BAD_ENTRY = 12,          /* NCM and RNDIS: a frame stands outside of the block or the message */
    USBNET_BAD_MESSAGE_TYPE = 13,   /* RNDIS: a message's type isn't 1, at the message */
    USBNET_BAD_MESSAGE_LENGTH = 14, /* RNDIS: a message's length is below its header's, or above the bytes left */
    USBNET_NO_CLASS = 100,          /* no class has the number */
    USBNET_NULL = 101               /* a pointer is null where memory is asked for */
};

/* Where a frame stands in a transfer. */
typedef struct usbnet_span {
    size_t at;   /* its first byte, in bytes from the transfer's beginning */
    size_t size; /* how many bytes it has */
} usbnet_span;

/* What a reading tells beside what it returns. */
typedef struct usbnet_answer {
    size_t frames;     /* how many frames the transfer has, also where the array has room for fewer; 0 at a fault */
    uint64_t commands; /* how many commands it has, which EEM alone knows; 0 at a fault */
    uint64_t at;       /* the place of the first fault; 0 where there is none */
} usbnet_answer;

/*
 * The export of the library. Callers take usbnet_read, which tests for null. Here no pointer may be null, not even one
 * to no bytes or to no spans.
 */
uint32_t usbnet_codec_read(uint32_t class_number, const uint8_t *bytes, size_t length, usbnet_span *spans, size_t room,
                           usbnet_answer *answer);

/*
 * Reads a transfer of a class.
 *
 *   class_number  one of USBNET_ECM to USBNET_RNDIS; any other number returns USBNET_NO_CLASS
 *   bytes         `length` bytes, the whole transfer, which are read and never written; may be null where length is 0
 *   spans         an array of `room` spans, which needn't be set to anything; may be null where room is 0
 *   answer        one answer, which needn't be set to anything
 *
 * While the call runs nothing else may write the bytes, and nothing else may read or write the array or the answer. The
 * three must not overlap. Each object has at most PTRDIFF_MAX bytes, as any object in C.
 *
 * Returns
 *
 *   USBNET_READ      The bytes are a transfer of the class. The first frames, as many as there is room for, stand in
 *                    `spans` in their order, each within the transfer; the spans behind the last frame are untouched.
 *                    `answer` tells how many frames and commands the transfer has: where `answer->frames` is above
 *                    `room`, the array was too small, and a second call with a larger one gives them all.
 *   1 to 14          They aren't one. This is the first fault, and `answer->at` its place; `spans` is untouched.
 *   USBNET_NO_CLASS  No class has this number. Nothing is touched.
 *   USBNET_NULL      `answer` is null, or `bytes` or `spans` where it may not be. Nothing is touched.
 */
static inline uint32_t usbnet_read(uint32_t class_number, const uint8_t *bytes, size_t length, usbnet_span *spans,
                                   size_t room, usbnet_answer *answer)
{
    static const uint8_t no_bytes = 0;
    usbnet_span no_spans = {0, 0};

    if (answer == NULL || (bytes == NULL && length != 0) || (spans == NULL && room != 0))
        return USBNET_NULL;
    return usbnet_codec_read(class_number, bytes != NULL ? bytes : &no_bytes, length,
                             spans != NULL ? spans : &no_spans, room, answer);
}

/* The name of a fault, as `usbnet decode` prints it; null for any number that is no fault's. */
static inline const char *usbnet_fault_name(uint32_t status)
{
    static const char *const names[] = {
        "truncated",      "bad-sentinel",   "crc-packet", "short-frame", "bad-signature", "bad-header-length", "bad-block-length",
        "bad-ndp-index",  "bad-ndp-length", "crc-table",  "ndp-loop",    "bad-entry",     "bad-message-type",  "bad-message-length",
    };

    return status >= 1 && status <= sizeof names / sizeof names[0] ? names[status - 1] : NULL;
}

#ifdef __cplusplus
}
#endif

#endif
