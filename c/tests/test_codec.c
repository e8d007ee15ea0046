/* The calls of the header, as its comments say them. */
#include <stdio.h>
#include <stdlib.h>
#include <string.h>

#include "usbnet_codec.h"

static int failed;

static void expect(int holds, const char *what)
{
    if (!holds) {
        printf("test failed: %s\n", what);
        failed = 1;
    }
}

/* What stood in an array and an answer before a call. */
#define UNTOUCHED 77

static usbnet_span spans[4];
static usbnet_answer answer;

static void put_untouched(void)
{
    for (size_t i = 0; i < 4; i++)
        spans[i].at = spans[i].size = UNTOUCHED;
    answer.frames = UNTOUCHED;
    answer.commands = answer.at = UNTOUCHED;
}

static int is_span(size_t index, size_t at, size_t size)
{
    return spans[index].at == at && spans[index].size == size;
}

static int is_answer(size_t frames, uint64_t commands, uint64_t at)
{
    return answer.frames == frames && answer.commands == commands && answer.at == at;
}

/* Reads bytes that stand in memory of their own, so that the address sanitizer sees a byte read before or behind them. */
static uint32_t read_copy(uint32_t class_number, const void *bytes, size_t length, size_t room)
{
    uint8_t *copy = (uint8_t *)malloc(length > 0 ? length : 1);
    usbnet_span *array = (usbnet_span *)malloc(room > 0 ? room * sizeof *array : 1);
    uint32_t status;

    if (copy == NULL || array == NULL)
        exit(1);
    put_untouched();
    memcpy(copy, bytes, length);
    memcpy(array, spans, room * sizeof *array);
    status = usbnet_read(class_number, copy, length, array, room, &answer);
    expect(memcmp(copy, bytes, length) == 0, "the bytes stay");
    memcpy(spans, array, room * sizeof *array);
    free(array);
    free(copy);
    return status;
}

static void test_ecm(void)
{
    static const uint8_t frame[60] = {2};

    expect(read_copy(USBNET_ECM, frame, 60, 2) == USBNET_READ && is_answer(1, 0, 0), "a frame of ECM");
    expect(is_span(0, 0, 60) && is_span(1, UNTOUCHED, UNTOUCHED), "its place, and the span behind it");
    expect(read_copy(USBNET_ECM, frame, 13, 1) == USBNET_SHORT_FRAME && is_answer(0, 0, 0), "13 bytes of ECM");
    expect(is_span(0, UNTOUCHED, UNTOUCHED), "the array stays at a fault");
    expect(read_copy(USBNET_ECM, frame, 0, 1) == USBNET_SHORT_FRAME, "no bytes of ECM");
}

/* An echo of 3 bytes, a frame of 14, the empty packet, a frame of 15. */
static size_t make_packets(uint8_t *bytes)
{
    static const uint8_t echo[] = {3, 0x80, 1, 2, 3}, sentinel[] = {0xde, 0xad, 0xbe, 0xef};

    memset(bytes, 0, 64);
    memcpy(bytes, echo, 5);
    bytes[5] = 18;
    memcpy(bytes + 21, sentinel, 4);
    bytes[27] = 19;
    memcpy(bytes + 44, sentinel, 4);
    return 48;
}

static void test_eem(void)
{
    uint8_t bytes[64];
    size_t length = make_packets(bytes);

    expect(read_copy(USBNET_EEM, bytes, length, 4) == USBNET_READ && is_answer(2, 1, 0), "packets of EEM");
    expect(is_span(0, 7, 14) && is_span(1, 29, 15) && is_span(2, UNTOUCHED, UNTOUCHED), "their places");
    expect(read_copy(USBNET_EEM, bytes, length, 1) == USBNET_READ && is_answer(2, 1, 0), "an array that is too small");
    expect(is_span(0, 7, 14) && is_span(1, UNTOUCHED, UNTOUCHED), "has the first place");
    expect(read_copy(USBNET_EEM, bytes, 0, 1) == USBNET_READ && is_answer(0, 0, 0), "no bytes are no packets");
    bytes[44] = 0;
    expect(read_copy(USBNET_EEM, bytes, length, 4) == USBNET_BAD_SENTINEL && is_answer(0, 0, 27), "a bad sentinel");
    expect(read_copy(USBNET_EEM, bytes, 30, 4) == USBNET_TRUNCATED && is_answer(0, 0, 27), "bytes that end in a packet");
}

/* A block of NCM with one frame of 14 bytes at 12 and its table at 28. */
static size_t make_block(uint8_t *bytes)
{
    memset(bytes, 0, 44);
    memcpy(bytes, "NCMH", 4);
    bytes[4] = 12;
    bytes[8] = 44;
    bytes[10] = 28;
    memcpy(bytes + 28, "NCM0", 4);
    bytes[32] = 16;
    bytes[36] = 12;
    bytes[38] = 14;
    return 44;
}

static void test_ncm(void)
{
    uint8_t bytes[64];
    size_t length = make_block(bytes);

    expect(read_copy(USBNET_NCM16, bytes, length, 2) == USBNET_READ && is_answer(1, 0, 0) && is_span(0, 12, 14), "a block");
    expect(read_copy(USBNET_NCM32, bytes, length, 2) == USBNET_BAD_SIGNATURE && is_answer(0, 0, 0), "of the other width");
    bytes[38] = 255;
    expect(read_copy(USBNET_NCM16, bytes, length, 2) == USBNET_BAD_ENTRY && is_answer(0, 0, 36), "a frame past the block");
    expect(read_copy(USBNET_NCM16, bytes, 11, 2) == USBNET_TRUNCATED && is_answer(0, 0, 0), "11 bytes of a block");
}

/* A data message with a frame of 14 bytes, and the one byte that may follow it. */
static void test_rndis(void)
{
    uint8_t bytes[59] = {1, 0, 0, 0, 58, 0, 0, 0, 36, 0, 0, 0, 14};

    expect(read_copy(USBNET_RNDIS, bytes, 58, 2) == USBNET_READ && is_answer(1, 0, 0) && is_span(0, 44, 14), "a message");
    expect(read_copy(USBNET_RNDIS, bytes, 59, 2) == USBNET_READ && is_answer(1, 0, 0), "and a byte more");
    bytes[0] = 2;
    expect(read_copy(USBNET_RNDIS, bytes, 58, 2) == USBNET_BAD_MESSAGE_TYPE && is_answer(0, 0, 0), "of another type");
}

static void test_refusals(void)
{
    static const uint8_t frame[14] = {2};

    expect(read_copy(5, frame, 14, 1) == USBNET_NO_CLASS && is_answer(UNTOUCHED, UNTOUCHED, UNTOUCHED), "no class 5");
    expect(read_copy(UINT32_MAX, frame, 14, 1) == USBNET_NO_CLASS && is_span(0, UNTOUCHED, UNTOUCHED), "nor the largest");
    put_untouched();
    expect(usbnet_read(USBNET_ECM, NULL, 14, spans, 1, &answer) == USBNET_NULL, "null bytes");
    expect(usbnet_read(USBNET_ECM, frame, 14, NULL, 1, &answer) == USBNET_NULL, "null spans");
    expect(usbnet_read(USBNET_ECM, frame, 14, spans, 1, NULL) == USBNET_NULL, "a null answer");
    expect(is_span(0, UNTOUCHED, UNTOUCHED) && is_answer(UNTOUCHED, UNTOUCHED, UNTOUCHED), "touch nothing");
    expect(usbnet_read(USBNET_ECM, frame, 14, NULL, 0, &answer) == USBNET_READ && is_answer(1, 0, 0), "no array asks how many");
    expect(usbnet_read(USBNET_EEM, NULL, 0, NULL, 0, &answer) == USBNET_READ && is_answer(0, 0, 0), "null for no bytes");
}

static void test_names(void)
{
    expect(strcmp(usbnet_fault_name(USBNET_TRUNCATED), "truncated") == 0, "the first name");
    expect(strcmp(usbnet_fault_name(USBNET_BAD_ENTRY), "bad-entry") == 0, "a name");
    expect(strcmp(usbnet_fault_name(USBNET_BAD_MESSAGE_LENGTH), "bad-message-length") == 0, "the last name");
    expect(usbnet_fault_name(USBNET_READ) == NULL && usbnet_fault_name(15) == NULL, "no name");
}

int main(void)
{
    test_ecm();
    test_eem();
    test_ncm();
    test_rndis();
    test_refusals();
    test_names();
    if (failed == 0)
        puts("c tests passed");
    return failed;
}
