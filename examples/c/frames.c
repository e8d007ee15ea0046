/*
 * Reads one transfer from a file, or from standard input, and prints its frames as `usbnet decode` does:
 *
 *     frames CLASS [FILE]        CLASS: ecm, eem, ncm16, ncm32, rndis
 *
 * Output and exit statuses are those of `usbnet decode`, also where it refuses: 0 done, 1 no memory, 2 the input can't
 * be read, 3 the output can't be written, 4 bad words, 7 the input has more than 16777216 bytes, 8 the bytes are no
 * transfer of the class.
 */
#include <stdio.h>
#include <stdlib.h>
#include <string.h>

#include "usbnet_codec.h"

#define MOST 16777216

static const char *const classes[] = {"ecm", "eem", "ncm16", "ncm32", "rndis"};

static int refuse(int status, const char *words)
{
    fputs(words, stdout);
    return status;
}

/* All bytes of a file, at most MOST and one more; null where memory ran out. */
static uint8_t *all_of(FILE *file, size_t *length)
{
    size_t room = 65536;
    uint8_t *bytes = (uint8_t *)malloc(room);

    *length = 0;
    while (bytes != NULL) {
        *length += fread(bytes + *length, 1, room - *length, file);
        if (*length < room || room > MOST)
            break;
        room = room >= MOST ? MOST + 1 : 2 * room;
        uint8_t *more = (uint8_t *)realloc(bytes, room);
        if (more == NULL)
            free(bytes);
        bytes = more;
    }
    return bytes;
}

static void print_frame(const uint8_t *bytes, size_t index, usbnet_span span)
{
    static const char digits[] = "0123456789abcdef";

    printf("frame %zu %zu ", index, span.size);
    for (size_t i = 0; i < span.size; i++) {
        putchar(digits[bytes[span.at + i] >> 4]);
        putchar(digits[bytes[span.at + i] & 15]);
    }
    putchar('\n');
}

/* Prints a transfer of the class. The first call asks how many frames it has, the second where they stand. */
static int print_transfer(uint32_t class_number, const uint8_t *bytes, size_t length)
{
    usbnet_answer answer;
    uint32_t status = usbnet_read(class_number, bytes, length, NULL, 0, &answer);

    if (status != USBNET_READ) {
        printf("bad transfer %s %llu\n", usbnet_fault_name(status), (unsigned long long)answer.at);
        return 8;
    }
    usbnet_span *spans = (usbnet_span *)calloc(answer.frames + 1, sizeof *spans);
    if (spans == NULL)
        return refuse(1, "no memory\n");
    usbnet_read(class_number, bytes, length, spans, answer.frames, &answer);
    printf("class %s\nframes %zu\n", classes[class_number], answer.frames);
    for (size_t i = 0; i < answer.frames; i++)
        print_frame(bytes, i, spans[i]);
    printf("commands %llu\n", (unsigned long long)answer.commands);
    free(spans);
    return 0;
}

int main(int count, char **words)
{
    uint32_t class_number = 0;
    FILE *file = stdin;
    size_t length;

    while (count >= 2 && class_number < 5 && strcmp(words[1], classes[class_number]) != 0)
        class_number++;
    if (count < 2 || count > 3 || class_number == 5)
        return refuse(4, "bad words\n");
    if (count == 3 && (file = fopen(words[2], "rb")) == NULL)
        return refuse(2, "read fault\n");
    uint8_t *bytes = all_of(file, &length);
    if (bytes == NULL)
        return refuse(1, "no memory\n");
    int status = ferror(file) ? refuse(2, "read fault\n") : length > MOST ? refuse(7, "too large\n") : print_transfer(class_number, bytes, length);
    free(bytes);
    if (file != stdin)
        fclose(file);
    return fflush(stdout) != 0 ? 3 : status;
}
