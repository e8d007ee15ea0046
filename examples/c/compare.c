/*
 * A harness that compares a reader under test with the proved one: it stops at the first input of which they say
 * different things. Put your reader in place of plain_ncm16.
 *
 *     clang -g -fsanitize=fuzzer,address -Ic examples/c/compare.c c/out/libusbnet_codec.a -o compare && ./compare
 *
 * With -DFROM_FILES it has a main of its own, which takes each file that its words name as one input: for AFL
 * (afl-fuzz .. -- ./compare @@), and for inputs that were kept.
 */
#include <stdio.h>
#include <stdlib.h>

#include "plain_reader.h"
#include "usbnet_codec.h"

#define ROOM 4096

int LLVMFuzzerTestOneInput(const uint8_t *bytes, size_t length)
{
    static usbnet_span proved[ROOM], tested[ROOM];
    usbnet_answer answer;
    size_t frames = 0;
    int is_read = usbnet_read(USBNET_NCM16, bytes, length, proved, ROOM, &answer) == USBNET_READ;

    if (plain_ncm16(bytes, length, tested, ROOM, &frames) != is_read)
        abort();
    if (is_read && frames != answer.frames)
        abort();
    for (size_t i = 0; is_read && i < frames && i < ROOM; i++)
        if (proved[i].at != tested[i].at || proved[i].size != tested[i].size)
            abort();
    return 0;
}

#ifdef FROM_FILES
int main(int count, char **words)
{
    static uint8_t bytes[1 << 20];

    for (int i = 1; i < count; i++) {
        FILE *file = fopen(words[i], "rb");
        if (file == NULL)
            return 2;
        LLVMFuzzerTestOneInput(bytes, fread(bytes, 1, sizeof bytes, file));
        fclose(file);
    }
    return 0;
}
#endif
