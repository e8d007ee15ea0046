// The header in C++: that it compiles, and that its calls are those of the library.
#include "usbnet_codec.h"

int main()
{
    const uint8_t frame[14] = {2};
    usbnet_span span = {1, 1};
    usbnet_answer answer = {1, 1, 1};

    if (usbnet_read(USBNET_ECM, frame, sizeof frame, &span, 1, &answer) != USBNET_READ)
        return 1;
    return span.at == 0 && span.size == 14 && answer.frames == 1 ? 0 : 1;
}
