/* A first byte says how many bytes follow. */
#include <stdio.h>
#include <string.h>

int main(void)
{
    unsigned char packet[16] = {0};
    char body[8];
    int length = getchar(), at;
    for (at = 0; at < 16; at++) {
        int c = getchar();
        if (c < 0)
            break;
        packet[at] = (unsigned char)c;
    }
    if (length < 0 || length > 16)
        return 1;
    memcpy(body, packet, (unsigned)length); /* real: libptr */
    return 0;
}
