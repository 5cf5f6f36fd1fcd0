#include "lines.h"

#include <stdio.h>

int read_line(uint8_t *line, size_t *length)
{
    int byte = getchar();
    if (byte == EOF) {
        return 0;
    }
    *length = 0;
    int last = 0;
    for (; byte != EOF && byte != '\n'; byte = getchar()) {
        if (*length < LINE_ROOM) {
            line[(*length)++] = (uint8_t)byte;
        }
        last = byte;
    }
    if (byte == '\n' && last == '\r' && *length > 0 && line[*length - 1] == '\r') {
        --*length;
    }
    return 1;
}

int write_reply(const uint8_t *reply, size_t length)
{
    return fwrite(reply, 1, length, stdout) == length && fflush(stdout) == 0;
}
