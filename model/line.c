#include "line.h"

#include <stdio.h>

bool read_line(struct line *line)
{
    bool any = false;
    int c;

    line->kept_length = 0;
    line->odd = false;
    line->cut = false;
    line->tail_hex = true;
    while ((c = getchar()) != EOF) {
        any = true;
        if (c == '\n')
            return true;
        line->odd = !line->odd;
        if (line->kept_length < KEPT_BYTES) {
            line->kept[line->kept_length++] = (uint8_t)c;
        } else {
            line->cut = true;
            if (hex_value((uint8_t)c) < 0)
                line->tail_hex = false;
        }
    }
    return any;
}

int hex_value(uint8_t digit)
{
    if (digit >= '0' && digit <= '9')
        return digit - '0';
    if (digit >= 'A' && digit <= 'F')
        return digit - 'A' + 10;
    if (digit >= 'a' && digit <= 'f')
        return digit - 'a' + 10;
    return -1;
}

bool read_hex(const uint8_t *digits, size_t length, uint8_t *out)
{
    if (length % 2 != 0)
        return false;
    for (size_t i = 0; i < length; i += 2) {
        int high = hex_value(digits[i]);
        int low = hex_value(digits[i + 1]);
        if (high < 0 || low < 0)
            return false;
        out[i / 2] = (uint8_t)(high << 4 | low);
    }
    return true;
}

void write_hex(const uint8_t *bytes, size_t length)
{
    static const char digits[] = "0123456789ABCDEF";

    for (size_t i = 0; i < length; i++) {
        putchar(digits[bytes[i] >> 4]);
        putchar(digits[bytes[i] & 15]);
    }
}

bool end_line(void)
{
    putchar('\n');
    return fflush(stdout) == 0;
}
