/* Lines of text from standard input, for both programs. */
#ifndef MODEL_LINE_H
#define MODEL_LINE_H

#include <stdbool.h>
#include <stddef.h>
#include <stdint.h>

/* The longest line that can matter byte by byte: `put store N` with 40,000 bytes in hex, and a wide N. */
enum { KEPT_BYTES = 100000 };

/* A line of any length. Its first KEPT_BYTES bytes are kept; of the others only their number, and whether all are hex digits. */
struct line {
    uint8_t kept[KEPT_BYTES];
    size_t kept_length;
    bool odd;      /* the whole line's length is odd */
    bool cut;      /* there are bytes that are not kept */
    bool tail_hex; /* all bytes that are not kept are hex digits */
};

/* Reads up to the next LF, or to the end of the input if something stands before it. False: there is no further line. */
bool read_line(struct line *line);

/* The value of a hex digit of either case, or -1. */
int hex_value(uint8_t digit);

/* Reads `length` hex digits into bytes: all of them hex, and an even number. `out` has room for length / 2. */
bool read_hex(const uint8_t *digits, size_t length, uint8_t *out);

/* Writes upper-case hex to standard output. */
void write_hex(const uint8_t *bytes, size_t length);

/* Ends an output line and hands it on at once. False: it cannot be written. */
bool end_line(void);

#endif
