/* The program of 01's "Checked examples": hex lines in, one contact command each, on a fixed card; one line out for each. */
#include <stdio.h>

#include "card.h"
#include "line.h"

static uint8_t store_bytes[STORE_BYTES];
static uint8_t work_bytes[WORK_BYTES];
static uint8_t response_bytes[LEAST_RESPONSE_BYTES];
static struct line line;
static uint8_t command_bytes[KEPT_BYTES / 2];

/* "A line that is empty, of odd length or not hex prints `bad line` and reaches no card." */
static bool line_is_command(size_t *length)
{
    if (line.kept_length == 0 || line.odd || !line.tail_hex)
        return false;
    /* A line that is cut stands for a command longer than any the card takes: what is kept of it gets the same answer. */
    *length = line.kept_length / 2;
    return read_hex(line.kept, line.kept_length, command_bytes);
}

int main(void)
{
    struct lent store = {store_bytes, sizeof store_bytes};
    struct lent work = {work_bytes, sizeof work_bytes};
    struct lent response = {response_bytes, sizeof response_bytes};

    fixed_card(store_bytes);
    struct outcome outcome = power_on(CONTACT, store, work);
    if (outcome.kind != POWERED_ON)
        return 1;

    while (read_line(&line)) {
        size_t length;
        if (line_is_command(&length)) {
            outcome = command(outcome.session, store, work, response, command_bytes, length);
            /* "A job opened is reported as failed at once." */
            if (outcome.kind == JOB_OPENED)
                outcome = job_result(outcome.session, store, work, response, true, NULL, 0);
            if (outcome.kind != RESPONDED)
                return 1; /* this program makes no call that is refused */
            write_hex(response_bytes, outcome.length);
        } else {
            fputs("bad line", stdout);
        }
        if (!end_line())
            return 1;
    }
    return 0;
}
