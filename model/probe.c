/* `probe`: every call of the card, by lines of text. It holds a store, a work area, a response buffer and a session. */
#include <inttypes.h>
#include <stdio.h>
#include <stdlib.h>
#include <string.h>

#include "card.h"
#include "line.h"

enum {
    STORE_LIMIT = 40000,
    WORK_LIMIT = 20000,
    RESPONSE_LIMIT = 1024,
    SESSION_BYTES = 64
};

/* A buffer with a name, lent as it is, and the most bytes that it may have. Its memory has exactly the lent size, so that a memory
 * checker sees every step past it. */
struct held {
    const char *name;
    struct lent lent;
    size_t limit;
};

static struct held store = {"store", {NULL, 0}, STORE_LIMIT};
static struct held work = {"work", {NULL, 0}, WORK_LIMIT};
static struct held response = {"resp", {NULL, 0}, RESPONSE_LIMIT};
static struct held *const all_held[] = {&store, &work, &response};
enum { HELD_COUNT = sizeof all_held / sizeof all_held[0] };

static struct session session;

static struct line line;
static uint8_t given[KEPT_BYTES / 2]; /* the bytes that a line gives in hex */

/* Memory of exactly this size (of one byte for none: there is always a pointer). */
static uint8_t *exactly(size_t length)
{
    uint8_t *bytes = malloc(length > 0 ? length : 1);
    if (bytes == NULL) {
        fputs("probe: no memory left\n", stderr);
        exit(2);
    }
    return bytes;
}

static void hold(struct held *held, const uint8_t *bytes, size_t length)
{
    free(held->lent.bytes);
    held->lent.bytes = exactly(length);
    held->lent.length = length;
    memcpy(held->lent.bytes, bytes, length);
}

/* ------------------------------------------------------------------------------------------------ the session as 64 bytes */

static uint16_t read_16(const uint8_t *bytes)
{
    return (uint16_t)(bytes[0] << 8 | bytes[1]);
}

static void write_16(uint8_t *bytes, uint16_t number)
{
    bytes[0] = (uint8_t)(number >> 8);
    bytes[1] = (uint8_t)number;
}

static void session_to_bytes(const struct session *from, uint8_t out[SESSION_BYTES])
{
    memset(out, 0, SESSION_BYTES);
    out[0] = from->interface == CONTACTLESS;
    out[1] = from->pin;
    out[2] = from->administrator;
    if (from->chain.open) {
        out[3] = 1;
        out[4] = from->chain.ins;
        out[5] = from->chain.p1;
        out[6] = from->chain.p2;
        write_16(out + 7, from->chain.length);
    }
    if (from->rest.held) {
        out[9] = 1;
        write_16(out + 10, from->rest.whole);
        write_16(out + 12, from->rest.fetched);
    }
    if (from->challenge.held) {
        out[14] = 1;
        memcpy(out + 15, from->challenge.reply, REPLY_BYTES);
    }
    if (from->job.open) {
        out[23] = 1;
        out[24] = from->job.key;
        out[25] = from->job.algorithm;
        write_16(out + 26, from->job.expected);
    }
}

/* False: the bytes are no session (a mark that is neither 0 nor 1, or a byte of a thing that is not there and is not 00). */
static bool session_from_bytes(const uint8_t bytes[SESSION_BYTES], struct session *out)
{
    uint8_t again[SESSION_BYTES];

    *out = cleared_session(bytes[0] ? CONTACTLESS : CONTACT);
    out->pin = bytes[1];
    out->administrator = bytes[2];
    if (bytes[3]) {
        out->chain.open = true;
        out->chain.ins = bytes[4];
        out->chain.p1 = bytes[5];
        out->chain.p2 = bytes[6];
        out->chain.length = read_16(bytes + 7);
    }
    if (bytes[9]) {
        out->rest.held = true;
        out->rest.whole = read_16(bytes + 10);
        out->rest.fetched = read_16(bytes + 12);
    }
    if (bytes[14]) {
        out->challenge.held = true;
        memcpy(out->challenge.reply, bytes + 15, REPLY_BYTES);
    }
    if (bytes[23]) {
        out->job.open = true;
        out->job.key = bytes[24];
        out->job.algorithm = bytes[25];
        out->job.expected = read_16(bytes + 26);
    }
    /* Each session has one form: bytes that are no session do not come back the same. */
    session_to_bytes(out, again);
    return memcmp(bytes, again, SESSION_BYTES) == 0;
}

/* ------------------------------------------------------------------------------------------------ output */

static void write_sum(struct lent buffer)
{
    uint64_t sum = buffer.length;

    for (size_t i = 0; i < buffer.length; i++)
        sum = (sum * 257 + buffer.bytes[i] + 1) % UINT64_C(4294967291);
    printf(" %" PRIu64, sum);
}

static void write_outcome(const struct outcome *outcome)
{
    uint8_t bytes[SESSION_BYTES];

    switch (outcome->kind) {
    case RESPONDED:
        fputs("R ", stdout);
        write_hex(response.lent.bytes, outcome->length);
        break;
    case JOB_OPENED:
        fputs("J ", stdout);
        write_hex(&outcome->session.job.key, 1);
        write_hex(&outcome->session.job.algorithm, 1);
        putchar(':');
        write_hex(response.lent.bytes, outcome->length);
        break;
    case REFUSED:
        printf("N %d", (int)outcome->refusal);
        break;
    case POWERED_ON:
        fputs("P -", stdout);
        break;
    }
    putchar(' ');
    session_to_bytes(&outcome->session, bytes);
    write_hex(bytes, SESSION_BYTES);
    write_sum(store.lent);
    write_sum(work.lent);
    write_sum(response.lent);
}

/* ------------------------------------------------------------------------------------------------ input */

/* If the line starts with this word and one space: steps over both. */
static bool take_word(const char *word, size_t *at)
{
    size_t length = strlen(word);

    if (line.kept_length - *at < length + 1)
        return false;
    if (memcmp(line.kept + *at, word, length) != 0 || line.kept[*at + length] != ' ')
        return false;
    *at += length + 1;
    return true;
}

/* Decimal digits (at least one) and one space: steps over both. A number past every buffer stays past every buffer. */
static bool take_number(size_t *at, size_t *number)
{
    size_t start = *at, value = 0;

    while (*at < line.kept_length && line.kept[*at] >= '0' && line.kept[*at] <= '9') {
        value = value * 10 + (size_t)(line.kept[*at] - '0');
        if (value > STORE_LIMIT)
            value = STORE_LIMIT + 1;
        ++*at;
    }
    if (*at == start || *at == line.kept_length || line.kept[*at] != ' ')
        return false;
    ++*at;
    *number = value;
    return true;
}

/* The line's last word: hex bytes, maybe none. */
static bool take_hex(size_t at, size_t *length)
{
    if (line.cut)
        return false;
    *length = (line.kept_length - at) / 2;
    return read_hex(line.kept + at, line.kept_length - at, given);
}

/* As above, for the two verbs that have no limit. Of a line that is cut the first bytes are taken: more than any command or result
 * may have, so that the card's answer is the same. */
static bool take_long_hex(size_t at, size_t *length)
{
    size_t digits = line.kept_length - at;

    if (!line.cut)
        return take_hex(at, length);
    if (!line.tail_hex || line.odd != (at % 2 != 0))
        return false;
    if (digits % 2 != 0 && hex_value(line.kept[line.kept_length - 1]) < 0)
        return false;
    *length = digits / 2;
    return read_hex(line.kept + at, digits - digits % 2, given);
}

/* Each of the following does one kind of line. False: it is not such a line, and nothing is changed. */

static bool do_buffer(void)
{
    for (size_t i = 0; i < HELD_COUNT; i++) {
        struct held *held = all_held[i];
        size_t at = 0, length;
        if (!take_word(held->name, &at))
            continue;
        if (!take_hex(at, &length) || length > held->limit)
            return false;
        hold(held, given, length);
        return true;
    }
    return false;
}

static bool do_put(void)
{
    size_t start = 0;

    if (!take_word("put", &start))
        return false;
    for (size_t i = 0; i < HELD_COUNT; i++) {
        struct held *held = all_held[i];
        size_t at = start, offset, length;
        if (!take_word(held->name, &at))
            continue;
        if (!take_number(&at, &offset) || !take_hex(at, &length))
            return false;
        if (offset > held->lent.length || held->lent.length - offset < length)
            return false;
        memcpy(held->lent.bytes + offset, given, length);
        return true;
    }
    return false;
}

static bool do_session(void)
{
    struct session next;
    size_t at = 0, length;

    if (!take_word("session", &at) || !take_hex(at, &length) || length != SESSION_BYTES)
        return false;
    if (!session_from_bytes(given, &next))
        return false;
    session = next;
    return true;
}

static bool do_call(struct outcome *outcome)
{
    size_t at = 0, length;

    if (take_word("on", &at)) {
        if (line.kept_length != at + 1 || (line.kept[at] != '0' && line.kept[at] != '1'))
            return false;
        *outcome = power_on(line.kept[at] == '1' ? CONTACTLESS : CONTACT, store.lent, work.lent);
        return true;
    }
    if (take_word("cmd", &at)) {
        if (!take_long_hex(at, &length))
            return false;
        uint8_t *bytes = exactly(length);
        memcpy(bytes, given, length);
        *outcome = command(session, store.lent, work.lent, response.lent, bytes, length);
        free(bytes);
        return true;
    }
    if (take_word("done", &at)) {
        if (!take_long_hex(at, &length))
            return false;
        uint8_t *bytes = exactly(length);
        memcpy(bytes, given, length);
        *outcome = job_result(session, store.lent, work.lent, response.lent, false, bytes, length);
        free(bytes);
        return true;
    }
    if (line.kept_length == 4 && memcmp(line.kept, "fail", 4) == 0) {
        *outcome = job_result(session, store.lent, work.lent, response.lent, true, NULL, 0);
        return true;
    }
    return false;
}

int main(void)
{
    static const uint8_t zeros[WORK_BYTES];
    static uint8_t first_store[STORE_BYTES];
    struct outcome outcome;

    fixed_card(first_store);
    hold(&store, first_store, STORE_BYTES);
    hold(&work, zeros, WORK_BYTES);
    hold(&response, zeros, LEAST_RESPONSE_BYTES);
    session = cleared_session(CONTACT);
    while (read_line(&line)) {
        if (do_buffer() || do_put() || do_session()) {
            fputs("ok", stdout);
        } else if (do_call(&outcome)) {
            session = outcome.session;
            write_outcome(&outcome);
        } else {
            fputs("bad line", stdout);
        }
        if (!end_line())
            return 1;
    }
    return 0;
}
