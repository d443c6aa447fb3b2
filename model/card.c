/* The card machine, from the rules of document 01. The words in quotation marks are 01's. */
#include "card.h"

#include <string.h>

/* ------------------------------------------------------------------------------------------------ names */

enum status_word {
    SW_OK = 0x9000,
    SW_MORE = 0x6100,              /* and the number of bytes left; 00 if 256 or more */
    SW_TRIES = 0x63C0,             /* and the tries left, one hex digit */
    SW_WRONG_LENGTH = 0x6700,
    SW_NO_SECURE_MESSAGING = 0x6882,
    SW_NO_CHAINING = 0x6884,
    SW_NOT_ALLOWED = 0x6982,       /* security status not satisfied */
    SW_BLOCKED = 0x6983,
    SW_NOT_NOW = 0x6985,           /* nothing held to answer from */
    SW_WRONG_DATA = 0x6A80,
    SW_NO_FUNCTION = 0x6A81,
    SW_NOT_FOUND = 0x6A82,
    SW_NO_ROOM = 0x6A84,
    SW_WRONG_P1_P2 = 0x6A86,
    SW_NO_REFERENCE = 0x6A88,
    SW_NO_INS = 0x6D00,
    SW_NO_CLA = 0x6E00,
    SW_JOB_FAILED = 0x6F00
};

enum {
    CLA_LAST = 0x00,
    CLA_MORE = 0x10, /* a non-last piece of a chain */
    CLA_SECURE_LAST = 0x0C,
    CLA_SECURE_MORE = 0x1C
};

enum {
    INS_VERIFY = 0x20,
    INS_CHANGE_REFERENCE_DATA = 0x24,
    INS_RESET_RETRY_COUNTER = 0x2C,
    INS_GENERAL_AUTHENTICATE = 0x87,
    INS_SELECT = 0xA4,
    INS_GET_RESPONSE = 0xC0,
    INS_GET_DATA = 0xCB,
    INS_PUT_DATA = 0xDB
};

enum {
    KEY_9A = 0x9A,
    KEY_9B = 0x9B, /* the administrator's */
    KEY_9C = 0x9C,
    KEY_9D = 0x9D,
    KEY_9E = 0x9E
};

enum {
    ALGORITHM_00 = 0x00, /* of 9B; in the store: the key is absent */
    RSA_2048 = 0x07,
    P_256 = 0x11
};

enum {
    MOST_COMMAND_BYTES = 261,
    MOST_LE = 256,
    MOST_87_BYTES = 266,
    REFERENCE_BYTES = 8,   /* a PIN or a PUK */
    CHALLENGE_BYTES = 8,
    DISCOVERY_TAG = 0x7E
};

/* The store: where things are. */
enum {
    PIN_RECORD = 8,
    PUK_RECORD = 18,
    KEY_ALGORITHMS = 28,
    KEY_COUNT = 4,
    RECORD_LIMIT = 0, /* inside a record */
    RECORD_TRIES = 1,
    RECORD_VALUE = 2,
    SLOT_CONTENTS = 2 /* inside a slot, after its 16-bit length */
};

static const uint8_t store_mark[8] = {'O', 'P', 'C', 0, 1, 0, 0, 0}; /* the mark, version 1, three zero bytes */

static const uint8_t key_order[KEY_COUNT] = {KEY_9A, KEY_9C, KEY_9D, KEY_9E};

static const uint8_t full_aid[11] = {0xA0, 0x00, 0x00, 0x03, 0x08, 0x00, 0x00, 0x10, 0x00, 0x01, 0x00};
enum { SHORT_AID_BYTES = 9, AUTHORITY_BYTES = 5 };

enum read_rule { ALWAYS, WITH_PIN };

struct slot {
    uint32_t tag;
    size_t capacity;
    size_t offset;
    enum read_rule contact;
    bool contactless; /* may be read there */
};

static const struct slot slots[] = {
    {0x5FC107, 512, 32, ALWAYS, false},         /* Capability container */
    {0x5FC102, 4096, 546, ALWAYS, true},        /* CHUID */
    {0x5FC105, 2048, 4644, ALWAYS, false},      /* Certificate 9A */
    {0x5FC103, 4096, 6694, WITH_PIN, false},    /* Fingerprints */
    {0x5FC106, 2048, 10792, ALWAYS, false},     /* Security object */
    {0x5FC108, 13312, 12842, WITH_PIN, false},  /* Face */
    {0x5FC101, 2048, 26156, ALWAYS, true},      /* Certificate 9E */
    {0x5FC10A, 2048, 28206, ALWAYS, false},     /* Certificate 9C */
    {0x5FC10B, 2048, 30256, ALWAYS, false},     /* Certificate 9D */
    {0x5FC109, 512, 32306, WITH_PIN, false},    /* Printed information */
    {0x5FC10C, 512, 32820, ALWAYS, false},      /* Key history */
    {DISCOVERY_TAG, 64, 33334, ALWAYS, true},   /* Discovery */
};
enum { SLOT_COUNT = sizeof slots / sizeof slots[0] };

/* ------------------------------------------------------------------------------------------------ small parts */

/* memcpy and memset want a pointer even for no bytes; a host may lend none. */
static void copy(uint8_t *to, const uint8_t *from, size_t length)
{
    if (length > 0)
        memcpy(to, from, length);
}

static void zero(uint8_t *bytes, size_t length)
{
    if (length > 0)
        memset(bytes, 0, length);
}

static bool same(const uint8_t *a, const uint8_t *b, size_t length)
{
    return length == 0 || memcmp(a, b, length) == 0;
}

static size_t read_16(const uint8_t *bytes)
{
    return (size_t)bytes[0] << 8 | bytes[1];
}

static void write_16(uint8_t *bytes, size_t number)
{
    bytes[0] = (uint8_t)(number >> 8);
    bytes[1] = (uint8_t)number;
}

/* "PIN form. Eight bytes: the first six 30 to 39; the seventh and eighth 30 to 39 or FF, and after FF only FF." */
static bool has_pin_form(const uint8_t *bytes, size_t length)
{
    if (length != REFERENCE_BYTES)
        return false;
    bool padding = false;
    for (size_t i = 0; i < REFERENCE_BYTES; i++) {
        bool digit = bytes[i] >= 0x30 && bytes[i] <= 0x39;
        if (bytes[i] == 0xFF && i >= 6)
            padding = true;
        else if (!digit || padding)
            return false;
    }
    return true;
}

/* ------------------------------------------------------------------------------------------------ BER lengths */

/* "One byte to 127, 81 and one byte to 255, 82 and two bytes above. Only the shortest form is taken and written." */
enum { MOST_LENGTH_BYTES = 3 };

static size_t write_length(uint8_t out[MOST_LENGTH_BYTES], size_t length)
{
    if (length < 0x80) {
        out[0] = (uint8_t)length;
        return 1;
    }
    if (length < 0x100) {
        out[0] = 0x81;
        out[1] = (uint8_t)length;
        return 2;
    }
    out[0] = 0x82;
    write_16(out + 1, length);
    return 3;
}

/* A stretch of a command data field, and a reader that is carried over it. */
struct value {
    const uint8_t *bytes;
    size_t length;
};

struct reader {
    const uint8_t *next;
    size_t left;
};

static struct reader reader_of(const uint8_t *bytes, size_t length)
{
    struct reader reader = {bytes, length};
    return reader;
}

/* Reads one data object with this one-byte tag. False: it is not there in the only form that is taken. */
static bool read_object(struct reader *reader, uint8_t tag, struct value *value)
{
    const uint8_t *at = reader->next;
    size_t left = reader->left;
    size_t header, length;

    if (left < 2 || at[0] != tag)
        return false;
    if (at[1] < 0x80) {
        header = 2;
        length = at[1];
    } else if (at[1] == 0x81) {
        if (left < 3 || at[2] < 0x80)
            return false;
        header = 3;
        length = at[2];
    } else if (at[1] == 0x82) {
        if (left < 4 || read_16(at + 2) < 0x100)
            return false;
        header = 4;
        length = read_16(at + 2);
    } else {
        return false;
    }
    if (left - header < length)
        return false;
    value->bytes = at + header;
    value->length = length;
    reader->next = at + header + length;
    reader->left = left - header - length;
    return true;
}

/* ------------------------------------------------------------------------------------------------ the store */

static bool is_record(const uint8_t *record)
{
    uint8_t limit = record[RECORD_LIMIT];
    return limit >= 1 && limit <= 15 && record[RECORD_TRIES] <= limit;
}

static bool is_stored_algorithm(uint8_t algorithm)
{
    return algorithm == ALGORITHM_00 || algorithm == RSA_2048 || algorithm == P_256;
}

/* "A store is well formed if all this holds, the stored PIN has PIN form and no length passes its capacity." */
static bool store_well_formed(struct lent store)
{
    if (store.length != STORE_BYTES)
        return false;
    if (!same(store.bytes, store_mark, sizeof store_mark))
        return false;
    if (!is_record(store.bytes + PIN_RECORD) || !is_record(store.bytes + PUK_RECORD))
        return false;
    if (!has_pin_form(store.bytes + PIN_RECORD + RECORD_VALUE, REFERENCE_BYTES))
        return false;
    for (size_t i = 0; i < KEY_COUNT; i++)
        if (!is_stored_algorithm(store.bytes[KEY_ALGORITHMS + i]))
            return false;
    for (size_t i = 0; i < SLOT_COUNT; i++)
        if (read_16(store.bytes + slots[i].offset) > slots[i].capacity)
            return false;
    return true;
}

void fixed_card(uint8_t store[STORE_BYTES])
{
    static const uint8_t pin[REFERENCE_BYTES] = {'1', '2', '3', '4', '5', '6', 0xFF, 0xFF};
    static const uint8_t puk[REFERENCE_BYTES] = {'1', '2', '3', '4', '5', '6', '7', '8'};

    memset(store, 0, STORE_BYTES);
    memcpy(store, store_mark, sizeof store_mark);
    store[PIN_RECORD + RECORD_LIMIT] = store[PIN_RECORD + RECORD_TRIES] = 3;
    memcpy(store + PIN_RECORD + RECORD_VALUE, pin, sizeof pin);
    store[PUK_RECORD + RECORD_LIMIT] = store[PUK_RECORD + RECORD_TRIES] = 3;
    memcpy(store + PUK_RECORD + RECORD_VALUE, puk, sizeof puk);
}

static const struct slot *find_slot(uint32_t tag)
{
    for (size_t i = 0; i < SLOT_COUNT; i++)
        if (slots[i].tag == tag)
            return &slots[i];
    return NULL;
}

/* ------------------------------------------------------------------------------------------------ the session */

struct session cleared_session(enum interface interface)
{
    struct session session;
    memset(&session, 0, sizeof session);
    session.interface = interface;
    return session;
}

static bool is_job(uint8_t key, uint8_t algorithm)
{
    switch (key) {
    case KEY_9B:
        return algorithm == ALGORITHM_00;
    case KEY_9A:
    case KEY_9C:
    case KEY_9D:
    case KEY_9E:
        return algorithm == RSA_2048 || algorithm == P_256;
    default:
        return false;
    }
}

/* Refusal 2, clause by clause. */
static bool session_impossible(const struct session *session)
{
    const struct chain *chain = &session->chain;
    const struct rest *rest = &session->rest;
    const struct job *job = &session->job;

    if (chain->open && chain->length > WORK_BYTES)
        return true;
    if (rest->held && rest->whole > WORK_BYTES)
        return true;
    if (chain->open && chain->ins == INS_GENERAL_AUTHENTICATE && chain->length > MOST_87_BYTES)
        return true;
    if (rest->held && rest->fetched >= rest->whole)
        return true;
    if (chain->open && rest->held)
        return true;
    if (job->open && (chain->open || rest->held || session->challenge.held))
        return true;
    if (chain->open && chain->ins != INS_GENERAL_AUTHENTICATE && chain->ins != INS_PUT_DATA)
        return true;
    if (job->open && !is_job(job->key, job->algorithm))
        return true;
    if (job->open && (job->expected < 1 || job->expected > MOST_LE))
        return true;
    return false;
}

/* ------------------------------------------------------------------------------------------------ one call at work */

/* What a command or a job result works on: the lent bytes, and the session as it becomes. */
struct card {
    uint8_t *store;
    uint8_t *work;
    uint8_t *response;
    struct session session;
};

/* Refusals 1 to 4, in their order. */
static enum refusal refuse_lent(const struct session *session, struct lent store, struct lent work, struct lent response)
{
    if (!store_well_formed(store))
        return REFUSED_STORE;
    if (session_impossible(session))
        return REFUSED_SESSION;
    if (response.length < LEAST_RESPONSE_BYTES)
        return REFUSED_RESPONSE;
    if (work.length != WORK_BYTES)
        return REFUSED_WORK;
    return NOT_REFUSED;
}

/* "Each returns its number and the same session, and changes no lent byte." */
static struct outcome refused(enum refusal refusal, struct session session)
{
    struct outcome outcome = {REFUSED, refusal, 0, session};
    return outcome;
}

static struct outcome responded(const struct card *card, size_t length)
{
    struct outcome outcome = {RESPONDED, NOT_REFUSED, length, card->session};
    return outcome;
}

/* A response of a status word alone. */
static struct outcome status(const struct card *card, unsigned status_word)
{
    write_16(card->response, status_word);
    return responded(card, 2);
}

/* The status word after data: how much is left of a whole response. */
static unsigned status_of_left(size_t left)
{
    if (left == 0)
        return SW_OK;
    return SW_MORE + (unsigned)(left < 256 ? left : 0);
}

/* "When what it holds is finished or dropped, those bytes become zero; bytes past it are not changed." */
static void drop_rest(struct card *card)
{
    if (card->session.rest.held)
        zero(card->work, card->session.rest.whole);
    memset(&card->session.rest, 0, sizeof card->session.rest);
}

static void drop_chain(struct card *card)
{
    if (card->session.chain.open)
        zero(card->work, card->session.chain.length);
    memset(&card->session.chain, 0, sizeof card->session.chain);
}

static void drop_challenge(struct card *card)
{
    memset(&card->session.challenge, 0, sizeof card->session.challenge);
}

/* A data answer: `head`, then `body`. One that fits Le is never held. "Data answers longer than Le: the first Le bytes, then 61
 * and the number left": then the whole of it is held from the start of the work area. */
static struct outcome answer(struct card *card, size_t le, const uint8_t *head, size_t head_length,
                             const uint8_t *body, size_t body_length)
{
    size_t whole = head_length + body_length;

    if (whole <= le) {
        copy(card->response, head, head_length);
        copy(card->response + head_length, body, body_length);
        write_16(card->response + whole, SW_OK);
        return responded(card, whole + 2);
    }
    copy(card->work, head, head_length);
    copy(card->work + head_length, body, body_length);
    card->session.rest.held = true;
    card->session.rest.whole = (uint16_t)whole;
    card->session.rest.fetched = (uint16_t)le;
    copy(card->response, card->work, le);
    write_16(card->response + le, status_of_left(whole - le));
    return responded(card, le + 2);
}

/* ------------------------------------------------------------------------------------------------ from bytes to a command */

struct command {
    uint8_t cla, ins, p1, p2;
    const uint8_t *data;
    size_t length; /* of the data; 0: no data */
    size_t le;     /* 1 to 256 */
};

static size_t expected_length(uint8_t le)
{
    return le == 0 ? MOST_LE : le; /* "Le 00 or absent means 256." */
}

/* Check 1. False: 6700. */
static bool read_command(const uint8_t *bytes, size_t length, struct command *command)
{
    if (length < 4 || length > MOST_COMMAND_BYTES)
        return false;
    command->cla = bytes[0];
    command->ins = bytes[1];
    command->p1 = bytes[2];
    command->p2 = bytes[3];
    command->data = bytes + 4;
    command->length = 0;
    command->le = MOST_LE;
    if (length == 4)
        return true;
    if (length == 5) {
        command->le = expected_length(bytes[4]);
        return true;
    }
    size_t lc = bytes[4];
    if (lc == 0)
        return false;
    command->data = bytes + 5;
    command->length = lc;
    if (length == 5 + lc)
        return true;
    if (length == 6 + lc) {
        command->le = expected_length(bytes[5 + lc]);
        return true;
    }
    return false;
}

static bool is_ins(uint8_t ins)
{
    switch (ins) {
    case INS_SELECT:
    case INS_GET_DATA:
    case INS_GET_RESPONSE:
    case INS_VERIFY:
    case INS_CHANGE_REFERENCE_DATA:
    case INS_RESET_RETRY_COUNTER:
    case INS_GENERAL_AUTHENTICATE:
    case INS_PUT_DATA:
        return true;
    default:
        return false;
    }
}

static bool may_chain(uint8_t ins)
{
    return ins == INS_GENERAL_AUTHENTICATE || ins == INS_PUT_DATA;
}

static bool contact_only(uint8_t ins)
{
    return ins == INS_VERIFY || ins == INS_CHANGE_REFERENCE_DATA || ins == INS_RESET_RETRY_COUNTER || ins == INS_PUT_DATA;
}

/* Checks 2 to 5. SW_OK: they pass. */
static unsigned check_header(const struct command *command, enum interface interface)
{
    if (command->cla == CLA_SECURE_LAST || command->cla == CLA_SECURE_MORE)
        return SW_NO_SECURE_MESSAGING;
    if (command->cla != CLA_LAST && command->cla != CLA_MORE)
        return SW_NO_CLA;
    if (!is_ins(command->ins))
        return SW_NO_INS;
    if (command->cla == CLA_MORE && !may_chain(command->ins))
        return SW_NO_CHAINING;
    if (interface == CONTACTLESS && contact_only(command->ins))
        return SW_NO_FUNCTION;
    return SW_OK;
}

static bool has_p1_p2(const struct command *command, uint8_t p1, uint8_t p2)
{
    return command->p1 == p1 && command->p2 == p2;
}

/* ------------------------------------------------------------------------------------------------ chains */

/* "An open chain goes on only with a command that passes 1 to 5 and has the same INS, P1 and P2." */
static bool goes_on(const struct chain *chain, const struct command *command)
{
    return chain->open && chain->ins == command->ins && chain->p1 == command->p1 && chain->p2 == command->p2;
}

/* All bytes of the field with this piece. */
static size_t total_with(const struct card *card, const struct command *command)
{
    return (size_t)card->session.chain.length + command->length; /* a chain that is not open has length 0 */
}

/* Holds a piece that passed the rules for each piece. The caller has seen that the total fits the work area. */
static void hold_piece(struct card *card, const struct command *command)
{
    struct chain *chain = &card->session.chain;

    copy(card->work + chain->length, command->data, command->length);
    chain->open = true;
    chain->ins = command->ins;
    chain->p1 = command->p1;
    chain->p2 = command->p2;
    chain->length = (uint16_t)(chain->length + command->length);
}

/* The whole data field at the last piece. "A chain's last piece that passes the rules for each piece is held until it is answered or
 * opens its job; a command in one piece [is] never held." */
static struct reader whole_field(struct card *card, const struct command *command)
{
    if (!card->session.chain.open)
        return reader_of(command->data, command->length);
    hold_piece(card, command);
    return reader_of(card->work, card->session.chain.length);
}

/* ------------------------------------------------------------------------------------------------ SELECT */

static struct outcome select_application(struct card *card, const struct command *command)
{
    /* 61{4F full AID, 79{4F A000000308}} */
    static const uint8_t template_head[] = {0x61, 0x16, 0x4F, 0x0B};
    static const uint8_t template_middle[] = {0x79, 0x07, 0x4F, 0x05};
    uint8_t template[sizeof template_head + sizeof full_aid + sizeof template_middle + AUTHORITY_BYTES];

    if (!has_p1_p2(command, 0x04, 0x00))
        return status(card, SW_WRONG_P1_P2);
    if (command->length != sizeof full_aid && command->length != SHORT_AID_BYTES)
        return status(card, SW_NOT_FOUND);
    if (!same(command->data, full_aid, command->length))
        return status(card, SW_NOT_FOUND);

    uint8_t *to = template;
    copy(to, template_head, sizeof template_head);
    to += sizeof template_head;
    copy(to, full_aid, sizeof full_aid);
    to += sizeof full_aid;
    copy(to, template_middle, sizeof template_middle);
    to += sizeof template_middle;
    copy(to, full_aid, AUTHORITY_BYTES);
    return answer(card, command->le, template, sizeof template, NULL, 0);
}

/* ------------------------------------------------------------------------------------------------ GET DATA */

static bool may_read(const struct session *session, const struct slot *slot)
{
    if (session->interface == CONTACTLESS)
        return slot->contactless;
    return slot->contact == ALWAYS || session->pin;
}

/* The three bytes of a tag, as one number. */
static uint32_t tag_number(const uint8_t *bytes)
{
    return (uint32_t)bytes[0] << 16 | (uint32_t)bytes[1] << 8 | bytes[2];
}

/* The tag that three bytes after `5C 03` ask for. The one-byte tag 7E is not asked for in this way. */
static const struct slot *find_slot_of_three(const uint8_t *bytes)
{
    uint32_t tag = tag_number(bytes);
    return tag == DISCOVERY_TAG ? NULL : find_slot(tag);
}

static struct outcome get_data(struct card *card, const struct command *command)
{
    struct reader reader = reader_of(command->data, command->length);
    struct value list;
    const struct slot *slot;
    uint8_t head[1 + MOST_LENGTH_BYTES];

    if (!has_p1_p2(command, 0x3F, 0xFF))
        return status(card, SW_WRONG_P1_P2);
    if (!read_object(&reader, 0x5C, &list) || reader.left != 0)
        return status(card, SW_WRONG_DATA);
    if (list.length == 3)
        slot = find_slot_of_three(list.bytes);
    else if (list.length == 1 && list.bytes[0] == DISCOVERY_TAG)
        slot = find_slot(DISCOVERY_TAG);
    else
        return status(card, SW_WRONG_DATA);
    if (slot == NULL)
        return status(card, SW_NOT_FOUND);
    if (!may_read(&card->session, slot)) /* before looking for the object */
        return status(card, SW_NOT_ALLOWED);

    size_t length = read_16(card->store + slot->offset);
    if (length == 0)
        return status(card, SW_NOT_FOUND);
    head[0] = slot->tag == DISCOVERY_TAG ? DISCOVERY_TAG : 0x53;
    size_t head_length = 1 + write_length(head + 1, length);
    return answer(card, command->le, head, head_length, card->store + slot->offset + SLOT_CONTENTS, length);
}

/* ------------------------------------------------------------------------------------------------ GET RESPONSE */

/* "Every command drops the rest of a response, except a GET RESPONSE that hands part of it out." */
static bool hands_out(const struct session *session, const struct command *command)
{
    return command->ins == INS_GET_RESPONSE && has_p1_p2(command, 0x00, 0x00) && command->length == 0 && session->rest.held;
}

static struct outcome get_response(struct card *card, const struct command *command)
{
    struct rest *rest = &card->session.rest;

    if (!has_p1_p2(command, 0x00, 0x00))
        return status(card, SW_WRONG_P1_P2);
    if (command->length > 0)
        return status(card, SW_WRONG_LENGTH);
    if (!rest->held)
        return status(card, SW_NOT_NOW);

    size_t left = (size_t)rest->whole - rest->fetched;
    size_t part = left < command->le ? left : command->le;
    copy(card->response, card->work + rest->fetched, part);
    write_16(card->response + part, status_of_left(left - part));
    rest->fetched = (uint16_t)(rest->fetched + part);
    if (part == left)
        drop_rest(card); /* finished */
    return responded(card, part + 2);
}

/* ------------------------------------------------------------------------------------------------ PIN and PUK */

static uint8_t tries_left(const uint8_t *record)
{
    return record[RECORD_TRIES];
}

static void restore_tries(uint8_t *record)
{
    record[RECORD_TRIES] = record[RECORD_LIMIT];
}

static bool equals_reference(const uint8_t *record, const uint8_t *value)
{
    return same(record + RECORD_VALUE, value, REFERENCE_BYTES);
}

static void set_reference(uint8_t *record, const uint8_t *value)
{
    copy(record + RECORD_VALUE, value, REFERENCE_BYTES);
}

static struct outcome status_of_tries(const struct card *card, const uint8_t *record)
{
    return status(card, SW_TRIES + tries_left(record));
}

/* "Unequal: one try fewer, [...] 63CX with the new count." There is a try left. */
static struct outcome charge(const struct card *card, uint8_t *record)
{
    record[RECORD_TRIES]--;
    return status_of_tries(card, record);
}

static struct outcome verify(struct card *card, const struct command *command)
{
    uint8_t *pin = card->store + PIN_RECORD;

    if (command->p1 != 0x00 && command->p1 != 0xFF)
        return status(card, SW_WRONG_P1_P2);
    if (command->p2 != 0x80)
        return status(card, SW_NO_REFERENCE);
    if (command->p1 == 0xFF) {
        if (command->length > 0)
            return status(card, SW_WRONG_DATA);
        card->session.pin = false;
        return status(card, SW_OK);
    }
    if (command->length == 0)
        return card->session.pin ? status(card, SW_OK) : status_of_tries(card, pin);
    if (tries_left(pin) == 0)
        return status(card, SW_BLOCKED);
    if (!has_pin_form(command->data, command->length))
        return status(card, SW_WRONG_DATA);
    if (!equals_reference(pin, command->data)) {
        card->session.pin = false;
        return charge(card, pin);
    }
    restore_tries(pin);
    card->session.pin = true;
    return status(card, SW_OK);
}

static struct outcome change_reference_data(struct card *card, const struct command *command)
{
    bool of_pin = command->p2 == 0x80;
    uint8_t *record = card->store + (of_pin ? PIN_RECORD : PUK_RECORD);

    if (command->p1 != 0x00)
        return status(card, SW_WRONG_P1_P2);
    if (command->p2 != 0x80 && command->p2 != 0x81)
        return status(card, SW_NO_FUNCTION);
    if (tries_left(record) == 0)
        return status(card, SW_BLOCKED);
    if (command->length != 2 * REFERENCE_BYTES)
        return status(card, SW_WRONG_DATA);

    const uint8_t *now = command->data, *new = command->data + REFERENCE_BYTES;
    if (of_pin && !(has_pin_form(now, REFERENCE_BYTES) && has_pin_form(new, REFERENCE_BYTES)))
        return status(card, SW_WRONG_DATA);
    if (!equals_reference(record, now)) {
        if (of_pin) /* "With 81 the PIN status stays, equal or not." */
            card->session.pin = false;
        return charge(card, record);
    }
    set_reference(record, new);
    restore_tries(record);
    if (of_pin)
        card->session.pin = true;
    return status(card, SW_OK);
}

static struct outcome reset_retry_counter(struct card *card, const struct command *command)
{
    uint8_t *pin = card->store + PIN_RECORD, *puk = card->store + PUK_RECORD;

    if (command->p1 != 0x00)
        return status(card, SW_WRONG_P1_P2);
    if (command->p2 != 0x80)
        return status(card, SW_NO_FUNCTION);
    if (tries_left(puk) == 0)
        return status(card, SW_BLOCKED);
    if (command->length != 2 * REFERENCE_BYTES)
        return status(card, SW_WRONG_DATA);

    const uint8_t *given_puk = command->data, *new_pin = command->data + REFERENCE_BYTES;
    if (!has_pin_form(new_pin, REFERENCE_BYTES))
        return status(card, SW_WRONG_DATA);
    if (!equals_reference(puk, given_puk)) {
        card->session.pin = false;
        return charge(card, puk);
    }
    set_reference(pin, new_pin);
    restore_tries(pin);
    restore_tries(puk);
    return status(card, SW_OK); /* "PIN status unchanged" */
}

/* ------------------------------------------------------------------------------------------------ GENERAL AUTHENTICATE */

/* The rules for each piece. SW_OK: they pass. */
static unsigned check_87_piece(const struct card *card, const struct command *command)
{
    uint8_t key = command->p2;

    if (key < KEY_9A || key > KEY_9E)
        return SW_WRONG_P1_P2;
    if (key == KEY_9B) {
        if (command->p1 != ALGORITHM_00)
            return SW_WRONG_P1_P2;
    } else {
        uint8_t algorithm = 0;
        for (size_t i = 0; i < KEY_COUNT; i++)
            if (key_order[i] == key)
                algorithm = card->store[KEY_ALGORITHMS + i];
        if (algorithm == 0 || command->p1 != algorithm) /* 0: the key is absent */
            return SW_WRONG_P1_P2;
    }
    if (card->session.interface == CONTACTLESS && key != KEY_9E)
        return SW_NOT_ALLOWED;
    if ((key == KEY_9A || key == KEY_9C || key == KEY_9D) && !card->session.pin)
        return SW_NOT_ALLOWED;
    if (total_with(card, command) > MOST_87_BYTES)
        return SW_WRONG_DATA;
    return SW_OK;
}

/* A job's data go to the start of the response buffer; the job keeps its key, its algorithm and Le. */
static struct outcome open_job(struct card *card, const struct command *command, struct value data)
{
    copy(card->response, data.bytes, data.length);
    card->session.job.open = true;
    card->session.job.key = command->p2;
    card->session.job.algorithm = command->p1;
    card->session.job.expected = (uint16_t)command->le;

    struct outcome outcome = {JOB_OPENED, NOT_REFUSED, data.length, card->session};
    return outcome;
}

/* The last piece for 9B: a request for a challenge, or the reply to the one that was held when the call started. */
static struct outcome authenticate_administrator(struct card *card, const struct command *command, struct reader field,
                                                 const struct challenge *challenge)
{
    static const struct value nothing = {NULL, 0};
    struct value template, object;

    if (!read_object(&field, 0x7C, &template) || field.left != 0)
        return status(card, SW_WRONG_DATA);

    struct reader inner = reader_of(template.bytes, template.length);
    if (read_object(&inner, 0x81, &object) && object.length == 0 && inner.left == 0)
        return open_job(card, command, nothing);

    inner = reader_of(template.bytes, template.length);
    if (!read_object(&inner, 0x82, &object) || object.length != REPLY_BYTES || inner.left != 0)
        return status(card, SW_WRONG_DATA);
    if (!challenge->held)
        return status(card, SW_NOT_NOW);
    card->session.administrator = same(object.bytes, challenge->reply, REPLY_BYTES);
    return status(card, card->session.administrator ? SW_OK : SW_NOT_ALLOWED);
}

/* The last piece for the other keys: 7C{82 empty, 81 data}; for 9D with 11 7C{82 empty, 85 data}. */
static struct outcome use_key(struct card *card, const struct command *command, struct reader field)
{
    bool agreement = command->p2 == KEY_9D && command->p1 == P_256;
    struct value template, empty, data;

    if (!read_object(&field, 0x7C, &template) || field.left != 0)
        return status(card, SW_WRONG_DATA);

    struct reader inner = reader_of(template.bytes, template.length);
    if (!read_object(&inner, 0x82, &empty) || empty.length != 0)
        return status(card, SW_WRONG_DATA);
    if (!read_object(&inner, agreement ? 0x85 : 0x81, &data) || inner.left != 0)
        return status(card, SW_WRONG_DATA);
    if (agreement) {
        if (data.length != 65 || data.bytes[0] != 0x04)
            return status(card, SW_WRONG_DATA);
    } else if (data.length != (command->p1 == RSA_2048 ? 256u : 32u)) {
        return status(card, SW_WRONG_DATA);
    }
    return open_job(card, command, data);
}

static struct outcome general_authenticate(struct card *card, const struct command *command, const struct challenge *challenge)
{
    unsigned word = check_87_piece(card, command);
    if (word != SW_OK) {
        drop_chain(card); /* the piece itself is not held */
        return status(card, word);
    }
    if (command->cla == CLA_MORE) {
        hold_piece(card, command);
        return status(card, SW_OK);
    }

    struct reader field = whole_field(card, command);
    struct outcome outcome = command->p2 == KEY_9B ? authenticate_administrator(card, command, field, challenge)
                                                   : use_key(card, command, field);
    drop_chain(card);
    outcome.session = card->session;
    return outcome;
}

/* ------------------------------------------------------------------------------------------------ PUT DATA */

static unsigned check_db_piece(const struct card *card, const struct command *command)
{
    if (!has_p1_p2(command, 0x3F, 0xFF))
        return SW_WRONG_P1_P2;
    if (!card->session.administrator)
        return SW_NOT_ALLOWED;
    if (total_with(card, command) > WORK_BYTES)
        return SW_NO_ROOM;
    return SW_OK;
}

/* "5C 03 tag, 53, length, value, and no more; or 7E, length, value." */
static unsigned store_object(struct card *card, struct reader field)
{
    struct value list, value;
    const struct slot *slot;

    if (field.left > 0 && field.next[0] == DISCOVERY_TAG) {
        if (!read_object(&field, DISCOVERY_TAG, &value) || field.left != 0)
            return SW_WRONG_DATA;
        slot = find_slot(DISCOVERY_TAG);
    } else {
        if (!read_object(&field, 0x5C, &list) || list.length != 3)
            return SW_WRONG_DATA;
        if (!read_object(&field, 0x53, &value) || field.left != 0)
            return SW_WRONG_DATA;
        slot = find_slot_of_three(list.bytes);
    }
    if (slot == NULL)
        return SW_NOT_FOUND;
    if (value.length > slot->capacity)
        return SW_NO_ROOM;

    /* "Else the slot takes the value, the bytes after it in the slot become zero." */
    uint8_t *to = card->store + slot->offset;
    write_16(to, value.length);
    copy(to + SLOT_CONTENTS, value.bytes, value.length);
    zero(to + SLOT_CONTENTS + value.length, slot->capacity - value.length);
    return SW_OK;
}

static struct outcome put_data(struct card *card, const struct command *command)
{
    unsigned word = check_db_piece(card, command);
    if (word != SW_OK) {
        drop_chain(card); /* the piece itself is not held */
        return status(card, word);
    }
    if (command->cla == CLA_MORE) {
        hold_piece(card, command);
        return status(card, SW_OK);
    }
    word = store_object(card, whole_field(card, command));
    drop_chain(card);
    return status(card, word);
}

/* ------------------------------------------------------------------------------------------------ the three calls */

struct outcome power_on(enum interface interface, struct lent store, struct lent work)
{
    struct session session = cleared_session(interface);

    if (!store_well_formed(store))
        return refused(REFUSED_STORE, session);
    if (work.length != WORK_BYTES)
        return refused(REFUSED_WORK, session);
    zero(work.bytes, work.length);

    struct outcome outcome = {POWERED_ON, NOT_REFUSED, 0, session};
    return outcome;
}

struct outcome command(struct session session, struct lent store, struct lent work, struct lent response,
                       const uint8_t *bytes, size_t length)
{
    enum refusal refusal = refuse_lent(&session, store, work, response);
    if (refusal != NOT_REFUSED)
        return refused(refusal, session);
    if (session.job.open)
        return refused(REFUSED_JOB_OPEN, session);

    struct card card = {store.bytes, work.bytes, response.bytes, session};

    /* "Every command, also one refused at check 1, drops a held challenge (87 may compare it first)." */
    struct challenge challenge = session.challenge;
    drop_challenge(&card);

    /* Checks 1 to 5. */
    struct command parts;
    bool readable = read_command(bytes, length, &parts);
    unsigned word = readable ? check_header(&parts, session.interface) : SW_WRONG_LENGTH;
    bool passes = word == SW_OK;

    if (!(passes && hands_out(&session, &parts)))
        drop_rest(&card);
    if (!(passes && goes_on(&session.chain, &parts)))
        drop_chain(&card); /* "any other drops it and is then treated as if there had been none" */
    if (!passes)
        return status(&card, word);

    /* Check 6: the command's own rules. */
    switch (parts.ins) {
    case INS_SELECT:
        return select_application(&card, &parts);
    case INS_GET_DATA:
        return get_data(&card, &parts);
    case INS_GET_RESPONSE:
        return get_response(&card, &parts);
    case INS_VERIFY:
        return verify(&card, &parts);
    case INS_CHANGE_REFERENCE_DATA:
        return change_reference_data(&card, &parts);
    case INS_RESET_RETRY_COUNTER:
        return reset_retry_counter(&card, &parts);
    case INS_GENERAL_AUTHENTICATE:
        return general_authenticate(&card, &parts, &challenge);
    default: /* INS_PUT_DATA: check 3 let no other through */
        return put_data(&card, &parts);
    }
}

/* "The result is 256 bytes (07), 1 to 72 (11) or 32 (9D with 11)"; for 9B 16 bytes, challenge and expected reply. */
static bool is_result_length(const struct job *job, size_t length)
{
    if (job->key == KEY_9B)
        return length == CHALLENGE_BYTES + REPLY_BYTES;
    if (job->algorithm == RSA_2048)
        return length == 256;
    if (job->key == KEY_9D)
        return length == 32;
    return length >= 1 && length <= 72;
}

struct outcome job_result(struct session session, struct lent store, struct lent work, struct lent response,
                          bool failed, const uint8_t *bytes, size_t length)
{
    enum refusal refusal = refuse_lent(&session, store, work, response);
    if (refusal != NOT_REFUSED)
        return refused(refusal, session);
    if (!session.job.open)
        return refused(REFUSED_NO_JOB, session);
    if (!failed && !is_result_length(&session.job, length))
        return refused(REFUSED_RESULT_LENGTH, session);

    struct card card = {store.bytes, work.bytes, response.bytes, session};
    struct job job = session.job;
    memset(&card.session.job, 0, sizeof card.session.job);

    if (failed)
        return status(&card, SW_JOB_FAILED);

    if (job.key == KEY_9B) {
        static const uint8_t challenge_head[] = {0x7C, 0x0A, 0x81, 0x08};
        card.session.challenge.held = true;
        copy(card.session.challenge.reply, bytes + CHALLENGE_BYTES, REPLY_BYTES);
        return answer(&card, job.expected, challenge_head, sizeof challenge_head, bytes, CHALLENGE_BYTES);
    }

    /* 7C{82 result} */
    uint8_t inner[1 + MOST_LENGTH_BYTES], head[sizeof inner + 1 + MOST_LENGTH_BYTES];
    inner[0] = 0x82;
    size_t inner_length = 1 + write_length(inner + 1, length);
    head[0] = 0x7C;
    size_t head_length = 1 + write_length(head + 1, inner_length + length);
    copy(head + head_length, inner, inner_length);
    head_length += inner_length;
    return answer(&card, job.expected, head, head_length, bytes, length);
}
