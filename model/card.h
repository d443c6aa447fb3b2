/* The card machine: a second reading of the rules (document 01), in plain C11.
 *
 * The host lends three buffers and passes the session by value. There are three calls: power-on, command, job result.
 * Nothing is kept between calls but what the host holds.
 */
#ifndef MODEL_CARD_H
#define MODEL_CARD_H

#include <stdbool.h>
#include <stddef.h>
#include <stdint.h>

enum {
    STORE_BYTES = 33400,        /* the store: exactly */
    WORK_BYTES = 13321,         /* the work area: exactly; also the most a PUT DATA chain or a whole response may be */
    LEAST_RESPONSE_BYTES = 258, /* the response buffer: at least */
    REPLY_BYTES = 8             /* the expected reply to a challenge */
};

/* A buffer that the host lends, of any size. */
struct lent {
    uint8_t *bytes;
    size_t length;
};

enum interface { CONTACT = 0, CONTACTLESS = 1 };

/* The session. The fields of a thing that is not there are zero, so that a session has one form. */
struct chain {
    bool open;
    uint8_t ins, p1, p2;
    uint16_t length; /* bytes of the chain held from the start of the work area */
};

struct rest {
    bool held;
    uint16_t whole;   /* the whole response's length, held from the start of the work area */
    uint16_t fetched; /* how much of it is fetched */
};

struct challenge {
    bool held;
    uint8_t reply[REPLY_BYTES]; /* the expected reply */
};

struct job {
    bool open;
    uint8_t key, algorithm;
    uint16_t expected; /* the expected length (Le) of its command */
};

struct session {
    enum interface interface;
    bool pin;           /* PIN status */
    bool administrator; /* administrator status */
    struct chain chain;
    struct rest rest;
    struct challenge challenge;
    struct job job;
};

/* The calls the host may not make, by their numbers. */
enum refusal {
    NOT_REFUSED = 0,
    REFUSED_STORE = 1,
    REFUSED_SESSION = 2,
    REFUSED_RESPONSE = 3,
    REFUSED_WORK = 4,
    REFUSED_JOB_OPEN = 5,
    REFUSED_NO_JOB = 6,
    REFUSED_RESULT_LENGTH = 7
};

/* What a call comes to. */
enum kind {
    POWERED_ON, /* power-on was accepted */
    RESPONDED,  /* the response is the first `length` bytes of the response buffer */
    JOB_OPENED, /* the job's data are the first `length` bytes of the response buffer; key and algorithm stand in session.job */
    REFUSED     /* no lent byte is changed */
};

struct outcome {
    enum kind kind;
    enum refusal refusal;
    size_t length;
    struct session session;
};

/* The session right after power-on: the interface, and nothing else. */
struct session cleared_session(enum interface interface);

/* The fixed card of 01's program: PIN 123456, PUK 12345678, limits 3, all tries left, no keys or objects. */
void fixed_card(uint8_t store[STORE_BYTES]);

struct outcome power_on(enum interface interface, struct lent store, struct lent work);

struct outcome command(struct session session, struct lent store, struct lent work, struct lent response,
                       const uint8_t *bytes, size_t length);

/* A job reported as failed has no result: `bytes` and `length` are then not looked at. */
struct outcome job_result(struct session session, struct lent store, struct lent work, struct lent response,
                          bool failed, const uint8_t *bytes, size_t length);

#endif
