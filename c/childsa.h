/* What C may call: a message about a Child SA read from octets, and the loser of a collision.
 *
 * The functions are proved in Rattle (crates/exported) to answer what is written here, for any octets whatever. The proof
 * takes for granted what a caller owes, and nothing checks it:
 *
 *  - Each pointer is not null, not even before 0 octets.
 *  - A pointer with a length points to as many octets that may be read, each of them initialised, and fewer than 2^63.
 *    Octets behind them are not looked at.
 *  - `out` points to a whole struct childsa_message that may be read and written, aligned as its type wants, and
 *    initialised, with whatever values.
 *  - `out` overlaps none of the octets. Rows of octets may overlap one another.
 *  - While a call runs, nobody else writes what its pointers point to, and nobody else reads or writes *out.
 *  - The program runs on an x86-64-v2 processor and has a `memcpy` that does what C says of it.
 *
 * Nothing else is asked for: every call returns, allocates nothing, keeps no pointer and has no state, so calls may run on
 * several threads at once, and in a signal handler.
 */
#ifndef CHILDSA_H
#define CHILDSA_H

#include <stddef.h>
#include <stdint.h>

/* What a message is, as its `kind`. What else of the struct each has stands behind it; the rest is 0. */
enum childsa_kind {
    CHILDSA_CREATE = 1,  /* a request for a new SA: spi, nonce */
    CHILDSA_REKEY = 2,   /* a request for one in the place of another: spi, rekeyed, nonce */
    CHILDSA_DELETE = 3,  /* a request for the end of one: spi */
    CHILDSA_EMPTY = 4,   /* a request for nothing but an answer */
    CHILDSA_NEW = 5,     /* a response with a new SA: spi, nonce */
    CHILDSA_FAILED = 6,  /* a response with none: failure, and spi where it is 44 */
    CHILDSA_DELETED = 7, /* a response that one is deleted: spi */
    CHILDSA_NOTHING = 8  /* a response with nothing in it */
};

/* An end: A is the original initiator of the IKE SA, B the original responder. */
enum childsa_side { CHILDSA_A = 0, CHILDSA_B = 1 };

/* Why there is no new SA, as `failure`: the type of the notification. */
enum childsa_failure {
    CHILDSA_NO_PROPOSAL_CHOSEN = 14,
    CHILDSA_NO_ADDITIONAL_SAS = 35,
    CHILDSA_TEMPORARY_FAILURE = 43,
    CHILDSA_CHILD_SA_NOT_FOUND = 44 /* spi is the one that is not found */
};

/* Why octets are no message: the first check that fails. */
enum childsa_decode_refusal {
    CHILDSA_LENGTH = 40,      /* not 28 to 160 octets, or not as many as the header says */
    CHILDSA_HEADER = 41,      /* another version, exchange type or set of flags */
    CHILDSA_CHAIN = 42,       /* no chain of payloads, or not in an order that such a message has */
    CHILDSA_PAYLOAD = 43,     /* a payload that such a message has not there */
    CHILDSA_NONCE_LENGTH = 44 /* a nonce that has not 16 to 32 octets */
};

/* What `childsa_loser` answers where it names no side: a nonce has not 16 to 32 octets. */
enum { CHILDSA_WRONG_NONCE = 20 };

struct childsa_message {
    uint64_t initiator; /* the IKE SPI of A */
    uint64_t responder; /* the IKE SPI of B */
    uint32_t id;        /* the Message ID */
    uint32_t spi;       /* the sender's SPI of a new SA, or the one that is deleted or not found */
    uint32_t rekeyed;   /* the sender's SPI of the SA to be rekeyed */
    uint32_t nonce_len; /* 16 to 32, or 0 */
    uint16_t failure;
    uint8_t sender; /* an enum childsa_side */
    uint8_t kind;   /* an enum childsa_kind */
    uint8_t nonce[32]; /* nonce_len octets, and zeros behind them */
};

/* Reads a message: 0, and *out is what it says; or an enum childsa_decode_refusal, and *out is as it was. */
uint16_t childsa_decode(const uint8_t *octets, size_t len, struct childsa_message *out);

/* Whose new SA loses, where A and B rekeyed one SA at once with these nonces: CHILDSA_A or CHILDSA_B, the side whose
 * exchange has the lowest of the four, and A where both have it. CHILDSA_WRONG_NONCE where one of them is no nonce. */
uint16_t childsa_loser(const uint8_t *initiator_of_a, size_t initiator_of_a_len,
                       const uint8_t *responder_of_a, size_t responder_of_a_len,
                       const uint8_t *initiator_of_b, size_t initiator_of_b_len,
                       const uint8_t *responder_of_b, size_t responder_of_b_len);

#endif
