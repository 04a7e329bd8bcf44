/* The gate's messages, for C: numbers and byte ranges only.
 *
 * Each call answers 0, or the number of a refusal. A refused call fills *refusal and leaves everything else as it was;
 * a call that is not refused leaves *refusal as it was. No call allocates, and none keeps a pointer.
 *
 * The caller owes: no pointer is NULL, also that of a range of no bytes; each is valid for its length; and what is
 * written to (out, written, refusal) overlaps neither each other nor a range that is read.
 */
#ifndef GATE_H
#define GATE_H

#include <stddef.h>
#include <stdint.h>

#ifdef __cplusplus
extern "C" {
#endif

/* A part of the message: where it starts, from 0, and how long it is. */
typedef struct {
    size_t start;
    size_t len;
} GateRange;

enum { GATE_STATEMENT = 1, GATE_STRIKE = 2, GATE_REQUEST = 3 };

/* A message that was read. Fields that its kind does not have are 0. */
typedef struct {
    uint32_t kind;
    uint32_t serial;    /* statement, strike */
    uint32_t from;      /* statement */
    uint32_t until;     /* statement */
    uint32_t number;    /* request */
    uint32_t object;    /* request */
    uint32_t operation; /* request */
    GateRange sayer;    /* statement, request */
    GateRange left;     /* statement */
    GateRange right;    /* statement */
} GateMessage;

enum { GATE_READING = 1, GATE_SEAL = 2, GATE_GUARD = 3, GATE_JOURNAL = 4 };

/* Why a call was refused, and the part of which input: the message or the first term is input 1, later terms 2 and 3.
 * Input, start and len are 0 where no input is meant. */
typedef struct {
    uint32_t layer;
    uint32_t number;
    uint32_t input;
    size_t start;
    size_t len;
} GateRefusal;

/* Reads a message of any kind. */
uint32_t gate_read(const uint8_t *bytes, size_t bytes_len, GateMessage *out, GateRefusal *refusal);

/* Each writes a message to the front of the buffer and its length to *written; later bytes of the buffer stay. */
uint32_t gate_write_statement(uint32_t serial, uint32_t from, uint32_t until,
                              const uint8_t *sayer, size_t sayer_len,
                              const uint8_t *left, size_t left_len,
                              const uint8_t *right, size_t right_len,
                              uint8_t *out, size_t out_len, size_t *written, GateRefusal *refusal);
uint32_t gate_write_strike(uint32_t serial, uint8_t *out, size_t out_len, size_t *written, GateRefusal *refusal);
uint32_t gate_write_request(uint32_t number, uint16_t object, uint8_t operation,
                            const uint8_t *sayer, size_t sayer_len,
                            uint8_t *out, size_t out_len, size_t *written, GateRefusal *refusal);

#ifdef __cplusplus
}
#endif

#endif
