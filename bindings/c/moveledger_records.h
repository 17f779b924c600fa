/* moveledger_records.h: puts records together, as moveledger_apply takes them (docs/FORMATS.md, "Records"). Nothing here says whether a record
 * will be taken: the ledger does.
 *
 * Records are appended in memory of yours, which a `moveledger_records` leads to: begin with {bytes, room, 0}. `length` goes on where the
 * room is used up, and nothing is written beyond it: so where `length` is above `room` at the end, the bytes are a beginning, not to be
 * applied, and all is to be put together again with room for `length` bytes. With {NULL, 0, 0} the length alone is found. */
#ifndef MOVELEDGER_RECORDS_H
#define MOVELEDGER_RECORDS_H

#include "moveledger.h"

#ifdef __cplusplus
extern "C" {
#endif

typedef struct moveledger_records {
    uint8_t *bytes;
    size_t room;
    size_t length;
} moveledger_records;

/* A module with its certificate's bytes. */
typedef struct moveledger_offer {
    const uint8_t *module;
    size_t length;
    const uint8_t *certificate;
    size_t certificate_length;
} moveledger_offer;

/* A value that is handed to a function: the functions below make it. */
typedef struct moveledger_argument {
    uint8_t token;
    uint8_t length;
    uint8_t bytes[16];
} moveledger_argument;

/* A call of an entry function: who calls, in 16 bytes, the address and the identifier of the module, the function's identifier, how many
 * steps it may take, and what it is handed behind a signer. Identifiers end with a zero byte. */
typedef struct moveledger_call {
    const uint8_t *sender;
    const uint8_t *address;
    const char *module;
    const char *function;
    uint64_t budget;
    const moveledger_argument *arguments;
    size_t count;
} moveledger_call;

static inline void moveledger_put_bytes(moveledger_records *to, const void *bytes, size_t length) {
    const size_t left = to->length < to->room ? to->room - to->length : 0;
    if (length && length <= left) memcpy(to->bytes + to->length, bytes, length);
    /* What has no room ends the writing: nothing behind it is written. */
    if (length > left) to->room = to->length < to->room ? to->length : to->room;
    to->length = length <= SIZE_MAX - to->length ? to->length + length : SIZE_MAX;
}
/* A number in seven bits a byte, the lowest first (ULEB128). */
static inline void moveledger_put_number(moveledger_records *to, uint64_t number) {
    uint8_t bytes[10];
    size_t length = 0;
    for (; number > 127; number >>= 7) bytes[length++] = (uint8_t)(number | 128);
    bytes[length++] = (uint8_t)number;
    moveledger_put_bytes(to, bytes, length);
}
/* A length, and so many bytes. */
static inline void moveledger_put_sized(moveledger_records *to, const void *bytes, size_t length) {
    moveledger_put_number(to, length);
    moveledger_put_bytes(to, bytes, length);
}
static inline void moveledger_put_offers(moveledger_records *to, const uint8_t *sender, const moveledger_offer *offers, size_t count) {
    moveledger_put_bytes(to, sender, 16);
    moveledger_put_number(to, count);
    for (size_t at = 0; at < count; ++at) {
        moveledger_put_sized(to, offers[at].module, offers[at].length);
        moveledger_put_sized(to, offers[at].certificate, offers[at].certificate_length);
    }
}
static inline void moveledger_put_call(moveledger_records *to, const moveledger_call *call) {
    moveledger_put_bytes(to, call->sender, 16);
    moveledger_put_bytes(to, call->address, 16);
    moveledger_put_sized(to, call->module, strlen(call->module));
    moveledger_put_sized(to, call->function, strlen(call->function));
    moveledger_put_number(to, call->budget);
    moveledger_put_number(to, call->count);
    for (size_t at = 0; at < call->count; ++at) {
        moveledger_put_bytes(to, &call->arguments[at].token, 1);
        moveledger_put_bytes(to, call->arguments[at].bytes, call->arguments[at].length);
    }
}
/* What a record begins with: its kind, and the length of its payload. */
static inline void moveledger_put_front(moveledger_records *to, uint8_t kind, size_t length) {
    moveledger_put_bytes(to, &kind, 1);
    moveledger_put_number(to, length);
}

/* A record that publishes modules together. `sender` is 16 bytes. */
static inline void moveledger_put_publish(moveledger_records *to, const uint8_t *sender, const moveledger_offer *offers, size_t count) {
    moveledger_records payload = {NULL, 0, 0};
    moveledger_put_offers(&payload, sender, offers, count);
    moveledger_put_front(to, 1, payload.length);
    moveledger_put_offers(to, sender, offers, count);
}
/* A record that runs a function. */
static inline void moveledger_put_run(moveledger_records *to, const moveledger_call *call) {
    moveledger_records payload = {NULL, 0, 0};
    moveledger_put_call(&payload, call);
    moveledger_put_front(to, 2, payload.length);
    moveledger_put_call(to, call);
}

/* A number of so many bytes, the lowest first. */
static inline moveledger_argument moveledger_number(uint8_t token, uint8_t length, uint64_t high, uint64_t low) {
    moveledger_argument made = {token, length, {0}};
    for (unsigned at = 0; at < 8; ++at) {
        made.bytes[at] = (uint8_t)(low >> 8 * at);
        made.bytes[8 + at] = (uint8_t)(high >> 8 * at);
    }
    return made;
}
static inline moveledger_argument moveledger_bool(int is_true) { return moveledger_number(0x01, 1, 0, is_true != 0); }
static inline moveledger_argument moveledger_u8(uint8_t value) { return moveledger_number(0x02, 1, 0, value); }
static inline moveledger_argument moveledger_u16(uint16_t value) { return moveledger_number(0x0d, 2, 0, value); }
static inline moveledger_argument moveledger_u32(uint32_t value) { return moveledger_number(0x0e, 4, 0, value); }
static inline moveledger_argument moveledger_u64(uint64_t value) { return moveledger_number(0x03, 8, 0, value); }
static inline moveledger_argument moveledger_u128(uint64_t high, uint64_t low) { return moveledger_number(0x04, 16, high, low); }
/* `address` is 16 bytes. */
static inline moveledger_argument moveledger_address(const uint8_t *address) {
    moveledger_argument made = {0x05, 16, {0}};
    memcpy(made.bytes, address, 16);
    return made;
}

/* Turns the hexadecimal that moveledger_prove gave into the certificate's bytes, in the same place. */
static inline void moveledger_decode(moveledger_bytes *certificate) {
    for (size_t at = 0; at < certificate->length; ++at) {
        const uint8_t digit = certificate->bytes[at], value = (uint8_t)(digit < 'a' ? digit - '0' : digit - 'a' + 10);
        certificate->bytes[at / 2] = (uint8_t)(at % 2 ? certificate->bytes[at / 2] | value : value << 4);
    }
    certificate->length /= 2;
}

#ifdef __cplusplus
}
#endif
#endif
