/* Tries the records that moveledger_records.h puts together, byte for byte, with room for them and without, and answers them.
 * usage: records STREAM    STREAM is examples/first-coin.stream. What went wrong is printed, and the status is 1. */
#include "moveledger_records.h"

#include <stdbool.h>
#include <stdio.h>

/* Where the example's module stands in its first record, and where its second record begins. */
enum { MODULE = 20, MODULE_LENGTH = 99, SECOND_RECORD = 124, MOST = 4096 };

static uint8_t stream[MOST];
static size_t length;
static int failures;
static const uint8_t ONE[16] = {[15] = 1};

static void want(bool holds, const char *what)
{
    if (!holds) {
        printf("records: wrong: %s\n", what);
        ++failures;
    }
}

/* A run that has each kind of argument, byte for byte, with room and without. */
static void try_records(void)
{
    static const uint8_t wanted[] = {
        2, 97, 0, 0, 0, 0, 0, 0, 0, 0, 0, 0, 0, 0, 0, 0, 0, 1, 0, 0, 0, 0, 0, 0, 0, 0, 0, 0, 0, 0, 0, 0, 0, 1, 1, 'M', 4, 'm', 'i', 'n', 't',
        0xac, 2, 7, 0x01, 1, 0x02, 0xfe, 0x0d, 0x34, 0x12, 0x0e, 0x78, 0x56, 0x34, 0x12, 0x03, 8, 7, 6, 5, 4, 3, 2, 1,
        0x04, 0x18, 0x17, 0x16, 0x15, 0x14, 0x13, 0x12, 0x11, 8, 7, 6, 5, 4, 3, 2, 1, 0x05, 0, 0, 0, 0, 0, 0, 0, 0, 0, 0, 0, 0, 0, 0, 0, 1,
    };
    const moveledger_argument arguments[] = {
        moveledger_bool(5), moveledger_u8(0xfe), moveledger_u16(0x1234), moveledger_u32(0x12345678), moveledger_u64(0x0102030405060708),
        moveledger_u128(0x0102030405060708, 0x1112131415161718), moveledger_address(ONE),
    };
    const moveledger_call call = {ONE, ONE, "M", "mint", 300, arguments, 7};
    const moveledger_offer offer = {stream + MODULE, MODULE_LENGTH, stream + MODULE + MODULE_LENGTH + 1, 4};
    uint8_t room[MOST];
    moveledger_records made = {room, sizeof room, 0}, counted = {NULL, 0, 0}, small = {room, 0, 0};
    moveledger_put_run(&made, &call);
    moveledger_put_run(&counted, &call);
    want(made.length == sizeof wanted && memcmp(room, wanted, sizeof wanted) == 0, "a run has each kind of argument");
    want(counted.length == sizeof wanted, "a run is counted");
    for (size_t size = 0; size < sizeof wanted; ++size) {
        memset(room, 0xee, sizeof room);
        small.room = size, small.length = 0;
        moveledger_put_run(&small, &call);
        want(small.length == sizeof wanted && small.length > small.room, "a run without room is counted");
        for (size_t at = size; at <= sizeof wanted; ++at)
            want(room[at] == 0xee, "nothing is written beyond the room");
    }
    made.length = 0;
    moveledger_put_publish(&made, ONE, &offer, 1);
    want(made.length == SECOND_RECORD && memcmp(room, stream, SECOND_RECORD) == 0, "a bundle is as the example has it");
}

/* The certificate's bytes, in the place of its hexadecimal. */
static void try_certificate(void)
{
    moveledger_bytes certificate = {NULL, 0, NULL};
    uint8_t why;
    want(moveledger_prove(stream + MODULE, MODULE_LENGTH, &certificate, &why) == MOVELEDGER_DONE && certificate.length == 8, "a certificate");
    moveledger_decode(&certificate);
    want(certificate.length == 4 && memcmp(certificate.bytes, stream + MODULE + MODULE_LENGTH + 1, 4) == 0, "a certificate is decoded");
    moveledger_bytes_free(&certificate);
    want(certificate.bytes == NULL, "a decoded certificate is freed");
}

/* What is put together is answered. */
static void try_answers(void)
{
    const moveledger_argument value = moveledger_u64(7);
    const moveledger_offer offer = {stream + MODULE, MODULE_LENGTH, stream + MODULE + MODULE_LENGTH + 1, 4};
    const moveledger_call call = {ONE, ONE, "M", "mint", 100, &value, 1};
    uint8_t room[MOST];
    moveledger_records records = {room, sizeof room, 0};
    moveledger ledger = {NULL, 0};
    moveledger_bytes report = {NULL, 0, NULL};
    uint64_t answered = 0;
    moveledger_put_publish(&records, ONE, &offer, 1);
    moveledger_put_run(&records, &call);
    want(records.length == length && memcmp(room, stream, length) == 0, "both records are the example's");
    want(moveledger_new(&ledger) == MOVELEDGER_DONE, "a ledger is made");
    want(moveledger_apply(&ledger, room, records.length, &answered, &report) == MOVELEDGER_DONE, "records are answered");
    want(report.length == 27 && memcmp(report.bytes, "1 published 1\n2 returned 5\n", 27) == 0, "their lines");
    moveledger_bytes_free(&report);
    moveledger_free(&ledger);
}

int main(int words, char **word)
{
    FILE *file = words > 1 ? fopen(word[1], "rb") : NULL;
    if (!file) {
        fprintf(stderr, "usage: records STREAM\n");
        return 2;
    }
    length = fread(stream, 1, sizeof stream, file);
    fclose(file);
    try_records();
    try_certificate();
    try_answers();
    printf("records: %s\n", failures ? "FAILED" : "as wanted");
    return failures != 0;
}
