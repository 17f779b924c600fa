/* A node in small: publishes a module with a coin, mints one, asks what is stored, saves the ledger, goes on from what was saved,
 * and asks for one value. It needs no file: the module's bytes stand below, and the library makes the module's certificate.
 *
 *     make run        in this folder
 */
#include "moveledger.h"
#include "moveledger_records.h"

#include <stdio.h>
#include <stdlib.h>

/* The bytes of the module 0x1::M, which tools/moveasm makes of examples/coin.text:
 *
 *     module 0x1::M {
 *         struct Coin has store, key { v: u64 }
 *         public entry mint(s: signer, v: u64) { ImmBorrowLoc s  MoveLoc v  Pack Coin  MoveTo Coin  Ret }
 *     }
 */
static const uint8_t COIN[] = {
    0xa1, 0x1c, 0xeb, 0x0b, 0x05, 0x00, 0x00, 0x00, 0x08, 0x01, 0x00, 0x02, 0x02, 0x02, 0x04, 0x03, 0x06, 0x05, 0x05, 0x0b,
    0x04, 0x07, 0x0f, 0x0e, 0x08, 0x1d, 0x10, 0x0a, 0x2d, 0x05, 0x0c, 0x32, 0x0f, 0x00, 0x00, 0x00, 0x01, 0x0c, 0x00, 0x00,
    0x03, 0x01, 0x00, 0x00, 0x00, 0x02, 0x0c, 0x03, 0x01, 0x4d, 0x04, 0x43, 0x6f, 0x69, 0x6e, 0x01, 0x76, 0x04, 0x6d, 0x69,
    0x6e, 0x74, 0x00, 0x00, 0x00, 0x00, 0x00, 0x00, 0x00, 0x00, 0x00, 0x00, 0x00, 0x00, 0x00, 0x00, 0x00, 0x01, 0x00, 0x02,
    0x01, 0x02, 0x03, 0x00, 0x01, 0x04, 0x00, 0x00, 0x05, 0x0e, 0x00, 0x0b, 0x01, 0x12, 0x00, 0x2d, 0x00, 0x02, 0x00,
};

/* The struct's name, by which its values are asked for, and two addresses. */
static const moveledger_struct COIN_NAME = {{[15] = 1}, "M", "Coin"};
static const uint8_t FIRST[16] = {[15] = 1}, SECOND[16] = {[15] = 2};

/* Ends the program where a call didn't do what it was asked for. */
static void expect(const char *call, int32_t status)
{
    if (status != MOVELEDGER_DONE) {
        fprintf(stderr, "%s: status %d\n", call, (int)status);
        exit(1);
    }
}

/* A record that publishes the coin's module, by the address 1, with the certificate that the library makes. */
static void put_publish(moveledger_records *records)
{
    moveledger_bytes certificate = {NULL, 0, NULL};
    uint8_t why;

    expect("moveledger_prove", moveledger_prove(COIN, sizeof COIN, &certificate, &why));
    moveledger_decode(&certificate);
    const moveledger_offer offer = {COIN, sizeof COIN, certificate.bytes, certificate.length};
    moveledger_put_publish(records, FIRST, &offer, 1);
    moveledger_bytes_free(&certificate);
}

/* A record that runs 0x1::M::mint(value) by an address, with a budget of 100 steps. */
static void put_mint(moveledger_records *records, const uint8_t *sender, uint64_t value)
{
    const moveledger_argument argument = moveledger_u64(value);
    const moveledger_call mint = {sender, FIRST, "M", "mint", 100, &argument, 1};
    moveledger_put_run(records, &mint);
}

/* Prints bytes that the library gave, and frees them. */
static void print(moveledger_bytes *bytes)
{
    fwrite(bytes->bytes, 1, bytes->length, stdout);
    moveledger_bytes_free(bytes);
}

/* Answers records, and prints their lines. `answered` counts the records of all calls, by which lines are numbered. */
static void answer(moveledger *ledger, const moveledger_records *records, uint64_t *answered)
{
    moveledger_bytes report = {NULL, 0, NULL};
    if (records->length > records->room) {
        fprintf(stderr, "the records take %zu bytes, and this example has less room for them\n", records->length);
        exit(1);
    }
    expect("moveledger_apply", moveledger_apply(ledger, records->bytes, records->length, answered, &report));
    print(&report);
}

int main(void)
{
    moveledger ledger = {NULL, 0};
    uint64_t answered = 0;
    uint8_t room[512];
    moveledger_records block = {room, sizeof room, 0}, next = {room, sizeof room, 0};
    moveledger_bytes saved = {NULL, 0, NULL}, lines = {NULL, 0, NULL};
    uint8_t why;

    expect("moveledger_new", moveledger_new(&ledger));
    put_publish(&block);
    put_mint(&block, FIRST, 7);
    answer(&ledger, &block, &answered);
    expect("moveledger_show", moveledger_show(&ledger, MOVELEDGER_TEXT, &lines));
    print(&lines);

    expect("moveledger_save", moveledger_save(&ledger, &saved));
    moveledger_free(&ledger);
    printf("saved %zu bytes\n", saved.length);

    expect("moveledger_load", moveledger_load(saved.bytes, saved.length, &ledger, &why));
    moveledger_bytes_free(&saved);
    put_mint(&next, SECOND, 9);
    answer(&ledger, &next, &answered);
    /* One value, which is found by its address and its struct: the others cost nothing. */
    expect("moveledger_show_value", moveledger_show_value(&ledger, SECOND, &COIN_NAME, MOVELEDGER_TEXT, &lines));
    print(&lines);
    expect("moveledger_audit", moveledger_audit(&ledger, MOVELEDGER_JSON, &lines));
    print(&lines);
    moveledger_free(&ledger);
    return 0;
}
