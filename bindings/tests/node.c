/* Tries what a node does beside records and questions: it puts records together, asks what a block has changed, saves in pieces, and bounds the
 * search for a certificate.
 * usage: node STREAM    STREAM is examples/first-coin.stream. What went wrong is printed, and the status is 1. */
#include "moveledger.h"
#include "moveledger_records.h"

#include <stdbool.h>
#include <stdio.h>

/* Where the example's module stands in its first record, and where its second record begins. */
enum { MODULE = 20, MODULE_LENGTH = 99, SECOND_RECORD = 124, MOST = 4096, MINTS = 6000, MOST_PIECE = 65536 };

static uint8_t stream[MOST];
static size_t length;
static int failures;
static const uint8_t ONE[16] = {[15] = 1};

static void want(bool holds, const char *what)
{
    if (!holds) {
        printf("node: wrong: %s\n", what);
        ++failures;
    }
}

static bool is_text(const moveledger_bytes *bytes, const char *text)
{
    return bytes->length == strlen(text) && memcmp(bytes->bytes, text, bytes->length) == 0;
}

/* A run that has each kind of argument, byte for byte, with room and without. */
static void try_records(void)
{
    static const uint8_t wanted[] = {
        2, 97, 0, 0, 0, 0, 0, 0, 0, 0, 0, 0, 0, 0, 0, 0, 0, 1, 0, 0, 0, 0, 0, 0, 0, 0, 0, 0, 0, 0, 0, 0, 0, 1, 1, 'M', 4, 'm', 'i', 'n', 't',
        0xac, 2, 7, 0x01, 1, 0x02, 0xfe, 0x0d, 0x34, 0x12, 0x0e, 0x78, 0x56, 0x34, 0x12, 0x03, 8, 7, 6, 5, 4, 3, 2, 1,
        0x04, 0x18, 0x17, 0x16, 0x15, 0x14, 0x13, 0x12, 0x11, 8, 7, 6, 5, 4, 3, 2, 1, 0x05, 0, 0, 0, 0, 0, 0, 0, 0, 0, 0, 0, 0, 0, 0, 0, 1,
    };
    const moveledger_argument arguments[] = {
        moveledger_bool(5), moveledger_u8(0xfe), moveledger_u16(0x1234), moveledger_u32(0x12345678), moveledger_u64(0x0102030405060708),
        moveledger_u128(0x0102030405060708, 0x1112131415161718), moveledger_address(ONE),
    };
    const moveledger_call call = {ONE, ONE, "M", "mint", 300, arguments, 7};
    const moveledger_offer offer = {stream + MODULE, MODULE_LENGTH, stream + MODULE + MODULE_LENGTH + 1, 4};
    uint8_t room[MOST];
    moveledger_records made = {room, sizeof room, 0}, counted = {NULL, 0, 0}, small = {room, 0, 0};
    moveledger_put_run(&made, &call);
    moveledger_put_run(&counted, &call);
    want(made.length == sizeof wanted && memcmp(room, wanted, sizeof wanted) == 0, "a run has each kind of argument");
    want(counted.length == sizeof wanted, "a run is counted");
    for (size_t size = 0; size < sizeof wanted; ++size) {
        memset(room, 0xee, sizeof room);
        small.room = size, small.length = 0;
        moveledger_put_run(&small, &call);
        want(small.length == sizeof wanted && small.length > small.room, "a run without room is counted");
        for (size_t at = size; at <= sizeof wanted; ++at)
            want(room[at] == 0xee, "nothing is written beyond the room");
    }
    moveledger_record record;
    want(moveledger_read_record(wanted, sizeof wanted, &record) == MOVELEDGER_DONE && record.length == sizeof wanted && record.kind == 2
         && record.is_shaped == 1 && record.budget == 300 && memcmp(record.sender, ONE, 16) == 0, "a run is read");
    want(moveledger_most_bytes(record.budget) == 430000 && moveledger_most_bytes(10000001) == 0, "a run stores at most so much");
    for (size_t size = 0; size < sizeof wanted; ++size)
        want(moveledger_read_record(wanted, size, &record) == MOVELEDGER_ABSENT && record.length == 0 && record.kind == 0, "a cut record isn't read");
    want(moveledger_read_record(stream, length, &record) == MOVELEDGER_DONE && record.length == SECOND_RECORD && record.kind == 1
         && record.is_shaped == 1 && record.budget == 0 && memcmp(record.sender, ONE, 16) == 0, "a bundle is read");
    want(moveledger_read_record((const uint8_t *)"\3\1\1", 3, &record) == MOVELEDGER_DONE && record.length == 3 && record.kind == 3
         && record.is_shaped == 0, "a show is read");
    want(moveledger_read_record((const uint8_t *)"\2\1\1", 3, &record) == MOVELEDGER_DONE && record.kind == 2 && record.is_shaped == 0, "a bad run is read");
    want(moveledger_read_record(NULL, 3, &record) == MOVELEDGER_ARGUMENTS && moveledger_read_record(stream, 3, NULL) == MOVELEDGER_ARGUMENTS,
         "a record wants its places");
    made.length = 0;
    moveledger_put_publish(&made, ONE, &offer, 1);
    want(made.length == SECOND_RECORD && memcmp(room, stream, SECOND_RECORD) == 0, "a bundle is as the example has it");
}

/* A ledger that has the example's records. */
static moveledger first_ledger(uint64_t *answered)
{
    moveledger ledger = {NULL, 0};
    moveledger_bytes report = {NULL, 0, NULL};
    want(moveledger_new(&ledger) == MOVELEDGER_DONE, "a ledger is made");
    want(moveledger_apply(&ledger, stream, length, answered, &report) == MOVELEDGER_DONE, "records are answered");
    moveledger_bytes_free(&report);
    return ledger;
}

static void mint(moveledger *ledger, uint64_t owner, uint64_t *answered)
{
    uint8_t sender[16] = {0}, room[128];
    const moveledger_argument value = moveledger_u64(owner);
    const moveledger_call call = {sender, ONE, "M", "mint", 100, &value, 1};
    moveledger_records record = {room, sizeof room, 0};
    moveledger_bytes report = {NULL, 0, NULL};
    memcpy(sender, moveledger_u64(owner * 0x9E3779B97F4A7C15u).bytes, 8);
    moveledger_put_run(&record, &call);
    want(moveledger_apply(ledger, room, record.length, answered, &report) == MOVELEDGER_DONE, "a mint is answered");
    moveledger_bytes_free(&report);
}

#define COIN "\"struct\":\"00000000000000000000000000000001::M::Coin\""
#define NOTHING "json {\"show\":[]}\n"

/* What a block has changed, in it, in one within it, and without one. */
static void try_changes(void)
{
    uint64_t answered = 0;
    moveledger ledger = {NULL, 0}, none = {NULL, 0};
    moveledger_bytes before, now, report = {NULL, 0, NULL};
    want(moveledger_new(&ledger) == MOVELEDGER_DONE, "a ledger is made");
    want(moveledger_changes(&ledger, &before, &now) == MOVELEDGER_NO_BLOCK && !before.bytes && !now.bytes, "no block has no changes");
    want(moveledger_changed_modules(&ledger, &now) == MOVELEDGER_NO_BLOCK && !now.bytes, "no block has no changed modules");
    want(moveledger_changes(&none, &before, &now) == MOVELEDGER_ARGUMENTS && moveledger_changed_modules(&none, &now) == MOVELEDGER_ARGUMENTS,
         "no ledger has no changes");
    want(moveledger_changes(&ledger, NULL, &now) == MOVELEDGER_ARGUMENTS && moveledger_changes(&ledger, &before, NULL) == MOVELEDGER_ARGUMENTS
         && moveledger_changes(NULL, &before, &now) == MOVELEDGER_ARGUMENTS && moveledger_changed_modules(&ledger, NULL) == MOVELEDGER_ARGUMENTS,
         "changes want their places");
    want(moveledger_begin(&ledger) == MOVELEDGER_DONE, "a block is opened");
    want(moveledger_changes(&ledger, &before, &now) == MOVELEDGER_DONE && is_text(&before, NOTHING) && is_text(&now, NOTHING), "nothing changed");
    moveledger_bytes_free(&before);
    moveledger_bytes_free(&now);
    want(moveledger_apply(&ledger, stream, length, &answered, &report) == MOVELEDGER_DONE, "records are answered");
    want(moveledger_changes(&ledger, &before, &now) == MOVELEDGER_DONE && is_text(&before, NOTHING)
         && is_text(&now, "json {\"show\":[{\"address\":\"00000000000000000000000000000001\"," COIN ",\"value\":\"{7}\"}]}\n"), "a coin is new");
    moveledger_bytes_free(&before);
    moveledger_bytes_free(&now);
    want(moveledger_changed_modules(&ledger, &now) == MOVELEDGER_DONE && is_text(&now, "published 00000000000000000000000000000001::M\n"),
         "a module is new");
    moveledger_bytes_free(&now);
    want(moveledger_begin(&ledger) == MOVELEDGER_DONE, "a block is opened within");
    want(moveledger_changed_modules(&ledger, &now) == MOVELEDGER_DONE && now.length == 0, "it has changed no module");
    moveledger_bytes_free(&now);
    want(moveledger_changes(&ledger, &before, &now) == MOVELEDGER_DONE && is_text(&now, NOTHING), "nor a value");
    moveledger_bytes_free(&before);
    moveledger_bytes_free(&now);
    want(moveledger_commit(&ledger) == MOVELEDGER_DONE && moveledger_rollback(&ledger) == MOVELEDGER_DONE, "both are closed");
    moveledger_bytes_free(&report);
    moveledger_free(&ledger);
}

/* A text that is put together of pieces. */
struct text {
    uint8_t bytes[MINTS * 32];
    size_t length, pieces, most;
};

static int append(void *context, const uint8_t *bytes, size_t size)
{
    struct text *text = context;
    if (text->pieces++ == text->most || size > MOST_PIECE || size == 0 || size > sizeof text->bytes - text->length)
        return 1;
    memcpy(text->bytes + text->length, bytes, size);
    text->length += size;
    return 0;
}

/* A save in pieces is the save, also where it is stopped and begun again. */
static void try_pieces(void)
{
    static struct text text;
    uint64_t answered = 0;
    moveledger ledger = first_ledger(&answered), none = {NULL, 0};
    moveledger_saving saving = {NULL}, no_saving = {NULL};
    moveledger_bytes saved, piece;
    for (uint64_t owner = 1; owner < MINTS; ++owner)
        mint(&ledger, owner, &answered);
    want(moveledger_save(&ledger, &saved) == MOVELEDGER_DONE && saved.length > 2 * MOST_PIECE, "a ledger is saved");
    for (text.most = 0; text.most < 4; ++text.most) {
        text.length = text.pieces = 0;
        const bool is_whole = moveledger_save_to(&ledger, append, &text) == MOVELEDGER_DONE;
        want(is_whole || text.pieces == text.most + 1, "a save is stopped");
        want(text.length <= saved.length && memcmp(text.bytes, saved.bytes, text.length) == 0, "the pieces begin as the save");
    }
    text.length = text.pieces = 0, text.most = SIZE_MAX;
    want(moveledger_save_to(&ledger, append, &text) == MOVELEDGER_DONE, "a ledger is saved in pieces");
    want(text.length == saved.length && memcmp(text.bytes, saved.bytes, saved.length) == 0, "the pieces are the save");
    want(moveledger_save_to(NULL, append, &text) == MOVELEDGER_ARGUMENTS && moveledger_save_to(&ledger, NULL, NULL) == MOVELEDGER_ARGUMENTS
         && moveledger_save_to(&none, append, &text) == MOVELEDGER_ARGUMENTS, "a save in pieces wants a ledger and a function");
    want(moveledger_save_next(&ledger, &no_saving, &piece) == MOVELEDGER_ARGUMENTS && !piece.bytes, "a piece wants a save");
    want(moveledger_save_begin(NULL) == MOVELEDGER_ARGUMENTS, "a save wants a place");
    want(moveledger_save_begin(&saving) == MOVELEDGER_DONE, "a save is begun");
    want(moveledger_save_next(&none, &saving, &piece) == MOVELEDGER_ARGUMENTS && !piece.bytes, "a piece wants a ledger");
    ledger.users = -1;
    want(moveledger_save_next(&ledger, &saving, &piece) == MOVELEDGER_BUSY && moveledger_save_to(&ledger, append, &text) == MOVELEDGER_BUSY,
         "a ledger that is changed isn't saved");
    ledger.users = 0;
    for (text.length = 0; moveledger_save_next(&ledger, &saving, &piece) == MOVELEDGER_DONE; moveledger_bytes_free(&piece))
        append(&text, piece.bytes, piece.length);
    want(text.length == saved.length && memcmp(text.bytes, saved.bytes, saved.length) == 0, "the pieces are the save, one by one");
    want(moveledger_save_next(&ledger, &saving, &piece) == MOVELEDGER_ABSENT && !piece.bytes, "behind the last piece there is none");
    moveledger_save_end(&saving);
    want(saving.own == NULL, "a save is ended");
    moveledger_save_end(&saving);
    moveledger_save_end(NULL);
    moveledger_bytes_free(&saved);
    moveledger_free(&ledger);
}

/* A search that has steps enough gives what one without a limit does. */
static void try_steps(void)
{
    moveledger_bytes whole, within;
    uint8_t why = 7;
    want(moveledger_prove(stream + MODULE, MODULE_LENGTH, &whole, &why) == MOVELEDGER_DONE, "the example's module is proved");
    want(moveledger_prove_within(stream + MODULE, MODULE_LENGTH, 0, &within, &why) == MOVELEDGER_TOO_LONG && !within.bytes && why == 0, "no steps");
    want(moveledger_prove_within(stream + MODULE, MODULE_LENGTH, 1000, &within, &why) == MOVELEDGER_DONE, "steps enough");
    want(within.length == whole.length && memcmp(within.bytes, whole.bytes, whole.length) == 0, "the same certificate");
    moveledger_bytes_free(&within);
    moveledger_bytes_free(&whole);
    want(moveledger_prove_within(stream, 3, 1000, &within, &why) == MOVELEDGER_REFUSED && why == 2, "what is no module is refused");
    want(moveledger_prove_within(NULL, 3, 1000, &within, &why) == MOVELEDGER_ARGUMENTS && why == 0, "a module is wanted");
}

int main(int words, char **word)
{
    FILE *file = words > 1 ? fopen(word[1], "rb") : NULL;
    if (!file) {
        fprintf(stderr, "usage: node STREAM\n");
        return 2;
    }
    length = fread(stream, 1, sizeof stream, file);
    fclose(file);
    try_records();
    try_changes();
    try_pieces();
    try_steps();
    printf("node: %s\n", failures ? "FAILED" : "as wanted");
    return failures != 0;
}
