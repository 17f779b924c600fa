/* Tries calls of the library: with wrong arguments, questions by names and addresses, in two threads, on one ledger in many, and very
 * often with memory that stays flat.
 * usage: calls STREAM [COUNT]    STREAM is examples/first-coin.stream; COUNT is how often records are applied, 20,000 if none is
 * given. What went wrong is printed, and the status is 1. */
#include "moveledger.h"

#include <pthread.h>
#include <stdbool.h>
#include <stdio.h>
#include <stdlib.h>
#include <string.h>

/* Where the example's second record, which mints a coin, begins, and where its sender does. */
enum { FIRST = 124, SENDER = 2, MOST = 4096, FIRST_COUNT = 20000, MINTS = 300, TELLING = 1000, ALLOWED_GROWTH = 500000 };

static uint8_t stream[MOST];
static size_t length;
static _Atomic int failures;

static void want(bool holds, const char *what)
{
    if (!holds) {
        printf("calls: wrong: %s\n", what);
        ++failures;
    }
}

/* A status of wrong arguments, after which the ledger and the bytes are as before. */
static void want_arguments(int32_t status, const moveledger_bytes *bytes, const char *what)
{
    want(status == MOVELEDGER_ARGUMENTS, what);
    want(bytes->bytes == NULL && bytes->length == 0, what);
}

/* What a caller has in places that it never began: after wrong arguments they hold what the header says. */
static struct garbage {
    moveledger ledger;
    moveledger_bytes bytes;
    uint8_t why;
} garbage(void)
{
    struct garbage made;
    memset(&made, 0x41, sizeof made);
    return made;
}

static void want_cleared(int32_t status, const struct garbage *left, bool is_load, bool has_bytes, bool has_why, const char *what)
{
    want(status == MOVELEDGER_ARGUMENTS, what);
    want(!is_load || (left->ledger.own == NULL && left->ledger.users == 0), what);
    want(!has_bytes || (left->bytes.bytes == NULL && left->bytes.length == 0 && left->bytes.own == NULL), what);
    want(!has_why || left->why == 0, what);
}

static void try_garbage(moveledger *ledger)
{
    moveledger none = {NULL, 0};
    struct garbage it = garbage();
    want_cleared(moveledger_load(NULL, 5, &it.ledger, &it.why), &it, true, false, true, "load without bytes into garbage");
    moveledger_free(&it.ledger);
    it = garbage();
    want_cleared(moveledger_load(stream, length, &it.ledger, NULL), &it, true, false, false, "load without a reason into garbage");
    it = garbage();
    want_cleared(moveledger_load(stream, length, NULL, &it.why), &it, false, false, true, "load without a place, of a reason");
    it = garbage();
    want_cleared(moveledger_save(NULL, &it.bytes), &it, false, true, false, "save without a ledger into garbage");
    moveledger_bytes_free(&it.bytes);
    it = garbage();
    want_cleared(moveledger_save(&none, &it.bytes), &it, false, true, false, "save of no ledger into garbage");
    it = garbage();
    want_cleared(moveledger_show(NULL, MOVELEDGER_TEXT, &it.bytes), &it, false, true, false, "show without a ledger into garbage");
    it = garbage();
    want_cleared(moveledger_show(ledger, 7, &it.bytes), &it, false, true, false, "show of no form into garbage");
    it = garbage();
    want_cleared(moveledger_audit(NULL, MOVELEDGER_TEXT, &it.bytes), &it, false, true, false, "audit without a ledger into garbage");
    it = garbage();
    want_cleared(moveledger_prove(NULL, 5, &it.bytes, &it.why), &it, false, true, true, "prove without a module into garbage");
    moveledger_bytes_free(&it.bytes);
    it = garbage();
    want_cleared(moveledger_check(NULL, 5, stream, length, &it.why), &it, false, false, true, "check without a module into garbage");
    it = garbage();
    want_cleared(moveledger_migrate(NULL, 5, &it.bytes, &it.why), &it, false, true, true, "migrate without bytes into garbage");
    moveledger_bytes_free(&it.bytes);
}

static void try_arguments_of_ledgers(moveledger *ledger)
{
    const size_t too_long = (size_t)PTRDIFF_MAX + 1;
    moveledger other = {NULL, 0}, none = {NULL, 0};
    moveledger_bytes bytes = {NULL, 0, NULL};
    uint64_t answered = 7;
    uint8_t why = 0;
    want_arguments(moveledger_new(NULL), &bytes, "new without a place");
    want_arguments(moveledger_load(NULL, 1, &other, &why), &bytes, "load without bytes");
    want_arguments(moveledger_load(stream, too_long, &other, &why), &bytes, "load of too many bytes");
    want_arguments(moveledger_load(stream, length, NULL, &why), &bytes, "load without a place");
    want_arguments(moveledger_load(stream, length, &other, NULL), &bytes, "load without a place for the reason");
    want(other.own == NULL, "no ledger is made of wrong arguments");
    want_arguments(moveledger_apply(NULL, stream, length, &answered, &bytes), &bytes, "apply without a ledger");
    want_arguments(moveledger_apply(ledger, NULL, 1, &answered, &bytes), &bytes, "apply without records");
    want_arguments(moveledger_apply(ledger, stream, too_long, &answered, &bytes), &bytes, "apply of too many records");
    want_arguments(moveledger_apply(ledger, stream, length, NULL, &bytes), &bytes, "apply without a count");
    want_arguments(moveledger_apply(ledger, stream, length, &answered, NULL), &bytes, "apply without a report");
    want(answered == 7, "the count stays");
    want_arguments(moveledger_apply(&none, stream, length, &answered, &bytes), &bytes, "apply to no ledger");
    want_arguments(moveledger_save(NULL, &bytes), &bytes, "save without a ledger");
    want_arguments(moveledger_save(&none, &bytes), &bytes, "save of no ledger");
    want_arguments(moveledger_save(ledger, NULL), &bytes, "save without a place");
    want_arguments(moveledger_show(NULL, MOVELEDGER_TEXT, &bytes), &bytes, "show without a ledger");
    want_arguments(moveledger_show(&none, MOVELEDGER_TEXT, &bytes), &bytes, "show of no ledger");
    want_arguments(moveledger_show(ledger, MOVELEDGER_TEXT, NULL), &bytes, "show without a place");
    want_arguments(moveledger_show(ledger, 2, &bytes), &bytes, "show of no form");
    want_arguments(moveledger_audit(NULL, MOVELEDGER_JSON, &bytes), &bytes, "audit without a ledger");
    want_arguments(moveledger_audit(&none, MOVELEDGER_JSON, &bytes), &bytes, "audit of no ledger");
    want_arguments(moveledger_audit(ledger, MOVELEDGER_JSON, NULL), &bytes, "audit without a place");
    want_arguments(moveledger_audit(ledger, UINT32_MAX, &bytes), &bytes, "audit of no form");
    moveledger_free(NULL);
    moveledger_free(&none);
    moveledger_bytes_free(&bytes);
}

static void try_arguments_of_modules(void)
{
    const size_t too_long = (size_t)PTRDIFF_MAX + 1;
    moveledger_bytes bytes = {NULL, 0, NULL};
    uint8_t why = 0;
    want_arguments(moveledger_prove(NULL, 1, &bytes, &why), &bytes, "prove without a module");
    want_arguments(moveledger_prove(stream, too_long, &bytes, &why), &bytes, "prove of too many bytes");
    want_arguments(moveledger_prove(stream, length, NULL, &why), &bytes, "prove without a place");
    want_arguments(moveledger_prove(stream, length, &bytes, NULL), &bytes, "prove without a place for the reason");
    want_arguments(moveledger_check(NULL, 1, stream, length, &why), &bytes, "check without a module");
    want_arguments(moveledger_check(stream, length, NULL, 1, &why), &bytes, "check without a certificate");
    want_arguments(moveledger_check(stream, too_long, stream, length, &why), &bytes, "check of too many bytes");
    want_arguments(moveledger_check(stream, length, stream, too_long, &why), &bytes, "check of a certificate of too many bytes");
    want_arguments(moveledger_check(stream, length, stream, length, NULL), &bytes, "check without a place for the reason");
    want_arguments(moveledger_migrate(NULL, 1, &bytes, &why), &bytes, "migrate without bytes");
    want_arguments(moveledger_migrate(stream, too_long, &bytes, &why), &bytes, "migrate of too many bytes");
    want_arguments(moveledger_migrate(stream, length, NULL, &why), &bytes, "migrate without a place");
    want_arguments(moveledger_migrate(stream, length, &bytes, NULL), &bytes, "migrate without a place for the reason");
}

/* The struct that the example's module has, and addresses with a value and without one. */
static const moveledger_struct COIN = {{[15] = 1}, "M", "Coin"};
static const uint8_t ONE[16] = {[15] = 1}, TWO[16] = {[15] = 2};
#define COIN_LINE "at 00000000000000000000000000000001 00000000000000000000000000000001::M::Coin {7}\n"
#define COIN_JSON "{\"address\":\"00000000000000000000000000000001\",\"struct\":\"00000000000000000000000000000001::M::Coin\",\"value\":\"{7}\"}"

/* What answers a question has a place for, which held something else before. */
static struct answers {
    moveledger_bytes bytes, second;
    uint64_t count, other;
    uint8_t is_more, from[16];
} unanswered(void)
{
    struct answers made;
    memset(&made, 0x41, sizeof made);
    memset(made.from, 0, sizeof made.from);
    return made;
}

/* A question that is answered by another status than DONE leaves nothing. */
static void want_nothing(int32_t status, int32_t wanted, moveledger_bytes *bytes, const char *what)
{
    want(status == wanted, what);
    want(bytes->bytes == NULL && bytes->length == 0 && bytes->own == NULL, what);
    moveledger_bytes_free(bytes);
}

/* Each question of a ledger, with an address, a struct's name and a form; all of them are answered by a status that isn't DONE. */
static void want_refused(const moveledger *ledger, int32_t wanted, const char *what)
{
    struct answers it = unanswered();
    want_nothing(moveledger_show_value(ledger, ONE, &COIN, MOVELEDGER_TEXT, &it.bytes), wanted, &it.bytes, what);
    it = unanswered();
    want_nothing(moveledger_show_at(ledger, ONE, MOVELEDGER_JSON, &it.bytes), wanted, &it.bytes, what);
    it = unanswered();
    want_nothing(moveledger_show_page(ledger, &COIN, it.from, 9, MOVELEDGER_TEXT, &it.bytes, &it.is_more), wanted, &it.bytes, what);
    want(it.is_more == 0 && memcmp(it.from, (uint8_t[16]){0}, 16) == 0, what);
    it = unanswered();
    want_nothing(moveledger_modules(ledger, &it.bytes), wanted, &it.bytes, what);
    it = unanswered();
    want_nothing(moveledger_module(ledger, ONE, "M", &it.bytes, &it.second), wanted, &it.bytes, what);
    want_nothing(wanted, wanted, &it.second, what);
    want(moveledger_runs(ledger, &it.count) == wanted && it.count == 0, what);
    it = unanswered();
    want(moveledger_tally(ledger, &COIN, &it.count, &it.other) == wanted && it.count == 0 && it.other == 0, what);
}

/* A struct's name that names none, or isn't one: what is told of it. */
static void try_name(const moveledger *ledger, const moveledger_struct *name, bool is_name, const char *what)
{
    const int32_t wanted = is_name ? MOVELEDGER_ABSENT : MOVELEDGER_ARGUMENTS;
    struct answers it = unanswered();
    want_nothing(moveledger_show_value(ledger, ONE, name, MOVELEDGER_TEXT, &it.bytes), wanted, &it.bytes, what);
    want(moveledger_tally(ledger, name, &it.count, &it.other) == wanted && it.count == 0 && it.other == 0, what);
    it = unanswered();
    want_nothing(moveledger_show_page(ledger, name, it.from, 9, MOVELEDGER_TEXT, &it.bytes, &it.is_more), wanted, &it.bytes, what);
    want(it.is_more == 0 && memcmp(it.from, (uint8_t[16]){0}, 16) == 0, what);
}

/* What holds no ledger may be a constant, in memory that can't be written. */
static const moveledger NONE = {NULL, 0};

static int take_none(void *context, const uint8_t *bytes, size_t size)
{
    (void)context, (void)bytes, (void)size;
    want(false, "no piece is handed on where there is no ledger");
    return 0;
}

static void try_constant(void)
{
    moveledger_saving saving = {NULL};
    struct answers it = unanswered();
    want_refused(&NONE, MOVELEDGER_ARGUMENTS, "a question of a constant without a ledger");
    want_nothing(moveledger_save(&NONE, &it.bytes), MOVELEDGER_ARGUMENTS, &it.bytes, "a save of a constant");
    want(moveledger_save_to(&NONE, take_none, NULL) == MOVELEDGER_ARGUMENTS, "a save of a constant in pieces");
    it = unanswered();
    want_nothing(moveledger_show(&NONE, MOVELEDGER_TEXT, &it.bytes), MOVELEDGER_ARGUMENTS, &it.bytes, "a show of a constant");
    it = unanswered();
    want_nothing(moveledger_audit(&NONE, MOVELEDGER_JSON, &it.bytes), MOVELEDGER_ARGUMENTS, &it.bytes, "an audit of a constant");
    it = unanswered();
    want_nothing(moveledger_changes(&NONE, &it.bytes, &it.second), MOVELEDGER_ARGUMENTS, &it.bytes, "changes of a constant, before");
    want_nothing(MOVELEDGER_ARGUMENTS, MOVELEDGER_ARGUMENTS, &it.second, "changes of a constant, now");
    it = unanswered();
    want_nothing(moveledger_changed_modules(&NONE, &it.bytes), MOVELEDGER_ARGUMENTS, &it.bytes, "changed modules of a constant");
    it = unanswered();
    want(moveledger_save_begin(&saving) == MOVELEDGER_DONE, "a save is begun");
    want_nothing(moveledger_save_next(&NONE, &saving, &it.bytes), MOVELEDGER_ARGUMENTS, &it.bytes, "a piece of a constant");
    moveledger_save_end(&saving);
}

static void try_arguments_of_questions(const moveledger *ledger)
{
    const moveledger none = {NULL, 0};
    struct answers it = unanswered();
    want_refused(NULL, MOVELEDGER_ARGUMENTS, "a question without a ledger");
    want_refused(&none, MOVELEDGER_ARGUMENTS, "a question of no ledger");
    want_nothing(moveledger_show_value(ledger, NULL, &COIN, MOVELEDGER_TEXT, &it.bytes), MOVELEDGER_ARGUMENTS, &it.bytes, "no address of a value");
    it = unanswered();
    want_nothing(moveledger_show_value(ledger, ONE, &COIN, 2, &it.bytes), MOVELEDGER_ARGUMENTS, &it.bytes, "a value in no form");
    want(moveledger_show_value(ledger, ONE, &COIN, MOVELEDGER_TEXT, NULL) == MOVELEDGER_ARGUMENTS, "a value without a place");
    it = unanswered();
    want_nothing(moveledger_show_at(ledger, NULL, MOVELEDGER_TEXT, &it.bytes), MOVELEDGER_ARGUMENTS, &it.bytes, "no address of values");
    it = unanswered();
    want_nothing(moveledger_show_at(ledger, ONE, UINT32_MAX, &it.bytes), MOVELEDGER_ARGUMENTS, &it.bytes, "values in no form");
    want(moveledger_show_at(ledger, ONE, MOVELEDGER_TEXT, NULL) == MOVELEDGER_ARGUMENTS, "values without a place");
    it = unanswered();
    want_nothing(moveledger_show_page(ledger, &COIN, NULL, 9, MOVELEDGER_TEXT, &it.bytes, &it.is_more), MOVELEDGER_ARGUMENTS, &it.bytes, "a page from nowhere");
    want(it.is_more == 0, "a page from nowhere goes on nowhere");
    it = unanswered();
    want_nothing(moveledger_show_page(ledger, &COIN, it.from, 9, 2, &it.bytes, &it.is_more), MOVELEDGER_ARGUMENTS, &it.bytes, "a page in no form");
    want(it.is_more == 0, "a page in no form goes on nowhere");
    it = unanswered();
    want_nothing(moveledger_show_page(ledger, &COIN, it.from, 9, MOVELEDGER_TEXT, &it.bytes, NULL), MOVELEDGER_ARGUMENTS, &it.bytes, "a page that can't say whether it goes on");
    want(moveledger_show_page(ledger, &COIN, it.from, 9, MOVELEDGER_TEXT, NULL, &it.is_more) == MOVELEDGER_ARGUMENTS, "a page without a place");
    want(moveledger_modules(ledger, NULL) == MOVELEDGER_ARGUMENTS, "names without a place");
    it = unanswered();
    want_nothing(moveledger_module(ledger, NULL, "M", &it.bytes, &it.second), MOVELEDGER_ARGUMENTS, &it.bytes, "a module at no address");
    it = unanswered();
    want_nothing(moveledger_module(ledger, ONE, NULL, &it.bytes, &it.second), MOVELEDGER_ARGUMENTS, &it.second, "a module of no name");
    it = unanswered();
    want_nothing(moveledger_module(ledger, ONE, "M", &it.bytes, NULL), MOVELEDGER_ARGUMENTS, &it.bytes, "a module without a place for its certificate");
    it = unanswered();
    want_nothing(moveledger_module(ledger, ONE, "M", NULL, &it.second), MOVELEDGER_ARGUMENTS, &it.second, "a module without a place");
    want(moveledger_runs(ledger, NULL) == MOVELEDGER_ARGUMENTS, "runs without a place");
    it = unanswered();
    want(moveledger_tally(ledger, &COIN, &it.count, NULL) == MOVELEDGER_ARGUMENTS && it.count == 0, "a tally without a second place");
    want(moveledger_tally(ledger, &COIN, NULL, &it.other) == MOVELEDGER_ARGUMENTS && it.other == 0, "a tally without a first place");
}

static void try_names(const moveledger *ledger)
{
    struct answers it = unanswered();
    try_name(ledger, NULL, false, "no name");
    try_name(ledger, &(moveledger_struct){{[15] = 1}, NULL, "Coin"}, false, "a name without a module");
    try_name(ledger, &(moveledger_struct){{[15] = 1}, "M", NULL}, false, "a name without a struct");
    try_name(ledger, &(moveledger_struct){{[15] = 2}, "M", "Coin"}, true, "a module of another address");
    try_name(ledger, &(moveledger_struct){{[15] = 1}, "N", "Coin"}, true, "another module");
    try_name(ledger, &(moveledger_struct){{[15] = 1}, "M", "Coins"}, true, "a longer name");
    try_name(ledger, &(moveledger_struct){{[15] = 1}, "M", "Coi"}, true, "a shorter name");
    try_name(ledger, &(moveledger_struct){{[15] = 1}, "", "Coin"}, true, "a module whose name is empty");
    try_name(ledger, &(moveledger_struct){{[15] = 1}, "M", ""}, true, "a struct whose name is empty");
    want_nothing(moveledger_show_value(ledger, TWO, &COIN, MOVELEDGER_JSON, &it.bytes), MOVELEDGER_ABSENT, &it.bytes, "an address without a value");
    it = unanswered();
    want_nothing(moveledger_module(ledger, TWO, "M", &it.bytes, &it.second), MOVELEDGER_ABSENT, &it.bytes, "a module at another address");
    want_nothing(MOVELEDGER_ABSENT, MOVELEDGER_ABSENT, &it.second, "its certificate");
    it = unanswered();
    want_nothing(moveledger_module(ledger, ONE, "", &it.bytes, &it.second), MOVELEDGER_ABSENT, &it.bytes, "a module whose name is empty");
    want_nothing(MOVELEDGER_ABSENT, MOVELEDGER_ABSENT, &it.second, "its certificate");
}

/* Bytes that a question gave, which are freed. */
static void want_text(int32_t status, moveledger_bytes *bytes, const char *wanted, const char *what)
{
    want(status == MOVELEDGER_DONE && bytes->length == strlen(wanted) && memcmp(bytes->bytes, wanted, bytes->length) == 0, what);
    moveledger_bytes_free(bytes);
}

/* Where the module and its certificate stand in the example's first record. */
enum { MODULE = 20, MODULE_LENGTH = 99, CERTIFICATE = MODULE + MODULE_LENGTH + 1, CERTIFICATE_LENGTH = 4 };

static void try_answers(const moveledger *ledger)
{
    struct answers it = unanswered();
    want_text(moveledger_show_value(ledger, ONE, &COIN, MOVELEDGER_TEXT, &it.bytes), &it.bytes, COIN_LINE "end 1\n", "a value");
    want_text(moveledger_show_value(ledger, ONE, &COIN, MOVELEDGER_JSON, &it.bytes), &it.bytes, "json {\"show\":[" COIN_JSON "]}\n", "a value as JSON");
    want_text(moveledger_show_at(ledger, ONE, MOVELEDGER_TEXT, &it.bytes), &it.bytes, COIN_LINE "end 1\n", "an address");
    want_text(moveledger_show_at(ledger, TWO, MOVELEDGER_TEXT, &it.bytes), &it.bytes, "end 0\n", "an address with nothing");
    want_text(moveledger_show_at(ledger, TWO, MOVELEDGER_JSON, &it.bytes), &it.bytes, "json {\"show\":[]}\n", "an address with nothing as JSON");
    want_text(moveledger_show_page(ledger, &COIN, it.from, 9, MOVELEDGER_TEXT, &it.bytes, &it.is_more), &it.bytes, COIN_LINE "end 1\n", "a page");
    want(it.is_more == 0, "a page with all values is the last one");
    want_text(moveledger_modules(ledger, &it.bytes), &it.bytes, "00000000000000000000000000000001::M\n", "names of modules");
    want(moveledger_module(ledger, ONE, "M", &it.bytes, &it.second) == MOVELEDGER_DONE, "a module");
    want(it.bytes.length == MODULE_LENGTH && memcmp(it.bytes.bytes, stream + MODULE, MODULE_LENGTH) == 0, "a module's bytes");
    want(it.second.length == CERTIFICATE_LENGTH && memcmp(it.second.bytes, stream + CERTIFICATE, CERTIFICATE_LENGTH) == 0, "a certificate's bytes");
    moveledger_bytes_free(&it.bytes);
    moveledger_bytes_free(&it.second);
    want(moveledger_runs(ledger, &it.count) == MOVELEDGER_DONE && it.count == 1, "the number of runs");
    want(moveledger_tally(ledger, &COIN, &it.count, &it.other) == MOVELEDGER_DONE && it.count == 1 && it.other == 0, "a tally");
}

/* All pages of a struct, of so many keys each, have as many lines as values are stored. */
static void try_pages(moveledger *ledger, size_t most, unsigned long wanted)
{
    uint8_t from[16] = {0}, is_more = 1;
    unsigned long told = 0, pages = 0;
    while (is_more) {
        moveledger_bytes bytes;
        uint8_t before[16];
        memcpy(before, from, sizeof from);
        want(moveledger_show_page(ledger, &COIN, from, most, MOVELEDGER_TEXT, &bytes, &is_more) == MOVELEDGER_DONE, "a page of many");
        want(!is_more || memcmp(before, from, sizeof from) < 0, "a page goes on behind where it began");
        for (size_t at = 0; at < bytes.length; ++at)
            told += bytes.bytes[at] == '\n';
        moveledger_bytes_free(&bytes);
        told -= 1;
        ++pages;
    }
    want(told == wanted && pages >= wanted / most, "all pages tell all values");
}

/* Takes a piece of a save, and asks the ledger and would change it meanwhile. */
static int meddle(void *context, const uint8_t *bytes, size_t size)
{
    moveledger *ledger = context;
    moveledger_bytes report = {NULL, 0, NULL};
    uint64_t count = 7;
    (void)bytes, (void)size;
    want(moveledger_commit(ledger) == MOVELEDGER_BUSY, "a block of a ledger that is read isn't kept");
    want(moveledger_rollback(ledger) == MOVELEDGER_BUSY, "a block of a ledger that is read isn't taken back");
    want(moveledger_begin(ledger) == MOVELEDGER_BUSY, "no block is opened of a ledger that is read");
    want(moveledger_apply(ledger, stream, length, &count, &report) == MOVELEDGER_BUSY && count == 7, "a ledger that is read isn't changed");
    want(moveledger_free(ledger) == MOVELEDGER_BUSY && ledger->own != NULL, "a ledger that is read isn't freed");
    want(moveledger_runs(ledger, &count) == MOVELEDGER_DONE && count == 2, "a ledger that is read is asked");
    return 0;
}

/* A call that finds a ledger in use does nothing: the block stays open, and is closed when the other call has ended. */
static void try_busy(void)
{
    moveledger ledger = {NULL, 0};
    moveledger_bytes report = {NULL, 0, NULL};
    uint64_t answered = 0, runs = 0;
    want(moveledger_new(&ledger) == MOVELEDGER_DONE, "a ledger is made");
    want(moveledger_apply(&ledger, stream, length, &answered, &report) == MOVELEDGER_DONE, "records are answered");
    want(moveledger_begin(&ledger) == MOVELEDGER_DONE, "a block is opened");
    want(moveledger_apply(&ledger, stream + FIRST, length - FIRST, &answered, &report) == MOVELEDGER_DONE, "a record is answered in it");
    want(moveledger_save_to(&ledger, meddle, &ledger) == MOVELEDGER_DONE, "a save in a block");
    want(moveledger_rollback(&ledger) == MOVELEDGER_DONE, "the block stayed open");
    want(moveledger_runs(&ledger, &runs) == MOVELEDGER_DONE && runs == 1, "it is taken back");
    want(moveledger_rollback(&ledger) == MOVELEDGER_NO_BLOCK, "no further one is open");
    moveledger_bytes_free(&report);
    moveledger_free(&ledger);
}

/* Questions by names and addresses: they change nothing, and a ledger that is changed meanwhile isn't asked. */
static void try_questions(void)
{
    moveledger ledger = {NULL, 0};
    moveledger_bytes before = {NULL, 0, NULL}, after = {NULL, 0, NULL}, report = {NULL, 0, NULL};
    uint64_t answered = 0;
    uint8_t record[MOST];
    want(moveledger_new(&ledger) == MOVELEDGER_DONE, "a ledger is made");
    want(moveledger_apply(&ledger, stream, length, &answered, &report) == MOVELEDGER_DONE, "records are answered");
    want(moveledger_save(&ledger, &before) == MOVELEDGER_DONE, "a ledger is saved");
    try_arguments_of_questions(&ledger);
    try_names(&ledger);
    try_answers(&ledger);
    ledger.users = -1;
    want_refused(&ledger, MOVELEDGER_BUSY, "a question of a ledger that is changed");
    ledger.users = 1;
    try_answers(&ledger);
    want(ledger.users == 1, "a question leaves the number of users");
    ledger.users = 0;
    want(moveledger_save(&ledger, &after) == MOVELEDGER_DONE, "a ledger is saved again");
    want(before.length == after.length && memcmp(before.bytes, after.bytes, after.length) == 0, "questions change nothing");
    memcpy(record, stream + FIRST, length - FIRST);
    for (unsigned nth = 2; nth <= 30; ++nth) {
        record[SENDER + 15] = (uint8_t)nth;
        want(moveledger_apply(&ledger, record, length - FIRST, &answered, &report) == MOVELEDGER_DONE, "a mint is answered");
    }
    for (size_t most = 1; most <= 31; ++most)
        try_pages(&ledger, most, 30);
    moveledger_bytes_free(&before);
    moveledger_bytes_free(&after);
    moveledger_bytes_free(&report);
    moveledger_free(&ledger);
}

/* Wrong arguments change nothing: what is saved before and after is the same. */
static void try_arguments(void)
{
    moveledger ledger = {NULL, 0};
    moveledger_bytes before = {NULL, 0, NULL}, after = {NULL, 0, NULL}, report = {NULL, 0, NULL};
    uint64_t answered = 0;
    want(moveledger_new(&ledger) == MOVELEDGER_DONE, "a ledger is made");
    want(moveledger_apply(&ledger, stream, length, &answered, &report) == MOVELEDGER_DONE, "records are answered");
    want(moveledger_save(&ledger, &before) == MOVELEDGER_DONE, "a ledger is saved");
    try_arguments_of_ledgers(&ledger);
    try_arguments_of_modules();
    try_garbage(&ledger);
    want(moveledger_save(&ledger, &after) == MOVELEDGER_DONE, "a ledger is saved again");
    want(before.length == after.length && memcmp(before.bytes, after.bytes, after.length) == 0, "it is the same");
    moveledger_bytes_free(&before);
    moveledger_bytes_free(&after);
    moveledger_bytes_free(&report);
    want(report.bytes == NULL && report.length == 0, "freed bytes are gone");
    moveledger_free(&ledger);
}

/* What a thread is told, and what its ledger was saved as. */
struct minting {
    unsigned char salt;
    moveledger_bytes saved;
};

/* Mints coins at addresses of this thread's own, a call for each. */
static void *mint(void *given)
{
    struct minting *told = given;
    moveledger ledger = {NULL, 0};
    uint64_t answered = 0;
    uint8_t record[MOST];
    want(moveledger_new(&ledger) == MOVELEDGER_DONE, "a thread's ledger is made");
    memcpy(record, stream + FIRST, length - FIRST);
    record[SENDER] = told->salt;
    for (unsigned nth = 0; nth <= MINTS; ++nth) {
        moveledger_bytes report = {NULL, 0, NULL};
        const uint8_t *bytes = nth ? record : stream;
        record[SENDER + 1] = (uint8_t)(nth >> 8);
        record[SENDER + 2] = (uint8_t)nth;
        want(moveledger_apply(&ledger, bytes, nth ? length - FIRST : FIRST, &answered, &report) == MOVELEDGER_DONE, "a thread's records");
        moveledger_bytes_free(&report);
    }
    want(answered == MINTS + 1, "each record is counted");
    want(moveledger_save(&ledger, &told->saved) == MOVELEDGER_DONE, "a thread's ledger is saved");
    moveledger_free(&ledger);
    return NULL;
}

/* Two ledgers in two threads are as if each had been alone. */
static void try_threads(void)
{
    struct minting together[2] = {{.salt = 1}, {.salt = 2}}, alone[2] = {{.salt = 1}, {.salt = 2}};
    pthread_t threads[2];
    for (int at = 0; at < 2; ++at)
        want(pthread_create(&threads[at], NULL, mint, &together[at]) == 0, "a thread is started");
    for (int at = 0; at < 2; ++at)
        want(pthread_join(threads[at], NULL) == 0, "a thread ends");
    for (int at = 0; at < 2; ++at) {
        mint(&alone[at]);
        want(alone[at].saved.length == together[at].saved.length, "a thread's ledger is as long");
        want(memcmp(alone[at].saved.bytes, together[at].saved.bytes, alone[at].saved.length) == 0, "a thread's ledger");
        moveledger_bytes_free(&alone[at].saved);
        moveledger_bytes_free(&together[at].saved);
    }
}

/* What threads that use one ledger are told, and how often each status came. */
struct sharing {
    moveledger *ledger;
    bool is_writing;
    unsigned long done, busy, other;
};

enum { SHARERS = 6, WRITERS = 2, SHARED_CALLS = 2000 };

static void *share(void *given)
{
    struct sharing *told = given;
    for (unsigned nth = 0; nth < SHARED_CALLS; ++nth) {
        moveledger_bytes bytes = {NULL, 0, NULL};
        uint64_t answered = 1;
        uint8_t from[16] = {0}, is_more;
        const int32_t status = told->is_writing ? moveledger_apply(told->ledger, stream + FIRST, length - FIRST, &answered, &bytes)
                               : nth % 5 == 0   ? moveledger_show(told->ledger, MOVELEDGER_TEXT, &bytes)
                               : nth % 5 == 1   ? moveledger_show_value(told->ledger, ONE, &COIN, MOVELEDGER_JSON, &bytes)
                               : nth % 5 == 2   ? moveledger_show_page(told->ledger, &COIN, from, 9, MOVELEDGER_TEXT, &bytes, &is_more)
                               : nth % 5 == 3   ? moveledger_modules(told->ledger, &bytes)
                                                : moveledger_save(told->ledger, &bytes);
        *(status == MOVELEDGER_DONE ? &told->done : status == MOVELEDGER_BUSY ? &told->busy : &told->other) += 1;
        moveledger_bytes_free(&bytes);
    }
    return NULL;
}

/* Threads that use one ledger at once by mistake are told so, and the ledger stays; those that only read it are never refused. */
static void try_sharing(unsigned writers)
{
    moveledger ledger = {NULL, 0};
    struct sharing told[SHARERS] = {{0}};
    pthread_t threads[SHARERS];
    moveledger_bytes report = {NULL, 0, NULL}, saved = {NULL, 0, NULL};
    uint64_t answered = 0;
    want(moveledger_new(&ledger) == MOVELEDGER_DONE, "a shared ledger is made");
    want(moveledger_apply(&ledger, stream, length, &answered, &report) == MOVELEDGER_DONE, "records of a shared ledger");
    moveledger_bytes_free(&report);
    for (unsigned at = 0; at < SHARERS; ++at) {
        told[at].ledger = &ledger;
        told[at].is_writing = at < writers;
        want(pthread_create(&threads[at], NULL, share, &told[at]) == 0, "a thread is started");
    }
    unsigned long done = 0, busy = 0, other = 0;
    for (unsigned at = 0; at < SHARERS; ++at) {
        want(pthread_join(threads[at], NULL) == 0, "a thread ends");
        done += told[at].done, busy += told[at].busy, other += told[at].other;
    }
    want(other == 0, "calls on a ledger that is in use are done, or told so");
    want(done > 0 && (writers > 0 || busy == 0), "calls that only read a ledger are never refused");
    want(ledger.users == 0, "no call uses the ledger any more");
    want(moveledger_save(&ledger, &saved) == MOVELEDGER_DONE && saved.length > 0, "the ledger is there afterwards");
    moveledger_bytes_free(&saved);
    /* A call that is at work is met by one that would free the ledger. */
    ledger.users = 1;
    want(moveledger_free(&ledger) == MOVELEDGER_BUSY && ledger.own != NULL, "a ledger that is read isn't freed");
    want(moveledger_save(&ledger, &saved) == MOVELEDGER_DONE, "a ledger that is read is read by another");
    moveledger_bytes_free(&saved);
    ledger.users = -1;
    want(moveledger_save(&ledger, &saved) == MOVELEDGER_BUSY && saved.bytes == NULL, "a ledger that is changed isn't read");
    ledger.users = 0;
    want(moveledger_free(&ledger) == MOVELEDGER_DONE && ledger.own == NULL, "a ledger is freed");
    want(moveledger_free(&ledger) == MOVELEDGER_DONE, "a ledger is freed twice");
    want(moveledger_save(&ledger, &saved) == MOVELEDGER_ARGUMENTS, "a freed ledger holds none");
}

/* The memory that the process has, in bytes. */
static long resident(void)
{
    long pages = 0;
    FILE *file = fopen("/proc/self/statm", "r");
    if (!file || fscanf(file, "%*s %ld", &pages) != 1)
        want(false, "the system tells the memory");
    if (file)
        fclose(file);
    return pages * 4096;
}

/* Records that change nothing but the number of runs take no memory that stays. Few of them don't tell: where a tool runs the program,
 * the tool's own memory grows. */
static void try_often(unsigned long count)
{
    moveledger ledger = {NULL, 0};
    uint64_t answered = 0;
    long before = 0;
    moveledger_bytes report = {NULL, 0, NULL};
    want(moveledger_new(&ledger) == MOVELEDGER_DONE, "a ledger is made");
    want(moveledger_apply(&ledger, stream, length, &answered, &report) == MOVELEDGER_DONE, "records are answered");
    moveledger_bytes_free(&report);
    for (unsigned long nth = 0; nth < count + count / 10; ++nth) {
        if (nth == count / 10)
            before = resident();
        if (moveledger_apply(&ledger, stream + FIRST, length - FIRST, &answered, &report) != MOVELEDGER_DONE)
            want(false, "a mint is answered");
        moveledger_bytes_free(&report);
    }
    long after = resident();
    printf("calls: %lu applies, %ld bytes before and %ld after\n", count, before, after);
    want(count < TELLING || after <= before + ALLOWED_GROWTH, "memory stays flat");
    moveledger_free(&ledger);
}

int main(int words, char **word)
{
    FILE *file = words > 1 ? fopen(word[1], "rb") : NULL;
    if (!file) {
        fprintf(stderr, "usage: calls STREAM [COUNT]\n");
        return 2;
    }
    length = fread(stream, 1, sizeof stream, file);
    fclose(file);
    try_arguments();
    try_constant();
    try_busy();
    try_questions();
    try_threads();
    const unsigned long often = words > 2 ? strtoul(word[2], NULL, 10) : FIRST_COUNT;
    try_sharing(0);
    /* A tool that looks for races knows locks, and not that a call is alone which has changed the number of users. */
    if (often >= TELLING)
        try_sharing(WRITERS);
    try_often(often);
    printf("calls: %s\n", failures ? "FAILED" : "as wanted");
    return failures != 0;
}
