/* Refuses each request for memory of calls in turn: the call says so, and nothing is lost but what it says. It does so with that
 * request alone, and with all behind it; a list that asked for room to spare may ask for less and go on, and then its answer has to
 * be the right one. Behind each no block of memory is left. In a block of the ledger, what was answered until memory ran out is taken
 * back, without a request for memory, and the ledger is what it was where the block was opened.
 * usage: refused STREAM [LEDGER]    answers the records, of the ledger that is loaded, if one is given; then it loads and saves
 * what they leave, and makes and checks a certificate of each module that they publish. What went wrong is printed, and the status
 * is 1. */
#include "moveledger.h"

#include <stdbool.h>
#include <stdio.h>
#include <stdlib.h>
#include <string.h>

extern void *__libc_malloc(size_t size);
extern void *__libc_realloc(void *old, size_t size);

extern void __libc_free(void *block);

/* The requests that are refused, by their numbers, how many were made, and how many blocks there are. */
static unsigned long from = (unsigned long)-1, to, met;
static long blocks;

static bool is_refused(void)
{
    ++met;
    return from <= met && met <= to;
}

void *malloc(size_t size)
{
    void *block = is_refused() ? NULL : __libc_malloc(size);
    blocks += block != NULL;
    return block;
}

void *realloc(void *old, size_t size)
{
    void *block = is_refused() ? NULL : __libc_realloc(old, size);
    blocks += block != NULL && old == NULL;
    return block;
}

void free(void *block)
{
    blocks -= block != NULL;
    __libc_free(block);
}

enum { MOST = 1 << 20, MOST_RECORDS = 4096 };

static uint8_t stream[MOST], first_ledger[MOST];
static size_t stream_length, ledger_length, ends[MOST_RECORDS + 1], told[MOST_RECORDS + 1], count;
static moveledger_bytes states[MOST_RECORDS + 1], whole;
static unsigned long refused, wrong;

static void want(bool holds, const char *what)
{
    if (!holds) {
        printf("refused: wrong: %s, request %lu\n", what, from);
        ++wrong;
    }
}

static void refuse(unsigned long first, unsigned long last)
{
    met = 0;
    from = first;
    to = last;
}

static void refuse_none(void)
{
    from = (unsigned long)-1;
}

static bool are_equal(const moveledger_bytes *one, const moveledger_bytes *other)
{
    return one->length == other->length && memcmp(one->bytes, other->bytes, one->length) == 0;
}

static bool is_beginning(const moveledger_bytes *part, const moveledger_bytes *of)
{
    return part->length <= of->length && (!part->length || memcmp(part->bytes, of->bytes, part->length) == 0);
}

/* The ledger that all begins with. */
static moveledger begun(void)
{
    moveledger ledger = {NULL, 0};
    uint8_t why;
    int32_t status = ledger_length ? moveledger_load(first_ledger, ledger_length, &ledger, &why) : moveledger_new(&ledger);
    want(status == MOVELEDGER_DONE, "the first ledger");
    return ledger;
}

static moveledger_bytes saved(moveledger *ledger)
{
    moveledger_bytes text = {NULL, 0, NULL};
    want(moveledger_save(ledger, &text) == MOVELEDGER_DONE, "a ledger is saved");
    return text;
}

/* A length at a place, and the place behind it. */
static size_t number(const uint8_t *bytes, size_t *at)
{
    size_t value = 0;
    for (int shift = 0;; shift += 7) {
        uint8_t byte = bytes[(*at)++];
        value |= (size_t)(byte & 127) << shift;
        if (byte < 128)
            return value;
    }
}

/* Notes where records end, what each leaves, and the whole report with the place where the lines of each end. */
static void note_states(void)
{
    moveledger ledger = begun();
    uint64_t answered = 0;
    states[0] = saved(&ledger);
    while (ends[count] < stream_length && count < MOST_RECORDS) {
        size_t at = ends[count] + 1, size = number(stream, &at), begin = ends[count];
        ends[++count] = at + size < stream_length ? at + size : stream_length;
        want(moveledger_apply(&ledger, stream + begin, ends[count] - begin, &answered, &whole) == MOVELEDGER_DONE, "a record");
        states[count] = saved(&ledger);
        told[count] = whole.length;
    }
    moveledger_free(&ledger);
}

/* What is wanted behind a call that found no memory: the state of the records that are counted, from which the rest goes on. */
static void want_begun(moveledger *ledger, uint64_t answered, const moveledger_bytes *report)
{
    moveledger_bytes at = saved(ledger), rest = {NULL, 0, NULL};
    want(answered <= count && are_equal(&at, &states[answered]), "the ledger is as the records that are counted left it");
    want(report->length >= told[answered], "their lines are in the report");
    moveledger_bytes_free(&at);
    want(moveledger_apply(ledger, stream + ends[answered], stream_length - ends[answered], &answered, &rest) == MOVELEDGER_DONE, "the rest");
    moveledger_bytes_free(&rest);
    at = saved(ledger);
    want(are_equal(&at, &states[count]), "the ledger goes on");
    moveledger_bytes_free(&at);
}

/* One call that answers all records. */
static bool try_apply(unsigned long nth, unsigned long last)
{
    moveledger ledger = begun();
    moveledger_bytes report = {NULL, 0, NULL};
    uint64_t answered = 0;
    refuse(nth, last);
    int32_t status = moveledger_apply(&ledger, stream, stream_length, &answered, &report);
    bool is_over = met < nth;
    refuse_none();
    want(is_beginning(&report, &whole), "the report is a beginning");
    if (status == MOVELEDGER_MEMORY)
        want_begun(&ledger, answered, &report);
    else
        want(status == MOVELEDGER_DONE && report.length == whole.length && answered == count, "all is answered");
    moveledger_bytes_free(&report);
    moveledger_free(&ledger);
    return is_over;
}

/* The ledger is as it was before all records, and no block is open. */
static void want_first(moveledger *ledger)
{
    moveledger_bytes text = saved(ledger);
    want(are_equal(&text, &states[0]), "the ledger is as it was before the block");
    want(moveledger_rollback(ledger) == MOVELEDGER_NO_BLOCK, "no block is open");
    moveledger_bytes_free(&text);
}

/* Calls that close a block: they ask for no memory. */
static void want_closed(int32_t (*call)(moveledger_own *), moveledger *ledger, const char *what)
{
    moveledger_own own = {ledger->own};
    refuse(1, (unsigned long)-2);
    want(call(&own) == MOVELEDGER_DONE && met == 0, what);
    refuse_none();
    ledger->own = own.own;
}

/* A block is opened, or memory runs out and nothing has changed. */
static bool try_begin(unsigned long nth, unsigned long last)
{
    moveledger ledger = begun();
    refuse(nth, last);
    int32_t status = moveledger_begin(&ledger);
    bool is_over = met < nth;
    refuse_none();
    want(status == MOVELEDGER_DONE || status == MOVELEDGER_MEMORY, "a block, or no memory");
    if (status == MOVELEDGER_DONE)
        want_closed((moveledger_rollback), &ledger, "an empty block is taken back");
    want_first(&ledger);
    moveledger_free(&ledger);
    return is_over;
}

/* All records in a block in a block: what was answered until memory ran out is taken back. */
static bool try_block(unsigned long nth, unsigned long last)
{
    moveledger ledger = begun();
    moveledger_bytes report = {NULL, 0, NULL};
    uint64_t answered = 0;
    want(moveledger_begin(&ledger) == MOVELEDGER_DONE && moveledger_begin(&ledger) == MOVELEDGER_DONE, "two blocks are opened");
    refuse(nth, last);
    int32_t status = moveledger_apply(&ledger, stream, stream_length, &answered, &report);
    bool is_over = met < nth;
    refuse_none();
    want(is_beginning(&report, &whole), "the report is a beginning in a block");
    want(status == MOVELEDGER_MEMORY || (status == MOVELEDGER_DONE && answered == count), "all is answered in a block, or no memory");
    if (nth % 2)
        want_closed((moveledger_commit), &ledger, "the inner block is kept");
    else
        want_closed((moveledger_rollback), &ledger, "the inner block is taken back");
    want_closed((moveledger_rollback), &ledger, "the outer block is taken back");
    want_first(&ledger);
    moveledger_bytes_free(&report);
    moveledger_free(&ledger);
    return is_over;
}

/* A call that gives bytes of a ledger: what they have to be is what a call gives to which nothing is refused. */
typedef int32_t question(moveledger *ledger, moveledger_bytes *bytes);

static int32_t ask_text(moveledger *ledger, moveledger_bytes *bytes)
{
    return moveledger_show(ledger, MOVELEDGER_TEXT, bytes);
}

static int32_t ask_json(moveledger *ledger, moveledger_bytes *bytes)
{
    return moveledger_show(ledger, MOVELEDGER_JSON, bytes);
}

static int32_t ask_audit(moveledger *ledger, moveledger_bytes *bytes)
{
    return moveledger_audit(ledger, MOVELEDGER_TEXT, bytes);
}

static int32_t ask_loaded(moveledger *ledger, moveledger_bytes *bytes)
{
    moveledger other = {NULL, 0};
    uint8_t why = 0;
    (void)ledger;
    int32_t status = moveledger_load(states[count].bytes, states[count].length, &other, &why);
    if (status == MOVELEDGER_DONE)
        status = moveledger_save(&other, bytes);
    moveledger_free(&other);
    return status;
}

static int32_t ask_migrated(moveledger *ledger, moveledger_bytes *bytes)
{
    const moveledger_bytes *last = &states[count];
    uint8_t why = 0;
    (void)ledger;
    return ledger_length ? moveledger_migrate(first_ledger, ledger_length, bytes, &why)
                         : moveledger_migrate(last->bytes, last->length, bytes, &why);
}

static int32_t ask_saved(moveledger *ledger, moveledger_bytes *saved)
{
    return moveledger_save(ledger, saved);
}

/* A struct and an address that the examples have; where they aren't, the answers are of nothing. */
static const moveledger_struct COIN = {{[15] = 1}, "M", "Coin"};
static const uint8_t ONE[16] = {[15] = 1};

static int32_t ask_at(moveledger *ledger, moveledger_bytes *lines)
{
    return moveledger_show_at(ledger, ONE, MOVELEDGER_TEXT, lines);
}

static int32_t ask_at_json(moveledger *ledger, moveledger_bytes *lines)
{
    return moveledger_show_at(ledger, ONE, MOVELEDGER_JSON, lines);
}

/* A page, or nothing; where memory runs out nothing else is told. */
static int32_t ask_page(moveledger *ledger, moveledger_bytes *lines)
{
    uint8_t start[16] = {0}, is_more = 1;
    const int32_t status = moveledger_show_page(ledger, &COIN, start, 100, MOVELEDGER_JSON, lines, &is_more);
    want(status == MOVELEDGER_DONE || (is_more == 0 && memcmp(start, (uint8_t[16]){0}, 16) == 0), "a page without memory");
    return status == MOVELEDGER_ABSENT ? (int32_t)MOVELEDGER_DONE : status;
}

/* A value, or nothing. */
static int32_t ask_value(moveledger *ledger, moveledger_bytes *lines)
{
    const int32_t status = moveledger_show_value(ledger, ONE, &COIN, MOVELEDGER_TEXT, lines);
    return status == MOVELEDGER_ABSENT ? (int32_t)MOVELEDGER_DONE : status;
}

static int32_t ask_names(moveledger *ledger, moveledger_bytes *names)
{
    return moveledger_modules(ledger, names);
}

/* A module's certificate; its bytes are given with it, or neither is. */
static int32_t ask_module(moveledger *ledger, moveledger_bytes *certificate)
{
    moveledger_bytes text = {NULL, 0, NULL};
    const int32_t status = moveledger_module(ledger, ONE, "M", &text, certificate);
    want(status == MOVELEDGER_DONE ? text.length > 0 : text.bytes == NULL && certificate->bytes == NULL, "both texts, or neither");
    moveledger_bytes_free(&text);
    return status == MOVELEDGER_ABSENT ? (int32_t)MOVELEDGER_DONE : status;
}

static question *const QUESTIONS[] = {ask_saved,   ask_text, ask_json, ask_audit, ask_loaded, ask_migrated, ask_at,
                                      ask_at_json, ask_page, ask_value, ask_names, ask_module};
static question *asked;
static moveledger *asked_ledger;

static bool try_question(unsigned long nth, unsigned long last)
{
    moveledger_bytes wanted = {NULL, 0, NULL}, found = {NULL, 0, NULL};
    want(asked(asked_ledger, &wanted) == MOVELEDGER_DONE, "a question is answered");
    refuse(nth, last);
    int32_t status = asked(asked_ledger, &found);
    bool is_over = met < nth;
    refuse_none();
    want(status == MOVELEDGER_DONE ? are_equal(&found, &wanted) : status == MOVELEDGER_MEMORY, "the answer, or no memory");
    moveledger_bytes_free(&wanted);
    moveledger_bytes_free(&found);
    return is_over;
}

static const uint8_t *module;
static size_t module_length;

/* A certificate is made, and checked. */
static bool try_module(unsigned long nth, unsigned long last)
{
    moveledger_bytes wanted = {NULL, 0, NULL}, found = {NULL, 0, NULL};
    uint8_t why = 0;
    bool is_proved = moveledger_prove(module, module_length, &wanted, &why) == MOVELEDGER_DONE;
    refuse(nth, last);
    int32_t status = moveledger_prove(module, module_length, &found, &why);
    if (status == MOVELEDGER_DONE)
        status = moveledger_check(module, module_length, found.bytes, found.length, &why);
    bool is_over = met < nth;
    refuse_none();
    want(status == MOVELEDGER_MEMORY || (is_proved ? status == MOVELEDGER_DONE && are_equal(&found, &wanted)
                                                   : status == MOVELEDGER_REFUSED || status == MOVELEDGER_TOO_COMPLEX),
         "a certificate, or no memory");
    moveledger_bytes_free(&wanted);
    moveledger_bytes_free(&found);
    return is_over;
}

/* Refuses each request of what is tried, until it makes fewer. */
static void refuse_each(bool (*try)(unsigned long, unsigned long))
{
    long before = blocks;
    for (int is_alone = 0; is_alone < 2; ++is_alone)
        for (unsigned long nth = 1; !try(nth, is_alone ? nth : (unsigned long)-2); ++nth) {
            ++refused;
            if (blocks != before) {
                printf("refused: wrong: %ld blocks are left, request %lu\n", blocks - before, nth);
                ++wrong;
                before = blocks;
            }
        }
}

/* Tries the modules of a publish record, whose payload begins at a place. */
static void try_modules(size_t at, size_t end)
{
    size_t place = at + 16, offers = end > place ? number(stream, &place) : 0;
    for (; offers > 0 && place < end; --offers) {
        module_length = number(stream, &place);
        module = stream + place;
        if (module_length > end - place)
            return;
        refuse_each(try_module);
        place += module_length;
        place += number(stream, &place);
    }
}

static size_t read_file(const char *name, uint8_t *bytes)
{
    FILE *file = fopen(name, "rb");
    size_t length = file ? fread(bytes, 1, MOST, file) : 0;
    want(file && length < MOST, name);
    if (file)
        fclose(file);
    return length;
}

int main(int words, char **word)
{
    if (words < 2) {
        fprintf(stderr, "usage: refused STREAM [LEDGER]\n");
        return 2;
    }
    stream_length = read_file(word[1], stream);
    ledger_length = words > 2 ? read_file(word[2], first_ledger) : 0;
    note_states();
    refuse_each(try_apply);
    refuse_each(try_begin);
    refuse_each(try_block);
    uint8_t why = 0;
    moveledger last = {NULL, 0};
    want(moveledger_load(states[count].bytes, states[count].length, &last, &why) == MOVELEDGER_DONE, "the last ledger");
    asked_ledger = &last;
    for (size_t at = 0; at < sizeof QUESTIONS / sizeof *QUESTIONS; ++at) {
        asked = QUESTIONS[at];
        refuse_each(try_question);
    }
    moveledger_free(&last);
    for (size_t nth = 0; nth < count; ++nth) {
        size_t at = ends[nth] + 1, size = number(stream, &at);
        if (stream[ends[nth]] == 1 && at + size <= stream_length)
            try_modules(at, at + size);
    }
    printf("refused: %s: %lu requests refused, %lu wrong\n", word[1], refused, wrong);
    return wrong != 0;
}
