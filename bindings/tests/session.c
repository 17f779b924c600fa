/* Carries out calls of the library that are told on standard input, a line each, and prints what each answers. Bytes are
 * hexadecimal, `-` where there are none; a form is 0 or 1.
 *
 *     new | load BYTES | free | apply BYTES | save | show FORM | audit FORM
 *     prove BYTES | check BYTES BYTES | migrate BYTES
 *     show_at ADDRESS FORM | show_value ADDRESS HOME MODULE NAME FORM | show_page FROM HOME MODULE NAME MOST FORM
 *     modules | module ADDRESS NAME | runs | tally HOME MODULE NAME
 *
 * ADDRESS, HOME and FROM are 16 bytes, MODULE and NAME texts, and MOST is a byte. Questions by names and addresses are asked of the
 * library itself, with lengths. What they give is one behind the other where there are two, and a number's 8 bytes are given, the lowest
 * first. A page's reason is whether another one follows.
 *
 * There is one ledger at a time. An answer is `STATUS WHY ANSWERED BYTES`: the name that the header has for the status, the reason (0
 * where the call has none), how many records the ledger answered, and what the call gave. usage: session < CALLS
 */
#include "moveledger.h"

#include <stdbool.h>
#include <stdio.h>
#include <stdlib.h>
#include <string.h>

/* A line is a word and so many texts at most. */
enum { MOST_PARTS = 6 };

struct part {
    uint8_t *bytes;
    size_t length;
};

/* What a call is told and answers. */
struct call {
    struct part parts[MOST_PARTS];
    int32_t status;
    uint8_t why;
    moveledger_bytes given, second;
    uint64_t numbers[2];
    int count_of_numbers;
};

static moveledger ledger;
static uint64_t answered;

static void fail(const char *what)
{
    fprintf(stderr, "session: %s\n", what);
    exit(2);
}

static uint8_t digit(char letter)
{
    const char *digits = "0123456789abcdef", *found = letter ? strchr(digits, letter) : NULL;
    if (!found)
        fail("a byte is two hexadecimal digits");
    return (uint8_t)(found - digits);
}

/* The bytes of a text, in memory of their own size, so that a read behind them is found. */
static struct part decoded(const char *text)
{
    size_t length = strcmp(text, "-") == 0 ? 0 : strlen(text) / 2;
    struct part part = {malloc(length ? length : 1), length};
    if (!part.bytes)
        fail("no memory");
    for (size_t at = 0; at < length; ++at)
        part.bytes[at] = (uint8_t)(digit(text[2 * at]) << 4 | digit(text[2 * at + 1]));
    return part;
}

static void forget_ledger(void)
{
    moveledger_free(&ledger);
    answered = 0;
}

static void call_new(struct call *call)
{
    forget_ledger();
    call->status = moveledger_new(&ledger);
}

static void call_load(struct call *call)
{
    forget_ledger();
    call->status = moveledger_load(call->parts[0].bytes, call->parts[0].length, &ledger, &call->why);
}

static void call_free(struct call *call)
{
    (void)call;
    forget_ledger();
}

static void call_apply(struct call *call)
{
    call->status = moveledger_apply(&ledger, call->parts[0].bytes, call->parts[0].length, &answered, &call->given);
}

static void call_save(struct call *call)
{
    call->status = moveledger_save(&ledger, &call->given);
}

/* The form that a call is told. */
static uint32_t form_of(const struct call *call)
{
    return call->parts[0].length ? call->parts[0].bytes[0] : (uint32_t)MOVELEDGER_TEXT;
}

static void call_show(struct call *call)
{
    call->status = moveledger_show(&ledger, form_of(call), &call->given);
}

static void call_audit(struct call *call)
{
    call->status = moveledger_audit(&ledger, form_of(call), &call->given);
}

static void call_prove(struct call *call)
{
    call->status = moveledger_prove(call->parts[0].bytes, call->parts[0].length, &call->given, &call->why);
}

static void call_check(struct call *call)
{
    const struct part *module = &call->parts[0], *certificate = &call->parts[1];
    call->status = moveledger_check(module->bytes, module->length, certificate->bytes, certificate->length, &call->why);
}

static void call_migrate(struct call *call)
{
    call->status = moveledger_migrate(call->parts[0].bytes, call->parts[0].length, &call->given, &call->why);
}

/* What the library itself takes as the ledger: the calls below only read it. */
static moveledger_own own(void)
{
    return (moveledger_own){ledger.own};
}

/* The form that a call is told last. */
static uint32_t last_form(const struct call *call, int at)
{
    return call->parts[at].length ? call->parts[at].bytes[0] : (uint32_t)MOVELEDGER_TEXT;
}

static void call_show_at(struct call *call)
{
    moveledger_own it = own();
    call->status = (moveledger_show_at)(&it, call->parts[0].bytes, last_form(call, 1), &call->given);
}

static void call_show_value(struct call *call)
{
    const struct part *parts = call->parts, *module = parts + 2, *name = parts + 3;
    moveledger_own it = own();
    call->status = (moveledger_show_value)(&it, parts[0].bytes, parts[1].bytes, module->bytes, module->length, name->bytes,
                                           name->length, last_form(call, 4), &call->given);
}

static void call_show_page(struct call *call)
{
    const struct part *parts = call->parts, *module = parts + 2, *name = parts + 3;
    moveledger_own it = own();
    call->status = (moveledger_show_page)(&it, parts[1].bytes, module->bytes, module->length, name->bytes, name->length,
                                          parts[0].bytes, parts[4].bytes[0], last_form(call, 5), &call->given, &call->why);
}

static void call_modules(struct call *call)
{
    moveledger_own it = own();
    call->status = (moveledger_modules)(&it, &call->given);
}

static void call_module(struct call *call)
{
    const struct part *name = &call->parts[1];
    moveledger_own it = own();
    call->status = (moveledger_module)(&it, call->parts[0].bytes, name->bytes, name->length, &call->given, &call->second);
}

static void call_runs(struct call *call)
{
    moveledger_own it = own();
    call->status = (moveledger_runs)(&it, call->numbers);
    call->count_of_numbers = 1;
}

static void call_tally(struct call *call)
{
    const struct part *parts = call->parts;
    moveledger_own it = own();
    call->status = (moveledger_tally)(&it, parts[0].bytes, parts[1].bytes, parts[1].length, parts[2].bytes, parts[2].length,
                                      &call->numbers[0], &call->numbers[1]);
    call->count_of_numbers = 2;
}

static const struct {
    const char *word;
    int parts;
    void (*make)(struct call *);
} CALLS[] = {
    {"new", 0, call_new},   {"load", 1, call_load},   {"free", 0, call_free},   {"apply", 1, call_apply},
    {"save", 0, call_save}, {"show", 1, call_show},   {"audit", 1, call_audit}, {"prove", 1, call_prove},
    {"check", 2, call_check}, {"migrate", 1, call_migrate}, {"show_at", 2, call_show_at}, {"show_value", 5, call_show_value},
    {"show_page", 6, call_show_page}, {"modules", 0, call_modules}, {"module", 2, call_module}, {"runs", 0, call_runs},
    {"tally", 3, call_tally},
};

/* What a status means, by the header's numbers. */
static const char *name_of(int32_t status)
{
    switch (status) {
    case MOVELEDGER_DONE:
        return "done";
    case MOVELEDGER_REFUSED:
        return "refused";
    case MOVELEDGER_LOAD_REFUSED:
        return "load_refused";
    case MOVELEDGER_TOO_COMPLEX:
        return "too_complex";
    case MOVELEDGER_MEMORY:
        return "memory";
    case MOVELEDGER_ARGUMENTS:
        return "arguments";
    case MOVELEDGER_ABSENT:
        return "absent";
    default:
        return "unknown";
    }
}

static void print_bytes(const moveledger_bytes *bytes)
{
    for (size_t at = 0; at < bytes->length; ++at)
        printf("%02x", bytes->bytes[at]);
}

static void print(const struct call *call)
{
    printf("%s %d %llu ", name_of(call->status), call->why, (unsigned long long)answered);
    print_bytes(&call->given);
    print_bytes(&call->second);
    for (int nth = 0; nth < call->count_of_numbers; ++nth)
        for (int at = 0; at < 64; at += 8)
            printf("%02x", (unsigned)(call->numbers[nth] >> at & 255));
    puts(call->given.length || call->second.length || call->count_of_numbers ? "" : "-");
}

/* Makes the call that a line tells. */
static void carry_out(char *line)
{
    struct call call = {.status = MOVELEDGER_DONE};
    const char *word = strtok(line, " \n");
    int found = 0;
    for (char *text; found < MOST_PARTS && (text = strtok(NULL, " \n"));)
        call.parts[found++] = decoded(text);
    for (size_t at = 0; at < sizeof CALLS / sizeof *CALLS; ++at)
        if (word && strcmp(word, CALLS[at].word) == 0 && found == CALLS[at].parts) {
            CALLS[at].make(&call);
            print(&call);
            moveledger_bytes_free(&call.given);
            moveledger_bytes_free(&call.second);
            while (found > 0)
                free(call.parts[--found].bytes);
            return;
        }
    fail("a line isn't understood");
}

int main(void)
{
    char *line = NULL;
    size_t room = 0;
    while (getline(&line, &room, stdin) > 0)
        carry_out(line);
    free(line);
    forget_ledger();
    return 0;
}
