/* Makes calls in a thread whose stack is moveledger_stack_bytes long: records are applied in a block that is taken back and then for good,
 * changes and what is stored are told, the ledger is saved, whole and in pieces, and loaded, and a certificate is sought.
 * usage: stack STREAM MODULE    the records, and a module. What went wrong is printed, and the status is 1; where the stack doesn't suffice
 *        the system ends it by a signal. */
#include "moveledger.h"

#include <pthread.h>
#include <stdbool.h>
#include <stdio.h>
#include <stdlib.h>

enum { MOST = 1 << 20 };

static uint8_t stream[MOST], module[MOST];
static size_t length, module_length;
static int failures;

static void want(bool holds, const char *what)
{
    if (!holds) {
        printf("stack: wrong: %s\n", what);
        ++failures;
    }
}

/* The bytes that a call gave are freed. */
static void give_back(moveledger_bytes *bytes, int32_t status, const char *what)
{
    want(status == MOVELEDGER_DONE, what);
    moveledger_bytes_free(bytes);
}

static int take_piece(void *context, const uint8_t *bytes, size_t count)
{
    (void)bytes;
    *(size_t *)context += count;
    return 0;
}

static void *make_calls(void *unused)
{
    moveledger ledger = {NULL, 0}, loaded = {NULL, 0};
    moveledger_bytes report = {NULL, 0, NULL}, saved = {NULL, 0, NULL}, told = {NULL, 0, NULL};
    uint64_t answered = 0;
    size_t written = 0;
    uint8_t why = 0;
    (void)unused;
    want(moveledger_new(&ledger) == MOVELEDGER_DONE, "new");
    want(moveledger_begin(&ledger) == MOVELEDGER_DONE, "begin");
    give_back(&report, moveledger_apply(&ledger, stream, length, &answered, &report), "apply in a block");
    give_back(&told, moveledger_changes(&ledger, &told, &report), "changes");
    moveledger_bytes_free(&report);
    want(moveledger_rollback(&ledger) == MOVELEDGER_DONE, "rollback");
    answered = 0;
    give_back(&report, moveledger_apply(&ledger, stream, length, &answered, &report), "apply");
    give_back(&told, moveledger_show(&ledger, MOVELEDGER_JSON, &told), "show");
    give_back(&told, moveledger_audit(&ledger, MOVELEDGER_TEXT, &told), "audit");
    want(moveledger_save_to(&ledger, take_piece, &written) == MOVELEDGER_DONE, "save in pieces");
    want(moveledger_save(&ledger, &saved) == MOVELEDGER_DONE && saved.length == written, "save");
    want(moveledger_load(saved.bytes, saved.length, &loaded, &why) == MOVELEDGER_DONE, "load");
    give_back(&told, moveledger_prove(module, module_length, &told, &why), "prove");
    moveledger_bytes_free(&saved);
    moveledger_free(&loaded);
    moveledger_free(&ledger);
    return NULL;
}

static size_t read_file(const char *name, uint8_t *bytes)
{
    FILE *file = fopen(name, "rb");
    size_t count = 0;
    if (!file || (count = fread(bytes, 1, MOST, file)) == 0) {
        fprintf(stderr, "stack: %s can't be read\n", name);
        exit(2);
    }
    fclose(file);
    return count;
}

int main(int words, char **word)
{
    pthread_attr_t attributes;
    pthread_t thread;
    if (words != 3) {
        fprintf(stderr, "usage: stack STREAM MODULE\n");
        return 2;
    }
    length = read_file(word[1], stream);
    module_length = read_file(word[2], module);
    if (pthread_attr_init(&attributes) || pthread_attr_setstacksize(&attributes, moveledger_stack_bytes)
        || pthread_create(&thread, &attributes, make_calls, NULL) || pthread_join(thread, NULL)) {
        fprintf(stderr, "stack: there is no such thread\n");
        return 2;
    }
    pthread_attr_destroy(&attributes);
    if (!failures)
        printf("stack: as wanted\n");
    return failures != 0;
}
