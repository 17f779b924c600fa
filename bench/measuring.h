/* What measuring programs over the library have in common: a file's records, and the processor's clock. */
#define _POSIX_C_SOURCE 200809L
#include "moveledger.h"

#include <stdio.h>
#include <stdlib.h>
#include <string.h>
#include <time.h>

static uint8_t *records;
static size_t length;

static void expect(const char *call, int32_t status)
{
    if (status != MOVELEDGER_DONE) {
        fprintf(stderr, "%s answers %d\n", call, (int)status);
        exit(1);
    }
}

static void read_file(const char *name)
{
    FILE *file = fopen(name, "rb");
    if (!file || fseek(file, 0, SEEK_END) != 0 || ftell(file) < 0) {
        perror(name);
        exit(1);
    }
    length = (size_t)ftell(file);
    rewind(file);
    records = malloc(length + 1);
    if (!records || fread(records, 1, length, file) != length) {
        perror(name);
        exit(1);
    }
    fclose(file);
}

/* Answers the records between two places. */
static void apply(moveledger *ledger, size_t begin, size_t end, uint64_t *answered, size_t *written)
{
    moveledger_bytes report = {NULL, 0, NULL};
    expect("apply", moveledger_apply(ledger, records + begin, end - begin, answered, &report));
    *written += report.length;
    moveledger_bytes_free(&report);
}

/* The processor's seconds so far, which other programs change little. */
static double seconds(void)
{
    struct timespec now;
    clock_gettime(CLOCK_PROCESS_CPUTIME_ID, &now);
    return (double)now.tv_sec + (double)now.tv_nsec * 1e-9;
}
