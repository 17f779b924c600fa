/* Answers the records of a file by the library, for embedding.py to measure.
 * usage: embedding once FILE     all records in one call
 *        embedding each FILE     a call for each record, whose report is freed
 *        embedding nothing FILE  reads the file alone, and goes over its records
 *        embedding half FILE     the first half of its bytes, up to the end of a record
 *        embedding parts FILE    the same, and then the others in calls of 1,000 records
 *        embedding blocks FILE   the same, but each such call in a block that is taken back
 *        embedding saved FILE    in calls of 1,000 records; then it saves the ledger in pieces, and prints the seconds, the bytes, and by how
 *                                many KB that raises the most memory that the process had
 *        embedding kept FILE     all in one call; then it saves the ledger and loads it, and prints the seconds of both, and the bytes */
#include "measuring.h"

#include <sys/resource.h>

/* Where the record that begins at a place ends. */
static size_t end_of(size_t begin)
{
    size_t at = begin + 1, size = 0;
    for (int shift = 0; at < length; shift += 7) {
        uint8_t byte = records[at++];
        size |= (size_t)(byte & 127) << shift;
        if (byte < 128)
            break;
    }
    return size < length - at ? at + size : length;
}

/* Answers the records from a place on in calls of 1,000, each in a block that is taken back, or without one. */
static void answer_parts(moveledger *ledger, size_t begin, int are_blocks, uint64_t *answered, size_t *written)
{
    for (size_t end; begin < length; begin = end) {
        uint64_t number = *answered;
        end = begin;
        for (int count = 0; count < 1000 && end < length; ++count)
            end = end_of(end);
        if (are_blocks)
            expect("begin", moveledger_begin(ledger));
        apply(ledger, begin, end, are_blocks ? &number : answered, written);
        if (are_blocks)
            expect("rollback", moveledger_rollback(ledger));
    }
}

/* Answers the first half of the records, and returns where it ends. */
static size_t answer_half(moveledger *ledger, uint64_t *answered, size_t *written)
{
    size_t end = 0;
    while (end < length / 2)
        end = end_of(end);
    apply(ledger, 0, end, answered, written);
    return end;
}

/* The most memory that the process had so far, in KB. */
static long most_memory(void)
{
    struct rusage used;
    getrusage(RUSAGE_SELF, &used);
    return used.ru_maxrss;
}

static int count_bytes(void *count, const uint8_t *bytes, size_t size)
{
    *(size_t *)count += size;
    return bytes == NULL;
}

/* Saves a ledger in pieces, and prints what that takes. */
static void save_in_pieces(const moveledger *ledger)
{
    size_t saved = 0;
    const long before = most_memory();
    const double start = seconds();
    expect("save_to", moveledger_save_to(ledger, count_bytes, &saved));
    printf("%f %zu %ld\n", seconds() - start, saved, most_memory() - before);
}

/* Saves a ledger and loads it, and prints how long each takes. */
static void keep(moveledger *ledger)
{
    moveledger_bytes saved = {NULL, 0, NULL};
    moveledger again = {NULL};
    uint8_t why;
    double start = seconds();
    expect("save", moveledger_save(ledger, &saved));
    double middle = seconds();
    expect("load", moveledger_load(saved.bytes, saved.length, &again, &why));
    printf("%f %f %zu\n", middle - start, seconds() - middle, saved.length);
    moveledger_free(&again);
    moveledger_bytes_free(&saved);
}

int main(int words, char **word)
{
    moveledger ledger = {NULL};
    uint64_t answered = 0;
    size_t written = 0;
    if (words != 3) {
        fprintf(stderr, "usage: embedding once|each|nothing|half|parts|blocks|saved|kept FILE\n");
        return 2;
    }
    read_file(word[2]);
    expect("new", moveledger_new(&ledger));
    if (strcmp(word[1], "each") == 0 || strcmp(word[1], "nothing") == 0) {
        for (size_t begin = 0, end; begin < length; begin = end) {
            end = end_of(begin);
            if (word[1][0] == 'e')
                apply(&ledger, begin, end, &answered, &written);
        }
    } else if (strcmp(word[1], "half") == 0) {
        answer_half(&ledger, &answered, &written);
    } else if (strcmp(word[1], "parts") == 0 || strcmp(word[1], "blocks") == 0) {
        const size_t begin = answer_half(&ledger, &answered, &written);
        answer_parts(&ledger, begin, word[1][0] == 'b', &answered, &written);
    } else if (strcmp(word[1], "saved") == 0) {
        answer_parts(&ledger, 0, 0, &answered, &written);
        save_in_pieces(&ledger);
    } else {
        apply(&ledger, 0, length, &answered, &written);
    }
    if (strcmp(word[1], "kept") == 0)
        keep(&ledger);
    else if (strcmp(word[1], "saved") != 0)
        printf("%llu %zu\n", (unsigned long long)answered, written);
    moveledger_free(&ledger);
    free(records);
    return 0;
}
