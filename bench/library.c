/* Asks a ledger by names and addresses, for library.py to measure.
 * usage: library FILE COINS THREES CALLS BLOCKS BLOCK    answers the records of FILE, by which so many addresses have a coin, and the first
 *        few of them two values more. Then it asks for values by address and name, and for what stands at an address, so many times each,
 *        and for all coins in pages. At the end of FILE stand twice so many blocks of so many bytes: in turn, one is answered in a block that
 *        is taken back, and one without a block. It prints a line for each: the processor's seconds, how many calls, and how many values they
 *        told, or bytes of a report. */
#include "measuring.h"

enum { KEYS = 1024, COMMON_LENGTH = 8 };

static const moveledger_struct COIN = {{[15] = 1}, "M", "Coin"};

/* The address of the coin of this number: library.py makes records of the same ones. They come in no order. */
static void address_of(uint64_t nth, uint8_t address[16])
{
    const uint64_t high = nth * 0x9E3779B97F4A7C15u;
    memset(address, 0, 16);
    for (int at = 0; at < COMMON_LENGTH; ++at)
        address[at] = (uint8_t)(high >> (56 - 8 * at));
}

/* How many lines a show has before its last one. */
static unsigned long values_in(moveledger_bytes *lines)
{
    unsigned long found = 0;
    for (size_t at = 0; at < lines->length; ++at)
        found += lines->bytes[at] == '\n';
    moveledger_bytes_free(lines);
    return found - 1;
}

static void print(double start, unsigned long calls, unsigned long values)
{
    printf("%f %lu %lu\n", seconds() - start, calls, values);
}

/* Values by address and name, of coins all over the ledger. */
static void ask_for_values(const moveledger *ledger, uint64_t coins, unsigned long calls)
{
    unsigned long told = 0;
    const double start = seconds();
    for (unsigned long nth = 0; nth < calls; ++nth) {
        moveledger_bytes lines;
        uint8_t address[16];
        address_of(nth * 7919 % coins, address);
        expect("show_value", moveledger_show_value(ledger, address, &COIN, MOVELEDGER_TEXT, &lines));
        told += values_in(&lines);
    }
    print(start, calls, told);
}

/* What stands at the addresses that have three values. */
static void ask_at(const moveledger *ledger, uint64_t threes, unsigned long calls)
{
    unsigned long told = 0;
    const double start = seconds();
    for (unsigned long nth = 0; nth < calls; ++nth) {
        moveledger_bytes lines;
        uint8_t address[16];
        address_of(nth % threes, address);
        expect("show_at", moveledger_show_at(ledger, address, MOVELEDGER_TEXT, &lines));
        told += values_in(&lines);
    }
    print(start, calls, told);
}

static void ask_for_pages(const moveledger *ledger)
{
    uint8_t from[16] = {0}, is_more = 1;
    unsigned long told = 0, pages = 0;
    const double start = seconds();
    for (; is_more; ++pages) {
        moveledger_bytes lines;
        expect("show_page", moveledger_show_page(ledger, &COIN, from, KEYS, MOVELEDGER_TEXT, &lines, &is_more));
        told += values_in(&lines);
    }
    print(start, pages, told);
}

/* Blocks of records from a place on: in turn one that is taken back, and one that is answered without a block. No address stands in two of
 * them, so that neither finds in the processor's caches what the other has passed. */
static void answer_blocks(moveledger *ledger, size_t begin, size_t block, uint64_t *answered)
{
    size_t taken_back = 0, kept = 0;
    double spent[2] = {0, 0};
    for (size_t at = begin; at < length; at += 2 * block) {
        const double start = seconds();
        uint64_t number = *answered;
        expect("begin", moveledger_begin(ledger));
        apply(ledger, at, at + block, &number, &taken_back);
        expect("rollback", moveledger_rollback(ledger));
        const double middle = seconds();
        apply(ledger, at + block, at + 2 * block, answered, &kept);
        spent[0] += middle - start;
        spent[1] += seconds() - middle;
    }
    printf("%f %lu %lu\n", spent[0], (length - begin) / block / 2, taken_back);
    printf("%f %lu %lu\n", spent[1], (length - begin) / block / 2, kept);
}

int main(int words, char **word)
{
    moveledger ledger = {NULL, 0};
    uint64_t answered = 0;
    size_t written = 0;
    if (words != 7) {
        fprintf(stderr, "usage: library FILE COINS THREES CALLS BLOCKS BLOCK\n");
        return 2;
    }
    read_file(word[1]);
    const uint64_t coins = strtoull(word[2], NULL, 10), threes = strtoull(word[3], NULL, 10);
    const unsigned long calls = strtoul(word[4], NULL, 10);
    const size_t block = strtoull(word[6], NULL, 10), begin = length - 2 * strtoull(word[5], NULL, 10) * block;
    expect("new", moveledger_new(&ledger));
    apply(&ledger, 0, begin, &answered, &written);
    ask_for_values(&ledger, coins, calls);
    ask_at(&ledger, threes, calls);
    ask_for_pages(&ledger);
    answer_blocks(&ledger, begin, block, &answered);
    moveledger_free(&ledger);
    free(records);
    return 0;
}
