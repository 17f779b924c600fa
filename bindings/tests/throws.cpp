/* Tries a save in pieces whose function throws, which C++ allows: the save has then ended, the ledger is in use by nobody, and nothing that
 * the save took is left.
 * usage: throws STREAM    STREAM is examples/first-coin.stream. What went wrong is printed, and the status is 1. */
#include "moveledger.h"

#include <cstdio>
#include <stdexcept>
#include <vector>

/* Where the example's second record begins, which mints a coin, and where its sender ends. */
enum { FIRST = 124, SENDER = 16, MOST = 4096, MINTS = 3000, THROWS = 2000, ALLOWED_GROWTH = 2000000 };

static int failures;

static void want(bool holds, const char *what)
{
    if (!holds) {
        std::printf("throws: wrong: %s\n", what);
        ++failures;
    }
}

static int append(void *context, const uint8_t *bytes, size_t length)
{
    std::vector<uint8_t> *text = static_cast<std::vector<uint8_t> *>(context);
    text->insert(text->end(), bytes, bytes + length);
    return 0;
}

/* Takes so many pieces, and then throws. */
static int throw_behind(void *context, const uint8_t *, size_t)
{
    int *pieces = static_cast<int *>(context);
    if ((*pieces)-- == 0)
        throw std::runtime_error("the disk is full");
    return 0;
}

static bool is_thrown(const moveledger *ledger, int pieces)
{
    try {
        moveledger_save_to(ledger, throw_behind, &pieces);
    } catch (const std::runtime_error &) {
        return true;
    }
    return false;
}

/* The memory that the process has, in bytes. */
static long resident()
{
    long pages = 0;
    std::FILE *file = std::fopen("/proc/self/statm", "r");
    want(file && std::fscanf(file, "%*s %ld", &pages) == 1, "the system tells the memory");
    if (file)
        std::fclose(file);
    return pages * 4096;
}

static void mint(moveledger *ledger, const std::vector<uint8_t> &stream)
{
    std::vector<uint8_t> records(stream);
    uint64_t answered = 0;
    moveledger_bytes report = {NULL, 0, NULL};
    for (int nth = 0; nth < MINTS; ++nth) {
        records.insert(records.end(), stream.begin() + FIRST, stream.end());
        uint8_t *last = &records[records.size() - (stream.size() - FIRST)];
        last[SENDER] = static_cast<uint8_t>(nth >> 8);
        last[SENDER + 1] = static_cast<uint8_t>(nth);
    }
    want(moveledger_apply(ledger, &records[0], records.size(), &answered, &report) == MOVELEDGER_DONE && answered == MINTS + 2,
         "coins are minted");
    moveledger_bytes_free(&report);
}

int main(int words, char **word)
{
    std::vector<uint8_t> stream(MOST), text;
    std::FILE *file = words > 1 ? std::fopen(word[1], "rb") : NULL;
    if (!file) {
        std::fprintf(stderr, "usage: throws STREAM\n");
        return 2;
    }
    stream.resize(std::fread(&stream[0], 1, stream.size(), file));
    std::fclose(file);
    moveledger ledger = {NULL, 0};
    moveledger_bytes saved = {NULL, 0, NULL};
    want(moveledger_new(&ledger) == MOVELEDGER_DONE, "a ledger is made");
    mint(&ledger, stream);
    want(is_thrown(&ledger, 0) && is_thrown(&ledger, 1) && !is_thrown(&ledger, MINTS), "what is thrown comes out of the save");
    want(ledger.users == 0, "no call uses the ledger any more");
    long before = resident();
    for (int nth = 0; nth < THROWS; ++nth)
        is_thrown(&ledger, nth % 2);
    want(resident() <= before + ALLOWED_GROWTH, "nothing is left of saves that ended so");
    want(moveledger_begin(&ledger) == MOVELEDGER_DONE && moveledger_rollback(&ledger) == MOVELEDGER_DONE, "the ledger is changed afterwards");
    want(moveledger_save(&ledger, &saved) == MOVELEDGER_DONE && moveledger_save_to(&ledger, append, &text) == MOVELEDGER_DONE
         && std::vector<uint8_t>(saved.bytes, saved.bytes + saved.length) == text, "and saved");
    moveledger_bytes_free(&saved);
    want(moveledger_free(&ledger) == MOVELEDGER_DONE, "and freed");
    std::printf("throws: %s\n", failures ? "FAILED" : "as wanted");
    return failures != 0;
}
