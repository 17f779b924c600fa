/* Makes calls that an input's bytes choose, beside a model, and aborts with a message where something isn't as the header says.
 *
 * The model is the saved text of now and, for each open block, the saved text where it was begun. So a rollback has to leave the text that
 * its block began with; a commit, a question or a call with wrong arguments leaves the text as it is; and records that are answered in a
 * block are answered the same by a ledger that is loaded from the text, which has no block. Each question is compared with the lines of a
 * whole show or audit, or with the saved text. Each place for an answer holds something else before the call.
 *
 * It is broken by a rollback that does nothing, goes back to an older block, or forgets the number of runs, a value, a tally or a module;
 * by a commit that closes two blocks or takes back; and by an index or a memory of places that is right for show and save alone. It isn't
 * broken by what no call tells, such as memory that isn't given back, or by a show that is wrong in the same way as a question.
 *
 * MOVELEDGER_RECORDS names a file with the records of worked rows, as ../try writes it: an empty line before each row, and a line with the
 * hexadecimal of each record.
 * With libFuzzer: clang -fsanitize=fuzzer,address .. fuzz.c. Without it: cc -DALONE .. fuzz.c, and
 * usage: fuzz SECONDS [SEED]    makes inputs at random and changes those it had
 *        fuzz FILE              takes the input in a file */
#include "moveledger.h"

#include <stdbool.h>
#include <stdio.h>
#include <stdlib.h>
#include <string.h>
#include <time.h>

enum { DEPTH = 40, MOST_STEPS = 200, MOST_LINES = 1 << 16, MOST_RECORDS = 1 << 12, MOST_NAME = 600 };

/* Bytes of our own. */
struct text {
    char *bytes;
    size_t length;
};

/* A value's line in a show, or a struct's in an audit, without its first word and its end. */
struct line {
    const char *address, *name, *rest;
    size_t name_length, rest_length;
};

/* A struct's name, as a call takes it, and as lines have it. */
struct name {
    char module[MOST_NAME], own[MOST_NAME], line[2 * MOST_NAME + 40];
    moveledger_struct it;
};

/* The records, where each row of them begins, where those ended that were chosen last, and for which address they are. */
static struct text records[MOST_RECORDS];
static size_t count_of_records, rows[MOST_RECORDS], count_of_rows, behind, home;

static const uint8_t *input;
static size_t input_length, input_at;

static moveledger ledger;
static uint64_t answered;
static moveledger_bytes now, shown, counted, kept[DEPTH];
static uint64_t answered_then[DEPTH];
static size_t depth, count_of_values, count_of_counts;
static struct line values[MOST_LINES], counts[MOST_LINES];
static bool is_over;

static void fail(const char *what)
{
    fprintf(stderr, "fuzz: %s, in %zu blocks, at byte %zu of the input ", what, depth, input_at);
    for (size_t at = 0; at < input_length; ++at)
        fprintf(stderr, "%02x", input[at]);
    fputs("\n", stderr);
    abort();
}

static void want(bool holds, const char *what)
{
    if (!holds)
        fail(what);
}

/* The next byte of the input; zeros behind its end. */
static uint8_t next(void)
{
    return input_at < input_length ? input[input_at++] : 0;
}

/* A number below another one, which the input chooses. */
static size_t choose(size_t below)
{
    const size_t high = below > 256 ? next() : 0;
    return below ? (high << 8 | next()) % below : 0;
}

static void *room(size_t size)
{
    void *made = malloc(size ? size : 1);
    if (!made)
        abort();
    return made;
}

static void add(struct text *text, const void *bytes, size_t length)
{
    char *more = realloc(text->bytes, text->length + length + 1);
    if (!more)
        abort();
    if (length)
        memcpy(more + text->length, bytes, length);
    text->bytes = more;
    text->length += length;
}

static void add_word(struct text *text, const char *word)
{
    add(text, word, strlen(word));
}

/* What a place holds before a call that is to overwrite it. */
static moveledger_bytes filled(void)
{
    static uint8_t other[3];
    return (moveledger_bytes){other, sizeof other, other};
}

static bool is_clear(const moveledger_bytes *bytes)
{
    return !bytes->bytes && !bytes->length && !bytes->own;
}

static bool are_equal(const moveledger_bytes *one, const moveledger_bytes *other)
{
    return one->length == other->length && (!one->length || memcmp(one->bytes, other->bytes, one->length) == 0);
}

/* Whether a call was done. Where memory runs out, which any call that takes some may say, the input is over. */
static bool is_done(int32_t status, const char *what)
{
    is_over |= status == MOVELEDGER_MEMORY;
    want(status == MOVELEDGER_DONE || status == MOVELEDGER_MEMORY, what);
    return status == MOVELEDGER_DONE;
}

/* A call gave these bytes, which are freed, and the expected text with them. */
static void want_text(int32_t status, moveledger_bytes *given, struct text *wanted, const char *what)
{
    if (is_done(status, what))
        want(given->length == wanted->length && (!given->length || memcmp(given->bytes, wanted->bytes, given->length) == 0), what);
    else
        want(is_clear(given), what);
    moveledger_bytes_free(given);
    want(is_clear(given), "freed bytes are gone");
    free(wanted->bytes);
    *wanted = (struct text){NULL, 0};
}

/* A call answered a status with which it gives nothing. */
static void want_none(int32_t status, int32_t wanted, const moveledger_bytes *given, const char *what)
{
    want(status == wanted && is_clear(given), what);
}

/* A line, from behind its first word; its parts are divided by blanks. */
static struct line line_of(const char *at, const char *end, bool has_address)
{
    struct line line = {at, at + (has_address ? 33 : 0), NULL, 0, 0};
    want(line.name < end, "a line has parts");
    line.rest = memchr(line.name, ' ', (size_t)(end - line.name));
    want(line.rest != NULL, "a line has a value");
    line.name_length = (size_t)(line.rest - line.name);
    line.rest_length = (size_t)(end - ++line.rest);
    return line;
}

/* The lines of a text that all begin with a word; the last line tells their number. */
static size_t lines_of(const moveledger_bytes *text, const char *word, struct line *lines)
{
    const char *at = (const char *)text->bytes, *behind = at + text->length;
    size_t count = 0, length = strlen(word);
    while (at < behind) {
        const char *end = memchr(at, '\n', (size_t)(behind - at));
        want(end != NULL, "a line has an end");
        if ((size_t)(end - at) > length && memcmp(at, word, length) == 0) {
            want(count < MOST_LINES, "this fuzzer has room for so many lines");
            lines[count++] = line_of(at + length, end, word[0] == 'a');
        } else {
            want(end + 1 == behind && strncmp(at, "end ", 4) == 0 && strtoul(at + 4, NULL, 10) == count, "the last line tells the number");
        }
        at = end + 1;
    }
    return count;
}

/* Asks what is held now. */
static void look(void)
{
    moveledger_bytes_free(&shown);
    moveledger_bytes_free(&counted);
    if (!is_done(moveledger_show(&ledger, MOVELEDGER_TEXT, &shown), "a show") ||
        !is_done(moveledger_audit(&ledger, MOVELEDGER_TEXT, &counted), "an audit"))
        return;
    count_of_values = lines_of(&shown, "at ", values);
    count_of_counts = lines_of(&counted, "count ", counts);
}

/* The saved text is this one, or where the ledger has changed the text of now from here on. */
static void want_saved(const moveledger_bytes *wanted, bool has_changed, const char *what)
{
    moveledger_bytes saved = filled();
    want(ledger.users == 0, "nobody uses the ledger between calls");
    if (!is_done(moveledger_save(&ledger, &saved), "a save"))
        return;
    if (wanted)
        want(are_equal(&saved, wanted), what);
    if (has_changed) {
        moveledger_bytes_free(&now);
        now = saved;
        look();
    } else {
        moveledger_bytes_free(&saved);
    }
}

static size_t number(const moveledger_bytes *text, size_t *at)
{
    size_t value = 0;
    for (int shift = 0; *at < text->length && shift < 64; shift += 7) {
        const uint8_t byte = text->bytes[(*at)++];
        value |= (size_t)(byte & 127) << shift;
        if (byte < 128)
            break;
    }
    return value;
}

/* Records that follow one another: from where the last ones ended, from the beginning of a row, or from any record on. They may be those
 * of another address than 1. */
static struct text some_records(void)
{
    static const uint8_t one[16] = {[15] = 1};
    struct text made = {NULL, 0};
    const size_t from = choose(4);
    size_t at = behind;
    if (from > 1) {
        at = from == 2 ? rows[choose(count_of_rows)] : choose(count_of_records);
        home = 1 + choose(3);
    }
    for (size_t more = 1 + choose(6); at < count_of_records && more > 0; ++at, --more)
        add(&made, records[at].bytes, records[at].length);
    behind = at;
    for (size_t at = 0; at + 16 <= made.length; ++at)
        if (memcmp(made.bytes + at, one, 16) == 0)
            made.bytes[at + 15] = (char)home;
    return made;
}

/* The same whole, cut, with other bytes, or the input's own bytes. */
static struct text any_records(void)
{
    const size_t form = choose(8);
    struct text made = {NULL, 0};
    if (form == 0) {
        for (size_t left = choose(64); left > 0; --left)
            add(&made, &(uint8_t){next()}, 1);
        return made;
    }
    made = some_records();
    if (form == 1)
        made.length = choose(made.length + 1);
    for (size_t left = form == 2 && made.length ? 1 + choose(4) : 0; left > 0; --left)
        made.bytes[choose(made.length)] = (char)next();
    return made;
}

/* The lines of a report have ascending numbers, from the first record's to the last one's. */
static void want_numbered(const moveledger_bytes *report, uint64_t before, uint64_t after)
{
    const char *at = (const char *)report->bytes, *behind = at + report->length;
    uint64_t last = before;
    while (at < behind) {
        char *end;
        const uint64_t line = strtoull(at, &end, 10);
        want(*end == ' ' && (line == last || line == last + 1) && line > before, "lines are numbered on");
        last = line;
        at = memchr(at, '\n', (size_t)(behind - at));
        want(at != NULL, "a report's line has an end");
        ++at;
    }
    want(last == after, "each record has a line");
}

/* A ledger that is loaded from a text answers the same, and is saved the same. */
static void want_same(const moveledger_bytes *from, const struct text *given, uint64_t before, const moveledger_bytes *report)
{
    moveledger other = {NULL, 0};
    moveledger_bytes lines = {NULL, 0, NULL}, saved = filled();
    uint8_t why = 1;
    uint64_t count = before;
    if (is_done(moveledger_load(from->bytes, from->length, &other, &why), "a saved ledger is loaded") &&
        is_done(moveledger_apply(&other, (const uint8_t *)given->bytes, given->length, &count, &lines), "records without a block")) {
        want(why == 0 && count == answered && are_equal(&lines, report), "records are answered in a block as without one");
        if (is_done(moveledger_save(&other, &saved), "a save without a block"))
            want(are_equal(&saved, &now), "records change the ledger in a block as without one");
        moveledger_bytes_free(&saved);
        want(moveledger_rollback(&other) == MOVELEDGER_NO_BLOCK, "a loaded ledger has no block");
    }
    moveledger_bytes_free(&lines);
    want(moveledger_free(&other) == MOVELEDGER_DONE && !other.own, "a ledger is freed");
}

static void call_apply(void)
{
    struct text given = any_records();
    moveledger_bytes report = {NULL, 0, NULL}, before = now;
    const uint64_t then = answered;
    uint8_t *exact = room(given.length);
    if (given.length)
        memcpy(exact, given.bytes, given.length);
    if (is_done(moveledger_apply(&ledger, exact, given.length, &answered, &report), "records are answered")) {
        want_numbered(&report, then, answered);
        now = (moveledger_bytes){NULL, 0, NULL};
        want_saved(NULL, true, "");
        if (depth > 0 && choose(2) && !is_over)
            want_same(&before, &given, then, &report);
        moveledger_bytes_free(&before);
    }
    moveledger_bytes_free(&report);
    free(exact);
    free(given.bytes);
}

static void call_begin(void)
{
    if (depth == DEPTH)
        return;
    kept[depth] = (moveledger_bytes){NULL, 0, NULL};
    if (!is_done(moveledger_save(&ledger, &kept[depth]), "a save before a block"))
        return;
    if (is_done(moveledger_begin(&ledger), "a block is opened"))
        answered_then[depth++] = answered;
    else
        moveledger_bytes_free(&kept[depth]);
    want_saved(&now, false, "the ledger stays where a block is opened");
}

static void call_rollback(void)
{
    const int32_t status = moveledger_rollback(&ledger);
    want(status == (depth ? MOVELEDGER_DONE : MOVELEDGER_NO_BLOCK), "a rollback's status");
    if (depth == 0) {
        want_saved(&now, false, "a rollback without a block changes nothing");
        return;
    }
    answered = answered_then[--depth];
    want_saved(&kept[depth], true, "a rollback leaves the ledger as it was where its block was opened");
    moveledger_bytes_free(&kept[depth]);
}

static void call_commit(void)
{
    const int32_t status = moveledger_commit(&ledger);
    want(status == (depth ? MOVELEDGER_DONE : MOVELEDGER_NO_BLOCK), "a commit's status");
    if (depth > 0)
        moveledger_bytes_free(&kept[--depth]);
    want_saved(&now, false, "a commit leaves the ledger as it is");
}

/* Forgets all blocks of the model. */
static void forget_blocks(void)
{
    while (depth > 0)
        moveledger_bytes_free(&kept[--depth]);
}

/* Frees the ledger with its blocks, and goes on with an empty one, or with what is saved. */
static void call_free(void)
{
    uint8_t why = 1;
    const bool is_loaded = choose(2);
    want(moveledger_free(&ledger) == MOVELEDGER_DONE && !ledger.own, "a ledger is freed");
    want(moveledger_rollback(&ledger) == MOVELEDGER_ARGUMENTS, "a freed ledger has no block to take back");
    forget_blocks();
    if (is_loaded) {
        if (is_done(moveledger_load(now.bytes, now.length, &ledger, &why), "what was saved is loaded"))
            want_saved(&now, false, "a loaded ledger is the saved one");
    } else if (is_done(moveledger_new(&ledger), "an empty ledger")) {
        want_saved(NULL, true, "");
        want(now.length == 6 && count_of_values == 0, "an empty ledger is empty");
    }
}

/* Another text is loaded, or refused. */
static void call_load(void)
{
    moveledger other = {&other, 7};
    moveledger_bytes saved = {NULL, 0, NULL};
    uint8_t why = 99, *text = room(now.length);
    const size_t length = choose(4) ? now.length : choose(now.length + 1);
    memcpy(text, now.bytes, length);
    for (size_t left = choose(3); left > 0 && length > 0; --left)
        text[choose(length)] = next();
    const int32_t status = moveledger_load(text, length, &other, &why);
    if (status == MOVELEDGER_DONE) {
        want(why == 0 && other.own && other.users == 0, "a loaded ledger");
        if (length > 3 && text[3] == '2' && is_done(moveledger_save(&other, &saved), "a loaded ledger is saved"))
            want(saved.length == length && memcmp(saved.bytes, text, length) == 0, "a text is of one ledger");
    } else {
        want(!other.own && other.users == 0, "nothing is loaded");
        want(status == MOVELEDGER_MEMORY || (status == MOVELEDGER_LOAD_REFUSED && why >= 1 && why <= 5), "a load's status");
    }
    moveledger_bytes_free(&saved);
    moveledger_free(&other);
    free(text);
}

static bool is_at(const struct line *line, const char *address)
{
    return !address || memcmp(line->address, address, 32) == 0;
}

static bool is_of(const struct line *line, const char *name)
{
    return !name || (line->name_length == strlen(name) && memcmp(line->name, name, line->name_length) == 0);
}

static void add_entry(struct text *text, const struct line *line, uint32_t form, size_t before)
{
    if (form == MOVELEDGER_TEXT) {
        add_word(text, "at ");
        add(text, line->address, (size_t)(line->rest - line->address) + line->rest_length);
        add_word(text, "\n");
        return;
    }
    add_word(text, before ? ",{\"address\":\"" : "{\"address\":\"");
    add(text, line->address, 32);
    add_word(text, "\",\"struct\":\"");
    add(text, line->name, line->name_length);
    add_word(text, "\",\"value\":\"");
    add(text, line->rest, line->rest_length);
    add_word(text, "\"}");
}

/* What a show would tell of the values at an address, of a struct, or of both. Answers how many there are. */
static size_t tell(struct text *text, const char *address, const char *name, uint32_t form)
{
    size_t count = 0;
    char end[40];
    if (form == MOVELEDGER_JSON)
        add_word(text, "json {\"show\":[");
    for (size_t at = 0; at < count_of_values; ++at)
        if (is_at(&values[at], address) && is_of(&values[at], name))
            add_entry(text, &values[at], form, count++);
    snprintf(end, sizeof end, "end %zu\n", count);
    add_word(text, form == MOVELEDGER_JSON ? "]}\n" : end);
    return count;
}

static void address_of(const char *digits, uint8_t address[16])
{
    for (size_t at = 0; at < 16; ++at) {
        const char byte[3] = {digits[2 * at], digits[2 * at + 1], 0};
        address[at] = (uint8_t)strtoul(byte, NULL, 16);
    }
}

static void digits_of(const uint8_t address[16], char digits[33])
{
    for (size_t at = 0; at < 16; ++at)
        snprintf(digits + 2 * at, 3, "%02x", address[at]);
}

/* An address, with a value or perhaps without. */
static void pick_address(uint8_t address[16], char digits[33])
{
    memset(address, choose(8) ? 0 : 0xff, 16);
    address[15] = (uint8_t)(address[0] | choose(12));
    if (count_of_values && choose(4))
        address_of(values[choose(count_of_values)].address, address);
    digits_of(address, digits);
}

/* A struct's name, of a line or perhaps of nothing. */
static void pick_name(struct name *name)
{
    static const char *const others[] = {"1::M::Nothing", "9::M::Coin", "1::::Coin", "1::M::", "1::M::Coin", "2::Coin::Coin"};
    const size_t which = choose(4);
    if (which == 0 || !(which == 1 ? count_of_counts : count_of_values)) {
        snprintf(name->line, sizeof name->line, "%031d%s", 0, others[choose(sizeof others / sizeof *others)]);
    } else {
        const struct line *line = which == 1 ? &counts[choose(count_of_counts)] : &values[choose(count_of_values)];
        want(line->name_length < sizeof name->line, "a name has at most so many letters");
        snprintf(name->line, sizeof name->line, "%.*s", (int)line->name_length, line->name);
    }
    const char *module = name->line + 34, *own = strstr(module, "::");
    want(own && own - module < MOST_NAME && strlen(own) < MOST_NAME, "a name has three parts");
    snprintf(name->module, sizeof name->module, "%.*s", (int)(own - module), module);
    snprintf(name->own, sizeof name->own, "%s", own + 2);
    address_of(name->line, name->it.address);
    name->it.module = name->module;
    name->it.name = name->own;
}

static void ask_value(void)
{
    uint8_t address[16];
    char digits[33];
    struct name name;
    struct text wanted = {NULL, 0};
    moveledger_bytes given = filled();
    const uint32_t form = (uint32_t)choose(2);
    pick_address(address, digits);
    pick_name(&name);
    const size_t count = tell(&wanted, digits, name.line, form);
    const int32_t status = moveledger_show_value(&ledger, address, &name.it, form, &given);
    if (count) {
        want_text(status, &given, &wanted, "a value is the one of the show");
    } else {
        want_none(status, MOVELEDGER_ABSENT, &given, "no value is told where the show has none");
        free(wanted.bytes);
    }
}

static void ask_at(void)
{
    uint8_t address[16];
    char digits[33];
    struct text wanted = {NULL, 0};
    moveledger_bytes given = filled();
    const uint32_t form = (uint32_t)choose(2);
    pick_address(address, digits);
    tell(&wanted, digits, NULL, form);
    want_text(moveledger_show_at(&ledger, address, form, &given), &given, &wanted, "values at an address are those of the show");
}

/* A page's lines without the last one, which tells their number. */
static void add_page(struct text *text, const moveledger_bytes *page, size_t most)
{
    const size_t length = page->length;
    size_t end = length ? length - 1 : 0, count = 0;
    while (end > 0 && page->bytes[end - 1] != '\n')
        --end;
    for (size_t at = 0; at < end; ++at)
        count += page->bytes[at] == '\n';
    want(length > end && strtoul((const char *)page->bytes + end + 4, NULL, 10) == count, "a page's last line tells its number");
    want(count <= most, "a page has so many values at most");
    add(text, page->bytes, end);
}

/* All pages of a struct from an address on tell what the show has from there. */
static void ask_pages(void)
{
    uint8_t from[16], before[16], is_more = 1;
    char digits[33];
    struct name name;
    struct text found = {NULL, 0}, wanted = {NULL, 0};
    const size_t most = choose(4) ? 1 + choose(5) : 1000000;
    size_t count = 0;
    pick_address(from, digits);
    pick_name(&name);
    for (size_t at = 0; at < count_of_values; ++at)
        if (is_of(&values[at], name.line) && memcmp(values[at].address, digits, 32) >= 0)
            add_entry(&wanted, &values[at], MOVELEDGER_TEXT, count++);
    while (is_more && !is_over) {
        moveledger_bytes given = filled();
        memcpy(before, from, 16);
        const int32_t status = moveledger_show_page(&ledger, &name.it, from, most, MOVELEDGER_TEXT, &given, &is_more);
        want(is_more ? memcmp(from, before, 16) > 0 : memcmp(from, before, 16) == 0, "a page goes on behind its beginning, or nowhere");
        if (status == MOVELEDGER_ABSENT)
            want(is_clear(&given) && !is_more && count == 0, "a struct that has values is published");
        else if (is_done(status, "a page"))
            add_page(&found, &given, most);
        moveledger_bytes_free(&given);
    }
    want(is_over || (found.length == wanted.length && (!found.length || memcmp(found.bytes, wanted.bytes, found.length) == 0)),
         "pages tell what the show has");
    free(found.bytes);
    free(wanted.bytes);
}

/* The names of the modules, and of each the texts that the saved ledger has in its place. */
static void ask_modules(void)
{
    moveledger_bytes names = filled(), module, certificate;
    size_t at = 4, runs = number(&now, &at), left = number(&now, &at);
    (void)runs;
    if (!is_done(moveledger_modules(&ledger, &names), "names of modules"))
        return;
    for (char *line = (char *)names.bytes, *behind = line + names.length; line < behind; --left) {
        char *end = memchr(line, '\n', (size_t)(behind - line)), name[MOST_NAME];
        uint8_t home[16];
        want(end && left > 0 && end - line > 34 && end - line < MOST_NAME, "each module of the saved text has a name");
        snprintf(name, sizeof name, "%.*s", (int)(end - line - 34), line + 34);
        address_of(line, home);
        line = end + 1;
        module = filled();
        certificate = filled();
        if (!is_done(moveledger_module(&ledger, home, name, &module, &certificate), "a module of a name"))
            break;
        const moveledger_bytes *parts[] = {&module, &certificate};
        for (size_t part = 0; part < 2; ++part) {
            const size_t length = number(&now, &at);
            want(parts[part]->length == length, "a module's text has its length");
            want(!length || memcmp(parts[part]->bytes, now.bytes + at, length) == 0, "a module's text is that of the saved ledger");
            at += length;
        }
        moveledger_bytes_free(&module);
        moveledger_bytes_free(&certificate);
    }
    want(left == 0 || is_over, "each module is named");
    moveledger_bytes_free(&names);
}

static void ask_no_module(void)
{
    static const uint8_t nowhere[16] = {[0] = 1};
    moveledger_bytes module = filled(), certificate = filled();
    const int32_t status = moveledger_module(&ledger, nowhere, choose(2) ? "M" : "", &module, &certificate);
    want_none(status, MOVELEDGER_ABSENT, &module, "there is no module at that address");
    want(is_clear(&certificate), "it has no certificate");
}

static void ask_counts(void)
{
    struct name name;
    uint64_t runs = 9, packed = 9, unpacked = 9;
    char line[120];
    size_t at = 4;
    want(moveledger_runs(&ledger, &runs) == MOVELEDGER_DONE && runs == number(&now, &at), "the number of runs is that of the saved text");
    pick_name(&name);
    const int32_t status = moveledger_tally(&ledger, &name.it, &packed, &unpacked);
    snprintf(line, sizeof line, "stored %llu packed %llu unpacked %llu", (unsigned long long)(packed - unpacked), (unsigned long long)packed,
             (unsigned long long)unpacked);
    for (at = 0; at < count_of_counts; ++at)
        if (is_of(&counts[at], name.line)) {
            want(status == MOVELEDGER_DONE && strlen(line) == counts[at].rest_length && memcmp(line, counts[at].rest, strlen(line)) == 0,
                 "a tally is that of the audit");
            return;
        }
    want(status == MOVELEDGER_ABSENT && packed == 0 && unpacked == 0, "no tally is told where the audit has none");
}

/* The other forms of a show and an audit. */
/* Whether a line stands among others as it is. */
static bool is_among(const struct line *line, const struct line *lines, size_t count)
{
    const size_t length = (size_t)(line->rest - line->address) + line->rest_length;
    for (size_t at = 0; at < count; ++at)
        if ((size_t)(lines[at].rest - lines[at].address) + lines[at].rest_length == length
            && memcmp(lines[at].address, line->address, length) == 0)
            return true;
    return false;
}

/* A show as JSON of those lines that don't stand among others. */
static struct text lines_without(const struct line *lines, size_t count, const struct line *others, size_t count_of_others)
{
    struct text text = {NULL, 0};
    size_t told = 0;
    add_word(&text, "json {\"show\":[");
    for (size_t at = 0; at < count; ++at)
        if (!is_among(&lines[at], others, count_of_others))
            add_entry(&text, &lines[at], MOVELEDGER_JSON, told++);
    add_word(&text, "]}\n");
    return text;
}

/* What the newest block has changed is the difference of two shows, the first of which is that of the ledger where it was begun. */
static void ask_changes(void)
{
    static struct line old_values[MOST_LINES];
    moveledger_bytes before = filled(), after = filled(), old_shown = {NULL, 0, NULL};
    moveledger old = {NULL, 0};
    uint8_t why;
    if (depth == 0) {
        want(moveledger_changes(&ledger, &before, &after) == MOVELEDGER_NO_BLOCK && is_clear(&before) && is_clear(&after), "changes of no block");
        after = filled();
        want_none(moveledger_changed_modules(&ledger, &after), MOVELEDGER_NO_BLOCK, &after, "changed modules of no block");
        return;
    }
    if (!is_done(moveledger_load(kept[depth - 1].bytes, kept[depth - 1].length, &old, &why), "the ledger from before a block"))
        return;
    if (is_done(moveledger_show(&old, MOVELEDGER_TEXT, &old_shown), "a show of it")) {
        const size_t count = lines_of(&old_shown, "at ", old_values);
        struct text wanted = lines_without(old_values, count, values, count_of_values);
        const int32_t status = moveledger_changes(&ledger, &before, &after);
        want_text(status, &before, &wanted, "the values that changed keys had");
        wanted = lines_without(values, count_of_values, old_values, count);
        want_text(status, &after, &wanted, "the values that changed keys have");
    }
    moveledger_bytes_free(&old_shown);
    moveledger_free(&old);
}

static int add_piece(void *context, const uint8_t *bytes, size_t size)
{
    want(size > 0 && size <= 65536, "a piece has some bytes, and not too many");
    add(context, bytes, size);
    return 0;
}

/* A save in pieces is the save. */
static void ask_pieces(void)
{
    struct text pieces = {NULL, 0};
    if (is_done(moveledger_save_to(&ledger, add_piece, &pieces), "a save in pieces"))
        want(pieces.length == now.length && memcmp(pieces.bytes, now.bytes, now.length) == 0, "the pieces are the save");
    free(pieces.bytes);
}

static void ask_all(void)
{
    struct text wanted = {NULL, 0};
    moveledger_bytes given = filled();
    tell(&wanted, NULL, NULL, MOVELEDGER_JSON);
    want_text(moveledger_show(&ledger, MOVELEDGER_JSON, &given), &given, &wanted, "a show as JSON has the values of the text");
    given = filled();
    add(&wanted, counted.bytes, counted.length);
    want_text(moveledger_audit(&ledger, MOVELEDGER_TEXT, &given), &given, &wanted, "an audit stays");
    given = filled();
    want_none(moveledger_show(&ledger, 2 + (uint32_t)choose(9), &given), MOVELEDGER_ARGUMENTS, &given, "a show of no form");
    given = filled();
    want_none(moveledger_audit(&ledger, 2 + (uint32_t)choose(9), &given), MOVELEDGER_ARGUMENTS, &given, "an audit of no form");
}

/* Each call that changes a ledger answers a status, and does nothing. */
static void want_no_change(moveledger *it, int32_t wanted, const char *what)
{
    moveledger_bytes report = {NULL, 0, NULL};
    uint64_t count = 7;
    want(moveledger_begin(it) == wanted, what);
    want(moveledger_rollback(it) == wanted, what);
    want(moveledger_commit(it) == wanted, what);
    want(moveledger_apply(it, (const uint8_t *)records[0].bytes, records[0].length, &count, &report) == wanted, what);
    want(count == 7 && is_clear(&report), what);
}

/* Each call that reads a ledger answers a status, and gives nothing. */
static void want_no_answer(const moveledger *it, int32_t wanted, const char *what)
{
    static const uint8_t one[16] = {[15] = 1};
    const moveledger_struct coin = {{[15] = 1}, "M", "Coin"};
    uint8_t from[16] = {[15] = 1}, is_more = 9;
    uint64_t runs = 9, packed = 9, unpacked = 9;
    moveledger_bytes given = filled(), second = filled();
    want_none(moveledger_save(it, &given), wanted, &given, what);
    want(moveledger_save_to(it, add_piece, NULL) == wanted, what);
    given = filled();
    want_none(moveledger_changes(it, &given, &second), wanted, &given, what);
    want(is_clear(&second), what);
    given = filled();
    second = filled();
    want_none(moveledger_changed_modules(it, &given), wanted, &given, what);
    given = filled();
    want_none(moveledger_show(it, MOVELEDGER_TEXT, &given), wanted, &given, what);
    given = filled();
    want_none(moveledger_audit(it, MOVELEDGER_JSON, &given), wanted, &given, what);
    given = filled();
    want_none(moveledger_show_value(it, one, &coin, MOVELEDGER_TEXT, &given), wanted, &given, what);
    given = filled();
    want_none(moveledger_show_at(it, one, MOVELEDGER_JSON, &given), wanted, &given, what);
    given = filled();
    want_none(moveledger_show_page(it, &coin, from, 9, MOVELEDGER_TEXT, &given, &is_more), wanted, &given, what);
    want(is_more == 0 && memcmp(from, one, 16) == 0, what);
    given = filled();
    want_none(moveledger_modules(it, &given), wanted, &given, what);
    given = filled();
    want_none(moveledger_module(it, one, "M", &given, &second), wanted, &given, what);
    want(is_clear(&second), what);
    want(moveledger_runs(it, &runs) == wanted && runs == 0, what);
    want(moveledger_tally(it, &coin, &packed, &unpacked) == wanted && packed == 0 && unpacked == 0, what);
}

/* Wrong arguments, and a ledger that is in use. */
static void misuse(void)
{
    moveledger none = {NULL, 0};
    moveledger_bytes given = filled();
    uint8_t why = 9;
    moveledger *const without[] = {NULL, &none};
    for (size_t at = 0; at < 2; ++at) {
        want_no_change(without[at], MOVELEDGER_ARGUMENTS, "a change of no ledger");
        want_no_answer(without[at], MOVELEDGER_ARGUMENTS, "a question of no ledger");
        want(moveledger_free(without[at]) == MOVELEDGER_DONE, "no ledger is freed");
    }
    want(moveledger_apply(&ledger, NULL, 1, &answered, &given) == MOVELEDGER_ARGUMENTS, "records at NULL");
    want(moveledger_apply(&ledger, given.bytes, (size_t)PTRDIFF_MAX + 1, &answered, &given) == MOVELEDGER_ARGUMENTS, "too many records");
    want(moveledger_apply(&ledger, given.bytes, 1, NULL, &given) == MOVELEDGER_ARGUMENTS, "records without a count");
    want(moveledger_apply(&ledger, given.bytes, 1, &answered, NULL) == MOVELEDGER_ARGUMENTS, "records without a report");
    none = (moveledger){&why, 5};
    want(moveledger_load(NULL, 1, &none, &why) == MOVELEDGER_ARGUMENTS && !none.own && none.users == 0 && why == 0, "a load of NULL");
    want(moveledger_save(&ledger, NULL) == MOVELEDGER_ARGUMENTS, "a save to nowhere");
    ledger.users = -1;
    want_no_answer(&ledger, MOVELEDGER_BUSY, "a question while another call changes the ledger");
    for (; ledger.users < 2; ledger.users += 2) {
        want_no_change(&ledger, MOVELEDGER_BUSY, "a change of a ledger in use");
        want(moveledger_free(&ledger) == MOVELEDGER_BUSY && ledger.own, "a ledger in use isn't freed");
    }
    ledger.users = 0;
}

static void (*const CALLS[])(void) = {
    call_apply, call_apply, call_apply, call_apply, call_apply, call_apply, call_begin, call_begin, call_begin, call_rollback,
    call_rollback, call_commit, call_commit, call_free, call_load, ask_value, ask_at, ask_pages, ask_modules, ask_no_module,
    ask_counts, ask_all, ask_changes, ask_changes, ask_pieces, misuse,
};

static uint8_t digit(int letter)
{
    return (uint8_t)(letter <= '9' ? letter - '0' : letter - 'a' + 10);
}

/* Reads the records, once. */
static void read_records(void)
{
    const char *name = getenv("MOVELEDGER_RECORDS");
    FILE *file = name ? fopen(name, "r") : NULL;
    for (int high; file && count_of_records < MOST_RECORDS - 1 && (high = fgetc(file)) != EOF;) {
        if (high != '\n')
            add(&records[count_of_records], &(uint8_t){(uint8_t)(digit(high) << 4 | digit(fgetc(file)))}, 1);
        else if (records[count_of_records].length)
            ++count_of_records;
        else
            rows[count_of_rows++] = count_of_records;
    }
    if (file)
        fclose(file);
    if (!count_of_records || !count_of_rows) {
        fprintf(stderr, "fuzz: MOVELEDGER_RECORDS names no file with records\n");
        exit(2);
    }
}

int LLVMFuzzerTestOneInput(const uint8_t *bytes, size_t length)
{
    if (!count_of_records)
        read_records();
    input = bytes;
    input_length = length;
    input_at = 0;
    answered = 0;
    behind = 0;
    home = 1;
    is_over = !is_done(moveledger_new(&ledger), "an empty ledger");
    if (!is_over)
        want_saved(NULL, true, "");
    for (size_t step = 0; step < MOST_STEPS && input_at < length && !is_over; ++step) {
        const size_t which = choose(sizeof CALLS / sizeof *CALLS);
        CALLS[which]();
        if (!is_over && which >= 14)
            want_saved(&now, false, "a question, or a call with wrong arguments, changes nothing");
    }
    while (depth > 0 && !is_over)
        call_rollback();
    forget_blocks();
    moveledger_free(&ledger);
    moveledger_bytes_free(&now);
    moveledger_bytes_free(&shown);
    moveledger_bytes_free(&counted);
    return 0;
}

static uint64_t chance;

/* The next number of a xorshift generator. */
static size_t random_below(size_t below)
{
    chance ^= chance << 13;
    chance ^= chance >> 7;
    chance ^= chance << 17;
    return (size_t)(chance >> 11) % below;
}

#ifndef ALONE
size_t LLVMFuzzerMutate(uint8_t *bytes, size_t length, size_t most);

/* Half of the inputs are made anew: libFuzzer doesn't see which of the library's code they reach, and prefers short ones. */
size_t LLVMFuzzerCustomMutator(uint8_t *bytes, size_t length, size_t most, unsigned seed)
{
    if (seed % 2)
        return LLVMFuzzerMutate(bytes, length, most);
    chance = ((uint64_t)seed << 20) + 1;
    for (size_t at = 0; at < most; ++at)
        bytes[at] = (uint8_t)random_below(256);
    return most;
}
#else
enum { LONGEST = 400, POOL = 64 };

/* Makes an input anew, or of one that was there before, some bytes of which change. */
static void make_input(struct text *pool)
{
    struct text *made = &pool[random_below(POOL)];
    size_t changes = 1 + random_below(12);
    if (made->length == 0 || random_below(3) == 0) {
        made->length = 1 + random_below(LONGEST);
        changes = made->length * 3;
    }
    for (; changes > 0; --changes)
        made->bytes[random_below(made->length)] = (char)random_below(256);
    LLVMFuzzerTestOneInput((const uint8_t *)made->bytes, made->length);
}

static int run_file(const char *name)
{
    static uint8_t bytes[1 << 16];
    FILE *file = fopen(name, "rb");
    if (!file) {
        fprintf(stderr, "fuzz: %s isn't a number of seconds, and no file\n", name);
        return 2;
    }
    const size_t length = fread(bytes, 1, sizeof bytes, file);
    fclose(file);
    return LLVMFuzzerTestOneInput(bytes, length);
}

int main(int words, char **word)
{
    static struct text pool[POOL];
    char *end = NULL;
    const double seconds = words > 1 ? strtod(word[1], &end) : 0;
    unsigned long inputs = 0;
    if (words < 2) {
        fprintf(stderr, "usage: fuzz SECONDS [SEED], or fuzz FILE\n");
        return 2;
    }
    if (*end)
        return run_file(word[1]);
    chance = words > 2 ? strtoull(word[2], NULL, 10) * 2 + 1 : (uint64_t)time(NULL) * 2 + 1;
    printf("fuzz: seed %llu\n", (unsigned long long)(chance / 2));
    for (size_t at = 0; at < POOL; ++at)
        pool[at].bytes = room(LONGEST);
    for (const time_t began = time(NULL); difftime(time(NULL), began) < seconds; ++inputs)
        make_input(pool);
    for (size_t at = 0; at < POOL; ++at)
        free(pool[at].bytes);
    for (size_t at = 0; at < MOST_RECORDS; ++at)
        free(records[at].bytes);
    printf("fuzz: %lu inputs\n", inputs);
    return 0;
}
#endif
