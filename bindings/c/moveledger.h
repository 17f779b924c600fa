/* moveledger.h: the ledger as a library.
 *
 * A ledger is held by a `moveledger` of yours, which holds none where `own` is NULL. Calls that only read (save, changes, changed_modules,
 * show, audit, and the questions by names and addresses) may use one ledger at once; a call that changes it (apply, begin, rollback,
 * commit, free) is alone with it. A call that finds the ledger in use answers BUSY, and nothing changes. That is a guard, and not a lock:
 * nothing waits, and where some call reads at any time, none that changes begins. Threads that share a ledger take a reader-writer lock that
 * lets writers in (docs/EMBEDDING.md, Threads). Different ledgers may be used by different threads at the same time. Every call returns, and
 * answers a status. No call aborts the process, if its thread has moveledger_stack_bytes of stack.
 * What a call changes, and what stays as it was, stands beside it.
 *
 * Compilers: what has the __atomic builtins (GCC, Clang), otherwise C11 with <stdatomic.h>. */
#ifndef MOVELEDGER_H
#define MOVELEDGER_H

#include <stddef.h>
#include <stdint.h>
#include <string.h>

#if !defined(__GNUC__) && !defined(__cplusplus)
#include <stdatomic.h>
#endif

/* The version that this header is of. */
#define MOVELEDGER_VERSION "1.0.0"
/* How much stack any call may take, in bytes. */
#define moveledger_stack_bytes ((size_t)1 << 16)

#ifdef __cplusplus
extern "C" {
#endif

/* What a call answers. 1 to 14 with MOVELEDGER_REFUSED are phases, 1 to 5 with MOVELEDGER_LOAD_REFUSED reasons:
 * `*why` has them. */
enum moveledger_status {
    MOVELEDGER_DONE = 0,           /* the call did what it was asked for */
    MOVELEDGER_REFUSED = 1,        /* a module or certificate is refused: *why is the phase */
    MOVELEDGER_LOAD_REFUSED = 2,   /* bytes are no saved ledger: *why is the reason */
    MOVELEDGER_TOO_COMPLEX = 3,    /* the search for a certificate reached its limits */
    MOVELEDGER_MEMORY = 4,         /* an allocation failed */
    MOVELEDGER_ARGUMENTS = 5,      /* a null pointer where none is allowed, a `moveledger` that holds no ledger, an unknown form,
                                      or a length above PTRDIFF_MAX; no ledger, count or report changed */
    MOVELEDGER_BUSY = 6,           /* another call uses the ledger; nothing changed, and it may be asked again */
    MOVELEDGER_NO_BLOCK = 7,       /* no block is open; nothing changed */
    MOVELEDGER_ABSENT = 8,         /* what was asked for isn't there */
    MOVELEDGER_TOO_LONG = 9,       /* the search for a certificate took the steps that it was given */
    MOVELEDGER_STOPPED = 10        /* the function that takes the pieces of a save answered other than 0 */
};

/* What holds a ledger, or none: begin with {NULL, 0}. Both parts are the library's own; never copy it to a second one that is used. One that
 * holds none may be a constant. One that holds a ledger isn't: calls that take it as const count themselves in `users`. */
typedef struct moveledger {
    void *own;
    int32_t users;                      /* how many calls read it now; -1 while one changes it */
} moveledger;

/* How far a save in pieces is, or none: begin with {NULL}. */
typedef struct moveledger_saving {
    void *own;
} moveledger_saving;

/* What the library itself takes: it never sees `users`. */
typedef struct moveledger_own {
    void *own;
} moveledger_own;

/* Bytes that the library gives: `length` bytes at `bytes`, to be given back by moveledger_bytes_free. They may be read and
 * written. Empty bytes may have bytes == NULL. */
typedef struct moveledger_bytes {
    uint8_t *bytes;
    size_t length;
    void *own;                          /* the library's own */
} moveledger_bytes;

/* Which lines a show or an audit makes. */
enum moveledger_form { MOVELEDGER_TEXT = 0, MOVELEDGER_JSON = 1 };

/* The name of a struct: the address of the module that defines it, in 16 bytes, the most significant first, the module's identifier, and
 * the struct's. Each identifier ends with a zero byte. */
typedef struct moveledger_struct {
    uint8_t address[16];
    const char *module;
    const char *name;
} moveledger_struct;

/* What a record is. */
typedef struct moveledger_record {
    size_t length;                      /* how many bytes it takes: the next record begins behind them */
    uint64_t budget;                    /* the most steps of a run; otherwise 0 */
    uint8_t sender[16];                 /* who publishes or runs; otherwise zeros */
    uint8_t kind;                       /* 1 publish, 2 run, 3 show, 4 audit; others are answered `refused 1` */
    uint8_t is_shaped;                  /* 1 if the payload is that of a publish or a run record; otherwise 0, and so are sender and budget */
} moveledger_record;

/* An empty ledger in *ledger. After anything but DONE *ledger holds none. What it held before is overwritten, and not freed. */
int32_t moveledger_new(moveledger_own *ledger);
/* The ledger that the bytes save, in *ledger, as with moveledger_new; *why is the reason after LOAD_REFUSED, otherwise 0. */
int32_t moveledger_load(const uint8_t *saved, size_t length, moveledger_own *ledger, uint8_t *why);
/* Frees a ledger: *ledger then holds none. Where it holds none, and at NULL, nothing is done. Through this header it answers DONE or BUSY. */
void moveledger_free(moveledger_own *ledger);

/* Answers the records in `records`, and appends their lines to *report (begin with {NULL, 0, NULL}). Records are numbered from
 * *answered + 1, and *answered goes up by the number of records that were answered, so that several calls go on where the
 * last one ended. A cut record at the end is answered as the last one (`refused 1`), as at the end of a stream. The records may not lie in
 * the report's own bytes. After 2^64 - 1 records none is answered any more.
 * MEMORY: the ledger is as the records up to *answered left it, and the report has all their lines; behind these it may have a beginning of
 * the lines of a show or an audit that comes next. */
int32_t moveledger_apply(moveledger_own *ledger, const uint8_t *records, size_t length, uint64_t *answered, moveledger_bytes *report);
/* Blocks. begin opens a block: records are answered in it as ever. rollback closes the newest block and gives back the ledger as it was
 * when that block was opened; commit closes it and keeps what was changed, as a part of the block around it, if there is one. Blocks nest.
 * rollback and commit take no memory and can't fail while a block is open and no other call uses the ledger. While one does, also one that
 * only reads, they answer BUSY, and the block stays open: ask again when it has ended. NO_BLOCK where no block is open. begin answers
 * MEMORY where memory runs out, and no block is opened then. A block notes what each change replaced, 96 bytes for a value and 80 for a
 * count, in lists that double; the first bundle that is published in a block also copies the published modules. A save, a show and the
 * questions tell what is held now; a ledger that is loaded has no open block. */
int32_t moveledger_begin(moveledger_own *ledger);
int32_t moveledger_rollback(moveledger_own *ledger);
int32_t moveledger_commit(moveledger_own *ledger);
/* What was changed since the newest block was opened; NO_BLOCK where none is open. The ledger stays as it was.
 * changes: of the keys whose values differ, by ascending key: in *before a show, as one line of JSON, of the values that they had, in *now
 * one of those that they have. A key that is new stands in *now alone, and one that is gone in *before alone. It takes as long, and memory,
 * as what runs changed in the block.
 * changed_modules: a line for each module that was published (`published ADDRESS::MODULE`) or whose bytes or certificate were replaced by
 * others (`replaced ADDRESS::MODULE`), in order of publication. */
int32_t moveledger_changes(moveledger_own *ledger, moveledger_bytes *before, moveledger_bytes *now);
int32_t moveledger_changed_modules(moveledger_own *ledger, moveledger_bytes *names);
/* The ledger's text, as `apply --save` writes it, in *saved. The ledger stays as it was. Here and below, what `*saved`, `*lines`,
 * `*certificate` or `*migrated` held before is overwritten, and not freed; after anything but DONE it is {NULL, 0, NULL}, and where there
 * is a `*why`, it is 0 unless the status has a reason. */
int32_t moveledger_save(moveledger_own *ledger, moveledger_bytes *saved);
/* The same text in pieces of at most 65,536 bytes, one after another: what is needed beside the ledger doesn't grow with what is stored, so a
 * ledger that ran out of memory can be saved. save_to calls `write` with each piece and with `context`, until it answers other than 0: that
 * is STOPPED. It counts as one call that reads the ledger, so that `write` may ask it, and is answered BUSY where it would change it. `write`
 * returns, and never leaves by longjmp. In C++ it may throw: the save has then ended, and what it took is freed.
 * It is made of these three: begin makes *saving ready; next gives a piece, or ABSENT at the end, and after MEMORY it may be asked again; end
 * frees what begin and next took. Between the first piece and the last the ledger may not change: otherwise the pieces are those of
 * different ledgers. */
int32_t moveledger_save_begin(moveledger_saving *saving);
int32_t moveledger_save_next(moveledger_own *ledger, moveledger_saving *saving, moveledger_bytes *piece);
void moveledger_save_end(moveledger_saving *saving);
/* The lines of a show or an audit, without numbers, each ended by a line feed. The ledger stays as it was. */
int32_t moveledger_show(moveledger_own *ledger, uint32_t form, moveledger_bytes *lines);
int32_t moveledger_audit(moveledger_own *ledger, uint32_t form, moveledger_bytes *lines);

/* Questions. Each takes a search or two and what it tells, whatever else the ledger has; the ledger stays as it was. An address is 16
 * bytes, the most significant first. Through this header a struct is named by a `const moveledger_struct *`, and a module by its address
 * and a text that ends with a zero byte; the library itself takes the parts in turn, each text with its length. After anything but DONE
 * bytes are {NULL, 0, NULL}, and numbers are 0.
 *
 * show_value: the value of a struct that is stored at an address, as the lines of a show that has no other; ABSENT where there is none.
 * show_at: all values that are stored at an address, as the lines of a show that has no others.
 * show_page: the values of a struct at addresses from *from on, by ascending address, likewise. The struct's values have no index of
 * their own, so the call looks at `most` keys at most, of whichever structs they are. Then *is_more is 1 and the next page begins at
 * *from; or *is_more is 0, no value is left, and *from is as it was, also after anything but DONE. The first page is that from address 0,
 * and with `most` 0 the pages never end. ABSENT where no such struct is published. */
int32_t moveledger_show_value(moveledger_own *ledger, const uint8_t *address, const uint8_t *home, const uint8_t *module,
                              size_t module_length, const uint8_t *name, size_t name_length, uint32_t form, moveledger_bytes *lines);
int32_t moveledger_show_at(moveledger_own *ledger, const uint8_t *address, uint32_t form, moveledger_bytes *lines);
int32_t moveledger_show_page(moveledger_own *ledger, const uint8_t *home, const uint8_t *module, size_t module_length,
                             const uint8_t *name, size_t name_length, uint8_t *from, size_t most, uint32_t form,
                             moveledger_bytes *lines, uint8_t *is_more);
/* modules: the names of the published modules in order of publication, each as ADDRESS::MODULE and a line feed, the address in 32
 * hexadecimal digits.
 * module: the bytes of the module of a name, and those of the certificate that it was checked with; ABSENT where there is no such module. */
int32_t moveledger_modules(moveledger_own *ledger, moveledger_bytes *names);
int32_t moveledger_module(moveledger_own *ledger, const uint8_t *address, const uint8_t *name, size_t name_length,
                          moveledger_bytes *module, moveledger_bytes *certificate);
/* runs: how many runs were begun, whatever became of them.
 * tally: how many values of a struct were packed, and how many unpacked, in runs that returned; the difference is how many are stored.
 * ABSENT where no such struct is published, or where it has copy or drop. */
int32_t moveledger_runs(moveledger_own *ledger, uint64_t *runs);
int32_t moveledger_tally(moveledger_own *ledger, const uint8_t *home, const uint8_t *module, size_t module_length,
                         const uint8_t *name, size_t name_length, uint64_t *packed, uint64_t *unpacked);

/* Calls without a ledger. Through this header, read_record gives the record at the front of bytes in a moveledger_record, without answering
 * it; ABSENT where no whole one stands there, and *record is zeros after anything but DONE. With its budget moveledger_most_bytes tells how
 * much it may store, on average. */
int32_t moveledger_read_record(const uint8_t *records, size_t length, size_t *size, uint8_t *kind, uint8_t *is_shaped, uint8_t *sender,
                               uint64_t *budget);
/* prove: the certificate's hexadecimal, as the command prints it, without a line end. It has no limit of time; prove_within takes so many
 * steps at most, where a step is one instruction of one visit of its block: TOO_LONG where they don't suffice. check: DONE where the module
 * passes with the certificate of that text. migrate: a saved ledger in the current form. */
int32_t moveledger_prove(const uint8_t *module, size_t length, moveledger_bytes *certificate, uint8_t *why);
int32_t moveledger_prove_within(const uint8_t *module, size_t length, uint64_t steps, moveledger_bytes *certificate, uint8_t *why);
int32_t moveledger_check(const uint8_t *module, size_t length, const uint8_t *certificate, size_t certificate_length, uint8_t *why);
int32_t moveledger_migrate(const uint8_t *saved, size_t length, moveledger_bytes *migrated, uint8_t *why);

/* Frees bytes that a call gave, and leaves {NULL, 0, NULL}. At NULL nothing is done. */
void moveledger_bytes_free(moveledger_bytes *bytes);

/* The library itself takes pointers as references: none of them is NULL, but that of a length of 0, and no length is above
 * PTRDIFF_MAX; and it takes a ledger as its own while a call runs. In C and C++ each call goes through a function below, which tests that
 * first, clears what is to hold an answer, and counts who uses a ledger. Other languages call the library's functions by their names, and
 * see to that where their types don't say it; so does `(moveledger_new)(ledger)`. */
static inline int moveledger_is_slice(const uint8_t *bytes, size_t length) {
    return (bytes || !length) && length <= PTRDIFF_MAX;
}
/* Changes a ledger's number of users from `*from`, unless it is another one, which it then puts there. */
static inline int moveledger_changes_users(const moveledger *ledger, int32_t *from, int32_t to) {
    int32_t *users = (int32_t *)(uintptr_t)&ledger->users;
#ifdef __GNUC__
    return __atomic_compare_exchange_n(users, from, to, 0, __ATOMIC_ACQ_REL, __ATOMIC_ACQUIRE);
#else
    return atomic_compare_exchange_strong((_Atomic int32_t *)users, from, to);
#endif
}
/* Whether a ledger is held. Nothing is written, so that what holds none may be a constant. */
static inline int moveledger_holds(const moveledger *ledger) {
    if (!ledger) return 0;
#ifdef __GNUC__
    return __atomic_load_n(&ledger->own, __ATOMIC_RELAXED) != NULL;
#else
    return atomic_load((void *_Atomic *)(uintptr_t)&ledger->own) != NULL;
#endif
}
/* Puts what is held. Another call may look meanwhile whether a ledger is. */
static inline void moveledger_puts_own(moveledger *ledger, void *own) {
#ifdef __GNUC__
    __atomic_store_n(&ledger->own, own, __ATOMIC_RELAXED);
#else
    atomic_store((void *_Atomic *)(uintptr_t)&ledger->own, own);
#endif
}
/* Begins a call that changes a ledger. */
static inline int moveledger_begins_change(const moveledger *ledger) {
    int32_t users = 0;
    return moveledger_changes_users(ledger, &users, -1);
}
/* Begins a call that reads a ledger, beside others that do. */
static inline int moveledger_begins_reading(const moveledger *ledger) {
    int32_t users = 0;
    while (users >= 0 && users < INT32_MAX)
        if (moveledger_changes_users(ledger, &users, users + 1)) return 1;
    return 0;
}
/* Ends a call on a ledger. */
static inline void moveledger_ends_use(const moveledger *ledger) {
    int32_t users = 1;
    while (!moveledger_changes_users(ledger, &users, users < 0 ? 0 : users - 1)) {}
}
static inline void moveledger_clear_bytes(moveledger_bytes *bytes) {
    if (bytes) bytes->bytes = NULL, bytes->length = 0, bytes->own = NULL;
}
static inline void moveledger_clear_ledger(moveledger *ledger) {
    if (ledger) ledger->own = NULL, ledger->users = 0;
}
static inline void moveledger_clear_reason(uint8_t *why) {
    if (why) *why = 0;
}
static inline void moveledger_clear_count(uint64_t *count) {
    if (count) *count = 0;
}
static inline int32_t moveledger_new_tested(moveledger *ledger) {
    moveledger_own own = {NULL};
    moveledger_clear_ledger(ledger);
    if (!ledger) return MOVELEDGER_ARGUMENTS;
    const int32_t status = moveledger_new(&own);
    ledger->own = own.own;
    return status;
}
static inline int32_t moveledger_load_tested(const uint8_t *saved, size_t length, moveledger *ledger, uint8_t *why) {
    moveledger_own own = {NULL};
    moveledger_clear_ledger(ledger);
    moveledger_clear_reason(why);
    if (!moveledger_is_slice(saved, length) || !ledger || !why) return MOVELEDGER_ARGUMENTS;
    const int32_t status = moveledger_load(saved, length, &own, why);
    ledger->own = own.own;
    return status;
}
static inline int32_t moveledger_free_tested(moveledger *ledger) {
    if (!ledger) return MOVELEDGER_DONE;
    if (!moveledger_begins_change(ledger)) return MOVELEDGER_BUSY;
    moveledger_own own = {ledger->own};
    moveledger_free(&own);
    moveledger_puts_own(ledger, own.own);
    moveledger_ends_use(ledger);
    return MOVELEDGER_DONE;
}
static inline int32_t moveledger_apply_tested(moveledger *ledger, const uint8_t *records, size_t length, uint64_t *answered,
                                              moveledger_bytes *report) {
    if (!moveledger_holds(ledger) || !moveledger_is_slice(records, length) || !answered || !report) return MOVELEDGER_ARGUMENTS;
    if (!moveledger_begins_change(ledger)) return MOVELEDGER_BUSY;
    moveledger_own own = {ledger->own};
    const int32_t status = moveledger_apply(&own, records, length, answered, report);
    moveledger_puts_own(ledger, own.own);
    moveledger_ends_use(ledger);
    return status;
}
static inline int32_t moveledger_begin_tested(moveledger *ledger) {
    if (!moveledger_holds(ledger)) return MOVELEDGER_ARGUMENTS;
    if (!moveledger_begins_change(ledger)) return MOVELEDGER_BUSY;
    moveledger_own own = {ledger->own};
    const int32_t status = moveledger_begin(&own);
    moveledger_puts_own(ledger, own.own);
    moveledger_ends_use(ledger);
    return status;
}
static inline int32_t moveledger_rollback_tested(moveledger *ledger) {
    if (!moveledger_holds(ledger)) return MOVELEDGER_ARGUMENTS;
    if (!moveledger_begins_change(ledger)) return MOVELEDGER_BUSY;
    moveledger_own own = {ledger->own};
    const int32_t status = moveledger_rollback(&own);
    moveledger_puts_own(ledger, own.own);
    moveledger_ends_use(ledger);
    return status;
}
static inline int32_t moveledger_commit_tested(moveledger *ledger) {
    if (!moveledger_holds(ledger)) return MOVELEDGER_ARGUMENTS;
    if (!moveledger_begins_change(ledger)) return MOVELEDGER_BUSY;
    moveledger_own own = {ledger->own};
    const int32_t status = moveledger_commit(&own);
    moveledger_puts_own(ledger, own.own);
    moveledger_ends_use(ledger);
    return status;
}
static inline int32_t moveledger_save_tested(const moveledger *ledger, moveledger_bytes *saved) {
    moveledger_clear_bytes(saved);
    if (!moveledger_holds(ledger) || !saved) return MOVELEDGER_ARGUMENTS;
    if (!moveledger_begins_reading(ledger)) return MOVELEDGER_BUSY;
    moveledger_own own = {ledger->own};
    const int32_t status = moveledger_save(&own, saved);
    moveledger_ends_use(ledger);
    return status;
}
static inline int32_t moveledger_changes_tested(const moveledger *ledger, moveledger_bytes *before, moveledger_bytes *now) {
    moveledger_clear_bytes(before);
    moveledger_clear_bytes(now);
    if (!moveledger_holds(ledger) || !before || !now) return MOVELEDGER_ARGUMENTS;
    if (!moveledger_begins_reading(ledger)) return MOVELEDGER_BUSY;
    moveledger_own own = {ledger->own};
    const int32_t status = moveledger_changes(&own, before, now);
    moveledger_ends_use(ledger);
    return status;
}
static inline int32_t moveledger_changed_modules_tested(const moveledger *ledger, moveledger_bytes *names) {
    moveledger_clear_bytes(names);
    if (!moveledger_holds(ledger) || !names) return MOVELEDGER_ARGUMENTS;
    if (!moveledger_begins_reading(ledger)) return MOVELEDGER_BUSY;
    moveledger_own own = {ledger->own};
    const int32_t status = moveledger_changed_modules(&own, names);
    moveledger_ends_use(ledger);
    return status;
}
static inline int32_t moveledger_save_begin_tested(moveledger_saving *saving) {
    if (!saving) return MOVELEDGER_ARGUMENTS;
    saving->own = NULL;
    return moveledger_save_begin(saving);
}
static inline int32_t moveledger_save_next_tested(const moveledger *ledger, moveledger_saving *saving, moveledger_bytes *piece) {
    moveledger_clear_bytes(piece);
    if (!moveledger_holds(ledger) || !saving || !piece) return MOVELEDGER_ARGUMENTS;
    if (!moveledger_begins_reading(ledger)) return MOVELEDGER_BUSY;
    moveledger_own own = {ledger->own};
    const int32_t status = moveledger_save_next(&own, saving, piece);
    moveledger_ends_use(ledger);
    return status;
}
static inline void moveledger_save_end_tested(moveledger_saving *saving) {
    if (saving) moveledger_save_end(saving);
}
/* A save whose pieces are handed to a function, the ledger that is in use by it, and the piece that the function has. */
typedef struct moveledger_handing {
    const moveledger *ledger;
    moveledger_saving saving;
    moveledger_bytes piece;
} moveledger_handing;
static inline void moveledger_ends_handing(moveledger_handing *handing) {
    moveledger_bytes_free(&handing->piece);
    moveledger_save_end(&handing->saving);
    moveledger_ends_use(handing->ledger);
}
/* Hands the pieces of a save to a function. */
static inline int32_t moveledger_save_to(const moveledger *ledger, int (*write)(void *context, const uint8_t *bytes, size_t length),
                                         void *context) {
    if (!moveledger_holds(ledger) || !write) return MOVELEDGER_ARGUMENTS;
    if (!moveledger_begins_reading(ledger)) return MOVELEDGER_BUSY;
    moveledger_handing handing = {ledger, {NULL}, {NULL, 0, NULL}};
#ifdef __cplusplus
    struct ending { /* also where `write` throws */
        moveledger_handing *handing;
        ~ending() { moveledger_ends_handing(handing); }
    } const ends = {&handing};
    (void)ends;
#endif
    moveledger_own own = {ledger->own};
    int32_t status = moveledger_save_begin(&handing.saving);
    while (status == MOVELEDGER_DONE && (status = moveledger_save_next(&own, &handing.saving, &handing.piece)) == MOVELEDGER_DONE) {
        if (write(context, handing.piece.bytes, handing.piece.length)) status = MOVELEDGER_STOPPED;
        moveledger_bytes_free(&handing.piece);
    }
#ifndef __cplusplus
    moveledger_ends_handing(&handing);
#endif
    return status == MOVELEDGER_ABSENT ? (int32_t)MOVELEDGER_DONE : status;
}
static inline int32_t moveledger_show_tested(const moveledger *ledger, uint32_t form, moveledger_bytes *lines) {
    moveledger_clear_bytes(lines);
    if (!moveledger_holds(ledger) || !lines) return MOVELEDGER_ARGUMENTS;
    if (!moveledger_begins_reading(ledger)) return MOVELEDGER_BUSY;
    moveledger_own own = {ledger->own};
    const int32_t status = moveledger_show(&own, form, lines);
    moveledger_ends_use(ledger);
    return status;
}
static inline int32_t moveledger_audit_tested(const moveledger *ledger, uint32_t form, moveledger_bytes *lines) {
    moveledger_clear_bytes(lines);
    if (!moveledger_holds(ledger) || !lines) return MOVELEDGER_ARGUMENTS;
    if (!moveledger_begins_reading(ledger)) return MOVELEDGER_BUSY;
    moveledger_own own = {ledger->own};
    const int32_t status = moveledger_audit(&own, form, lines);
    moveledger_ends_use(ledger);
    return status;
}
static inline int moveledger_is_named(const moveledger_struct *name) {
    return name && name->module && name->name;
}
static inline const uint8_t *moveledger_text(const char *text) {
    return (const uint8_t *)text;
}
static inline int32_t moveledger_show_value_tested(const moveledger *ledger, const uint8_t *address, const moveledger_struct *name,
                                                   uint32_t form, moveledger_bytes *lines) {
    moveledger_clear_bytes(lines);
    if (!moveledger_holds(ledger) || !address || !moveledger_is_named(name) || !lines) return MOVELEDGER_ARGUMENTS;
    if (!moveledger_begins_reading(ledger)) return MOVELEDGER_BUSY;
    moveledger_own own = {ledger->own};
    const int32_t status = moveledger_show_value(&own, address, name->address, moveledger_text(name->module), strlen(name->module),
                                                 moveledger_text(name->name), strlen(name->name), form, lines);
    moveledger_ends_use(ledger);
    return status;
}
static inline int32_t moveledger_show_at_tested(const moveledger *ledger, const uint8_t *address, uint32_t form,
                                                moveledger_bytes *lines) {
    moveledger_clear_bytes(lines);
    if (!moveledger_holds(ledger) || !address || !lines) return MOVELEDGER_ARGUMENTS;
    if (!moveledger_begins_reading(ledger)) return MOVELEDGER_BUSY;
    moveledger_own own = {ledger->own};
    const int32_t status = moveledger_show_at(&own, address, form, lines);
    moveledger_ends_use(ledger);
    return status;
}
static inline int32_t moveledger_show_page_tested(const moveledger *ledger, const moveledger_struct *name, uint8_t *from, size_t most,
                                                  uint32_t form, moveledger_bytes *lines, uint8_t *is_more) {
    moveledger_clear_bytes(lines);
    moveledger_clear_reason(is_more);
    if (!moveledger_holds(ledger) || !moveledger_is_named(name) || !from || !lines || !is_more) return MOVELEDGER_ARGUMENTS;
    if (!moveledger_begins_reading(ledger)) return MOVELEDGER_BUSY;
    moveledger_own own = {ledger->own};
    const int32_t status = moveledger_show_page(&own, name->address, moveledger_text(name->module), strlen(name->module),
                                                moveledger_text(name->name), strlen(name->name), from, most, form, lines, is_more);
    moveledger_ends_use(ledger);
    return status;
}
static inline int32_t moveledger_modules_tested(const moveledger *ledger, moveledger_bytes *names) {
    moveledger_clear_bytes(names);
    if (!moveledger_holds(ledger) || !names) return MOVELEDGER_ARGUMENTS;
    if (!moveledger_begins_reading(ledger)) return MOVELEDGER_BUSY;
    moveledger_own own = {ledger->own};
    const int32_t status = moveledger_modules(&own, names);
    moveledger_ends_use(ledger);
    return status;
}
static inline int32_t moveledger_module_tested(const moveledger *ledger, const uint8_t *address, const char *name,
                                               moveledger_bytes *module, moveledger_bytes *certificate) {
    moveledger_clear_bytes(module);
    moveledger_clear_bytes(certificate);
    if (!moveledger_holds(ledger) || !address || !name || !module || !certificate) return MOVELEDGER_ARGUMENTS;
    if (!moveledger_begins_reading(ledger)) return MOVELEDGER_BUSY;
    moveledger_own own = {ledger->own};
    const int32_t status = moveledger_module(&own, address, moveledger_text(name), strlen(name), module, certificate);
    moveledger_ends_use(ledger);
    return status;
}
static inline int32_t moveledger_runs_tested(const moveledger *ledger, uint64_t *runs) {
    moveledger_clear_count(runs);
    if (!moveledger_holds(ledger) || !runs) return MOVELEDGER_ARGUMENTS;
    if (!moveledger_begins_reading(ledger)) return MOVELEDGER_BUSY;
    moveledger_own own = {ledger->own};
    const int32_t status = moveledger_runs(&own, runs);
    moveledger_ends_use(ledger);
    return status;
}
static inline int32_t moveledger_tally_tested(const moveledger *ledger, const moveledger_struct *name, uint64_t *packed,
                                              uint64_t *unpacked) {
    moveledger_clear_count(packed);
    moveledger_clear_count(unpacked);
    if (!moveledger_holds(ledger) || !moveledger_is_named(name) || !packed || !unpacked) return MOVELEDGER_ARGUMENTS;
    if (!moveledger_begins_reading(ledger)) return MOVELEDGER_BUSY;
    moveledger_own own = {ledger->own};
    const int32_t status = moveledger_tally(&own, name->address, moveledger_text(name->module), strlen(name->module),
                                            moveledger_text(name->name), strlen(name->name), packed, unpacked);
    moveledger_ends_use(ledger);
    return status;
}
static inline int32_t moveledger_read_record_tested(const uint8_t *records, size_t length, moveledger_record *record) {
    if (record) memset(record, 0, sizeof *record);
    return moveledger_is_slice(records, length) && record
               ? moveledger_read_record(records, length, &record->length, &record->kind, &record->is_shaped, record->sender, &record->budget)
               : (int32_t)MOVELEDGER_ARGUMENTS;
}
/* The most bytes that a run with this budget adds to a ledger, on average of runs: a value of at most 4,300 bytes for each three steps. A
 * single run may add more, since lists double: at a power of two of values it adds 32 bytes for each value that is stored, and in a block
 * the notes grow likewise. docs/EMBEDDING.md says what to leave room for. A budget above 10,000,000 is rejected, and stores nothing. */
static inline uint64_t moveledger_most_bytes(uint64_t budget) {
    return budget > 10000000 ? 0 : budget / 3 * 4300;
}
static inline int32_t moveledger_prove_tested(const uint8_t *module, size_t length, moveledger_bytes *certificate, uint8_t *why) {
    moveledger_clear_bytes(certificate);
    moveledger_clear_reason(why);
    return moveledger_is_slice(module, length) && certificate && why ? moveledger_prove(module, length, certificate, why)
                                                                     : (int32_t)MOVELEDGER_ARGUMENTS;
}
static inline int32_t moveledger_prove_within_tested(const uint8_t *module, size_t length, uint64_t steps, moveledger_bytes *certificate,
                                                     uint8_t *why) {
    moveledger_clear_bytes(certificate);
    moveledger_clear_reason(why);
    return moveledger_is_slice(module, length) && certificate && why
               ? moveledger_prove_within(module, length, steps, certificate, why)
               : (int32_t)MOVELEDGER_ARGUMENTS;
}
static inline int32_t moveledger_check_tested(const uint8_t *module, size_t length, const uint8_t *certificate,
                                              size_t certificate_length, uint8_t *why) {
    moveledger_clear_reason(why);
    return moveledger_is_slice(module, length) && moveledger_is_slice(certificate, certificate_length) && why
               ? moveledger_check(module, length, certificate, certificate_length, why)
               : (int32_t)MOVELEDGER_ARGUMENTS;
}
static inline int32_t moveledger_migrate_tested(const uint8_t *saved, size_t length, moveledger_bytes *migrated, uint8_t *why) {
    moveledger_clear_bytes(migrated);
    moveledger_clear_reason(why);
    return moveledger_is_slice(saved, length) && migrated && why ? moveledger_migrate(saved, length, migrated, why)
                                                                 : (int32_t)MOVELEDGER_ARGUMENTS;
}
static inline void moveledger_bytes_free_tested(moveledger_bytes *bytes) {
    if (bytes) moveledger_bytes_free(bytes);
}
#define moveledger_new(ledger) moveledger_new_tested(ledger)
#define moveledger_load(saved, length, ledger, why) moveledger_load_tested(saved, length, ledger, why)
#define moveledger_free(ledger) moveledger_free_tested(ledger)
#define moveledger_apply(ledger, records, length, answered, report) \
    moveledger_apply_tested(ledger, records, length, answered, report)
#define moveledger_begin(ledger) moveledger_begin_tested(ledger)
#define moveledger_rollback(ledger) moveledger_rollback_tested(ledger)
#define moveledger_commit(ledger) moveledger_commit_tested(ledger)
#define moveledger_save(ledger, saved) moveledger_save_tested(ledger, saved)
#define moveledger_changes(ledger, before, now) moveledger_changes_tested(ledger, before, now)
#define moveledger_changed_modules(ledger, names) moveledger_changed_modules_tested(ledger, names)
#define moveledger_save_begin(saving) moveledger_save_begin_tested(saving)
#define moveledger_save_next(ledger, saving, piece) moveledger_save_next_tested(ledger, saving, piece)
#define moveledger_save_end(saving) moveledger_save_end_tested(saving)
#define moveledger_show(ledger, form, lines) moveledger_show_tested(ledger, form, lines)
#define moveledger_audit(ledger, form, lines) moveledger_audit_tested(ledger, form, lines)
#define moveledger_show_value(ledger, address, name, form, lines) moveledger_show_value_tested(ledger, address, name, form, lines)
#define moveledger_show_at(ledger, address, form, lines) moveledger_show_at_tested(ledger, address, form, lines)
#define moveledger_show_page(ledger, name, from, most, form, lines, is_more) \
    moveledger_show_page_tested(ledger, name, from, most, form, lines, is_more)
#define moveledger_modules(ledger, names) moveledger_modules_tested(ledger, names)
#define moveledger_module(ledger, address, name, module, certificate) \
    moveledger_module_tested(ledger, address, name, module, certificate)
#define moveledger_runs(ledger, runs) moveledger_runs_tested(ledger, runs)
#define moveledger_tally(ledger, name, packed, unpacked) moveledger_tally_tested(ledger, name, packed, unpacked)
#define moveledger_read_record(records, length, record) moveledger_read_record_tested(records, length, record)
#define moveledger_prove(module, length, certificate, why) moveledger_prove_tested(module, length, certificate, why)
#define moveledger_prove_within(module, length, steps, certificate, why) \
    moveledger_prove_within_tested(module, length, steps, certificate, why)
#define moveledger_check(module, length, certificate, certificate_length, why) \
    moveledger_check_tested(module, length, certificate, certificate_length, why)
#define moveledger_migrate(saved, length, migrated, why) moveledger_migrate_tested(saved, length, migrated, why)
#define moveledger_bytes_free(bytes) moveledger_bytes_free_tested(bytes)

#ifdef __cplusplus
}
#endif
#endif
