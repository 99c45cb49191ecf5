/* A site of escrow inside a program: libescrow_c.a, built by `rt lib` in crates/escrow_c.
 *
 * A site holds rights to lower and to raise quantities, so that no field passes its bounds, whatever other sites do
 * at the same time. What it answered stands in its log, which the caller keeps: it opens the site over the bytes that
 * it has, asks, takes what was added to the log, writes and syncs that, and only then lets the answer out. The site
 * itself reads no file and has no clock and no thread. docs/EMBEDDING.md tells what is proved of these calls, and
 * shows a host.
 *
 * Of every call the caller has to see to this; nothing checks it:
 * - a pointer is to memory of its type, is aligned to it, and isn't null, also where its length is 0;
 * - a pointer and the size behind it are so many bytes;
 * - what a pointer that isn't const is to overlaps nothing else of the call;
 * - a handle is {0} or what a call left of it, and never read or written by the caller; of its copies one alone is
 *   used;
 * - one call at a time has a handle, on any thread: a lock, or a join, stands between two;
 * - malloc, realloc and free are one allocator, which aligns to 16; no call is made from a signal handler. A call takes
 *   some 30 kB of stack;
 * - a site stays with the process that opened it: in a child of a fork no call is made for it, or both sell the same.
 *
 * Quantities are whole numbers of a field's own units; rights are counted in the same. A text is bytes without a line
 * feed and without a 0 at its end, as docs/FORMATS.md spells it. Numbers are those of one machine: nothing here is
 * meant for a file or a wire but the log, the lines and their entries.
 */
#ifndef ESCROW_H
#define ESCROW_H

#include <stdbool.h>
#include <stddef.h>
#include <stdint.h>

#ifdef __cplusplus
extern "C" {
#endif

/* A site, or none: {0} is a handle to none. Its members are the library's. */
typedef struct {
    void *at;
    bool full;
} escrow_handle;

/* How a call ended. At each but ESCROW_DONE and ESCROW_UNTOLD the site is exactly as it was, and so is its log. */
enum {
    ESCROW_DONE = 0,       /* the call did what it says */
    ESCROW_NO_MEMORY = 1,  /* malloc refused */
    ESCROW_CLOSED = 2,     /* the handle is to no site */
    ESCROW_IS_OPEN = 3,    /* the handle is to a site already */
    ESCROW_NO_SCHEMA = 4,  /* the header tells no schema */
    ESCROW_NO_SITE = 5,    /* the schema has no site of this number */
    ESCROW_BAD_LOG = 6,    /* a line of the log is no record of this site, or breaks a rule of a kept log */
    ESCROW_NO_LINE = 7,    /* the bytes aren't UTF-8, have a line feed, or are more than 256 */
    ESCROW_NO_COMMAND = 8, /* the line, or the numbers, spell no command under the schema */
    ESCROW_OTHER_SITE = 9, /* the line spells a command of another site */
    ESCROW_NO_ROOM = 10,   /* there is too little room for the answer; nothing was done */
    ESCROW_UNTOLD = 11,    /* the command was carried out, and malloc refused the room for its text, which was taken
                              before: this never came */
    ESCROW_DOWN = 12,      /* the site is down: ask it to restart */
    ESCROW_NO_FIELD = 13,  /* the schema has no field of this number */
    ESCROW_PAST_END = 14,  /* the log has fewer bytes than that */
    ESCROW_TOO_LONG = 15,  /* the script has more than 1,000,000 lines or 268,435,456 bytes */
    ESCROW_BAD_ENTRY = 16, /* a line of the trace is no entry */
    ESCROW_ILLEGAL = 17    /* an entry of the trace breaks a rule */
};

/* The most bytes of an entry's text. */
enum { ESCROW_TEXT = 256 };

/* The kinds of commands. Behind each stand the members that it names; the others aren't looked at. */
enum {
    ESCROW_BEGIN = 1,    /* opens a transaction */
    ESCROW_ESCROW = 2,   /* epoch, number, field, change: sets aside, for a transaction, the rights for a change of a
                            field: below 0 to lower it, above 0 to raise it */
    ESCROW_COMMIT = 3,   /* epoch, number: makes the changes of a transaction permanent */
    ESCROW_ABORT = 4,    /* epoch, number: gives the rights of a transaction back */
    ESCROW_GIVE = 5,     /* to, field, right, amount: gives free rights to another site */
    ESCROW_RESTATE = 6,  /* to, field, right: asks for the statement of all that was given */
    ESCROW_SPARE = 7,    /* to, field, right, amount: gives so many, and at most half of the share, rounded up */
    ESCROW_TIGHTEN = 8,  /* field, right, amount: gives rights up for good */
    ESCROW_ACCEPT = 9,   /* from, to, field, right, amount: accepts a statement, of which amount is the total */
    ESCROW_READ = 10,    /* field: asks between which values its committed value lies */
    ESCROW_SHARE = 11,   /* field: asks for the site's free rights on it */
    ESCROW_RESTART = 12  /* stops the site, and starts it again on its log */
};

/* The kinds of rights. */
enum { ESCROW_LOWER = 0, ESCROW_RAISE = 1 };

/* A command in numbers. */
typedef struct {
    uint32_t kind;   /* one of the kinds above */
    uint32_t right;  /* ESCROW_LOWER or ESCROW_RAISE */
    uint32_t epoch;  /* of the transaction */
    uint32_t number; /* of the transaction, in its epoch */
    uint16_t field;  /* its place in the header, from 0 */
    uint16_t from;   /* the giver of a statement */
    uint16_t to;     /* the site that is given to */
    uint64_t amount; /* rights, or a total of them */
    int64_t change;  /* quantities */
} escrow_ask;

/* The kinds of replies. Behind each stands what first and second are, else they are 0; so are the other members. */
enum {
    ESCROW_BEGUN = 1,      /* the epoch and the number of the transaction */
    ESCROW_GRANTED = 2,
    ESCROW_COMMITTED = 3,
    ESCROW_ABORTED = 4,
    ESCROW_GIVEN = 5,      /* all that was given so far, of the kind, on the field, to that site: a statement's total */
    ESCROW_STATED = 6,     /* the same */
    ESCROW_SPARED = 7,     /* what was given now, and all so far */
    ESCROW_TIGHTENED = 8,  /* all that was given up so far of the kind on the field */
    ESCROW_ACCEPTED = 9,   /* how many rights the statement told that weren't accepted before */
    ESCROW_BETWEEN = 10,   /* low and high are the least and the greatest value */
    ESCROW_SHARES = 11,    /* the free rights to lower and to raise */
    ESCROW_RESTARTED = 12, /* the new epoch; code is 0, since nothing was in doubt */
    ESCROW_UNSURE = 13,    /* never, at a site of this library: its log in memory doesn't fail */
    ESCROW_STILL_DOWN = 14, /* never, for that reason */
    ESCROW_REFUSED = 15    /* code is the number of the refusal; first is what it tells: of 7 the share, of 9 the total,
                              of 11 the room */
};

/* A reply in numbers. */
typedef struct {
    uint32_t kind; /* one of the kinds above */
    uint32_t code;
    uint64_t first;
    uint64_t second;
    int64_t low;
    int64_t high;
} escrow_answer;

/* Opens site `site` of the schema that the header tells (one line of JSON, without its line feed) over what the
 * caller kept of its log. What stands behind the last line feed of it was torn off, and doesn't count: *kept is how
 * many bytes do, and the caller cuts its log there before it adds to it. Over an empty log the site is up, over any
 * other it is down until it is asked to restart. The header and the log aren't needed behind the call.
 *
 * ESCROW_IS_OPEN, ESCROW_NO_SCHEMA, ESCROW_NO_SITE, ESCROW_NO_MEMORY. ESCROW_BAD_LOG: *line is the first line of the
 * log, counted from 1, that isn't what a site of this header and number left; else it is 0. *kept is 0 but at
 * ESCROW_DONE. Takes a pass over the log, and memory for its bytes. */
uint32_t escrow_site_open(escrow_handle *handle, const uint8_t *header, size_t header_length, uint16_t site,
                          const uint8_t *log, size_t log_length, size_t *kept, uint64_t *line);

/* Closes the site, and frees its memory; the handle is then {0} again. Open transactions end, as by a restart.
 * ESCROW_CLOSED: there was none, and nothing was freed. */
uint32_t escrow_site_close(escrow_handle *handle);

/* Asks the site a command in numbers. *answer is the reply that it owes, and its log has grown by the command's
 * record, where it leaves one: the caller takes it by escrow_site_log, writes and syncs it, and only then tells
 * anybody. ESCROW_CLOSED, ESCROW_NO_COMMAND, ESCROW_NO_MEMORY; *answer is then as it was. A refusal is an answer. */
uint32_t escrow_site_ask(escrow_handle *handle, const escrow_ask *ask, escrow_answer *answer);

/* The same of a command that a line spells, as `0 escrow 0.1 stock -20`. ESCROW_CLOSED, ESCROW_NO_LINE,
 * ESCROW_NO_COMMAND, ESCROW_OTHER_SITE, ESCROW_NO_MEMORY. */
uint32_t escrow_site_do(escrow_handle *handle, const uint8_t *line, size_t line_length, escrow_answer *answer);

/* The same, and answers by the text of the entry, as `0 escrow 0.1 stock -20 -> granted`: *length bytes of it, in
 * room of at least ESCROW_TEXT bytes. What stands behind them in the room isn't told. Besides the faults of
 * escrow_site_do: ESCROW_NO_ROOM, ESCROW_UNTOLD. *length is 0 but at ESCROW_DONE. */
uint32_t escrow_site_tell(escrow_handle *handle, const uint8_t *line, size_t line_length, uint8_t *text, size_t room,
                          size_t *length);

/* Tells by *length how many bytes the log has; from the *kept of the opening on it only grows, at its end.
 * ESCROW_CLOSED; *length is then 0. */
uint32_t escrow_site_log_length(escrow_handle *handle, size_t *length);

/* Copies the bytes of the log from `from` on: as many as there are, or as there is room for, which *copied tells. The
 * room behind them stays as it was. ESCROW_CLOSED, ESCROW_PAST_END; *copied is then 0. */
uint32_t escrow_site_log(escrow_handle *handle, size_t from, uint8_t *out, size_t room, size_t *copied);

/* Tells by *low and *high the least and the greatest value that the field's committed value can have, as far as this
 * site knows: what a read answers. ESCROW_CLOSED, ESCROW_DOWN, ESCROW_NO_FIELD; they are then as they were. */
uint32_t escrow_site_interval(escrow_handle *handle, uint16_t field, int64_t *low, int64_t *high);

/* Tells by *lower and *raise the site's free rights on the field: what a share answers. ESCROW_CLOSED, ESCROW_DOWN,
 * ESCROW_NO_FIELD; they are then as they were. */
uint32_t escrow_site_share(escrow_handle *handle, uint16_t field, uint64_t *lower, uint64_t *raise);

/* ---- two calls that keep nothing */

/* Runs a script in a world of its own, as `escrow run` does, and writes what answers it to `out`: *needed bytes.
 * Where there is less room for them nothing is written, and *needed tells how much there has to be. ESCROW_NO_ROOM;
 * ESCROW_NO_SCHEMA, ESCROW_TOO_LONG, ESCROW_NO_MEMORY, at which *needed is 0. */
uint32_t escrow_run_text(const uint8_t *script, size_t script_length, uint8_t *out, size_t room, size_t *needed);

/* Judges a trace under a header: the entries of all sites of a world as text, in the order of one central store, each
 * with a line feed behind it. ESCROW_DONE: it is a run of one central store, in which each reply was owed.
 * ESCROW_ILLEGAL: entry *at, counted from 1, is the first that breaks a rule. ESCROW_BAD_ENTRY: line *at is the first
 * that is no entry, or has no line feed behind it. ESCROW_NO_SCHEMA, ESCROW_NO_MEMORY. *at is 0 at the others. */
uint32_t escrow_judge(const uint8_t *header, size_t header_length, const uint8_t *trace, size_t trace_length,
                      uint64_t *at);

#ifdef __cplusplus
}
#endif
#endif
