/*
 * The console's call to the proved workout module: replays a ride sheet on a workout file and writes the ride's record.
 * Link target/staticlib/libconsole.a, which `tools/staticlib console` proves and writes, for x86-64 Linux. "Document 01" is the
 * paper 'Workout file, player and ride record'. All multi-byte numbers in files are little-endian, whatever the machine.
 */
#ifndef CONSOLE_H
#define CONSOLE_H

#include <stddef.h>
#include <stdint.h>

#ifdef __cplusplus
extern "C" {
#endif

/* The bytes of a ride record, version 2: `replay` writes so many, or none. Version 1 had 70; a caller that still lends 70 is refused
 * by 19. */
#define REPLAY_RECORD_LENGTH 74
/* The longest workout file, and the longest ride sheet (4,096 acts), in bytes. Longer ones are refused by 1 and 16. */
#define REPLAY_WORKOUT_MOST 475
#define REPLAY_SHEET_MOST 36866

/* The act of an answer that names none. Acts, the entries of a sheet, are counted from 0, so 0 is an act. */
#define REPLAY_NO_ACT UINT32_C(4294967295)

/* The numbers of the questions of document 01 and of the change requests: which one refused. In brackets, whether the refusal
 * names an act. */
enum replay_refusal {
    /* Nothing was refused, and the record is written. */
    REPLAY_WRITTEN = 0,
    /* The workout file (no act): its length, or bytes missing or left over. */
    REPLAY_LENGTH = 1,
    /* It doesn't begin with "VW". */
    REPLAY_MAGIC = 2,
    /* A version other than 1. */
    REPLAY_VERSION = 3,
    /* A wrong check word. */
    REPLAY_CHECKSUM = 4,
    /* A value that isn't allowed in its place. */
    REPLAY_FIELD = 5,
    /* No steps. */
    REPLAY_NO_STEPS = 6,
    /* A block that reaches past the steps, overlaps another or repeats nothing. */
    REPLAY_BLOCK = 7,
    /* A step that can never end, or a target out of range. */
    REPLAY_STEP = 8,
    /* More than 96 steps played. */
    REPLAY_TOO_LONG = 9,
    /* An act of the sheet (act named): the profile, FTP 50 to 600 W and LTHR 1 to 255. It is act 0. */
    REPLAY_PROFILE = 10,
    /* A cadence above 65,530 tenths (act named). */
    REPLAY_CADENCE = 11,
    /* A ride of more than 86,400,000 ms or 1,000,000,000 mm (act named). */
    REPLAY_UPDATE = 12,
    /* Rides of more than 604,800,000 ms or 7,000,000,000 mm together (act named). */
    REPLAY_TOTALS = 13,
    /* Event places: not reached by this call, which has places enough of its own. */
    REPLAY_EVENT_PLACES = 14,
    /* Extended by more than 86,400 s or 1,000,000 m in one step (act named). */
    REPLAY_EXTRA = 15,
    /* The sheet (no act): its length isn't 2 + 9n, or n isn't 1 to 4,096. */
    REPLAY_SHEET_LENGTH = 16,
    /* An act that isn't well formed (act named: the first such). */
    REPLAY_ACT = 17,
    /* A ride record that can't be read: not reached by this call, which reads none. */
    REPLAY_RECORD = 18,
    /* Fewer than REPLAY_RECORD_LENGTH bytes lent for the record (no act). */
    REPLAY_OUTPUT = 19,
    /* A player whose fields contradict each other: not reached by this call, which makes its own. */
    REPLAY_STANDING = 20,
    /* A bike number above 3, of the call that shares a supply among four bikes: not reached by this call. */
    REPLAY_BIKE_NUMBER = 29
};

/* The answer: a number of `replay_refusal`, and the act at fault or REPLAY_NO_ACT. */
typedef struct {
    uint32_t refusal;
    uint32_t act;
} replayed;

/*
 * Replays `sheet` on `workout` and writes the record to `out`. The workout file is asked first (1 to 9), then the sheet (16, 17),
 * then the room for the record (19), then act by act from act 0, each as it is carried out (10 to 13, 15); the first refusal
 * ends it.
 *
 * workout, workout_len   the workout file's bytes. Read, and nothing kept of them.
 * sheet, sheet_len       the ride sheet's bytes. Read, and nothing kept of them.
 * journal                the record's journal, any byte: 'i' for the internal one, 'b' for the bulk log.
 * id                     the ride's id in that journal.
 * start                  when the ride started, in milliseconds UTC. Not looked at where `dated` is 0: the record then has 0.
 * dated                  whether the start is known: 0 no, any other number yes, also with a start of 0.
 * out, out_len           the bytes lent for the record. Accepted, bytes 0 to 73 are the record and later ones stay as they
 *                        were; refused, all of them stay.
 *
 * What is written and answered is proved, for all arguments, of the code that this call runs. What no proof can see is left to
 * the caller:
 * - each pointer is good for its length: so many bytes that can be read or, at `out`, written. An empty one may be NULL
 *   with length 0.
 * - `out` overlaps neither `workout` nor `sheet`. These two may overlap each other.
 * - while the call runs no other thread writes to the three, or reads `out`. Calls with an `out` each may run at one time; nothing
 *   is kept between calls.
 * - there is stack for it: about 10,000 bytes of stack.
 */
replayed replay(const uint8_t *workout, size_t workout_len, const uint8_t *sheet, size_t sheet_len, uint8_t journal,
                uint32_t id, uint64_t start, uint32_t dated, uint8_t *out, size_t out_len);

#ifdef __cplusplus
}
#endif

#endif
