/*
 * The call `replay` of include/console.h from C: accepted rides with every byte of their records, unread time among them, each refusal
 * that can be reached with its act, the order in which they are asked, and what stays of the bytes lent. Prints a line of counts. Ends
 * with status 1 at the first difference, and names its case.
 */
#include "console.h"

#include <stdio.h>
#include <stdlib.h>
#include <string.h>

#define DAY_MS UINT32_C(86400000)
#define WAY_MM UINT32_C(1000000000)
#define MOST_ACTS 4096

/* ---- files */

/* Bytes being put together: room for a sheet of one act too many, and one byte more. */
typedef struct {
    uint8_t bytes[2 + 9 * (MOST_ACTS + 1) + 1];
    size_t len;
} file;

static const file none;

static void put(file *f, uint32_t value, int width) {
    for (int i = 0; i < width; i++) {
        f->bytes[f->len++] = (uint8_t)(value >> 8 * i);
    }
}

/* The 32-bit check of ITU-T V.42, bit by bit. */
static uint32_t crc32(const uint8_t *bytes, size_t len) {
    uint32_t reg = UINT32_MAX;
    for (size_t i = 0; i < len; i++) {
        reg ^= bytes[i];
        for (int bit = 0; bit < 8; bit++) {
            reg = reg & 1 ? reg >> 1 ^ UINT32_C(0xEDB88320) : reg >> 1;
        }
    }
    return ~reg;
}

static void put_check(file *f) { put(f, crc32(f->bytes, f->len), 4); }

/* The start of a workout file, over no bytes so far. */
static void begin(file *f, uint8_t test, const char *name, uint8_t steps, uint8_t blocks) {
    size_t len = strlen(name);
    put(f, 'V', 1);
    put(f, 'W', 1);
    put(f, 1, 1);
    put(f, test, 1);
    put(f, (uint32_t)len, 1);
    for (size_t i = 0; i < len; i++) {
        put(f, (uint8_t)name[i], 1);
    }
    put(f, steps, 1);
    put(f, blocks, 1);
}

enum { WORK = 1, COOLDOWN = 3, TEST = 4 };
enum { TIME = 0, DISTANCE = 1, OPEN = 2 };
enum { FREE = 0, WATTS = 2, LTHR_BAND = 4, CADENCE_BAND = 5 };

/* A step without a note. */
static void put_step(file *f, uint8_t intensity, uint8_t kind, uint32_t length, uint8_t target, uint16_t low,
                     uint16_t high) {
    put(f, intensity, 1);
    put(f, kind, 1);
    put(f, length, 4);
    put(f, target, 1);
    put(f, low, 2);
    put(f, high, 2);
    put(f, 0, 4);
}

/* One step of 10 s at 100 to 200 W: the bench sheet's. */
static file first_workout(void) {
    file f = none;
    begin(&f, 0, "FIRST", 1, 0);
    put_step(&f, WORK, TIME, 10, WATTS, 100, 200);
    put_check(&f);
    return f;
}

/* Some steps of one length, without targets; with `runs` above 0 a block from `first` over all of them. */
static file plain_workout(uint8_t steps, uint8_t kind, uint32_t length, uint8_t first, uint8_t runs) {
    file f = none;
    begin(&f, 0, "", steps, runs > 0);
    for (int i = 0; i < steps; i++) {
        put_step(&f, WORK, kind, length, FREE, 0, 0);
    }
    if (runs > 0) {
        put(&f, first, 1);
        put(&f, steps, 1);
        put(&f, runs, 1);
    }
    put_check(&f);
    return f;
}

/* An entry of a ride sheet: its kind and the two halves of its value. */
typedef struct {
    uint8_t kind;
    uint32_t low;
    uint32_t high;
} act;

/* EXTEND_LONG is by 60 s or 500 m, EXTEND by the default, 30 s or 250 m. */
enum { PROFILE = 0, READ = 1, RIDE = 2, SKIP = 3, EXTEND_LONG = 4, EXTEND = 5 };
enum { POWER = 1, HEART = 2, CADENCE = 4 };

static act profile(uint16_t ftp, uint16_t lthr) { return (act){PROFILE, ftp | (uint32_t)lthr << 16, 0}; }

/* A reading's flags say what is present. */
static act reading(uint16_t flags, uint16_t power, uint16_t heart, uint16_t cadence) {
    return (act){READ, power | (uint32_t)heart << 16, cadence | (uint32_t)flags << 16};
}

static act ride(uint32_t ms, uint32_t mm) { return (act){RIDE, ms, mm}; }

static const act skip = {SKIP, 0, 0};
static const act extend_long = {EXTEND_LONG, 0, 0};
static const act extend = {EXTEND, 0, 0};

static file sheet_of(const act *acts, size_t n) {
    file f = none;
    put(&f, (uint32_t)n, 2);
    for (size_t i = 0; i < n; i++) {
        put(&f, acts[i].kind, 1);
    }
    for (size_t i = 0; i < n; i++) {
        put(&f, acts[i].low, 4);
        put(&f, acts[i].high, 4);
    }
    return f;
}

/* A profile, and then the acts given. */
#define SHEET(...)                                                                                                     \
    sheet_of((const act[]){profile(200, 160), __VA_ARGS__}, sizeof((const act[]){{0, 0, 0}, __VA_ARGS__}) / sizeof(act))

/* A profile, one act so many times, and two last ones; or one. */
static file sheet_with_two(act some, size_t times, act before, act last) {
    static act acts[MOST_ACTS + 1];
    acts[0] = profile(200, 160);
    for (size_t i = 1; i <= times; i++) {
        acts[i] = some;
    }
    acts[times + 1] = before;
    acts[times + 2] = last;
    return sheet_of(acts, times + 3);
}

static file sheet_with(act some, size_t times, act last) { return sheet_with_two(some, times - 1, some, last); }

static file first_sheet(void) { return SHEET(reading(POWER, 150, 0, 0), ride(10000, 0)); }

/* ---- calls */

static unsigned long accepted, refused, bytes_compared;
static unsigned long met[REPLAY_STANDING + 1];

/* What goes beside the two files; `dated` and `out_len` are what the cases change most. */
typedef struct {
    uint8_t journal;
    uint32_t id;
    uint64_t start;
    uint32_t dated;
    size_t out_len;
} rest;

static const rest usual = {'i', 7, UINT64_C(1700000000000), 1, REPLAY_RECORD_LENGTH};

static void fail(const char *name, const char *what, unsigned long wanted, unsigned long got) {
    printf("%s: %s is %lu, not %lu\n", name, what, got, wanted);
    exit(1);
}

static void *room(size_t len) {
    void *bytes = malloc(len);
    if (bytes == NULL) {
        printf("no memory\n");
        exit(1);
    }
    return bytes;
}

/* The bytes in a room of just their length, so that valgrind sees one byte read too far; NULL for none. */
static uint8_t *copy(const file *f) {
    if (f->len == 0) {
        return NULL;
    }
    uint8_t *bytes = room(f->len);
    memcpy(bytes, f->bytes, f->len);
    return bytes;
}

/* So many bytes stand behind those lent, and stay. */
#define BEHIND 16

/* Calls over bytes that all hold `fill`, and compares the answer and all of them; the record is wanted where none is refused. */
static void call(const char *name, const file *workout, const file *sheet, rest r, uint32_t refusal, uint32_t act_at,
                 const uint8_t *record, uint8_t fill, size_t behind) {
    uint8_t *w = copy(workout), *s = copy(sheet);
    uint8_t *out = r.out_len + behind > 0 ? room(r.out_len + behind) : NULL;
    if (out != NULL) {
        memset(out, fill, r.out_len + behind);
    }
    replayed given = replay(w, workout->len, s, sheet->len, r.journal, r.id, r.start, r.dated, out, r.out_len);
    if (given.refusal != refusal) {
        fail(name, "the refusal", refusal, given.refusal);
    }
    if (given.act != act_at) {
        fail(name, "the act", act_at, given.act);
    }
    for (size_t i = 0; i < r.out_len + behind; i++) {
        uint8_t wanted = refusal == REPLAY_WRITTEN && i < REPLAY_RECORD_LENGTH ? record[i] : fill;
        if (out[i] != wanted) {
            printf("byte %lu: ", (unsigned long)i);
            fail(name, "a byte", wanted, out[i]);
        }
        bytes_compared++;
    }
    free(w);
    free(s);
    free(out);
}

/* Twice, with two fills, so that no byte can be written and look as if it had stayed: once with bytes behind those lent, and
 * once without. */
static void try(const char *name, const file *workout, const file *sheet, rest r, uint32_t refusal, uint32_t act_at,
                const uint8_t *record) {
    call(name, workout, sheet, r, refusal, act_at, record, 0xA5, BEHIND);
    call(name, workout, sheet, r, refusal, act_at, record, 0x5A, 0);
    if (refusal == REPLAY_WRITTEN) {
        accepted++;
    } else {
        refused++;
    }
    met[refusal]++;
}

static void refuse(const char *name, file workout, file sheet, rest r, uint32_t refusal, uint32_t act_at) {
    try(name, &workout, &sheet, r, refusal, act_at, NULL);
}

/* ---- the cases */

/* Places in a record: the counts of steps, the tallies in milliseconds, unread, and the check word. */
enum { COUNTS_AT = 42, TALLIES_AT = 48, UNREAD_AT = 66, CHECK_AT = 70 };

/* The record of `first_sheet` on `first_workout` with `usual`: the fields of the Rust's player after `add` of 10,000 ms at 150 W in
 * the bytes of document 02's request g, version 2 with a body of 70 (tests/oracle/records.rs), of which the Rust's `decode` reads
 * them. */
static const uint8_t first_record[REPLAY_RECORD_LENGTH] = {
    0x56, 0x57, 0x4B, 0x4F, 0x02, 0x46, 0x69, 0x03, 0x07, 0x00, 0x00, 0x00, 0x00, 0x68, 0xE5, 0xCF, 0x8B, 0x01,
    0x00, 0x00, 0x05, 0x46, 0x49, 0x52, 0x53, 0x54, 0x00, 0x00, 0x00, 0x00, 0x00, 0x00, 0x00, 0x00, 0x00, 0x00,
    0x00, 0x00, 0x00, 0x00, 0x00, 0x00, 0x01, 0x00, 0x01, 0x00, 0x00, 0x00, 0x10, 0x27, 0x00, 0x00, 0x10, 0x27,
    0x00, 0x00, 0x00, 0x00, 0x00, 0x00, 0x00, 0x00, 0x00, 0x00, 0x00, 0x00, 0x00, 0x00, 0x00, 0x00, 0x7D, 0xBB,
    0xB4, 0x07,
};

/* The record of `second_sheet` on `second_workout`, made alike: a 20-minute test (here of 2 s) with its FTP, a step skipped, an open
 * one not over, time in, under and over, a name of 20 bytes, not dated. */
static const uint8_t second_record[REPLAY_RECORD_LENGTH] = {
    0x56, 0x57, 0x4B, 0x4F, 0x02, 0x46, 0xFF, 0x04, 0xFE, 0xFF, 0xFF, 0xFF, 0x00, 0x00, 0x00, 0x00, 0x00, 0x00,
    0x00, 0x00, 0x14, 0x4F, 0x56, 0x45, 0x52, 0x20, 0x55, 0x4E, 0x44, 0x45, 0x52, 0x53, 0x20, 0x31, 0x32, 0x20,
    0x58, 0x20, 0x34, 0x37, 0x35, 0x01, 0x02, 0x00, 0x03, 0x00, 0x01, 0x00, 0x05, 0x0A, 0x00, 0x00, 0x98, 0x08,
    0x00, 0x00, 0x2C, 0x01, 0x00, 0x00, 0x41, 0x00, 0x00, 0x00, 0x1D, 0x01, 0x00, 0x00, 0x00, 0x00, 0x60, 0xB3,
    0x35, 0x60,
};

static file second_workout(void) {
    file f = none;
    begin(&f, 1, "OVER UNDERS 12 X 475", 3, 0);
    put_step(&f, TEST, TIME, 2, FREE, 0, 0);
    put_step(&f, WORK, DISTANCE, 100, WATTS, 100, 200);
    put_step(&f, COOLDOWN, OPEN, 0, CADENCE_BAND, 80, 95);
    put_check(&f);
    return f;
}

static file second_sheet(void) {
    const uint16_t all = POWER | HEART | CADENCE, two = POWER | HEART;
    const act acts[] = {
        profile(250, 170),
        reading(all, 300, 150, 900),
        ride(2000, 9000),
        reading(two, 90, 150, 0),
        ride(1500, 0),
        reading(two, 60, 150, 0),
        ride(700, 0),
        skip,
        reading(all, 60, 150, 700),
        ride(300, 0),
        reading(all, 60, 150, 965),
        ride(65, 0),
    };
    return sheet_of(acts, sizeof acts / sizeof acts[0]);
}

/* A heart rate band, no target, a power band over 100 m, a cadence band. */
static file third_workout(void) {
    file f = none;
    begin(&f, 0, "STRAP", 4, 0);
    put_step(&f, WORK, TIME, 10, LTHR_BAND, 50, 100);
    put_step(&f, WORK, TIME, 5, FREE, 0, 0);
    put_step(&f, WORK, DISTANCE, 100, WATTS, 100, 200);
    put_step(&f, COOLDOWN, OPEN, 0, CADENCE_BAND, 80, 95);
    put_check(&f);
    return f;
}

static file third_sheet(void) {
    const act acts[] = {
        profile(200, 160),
        ride(1500, 0),              /* no reading yet: unread */
        reading(HEART, 0, 120, 0),
        ride(3000, 0),              /* in */
        reading(POWER, 150, 0, 0),
        ride(2250, 0),              /* no heart rate: unread */
        reading(HEART, 0, 170, 0),
        ride(4000, 0),              /* 3,250 ms over; 750 ms without a target */
        ride(5000, 0),              /* 4,250 ms without a target; 750 ms in: of the last three readings one has power */
        reading(0, 0, 0, 0),
        ride(100, 0),               /* it is still one of the three: in */
        reading(0, 0, 0, 0),
        ride(700, 0),               /* no power any more: unread */
        ride(1000, 200000),         /* 500 ms to the end of the 100 m, 500 ms without a cadence: unread */
        reading(CADENCE, 0, 0, 900),
        ride(65, 0),                /* in */
    };
    return sheet_of(acts, sizeof acts / sizeof acts[0]);
}

static void set_word(uint8_t *record, size_t at, uint32_t value) {
    for (int i = 0; i < 4; i++) {
        record[at + i] = (uint8_t)(value >> 8 * i);
    }
}

static void set_check(uint8_t *record) { set_word(record, CHECK_AT, crc32(record, CHECK_AT)); }

/* The record of `third_sheet` on `third_workout` with `usual`: dated, not finished, three of four steps done. */
static void third_record(uint8_t *record) {
    const uint32_t tallies[] = {7165, 3915, 0, 3250};
    memcpy(record, first_record, REPLAY_RECORD_LENGTH);
    record[7] = 2;
    memcpy(record + 21, "STRAP", 5);
    record[COUNTS_AT] = 3;
    record[COUNTS_AT + 2] = 4;
    for (size_t i = 0; i < 4; i++) {
        set_word(record, TALLIES_AT + 4 * i, tallies[i]);
    }
    set_word(record, UNREAD_AT, 5450);
    set_check(record);
}

/* The first record with other flags and another start. */
static void dated_record(uint8_t *record, int dated, uint64_t start) {
    memcpy(record, first_record, REPLAY_RECORD_LENGTH);
    record[7] = dated ? 3 : 1;
    for (int i = 0; i < 8; i++) {
        record[12 + i] = dated ? (uint8_t)(start >> 8 * i) : 0;
    }
    set_check(record);
}

/* The first record after another time at 150 W, with the step done or not. */
static void timed_record(uint8_t *record, uint32_t ms, int done) {
    memcpy(record, first_record, REPLAY_RECORD_LENGTH);
    record[7] = done ? 3 : 2;
    record[COUNTS_AT] = done ? 1 : 0;
    set_word(record, TALLIES_AT, ms);
    set_word(record, TALLIES_AT + 4, ms);
    set_check(record);
}

/* The first workout ridden for some time without a reading, and then at 150 W. */
static void unread_record(uint8_t *record, uint32_t unread, uint32_t ms, int done) {
    timed_record(record, ms, done);
    set_word(record, UNREAD_AT, unread);
    set_check(record);
}

/* The first ride's step of 10 s extended by kind 4, by kind 5 and by both: 1 ms before its end, at it and past it. */
static void try_extended(void) {
    file workout = first_workout();
    const act again = reading(POWER, 150, 0, 0);
    const struct {
        const char *name;
        act first, second;
        uint32_t end;
    } cases[] = {
        {"extended by kind 4", extend_long, again, 70000},
        {"extended by kind 5", extend, again, 40000},
        {"extended by kind 5 twice", extend, extend, 70000},
        {"extended by kinds 4 and 5", extend_long, extend, 100000},
        {"extended by kinds 5 and 4", extend, extend_long, 100000},
    };
    for (size_t i = 0; i < sizeof cases / sizeof cases[0]; i++) {
        for (uint32_t more = 0; more < 3; more++) {
            uint8_t record[REPLAY_RECORD_LENGTH];
            uint32_t ms = cases[i].end - 1 + more;
            file sheet = SHEET(again, cases[i].first, ride(2500, 0), cases[i].second, ride(ms - 2500, 0));
            timed_record(record, more < 2 ? ms : cases[i].end, more > 0);
            try(cases[i].name, &workout, &sheet, usual, REPLAY_WRITTEN, REPLAY_NO_ACT, record);
        }
    }
}

/* The first ride's step of 10 s with its reading absent for none of it, 1 ms, all but 1 ms, and all of it; extended up to question 15,
 * so a day and 10 s of it; and the third ride. */
static void try_unread(void) {
    uint8_t record[REPLAY_RECORD_LENGTH];
    file workout = first_workout(), strap = third_workout(), sheet = third_sheet();
    const uint32_t times[] = {0, 1, 9999, 10000};
    for (size_t i = 0; i < sizeof times / sizeof times[0]; i++) {
        file ridden = SHEET(ride(times[i], 0), reading(POWER, 150, 0, 0), ride(10000 - times[i], 0));
        unread_record(record, times[i], 10000 - times[i], 1);
        try("the first ride, its first time unread", &workout, &ridden, usual, REPLAY_WRITTEN, REPLAY_NO_ACT, record);
    }
    file not_done = SHEET(ride(9000, 0), reading(HEART, 0, 150, 0), ride(999, 0));
    unread_record(record, 9999, 0, 0);
    try("1 ms before the end, all unread", &workout, &not_done, usual, REPLAY_WRITTEN, REPLAY_NO_ACT, record);
    file day = sheet_with_two(extend_long, 1440, ride(DAY_MS, 0), ride(DAY_MS, 0));
    unread_record(record, DAY_MS + 10000, 0, 1);
    try("a day and 10 s, all unread", &workout, &day, usual, REPLAY_WRITTEN, REPLAY_NO_ACT, record);
    third_record(record);
    try("the third ride", &strap, &sheet, usual, REPLAY_WRITTEN, REPLAY_NO_ACT, record);
}

static void try_accepted(void) {
    file workout = first_workout(), sheet = first_sheet();
    rest r = usual;
    for (r.out_len = REPLAY_RECORD_LENGTH; r.out_len <= REPLAY_RECORD_LENGTH + 10; r.out_len++) {
        try("the first ride, 74 to 84 bytes lent", &workout, &sheet, r, REPLAY_WRITTEN, REPLAY_NO_ACT, first_record);
    }
    r.out_len = 5000;
    try("the first ride, 5,000 bytes lent", &workout, &sheet, r, REPLAY_WRITTEN, REPLAY_NO_ACT, first_record);

    file test = second_workout(), ridden = second_sheet();
    r = (rest){255, UINT32_C(4294967294), UINT64_MAX, 0, REPLAY_RECORD_LENGTH + 1};
    try("the second ride", &test, &ridden, r, REPLAY_WRITTEN, REPLAY_NO_ACT, second_record);

    const uint32_t dated[] = {0, 1, 2, 256, 65536, UINT32_C(0x80000000), UINT32_MAX};
    const uint64_t starts[] = {0, 1, UINT64_C(0x0807060504030201), UINT64_MAX};
    for (size_t i = 0; i < sizeof dated / sizeof dated[0]; i++) {
        for (size_t j = 0; j < sizeof starts / sizeof starts[0]; j++) {
            uint8_t record[REPLAY_RECORD_LENGTH];
            char name[64];
            dated_record(record, dated[i] != 0, starts[j]);
            snprintf(name, sizeof name, "dated %lu, start number %lu", (unsigned long)dated[i], (unsigned long)j);
            r = usual;
            r.dated = dated[i];
            r.start = starts[j];
            try(name, &workout, &sheet, r, REPLAY_WRITTEN, REPLAY_NO_ACT, record);
        }
    }
}

static file cut(file f, size_t len) {
    f.len = len;
    return f;
}

static file with_byte(file f, size_t at, uint8_t value) {
    f.bytes[at] = value;
    return f;
}

/* A workout with one byte set, and its check word right. */
static file set(file f, size_t at, uint8_t value) {
    f.bytes[at] = value;
    f.len -= 4;
    put_check(&f);
    return f;
}

static void try_workouts(void) {
    file good = first_workout(), sheet = first_sheet(), longer = good;
    put(&longer, 0, 1);
    file long_one = good;
    memset(long_one.bytes + good.len, 0, 476);
    const struct {
        const char *name;
        file workout;
        uint32_t refusal;
    } cases[] = {
        {"no workout, NULL and 0", none, REPLAY_LENGTH},
        {"a workout of 3 bytes", cut(good, 3), REPLAY_LENGTH},
        {"a workout of 4 bytes", cut(good, 4), REPLAY_MAGIC},
        {"a workout of 476 bytes", cut(long_one, REPLAY_WORKOUT_MOST + 1), REPLAY_LENGTH},
        {"a workout of 475 bytes", cut(long_one, REPLAY_WORKOUT_MOST), REPLAY_CHECKSUM},
        {"other first bytes", set(good, 1, 'X'), REPLAY_MAGIC},
        {"version 2", set(good, 2, 2), REPLAY_VERSION},
        {"a byte changed", with_byte(good, 14, 11), REPLAY_CHECKSUM},
        {"a byte more", longer, REPLAY_CHECKSUM},
        {"test 3", set(good, 3, 3), REPLAY_FIELD},
        {"a small letter", set(good, 5, 'f'), REPLAY_FIELD},
        {"no steps", plain_workout(0, TIME, 0, 0, 0), REPLAY_NO_STEPS},
        {"a block past the steps", plain_workout(3, TIME, 10, 1, 2), REPLAY_BLOCK},
        {"a step of no time", plain_workout(3, TIME, 0, 0, 2), REPLAY_STEP},
        {"12 steps by 9", plain_workout(12, TIME, 10, 0, 9), REPLAY_TOO_LONG},
    };
    for (size_t i = 0; i < sizeof cases / sizeof cases[0]; i++) {
        refuse(cases[i].name, cases[i].workout, sheet, usual, cases[i].refusal, REPLAY_NO_ACT);
    }
}

static void try_sheets(void) {
    file workout = first_workout(), good = first_sheet(), longer = good;
    put(&longer, 0, 1);
    file most = sheet_with(ride(1, 1), MOST_ACTS - 2, skip);
    file more = sheet_with(ride(1, 1), MOST_ACTS - 1, skip);
    const struct {
        const char *name;
        file sheet;
    } lengths[] = {
        {"no sheet, NULL and 0", none},
        {"a sheet of 1 byte", cut(good, 1)},
        {"a sheet of 2 bytes", cut(good, 2)},
        {"no acts", cut(with_byte(good, 0, 0), 2)},
        {"one act fewer than the count", with_byte(good, 0, 4)},
        {"one act more than the count", with_byte(good, 0, 2)},
        {"256 acts more in the count", with_byte(good, 1, 1)},
        {"a byte too few", cut(good, good.len - 1)},
        {"a byte too many", longer},
        {"4,097 acts", more},
        {"4,096 acts and a byte", cut(most, most.len + 1)},
    };
    for (size_t i = 0; i < sizeof lengths / sizeof lengths[0]; i++) {
        refuse(lengths[i].name, workout, lengths[i].sheet, usual, REPLAY_SHEET_LENGTH, REPLAY_NO_ACT);
    }

    const act first_skip[] = {skip, profile(200, 160)};
    const struct {
        const char *name;
        file sheet;
        uint32_t act_at;
    } acts[] = {
        {"a first act that is no profile", sheet_of(first_skip, 2), 0},
        {"a profile with a byte more", with_byte(good, 2 + 3 + 7, 1), 0},
        {"a second profile", SHEET(profile(200, 160)), 1},
        {"a first act of kind 5", sheet_of((const act[]){extend, profile(200, 160)}, 2), 0},
        {"kind 6", SHEET(skip, extend_long, extend, ((act){6, 0, 0})), 4},
        {"kind 255", SHEET(((act){255, 0, 0}), profile(200, 160)), 1},
        {"an absent power that isn't 0", SHEET(reading(HEART, 1, 150, 0)), 1},
        {"an absent heart rate that isn't 0", SHEET(skip, reading(POWER | CADENCE, 1, 150, 900)), 2},
        {"an absent cadence that isn't 0", SHEET(reading(0, 0, 0, 1)), 1},
        {"flag 8", SHEET(reading(8, 0, 0, 0)), 1},
        {"flag 32,768", SHEET(reading(32768 + POWER, 150, 0, 0)), 1},
        {"a skip with a value", SHEET(((act){SKIP, 1, 0})), 1},
        {"an extend of kind 4 with a value", SHEET(((act){EXTEND_LONG, 0, UINT32_C(0x80000000)})), 1},
        {"an extend of kind 5 with a value", SHEET(extend, ((act){EXTEND, 0, UINT32_C(0x80000000)})), 2},
        {"an extend of kind 5 with an amount", SHEET(((act){EXTEND, 30, 250})), 1},
        {"the last of 4,096 acts", with_byte(most, most.len - 1, 1), MOST_ACTS - 1},
    };
    for (size_t i = 0; i < sizeof acts / sizeof acts[0]; i++) {
        refuse(acts[i].name, workout, acts[i].sheet, usual, REPLAY_ACT, acts[i].act_at);
    }
    for (size_t byte = 0; byte < 8; byte++) {
        file sheet = SHEET(skip, extend);
        refuse("a byte of kind 5's value", workout, with_byte(sheet, 2 + 3 + 2 * 8 + byte, 1), usual, REPLAY_ACT, 2);
    }
}

static void try_acts(void) {
    file ten = plain_workout(1, TIME, 10, 0, 2), way = plain_workout(1, DISTANCE, 100, 0, 0);
    file low = sheet_of((const act[]){profile(49, 160)}, 1), high = sheet_of((const act[]){profile(601, 160)}, 1);
    file no_heart = sheet_of((const act[]){profile(200, 0), skip}, 2);
    file fast_heart = sheet_of((const act[]){profile(200, 256), ride(UINT32_MAX, 0)}, 2);
    const act day = ride(DAY_MS, 0), far = ride(1, WAY_MM);
    const struct {
        const char *name;
        file sheet;
        uint32_t refusal;
        uint32_t act_at;
    } cases[] = {
        {"FTP 49, and no ride", low, REPLAY_PROFILE, 0},
        {"FTP 601", high, REPLAY_PROFILE, 0},
        {"LTHR 0", no_heart, REPLAY_PROFILE, 0},
        {"LTHR 256", fast_heart, REPLAY_PROFILE, 0},
        {"cadence 65,531", SHEET(reading(CADENCE, 0, 0, 65530), reading(CADENCE, 0, 0, 65531)), REPLAY_CADENCE, 2},
        {"1 ms over a day", SHEET(ride(DAY_MS + 1, 0)), REPLAY_UPDATE, 1},
        {"1 mm too far", SHEET(skip, ride(0, WAY_MM + 1)), REPLAY_UPDATE, 2},
        {"a week and 1 ms", sheet_with(day, 7, ride(1, 0)), REPLAY_TOTALS, 8},
        {"7,000 km and 1 mm", sheet_with(far, 7, ride(0, 1)), REPLAY_TOTALS, 8},
        {"a week, then a ride over a day", sheet_with(day, 7, ride(UINT32_MAX, 0)), REPLAY_UPDATE, 8},
        {"1,441 extends of kind 4", sheet_with(extend_long, 1440, extend_long), REPLAY_EXTRA, 1441},
        {"2,881 extends of kind 5", sheet_with(extend, 2880, extend), REPLAY_EXTRA, 2881},
        {"86,370 s by kind 5, then kind 4", sheet_with(extend, 2879, extend_long), REPLAY_EXTRA, 2880},
        {"86,370 s by both, then kind 4", sheet_with_two(extend_long, 1439, extend, extend_long), REPLAY_EXTRA, 1441},
        {"86,400 s by kind 4, then kind 5", sheet_with(extend_long, 1440, extend), REPLAY_EXTRA, 1441},
        {"the first of two acts at fault", SHEET(ride(1, 0), ride(UINT32_MAX, 0), reading(CADENCE, 0, 0, 65535)),
         REPLAY_UPDATE, 2},
    };
    for (size_t i = 0; i < sizeof cases / sizeof cases[0]; i++) {
        refuse(cases[i].name, ten, cases[i].sheet, usual, cases[i].refusal, cases[i].act_at);
    }
    refuse("2,001 extends of kind 4 by distance", way, sheet_with(extend_long, 2000, extend_long), usual, REPLAY_EXTRA,
           2001);
    refuse("4,001 extends of kind 5 by distance", way, sheet_with(extend, 4000, extend), usual, REPLAY_EXTRA, 4001);
    refuse("999,750 m by kind 5, then kind 4", way, sheet_with(extend, 3999, extend_long), usual, REPLAY_EXTRA, 4000);
}

/* Rides at the limits that the cases above lie past: what is compared is the answer, and that the record's own check word is
 * right. */
static void accept(const char *name, file workout, file sheet) {
    uint8_t out[REPLAY_RECORD_LENGTH];
    memset(out, 0, sizeof out);
    replayed given = replay(workout.bytes, workout.len, sheet.bytes, sheet.len, 'b', 1, 0, 0, out, sizeof out);
    uint32_t check = crc32(out, CHECK_AT);
    if (given.refusal != REPLAY_WRITTEN) {
        fail(name, "the refusal", REPLAY_WRITTEN, given.refusal);
    }
    if (given.act != REPLAY_NO_ACT) {
        fail(name, "the act", REPLAY_NO_ACT, given.act);
    }
    for (int i = 0; i < 4; i++) {
        if (out[CHECK_AT + i] != (uint8_t)(check >> 8 * i)) {
            fail(name, "a byte of the check word", (uint8_t)(check >> 8 * i), out[CHECK_AT + i]);
        }
    }
    accepted++;
    met[REPLAY_WRITTEN]++;
}

static void try_limits(void) {
    file ten = plain_workout(1, TIME, 10, 0, 2), way = plain_workout(1, DISTANCE, 100, 0, 0);
    file open = plain_workout(1, OPEN, 0, 0, 0);
    accept("the profile alone", ten, sheet_of((const act[]){profile(50, 1)}, 1));
    accept("the highest profile", ten, sheet_of((const act[]){profile(600, 255), skip}, 2));
    accept("cadence 65,530", ten, SHEET(reading(CADENCE, 0, 0, 65530), ride(1, 1)));
    accept("a day and 1,000 km", ten, SHEET(ride(DAY_MS, WAY_MM)));
    accept("a week", ten, sheet_with(ride(DAY_MS, 0), 7, ride(0, 0)));
    accept("7,000 km", ten, sheet_with(ride(1, WAY_MM), 7, ride(1, 0)));
    accept("1,440 extends of kind 4", ten, sheet_with(extend_long, 1440, skip));
    accept("2,000 extends of kind 4 by distance", way, sheet_with(extend_long, 2000, ride(1000, 5000)));
    accept("2,880 extends of kind 5", ten, sheet_with(extend, 2880, skip));
    accept("4,000 extends of kind 5 by distance", way, sheet_with(extend, 4000, ride(1000, 5000)));
    accept("86,370 s by kind 5, then kind 5", ten, sheet_with(extend, 2879, extend));
    accept("86,370 s by both, then kind 5", ten, sheet_with_two(extend_long, 1439, extend, extend));
    accept("4,001 extends of kind 5 in an open step", open, sheet_with(extend, 4000, extend));
    accept("extends when finished", way, SHEET(skip, extend_long, extend));
    accept("4,096 acts", ten, sheet_with(ride(1, 1), MOST_ACTS - 2, skip));
    accept("12 steps by 8", plain_workout(12, TIME, 10, 0, 8), first_sheet());
}

static void try_order(void) {
    file workout = first_workout(), sheet = first_sheet(), bad_act = SHEET(skip, profile(200, 160));
    file bad_profile = sheet_of((const act[]){profile(0, 0)}, 1);
    rest r = usual;
    r.out_len = 0;
    refuse("nothing but NULL and 0", none, none, r, REPLAY_LENGTH, REPLAY_NO_ACT);
    refuse("the workout before the sheet", set(workout, 2, 0), bad_act, r, REPLAY_VERSION, REPLAY_NO_ACT);
    refuse("the sheet's length before the output", workout, none, r, REPLAY_SHEET_LENGTH, REPLAY_NO_ACT);
    refuse("a sheet's act before the output", workout, bad_act, r, REPLAY_ACT, 2);
    refuse("the output before the profile", workout, bad_profile, r, REPLAY_OUTPUT, REPLAY_NO_ACT);
    for (r.out_len = 0; r.out_len < REPLAY_RECORD_LENGTH; r.out_len++) {
        refuse("0 to 73 bytes lent", workout, sheet, r, REPLAY_OUTPUT, REPLAY_NO_ACT);
    }
    r.out_len = 70;
    refuse("70 bytes lent, a version 1 record's", workout, sheet, r, REPLAY_OUTPUT, REPLAY_NO_ACT);
    r.out_len = 73;
    refuse("73 bytes lent", workout, sheet, r, REPLAY_OUTPUT, REPLAY_NO_ACT);
    r.out_len = REPLAY_RECORD_LENGTH;
    refuse("the profile where the output is long enough", workout, bad_profile, r, REPLAY_PROFILE, 0);
}

int main(void) {
    if (REPLAY_RECORD_LENGTH != 74) {
        fail("include/console.h", "the length of a record", 74, REPLAY_RECORD_LENGTH);
    }
    try_accepted();
    try_unread();
    try_extended();
    try_workouts();
    try_sheets();
    try_acts();
    try_limits();
    try_order();
    for (uint32_t number = 0; number <= REPLAY_STANDING; number++) {
        int reached = number != REPLAY_EVENT_PLACES && number != REPLAY_RECORD && number != REPLAY_STANDING;
        if (reached && met[number] == 0) {
            printf("refusal %lu wasn't met\n", (unsigned long)number);
            return 1;
        }
    }
    printf("C call: %lu rides accepted, %lu refused by 1 to 13, 15 to 17 and 19, %lu bytes compared\n", accepted,
           refused, bytes_compared);
    return 0;
}
