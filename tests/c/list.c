/* Plays the fixed list of whole replays, crates/vectors/data/replays (tests/oracle/list.rs has its layout), through the call of
 * include/console.h, and holds each answer, act and output byte to the list's; each record written is of version 2 with a body of 70.
 * Fails at the first that differs, and where no ride with extends of kind 4 or of kind 5, none with unread time is accepted, or none
 * refused with room for a version 1 record. */
#include <stdio.h>
#include <string.h>

#include "console.h"

enum { MOST = 1 << 20, REPLAY = 14, HEAD = 7 * 4, OUTPUT = 80, WORDS = 2 + OUTPUT / 4, FILLED = 0xA5 };
enum { EXTEND_LONG = 4, EXTEND = 5 };
/* Places in a record, and question 19, which wants 74 bytes where version 1 had 70. */
enum { VERSION_AT = 4, BODY_AT = 5, UNREAD_AT = 66, ROOM = 19, OLD_LENGTH = 70, LENGTH = 74 };

static uint8_t list[MOST];
static size_t size, at;
static int cut;

static const uint8_t *bytes(size_t n) {
  if (cut || size - at < n) {
    cut = 1;
    return list;
  }
  at += n;
  return list + at - n;
}

static uint32_t number(void) {
  const uint8_t *b = bytes(4);
  return b[0] | (uint32_t)b[1] << 8 | (uint32_t)b[2] << 16 | (uint32_t)b[3] << 24;
}

/* An accepted sheet has an act of this kind. */
static int has(const uint8_t *sheet, uint8_t kind) {
  return memchr(sheet + 2, kind, sheet[0] | (size_t)sheet[1] << 8) != NULL;
}

static int unread(const uint8_t *record) {
  const uint8_t *at = record + UNREAD_AT;
  return at[0] || at[1] || at[2] || at[3];
}

int main(int words, char **word) {
  unsigned replays = 0, accepted = 0, extended_long = 0, extended = 0, with_unread = 0, short_of_room = 0;
  FILE *file = words == 2 ? fopen(word[1], "rb") : NULL;
  if (!file || !(size = fread(list, 1, MOST, file)) || size == MOST) return puts("the list can't be read"), 1;
  fclose(file);
  for (; at < size; replays++) {
    uint8_t out[OUTPUT];
    uint32_t question = number(), input_len = number(), workout_len = number(), journal = number(), id = number();
    uint64_t low = number(), start = low | (uint64_t)number() << 32;
    uint32_t dated = number(), lent = number();
    if (cut || input_len < HEAD || input_len - HEAD < workout_len) return puts("the list is cut short"), 1;
    size_t sheet_len = input_len - HEAD - workout_len;
    const uint8_t *workout = bytes(workout_len), *sheet = bytes(sheet_len);
    uint32_t answer_words = number(), refusal = number(), act = number();
    const uint8_t *want = bytes(OUTPUT);
    if (cut || question != REPLAY || answer_words != WORDS || lent > OUTPUT) return puts("an entry isn't that of a replay"), 1;
    memset(out, FILLED, OUTPUT);
    replayed got = replay(workout, workout_len, sheet, sheet_len, (uint8_t)journal, id, start, dated, out, lent);
    if (got.refusal != refusal || got.act != act || memcmp(out, want, OUTPUT)) return printf("replay %u of the list differs\n", replays), 1;
    short_of_room += refusal == ROOM && lent >= OLD_LENGTH && lent < LENGTH;
    if (refusal != 0) continue;
    if (out[VERSION_AT] != 2 || out[BODY_AT] != LENGTH - 4) return printf("record %u of the list isn't of version 2\n", replays), 1;
    accepted++;
    with_unread += unread(out);
    extended_long += has(sheet, EXTEND_LONG);
    extended += has(sheet, EXTEND);
  }
  printf("the fixed list: %u replays, %u accepted, %u of them with kind 4, %u with kind 5 and %u with unread time; %u refused with 70 to "
         "73 bytes lent; none different\n",
         replays, accepted, extended_long, extended, with_unread, short_of_room);
  return replays < 500 || extended_long == 0 || extended == 0 || with_unread == 0 || short_of_room == 0;
}
