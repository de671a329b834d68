/* first: what member 1 of four answers to one statement, and why it is saved before it is sent.
 *
 *     cc first.c $(pkg-config --cflags --libs bracha) -o first && ./first
 */
#include <bracha.h>
#include <inttypes.h>
#include <stdio.h>
#include <string.h>

static const char *outcome(int32_t status) {
  switch (status) {
  case BRACHA_OK: return "news";
  case BRACHA_REPEAT: return "repeat";
  case BRACHA_FOREIGN: return "foreign";
  default: return "refused";
  }
}

static void print_frame(const uint8_t statement[BRACHA_RECORD]) {
  uint8_t frame[BRACHA_FRAME_STATEMENT];
  if (bracha_encode_statement(statement, frame) != BRACHA_OK) return;
  for (size_t i = 0; i < sizeof frame; i++) printf("%02x", (unsigned)frame[i]);
  printf("\n");
}

int main(void) {
  /* member 0's Initial One on question 0, in round 1 and step 1 */
  static const uint8_t initial[BRACHA_RECORD] = {1, 0, 0, 0, 1, 1, 1};
  bracha_core core;
  uint8_t records[BRACHA_ROOM], journal[BRACHA_ROOM];
  size_t count, saved;

  if (bracha_abi() != BRACHA_ABI) {
    fprintf(stderr, "first: the library has interface %" PRIu32 ", and this program wants %u\n",
            bracha_abi(), BRACHA_ABI);
    return 1;
  }
  if (bracha_core_open(&core, 4, 1, 1, 1, (const uint8_t *)"", 0) != BRACHA_OK) return 1;
  int32_t status = bracha_core_hear(&core, 0, initial, 0, records, &count);
  printf("member 0 says Initial One to member 1: %s, %zu record to be saved\n", outcome(status),
         count);

  saved = BRACHA_RECORD * count;
  memcpy(journal, records, saved); /* a real member writes to its disk here, and syncs */
  for (size_t i = 0; i < count; i++) {
    printf("  it is saved, so send to all the frame ");
    print_frame(records + BRACHA_RECORD * i);
  }
  printf("member 0 says the same again: %s\n",
         outcome(bracha_core_hear(&core, 0, initial, 0, records, &count)));
  printf("member 2 sends member 0's Initial: %s\n",
         outcome(bracha_core_hear(&core, 2, initial, 0, records, &count)));
  bracha_core_close(core);

  if (bracha_core_open(&core, 4, 1, 1, 1, journal, saved) != BRACHA_OK) return 1;
  status = bracha_core_hear(&core, 0, initial, 0, records, &count);
  printf("after a restart from the journal, once more: %s, %zu records, for the Echo was said\n",
         outcome(status), count);
  bracha_core_close(core);
  return 0;
}
