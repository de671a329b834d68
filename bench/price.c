/* price TURNS: has a core of four members and 256 questions hear the events of core-tests.txt, TURNS for each question.
 * bench/price.sh counts what they cost. */
#include <bracha.h>
#include <stdio.h>
#include <stdlib.h>

enum { MEMBERS = 4, QUESTIONS = 256 };

/* What all questions hear in one turn, each at its own place: at one place after the other, the Initial, the Echos and then the
 * Readys of all members. */
static uint8_t turn(unsigned number, uint8_t statement[BRACHA_RECORD]) {
  unsigned said = number % (2 * MEMBERS + 1), place = number / (2 * MEMBERS + 1);
  uint8_t origin = place % MEMBERS, step = place / MEMBERS % 3 + 1;
  statement[0] = said == 0 ? 1 : said <= MEMBERS ? 2 : 3;
  statement[3] = origin;
  statement[4] = place / (3 * MEMBERS) % 32 + 1;
  statement[5] = step;
  statement[6] = step == 3 ? 3 : 1;
  return said == 0 ? origin : said <= MEMBERS ? said - 1 : said - 1 - MEMBERS;
}

int main(int argc, char **argv) {
  unsigned turns = argc > 1 ? (unsigned)atoi(argv[1]) : 1;
  uint8_t records[BRACHA_ROOM], statement[BRACHA_RECORD] = {0};
  size_t count, said = 0;
  bracha_core core;
  if (bracha_core_open(&core, MEMBERS, 1, QUESTIONS, 0, records, 0) != BRACHA_OK) return 2;
  for (unsigned number = 0; number < turns; number++) {
    uint8_t from = turn(number, statement);
    for (unsigned question = 0; question < QUESTIONS; question++) {
      statement[1] = question >> 8;
      statement[2] = question & 255;
      if (bracha_core_hear(&core, from, statement, 0, records, &count) != BRACHA_OK) return 1;
      said += count;
    }
  }
  bracha_core_close(core);
  printf("%zu\n", said);
  return 0;
}
