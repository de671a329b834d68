/* rate [SECONDS]: how many events a second a core takes on this machine, and how much memory it
 * has. It first has four members agree on 256 questions and keeps what member 0 heard; then it
 * opens member 0 again and again, and has it hear the same.
 *
 *     cc -O2 rate.c $(pkg-config --cflags --libs bracha) -o rate && ./rate 3
 */
#define _POSIX_C_SOURCE 200809L
#include <bracha.h>
#include <malloc.h>
#include <stdio.h>
#include <stdlib.h>
#include <string.h>
#include <time.h>

enum { N = 4, T = 1, QUESTIONS = 256 };

struct letter {
  uint8_t from, to, statement[BRACHA_RECORD];
};

/* All that was said, to each member: delivered in this order. */
static struct letter *post;
static size_t posted, room;

static void fail(const char *why) {
  fprintf(stderr, "rate: %s\n", why);
  exit(2);
}

static double now(void) {
  struct timespec t;
  clock_gettime(CLOCK_MONOTONIC, &t);
  return (double)t.tv_sec + 1e-9 * (double)t.tv_nsec;
}

static size_t used(void) { return mallinfo2().uordblks + mallinfo2().hblkhd; }

static bracha_core opened(uint8_t me) {
  bracha_core core;
  if (bracha_core_open(&core, N, T, QUESTIONS, me, (const uint8_t *)"", 0) != BRACHA_OK)
    fail("no core");
  return core;
}

static void send_all(uint8_t from, const uint8_t *records, size_t count) {
  for (size_t i = 0; i < count; i++)
    for (uint8_t to = 0; records[BRACHA_RECORD * i] != 4 && to < N; to++) {
      if (posted == room) {
        room = room ? 2 * room : 1024;
        post = realloc(post, room * sizeof *post);
        if (!post) fail("no memory");
      }
      post[posted].from = from;
      post[posted].to = to;
      memcpy(post[posted++].statement, records + BRACHA_RECORD * i, BRACHA_RECORD);
    }
}

/* Has four members agree on all questions, each letter in its turn. */
static void agree(void) {
  bracha_core cores[N];
  uint8_t records[BRACHA_ROOM];
  size_t count;
  for (uint8_t me = 0; me < N; me++) {
    cores[me] = opened(me);
    for (uint16_t q = 0; q < QUESTIONS; q++) {
      if (bracha_core_propose(&cores[me], q, q % 2, 0, records, &count) != BRACHA_OK)
        fail("a proposal is refused");
      send_all(me, records, count);
    }
  }
  for (size_t at = 0; at < posted; at++) {
    struct letter one = post[at];
    if (bracha_core_hear(&cores[one.to], one.from, one.statement, 0, records, &count) < 0)
      fail("a statement is refused");
    send_all(one.to, records, count);
  }
  for (uint8_t me = 0; me < N; me++) bracha_core_close(cores[me]);
}

/* Keeps what member 0 heard, at the front of `post`. */
static size_t keep_member_0(void) {
  size_t kept = 0;
  for (size_t at = 0; at < posted; at++)
    if (post[at].to == 0) post[kept++] = post[at];
  return kept;
}

/* Opens member 0 and has it hear all. Returns the seconds that the events took. */
static double run(size_t events, size_t *memory) {
  uint8_t records[BRACHA_ROOM];
  size_t count, before = used();
  bracha_core core = opened(0);
  double began = now();
  for (uint16_t q = 0; q < QUESTIONS; q++)
    if (bracha_core_propose(&core, q, q % 2, 0, records, &count) != BRACHA_OK)
      fail("a proposal is refused");
  for (size_t at = 0; at < events; at++)
    if (bracha_core_hear(&core, post[at].from, post[at].statement, 0, records, &count) < 0)
      fail("a statement is refused");
  double took = now() - began;
  *memory = used() - before;
  bracha_core_close(core);
  return took;
}

int main(int argc, char **argv) {
  double seconds = argc > 1 ? atof(argv[1]) : 3, best = 1e9, until;
  size_t memory = 0;
  agree();
  size_t events = keep_member_0();
  until = now() + seconds;
  do {
    double took = run(events, &memory);
    if (took < best) best = took;
  } while (now() < until);
  printf("%zu events on %d questions: %.1f million a second, %zu KB with all of it heard\n",
         events + QUESTIONS, QUESTIONS, (double)(events + QUESTIONS) / best / 1e6, memory / 1024);
  free(post);
  return 0;
}
