/* cluster [SEED [QUESTIONS]]: four members in one process. Every statement is delivered in a random
 * order, member 3 lies to each other member in another way, and member 1 is closed in mid-run and
 * opened again from its saved records. It ends with status 0 if the three correct members decided
 * every question alike.
 *
 *     cc cluster.c $(pkg-config --cflags --libs bracha) -o cluster && ./cluster 1 16
 */
#include <bracha.h>
#include <stdio.h>
#include <stdlib.h>
#include <string.h>

enum {
  N = 4,
  T = 1,
  LIAR = 3,
  RESTART = 150 /* deliveries a question, after which member 1 is opened again */
};

/* A statement on its way. */
struct letter {
  uint8_t from, to, statement[BRACHA_RECORD];
};

/* A correct member, with its journal in memory. */
struct member {
  bracha_core core;
  bracha_toss toss;
  uint8_t *journal;
  size_t saved, room;
};

static struct letter *post;
static size_t posted, post_room;
static struct member members[LIAR];
static uint16_t questions = 16;
static uint64_t network = 1;

static void fail(const char *why) {
  fprintf(stderr, "cluster: %s\n", why);
  exit(2);
}

/* Returns room for `wanted` bytes, at least twice as much as before. */
static void *grow(void *old, size_t *room, size_t wanted) {
  if (wanted <= *room) return old;
  *room = 2 * wanted;
  void *grown = realloc(old, *room);
  if (!grown) fail("no memory");
  return grown;
}

/* Random numbers of the network (splitmix64): they decide nothing but the order. A member's tosses
 * are bracha_toss_next's. */
static uint64_t draw(void) {
  uint64_t z = (network += 0x9e3779b97f4a7c15u);
  z = (z ^ (z >> 30)) * 0xbf58476d1ce4e5b9u;
  z = (z ^ (z >> 27)) * 0x94d049bb133111ebu;
  return z ^ (z >> 31);
}

static void send_to(uint8_t from, uint8_t to, const uint8_t *statement) {
  post = grow(post, &post_room, (posted + 1) * sizeof *post);
  post[posted].from = from;
  post[posted].to = to;
  memcpy(post[posted++].statement, statement, BRACHA_RECORD);
}

/* Opens a member with what its journal has, and takes tosses that no earlier life had. */
static void open_member(uint8_t me) {
  struct member *it = &members[me];
  uint8_t seed[32] = {me}; /* a real seed is drawn from the system, and nobody else knows it */
  const uint8_t *records = it->saved ? it->journal : (const uint8_t *)"";
  if (bracha_core_open(&it->core, N, T, questions, me, records, it->saved) != BRACHA_OK)
    fail("a member can't be opened");
  if (bracha_toss_open(&it->toss, seed, it->saved / BRACHA_RECORD) != BRACHA_OK) fail("no memory");
}

static void close_member(uint8_t me) {
  bracha_core_close(members[me].core);
  bracha_toss_close(members[me].toss);
}

/* Saves the records, and then sends the statements among them to the three correct members, the
 * sender included. */
static void save_then_send(uint8_t me, const uint8_t *records, size_t count) {
  struct member *it = &members[me];
  size_t len = BRACHA_RECORD * count;
  it->journal = grow(it->journal, &it->room, it->saved + len);
  if (len) memcpy(it->journal + it->saved, records, len); /* a real member writes and syncs here */
  it->saved += len;
  for (size_t i = 0; i < len; i += BRACHA_RECORD)
    for (uint8_t to = 0; records[i] != 4 && to < LIAR; to++) send_to(me, to, records + i);
}

static void propose(uint8_t me, uint16_t question) {
  uint8_t records[BRACHA_ROOM];
  size_t count;
  bool bit = (me + question) % 2;
  uint64_t toss = bracha_toss_next(&members[me].toss);
  if (bracha_core_propose(&members[me].core, question, bit, toss, records, &count) != BRACHA_OK)
    fail("a proposal is refused");
  save_then_send(me, records, count);
}

/* The lies of member 3 in a round and step: its Initial, and Echos and Readys of all, with a value
 * of its own for each receiver. */
static void lie(uint16_t question, uint8_t to, uint8_t round, uint8_t step) {
  for (uint8_t kind = 1; kind <= 3; kind++)
    for (uint8_t origin = kind == 1 ? LIAR : 0; origin < N; origin++) {
      uint8_t value = (uint8_t)(step == 3 ? 2 + draw() % 3 : draw() % 2);
      uint8_t said[BRACHA_RECORD] = {
          kind, (uint8_t)(question >> 8), (uint8_t)question, origin, round, step, value};
      send_to(LIAR, to, said);
    }
}

static void lie_to_all(uint16_t question) {
  for (uint8_t to = 0; to < LIAR; to++)
    for (uint8_t at = 0; at < 12; at++)
      lie(question, to, (uint8_t)(1 + at / 3), (uint8_t)(1 + at % 3));
}

/* Opens member 1 again. What was on its way to it is lost, and it has heard nothing: each member
 * says all to it once more. */
static void restart(void) {
  size_t left = 0;
  printf("member 1 is closed, and opened again from its %zu saved records\n",
         members[1].saved / BRACHA_RECORD);
  close_member(1);
  open_member(1);
  for (size_t i = 0; i < posted; i++)
    if (post[i].to != 1) post[left++] = post[i];
  posted = left;
  for (uint8_t from = 0; from < LIAR; from++)
    for (size_t i = 0; i < members[from].saved; i += BRACHA_RECORD)
      if (members[from].journal[i] != 4) send_to(from, 1, members[from].journal + i);
}

/* Delivers all letters, and those that they bring, in a random order. Returns their number. */
static size_t deliver(void) {
  uint8_t records[BRACHA_ROOM];
  size_t heard = 0, count;
  while (posted) {
    size_t at = draw() % posted;
    struct letter one = post[at];
    post[at] = post[--posted];
    struct member *it = &members[one.to];
    int32_t status = bracha_core_hear(&it->core, one.from, one.statement,
                                      bracha_toss_next(&it->toss), records, &count);
    if (status < 0) fail("a statement is refused");
    save_then_send(one.to, records, count);
    if (++heard == (size_t)RESTART * questions) restart();
  }
  return heard;
}

/* Prints what was decided on a question. Returns whether all three decided, and alike; `*last` is
 * the greatest round. */
static bool show(uint16_t question, uint8_t *last) {
  bracha_decision all[LIAR];
  for (uint8_t me = 0; me < LIAR; me++) {
    if (!bracha_core_verdict(&members[me].core, question, &all[me])) {
      printf("question %d: member %d hasn't decided\n", question, me);
      return false;
    }
    if (all[me].round > *last) *last = all[me].round;
  }
  printf("question %d: bit %d, decided in rounds %d, %d, %d\n", question, all[0].bit, all[0].round,
         all[1].round, all[2].round);
  return all[0].bit == all[1].bit && all[1].bit == all[2].bit;
}

int main(int argc, char **argv) {
  bool alike = true;
  uint8_t last = 0;
  if (bracha_abi() != BRACHA_ABI) fail("the library has another interface");
  if (argc > 1) network = strtoull(argv[1], NULL, 10);
  if (argc > 2) questions = (uint16_t)atoi(argv[2]);
  for (uint8_t me = 0; me < LIAR; me++) open_member(me);
  for (uint16_t q = 0; q < questions; q++) {
    for (uint8_t me = 0; me < LIAR; me++) propose(me, q);
    lie_to_all(q);
  }
  size_t heard = deliver();
  for (uint16_t q = 0; q < questions; q++) alike = show(q, &last) && alike;
  if (alike)
    printf("heard %zu statements; %d questions decided alike, the last in round %d\n", heard,
           questions, last);
  for (uint8_t me = 0; me < LIAR; me++) {
    close_member(me);
    free(members[me].journal);
  }
  free(post);
  return alike ? 0 : 1;
}
