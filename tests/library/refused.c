/* Refuses memory: each request that the library makes, one after another, on the same 400 events
 * and the same other calls. The answer must be BRACHA_MEMORY, and what the header says must stand
 * after it. It counts the requests in this process: its malloc and realloc stand before the C
 * library's. Prints what it did; the status is 1 if something isn't so. */
#define _GNU_SOURCE
#include "bracha.h"
#include <stdio.h>
#include <stdlib.h>
#include <string.h>

extern void *__libc_malloc(size_t size);
extern void *__libc_realloc(void *old, size_t size);

/* How many more requests are granted; below 0, all. */
static long left = -1;
static bool was_refused;

static bool refuses(void) {
  if (left < 0 || left-- > 0) return false;
  return was_refused = true;
}

void *malloc(size_t size) { return refuses() ? NULL : __libc_malloc(size); }
void *realloc(void *old, size_t size) { return refuses() ? NULL : __libc_realloc(old, size); }

#define CHECK(what) ((what) ? (void)0 : fail(#what, __LINE__))

static void fail(const char *what, int line) {
  left = -1;
  fprintf(stderr, "refused.c:%d: not so: %s\n", line, what);
  exit(1);
}

/* Grants so many requests from now on. */
static void grant(long count) {
  left = count;
  was_refused = false;
}

static void grant_all(void) { left = -1; }

/* ---- what member 0 of four hears until two questions are decided ---- */

enum { N = 4, T = 1, QUESTIONS = 2, MOST = 20000 };

struct letter {
  uint8_t from, to, statement[BRACHA_RECORD];
};
static struct letter post[MOST];
static size_t posted;

static void send_all(uint8_t from, const uint8_t *records, size_t count) {
  for (size_t i = 0; i < count; i++)
    for (uint8_t to = 0; records[BRACHA_RECORD * i] != 4 && to < N; to++) {
      CHECK(posted < MOST);
      post[posted].from = from;
      post[posted].to = to;
      memcpy(post[posted++].statement, records + BRACHA_RECORD * i, BRACHA_RECORD);
    }
}

static bracha_core opened(uint8_t me, const uint8_t *records, size_t len) {
  bracha_core core;
  CHECK(bracha_core_open(&core, N, T, QUESTIONS, me, records, len) == BRACHA_OK);
  return core;
}

/* Has four members agree, and keeps what member 0 heard. Returns the number of statements. */
static size_t events(void) {
  bracha_core cores[N];
  uint8_t records[BRACHA_ROOM];
  size_t count, kept = 0;
  for (uint8_t me = 0; me < N; me++) {
    cores[me] = opened(me, records, 0);
    for (uint16_t q = 0; q < QUESTIONS; q++) {
      CHECK(bracha_core_propose(&cores[me], q, q % 2, 0, records, &count) == BRACHA_OK);
      send_all(me, records, count);
    }
  }
  for (size_t at = 0; at < posted; at++) {
    struct letter one = post[at];
    CHECK(bracha_core_hear(&cores[one.to], one.from, one.statement, 0, records, &count) >= 0);
    send_all(one.to, records, count);
  }
  for (uint8_t me = 0; me < N; me++) bracha_core_close(cores[me]);
  for (size_t at = 0; at < posted; at++)
    if (post[at].to == 0) post[kept++] = post[at];
  return kept;
}

/* ---- a core ---- */

static uint8_t saved[BRACHA_RECORD * MOST];
static size_t saved_len;

static void save(const uint8_t *records, size_t count) {
  memcpy(saved + saved_len, records, BRACHA_RECORD * count);
  saved_len += BRACHA_RECORD * count;
}

/* Tells a core of all events, the proposals first. Returns the first answer below 0, or 0. */
static int32_t tell(bracha_core *core, size_t heard) {
  uint8_t records[BRACHA_ROOM];
  size_t count;
  for (size_t at = 0; at < QUESTIONS + heard; at++) {
    const struct letter *one = &post[at - (at < QUESTIONS ? at : QUESTIONS)];
    int32_t status = at < QUESTIONS
                         ? bracha_core_propose(core, (uint16_t)at, at % 2, 0, records, &count)
                         : bracha_core_hear(core, one->from, one->statement, 0, records, &count);
    CHECK(status == BRACHA_OK || count == 0);
    if (status < 0) return status;
    save(records, count);
  }
  return BRACHA_OK;
}

/* A core that was refused memory has failed; one that is opened with what it saved goes on, and
 * decides. */
static void go_on(bracha_core core, size_t heard) {
  uint8_t records[BRACHA_ROOM];
  size_t count;
  bracha_decision decision;
  grant_all();
  CHECK(bracha_core_propose(&core, 0, true, 0, records, &count) == BRACHA_FAILED && count == 0);
  CHECK(bracha_core_hear(&core, 0, post[0].statement, 0, records, &count) == BRACHA_FAILED &&
        count == 0);
  CHECK(!bracha_core_verdict(&core, 0, &decision) && !bracha_core_verdict(&core, 1, &decision));
  bracha_core_close(core);
  core = opened(0, saved, saved_len);
  int32_t status = tell(&core, heard);
  CHECK(status == BRACHA_OK);
  CHECK(bracha_core_verdict(&core, 0, &decision) && decision.bit == 0);
  CHECK(bracha_core_verdict(&core, 1, &decision) && decision.bit == 1);
  bracha_core_close(core);
}

/* Refuses each request of a core in turn. Returns their number. */
static long refuse_core(size_t heard) {
  bracha_core core;
  long at = 0, opens = 0, later = 0;
  for (;; at++) {
    saved_len = 0;
    grant(at);
    int32_t status = bracha_core_open(&core, N, T, QUESTIONS, 0, saved, 0);
    if (status == BRACHA_MEMORY) {
      opens++;
      continue;
    }
    CHECK(status == BRACHA_OK);
    status = tell(&core, heard);
    bool was = was_refused;
    grant_all();
    if (!was) break;
    if (status == BRACHA_MEMORY) {
      later++;
      go_on(core, heard);
    } else {
      CHECK(status == BRACHA_OK); /* the request was one that the library could do without */
      bracha_core_close(core);
    }
  }
  bracha_core_close(core);
  CHECK(opens > 0 && later > 0);
  printf(
      "a core: %ld requests refused in turn, %ld of them when it was opened and %ld at an event\n",
      at, opens, later);
  return at;
}

/* Opening with records, and an audit, want memory too, and change nothing if it is refused. */
static void refuse_records(size_t heard) {
  static uint8_t pairs[8 * MOST];
  bracha_core core = opened(0, saved, 0);
  CHECK(tell(&core, heard) == BRACHA_OK);
  bracha_core_close(core);
  for (size_t i = 0; i < heard; i++) {
    pairs[8 * i] = post[i].from;
    memcpy(pairs + 8 * i + 1, post[i].statement, BRACHA_RECORD);
  }
  long opens = 0, audits = 0;
  for (int32_t status = BRACHA_MEMORY; status == BRACHA_MEMORY;) {
    grant(opens);
    status = bracha_core_open(&core, N, T, QUESTIONS, 0, saved, saved_len);
    grant_all();
    CHECK(status == BRACHA_OK || status == BRACHA_MEMORY);
    if (status == BRACHA_OK)
      bracha_core_close(core);
    else
      opens++;
  }
  for (int32_t status = BRACHA_MEMORY; status == BRACHA_MEMORY;) {
    grant(audits);
    status = bracha_audit(N, T, QUESTIONS, 1, true, pairs, 8 * heard);
    grant_all();
    CHECK(status == 1 || status == BRACHA_MEMORY);
    audits += status == BRACHA_MEMORY;
  }
  CHECK(opens > 0 && audits > 0);
  printf("opening with %zu records: %ld requests refused in turn; an audit: %ld\n",
         saved_len / BRACHA_RECORD, opens, audits);
}

/* ---- feeders, tosses, journals ---- */

static size_t make_stream(uint8_t *stream, size_t heard) {
  size_t len = 0, written;
  uint8_t frame[BRACHA_FRAME_ROOM], some[BRACHA_ROOM];
  for (size_t at = 0; at + 3 < heard && at < 60; at += 3) {
    for (size_t i = 0; i < 3; i++)
      memcpy(some + BRACHA_RECORD * i, post[at + i].statement, BRACHA_RECORD);
    CHECK(bracha_encode_statements(some, 3 * BRACHA_RECORD, frame, &written) == BRACHA_OK);
    memcpy(stream + len, frame, written);
    len += written;
    CHECK(bracha_encode_statement(post[at].statement, frame) == BRACHA_OK);
    memcpy(stream + len, frame, 10);
    len += 10;
  }
  return len;
}

/* Feeds a stream in two chunks, each again if memory is refused. Returns how often it was. */
static long feed(bracha_feeder *feeder, const uint8_t *stream, size_t len) {
  long refused = 0;
  const size_t cuts[] = {0, len / 2 + 1, len};
  for (int i = 0; i < 2; i++)
    for (;;) {
      int32_t status = bracha_feeder_feed(feeder, stream + cuts[i], cuts[i + 1] - cuts[i]);
      if (status == BRACHA_OK) break;
      CHECK(status == BRACHA_MEMORY && was_refused);
      refused++;
      grant_all();
    }
  grant_all();
  return refused;
}

static void check_messages(bracha_feeder *feeder, const uint8_t *stream, size_t len) {
  uint8_t body[BRACHA_ROOM], frame[BRACHA_FRAME_ROOM];
  size_t count, written, at = 0;
  int32_t kind;
  while ((kind = bracha_feeder_next(feeder, body, &count)) == BRACHA_STATEMENTS) {
    CHECK(bracha_encode_statements(body, BRACHA_RECORD * count, frame, &written) == BRACHA_OK);
    CHECK(at + written <= len && memcmp(stream + at, frame, written) == 0);
    at += written;
  }
  CHECK(kind == BRACHA_NOTHING && at == len);
}

static void refuse_feeder(size_t heard) {
  static uint8_t stream[40 * 40];
  size_t len = make_stream(stream, heard);
  long opens = 0, feeds = 0, at = 0;
  for (bool is_over = false; !is_over; at++) {
    bracha_feeder feeder;
    grant(at);
    int32_t status = bracha_feeder_open(&feeder, N, T, QUESTIONS);
    CHECK(status == BRACHA_OK || (status == BRACHA_MEMORY && was_refused));
    if (status == BRACHA_MEMORY) {
      opens++;
      continue;
    }
    feeds += feed(&feeder, stream, len);
    is_over = !was_refused;
    check_messages(&feeder, stream, len);
    bracha_feeder_close(feeder);
  }
  CHECK(feeds > 0);
  printf("a feeder: %ld requests refused in turn, %ld of them when it was opened and %ld when it "
         "was fed\n",
         at - 1, opens, feeds);
}

static void refuse_frame(void) {
  uint8_t some[BRACHA_ROOM], frame[BRACHA_FRAME_ROOM];
  size_t written;
  long at = 0;
  for (size_t i = 0; i < BRACHA_MOST_RECORDS; i++)
    memcpy(some + BRACHA_RECORD * i, post[i].statement, BRACHA_RECORD);
  for (int32_t status = BRACHA_MEMORY; status == BRACHA_MEMORY;) {
    grant(at);
    status = bracha_encode_statements(some, BRACHA_ROOM, frame, &written);
    grant_all();
    CHECK(status == BRACHA_OK ? written == BRACHA_FRAME_ROOM : written == 0);
    CHECK(status == BRACHA_OK || (status == BRACHA_MEMORY && was_refused));
    at += status == BRACHA_MEMORY;
  }
  printf("a frame of 99 statements: %ld requests refused in turn\n", at);
}

static void refuse_toss(void) {
  static const uint8_t seed[32] = {1};
  long at = 0;
  for (int32_t status = BRACHA_MEMORY; status == BRACHA_MEMORY;) {
    bracha_toss toss;
    grant(at);
    status = bracha_toss_open(&toss, seed, 5);
    grant_all();
    CHECK(status == BRACHA_OK || (status == BRACHA_MEMORY && was_refused));
    if (status == BRACHA_OK)
      bracha_toss_close(toss);
    else
      at++;
  }
  printf("tosses: %ld requests refused in turn\n", at);
}

/* Encoding and reading a journal may want memory; if it is refused, the same call is good
 * afterwards. */
static void refuse_journal(void) {
  static uint8_t file[64 + 6 * MOST], records[BRACHA_RECORD * MOST];
  size_t written = 0, end = 0;
  long encodes = 0, reads = 0;
  CHECK(bracha_batch_head(7, N, T, QUESTIONS, 0, file) == BRACHA_OK);
  for (int32_t status = BRACHA_MEMORY; status == BRACHA_MEMORY;) {
    grant(encodes);
    status = bracha_batch_encode(saved, saved_len, file + 24, sizeof file - 24, &written);
    grant_all();
    CHECK(status == BRACHA_OK || (status == BRACHA_MEMORY && was_refused));
    encodes += status == BRACHA_MEMORY;
  }
  size_t len = 24 + written;
  file[24] = 1;
  for (int32_t status = BRACHA_MEMORY; status == BRACHA_MEMORY;) {
    grant(reads);
    status = bracha_batch_read(7, N, T, QUESTIONS, 0, file, len, records, sizeof records, &written,
                               &end);
    grant_all();
    CHECK(status == BRACHA_OK || (status == BRACHA_MEMORY && was_refused));
    reads += status == BRACHA_MEMORY;
  }
  CHECK(written == saved_len && memcmp(records, saved, saved_len) == 0 && end == len - 1);
  printf("a journal of %zu records: encoding it %ld requests refused in turn, reading it %ld\n",
         written / BRACHA_RECORD, encodes, reads);
}

int main(void) {
  size_t heard = events();
  refuse_core(heard);
  refuse_records(heard);
  refuse_feeder(heard);
  refuse_frame();
  refuse_toss();
  refuse_journal();
  printf("every refusal was answered BRACHA_MEMORY, and what the header says stood after it\n");
  return 0;
}
