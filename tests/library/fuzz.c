/* Has every function of include/bracha.h called with bytes of chance, and checks what the header
 * says of each answer.
 *
 * With clang: -fsanitize=fuzzer,address, and libFuzzer makes the bytes. Else -DALONE
 * -fsanitize=address: `fuzz SECONDS SEED` makes them itself. The library isn't compiled with the
 * sanitizer, so every buffer that it reads or writes ends at a page that can't be touched: a byte
 * too many is a fault of the system, whoever touches it. What is wrong is named on standard error,
 * and the program aborts. */
#define _DEFAULT_SOURCE
#include "bracha.h"
#include <stdio.h>
#include <stdlib.h>
#include <string.h>
#include <sys/mman.h>
#include <time.h>

#define CHECK(what) ((what) ? (void)0 : fail(#what, __LINE__))

static void fail(const char *what, int line) {
  fprintf(stderr, "fuzz.c:%d: not so: %s\n", line, what);
  abort();
}

/* ---- buffers that end at a page that can't be touched ---- */

enum { ARENA = 1 << 17, ARENAS = 6, PAGE = 4096 };
static uint8_t *ends[ARENAS];

static void make_arenas(void) {
  for (int i = 0; i < ARENAS && !ends[i]; i++) {
    uint8_t *at =
        mmap(NULL, ARENA + PAGE, PROT_READ | PROT_WRITE, MAP_PRIVATE | MAP_ANONYMOUS, -1, 0);
    CHECK(at != MAP_FAILED);
    CHECK(mprotect(at + ARENA, PAGE, PROT_NONE) == 0);
    ends[i] = at + ARENA;
  }
}

/* Returns a copy of the bytes that ends at such a page. */
static const uint8_t *put(int arena, const void *bytes, size_t len) {
  uint8_t *at = ends[arena] - len;
  if (len) memcpy(at, bytes, len);
  return at;
}

/* Returns room of so many bytes before such a page, each of them 0xa5. */
static uint8_t *room_of(int arena, size_t len) { return memset(ends[arena] - len, 0xa5, len); }

static bool is_untouched(const uint8_t *at, size_t len) {
  for (size_t i = 0; i < len; i++)
    if (at[i] != 0xa5) return false;
  return true;
}

/* ---- the bytes of chance ---- */

static const uint8_t *chance, *chance_end;

static uint8_t byte(void) { return chance < chance_end ? *chance++ : 0; }

static uint64_t word(void) {
  uint64_t all = 0;
  for (int i = 0; i < 8; i++) all = all << 8 | byte();
  return all;
}

/* Takes at most so many bytes of chance. */
static size_t some(uint8_t *to, size_t most) {
  size_t len = byte();
  if (len > most) len = most;
  for (size_t i = 0; i < len; i++) to[i] = byte();
  return len;
}

/* ---- a member, with what it saved ---- */

enum { MOST_SAVED = 7 * 4000 };
static uint8_t saved[MOST_SAVED];
static size_t saved_len, own_heard;
static uint8_t n, t, me;
static uint16_t questions;
static bracha_core core;
static bool is_open;
static int verdicts[256];

static bool is_size_fault(int32_t status) {
  return status <= BRACHA_NO_MEMBERS && status >= BRACHA_TOO_MANY_QUESTIONS;
}

static bool is_size(void) {
  return n >= 1 && n <= 64 && n > 3 * t && questions >= 1 && questions <= 4096;
}

static bool is_member(uint8_t it) { return it < n; }

static void open_core(void) {
  bracha_core *at = (bracha_core *)(void *)room_of(0, sizeof core);
  int32_t status = bracha_core_open(at, n, t, questions, me, put(1, saved, saved_len), saved_len);
  CHECK((status == BRACHA_OK) == (is_size() && is_member(me)));
  CHECK(status == BRACHA_OK || is_size_fault(status) == !is_size());
  CHECK(status == BRACHA_OK || is_untouched((uint8_t *)at, sizeof core));
  is_open = status == BRACHA_OK;
  own_heard = 0;
  if (is_open) memcpy(&core, at, sizeof core);
}

static void close_core(void) {
  if (is_open) bracha_core_close(core);
  is_open = false;
}

static void check_verdicts(void) {
  for (uint16_t q = 0; q < questions && q < 256; q++) {
    bracha_decision *at = (bracha_decision *)(void *)room_of(0, sizeof *at);
    bool is_decided = bracha_core_verdict(&core, q, at);
    CHECK(is_decided || is_untouched((uint8_t *)at, sizeof *at));
    CHECK(!is_decided || (at->round >= 1 && at->round <= 32 && at->bit <= 1));
    int now = is_decided ? 2 * at->round + at->bit : 0;
    CHECK(verdicts[q] == 0 || verdicts[q] == now);
    verdicts[q] = now;
  }
  bracha_decision none;
  CHECK(!bracha_core_verdict(&core, questions, &none));
}

/* Checks what the header says of an answer, and saves the records. */
static void save(int32_t status, const uint8_t *records, size_t count) {
  CHECK(status == BRACHA_OK || count == 0);
  CHECK(count <= BRACHA_MOST_RECORDS);
  CHECK(is_untouched(records + 7 * count, BRACHA_ROOM - 7 * count));
  for (size_t i = 0; i < 7 * count; i += 7) {
    uint8_t frame[BRACHA_FRAME_STATEMENT];
    CHECK(records[i] >= 1 && records[i] <= 4);
    CHECK(records[i] == 4 || bracha_encode_statement(records + i, frame) == BRACHA_OK);
    CHECK(records[i] != 1 || records[i + 3] == me);
    CHECK((records[i + 1] << 8 | records[i + 2]) < questions);
  }
  if (saved_len + 7 * count <= MOST_SAVED) {
    memcpy(saved + saved_len, records, 7 * count);
    saved_len += 7 * count;
  } else {
    close_core(); /* it may not go on, since what it said isn't saved */
  }
}

static void hear(uint8_t from, const uint8_t statement[7]) {
  size_t count = 12345;
  uint8_t *records = room_of(2, BRACHA_ROOM), frame[BRACHA_FRAME_STATEMENT];
  int32_t status = bracha_core_hear(&core, from, put(1, statement, 7), word(), records, &count);
  bool is_statement = bracha_encode_statement(statement, frame) == BRACHA_OK;
  CHECK((status == BRACHA_BAD_STATEMENT) == !is_statement);
  CHECK(status >= 0 || status == BRACHA_BAD_STATEMENT || status == BRACHA_NO_SUCH_QUESTION ||
        status == BRACHA_NO_SUCH_MEMBER);
  if (is_statement) {
    bool is_question = (statement[1] << 8 | statement[2]) < questions;
    CHECK((status >= 0) == (is_question && is_member(from) && is_member(statement[3])));
    CHECK(status < 0 || (status == BRACHA_FOREIGN) == (statement[0] == 1 && statement[3] != from));
  }
  save(status, records, count);
}

static void propose(uint16_t question, bool bit) {
  size_t count = 12345;
  uint8_t *records = room_of(2, BRACHA_ROOM);
  int32_t status = bracha_core_propose(&core, question, bit, word(), records, &count);
  CHECK((status == BRACHA_NO_SUCH_QUESTION) == (question >= questions));
  CHECK(question >= questions || status == BRACHA_OK || status == BRACHA_HAVE_ZERO ||
        status == BRACHA_HAVE_ONE);
  save(status, records, count);
}

/* ---- what is done with the core ---- */

/* A statement of chance: mostly one that the cluster could hear. */
static void hear_chance(void) {
  uint8_t s[7], from = byte();
  for (int i = 0; i < 7; i++) s[i] = byte();
  if (s[0] < 240) {
    s[0] = (uint8_t)(1 + s[0] % 3);
    s[1] = 0;
    s[2] = (uint8_t)(s[2] % (questions < 4 ? questions : 4));
    s[3] = (uint8_t)(s[3] % n);
    s[4] = (uint8_t)(1 + s[4] % 3);
    s[5] = (uint8_t)(1 + s[5] % 3);
    s[6] = (uint8_t)(s[5] == 3 ? 2 + s[6] % 3 : s[6] % 2);
    from = (uint8_t)(from % n);
    if (s[0] == 1 && byte() % 8) from = s[3];
  }
  hear(from, s);
}

/* Says what the member itself said as if another did, so that questions get on. */
static void hear_echo(void) {
  if (!saved_len) return;
  const uint8_t *said = saved + 7 * (word() % (saved_len / 7));
  uint8_t s[7], from = (uint8_t)(byte() % n);
  if (said[0] == 4) return;
  memcpy(s, said, 7);
  s[0] = (uint8_t)(1 + byte() % 3);
  if (s[0] == 1) s[3] = from;
  hear(from, s);
}

/* Hears what the member said and has not heard yet, in order. */
static void hear_own(void) {
  for (; is_open && own_heard < saved_len; own_heard += 7)
    if (saved[own_heard] != 4) hear(me, saved + own_heard);
}

static void reopen(void) {
  close_core();
  open_core();
  CHECK(is_open);
  check_verdicts();
}

/* Opens a second core with records of chance. */
static void open_chance(void) {
  uint8_t bytes[256];
  size_t len = some(bytes, sizeof bytes);
  bracha_core other;
  if (byte() % 2 && saved_len >= 7) {
    len = saved_len < sizeof bytes ? saved_len : 7 * (sizeof bytes / 7);
    memcpy(bytes, saved, len);
    bytes[word() % len] = byte();
  }
  int32_t status = bracha_core_open(&other, n, t, questions, me, put(1, bytes, len), len);
  CHECK(status <= 0 && (len % 7 == 0 || status == BRACHA_BAD_RECORDS));
  if (status == BRACHA_OK) bracha_core_close(other);
}

static void audit_chance(void) {
  uint8_t bytes[256];
  size_t len = some(bytes, sizeof bytes);
  uint16_t question = byte();
  if (byte() % 4) len -= len % 8;
  for (size_t i = 0; i + 8 <= len && byte() % 2; i += 8)
    if (saved_len) memcpy(bytes + i + 1, saved + 7 * (word() % (saved_len / 7)), 7);
  int32_t status = bracha_audit(n, t, questions, question, byte() % 2, put(1, bytes, len), len);
  CHECK(status == 0 || status == 1 || status == BRACHA_BAD_STATEMENT);
  CHECK(len % 8 == 0 || status == BRACHA_BAD_STATEMENT);
  CHECK(question < questions || status != 1);
}

/* ---- frames and feeders ---- */

enum { MOST_STREAM = 4096 };

/* Feeds the bytes in chunks of chance, and writes the messages, each its type, its count and its
 * body. */
static size_t feed_all(const uint8_t *stream, size_t len, size_t chunk, uint8_t *told,
                       int32_t *end) {
  bracha_feeder feeder;
  uint8_t body[BRACHA_ROOM];
  size_t written = 0, count;
  CHECK(bracha_feeder_open(&feeder, n, t, questions) == BRACHA_OK);
  for (size_t at = 0; at < len; at += chunk) {
    size_t now = len - at < chunk ? len - at : chunk;
    *end = bracha_feeder_feed(&feeder, put(1, stream + at, now), now);
    CHECK(*end == BRACHA_OK || *end == BRACHA_BROKEN);
    int32_t kind;
    while ((kind = bracha_feeder_next(&feeder, room_of(2, BRACHA_ROOM), &count)) !=
           BRACHA_NOTHING) {
      memcpy(body, ends[2] - BRACHA_ROOM, BRACHA_ROOM);
      size_t size = kind == BRACHA_HELLO ? 15 : kind == BRACHA_WELCOME ? 8 : 7 * count;
      CHECK(kind >= 0 && kind <= 3 &&
            (kind == BRACHA_STATEMENTS ? count >= 1 && count <= 99 : count == 0));
      CHECK(is_untouched(body + size, BRACHA_ROOM - size));
      told[written++] = (uint8_t)kind;
      told[written++] = (uint8_t)count;
      memcpy(told + written, body, size);
      written += size;
    }
    CHECK(count == 0);
  }
  *end = bracha_feeder_feed(&feeder, put(1, stream, 0), 0);
  bracha_feeder_close(feeder);
  return written;
}

/* Appends a frame that fits the cluster, or one that doesn't, or bytes. */
static size_t append_frame(uint8_t *stream) {
  uint8_t *frame = room_of(3, BRACHA_FRAME_ROOM), bytes[7 * 12];
  size_t written = 0, len;
  uint64_t number = word();
  switch (byte() % 6) {
  case 0:
    bracha_encode_idle(frame = room_of(3, BRACHA_FRAME_IDLE));
    written = BRACHA_FRAME_IDLE;
    break;
  case 1:
    bracha_encode_welcome(number, frame = room_of(3, BRACHA_FRAME_WELCOME));
    written = BRACHA_FRAME_WELCOME;
    break;
  case 2: {
    uint8_t version = (uint8_t)(byte() % 4), from = byte(), to = (uint8_t)(byte() % n);
    if (byte() % 8) from = (uint8_t)(from % n);
    int32_t status = bracha_encode_hello(version, number, n, t, questions, from, to,
                                         frame = room_of(3, BRACHA_FRAME_HELLO));
    CHECK((status == BRACHA_OK) == ((version == 1 || version == 2) && from < n));
    CHECK(status == BRACHA_OK || is_untouched(frame, BRACHA_FRAME_HELLO));
    written = status == BRACHA_OK ? BRACHA_FRAME_HELLO : 0;
    break;
  }
  case 3:
  case 4: {
    len = 7 * (byte() % 13);
    for (size_t i = 0; i < len; i += 7) {
      if (saved_len && byte() % 8)
        memcpy(bytes + i, saved + 7 * (word() % (saved_len / 7)), 7);
      else
        for (int k = 0; k < 7; k++) bytes[i + (size_t)k] = byte();
    }
    if (byte() % 16 == 0 && len) len--;
    int32_t status = bracha_encode_statements(put(1, bytes, len), len, frame, &written);
    CHECK(status == BRACHA_OK || status == BRACHA_BAD_STATEMENT);
    CHECK(status == BRACHA_OK ? written == (len == 7 ? 10 : 4 + len) : written == 0);
    CHECK(is_untouched(frame + written, BRACHA_FRAME_ROOM - written));
    break;
  }
  default: written = some(frame, 40);
  }
  memcpy(stream, frame, written);
  return written;
}

/* A feeder gives the same, however the stream is cut. */
static void feed_chance(void) {
  static uint8_t stream[MOST_STREAM + BRACHA_FRAME_ROOM], one[4 * MOST_STREAM],
      other[4 * MOST_STREAM];
  size_t len = 0;
  int32_t end = 0, other_end = 0;
  for (int frames = byte() % 12; frames > 0 && len < MOST_STREAM; frames--)
    len += append_frame(stream + len);
  if (byte() % 4 == 0 && len) stream[word() % len] = byte();
  size_t told = feed_all(stream, len, len ? len : 1, one, &end);
  size_t other_told = feed_all(stream, len, (size_t)(1 + byte() % 20), other, &other_end);
  CHECK(told == other_told && memcmp(one, other, told) == 0 && end == other_end);
}

/* ---- the journal's bytes ---- */

static void read_batches(const uint8_t *file, size_t len, uint64_t cluster, const uint8_t *wanted,
                         size_t wanted_len) {
  size_t written = 9, end = 9, room = len / 6 * 7;
  uint8_t *records = room_of(2, room);
  const uint8_t *at = put(1, file, len);
  int32_t status =
      bracha_batch_read(cluster, n, t, questions, me, at, len, records, room, &written, &end);
  CHECK(status == BRACHA_OK || (status <= BRACHA_BAD_HEADER && status >= BRACHA_OLD_VERSION));
  CHECK(status == BRACHA_OK || (written == 0 && is_untouched(records, room)));
  if (wanted)
    CHECK(status == BRACHA_OK && written == wanted_len && memcmp(records, wanted, written) == 0);
  if (status != BRACHA_OK) return;
  CHECK(written % 7 == 0 && written <= room && end >= 24 && end < len);
  CHECK(is_untouched(records + written, room - written));
  if (!written) return;
  size_t need = 0, less = word() % written;
  status =
      bracha_batch_read(cluster, n, t, questions, me, at, len, room_of(2, less), less, &need, &end);
  CHECK(status == BRACHA_NO_ROOM && need == written);
  status = bracha_batch_read(cluster, n, t, questions, me, at, len, room_of(2, need), need,
                             &written, &end);
  CHECK(status == BRACHA_OK && need == written);
}

/* Makes a file of the member's records, in batches, as a program does, and reads it back: whole,
 * torn and changed. */
static void journal_chance(void) {
  static uint8_t file[64 + 6 * MOST_SAVED];
  uint64_t cluster = word();
  size_t end = BRACHA_JOURNAL_HEAD - 1, at = 0, written = 0;
  CHECK(bracha_batch_head(cluster, n, t, questions, me, room_of(3, BRACHA_JOURNAL_HEAD)) ==
        BRACHA_OK);
  memcpy(file, ends[3] - BRACHA_JOURNAL_HEAD, BRACHA_JOURNAL_HEAD);
  read_batches(file, end + 1, cluster, saved, 0);
  while (at < saved_len && at < 7 * 600) {
    size_t len = 7 * (size_t)(1 + byte() % 40);
    if (len > saved_len - at) len = saved_len - at;
    size_t need = BRACHA_BATCH_BYTES(len / 7);
    uint8_t *bytes = room_of(3, need - 1);
    CHECK(bracha_batch_encode(put(1, saved + at, len), len, bytes, need - 1, &written) ==
              BRACHA_NO_ROOM &&
          written == need);
    CHECK(is_untouched(bytes, need - 1));
    bytes = room_of(3, need);
    CHECK(bracha_batch_encode(put(1, saved + at, len), len, bytes, need, &written) == BRACHA_OK &&
          written == need);
    memcpy(file + end, bytes, need);
    CHECK(file[end] == 0);
    read_batches(file, end + need, cluster, saved, at); /* the gate is closed: as before */
    file[end] = 1;
    end += need - 1;
    at += len;
    read_batches(file, end + 1, cluster, saved, at);
  }
  if (byte() % 2) file[word() % (end + 1)] = byte();
  read_batches(file, byte() % 2 ? word() % (end + 2) : end + 1, cluster, NULL, 0);
}

static void encode_chance(void) {
  uint8_t bytes[256], *room = room_of(3, 4096);
  size_t len = some(bytes, sizeof bytes), written = 7;
  if (byte() % 2) len -= len % 7;
  int32_t status = bracha_batch_encode(put(1, bytes, len), len, room, 4096, &written);
  CHECK(status == BRACHA_OK || status == BRACHA_BAD_RECORDS);
  CHECK((len != 0 && len % 7 == 0) || status == BRACHA_BAD_RECORDS);
  CHECK(status != BRACHA_OK || written == BRACHA_BATCH_BYTES(len / 7));
}

static void toss_chance(void) {
  uint8_t seed[32];
  bracha_toss one, other;
  uint64_t stream = word();
  for (int i = 0; i < 32; i++) seed[i] = byte();
  CHECK(bracha_toss_open(&one, put(1, seed, 32), stream) == BRACHA_OK);
  CHECK(bracha_toss_open(&other, put(1, seed, 32), stream) == BRACHA_OK);
  for (int i = byte(); i >= 0; i--) CHECK(bracha_toss_next(&one) == bracha_toss_next(&other));
  bracha_toss_close(one);
  bracha_toss_close(other);
}

/* Sizes that there aren't: every function that takes one says so alike. */
static void sizes_chance(void) {
  uint8_t n_was = n, t_was = t, frame[BRACHA_FRAME_HELLO], head[BRACHA_JOURNAL_HEAD];
  uint16_t questions_was = questions;
  bracha_core other;
  bracha_feeder feeder;
  n = byte(), t = (uint8_t)(byte() % 32), questions = (uint16_t)word();
  int32_t status = bracha_core_open(&other, n, t, questions, 0, ends[1], 0);
  CHECK((status == BRACHA_OK) == is_size() && (is_size() || is_size_fault(status)));
  if (status == BRACHA_OK) bracha_core_close(other);
  CHECK(bracha_batch_head(0, n, t, questions, 0, head) == status);
  CHECK(bracha_encode_hello(1, 0, n, t, questions, 0, 0, frame) == status);
  int32_t opened = bracha_feeder_open(&feeder, n, t, questions);
  CHECK(opened == status);
  if (opened == BRACHA_OK) bracha_feeder_close(feeder);
  int32_t audited = bracha_audit(n, t, questions, 0, true, ends[1], 0);
  CHECK(is_size() ? audited == 0 : audited == status);
  n = n_was, t = t_was, questions = questions_was;
}

/* ---- one run ---- */

static void begin(void) {
  static const uint8_t sizes[][2] = {{1, 0}, {4, 1}, {4, 1},  {5, 1},
                                     {7, 2}, {3, 0}, {10, 3}, {64, 21}};
  const uint8_t *size = sizes[byte() % 8];
  n = size[0], t = size[1], me = (uint8_t)(byte() % n);
  questions = byte() % 16 ? (uint16_t)(1 + byte() % 4) : 4096;
  saved_len = 0;
  memset(verdicts, 0, sizeof verdicts);
  open_core();
}

static void step(void) {
  switch (byte() % 32) {
  case 0: open_chance(); break;
  case 1: audit_chance(); break;
  case 2: feed_chance(); break;
  case 3: journal_chance(); break;
  case 4: encode_chance(); break;
  case 5: toss_chance(); break;
  case 6: sizes_chance(); break;
  case 7: reopen(); break;
  case 8: check_verdicts(); break;
  case 9:
  case 10: propose((uint16_t)(byte() % 8), byte() % 2); break;
  case 11:
  case 12:
  case 13:
  case 14: hear_own(); break;
  case 15:
  case 16:
  case 17:
  case 18:
  case 19: hear_chance(); break;
  default: hear_echo();
  }
}

int LLVMFuzzerTestOneInput(const uint8_t *bytes, size_t len);

int LLVMFuzzerTestOneInput(const uint8_t *bytes, size_t len) {
  make_arenas();
  chance = bytes, chance_end = bytes + len;
  CHECK(bracha_abi() == BRACHA_ABI && bracha_version() < 0x01000000);
  begin();
  while (chance < chance_end && is_open) step();
  if (is_open) reopen();
  close_core();
  return 0;
}

#ifdef ALONE
static uint64_t state;

static uint64_t draw(void) { /* splitmix64 */
  uint64_t z = (state += 0x9e3779b97f4a7c15u);
  z = (z ^ (z >> 30)) * 0xbf58476d1ce4e5b9u;
  z = (z ^ (z >> 27)) * 0x94d049bb133111ebu;
  return z ^ (z >> 31);
}

int main(int argc, char **argv) {
  static uint8_t bytes[4096];
  double seconds = argc > 1 ? atof(argv[1]) : 20;
  time_t until = time(NULL) + (time_t)seconds;
  long runs = 0;
  state = argc > 2 ? strtoull(argv[2], NULL, 10) : 1;
  do {
    size_t len = draw() % sizeof bytes;
    for (size_t i = 0; i < len; i++) bytes[i] = (uint8_t)draw();
    LLVMFuzzerTestOneInput(bytes, len);
    runs++;
  } while (time(NULL) < until);
  printf("%ld runs, and all that the header says was so\n", runs);
  return 0;
}
#endif
