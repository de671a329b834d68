/* bracha.h: the proved core of a member of asynchronous Byzantine agreement (Bracha 1987), for
 * programs that have a network and a disk of their own. C11 and C++. docs/EMBEDDING.md says when to
 * use it, docs/PROTOCOL.md has the rules, docs/FORMATS.md all bytes.
 *
 * n members, of whom at most t are faulty, and n > 3t, settle questions, each with one bit. A
 * core is one member's state machine. It opens no file and no socket, starts no thread, reads no
 * clock, draws no random number and prints nothing. You tell it of two kinds of events, and it
 * answers each with records.
 *
 * THE ONE RULE: save, sync, then send.
 *
 *   1. Tell the core of an event: bracha_core_hear or bracha_core_propose. It writes `*count`
 *      records.
 *   2. Append all of these records to your journal, as one batch that a crash keeps or loses as a
 *      whole, and sync it to the disk.
 *   3. Then send each record that is a statement (its first byte is 1, 2 or 3) to every other
 *      member, in order, and have this core hear it as from `me`. A decision (first byte 4) is only
 *      saved.
 *   4. After a restart, open the core with all records of the journal, oldest first. Send all their
 *      statements again, to this core too.
 *
 * What goes wrong otherwise: a member that sends before it has saved may crash in between. It then
 * says something else after its restart, and that is a lie. With more than t such members, correct
 * ones may decide differently. A core that is opened with fewer records than were sent (a lost,
 * torn, copied or older journal) lies in the same way: never open that member again. A statement
 * that is saved and never sent harms nobody, but a question may stay open.
 *
 * What your links owe: the sender is authenticated (`from` is who really sent it), the order of
 * each sender's statements is kept, and everything arrives in the end. A core that was opened again
 * has heard nothing: each peer sends it everything once more.
 *
 * RECORDS have 7 bytes. A statement: kind (1 Initial, 2 Echo, 3 Ready), question (2 bytes,
 * big-endian), origin, round (1 to 32), step (1 to 3), value (in steps 1 and 2: 0 Zero, 1 One; in
 * step 3: 2 SureZero, 3 SureOne, 4 Unsure). A decision: 4, question (2 bytes), 0, round, 0, bit.
 * Example: 01 00 00 00 01 01 01 is member 0's Initial One on question 0 in round 1, step 1.
 *
 * HANDLES (bracha_core, bracha_feeder, bracha_toss) come from their _open and go to their _close,
 * once. Their one word belongs to the library. Move a handle as you like; of a copied handle, use
 * one copy. After a refused _open there is nothing to close.
 *
 * THREADS. Calls on different handles may run at the same time. A handle takes one call at a time:
 * keep it on one thread, or behind a lock. It may move to another thread. Call nothing from a
 * signal handler, or in the forked child of a process with threads.
 *
 * MEMORY comes from malloc, realloc and free, which must be of one allocator. Refused memory is the
 * answer BRACHA_MEMORY, never an abort. No pointer may be NULL, also with a length of 0: pass any
 * valid address. The buffers of a call don't overlap. A bool is 0 or 1. Nothing that you pass is
 * kept after the call.
 *
 * All else is defined: every number and every byte that the types allow has its answer.
 */
#ifndef BRACHA_H
#define BRACHA_H
#include <stdbool.h>
#include <stddef.h>
#include <stdint.h>
#ifdef __cplusplus
extern "C" {
#endif

/* The number of this interface: bracha_abi() of the library that you run with must answer it. */
#define BRACHA_ABI 1u

#define BRACHA_RECORD 7u        /* bytes of a record, and of a statement */
#define BRACHA_MOST_RECORDS 99u /* the most records of one answer */
#define BRACHA_ROOM 693u        /* the room of an answer: 99 records, so always enough */
#define BRACHA_MOST_MEMBERS 64u
#define BRACHA_MOST_QUESTIONS 4096u

/* The answer to a call. Numbers never change their meaning; new ones may be added. Below 0, the
 * call was refused. */
enum bracha_status {
  BRACHA_OK = 0,        /* done. Of an event: it counts, and its records are to be saved */
  BRACHA_REPEAT = 1,    /* the sender said one of this kind and place before. Nothing changed */
  BRACHA_FOREIGN = 2,   /* an Initial that isn't from its origin: `from` lies. Nothing changed */
  BRACHA_HAVE_ZERO = 3, /* 0 was proposed before, perhaps before a restart. Nothing changed */
  BRACHA_HAVE_ONE = 4,  /* the same of 1 */

  BRACHA_NO_SUCH_QUESTION = -1, /* the question isn't below `questions`. Nothing changed */
  BRACHA_NO_SUCH_MEMBER = -2,   /* a member isn't below n. Nothing changed */
  BRACHA_MEMORY = -3,           /* an allocation failed. At an event: the core has failed */
  BRACHA_FAILED = -4,           /* an earlier event met BRACHA_MEMORY: open the core anew */
  BRACHA_BAD_STATEMENT = -5,    /* the bytes are no statement. Nothing changed */
  BRACHA_BAD_RECORDS = -6,      /* the bytes are no whole records */
  BRACHA_BROKEN = -7,           /* no frame begins like the stream's bytes: close the connection */
  BRACHA_NOTHING = -8,          /* no message is complete yet: feed more bytes */
  BRACHA_NO_ROOM = -9,          /* `room` is too small; `*written` is the room that is needed */

  BRACHA_NO_MEMBERS = -10,         /* refusals of a size: n is 0 */
  BRACHA_TOO_MANY_MEMBERS = -11,   /* n is above 64 */
  BRACHA_TOO_MANY_LIARS = -12,     /* n isn't above 3t */
  BRACHA_NO_QUESTIONS = -13,       /* questions is 0 */
  BRACHA_TOO_MANY_QUESTIONS = -14, /* questions is above 4,096 */

  BRACHA_BAD_VERSION = -15, /* there is no such version of the wire */

  BRACHA_BAD_HEADER = -20,   /* refusals of a journal's file: it doesn't begin as one */
  BRACHA_OTHER_HEADER = -21, /* it is of another cluster, size or member */
  BRACHA_BAD_RECORD = -22,   /* a record is none */
  BRACHA_CUT_SHORT = -23,    /* it ends before its last gate byte */
  BRACHA_OLD_VERSION = -24   /* it is of version 1: `bracha migrate` converts it */
};

/* ---- the library ---- */

/* Returns the number of the interface that the library has. Compare it with BRACHA_ABI before any
 * other call: under another number, a call may have another form. */
uint32_t bracha_abi(void);

/* Returns the library's version, 0x00MMmmpp: 0.3.0 is 0x000300. */
uint32_t bracha_version(void);

/* ---- a core ---- */

typedef struct bracha_core { void *hidden; } bracha_core;

/* Opens the core of member `me` of n, of whom at most t are faulty, for the questions 0 to
 * `questions` - 1, with `len` bytes of records: all that this member saved since its journal was
 * created, oldest first, and none for a new member.
 *
 * Returns BRACHA_OK, and only then writes `*core`; otherwise the first that applies:
 *   a refusal of the size    there is no cluster of this size
 *   BRACHA_BAD_RECORDS       the bytes aren't whole records
 *   BRACHA_NO_SUCH_MEMBER    `me` isn't below n
 *   BRACHA_NO_SUCH_QUESTION  the first wrong record's question isn't below `questions`
 *   BRACHA_NO_SUCH_MEMBER    its origin isn't below n
 *   BRACHA_MEMORY            an allocation failed, at any point; it may be tried again */
int32_t bracha_core_open(bracha_core *core, uint8_t n, uint8_t t, uint16_t questions, uint8_t me,
                         const uint8_t *records, size_t len);

/* Closes a core and frees its memory. */
void bracha_core_close(bracha_core core);

/* Has the core hear a statement from member `from`, which your link has authenticated. `toss` is 64
 * random bits that nobody else can guess, fresh for each call: the coins of this event.
 * bracha_toss_next gives them. The records are written to the front of `records`, and their number,
 * 0 to 99, to `*count`, which is 0 with every answer but BRACHA_OK.
 *
 * Returns
 *   BRACHA_OK                the statement is new: save the records, then send
 *   BRACHA_REPEAT            it isn't new. Ordinary, as after a restart of its sender
 *   BRACHA_FOREIGN           `from` lies
 *   BRACHA_BAD_STATEMENT, BRACHA_NO_SUCH_QUESTION, BRACHA_NO_SUCH_MEMBER
 *                            it is of no use to this cluster; the core is as before
 *   BRACHA_MEMORY, BRACHA_FAILED
 *                            nothing of this event is recorded. Close the core, and open one with
 *                            the saved records: it goes on */
int32_t bracha_core_hear(bracha_core *core, uint8_t from, const uint8_t statement[BRACHA_RECORD],
                         uint64_t toss, uint8_t records[BRACHA_ROOM], size_t *count);

/* Proposes a bit for a question at this member. Toss, records and count are as above.
 *
 * Returns
 *   BRACHA_OK                          the proposal counts: save the records, then send
 *   BRACHA_HAVE_ZERO, BRACHA_HAVE_ONE  the bit that was proposed here before, which stands
 *   BRACHA_NO_SUCH_QUESTION            the core is as before
 *   BRACHA_MEMORY, BRACHA_FAILED       as above */
int32_t bracha_core_propose(bracha_core *core, uint16_t question, bool bit, uint64_t toss,
                            uint8_t records[BRACHA_ROOM], size_t *count);

typedef struct bracha_decision {
  uint8_t round; /* 1 to 32 */
  uint8_t bit;   /* 0 or 1 */
} bracha_decision;

/* Returns true if the question is decided, and only then writes `*decision`. A decision stands for
 * good; act on it only after its record was saved. A question that doesn't exist is never decided,
 * and a core that has failed (BRACHA_FAILED) knows of no decision: open it anew. */
bool bracha_core_verdict(bracha_core *core, uint16_t question, bracha_decision *decision);

/* Checks whether `len` bytes of pairs, 8 bytes each (a sender, then the 7 bytes of a statement that
 * this sender sent), are by themselves proof that the question has this answer, in a cluster of
 * this size. So somebody who took no part can check a decision; it proves only what was really
 * sent.
 *
 * Returns 1 if they are, and 0 if they aren't: also if there is no such question, or a sender or an
 * origin isn't below n. Otherwise a refusal: of the size; BRACHA_BAD_STATEMENT if the bytes aren't
 * whole pairs of a sender and a statement; or BRACHA_MEMORY. */
int32_t bracha_audit(uint8_t n, uint8_t t, uint16_t questions, uint16_t question, bool bit,
                     const uint8_t *pairs, size_t len);

/* ---- frames: what `bracha run` speaks over TCP ---- */

#define BRACHA_FRAME_IDLE 3u
#define BRACHA_FRAME_HELLO 18u
#define BRACHA_FRAME_WELCOME 11u
#define BRACHA_FRAME_STATEMENT 10u
#define BRACHA_FRAME_ROOM 697u /* the longest frame: length (2 bytes), type, count, 99 statements */

/* Writes an Idle: a sign of life, once a second if a link has nothing to send. */
void bracha_encode_idle(uint8_t frame[BRACHA_FRAME_IDLE]);

/* Writes a Hello, with which member `from` begins a session of its link to member `to`: version 1
 * or 2 of the wire, the cluster's number and size.
 *
 * Returns BRACHA_OK; a refusal of the size; BRACHA_BAD_VERSION; or BRACHA_NO_SUCH_MEMBER. `frame` is
 * written only with BRACHA_OK. */
int32_t bracha_encode_hello(uint8_t version, uint64_t cluster, uint8_t n, uint8_t t,
                            uint16_t questions, uint8_t from, uint8_t to,
                            uint8_t frame[BRACHA_FRAME_HELLO]);

/* Writes a Welcome, the reply to a Hello: how many statements of that link this member has heard
 * since it was opened. The other side goes on with the statement of this number, counted from 0
 * over all that it ever said. */
void bracha_encode_welcome(uint64_t next, uint8_t frame[BRACHA_FRAME_WELCOME]);

/* Writes the frame of one statement, which both versions of the wire have. Returns BRACHA_OK, or
 * BRACHA_BAD_STATEMENT and writes nothing. */
int32_t bracha_encode_statement(const uint8_t statement[BRACHA_RECORD],
                                uint8_t frame[BRACHA_FRAME_STATEMENT]);

/* Writes one frame of 1 to 99 statements, 7 bytes each, for sessions of version 2, and its length to
 * `*written`. A single statement gets the frame of both versions.
 *
 * Returns BRACHA_OK; BRACHA_BAD_STATEMENT if the bytes aren't 1 to 99 whole statements; or
 * BRACHA_MEMORY. `*written` is 0 unless BRACHA_OK. */
int32_t bracha_encode_statements(const uint8_t *statements, size_t len,
                                 uint8_t frame[BRACHA_FRAME_ROOM], size_t *written);

/* ---- a feeder: the bytes of a connection in, messages out ---- */

typedef struct bracha_feeder { void *hidden; } bracha_feeder;

/* The types of messages, as bracha_feeder_next answers them. */
enum bracha_message {
  BRACHA_IDLE = 0,
  BRACHA_HELLO = 1,
  BRACHA_WELCOME = 2,
  BRACHA_STATEMENTS = 3
};

/* Opens a feeder for one connection of a cluster of this size. Returns BRACHA_OK, and only then
 * writes `*feeder`; a refusal of the size; or BRACHA_MEMORY. */
int32_t bracha_feeder_open(bracha_feeder *feeder, uint8_t n, uint8_t t, uint16_t questions);

/* Closes a feeder and frees its memory. */
void bracha_feeder_close(bracha_feeder feeder);

/* Feeds the next `len` bytes of the connection, cut anywhere. Take the messages out afterwards, by
 * bracha_feeder_next.
 *
 * Returns
 *   BRACHA_OK      the bytes so far are frames, and perhaps the beginning of one
 *   BRACHA_BROKEN  no frame begins like these bytes. The messages before them are still given.
 *                  Close the connection; each later feed answers the same
 *   BRACHA_MEMORY  nothing was read: feed the same bytes again, or close the connection */
int32_t bracha_feeder_feed(bracha_feeder *feeder, const uint8_t *bytes, size_t len);

/* Takes the next message out. It fits the cluster's size: a statement's question and origin exist,
 * and a Hello is of this size. Who sent it, and whether it comes in its turn, is for you to check:
 * compare a Hello's cluster, `from` and `to`.
 *
 * Returns the message's type, or BRACHA_NOTHING. `body` and `*count` are then
 *   BRACHA_IDLE        nothing; 0
 *   BRACHA_HELLO       15 bytes: version, cluster (8), n, t, questions (2), from, to; 0
 *   BRACHA_WELCOME     8 bytes: next, big-endian; 0
 *   BRACHA_STATEMENTS  7 bytes for each of `*count` statements, 1 to 99. More than one are a frame
 *                      of version 2
 *   BRACHA_NOTHING     nothing; 0 */
int32_t bracha_feeder_next(bracha_feeder *feeder, uint8_t body[BRACHA_ROOM], size_t *count);

/* ---- tosses: 64 random bits for each event ---- */

typedef struct bracha_toss { void *hidden; } bracha_toss;

/* Opens a stream of tosses: ChaCha20 of a secret seed of 32 bytes. Never use a stream twice with
 * one seed: whoever saw the first use knows the coins of the second. `bracha run` takes as the
 * stream 256 times the number of records in the journal when the member was opened, plus the number
 * of the link's peer (128 and more for clients).
 *
 * Returns BRACHA_OK, and only then writes `*toss`; or BRACHA_MEMORY. */
int32_t bracha_toss_open(bracha_toss *toss, const uint8_t seed[32], uint64_t stream);

/* Returns the next toss of the stream. */
uint64_t bracha_toss_next(bracha_toss *toss);

/* Closes a stream of tosses and frees its memory. */
void bracha_toss_close(bracha_toss toss);

/* ---- the journal, as bytes for a disk of your own ---- */

/* A file with these bytes is a journal of `bracha` (docs/FORMATS.md): `bracha dump` prints it. A
 * record has 6 bytes in the file, and 7 here.
 *
 *   new     write the 25 bytes of bracha_batch_head at 0 of an empty file, sync the file, sync its
 *           folder. The journal's end E is 24
 *   append  write the bytes of bracha_batch_encode at E, sync; write the single byte 1 at E, sync.
 *           E grows by `*written` - 1. Now the batch is saved. After a crash in between, the whole
 *           batch is there or nothing of it
 *   open    sync the file, since a member that was killed may have left a batch that no sync had
 *           reached; then read the whole file: bracha_batch_read gives the records and E
 *
 * After a write or a sync that failed, stop: send nothing of the batch, and don't append again.
 * After a failed sync, don't open the file before the machine was restarted: Linux may show bytes
 * that never reached the disk. One process at a time has the journal. */
#define BRACHA_JOURNAL_HEAD 25u
#define BRACHA_BATCH_BYTES(records) (4u + 6u * (records))
#define BRACHA_MOST_BATCH 65535u /* the most records of one batch */

/* Writes what a new journal begins with: 24 bytes of header and the closed gate byte 0.
 *
 * Returns BRACHA_OK, a refusal of the size, or BRACHA_NO_SUCH_MEMBER. `head` is written only with
 * BRACHA_OK. */
int32_t bracha_batch_head(uint64_t cluster, uint8_t n, uint8_t t, uint16_t questions, uint8_t me,
                          uint8_t head[BRACHA_JOURNAL_HEAD]);

/* Writes the bytes of a batch to the front of `bytes`, which has `room` bytes, and their number,
 * BRACHA_BATCH_BYTES(len / 7), to `*written`. Their first byte is a closed gate: the second write
 * of an append opens it.
 *
 * Returns BRACHA_OK; BRACHA_BAD_RECORDS if these aren't 1 to 65,535 whole records; BRACHA_NO_ROOM,
 * with the room that is needed in `*written`; or BRACHA_MEMORY. */
int32_t bracha_batch_encode(const uint8_t *records, size_t len, uint8_t *bytes, size_t room,
                            size_t *written);

/* Reads the `len` bytes of a journal's file. Writes its records, 7 bytes each, to `records`, which
 * has `room` bytes, the number of these bytes to `*written`, and to `*end` the position E of the next
 * batch. `len` / 6 * 7 bytes of room are always enough.
 *
 * Returns
 *   BRACHA_OK
 *   BRACHA_NO_ROOM  the file is a journal: `*end` is written, and `*written` is the room that is
 *                   needed
 *   BRACHA_BAD_HEADER to BRACHA_OLD_VERSION
 *                   it is no journal of this member, by the first error in it (docs/FORMATS.md).
 *                   Never start a new journal in its place. `*written` is 0
 *   a refusal of the size, BRACHA_NO_SUCH_MEMBER, BRACHA_MEMORY */
int32_t bracha_batch_read(uint64_t cluster, uint8_t n, uint8_t t, uint16_t questions, uint8_t me,
                          const uint8_t *file, size_t len, uint8_t *records, size_t room,
                          size_t *written, size_t *end);

#ifdef __cplusplus
}
#endif
#endif
