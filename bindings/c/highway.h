/* The proved core of a Highway validator, for C. Link libhw_c.a and then liblibc_c.a, which is in the kit's c/.
 *
 * Ownership. A caller owns an hw_core, {0} at first. hw_core_new fills an empty one, hw_core_free empties it. A call
 * with an empty one answers HW_EMPTY. It is never copied while it is full. Bytes that go in are read during the call
 * alone. Bytes that come out go into the caller's buffer.
 * Buffers. A call that writes bytes writes as many as fit into buf[0..room], and says the length of all of them: where
 * that is more than room, call again with more room. Pointers are never NULL, not even for 0 bytes, and what they
 * point to doesn't overlap. After an error what they point to is as it was; but an hw_answer has the details of
 * the error.
 * Threads. A handle may go to another thread. One call at a time uses it, also of those that only read: a second one
 * is answered HW_BUSY and changes nothing. Two handles are two: calls of them may overlap.
 * Signals, fork. No call is made from a signal handler, nor from the forked child of a process with threads.
 * A bool is 0 or 1. */
#ifndef HIGHWAY_H
#define HIGHWAY_H
#include <stdbool.h>
#include <stddef.h>
#include <stdint.h>
#ifdef __cplusplus
extern "C" {
#endif

/* The version of this header: of 1.2.3 the number 0x010203. hw_version() says that of the library. */
#define HW_VERSION 0x000200

/* A place for a node: null while there is none, and no address while a call uses it. */
typedef struct { void *at; } hw_core;

/* What each call answers. */
enum {
  HW_OK = 0,
  HW_OUT_OF_MEMORY = 1,         /* nothing has changed */
  HW_NONE = 2,                  /* there is none */
  HW_OUT_OF_RANGE = 3,          /* a number is outside its range */
  HW_EMPTY = 4,                 /* the handle holds no node */
  HW_FULL = 5,                  /* the handle holds a node already */
  HW_TOO_LONG = 6,              /* longer than its format or its journal allows */
  HW_OTHER_INSTANCE = 7,        /* the two nodes are of different configurations */
  HW_BUSY = 8,                  /* another call uses the handle now; nothing has changed */
  HW_BAD_BYTES = 0x100,         /* + 0 truncated, 1 trailing, 2 bad tag, 3 too long, 4 out of range; at is the place */
  HW_BAD_CONFIG = 0x200,        /* + 1 .. 9, the limit that is broken; at is the validator without weight */
  HW_BAD_SIGNATURE = 0x300,     /* the verdict was no */
  HW_BAD_PAIR = 0x310,          /* + 0 creator, 1 sequence, 2 instance, 3 same */
  HW_CLASH = 0x320,             /* digest is that of another unit */
  HW_RECORDS_FULL = 0x321,      /* the journal is as long as it may be */
  HW_PARK_FULL = 0x322,         /* as many units wait as may */
  HW_LOCAL_RULE = 0x400,        /* + 1 .. 19, the rule that is broken */
  HW_BAD_CERTIFICATE = 0x500,   /* + 0 magic, 1 version, 2 torn, 3 too long, 4 trailing; at is the place */
  HW_BAD_CERTIFIED_CONFIG = 0x510, /* + as HW_BAD_BYTES; at is the place in the configuration */
  HW_BAD_CERTIFIED_VERTEX = 0x520  /* + as HW_BAD_BYTES; at is the place of the vertex */
};

/* The details of a status; what it doesn't need is 0. Of a delivery the kind says what became of the vertex: 0
 * count units settled, 1 it waits for count needs, 2 it breaks the rule of the number count, 3 it was there already. */
typedef struct { uint32_t kind, count; uint64_t at; uint8_t digest[32]; } hw_answer;

/* Where a vertex is in the bytes that are handed over with it, and the verdict on its signatures: 0 no, 1 yes. */
typedef struct { uint64_t start, length; uint32_t verdict; } hw_sent;

/* What the delivery of a vertex was answered. */
typedef struct { uint32_t status; hw_answer answer; } hw_delivered;

/* A configuration without its lists. Leaders are drawn by the key where is_drawn is 1, else told by a table. The
 * height of the last block is end where has_end is 1. */
typedef struct {
  uint64_t ftt, end;
  uint32_t max_records, max_parked;
  uint8_t levels, min_exponent, max_exponent, is_drawn, has_end, key[32];
} hw_settings;

/* Who signed a vertex: 0 a unit, by its creator; 1 evidence, by the units' creator; 2 an endorsement of a unit. */
typedef struct { uint32_t validator; uint8_t unit[32], signature[32]; } hw_signer;
typedef struct { uint32_t kind; hw_signer first, second; } hw_signatures;

typedef struct {
  uint64_t journal, decided, faulty_weight;
  uint32_t settled, parked, dropped, exceeded, has_fork;
  uint8_t fork[32];
} hw_summary_of;

/* 0 nothing is known of the validator, 1 this is its latest unit, 2 it equivocated. */
typedef struct { uint32_t kind; uint8_t unit[32]; } hw_observed;

/* 0 unknown, 1 settled under this number, 2 parked for so many needs, 3 dropped for the rule of this number. */
typedef struct { uint32_t kind, number; } hw_placed;

typedef struct { uint8_t block[32]; uint64_t height, quorum, at; uint32_t level; } hw_decided;

/* 0 the unit has to settle, 1 the validator has to be known as faulty, 2 the unit has to be endorsed. */
typedef struct { uint32_t kind, validator; uint8_t digest[32]; } hw_need;

/* 0 a proposal, 1 a confirmation, 2 a witness; how many bytes its unit has; and what its creator signs. */
typedef struct { uint32_t kind; uint64_t length; uint8_t digest[32]; } hw_planned;

/* What a validator has to make: 0 a proposal, 1 a confirmation, 2 a witness, 3 nothing. Why nothing: 1 the validator is
 * faulty, 2 its last unit allows none now, 3 the last block of the instance is reached, 4 the leader's block isn't
 * there, 5 there is nothing to cite. The round of the moment and its leader; the block that a proposal stands on; and
 * the moment until which nothing else becomes due while the journal stays as it is: the witness time or the end of the
 * round, or before that the first later time of a settled unit where that may count. */
typedef struct {
  uint32_t kind, why, leader, has_parent;
  uint64_t round, next;
  uint8_t parent[32];
} hw_due_now;

/* 0 they agree on height blocks; 1 they decided left and right at this height, and the culprits weigh so much; 2 two
 * units clash. The text has length bytes. */
typedef struct { uint32_t kind; uint64_t length, height, culprits, weight; uint8_t left[32], right[32]; } hw_audited;

/* 0 yes; no, since 1 the configuration breaks a limit, 2 the vertex of this number is refused, 3 the faulty weigh so
 * much, 4 the block doesn't stand. The status is that of 1 and 2. After a yes the block has this height and a value of
 * length bytes. Instance and total (the weight of all validators; 0 with 1) are the certificate's own. */
typedef struct {
  uint32_t kind, status, number;
  uint64_t weight, height, length, total;
  uint8_t block[32], instance[32];
} hw_judged;

/* What a unit says: its creator, its number, when it was made and when its round begins, in milliseconds, and who leads
 * that round. It is a block where is_block is 1, with a value of length bytes. Its list names endorsed units. The place
 * says what became of it: 0 the node wasn't asked, 1 settled, 2 parked, 3 dropped. A settled unit has a vote: itself
 * where it is a block. A settled block has a height, and a parent unless it is at the root. */
typedef struct {
  uint32_t creator, exponent, leader, place, is_block, has_parent, has_vote, endorsed;
  uint64_t seq, time, round, height, length;
  uint8_t digest[32], parent[32], vote[32];
} hw_unit_facts;

/* The version that the library was built with: HW_VERSION of its own header. */
uint32_t hw_version(void);

/* The SHA-256 digest of the bytes. */
uint32_t hw_sha256(const uint8_t *bytes, size_t bytes_len, uint8_t digest[32]);

/* ---- configurations and nodes */

/* Spells a configuration as bytes. Validator v has weights[v]. Where settings->is_drawn is 0 the table says who leads
 * which round. HW_BAD_CONFIG where it breaks a limit, HW_TOO_LONG with more than 1,024 weights or 4,096 entries. */
uint32_t hw_config(const hw_settings *settings, const uint64_t *weights, size_t validators, const uint32_t *table,
                   size_t entries, uint8_t *buf, size_t room, size_t *len, hw_answer *answer);

/* Fills an empty handle with a node that has received nothing. HW_BAD_BYTES where the bytes spell no configuration,
 * HW_BAD_CONFIG where it breaks a limit, HW_FULL where the handle holds a node already. */
uint32_t hw_core_new(const uint8_t *config, size_t config_len, hw_answer *answer, hw_core *core);

/* Frees the node. The handle is empty then, so a second call is answered HW_EMPTY. */
uint32_t hw_core_free(hw_core *core);

/* ---- deliveries */

/* Who signed the vertex, and which units: the host judges these signatures, and delivers the vertex with its verdict.
 * HW_BAD_BYTES where the bytes spell no vertex. */
uint32_t hw_signed(const uint8_t *vertex, size_t vertex_len, hw_signatures *signatures, hw_answer *answer);

/* Delivers the vertices in order, and answers each in delivered; what lies between them doesn't count. Those that are
 * units are hashed four side by side, so several in one call cost less than each in one of its own. A vertex that is
 * refused changes nothing, and those behind it are delivered; one that lies outside the bytes, or whose verdict is
 * neither 0 nor 1, is answered HW_OUT_OF_RANGE. The call itself is answered HW_OUT_OF_RANGE, and nothing is
 * delivered, where answers isn't count. */
uint32_t hw_deliver(hw_core *core, const uint8_t *bytes, size_t bytes_len, const hw_sent *vertices, size_t count,
                    hw_delivered *delivered, size_t answers);

/* ---- what a node has */

/* The journal's entry of that place, counted from 0, as the bytes of its vertex: the accepted vertices in their
 * order. HW_NONE where the journal is shorter. */
uint32_t hw_journal(hw_core *core, uint64_t place, uint8_t *buf, size_t room, size_t *len);

/* Counts of the node, the weight of its faulty validators, and its fork choice. Where exceeded is 1 the faulty weigh
 * more than the threshold, and final blocks promise nothing. */
uint32_t hw_summary(hw_core *core, hw_summary_of *summary);

/* What the node observes of the validator. HW_OUT_OF_RANGE where there is no such validator. */
uint32_t hw_observation(hw_core *core, uint32_t validator, hw_observed *observed);

/* The faulty validators in rising order, as many as there is room for; count says how many there are. Evidence
 * against one of them is had by hw_for_need with a need of kind 1, as soon as it is in this list. */
uint32_t hw_faulty(hw_core *core, uint32_t *list, size_t room, size_t *count);

/* What became of the unit of this digest. */
uint32_t hw_place(hw_core *core, const uint8_t unit[32], hw_placed *placed);

/* What the journal's unit of this digest is, whatever became of it. Its value goes into buf, and what it observes of
 * each validator into list, as far as there are places. HW_NONE where the journal has no such unit. */
uint32_t hw_unit(hw_core *core, const uint8_t unit[32], hw_unit_facts *facts, hw_observed *list, size_t places,
                 uint8_t *buf, size_t room);

/* What the unit of this vertex says, whether or not the node has it: no place, parent, vote or height. HW_NONE where
 * the vertex is no unit, HW_BAD_BYTES where the bytes spell no vertex. */
uint32_t hw_spelled_unit(hw_core *core, const uint8_t *vertex, size_t vertex_len, hw_unit_facts *facts,
                         hw_observed *list, size_t places, uint8_t *buf, size_t room);

/* The final block of that place, counted from 0: blocks become final in the order of their heights. Its value is had
 * by hw_unit. HW_NONE where fewer blocks are final. */
uint32_t hw_decision(hw_core *core, uint64_t index, hw_decided *decided);

/* ---- what peers are asked for, and what they are given */

/* The first needs that parked units miss, as many as there is room for; count says how many these are. 64 are enough
 * at a time. */
uint32_t hw_unmet(hw_core *core, hw_need *list, size_t room, size_t *count);

/* The vertex of that place, counted from 0, among those that the node has for the need: the unit, evidence against
 * the validator, or the endorsements of the unit. HW_NONE where it has fewer, HW_OUT_OF_RANGE where the kind is none. */
uint32_t hw_for_need(hw_core *core, const hw_need *need, size_t place, uint8_t *buf, size_t room, size_t *len);

/* ---- a validator's own units and endorsements */

/* What the validator has to make at this moment, in milliseconds: so no value is needed to ask, and a timer that is set
 * to due->next replaces polling. Ask again then, and after each delivery. HW_OUT_OF_RANGE where there is no such
 * validator, or the moment is 2^63 or later. */
uint32_t hw_due(hw_core *core, uint32_t validator, uint64_t now, hw_due_now *due);

/* The unit that the validator may make at this moment, in milliseconds, as bytes without a signature, with this value
 * where it is a proposal. HW_NONE where there is none, HW_OUT_OF_RANGE where there is no such validator, the moment
 * is 2^63 or later, or the value has more than 4,096 bytes. The node stays as it is. */
uint32_t hw_next_unit(hw_core *core, uint32_t validator, uint64_t now, const uint8_t *value, size_t value_len,
                      hw_planned *planned, uint8_t *buf, size_t room);

/* The vertex of a unit with its creator's signature. HW_BAD_BYTES where the bytes spell no unit. */
uint32_t hw_with_signature(const uint8_t *unit, size_t unit_len, const uint8_t signature[32], uint8_t *buf,
                           size_t room, size_t *len, hw_answer *answer);

/* The vertex of the validator's endorsement of the unit of this digest. The validator signs the digest, by a scheme
 * that tells an endorsement from a unit. */
uint32_t hw_endorsement(uint32_t endorser, const uint8_t unit[32], const uint8_t signature[32], uint8_t *buf,
                        size_t room, size_t *len);

/* ---- two nodes, and certificates */

/* What the journals of two nodes say of each other, and that as the text that the program prints. The handles are
 * two. HW_OTHER_INSTANCE where the configurations differ. */
uint32_t hw_audit(hw_core *left, hw_core *right, hw_audited *audited, uint8_t *buf, size_t room);

/* The certificate of the final block of that place. HW_OUT_OF_RANGE where fewer blocks are final, HW_NONE where the
 * block doesn't stand now, HW_TOO_LONG where it would have more vertices than a journal may have. */
uint32_t hw_certificate(hw_core *core, uint64_t index, uint8_t *buf, size_t room, size_t *len);

/* Who signed each vertex of the certificate, and which units, as many as there is room for; count says how many
 * vertices it has. HW_BAD_CERTIFICATE, HW_BAD_CERTIFIED_CONFIG or HW_BAD_CERTIFIED_VERTEX where the bytes are none. */
uint32_t hw_certified(const uint8_t *certificate, size_t certificate_len, hw_signatures *list, size_t room,
                      size_t *count, hw_answer *answer);

/* What the certificate shows with these verdicts on its vertices, 0 no and 1 yes, one for each. After a yes the
 * block's value goes into buf. Whoever knows which network he means compares the instance with that network's:
 * anybody can make a certificate of a configuration of his own. HW_OUT_OF_RANGE where there are more or less verdicts
 * than vertices, or one is another number. */
uint32_t hw_check(const uint8_t *certificate, size_t certificate_len, const uint32_t *verdicts, size_t count,
                  hw_judged *judged, uint8_t *buf, size_t room, hw_answer *answer);

/* ---- one call at a time
 *
 * While a call uses a handle, the node is the call's and the handle's word is the mark below. A second call finds the
 * mark, and answers HW_BUSY. It doesn't wait: its caller asks again. From here on each name is that of the call with
 * this exchange; the library's own calls, which other languages make, are without it. */
#define HW_IN_A_CALL ((void *)1)

static inline void *hw_taken(hw_core *core) { return __atomic_exchange_n(&core->at, HW_IN_A_CALL, __ATOMIC_SEQ_CST); }
static inline void hw_put_back(hw_core *core, void *at) { __atomic_store_n(&core->at, at, __ATOMIC_SEQ_CST); }

#define HW_ALONE(name, parameters, words) \
  static inline uint32_t name##_alone parameters { \
    hw_core own = {hw_taken(core)}; \
    uint32_t status; \
    if (own.at == HW_IN_A_CALL) return HW_BUSY; \
    status = name words; \
    hw_put_back(core, own.at); \
    return status; \
  }

HW_ALONE(hw_core_new, (const uint8_t *config, size_t config_len, hw_answer *answer, hw_core *core),
         (config, config_len, answer, &own))
HW_ALONE(hw_core_free, (hw_core *core), (&own))
HW_ALONE(hw_deliver, (hw_core *core, const uint8_t *bytes, size_t bytes_len, const hw_sent *vertices, size_t count,
                      hw_delivered *delivered, size_t answers),
         (&own, bytes, bytes_len, vertices, count, delivered, answers))
HW_ALONE(hw_journal, (hw_core *core, uint64_t place, uint8_t *buf, size_t room, size_t *len),
         (&own, place, buf, room, len))
HW_ALONE(hw_summary, (hw_core *core, hw_summary_of *summary), (&own, summary))
HW_ALONE(hw_observation, (hw_core *core, uint32_t validator, hw_observed *observed), (&own, validator, observed))
HW_ALONE(hw_faulty, (hw_core *core, uint32_t *list, size_t room, size_t *count), (&own, list, room, count))
HW_ALONE(hw_place, (hw_core *core, const uint8_t unit[32], hw_placed *placed), (&own, unit, placed))
HW_ALONE(hw_unit, (hw_core *core, const uint8_t unit[32], hw_unit_facts *facts, hw_observed *list, size_t places,
                   uint8_t *buf, size_t room), (&own, unit, facts, list, places, buf, room))
HW_ALONE(hw_spelled_unit, (hw_core *core, const uint8_t *vertex, size_t vertex_len, hw_unit_facts *facts,
                           hw_observed *list, size_t places, uint8_t *buf, size_t room),
         (&own, vertex, vertex_len, facts, list, places, buf, room))
HW_ALONE(hw_decision, (hw_core *core, uint64_t index, hw_decided *decided), (&own, index, decided))
HW_ALONE(hw_unmet, (hw_core *core, hw_need *list, size_t room, size_t *count), (&own, list, room, count))
HW_ALONE(hw_for_need, (hw_core *core, const hw_need *need, size_t place, uint8_t *buf, size_t room, size_t *len),
         (&own, need, place, buf, room, len))
HW_ALONE(hw_due, (hw_core *core, uint32_t validator, uint64_t now, hw_due_now *due), (&own, validator, now, due))
HW_ALONE(hw_next_unit, (hw_core *core, uint32_t validator, uint64_t now, const uint8_t *value, size_t value_len,
                        hw_planned *planned, uint8_t *buf, size_t room),
         (&own, validator, now, value, value_len, planned, buf, room))
HW_ALONE(hw_certificate, (hw_core *core, uint64_t index, uint8_t *buf, size_t room, size_t *len),
         (&own, index, buf, room, len))
HW_ALONE(hw_audit, (hw_core *left, hw_core *core, hw_audited *audited, uint8_t *buf, size_t room),
         (left, &own, audited, buf, room))
static inline uint32_t hw_audit_both(hw_core *core, hw_core *right, hw_audited *audited, uint8_t *buf, size_t room) {
  hw_core own = {hw_taken(core)};
  uint32_t status;
  if (own.at == HW_IN_A_CALL) return HW_BUSY;
  status = hw_audit_alone(&own, right, audited, buf, room);
  hw_put_back(core, own.at);
  return status;
}

#define hw_core_new hw_core_new_alone
#define hw_core_free hw_core_free_alone
#define hw_deliver hw_deliver_alone
#define hw_journal hw_journal_alone
#define hw_summary hw_summary_alone
#define hw_observation hw_observation_alone
#define hw_faulty hw_faulty_alone
#define hw_place hw_place_alone
#define hw_unit hw_unit_alone
#define hw_spelled_unit hw_spelled_unit_alone
#define hw_decision hw_decision_alone
#define hw_unmet hw_unmet_alone
#define hw_for_need hw_for_need_alone
#define hw_due hw_due_alone
#define hw_next_unit hw_next_unit_alone
#define hw_certificate hw_certificate_alone
#define hw_audit hw_audit_both

/* Delivers the one vertex that the bytes are, and answers its status, or HW_EMPTY. */
static inline uint32_t hw_deliver_one(hw_core *core, const uint8_t *vertex, size_t vertex_len, bool verdict,
                                      hw_answer *answer) {
  hw_sent sent = {0, vertex_len, verdict};
  hw_delivered delivered;
  uint32_t status = hw_deliver(core, vertex, vertex_len, &sent, 1, &delivered, 1);
  if (status != HW_OK) return status;
  *answer = delivered.answer;
  return delivered.status;
}

#ifdef __cplusplus
}
#endif
#endif
