/* Three validators in one process, which hear each other at once: each makes its units, signs them, keeps them,
 * delivers them and sends them. It shows the calls that a host needs; a real one has a disk, a network and a scheme of
 * signatures in the place of what stands here. */
#include "highway.h"
#include <stdio.h>
#include <string.h>

enum { VALIDATORS = 3, MOMENTS = 160, LONGEST = 16384 };

/* A stand-in for a signature: the digest of a secret and what is signed. */
static void sign(uint32_t validator, const uint8_t digest[32], uint8_t signature[32]) {
  uint8_t said[36] = {0x5e, 0xc4, 0xe7, (uint8_t)validator};
  memcpy(said + 4, digest, 32);
  hw_sha256(said, sizeof said, signature);
}

/* Whether each signature of the vertex is right. Bytes that are no vertex have none. */
static bool verdict_on(const uint8_t *vertex, size_t length) {
  hw_signatures signatures;
  hw_answer answer;
  uint8_t right[32];
  if (hw_signed(vertex, length, &signatures, &answer) != HW_OK) return false;
  const hw_signer *signers[] = {&signatures.first, &signatures.second};
  for (int k = 0; k < (signatures.kind == 1 ? 2 : 1); k++) {
    sign(signers[k]->validator, signers[k]->unit, right);
    if (memcmp(right, signers[k]->signature, 32)) return false;
  }
  return true;
}

/* Writes the vertex of the unit that the validator may make now, and returns its length, or 0 where there is none. */
static size_t own_vertex(hw_core *core, uint32_t me, uint64_t now, uint8_t vertex[LONGEST]) {
  uint8_t unit[LONGEST], signature[32];
  hw_planned planned;
  hw_answer answer;
  char value[32];
  size_t length = 0;
  int count = snprintf(value, sizeof value, "block of %u", (unsigned)now);
  if (hw_next_unit(core, me, now, (uint8_t *)value, (size_t)count, &planned, unit, sizeof unit) != HW_OK) return 0;
  if (planned.length > sizeof unit) return 0;
  sign(me, planned.digest, signature);
  if (hw_with_signature(unit, planned.length, signature, vertex, LONGEST, &length, &answer) != HW_OK) return 0;
  return length <= LONGEST ? length : 0;
}

/* Prints the last final block with its value, and returns how many there are. */
static uint64_t last_block(hw_core *core) {
  hw_summary_of summary;
  hw_decided decided;
  hw_unit_facts facts;
  hw_observed panorama[VALIDATORS];
  uint8_t value[4096];
  if (hw_summary(core, &summary) != HW_OK || summary.decided == 0) return 0;
  if (hw_decision(core, summary.decided - 1, &decided) != HW_OK) return 0;
  if (hw_unit(core, decided.block, &facts, panorama, VALIDATORS, value, sizeof value) != HW_OK) return 0;
  printf("height %u: %.*s, by validator %u\n", (unsigned)decided.height, (int)facts.length, (char *)value,
         facts.creator);
  return summary.decided;
}

int main(void) {
  const hw_settings settings = {.max_records = 4096, .max_parked = 64, .levels = 1, .min_exponent = 4,
                                .max_exponent = 4};
  const uint64_t weights[VALIDATORS] = {1, 1, 1};
  const uint32_t leaders[VALIDATORS] = {0, 1, 2};
  uint8_t config[256], vertex[LONGEST];
  size_t config_len;
  hw_core cores[VALIDATORS] = {{0}};
  hw_answer answer;
  if (HW_VERSION != hw_version()) return puts("the header and the library differ"), 1;
  if (hw_config(&settings, weights, VALIDATORS, leaders, VALIDATORS, config, sizeof config, &config_len, &answer))
    return 1;
  for (uint32_t me = 0; me < VALIDATORS; me++)
    if (hw_core_new(config, config_len, &answer, &cores[me]) != HW_OK) return 1;
  for (uint64_t now = 0; now < MOMENTS; now++)
    for (uint32_t me = 0; me < VALIDATORS; me++) {
      size_t length = own_vertex(&cores[me], me, now, vertex);
      /* Here a real host stores the vertex and syncs its disk, before it delivers and sends it. */
      for (uint32_t to = 0; length && to < VALIDATORS; to++)
        if (hw_deliver_one(&cores[to], vertex, length, verdict_on(vertex, length), &answer) != HW_OK) return 1;
    }
  uint64_t blocks = last_block(&cores[0]);
  for (uint32_t me = 0; me < VALIDATORS; me++) hw_core_free(&cores[me]);
  printf("%u blocks are final\n", (unsigned)blocks);
  return blocks > 5 ? 0 : 1;
}
