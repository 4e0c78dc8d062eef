/** @file
  A rail that is locked while the variable "RailLock" holds 0, and that is to be non-volatile. An absent
  "RailLock" locks nothing, so the bring-up script can turn the rail down to 1.8 V; once "RailLock" holds
  0, nobody turns it up again. The report of a refused set tells why. "RailLock" can be written once, so
  that the rail is then not only locked but settled. This is C and C++.

  SPDX-License-Identifier: BSD-2-Clause-Patent
**/
#include <assert.h>
#include <stdio.h>
#include <string.h>

#include "varpolicy.h"

static_assert(sizeof(varpolicy_switches) == 4, "layout of the switches");
static_assert(sizeof(varpolicy_started) == 8, "layout of a start's answer");
static_assert(sizeof(varpolicy_dumped) == 16, "layout of a dump's answer");
static_assert(sizeof(varpolicy_state) == 8, "layout of a query's answer");
static_assert(sizeof(varpolicy_found) == 32, "layout of a read's answer");
static_assert(sizeof(varpolicy_settled_answer) == 8, "layout of the answer to whether a variable is settled");
static_assert(sizeof(varpolicy_report) == 24, "layout of a set's report");
static_assert(sizeof(varpolicy_written) == 28, "layout of a set's answer");

static const uint8_t Board[VARPOLICY_NAMESPACE_BYTES] = {0x5C, 0x67, 0xD1, 0x81, 0xF6, 0x86, 0xDF, 0x48,
                                                         0xBD, 0x95, 0x9A, 0x6E, 0x4F, 0x09, 0x25, 0xC3};

/* The units of the two names, little-endian, without a closing zero. */
static const uint8_t Rail[]     = {'R', 0, 'a', 0, 'i', 0, 'l', 0};
static const uint8_t RailLock[] = {'R', 0, 'a', 0, 'i', 0, 'l', 0, 'L', 0, 'o', 0, 'c', 0, 'k', 0};

/* What the engine is lent. */
static uint8_t            NonVolatile[256];
static uint8_t            Volatile[256];
static uint8_t            Policy[VARPOLICY_POLICY_BYTES];
static varpolicy_switches Switches;

/* Writes a name and a zero unit at *at, and moves *at behind them. */
static void put_name(uint8_t *entry, size_t *at, const uint8_t *name, size_t length) {
  memcpy(entry + *at, name, length);
  memset(entry + *at + length, 0, 2);
  *at += length + 2;
}

/* Begins an entry of a lock type, with any size and attributes. */
static void begin_entry(uint8_t entry[VARPOLICY_MAX_ENTRY_SIZE], uint8_t lock_type) {
  memset(entry, 0, VARPOLICY_MAX_ENTRY_SIZE);
  entry[2] = 1;                           /* Version 0x00010000 */
  memcpy(entry + 8, Board, sizeof Board); /* Namespace */
  memset(entry + 28, 0xFF, 4);            /* MaxSize */
  entry[40] = lock_type;                  /* LockPolicyType */
}

/* Ends an entry with its name at `at`, and answers its length. */
static size_t end_entry(uint8_t *entry, size_t at, const uint8_t *name, size_t length) {
  entry[6] = (uint8_t)at; /* OffsetToName */
  put_name(entry, &at, name, length);
  entry[4] = (uint8_t)at; /* Size */
  return at;
}

/* Packs an entry of type 3: "Rail" requires NV and is locked while "RailLock" holds 0. Answers its length. */
static size_t pack_rail(uint8_t entry[VARPOLICY_MAX_ENTRY_SIZE]) {
  size_t at = VARPOLICY_MIN_ENTRY_SIZE;

  begin_entry(entry, VARPOLICY_TYPE_LOCK_ON_VAR_STATE);
  entry[32] = VARPOLICY_ATTRIBUTE_NV;      /* AttributesMustHave */
  memcpy(entry + at, Board, sizeof Board); /* the trigger's Namespace; its Value is 0 */
  at += sizeof Board + 2;
  put_name(entry, &at, RailLock, sizeof RailLock);
  return end_entry(entry, at, Rail, sizeof Rail);
}

/* Packs an entry of type 2: "RailLock" is locked once it exists. Answers its length. */
static size_t pack_rail_lock(uint8_t entry[VARPOLICY_MAX_ENTRY_SIZE]) {
  begin_entry(entry, VARPOLICY_TYPE_LOCK_ON_CREATE);
  return end_entry(entry, VARPOLICY_MIN_ENTRY_SIZE, RailLock, sizeof RailLock);
}

/* Powers the engine on, registers both entries and locks it. */
static bool start(void) {
  uint8_t           entry[VARPOLICY_MAX_ENTRY_SIZE];
  size_t            size    = pack_rail(entry);
  varpolicy_started started = varpolicy_power_on(NonVolatile, sizeof NonVolatile, Volatile, sizeof Volatile, Policy,
                                                 sizeof Policy, 0);

  Switches = started.switches;
  if (started.status != VARPOLICY_SUCCESS ||
      varpolicy_register(Policy, sizeof Policy, Switches, entry, size) != VARPOLICY_SUCCESS) {
    return false;
  }
  size = pack_rail_lock(entry);
  return varpolicy_register(Policy, sizeof Policy, Switches, entry, size) == VARPOLICY_SUCCESS &&
         varpolicy_lock(&Switches) == VARPOLICY_SUCCESS;
}

static varpolicy_written set(const uint8_t *name, size_t name_len, uint32_t attributes, const char *payload,
                             size_t length) {
  return varpolicy_set(NonVolatile, sizeof NonVolatile, Volatile, sizeof Volatile, Policy, sizeof Policy, Switches,
                       Board, name, name_len, attributes, (const uint8_t *)payload, length);
}

/* Tells the ground on which an entry refused a set, the entry and, of attributes, the bits. */
static void tell(const varpolicy_report *report) {
  static const char *const Grounds[] = {"none", "size", "attributes", "lock"};

  if (report->ground == VARPOLICY_GROUND_NONE) {
    return;
  }
  printf(", ground %s, entry %u, rank %u", Grounds[report->ground], (unsigned)report->place, (unsigned)report->rank);
  if (report->ground == VARPOLICY_GROUND_ATTRIBUTES) {
    printf(", %u missing, %u prohibited, the lowest is bit %u", (unsigned)report->missing,
           (unsigned)report->prohibited, (unsigned)report->lowest_bit);
  }
}

/* Sets the rail and tells the status, with the report. */
static uint32_t set_rail(const char *volts, uint32_t attributes) {
  varpolicy_written written = set(Rail, sizeof Rail, attributes, volts, strlen(volts));

  printf("set the rail to %s: status %u", volts, (unsigned)written.status);
  tell(&written.report);
  puts("");
  return written.status;
}

/* Tells whether the rail is settled: with the engine enabled and locked, a yes lasts until the next start. */
static bool rail_is_settled(void) {
  varpolicy_settled_answer state = varpolicy_settled(NonVolatile, sizeof NonVolatile, Volatile, sizeof Volatile, Policy,
                                                 sizeof Policy, Board, Rail, sizeof Rail);

  printf("is the rail settled: status %u, %s\n", (unsigned)state.status, state.settled ? "yes" : "no");
  return state.settled;
}

int main(void) {
  const uint32_t  kept = VARPOLICY_ATTRIBUTE_NV | VARPOLICY_ATTRIBUTE_BS;
  varpolicy_found found;

  memset(NonVolatile, 0xFF, sizeof NonVolatile);
  if (!start() || rail_is_settled()) {
    return 1;
  }
  if (set_rail("3.3 V", kept) != VARPOLICY_SUCCESS || set_rail("1.8 V", kept) != VARPOLICY_SUCCESS) {
    return 1;
  }
  if (set_rail("1.2 V", VARPOLICY_ATTRIBUTE_BS) != VARPOLICY_INVALID_PARAMETER) {
    return 1;
  }
  if (set(RailLock, sizeof RailLock, VARPOLICY_ATTRIBUTE_BS, "\0", 1).status != VARPOLICY_SUCCESS) {
    return 1;
  }
  puts("RailLock holds 0");
  if (!rail_is_settled() || set_rail("3.3 V", kept) != VARPOLICY_WRITE_PROTECTED) {
    return 1;
  }
  found = varpolicy_read(NonVolatile, sizeof NonVolatile, Volatile, sizeof Volatile, Switches, Board, Rail,
                         sizeof Rail);
  if (found.status != VARPOLICY_SUCCESS || !found.non_volatile) {
    return 1;
  }
  printf("the rail is at %.*s\n", (int)found.length, (const char *)NonVolatile + found.offset);
  return 0;
}
