/** @file
  Two entries that quarrel: "Boot00##" and "Boot##01" have the same rank, and both target Boot0001, so that
  the order in which they were registered tells which of them speaks for it. A digit in the place of a
  '#' settles it. This is C and C++.

  SPDX-License-Identifier: BSD-2-Clause-Patent
**/
#include <assert.h>
#include <stdio.h>
#include <string.h>

#include "varpolicy.h"

static_assert(sizeof(varpolicy_quarrel) == 24, "layout of the answer");

static const uint8_t Boot[VARPOLICY_NAMESPACE_BYTES] = {0x61, 0xDF, 0xE4, 0x8B, 0xCA, 0x93, 0xD2, 0x11,
                                                        0xAA, 0x0D, 0x00, 0xE0, 0x98, 0x03, 0x2B, 0x8C};

/* What the engine is lent: no store is needed to register entries. */
static uint8_t            Store[1];
static uint8_t            Policy[VARPOLICY_POLICY_BYTES];
static varpolicy_switches Switches;

/* Packs an entry of type 0 for the variables of this name, which is ASCII, and answers its length. */
static size_t pack_entry(uint8_t entry[VARPOLICY_MAX_ENTRY_SIZE], const char *name) {
  size_t at = 44;

  memset(entry, 0, VARPOLICY_MAX_ENTRY_SIZE);
  entry[2] = 1;                         /* Version 0x00010000 */
  entry[6] = (uint8_t)at;               /* OffsetToName */
  memcpy(entry + 8, Boot, sizeof Boot); /* Namespace */
  memset(entry + 28, 0xFF, 4);          /* MaxSize */
  for (; *name != 0; name++, at += 2) {
    entry[at] = (uint8_t)*name;
  }
  at += 2;
  entry[4] = (uint8_t)at; /* Size */
  return at;
}

/* Starts an engine anew and registers an entry for each of the two names. */
static bool start(const char *one, const char *other) {
  uint8_t           entry[VARPOLICY_MAX_ENTRY_SIZE];
  varpolicy_started started = varpolicy_power_on(Store, 0, Store, 0, Policy, sizeof Policy, 0);
  size_t            size    = pack_entry(entry, one);

  Switches = started.switches;
  if (varpolicy_register(Policy, sizeof Policy, Switches, entry, size) != VARPOLICY_SUCCESS) {
    return false;
  }
  size = pack_entry(entry, other);
  return varpolicy_register(Policy, sizeof Policy, Switches, entry, size) == VARPOLICY_SUCCESS;
}

/* Tells of a dump whether two of its entries quarrel, and over which name. */
static void tell(const uint8_t *dump, size_t length) {
  uint8_t           name[VARPOLICY_MAX_NAME_BYTES];
  varpolicy_quarrel quarrel = varpolicy_quarrels(dump, length, name);
  size_t            at;

  if (quarrel.status != VARPOLICY_SUCCESS) {
    printf("%u bytes: status %u\n", (unsigned)length, (unsigned)quarrel.status);
    return;
  }
  if (!quarrel.found) {
    printf("%u bytes: no two entries quarrel\n", (unsigned)length);
    return;
  }
  printf("%u bytes: entries %u and %u quarrel, over ", (unsigned)length, (unsigned)quarrel.earlier,
         (unsigned)quarrel.later);
  for (at = 0; at < quarrel.name_length; at += 2) {
    putchar(name[at]); /* the names above are ASCII, and so is every name that both match */
  }
  puts("");
}

int main(void) {
  uint8_t          buffer[1024] = {0};
  varpolicy_dumped dumped;

  if (!start("Boot00##", "Boot##01")) {
    return 1;
  }
  dumped = varpolicy_dump(Policy, sizeof Policy, Switches, buffer, sizeof buffer);
  tell(buffer, dumped.length);
  if (!start("Boot00##", "Boot#001")) {
    return 1;
  }
  dumped = varpolicy_dump(Policy, sizeof Policy, Switches, buffer, sizeof buffer);
  tell(buffer, dumped.length);
  tell(buffer, sizeof buffer); /* the zeros behind the entries are no entry */
  return 0;
}
