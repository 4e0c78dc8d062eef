/** @file
  The operating system starts. The firmware registers its policy, keeps a dump of it and tells the engine
  by varpolicy_exit that boot services are gone. From then on the policy is closed, variables without RT
  are not seen, and a set needs NV, BS and RT. Then the engine is made again from the dump, with exit last,
  and answers as before. This is C and C++.

  SPDX-License-Identifier: BSD-2-Clause-Patent
**/
#include <stdio.h>
#include <string.h>

#include "varpolicy.h"

#define NV     VARPOLICY_ATTRIBUTE_NV
#define BS     VARPOLICY_ATTRIBUTE_BS
#define RT     VARPOLICY_ATTRIBUTE_RT
#define APPEND VARPOLICY_ATTRIBUTE_APPEND

static const uint8_t Boot[VARPOLICY_NAMESPACE_BYTES] = {0x61, 0xDF, 0xE4, 0x8B, 0xCA, 0x93, 0xD2, 0x11,
                                                        0xAA, 0x0D, 0x00, 0xE0, 0x98, 0x03, 0x2B, 0x8C};

/* What the engine is lent. */
static uint8_t            NonVolatile[256];
static uint8_t            Volatile[256];
static uint8_t            Policy[VARPOLICY_POLICY_BYTES];
static varpolicy_switches Switches;

/* The dump that is kept: after exit there is none to be had. */
static uint8_t Dump[VARPOLICY_POLICY_BYTES];
static size_t  DumpLength;

/* Writes the units of an ASCII name and answers how many bytes they take. */
static size_t put_name(uint8_t *units, const char *name) {
  size_t at = 0;

  for (; *name != 0; name++, at += 2) {
    units[at]     = (uint8_t)*name;
    units[at + 1] = 0;
  }
  return at;
}

/* Packs an entry that allows "BootOrder" at most 4 bytes, and answers its length. */
static size_t pack_entry(uint8_t entry[VARPOLICY_MAX_ENTRY_SIZE]) {
  size_t at = VARPOLICY_MIN_ENTRY_SIZE;

  memset(entry, 0, VARPOLICY_MAX_ENTRY_SIZE);
  entry[2] = 1;                         /* Version 0x00010000 */
  entry[6] = (uint8_t)at;               /* OffsetToName */
  memcpy(entry + 8, Boot, sizeof Boot); /* Namespace */
  entry[28] = 4;                        /* MaxSize */
  at += put_name(entry + at, "BootOrder") + 2;
  entry[4] = (uint8_t)at; /* Size */
  return at;
}

/* Sets a variable, or with no attributes and no payload deletes it, and tells the status with the ground. */
static void try_set(const char *name, uint32_t attributes, const char *payload) {
  uint8_t           units[VARPOLICY_MAX_NAME_BYTES];
  size_t            length  = put_name(units, name);
  varpolicy_written written = varpolicy_set(NonVolatile, sizeof NonVolatile, Volatile, sizeof Volatile, Policy,
                                            sizeof Policy, Switches, Boot, units, length, attributes,
                                            (const uint8_t *)payload, strlen(payload));

  printf("  set %s, attributes %02X, length %u: status %u, ground %u\n", name, (unsigned)attributes,
         (unsigned)strlen(payload), (unsigned)written.status, (unsigned)written.report.ground);
}

/* Reads a variable and tells the status with what is found. */
static void try_read(const char *name) {
  uint8_t         units[VARPOLICY_MAX_NAME_BYTES];
  size_t          length = put_name(units, name);
  varpolicy_found found  = varpolicy_read(NonVolatile, sizeof NonVolatile, Volatile, sizeof Volatile, Switches, Boot,
                                          units, length);

  printf("  read %s: status %u, attributes %02X, length %u\n", name, (unsigned)found.status,
         (unsigned)found.attributes, (unsigned)found.length);
}

/* The firmware: an entry, a dump that is kept, a lock, and three variables. */
static bool boot(void) {
  uint8_t           entry[VARPOLICY_MAX_ENTRY_SIZE];
  size_t            size    = pack_entry(entry);
  varpolicy_started started = varpolicy_power_on(NonVolatile, sizeof NonVolatile, Volatile, sizeof Volatile, Policy,
                                                 sizeof Policy, 0);
  varpolicy_dumped  dumped;

  Switches = started.switches;
  if (started.status != VARPOLICY_SUCCESS ||
      varpolicy_register(Policy, sizeof Policy, Switches, entry, size) != VARPOLICY_SUCCESS) {
    return false;
  }
  dumped     = varpolicy_dump(Policy, sizeof Policy, Switches, Dump, sizeof Dump);
  DumpLength = dumped.length;
  puts("the firmware");
  try_set("BootOrder", NV | BS | RT, "12");
  try_set("Password", NV | BS, "1234");
  try_set("BootCurrent", BS | RT, "1");
  return dumped.status == VARPOLICY_SUCCESS && varpolicy_lock(&Switches) == VARPOLICY_SUCCESS;
}

/* What the operating system can do and what it cannot. A dump that is refused leaves its buffer as it was. */
static void run_time(const char *when) {
  varpolicy_dumped dumped   = varpolicy_dump(Policy, sizeof Policy, Switches, Dump, sizeof Dump);
  uint32_t         locked   = varpolicy_lock(&Switches);
  uint32_t         disabled = varpolicy_disable(&Switches);
  uint32_t         exited   = varpolicy_exit(&Switches);

  puts(when);
  printf("  dump: status %u, length %u\n", (unsigned)dumped.status, (unsigned)dumped.length);
  printf("  lock, disable, exit: statuses %u, %u, %u\n", (unsigned)locked, (unsigned)disabled, (unsigned)exited);
  printf("  query: enabled %u\n", (unsigned)varpolicy_query(Switches).enabled);
  try_read("BootOrder");
  try_read("BootCurrent");
  try_read("Password");
  try_set("BootOrder", NV | BS | RT, "21");
  try_set("BootOrder", NV | BS | RT | APPEND, "345"); /* more than the entry allows: its ground is the size */
  try_set("Notes", NV | BS, "hidden");
  try_set("Password", 0, "");
  try_set("BootCurrent", 0, "");
}

/* Makes the engine again over its stores: a restart, each entry of the dump, and then what it was. */
static bool rebuild(void) {
  const varpolicy_switches old     = Switches;
  varpolicy_started        started = varpolicy_restart(NonVolatile, sizeof NonVolatile, Volatile, sizeof Volatile,
                                                       Policy, sizeof Policy, old.disabling_allowed);
  size_t                   at, size;

  if (started.status != VARPOLICY_SUCCESS) {
    return false;
  }
  Switches = started.switches;
  for (at = 0; at < DumpLength; at += size) {
    size = Dump[at + 4] + 256U * Dump[at + 5];
    if (varpolicy_register(Policy, sizeof Policy, Switches, Dump + at, size) != VARPOLICY_SUCCESS) {
      return false;
    }
  }
  return (old.enabled != 0 || varpolicy_disable(&Switches) == VARPOLICY_SUCCESS) &&
         (old.locked == 0 || varpolicy_lock(&Switches) == VARPOLICY_SUCCESS) &&
         (old.exited == 0 || varpolicy_exit(&Switches) == VARPOLICY_SUCCESS);
}

int main(void) {
  memset(NonVolatile, 0xFF, sizeof NonVolatile);
  if (!boot() || varpolicy_exit(&Switches) != VARPOLICY_SUCCESS) {
    return 1;
  }
  run_time("the operating system");
  if (!rebuild()) {
    return 1;
  }
  run_time("the same, rebuilt");
  return 0;
}
