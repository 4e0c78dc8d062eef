/** @file
  Made the dumps in this folder with the library of the first edition, commit 1f6b891: copied to the root of
  a checkout of it, where `rt staticlib varpolicy` had made the library, by

    gcc -std=c11 -Iinclude make.c target/staticlib/libvarpolicy.a -o make && ./make FOLDER

  - full-count.dump: as many entries as that edition registers;
  - full-sum.dump: entries whose Sizes sum to all that its policy record has;
  - mixed.dump: every lock type with every kind of name, fields at their bounds, reserved bytes that are
    not zero;
  - signs.dump: twenty entries, three of them with '#' in the trigger's name: its first unit, one between
    others, its last.

  SPDX-License-Identifier: BSD-2-Clause-Patent
**/
#include <stdio.h>
#include <stdlib.h>
#include <string.h>

#include "varpolicy.h"

#define LETTERS "ABCDEFGHIJKLMNOPQRSTUVWXYZabcdefghijklmnopqrstuvwxyz0123456789+-" /* 64 */
#define SIGNS   "################################################################" /* 64 */

/* What an entry says. A namespace is 16 times one byte; a name is of ASCII letters, and NULL is none. */
typedef struct {
  uint8_t     space;
  uint32_t    bounds[4]; /* MinSize, MaxSize, AttributesMustHave, AttributesCantHave */
  uint8_t     type;
  uint8_t     reserved;
  const char *trigger;
  uint8_t     value;
  const char *name;
} fields;

static uint8_t            Policy[VARPOLICY_POLICY_BYTES];
static varpolicy_switches Switches;
static unsigned           Registered;

/* Writes a number of so many bytes at *at, or a name with its zero unit, and moves *at behind it. */
static void put(uint8_t *entry, size_t *at, uint32_t number, size_t bytes) {
  for (; bytes > 0; bytes--, number >>= 8) {
    entry[(*at)++] = (uint8_t)number;
  }
}

static void put_name(uint8_t *entry, size_t *at, const char *name) {
  for (; *name != 0; name++) {
    put(entry, at, (uint8_t)*name, 2);
  }
  put(entry, at, 0, 2);
}

static size_t pack(uint8_t entry[VARPOLICY_MAX_ENTRY_SIZE], const fields *from) {
  size_t at = 8, offset, size, place;

  memset(entry + at, from->space, VARPOLICY_NAMESPACE_BYTES);
  at += VARPOLICY_NAMESPACE_BYTES;
  for (place = 0; place < 4; place++) {
    put(entry, &at, from->bounds[place], 4);
  }
  put(entry, &at, from->type, 1);
  memset(entry + at, from->reserved, 3);
  at += 3;
  if (from->type == VARPOLICY_TYPE_LOCK_ON_VAR_STATE) {
    memset(entry + at, 0xFF ^ from->space, VARPOLICY_NAMESPACE_BYTES);
    at += VARPOLICY_NAMESPACE_BYTES;
    put(entry, &at, from->value, 1);
    put(entry, &at, from->reserved, 1);
    put_name(entry, &at, from->trigger);
  }
  offset = at;
  if (from->name != NULL) {
    put_name(entry, &at, from->name);
  }
  size = at;
  at   = 0;
  put(entry, &at, VARPOLICY_ENTRY_VERSION, 4);
  put(entry, &at, (uint32_t)size, 2);
  put(entry, &at, (uint32_t)offset, 2);
  return size;
}

static void require(int holds, const char *what) {
  if (!holds) {
    fprintf(stderr, "%s, after %u entries\n", what, Registered);
    exit(1);
  }
}

static void power_on(void) {
  uint8_t           nv[1] = {0}, vol[1] = {0};
  varpolicy_started started = varpolicy_power_on(nv, 0, vol, 0, Policy, sizeof Policy, 0);

  require(started.status == VARPOLICY_SUCCESS, "power-on refused");
  Switches   = started.switches;
  Registered = 0;
}

static void add(fields from) {
  uint8_t entry[VARPOLICY_MAX_ENTRY_SIZE];
  size_t  size = pack(entry, &from);

  require(varpolicy_register(Policy, sizeof Policy, Switches, entry, size) == VARPOLICY_SUCCESS, "entry refused");
  Registered++;
}

/* Dumps the entries into a file of the folder. */
static void save(const char *folder, const char *name) {
  uint8_t          buffer[VARPOLICY_POLICY_BYTES];
  char             path[4096];
  varpolicy_dumped dumped = varpolicy_dump(Policy, sizeof Policy, buffer, sizeof buffer);
  FILE            *file;

  require(dumped.status == VARPOLICY_SUCCESS, "dump refused");
  snprintf(path, sizeof path, "%s/%s.dump", folder, name);
  file = fopen(path, "wb");
  require(file != NULL && fwrite(buffer, 1, dumped.length, file) == dumped.length && fclose(file) == 0, path);
  printf("%s: %u entries, %u bytes\n", name, Registered, (unsigned)dumped.length);
}

static void make_full_count(const char *folder) {
  char     name[16];
  unsigned number;

  power_on();
  for (number = 0; number < VARPOLICY_MAX_ENTRIES; number++) {
    snprintf(name, sizeof name, "Boot%02X##", number);
    add((fields){1, {0, 1024, number % 8, 0}, (uint8_t)(number % 4), 0, "BootDone", (uint8_t)number, name});
  }
  save(folder, "full-count");
}

static void make_full_sum(const char *folder) {
  unsigned number;
  char     rest[] = "the Sizes of these entries sum to the length it had!";

  power_on();
  for (number = 0; number < 25; number++) {
    add((fields){(uint8_t)number, {number, 1024, 0, 0x40}, 3, 0, LETTERS, 1, LETTERS});
  }
  rest[48] = 0;
  add((fields){25, {0, 0xFFFFFFFF, 0, 0}, 0, 0, NULL, 0, rest});
  save(folder, "full-sum");
}

static void make_mixed(const char *folder) {
  static const char *const Names[]    = {NULL, "A", "#", "Boot####", LETTERS, SIGNS, "a", "00fF"};
  static const char *const Triggers[] = {"T", "T#", "Boot####", LETTERS, SIGNS, "#", "t", "PhaseDone"};
  static const uint32_t    Bounds[][4] = {
      {0, 0xFFFFFFFF, 0, 0}, {0, 0, 7, 0x40}, {1024, 1024, 0x43, 4}, {0xFFFFFFFF, 0xFFFFFFFF, 0x80000000, 0x7FFFFFB8}};
  unsigned type, place;

  power_on();
  for (place = 0; place < 8; place++) {
    for (type = 0; type < 4; type++) {
      fields from = {(uint8_t)(0x3F + 0x40 * type), {0}, (uint8_t)type, (uint8_t)(37 * place + type), Triggers[place],
                     (uint8_t)(85 * type), Names[place]};
      memcpy(from.bounds, Bounds[(place + type) % 4], sizeof from.bounds);
      add(from);
    }
  }
  save(folder, "mixed");
}

static void make_signs(const char *folder) {
  static const struct {
    uint8_t     type, value;
    const char *trigger, *name;
  } Entries[20] = {
      {3, 1, "#Phase", "A"},
      {0, 0, NULL, NULL},
      {1, 0, NULL, "Boot####"},
      {2, 0, NULL, "#"},
      {3, 1, "Phase0", "Boot####"},
      {3, 0x23, "T", "A"}, /* Value and reserved byte have the bytes of '#' */
      {3, 0, "\"$%!", NULL},
      {0, 0, NULL, "PhaseDone#"},
      {1, 0, NULL, "A"},
      {2, 0, NULL, SIGNS},
      {3, 1, "Phase#Done", "Driver####"},
      {3, 1, "PhaseDone", "Driver####"},
      {3, 0xFF, LETTERS, SIGNS},
      {0, 0, NULL, "Boot00##"},
      {1, 0, NULL, "0123456789#"},
      {2, 0, NULL, NULL},
      {3, 0, "t", "#"},
      {3, 0, "00fF", "########"},
      {0, 0, NULL, LETTERS},
      {3, 1, "PhaseDone#", "SysPrep####"},
  };
  unsigned place;

  power_on();
  for (place = 0; place < 20; place++) {
    add((fields){(uint8_t)place, {0, 1024, 3, 0x40}, Entries[place].type, 0, Entries[place].trigger,
                 Entries[place].value, Entries[place].name});
  }
  save(folder, "signs");
}

static const struct {
  const char *name;
  void (*make)(const char *folder);
} Dumps[] = {
    {"full-count", make_full_count}, {"full-sum", make_full_sum}, {"mixed", make_mixed}, {"signs", make_signs}};

int main(int count, char **words) {
  const char *folder = count > 1 ? words[1] : ".";
  size_t      place;

  for (place = 0; place < sizeof Dumps / sizeof Dumps[0]; place++) {
    if (count < 3 || strcmp(words[2], Dumps[place].name) == 0) {
      Dumps[place].make(folder);
    }
  }
  return 0;
}
