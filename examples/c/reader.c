/** @file
  A dump that arrives in pieces, as over a console link. A reader is fed each piece when it comes, and at
  the end tells the good entries and whether all of them were good: of the dump itself, of one with a
  byte behind it, and of one in which a byte was changed on the way. This is C and C++.

  SPDX-License-Identifier: BSD-2-Clause-Patent
**/
#include <assert.h>
#include <stdio.h>
#include <string.h>

#include "varpolicy.h"

static_assert(sizeof(varpolicy_reader) == VARPOLICY_READER_BYTES, "layout of a reader");
static_assert(sizeof(varpolicy_verdict) == 16, "layout of the verdict");
static_assert(sizeof(varpolicy_listing) == 16, "layout of what is told of an entry");

#define DUMP_BYTES 94

static const uint8_t Board[VARPOLICY_NAMESPACE_BYTES] = {0x5C, 0x67, 0xD1, 0x81, 0xF6, 0x86, 0xDF, 0x48,
                                                         0xBD, 0x95, 0x9A, 0x6E, 0x4F, 0x09, 0x25, 0xC3};

static varpolicy_reader Reader;

/* Puts an entry without a trigger behind others, for the variables of this ASCII name or, without one, for
   the whole namespace, and answers where it ends. */
static size_t put_entry(uint8_t *dump, size_t at, uint8_t lock, const char *name) {
  uint8_t *entry = dump + at;
  size_t   size  = VARPOLICY_MIN_ENTRY_SIZE;

  entry[2] = 1;                           /* Version 0x00010000 */
  entry[6] = (uint8_t)size;               /* OffsetToName */
  memcpy(entry + 8, Board, sizeof Board); /* Namespace */
  memset(entry + 28, 0xFF, 4);            /* MaxSize */
  entry[40] = lock;                       /* LockPolicyType */
  if (*name != 0) {
    for (; *name != 0; name++, size += 2) {
      entry[size] = (uint8_t)*name;
    }
    size += 2;
  }
  entry[4] = (uint8_t)size; /* Size */
  return at + size;
}

/* Feeds the reader these bytes, in pieces of at most this many. */
static void receive(const uint8_t *bytes, size_t length, size_t most) {
  size_t at;

  varpolicy_reader_start(&Reader);
  for (at = 0; at < length; at += most) {
    varpolicy_reader_feed(&Reader, bytes + at, length - at < most ? length - at : most);
  }
}

/* A line for each good entry, and one for the verdict. */
static void tell(void) {
  varpolicy_verdict verdict = varpolicy_reader_verdict(&Reader);
  varpolicy_listing  entry;
  size_t            at    = 0;
  unsigned          place = 0;

  while ((entry = varpolicy_reader_entry(&Reader, at)).status == VARPOLICY_SUCCESS) {
    printf("%u size %u lock %u marks ", place++, (unsigned)entry.size, (unsigned)entry.lock);
    if (entry.rank == VARPOLICY_RANK_WHOLE_NAMESPACE) {
      puts("all");
    } else {
      printf("%u\n", (unsigned)entry.rank);
    }
    at += entry.size;
  }
  if (verdict.whole) {
    printf("entries %u bytes %u\n", (unsigned)verdict.entries, (unsigned)verdict.bytes);
  } else {
    printf("bad at %u\n", (unsigned)verdict.bytes);
  }
}

int main(void) {
  uint8_t dump[DUMP_BYTES + 1] = {0};
  size_t  end                  = put_entry(dump, 0, VARPOLICY_TYPE_LOCK_NOW, "");

  if (put_entry(dump, end, VARPOLICY_TYPE_NO_LOCK, "A#") != DUMP_BYTES) {
    return 1;
  }
  receive(dump, DUMP_BYTES, 7);
  tell();
  receive(dump, DUMP_BYTES + 1, VARPOLICY_MAX_PIECE);
  tell();
  dump[end] = 1; /* the Version of the second entry */
  receive(dump, DUMP_BYTES, 1);
  tell();
  /* A piece without bytes is refused. What was fed stands at the front of the reader. */
  printf("status %u\n", (unsigned)varpolicy_reader_feed(&Reader, dump, 0));
  return memcmp(Reader.bytes, dump, end) != 0;
}
