/** @file
  The calls of libvarpolicy.a, a proved engine for UEFI variable policy.

  The engine keeps no memory of its own. The caller lends it

  - a non-volatile and a volatile store of variables, 0 to 32,768 bytes each: records with EDK2's
    variable header (0x55AA, state 0x3F) end to end, then 0xFF;
  - a policy record of VARPOLICY_POLICY_BYTES bytes: packed entries end to end, then zeros;
  - four switches, varpolicy_switches, in each byte of which every value has a meaning.

  varpolicy_quarrels and the calls of a reader, varpolicy_reader_.., are lent none of these and concern no
  engine. The one is given the bytes of a dump, from wherever they come, and a buffer for a name; the
  others are lent a varpolicy_reader, which is fed the bytes of a dump in pieces, as they arrive.

  A call checks all of each store and policy record that it is lent, and answers
  VARPOLICY_VOLUME_CORRUPTED before all else if one is not so. The exceptions: varpolicy_power_on takes
  a volatile store with any content, and varpolicy_power_on and varpolicy_restart a policy record with
  any content; of these they check the length.

  A call that answers anything but VARPOLICY_SUCCESS leaves everything as it was, and every number
  beside the status is zero. Three exceptions: beside VARPOLICY_BUFFER_TOO_SMALL stands the length that
  is needed, a refused start hands back switches, and a refused set has its report.

  A status is an EFI_STATUS without its error bit. The statuses of a call are listed in the order in
  which they are tested.

  Pointers: each must be valid for its length, and not NULL even where the length is 0. What is lent
  for writing may not overlap anything else lent to the same call. Nothing is kept after a call, so
  calls on different memory may run at the same time.

  Machine: x86-64 with the System V calling convention, SSE2 and the red zone (the 128 bytes below
  the stack pointer are used, so an interrupt handler must not run on the same stack unless it skips
  them). With GCC and Clang the declarations say sysv_abi, so that code built for Microsoft's
  convention, as UEFI's is, can call them. There is no heap and no static data that is written. Of libc
  memcpy, memmove and memset are needed and nothing else; the caller's program must provide them, with
  the System V convention too: those of a program built for Microsoft's take their arguments in other
  registers.

  Linking: a function whose parameters or answer an edition changed has another name in the archive,
  with the edition behind it, and this header gives it the name that is used here. An object file that
  was compiled with an older header then does not link, in place of passing memory that is taken for
  something else. E10 gave the switches a fourth byte, and so every function that is lent them, is given
  them or hands them back another name; varpolicy_dump and varpolicy_read are given them since.

  Stack: the deepest call, varpolicy_settled, takes 17,368 bytes with its return address (read off the
  machine code); varpolicy_set takes 9,448, and read, restart and power-on nearly as much. The red zone and
  what memcpy, memmove and memset take come on top.

  SPDX-License-Identifier: BSD-2-Clause-Patent
**/
#ifndef VARPOLICY_H_
#define VARPOLICY_H_

#include <stdbool.h>
#include <stddef.h>
#include <stdint.h>

#ifdef __cplusplus
extern "C" {
#endif

#if defined(__GNUC__) && defined(__x86_64__)
#define VARPOLICY_CALL __attribute__((sysv_abi))
#else
#define VARPOLICY_CALL
#endif

/* The names in the archive of functions that have changed: varpolicy_switches has four bytes since E10. */
#define varpolicy_power_on varpolicy_power_on_e10
#define varpolicy_restart  varpolicy_restart_e10
#define varpolicy_register varpolicy_register_e10
#define varpolicy_dump     varpolicy_dump_e10 /* and it is given the switches */
#define varpolicy_lock     varpolicy_lock_e10
#define varpolicy_disable  varpolicy_disable_e10
#define varpolicy_query    varpolicy_query_e10
#define varpolicy_read     varpolicy_read_e10 /* and it is given the switches */
#define varpolicy_set      varpolicy_set_e10  /* before E1 it answered the status alone */

/* Statuses. */
#define VARPOLICY_SUCCESS           0U
#define VARPOLICY_INVALID_PARAMETER 2U
#define VARPOLICY_UNSUPPORTED       3U
#define VARPOLICY_BUFFER_TOO_SMALL  5U
#define VARPOLICY_WRITE_PROTECTED   8U
#define VARPOLICY_OUT_OF_RESOURCES  9U
#define VARPOLICY_VOLUME_CORRUPTED  10U
#define VARPOLICY_NOT_FOUND         14U
#define VARPOLICY_ALREADY_STARTED   20U

/* Grounds of a set's report. */
#define VARPOLICY_GROUND_NONE       0U /* no entry refused the set */
#define VARPOLICY_GROUND_SIZE       1U /* MinSize or MaxSize; beside VARPOLICY_INVALID_PARAMETER */
#define VARPOLICY_GROUND_ATTRIBUTES 2U /* required or prohibited bits; beside VARPOLICY_INVALID_PARAMETER */
#define VARPOLICY_GROUND_LOCK       3U /* the variable is locked; beside VARPOLICY_WRITE_PROTECTED */

/* The rank of an entry for a whole namespace: more than the '#' that a name can have. */
#define VARPOLICY_RANK_WHOLE_NAMESPACE 65U

/* Attributes. */
#define VARPOLICY_ATTRIBUTE_NV     0x01U /* non-volatile */
#define VARPOLICY_ATTRIBUTE_BS     0x02U /* visible to boot services; every stored variable has it */
#define VARPOLICY_ATTRIBUTE_RT     0x04U /* visible at run time */
#define VARPOLICY_ATTRIBUTE_APPEND 0x40U /* of a request only: the payload is joined to what is stored */

/* LockPolicyType of an entry. */
#define VARPOLICY_TYPE_NO_LOCK           0U
#define VARPOLICY_TYPE_LOCK_NOW          1U
#define VARPOLICY_TYPE_LOCK_ON_CREATE    2U
#define VARPOLICY_TYPE_LOCK_ON_VAR_STATE 3U

/* Limits. */
#define VARPOLICY_ENTRY_VERSION   0x00010000U
#define VARPOLICY_MIN_ENTRY_SIZE  44U    /* bytes of an entry without trigger and name */
#define VARPOLICY_MAX_ENTRY_SIZE  322U   /* bytes of an entry with two names of 64 units */
#define VARPOLICY_MAX_ENTRIES     128U   /* entries of an engine */
#define VARPOLICY_POLICY_BYTES    16384U /* bytes of the policy record, and most that the Sizes sum to */
#define VARPOLICY_MAX_STORE_BYTES 32768U /* bytes of a store */
#define VARPOLICY_MAX_PAYLOAD     1024U  /* bytes of a payload */
#define VARPOLICY_MAX_NAME_UNITS  64U    /* 16-bit units of a name */
#define VARPOLICY_MAX_NAME_BYTES  128U   /* bytes of a name without a closing zero: two for each unit */
#define VARPOLICY_NAMESPACE_BYTES 16U    /* bytes of a namespace, as an EFI_GUID lies in memory */
#define VARPOLICY_MAX_LINKS       16U    /* links from a settled variable to the last trigger */
#define VARPOLICY_MAX_PIECE       4096U  /* bytes of a piece that a reader is fed */
#define VARPOLICY_READER_BYTES    18438U /* bytes of a reader */

/**
  The switches of an engine: kept by the caller, lent to the calls.

  Each of the 256 values of each byte has a meaning, and what is proved of the calls is proved of all. A
  byte that is neither 0 nor 1 is read on the safe side: the engine is enabled, is locked, may not be
  disabled, and has exited. The calls themselves write and hand back 0 and 1.
**/
typedef struct {
  uint8_t enabled;           /* entries are enforced: any value but 0 */
  uint8_t locked;            /* no more entries are registered: any value but 0 */
  uint8_t disabling_allowed; /* the engine may be disabled: 1, and no other value */
  uint8_t exited;            /* the operating system has started: any value but 0 */
} varpolicy_switches;

/** What varpolicy_power_on and varpolicy_restart answer. **/
typedef struct {
  uint32_t           status;
  varpolicy_switches switches;
} varpolicy_started;

/** What varpolicy_dump answers. **/
typedef struct {
  uint32_t status;
  size_t   length; /* bytes written or, with VARPOLICY_BUFFER_TOO_SMALL, needed */
} varpolicy_dumped;

/** What varpolicy_query answers. **/
typedef struct {
  uint32_t status;
  bool     enabled;
} varpolicy_state;

/** What varpolicy_read answers: where the payload stands in the store that non_volatile names. **/
typedef struct {
  uint32_t status;
  uint32_t attributes;
  bool     non_volatile; /* the non-volatile store holds the variable */
  size_t   offset;       /* of the payload's first byte in that store */
  size_t   length;       /* of the payload */
} varpolicy_found;

/** What varpolicy_settled answers. **/
typedef struct {
  uint32_t status;
  bool     settled; /* the variable is settled */
} varpolicy_settled_answer;

/**
  The report of a set: why the chosen entry refused it. Without a ground every number is 0: the set
  succeeded, or something else than an entry refused it. The last three numbers are those of
  VARPOLICY_GROUND_ATTRIBUTES, and 0 beside every other ground.

  A refused set changes nothing, so varpolicy_dump, before exit, still hands out the entry at that place.
**/
typedef struct {
  uint32_t ground;     /* VARPOLICY_GROUND_.., the first that holds */
  uint32_t place;      /* of the chosen entry, counted from 0 as a dump has them */
  uint32_t rank;       /* how many '#' its name has, or VARPOLICY_RANK_WHOLE_NAMESPACE */
  uint32_t missing;    /* how many required bits the request lacks */
  uint32_t prohibited; /* how many prohibited bits it has */
  uint32_t lowest_bit; /* the number of the lowest of all these; 0 is the bit of value 1 */
} varpolicy_report;

/** What varpolicy_set answers. **/
typedef struct {
  uint32_t         status;
  varpolicy_report report;
} varpolicy_written;

/** What varpolicy_quarrels answers. Without a pair every number is 0. **/
typedef struct {
  uint32_t status;
  bool     found;       /* two entries quarrel */
  uint32_t earlier;     /* the place of the earlier one, counted from 0 */
  uint32_t later;       /* and of the later one */
  size_t   name_length; /* bytes of the smallest name that both target */
} varpolicy_quarrel;

/**
  A reader of a dump that arrives in pieces: kept by the caller, lent to the calls varpolicy_reader_...

  The bytes of the dump stand from the reader's first byte on, as far as they were taken; the calls keep
  what they know of them behind the first VARPOLICY_POLICY_BYTES. So the bytes of a good entry at byte
  `at` of the dump are reader.bytes + at, as many as its size, until the reader is started again.

  Of VARPOLICY_READER_BYTES bytes any content is allowed, and what each call does with it is proved: it
  does nothing undefined, and touches nothing but what it is lent. What a reader says holds of the bytes
  that it was fed if varpolicy_reader_start came first and only these calls wrote it since.

  However the dump is cut into pieces, the answers are the same. To read one and walk its entries:

    static varpolicy_reader reader;
    static uint8_t          piece[VARPOLICY_MAX_PIECE];
    varpolicy_listing       entry;
    varpolicy_verdict       verdict;
    size_t                  at, length;

    varpolicy_reader_start(&reader);
    while ((length = receive(piece, sizeof piece)) > 0) {
      varpolicy_reader_feed(&reader, piece, length);
      if (varpolicy_reader_verdict(&reader).ended) {
        break;
      }
    }
    for (at = 0; (entry = varpolicy_reader_entry(&reader, at)).status == VARPOLICY_SUCCESS; at += entry.size) {
      use(reader.bytes + at, entry.size);
    }
    verdict = varpolicy_reader_verdict(&reader);
    if (!verdict.whole) {
      printf("bad at %u\n", (unsigned)verdict.bytes);
    }
**/
typedef struct {
  uint8_t bytes[VARPOLICY_READER_BYTES];
} varpolicy_reader;

/**
  What varpolicy_reader_verdict answers. Good entries are those up to the first that is malformed,
  repeated, past the limits or cut short; no piece makes a good entry bad.
**/
typedef struct {
  uint32_t status;
  bool     whole;   /* good entries and nothing behind them: what arrived is a dump */
  bool     ended;   /* the reading has ended at a bad entry: no further piece changes anything */
  uint32_t entries; /* how many good entries there are */
  uint32_t bytes;   /* how many bytes they take; unless whole, the bad entry's first byte */
} varpolicy_verdict;

/** What varpolicy_reader_entry answers. Where there is no entry every number is 0. **/
typedef struct {
  uint32_t status;
  uint32_t size; /* how many bytes it has */
  uint32_t lock; /* its LockPolicyType, VARPOLICY_TYPE_.. */
  uint32_t rank; /* how many '#' its name has, or VARPOLICY_RANK_WHOLE_NAMESPACE */
} varpolicy_listing;

/**
  Powers an engine on: the policy record becomes all zeros, the volatile store all 0xFF. The engine is
  then enabled, unlocked and empty, and has not exited.

  @param[in]  nv                 The non-volatile store.
  @param[in]  nv_len             Its length.
  @param[out] vol                The volatile store, with any content.
  @param[in]  vol_len            Its length.
  @param[out] policy             The policy record, with any content.
  @param[in]  policy_len         Its length, VARPOLICY_POLICY_BYTES.
  @param[in]  disabling_allowed  Whether varpolicy_disable may succeed: 1, and no other value.

  @retval VARPOLICY_VOLUME_CORRUPTED  The non-volatile store is unsound, the volatile one has more than
                                      VARPOLICY_MAX_STORE_BYTES bytes, or the policy record is of another
                                      length. The switches handed back are enabled, locked, disabling not
                                      allowed, not exited. A running engine goes on with those it had.
  @retval VARPOLICY_SUCCESS           The engine is on, with the switches handed back.
**/
VARPOLICY_CALL varpolicy_started
varpolicy_power_on (
  const uint8_t *nv,
  size_t         nv_len,
  uint8_t       *vol,
  size_t         vol_len,
  uint8_t       *policy,
  size_t         policy_len,
  uint8_t        disabling_allowed
  );

/**
  Starts an engine over stores that are kept: as varpolicy_power_on, but both stores must be sound, and
  neither is written.

  @param[in]  nv                 The non-volatile store.
  @param[in]  nv_len             Its length.
  @param[in]  vol                The volatile store.
  @param[in]  vol_len            Its length.
  @param[out] policy             The policy record, with any content.
  @param[in]  policy_len         Its length, VARPOLICY_POLICY_BYTES.
  @param[in]  disabling_allowed  Whether varpolicy_disable may succeed: 1, and no other value.

  @retval VARPOLICY_VOLUME_CORRUPTED  The stores are unsound, or the policy record is of another length.
                                      The switches are as in varpolicy_power_on.
  @retval VARPOLICY_SUCCESS           The engine is on, with the switches handed back.
**/
VARPOLICY_CALL varpolicy_started
varpolicy_restart (
  const uint8_t *nv,
  size_t         nv_len,
  const uint8_t *vol,
  size_t         vol_len,
  uint8_t       *policy,
  size_t         policy_len,
  uint8_t        disabling_allowed
  );

/**
  Registers a packed entry (VARIABLE_POLICY_ENTRY). A disabled engine still registers.

  @param[in,out] policy      The policy record.
  @param[in]     policy_len  Its length.
  @param[in]     switches    The switches.
  @param[in]     entry       The packed entry.
  @param[in]     entry_len   Its length, which its Size must equal.

  @retval VARPOLICY_VOLUME_CORRUPTED   The policy record is not valid: VARPOLICY_POLICY_BYTES bytes, of them
                                       at most VARPOLICY_MAX_ENTRIES well-formed entries, no two for one
                                       namespace and name, and then zeros.
  @retval VARPOLICY_UNSUPPORTED        The engine has exited (varpolicy_exit).
  @retval VARPOLICY_WRITE_PROTECTED    The engine is locked.
  @retval VARPOLICY_INVALID_PARAMETER  The entry is malformed. One cause that is easily overlooked: a
                                       '#' in the name of its trigger.
  @retval VARPOLICY_ALREADY_STARTED    An entry of the same namespace and name is registered.
  @retval VARPOLICY_OUT_OF_RESOURCES   VARPOLICY_MAX_ENTRIES are registered, or the Sizes would sum to more
                                       than VARPOLICY_POLICY_BYTES.
  @retval VARPOLICY_SUCCESS            The entry stands behind the others.
**/
VARPOLICY_CALL uint32_t
varpolicy_register (
  uint8_t           *policy,
  size_t             policy_len,
  varpolicy_switches switches,
  const uint8_t     *entry,
  size_t             entry_len
  );

/**
  Writes the entries, one behind the other as they were registered, to the start of a buffer. Later
  bytes of the buffer stay.

  @param[in]     policy      The policy record.
  @param[in]     policy_len  Its length.
  @param[in]     switches    The switches.
  @param[in,out] buffer      The buffer.
  @param[in]     buffer_len  Its length.

  @retval VARPOLICY_VOLUME_CORRUPTED  The policy record is bad, as in varpolicy_register.
  @retval VARPOLICY_UNSUPPORTED       The engine has exited. The length is 0.
  @retval VARPOLICY_BUFFER_TOO_SMALL  The buffer is shorter than the sum of Sizes, which is the length.
  @retval VARPOLICY_SUCCESS           The entries are written; the length is the sum of Sizes. Without
                                      entries it is 0, even for an empty buffer.
**/
VARPOLICY_CALL varpolicy_dumped
varpolicy_dump (
  const uint8_t     *policy,
  size_t             policy_len,
  varpolicy_switches switches,
  uint8_t           *buffer,
  size_t             buffer_len
  );

/**
  Locks the engine: no entry is registered until the next power-on or restart.

  @param[in,out] switches  The switches. Of a refused call they may lie in read-only memory.

  @retval VARPOLICY_UNSUPPORTED      The engine has exited. Nothing is stored.
  @retval VARPOLICY_WRITE_PROTECTED  The engine is locked already. Nothing is stored.
  @retval VARPOLICY_SUCCESS          The engine is locked: locked is 1, and no other byte is changed.
**/
VARPOLICY_CALL uint32_t
varpolicy_lock (
  varpolicy_switches *switches
  );

/**
  Disables the engine: no entry is enforced until the next power-on or restart.

  @param[in,out] switches  The switches. Of a refused call they may lie in read-only memory.

  @retval VARPOLICY_UNSUPPORTED      The engine has exited. Nothing is stored.
  @retval VARPOLICY_ALREADY_STARTED  The engine is disabled already. Nothing is stored.
  @retval VARPOLICY_WRITE_PROTECTED  The engine is locked, or disabling is not allowed. Nothing is stored.
  @retval VARPOLICY_SUCCESS          The engine is disabled: enabled is 0, and no other byte is changed.
**/
VARPOLICY_CALL uint32_t
varpolicy_disable (
  varpolicy_switches *switches
  );

/**
  Tells the engine that the operating system starts and boot services are gone. Until the next power-on
  or restart the policy can be neither added to, handed out, locked nor disabled; reads show variables with
  RT alone; a set needs NV, BS and RT; and volatile variables are neither written nor deleted. The policy
  itself still sees both stores whole: a lock may hang on a variable that can no longer be read. To rebuild
  the engine later takes a dump from before, as no dump is to be had then.

  @param[in,out] switches  The switches. Of a refused call they may lie in read-only memory.

  @retval VARPOLICY_UNSUPPORTED  The engine has exited already. Nothing is stored.
  @retval VARPOLICY_SUCCESS      The engine has exited: exited is 1, and no other byte is changed.
**/
VARPOLICY_CALL uint32_t
varpolicy_exit (
  varpolicy_switches *switches
  );

/**
  Tells whether entries are enforced, after exit too.

  @param[in] switches  The switches.

  @retval VARPOLICY_SUCCESS  Always.
**/
VARPOLICY_CALL varpolicy_state
varpolicy_query (
  varpolicy_switches switches
  );

/**
  Reads a variable: tells its attributes, and where its payload stands.

  @param[in] nv                  The non-volatile store.
  @param[in] nv_len              Its length.
  @param[in] vol                 The volatile store.
  @param[in] vol_len             Its length.
  @param[in] switches            The switches.
  @param[in] variable_namespace  The 16 bytes of the variable's namespace.
  @param[in] name                The bytes of the 16-bit units of its name, without a closing zero.
  @param[in] name_len            How many bytes: two for each unit.

  @retval VARPOLICY_VOLUME_CORRUPTED   The stores are unsound.
  @retval VARPOLICY_INVALID_PARAMETER  The name is not 1 to 64 units, none of them zero, or name_len is odd.
  @retval VARPOLICY_NOT_FOUND          No such variable; or the engine has exited, and the variable has no RT.
  @retval VARPOLICY_SUCCESS            The variable is as told.
**/
VARPOLICY_CALL varpolicy_found
varpolicy_read (
  const uint8_t     *nv,
  size_t             nv_len,
  const uint8_t     *vol,
  size_t             vol_len,
  varpolicy_switches switches,
  const uint8_t      variable_namespace[VARPOLICY_NAMESPACE_BYTES],
  const uint8_t     *name,
  size_t             name_len
  );

/**
  Sets, appends to or deletes a variable.

  Without APPEND, a request with an empty payload or with neither BS nor RT is a deletion; its other
  attributes are not compared. With APPEND the payload is joined to the stored one or, unless it is
  empty, creates the variable. MinSize and MaxSize measure the payload as it would be afterwards. The
  entry chosen for a variable is the one with the fewest '#' among those that target it, the first
  registered among equals, and a whole-namespace entry only if there is no other. '#' in an entry's
  name stands for a hex digit (0-9, A-F, a-f) and nothing else, so a variable with '#' in its own name
  is targeted by whole-namespace entries alone.

  Beside the status stands a report. Its ground is VARPOLICY_GROUND_NONE but for the three cases below
  that name another.

  @param[in,out] nv                  The non-volatile store.
  @param[in]     nv_len              Its length.
  @param[in,out] vol                 The volatile store.
  @param[in]     vol_len             Its length.
  @param[in]     policy              The policy record.
  @param[in]     policy_len          Its length.
  @param[in]     switches            The switches.
  @param[in]     variable_namespace  The 16 bytes of the variable's namespace.
  @param[in]     name                The bytes of the 16-bit units of its name, without a closing zero.
  @param[in]     name_len            How many bytes: two for each unit.
  @param[in]     attributes          The attributes.
  @param[in]     payload             The payload.
  @param[in]     payload_len         Its length.

  @retval VARPOLICY_VOLUME_CORRUPTED   The stores are unsound, or the policy record is bad, as in
                                       varpolicy_register.
  @retval VARPOLICY_INVALID_PARAMETER  The name is not 1 to 64 units, none of them zero, name_len is odd,
                                       or the payload is longer than VARPOLICY_MAX_PAYLOAD.
  @retval VARPOLICY_UNSUPPORTED        An attribute bit outside 0x47.
  @retval VARPOLICY_INVALID_PARAMETER  RT or APPEND without BS.
  @retval VARPOLICY_INVALID_PARAMETER  The engine has exited, the request is no deletion, and its attributes
                                       are without NV, BS or RT.
  @retval VARPOLICY_INVALID_PARAMETER  The engine is enabled, an entry is chosen, the request is no
                                       deletion, and the payload as it would be afterwards is shorter
                                       than MinSize or longer than MaxSize: VARPOLICY_GROUND_SIZE.
  @retval VARPOLICY_INVALID_PARAMETER  The engine is enabled, an entry is chosen, the request is no
                                       deletion, and the attributes lack a required bit or have a
                                       prohibited one: VARPOLICY_GROUND_ATTRIBUTES.
  @retval VARPOLICY_WRITE_PROTECTED    The engine is enabled and the chosen entry locks the variable, be
                                       the request a deletion or not: VARPOLICY_GROUND_LOCK.
  @retval VARPOLICY_NOT_FOUND          A deletion, and there is no such variable; or the engine has exited,
                                       and the variable has no RT.
  @retval VARPOLICY_WRITE_PROTECTED    A deletion, the engine has exited, and the variable is volatile:
                                       VARPOLICY_GROUND_NONE.
  @retval VARPOLICY_INVALID_PARAMETER  The variable is stored with a different NV, BS or RT.
  @retval VARPOLICY_OUT_OF_RESOURCES   An append would make the payload longer than VARPOLICY_MAX_PAYLOAD,
                                       or the records would be longer than their store.
  @retval VARPOLICY_SUCCESS            Stored, appended, deleted or, for an empty append, left as it was.
**/
VARPOLICY_CALL varpolicy_written
varpolicy_set (
  uint8_t           *nv,
  size_t             nv_len,
  uint8_t           *vol,
  size_t             vol_len,
  const uint8_t     *policy,
  size_t             policy_len,
  varpolicy_switches switches,
  const uint8_t      variable_namespace[VARPOLICY_NAMESPACE_BYTES],
  const uint8_t     *name,
  size_t             name_len,
  uint32_t           attributes,
  const uint8_t     *payload,
  size_t             payload_len
  );

/**
  Tells whether a variable is settled. If so, its lock depends on nothing that a call may still change.

  It is settled if the entry chosen for it, as in varpolicy_set, is of type

  - VARPOLICY_TYPE_LOCK_NOW; or
  - VARPOLICY_TYPE_LOCK_ON_CREATE, and the variable exists; or
  - VARPOLICY_TYPE_LOCK_ON_VAR_STATE, and the trigger exists with a payload of one byte, which is Value, and is
    settled in turn.

  From a variable to its trigger is a link, and at most VARPOLICY_MAX_LINKS are followed. Where triggers come
  round in a loop, or the chain is longer, the answer is no.

  What a yes is worth: while the engine is enabled and locked, no call but a granted varpolicy_power_on or
  varpolicy_restart changes, creates or deletes the variable, and the answer stays yes. The switches are not
  asked: an engine that is disabled, unlocked or has exited answers alike, but while it is not enabled and
  locked a yes promises nothing. A no does not mean that a set is granted: the variable may be locked for now.

  @param[in] nv                  The non-volatile store.
  @param[in] nv_len              Its length.
  @param[in] vol                 The volatile store.
  @param[in] vol_len             Its length.
  @param[in] policy              The policy record.
  @param[in] policy_len          Its length.
  @param[in] variable_namespace  The 16 bytes of the variable's namespace.
  @param[in] name                The bytes of the 16-bit units of its name, without a closing zero.
  @param[in] name_len            How many bytes: two for each unit.

  @retval VARPOLICY_VOLUME_CORRUPTED   The stores are unsound, or the policy record is bad, as in
                                       varpolicy_register.
  @retval VARPOLICY_INVALID_PARAMETER  The name is not 1 to 64 units, none of them zero, or name_len is odd.
  @retval VARPOLICY_SUCCESS            The answer is in settled. A variable need not exist to be settled.
**/
VARPOLICY_CALL varpolicy_settled_answer
varpolicy_settled (
  const uint8_t *nv,
  size_t         nv_len,
  const uint8_t *vol,
  size_t         vol_len,
  const uint8_t *policy,
  size_t         policy_len,
  const uint8_t  variable_namespace[VARPOLICY_NAMESPACE_BYTES],
  const uint8_t *name,
  size_t         name_len
  );

/**
  Tells whether two entries of a dump quarrel: they have the same rank, and some variable, stored or not,
  is targeted by both. Unless an entry of lower rank targets it too, the one registered first speaks for
  it. An engine may be rebuilt in every order exactly if no two entries of its dump quarrel. To end a
  quarrel, put a hex digit in the place of a '#' in one of the two names. The rank is how many '#' a name
  has; entries for a whole namespace quarrel with none.

  Of all pairs that quarrel the one with the lowest earlier place is handed back, and of those the one
  with the lowest later place; with them the smallest name that both entries target. Their namespace is
  that of either entry.

  No part of an engine is lent, and none is changed.

  @param[in]     dump      The entries, end to end as varpolicy_dump writes them, and nothing behind them.
  @param[in]     dump_len  Their length, as varpolicy_dump answers it: not that of its buffer.
  @param[in,out] name      A buffer of VARPOLICY_MAX_NAME_BYTES bytes, however short the name. Of a pair,
                           the bytes of the 16-bit units of the smallest name are written to its front,
                           without a closing zero, and the bytes behind them stay. Without a pair all of
                           it stays.

  @retval VARPOLICY_INVALID_PARAMETER  The bytes are not a dump: at most VARPOLICY_MAX_ENTRIES well-formed
                                       entries in at most VARPOLICY_POLICY_BYTES bytes, no two for one
                                       namespace and name, and nothing behind them. Zeros are no entry,
                                       so that a policy record with free room is not a dump.
  @retval VARPOLICY_SUCCESS            It is a dump, and found tells whether two entries quarrel. No bytes
                                       at all are a dump without entries.
**/
VARPOLICY_CALL varpolicy_quarrel
varpolicy_quarrels (
  const uint8_t *dump,
  size_t         dump_len,
  uint8_t        name[VARPOLICY_MAX_NAME_BYTES]
  );

/**
  Starts a reader, or starts it again: nothing arrived yet.

  @param[in,out] reader  The reader, with any content. Its first VARPOLICY_POLICY_BYTES bytes are not
                         written.

  @retval VARPOLICY_SUCCESS  Always.
**/
VARPOLICY_CALL uint32_t
varpolicy_reader_start (
  varpolicy_reader *reader
  );

/**
  Feeds a reader the next bytes of a dump. The status does not tell whether the entries are good:
  varpolicy_reader_verdict does, at any time. Once it says ended, no more bytes are taken.

  @param[in,out] reader     The reader, with any content.
  @param[in]     piece      The bytes, whatever they are.
  @param[in]     piece_len  How many: 1 to VARPOLICY_MAX_PIECE.

  @retval VARPOLICY_INVALID_PARAMETER  There are none, or more than VARPOLICY_MAX_PIECE. The reader stands
                                       as before.
  @retval VARPOLICY_SUCCESS            The bytes arrived. If the reading had ended, they changed nothing.
**/
VARPOLICY_CALL uint32_t
varpolicy_reader_feed (
  varpolicy_reader *reader,
  const uint8_t    *piece,
  size_t            piece_len
  );

/**
  Tells what a reader says of the bytes that arrived: whether they are a dump, and if not, at which byte
  the first bad entry begins. An entry of which a part is still to come is bad until it has arrived.

  Behind the last piece, whole tells whether the dump was good. Before it, ended tells that no further
  piece is worth receiving. No bytes at all are a dump without entries.

  @param[in] reader  The reader, with any content.

  @retval VARPOLICY_SUCCESS  Always.
**/
VARPOLICY_CALL varpolicy_verdict
varpolicy_reader_verdict (
  const varpolicy_reader *reader
  );

/**
  Tells of a good entry its Size, its lock type and its rank. The first begins at byte 0, and each other
  where the one before it ends, so that a walk adds up the sizes until there is no entry. It may be made
  while pieces still arrive.

  @param[in] reader  The reader, with any content.
  @param[in] at      The byte of the dump at which the entry begins: 0, or such a sum. Of another byte the
                     answer tells what stands there, taken for an entry.

  @retval VARPOLICY_NOT_FOUND  No entry begins there within the good ones; they end at the verdict's bytes.
  @retval VARPOLICY_SUCCESS    The entry's bytes are reader->bytes + at, as many as its size.
**/
VARPOLICY_CALL varpolicy_listing
varpolicy_reader_entry (
  const varpolicy_reader *reader,
  size_t                  at
  );

#ifdef __cplusplus
}
#endif

#endif
