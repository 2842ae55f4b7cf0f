/* wagtenib: the proved checks of a Certificate Transparency log's proofs (RFC 6962, RFC 9162), and the proved decisions of a log, of its key, of a node, of a
 * witness and of readers.
 *
 * A hash is 32 bytes (SHA-256). A list of hashes is given by a pointer to its first byte and the number of hashes, which
 * stand one after the other. No call keeps a pointer or has any state, so every call may run in any thread at any time.
 * wagtenib_root, wagtenib_guard_receipts, wagtenib_lock_text, and the functions over steps, certificates, tiles and texts and those of the witness and of the monitor take memory (malloc), and
 * give it back before they return. All other memory is the caller's. A length is a number of bytes.
 *
 * What the caller owes, and nothing checks: each pointer points to as many bytes as is said, readable, and writable where
 * the pointer isn't const, which no other thread writes during the call (nor reads, where they are writable); what is
 * written overlaps no other argument; a length in bytes is below 2^63. The stack has 16 KB left.
 * A pointer with a length may be NULL if the length is 0. This is tested for each such pointer of each function (tests/library/replays.py), and not proved. No other
 * pointer is NULL. Beyond that every number and every byte is allowed.
 *
 * The memory that a call takes at most, for each byte of its arguments and beyond these. This is measured (tests/library/refusals.py), and not proved. The functions that
 * are not named here take none.
 *
 *   wagtenib_root                            0 bytes and 4 KB
 *   wagtenib_guard_receipts                  8 bytes and 1 KB
 *   wagtenib_lock_text                       2 bytes and 1 KB
 *   wagtenib_step                            8 bytes and 2 MB
 *   wagtenib_step_*                          3 bytes and 1 KB
 *   wagtenib_*_tiles                         2 bytes and 1 KB
 *   wagtenib_data_tile_leaves                10 bytes and 1 KB
 *   wagtenib_compare_data_tile               8 bytes and 1 KB
 *   wagtenib_precertificate_entry, wagtenib_promised_leaf, wagtenib_check_promise   3 bytes and 1 KB
 *   wagtenib_witness_*                       1 byte and 1 KB
 *   wagtenib_certificate_names, wagtenib_watched_names, wagtenib_names_in_bytes   8 bytes and 1 KB
 *   wagtenib_checkpoint_text, wagtenib_read_checkpoint, wagtenib_cosignature_message   2 bytes and 1 KB
 *   wagtenib_monitor_*                       8 bytes and 16 KB
 */
#ifndef WAGTENIB_H
#define WAGTENIB_H

#include <stdbool.h>
#include <stddef.h>
#include <stdint.h>

#ifdef __cplusplus
extern "C" {
#endif

/* The version of this header: 1,000,000 times the first number, 1,000 times the second, and the third. wagtenib_version returns that of the library. */
#define WAGTENIB_VERSION 1000
uint32_t wagtenib_version(void);

#ifdef WAGTENIB_SHA_INSTRUCTIONS
/* A build option, which is off by default (dist/README.md): SHA-256 runs by the processor's SHA instructions in place of the proved code, if the processor has them.
 * The proof does not speak of these instructions or of dist/sha_instructions.c, which has them. This function exists only with the option. It returns whether the
 * processor has the instructions, so that they are used. */
bool wagtenib_has_sha_instructions(void);
#endif

/* The answers. */
enum {
    WAGTENIB_OK = 0,
    WAGTENIB_INDEX_OUT_OF_RANGE = 1, /* leaf_index >= tree_size */
    WAGTENIB_PATH_TOO_LONG = 2,      /* hashes are left where the walk has ended */
    WAGTENIB_PATH_TOO_SHORT = 3,     /* the walk hasn't ended where the hashes have */
    WAGTENIB_ROOT_MISMATCH = 4,      /* the hashes lead to another root */
    WAGTENIB_EMPTY_PATH = 5,         /* a consistency proof of no hashes */
    WAGTENIB_FIRST_MISMATCH = 6,     /* a consistency proof leads to another first root */
    WAGTENIB_SIZES_OUT_OF_RANGE = 7, /* not 0 < first < second */
    WAGTENIB_OUT_OF_MEMORY = 8,      /* malloc refused; nothing is written */
    WAGTENIB_NO_ROOM = 9,            /* the caller's memory is too small for the result; wagtenib_push writes nothing then, and the others only how long it is */
    WAGTENIB_BAD_ORIGIN = 10,        /* the origin is empty, isn't UTF-8, or has a line end; nothing is written */
    WAGTENIB_TRUNCATED = 17,         /* the leaf ends before a field is whole */
    WAGTENIB_BAD_VERSION = 18,       /* the version isn't 0 (v1) */
    WAGTENIB_BAD_LEAF_TYPE = 19,     /* the leaf type isn't 0 (timestamped_entry) */
    WAGTENIB_BAD_ENTRY_TYPE = 20,    /* the entry type is neither 0 (x509_entry) nor 1 (precert_entry) */
    WAGTENIB_EMPTY_VECTOR = 21,      /* a certificate or TBSCertificate of no bytes */
    WAGTENIB_TRAILING = 22,          /* bytes follow the leaf */
    WAGTENIB_SIZE_FALLS = 32,        /* the head has fewer leaves than the last one */
    WAGTENIB_TIMESTAMP_NOT_LATER = 33, /* the head differs from the last one, and its timestamp is not later */
    WAGTENIB_FORK = 34,              /* the head or the checkpoint has the size of the last one, and another root */
    WAGTENIB_TIMESTAMP_TOO_FAR = 35, /* the head's timestamp is more than max_ahead beyond the last one's */
    WAGTENIB_BAD_STATE = 36,         /* a state is not the bytes that were signed last (the guard's TreeHeadSignature, the witness's message), or no monitor's state */
    WAGTENIB_STATE_ROLLED_BACK = 37, /* the state is before one that was seen */
    WAGTENIB_LATER_LEAF = 38,        /* the leaf's timestamp is later than the last head's */
    WAGTENIB_OTHER_INDEX = 39,       /* the leaf has extensions, and they are not only its index */
    WAGTENIB_NOT_FIRST = 40,         /* the head is neither that of the empty tree nor the named one */
    WAGTENIB_EDGE = 48,              /* the partial tiles are not those of the state, or the edge is no list of contents */
    WAGTENIB_ENTRIES = 49,           /* the partial data tile is not that of the state */
    WAGTENIB_CLOCK_BACK = 50,        /* the timestamp of the step is not later than the state's */
    WAGTENIB_LOG_FULL = 51,          /* the log would have more than 2^40 leaves */
    WAGTENIB_DATA_TILE_TOO_LONG = 52, /* a data tile would have 2^32 bytes or more */
    WAGTENIB_BUNDLE = 53,            /* the bundle is not that of the state */
    WAGTENIB_CLAIM = 54,             /* the audit path does not lead from the claimed entry to the root of the state */
    WAGTENIB_BAD_BATCH = 55,         /* the batch is no list of submissions, or the claim's submission is not one */
    WAGTENIB_TOO_MANY = 56,          /* the batch has more than 4,096 submissions */
    WAGTENIB_EMPTY_TREE = 64,        /* a tree without leaves has no tiles */
    WAGTENIB_TOO_MANY_TILES = 65,    /* more tiles are given than are needed */
    WAGTENIB_MISSING_TILE = 66,      /* fewer tiles are given than are needed */
    WAGTENIB_BAD_TILE = 67,          /* a tile does not have 32 bytes for each of its hashes */
    WAGTENIB_DER_TRUNCATED = 80,     /* the bytes end before an element of DER is whole */
    WAGTENIB_DER_LONG_TAG = 81,      /* the tag of an element has more than one byte */
    WAGTENIB_DER_INDEFINITE_LENGTH = 82, /* the length of an element is indefinite, which DER does not allow */
    WAGTENIB_DER_LONG_LENGTH = 83,   /* the length of an element has more than four bytes after the first */
    WAGTENIB_DER_PADDED_LENGTH = 84, /* the length of an element has more bytes than it needs, which DER does not allow */
    WAGTENIB_DER_OTHER_TAG = 85,     /* an element has another tag than its field must have */
    WAGTENIB_DER_TRAILING = 86,      /* bytes follow the last element */
    WAGTENIB_NO_EXTENSION = 87,      /* the certificate does not have the extension */
    WAGTENIB_SECOND_EXTENSION = 88,  /* the certificate has the extension twice */
    WAGTENIB_BAD_POISON = 89,        /* the poison is not critical, or its value is not NULL */
    WAGTENIB_TBS_TOO_LONG = 90,      /* the TBSCertificate has 2^24 bytes or more */
    WAGTENIB_EXTENSIONS_TOO_LONG = 91, /* the extensions of a timestamp have 2^16 bytes or more */
    WAGTENIB_NO_CHECKPOINT = 96,     /* the text is not that of a checkpoint without extension lines */
    WAGTENIB_OTHER_ORIGIN = 97,      /* the checkpoint is of another log than the state */
    WAGTENIB_OLD_ABOVE = 98,         /* the old size is above the checkpoint's */
    WAGTENIB_NOT_LAST = 99,          /* the old size is not that of the tree that was cosigned last */
    WAGTENIB_PROOF_NOT_EMPTY = 100,  /* there is a proof, although both trees are the same or the last one has no leaves */
    WAGTENIB_TIME_FALLS = 101,       /* the time of a cosignature is 0, or earlier than the last one's */
    WAGTENIB_BAD_COMMAND = 112,      /* no command of a node has this number */
    WAGTENIB_BAD_OUTCOME = 113,      /* no outcome of a command has this number */
    WAGTENIB_BAD_LOCK_TEXT = 114,    /* the bytes are no lock's text */
    WAGTENIB_BAD_BATCH_NAME = 115,   /* the bytes are no name of a staged batch */
    WAGTENIB_CREATES_LOCK = 116,     /* the node must create the lock of a new log */
    WAGTENIB_LOCK_GONE = 117,        /* there is no lock, and none is to be created, or there is something of a log */
    WAGTENIB_BEHIND_SEEN = 118,      /* this machine saw a head that is later than the lock's, or another one with its size and timestamp */
    WAGTENIB_BEHIND_SIGNED = 119,    /* a head was signed that is later than the lock's */
    WAGTENIB_TWO_ROOTS = 120,        /* another head with the lock's size and timestamp was signed */
    WAGTENIB_SIGNED_BEHIND_LISTED = 121, /* the store lists a head that is later than the last one that was signed */
    WAGTENIB_BEHIND_LISTED = 122,    /* the store lists a head that is later than the lock's, or another one with its size and timestamp */
    WAGTENIB_BEHIND_PUBLISHED = 123, /* a head is published that is later than the lock's, or another one with its size and timestamp */
    WAGTENIB_PARTIAL_FINGERPRINT = 139, /* the length of an entry's fingerprints is no multiple of 32 */
    WAGTENIB_OTHER_COUNT = 140,      /* there are not as many subtrees as a tree of the head's size has */
    WAGTENIB_OTHER_LENGTHS = 141,    /* the lengths of the entries do not add up to leaves_length */
    WAGTENIB_LATER_ENTRY = 142,      /* the entry is later than the head */
    WAGTENIB_BAD_WATCHED = 144,      /* the bytes are no list of watched names */
    WAGTENIB_NOT_UTF8 = 145,         /* the text is not UTF-8 */
    WAGTENIB_NO_DATA_TILE = 146,     /* the name is not that of a data tile */
    WAGTENIB_TILE_AFTER = 147,       /* the data tile begins after the next entry */
    WAGTENIB_TILE_BEFORE = 148,      /* the data tile ends before the next entry */
    WAGTENIB_OTHER_ENTRIES = 149,    /* the data tile has another number of entries than its name says */
    WAGTENIB_WRONG_INDEX = 150,      /* an entry of the data tile does not name its own index in its extensions */
    WAGTENIB_NOT_A_SUBTREE = 160,    /* the range of leaves is not a subtree */
    WAGTENIB_BEYOND_TREE = 161,      /* the subtree ends beyond the tree */
    WAGTENIB_EMPTY_RANGE = 162       /* the range has no leaves */
};

/* The verdicts of a monitor (struct wagtenib_monitor_verdict). No call returns them. */
enum {
    WAGTENIB_ACCEPTED = 128,         /* the waiting head is that of all leaves that were read, and is accepted */
    WAGTENIB_PENDING = 129,          /* the waiting head has more leaves than were read */
    WAGTENIB_AGAIN = 130,            /* the size and the root of a known head again */
    WAGTENIB_OLDER = 131,            /* fewer leaves than a known head has, and an earlier timestamp: ask for a consistency proof */
    WAGTENIB_SHRUNK = 132,           /* fewer leaves than a known head has, and not an earlier timestamp */
    WAGTENIB_FORKED = 133,           /* the size of a known head, and another root */
    WAGTENIB_HEAD_NOT_LATER = 134,   /* more leaves than a known head has, and not a later timestamp */
    WAGTENIB_OTHER_ROOT = 135,       /* the waiting head has another root than the leaves that were read; both are let go */
    WAGTENIB_GAP = 136,              /* the entries begin elsewhere, or no head waits, or there are no two heads for a proof */
    WAGTENIB_CONSISTENT = 137,       /* the proof leads from the accepted head to the waiting one, or from an older head to a known one */
    WAGTENIB_INCONSISTENT = 138      /* the proof does not lead there, which accuses nobody: the log did not sign it */
};

/* out = SHA-256(00 || leaf), the hash of a leaf (RFC 6962 section 2.1). */
void wagtenib_leaf_hash(const uint8_t *leaf, size_t leaf_length, uint8_t out[32]);

/* Checks an audit path (RFC 9162 section 2.1.3.2). 0 exactly where the path leads from the leaf hash at leaf_index, counted
 * from 0, to the root of a tree of tree_size leaves; else 1, 2, 3 or 4, the first fault in that order. */
uint32_t wagtenib_verify_inclusion(const uint8_t leaf_hash[32], uint64_t leaf_index, uint64_t tree_size,
                                   const uint8_t *path, size_t path_length, const uint8_t root[32]);

/* Checks a consistency proof (RFC 9162 section 2.1.4.2). 0 exactly where it leads to the roots of the first `first` and of
 * all `second` leaves; else 7, 5, 2, 3, 6 or 4, the first fault in that order. */
uint32_t wagtenib_verify_consistency(uint64_t first, uint64_t second, const uint8_t first_root[32],
                                     const uint8_t second_root[32], const uint8_t *path, size_t path_length);

/* Subtrees, whose hashes Merkle Tree Certificates sign (draft-ietf-plants-merkle-tree-certs). A subtree [start, end) has the leaves of one list from index `start`, counted
 * from 0, to end - 1. There is at least one, and `start` is a multiple of the smallest power of two that is not below their number. The hash of a subtree is MTH of its
 * leaves (RFC 6962 section 2.1). */

/* Checks a range. 0 exactly if [start, end) is a subtree; otherwise 160. */
uint32_t wagtenib_check_subtree(uint64_t start, uint64_t end);

/* Checks the consistency proof of a subtree. 0 exactly if it leads from subtree_hash, the hash of [start, end), to the root of a tree of tree_size leaves. Otherwise 160, 161,
 * 2, 3, 6 or 4, the first fault in that order; 6 says that it leads to another hash of the subtree. The first hash of the proof is nearest the leaves. If the subtree is
 * the whole tree, the proof has no hashes. */
uint32_t wagtenib_verify_subtree(uint64_t start, uint64_t end, uint64_t tree_size, const uint8_t subtree_hash[32], const uint8_t root[32],
                                 const uint8_t *proof, size_t proof_length);

/* hash = the hash of the subtree [start, end) to which the path of the leaf at leaf_index leads: the audit path of leaf_index - start in the tree of the subtree's leaves
 * (RFC 9162 section 2.1.3.2). 0: it is written. Otherwise 160, 1 (the leaf is not in the subtree), 2 or 3, the first fault in that order, and nothing is written. The
 * caller must compare the hash with one that it trusts for the same start and end, because the path does not show which subtree it belongs to. */
uint32_t wagtenib_evaluate_subtree_path(const uint8_t leaf_hash[32], uint64_t leaf_index, uint64_t start, uint64_t end, const uint8_t *path, size_t path_length,
                                        uint8_t hash[32]);

/* The subtrees that cover the leaves from index `start` to end - 1. 0: they are [*first, *middle) and [*middle, end), or only [start, end) if it is one leaf; then *first
 * and *middle are `start`. The first subtree has a power of two of leaves, and may begin before `start`. Both have fewer than twice as many leaves as the range. 162:
 * the range has no leaves, and nothing is written. */
uint32_t wagtenib_cover_range(uint64_t start, uint64_t end, uint64_t *first, uint64_t *middle);

/* out = MTH of these leaf hashes (RFC 6962 section 2.1). 8 where memory is refused, and out is as it was. Takes at most 4 KB,
 * whatever their number: below 2^58, since these are below 2^63 bytes. */
uint32_t wagtenib_root(const uint8_t *leaf_hashes, size_t count, uint8_t out[32]);

/* What stands in a leaf. */
struct wagtenib_leaf_info {
    uint64_t timestamp;          /* milliseconds */
    uint64_t certificate_length; /* bytes; it begins at byte 15 (entry_type 0) or 47 (entry_type 1) of the leaf */
    uint64_t extensions_length;  /* bytes; the extensions end the leaf */
    uint32_t entry_type;         /* 0: a certificate. 1: a TBSCertificate, with its issuer key hash at byte 12 */
};

/* Reads a leaf (MerkleTreeLeaf, RFC 6962 section 3.4). 0 exactly where the bytes are one, all of them, and out describes it;
 * else 17 to 22, the first fault from the left, and out is as it was. */
uint32_t wagtenib_decode_leaf(const uint8_t *leaf, size_t leaf_length, struct wagtenib_leaf_info *out);

/* A follower of a log, whose state is the caller's: `size` leaves, and the first `count` of the `places` hashes at
 * `subtrees`, the roots of their perfect subtrees, largest first. It begins with size 0 and count 0; 64 places serve for
 * every size. Any numbers and hashes are safe, and if they are those of a list of leaves, so are the new ones.
 * 0: the leaf hash is appended, the first *new_count hashes are those of size + 1 leaves, and those behind them are as they
 * were. Always so where count < places. 9: there is no place, and nothing has changed. */
uint32_t wagtenib_push(uint64_t size, size_t count, uint8_t *subtrees, size_t places, const uint8_t leaf_hash[32],
                       size_t *new_count);

/* out = MTH of the leaves whose perfect subtrees these are. */
void wagtenib_subtrees_root(const uint8_t *subtrees, size_t count, uint8_t out[32]);

/* A tree head without its signature (RFC 6962 section 3.5). */
struct wagtenib_head {
    uint64_t tree_size; /* leaves */
    uint64_t timestamp; /* milliseconds since 1970 */
    uint8_t root[32];
};

/* The guard decides what a log's key may sign. Its state is the TreeHeadSignature that was signed last, 50 bytes (RFC 6962 section 3.5), and belongs to the
 * caller, who keeps it in a place that one process at a time can change: a locked file, or a register with compare-and-set. To sign a head:
 *
 *   1. read the state, and call wagtenib_guard_head with it (wagtenib_guard_first_head if no state is kept);
 *   2. after 0, store `signed_bytes` as the new state, only if the old state is still there (or the new one already);
 *   3. after that, sign `signed_bytes`.
 *
 * Then the log signs no fork, however many processes call the guard and wherever they are killed. A state of another length, or with other bytes, is never
 * taken for no state: it is refused as 36. Only wagtenib_guard_receipts takes memory: 16 bytes for each leaf. */

/* Whether `head` may be the first head that a log signs. Call it when the log is created, or when the operator asks for it, and never only because a state
 * is missing. 0: it is the head of the empty tree (no leaves, root SHA-256 of no bytes), at any timestamp, or it has leaves and is equal to `named`, which
 * the operator names; its TreeHeadSignature is in signed_bytes. 40: it is neither, and nothing is written. If the operator names no head, `named` has the
 * size 0. */
uint32_t wagtenib_guard_first_head(const struct wagtenib_head *head, const struct wagtenib_head *named, uint8_t signed_bytes[50]);

/* Whether `head` may be signed after the head whose TreeHeadSignature is `last`. `proof` is the consistency proof between them (RFC 6962 section 2.1.2); if
 * their sizes are equal, or the last size is 0, it is not read. 0: `head` is the last head again, or its timestamp is later, by at most max_ahead
 * milliseconds, and its tree contains the last one's by the proof; its TreeHeadSignature is in signed_bytes. Otherwise nothing is written, and the result is
 * the first reason in this order: 36, 35, 32, 33, 34, then 5, 2, 3, 6 or 4 of the proof. */
uint32_t wagtenib_guard_head(const uint8_t *last, size_t last_length, const struct wagtenib_head *head, const uint8_t *proof, size_t proof_length,
                             uint64_t max_ahead, uint8_t signed_bytes[50]);

/* Whether an SCT of this leaf (MerkleTreeLeaf, RFC 6962 section 3.4) may be signed after the head whose TreeHeadSignature is `last`. The bytes that an SCT
 * signs are those of its leaf (section 3.2). 0: the audit path leads from the leaf at leaf_index to the root of that head, the leaf's timestamp is not
 * later than the head's, and its extensions are empty or contain only leaf_index (C2SP static-ct-api). Otherwise the first reason in this order: 36, 17
 * to 22 of the leaf, 1 to 4 of the path, 38, 39. A log that signs an SCT before the leaf is in a tree calls wagtenib_decode_leaf instead. */
uint32_t wagtenib_guard_receipt(const uint8_t *last, size_t last_length, const uint8_t *leaf, size_t leaf_length, uint64_t leaf_index,
                                const uint8_t *path, size_t path_length);

/* Whether SCTs of all leaves of a step may be signed after the head whose TreeHeadSignature is `last`: one call for the step, which hashes each leaf and each
 * node once. The leaves of the step have the indexes from first_index on. `subtrees` are the roots of the perfect subtrees of the first_index leaves before
 * them, largest first (those that wagtenib_push writes). The bytes of the leaves are in `leaves`, one leaf after the other, and `lengths` has the length of
 * each leaf in bytes; a leaf is cut where the bytes end. 0: the leaves end where the tree of that head ends, they and the subtrees give its root, and each
 * leaf's timestamp is not later than the head's, and its extensions are empty or contain only its index. Otherwise the first reason in this order: 36; 8;
 * 1 (there are no leaves, or they end elsewhere); 4; and then 17 to 22, 38 or 39 of the first leaf that may have no SCT. */
uint32_t wagtenib_guard_receipts(const uint8_t *last, size_t last_length, uint64_t first_index, const uint8_t *subtrees, size_t subtree_count,
                                 const uint8_t *leaves, size_t leaves_length, const uint64_t *lengths, size_t leaf_count);

/* Reads a state. 0: its head is in `head`, and is the head of the state `seen`, or has a later timestamp and no fewer leaves. 36: one of both is not the
 * TreeHeadSignature of a head. 37: the state was rolled back. Nothing is written unless the result is 0. To read a state without another, pass it twice. */
uint32_t wagtenib_guard_state(const uint8_t *seen, size_t seen_length, const uint8_t *state, size_t state_length, struct wagtenib_head *head);

/* The step of a tiled log (C2SP static-ct-api). Its state is the text of a line, `growth ` and 288 hexadecimal digits, and belongs to the caller, who keeps it
 * in a register with compare-and-set. The state names the tree's size, timestamp and root, and the SHA-256 hashes of the step's bundle, of the partial data
 * tile and of the state before. To add entries:
 *
 *   1. read the state, and the contents of the objects that wagtenib_step_needs names;
 *   2. call wagtenib_step with them, and store the bundle;
 *   3. after that, store the new state, only if the old state is still there;
 *   4. after that, put the objects of the bundle, and sign the head and the receipts.
 *
 * What crosses is in the presentation language of RFC 5246, section 4:
 *
 *   opaque Vector<0..2^64-1>;                  the length in 8 bytes, the highest first, and then the bytes
 *
 *   Vector edge[];                             the contents of the objects that the step needs, in the order of their names
 *
 *   TileLeaf batch[];                          at most 4,096 submissions, one after the other as in a data tile (C2SP static-ct-api), each with the
 *                                              timestamp 0 and no extensions: 8 bytes 0; the entry type (2 bytes) and the signed entry, a certificate
 *                                              (length in 3 bytes), or the issuer key hash (32 bytes) and the TBSCertificate (length in 3 bytes); 2 bytes
 *                                              0; of a precertificate the precertificate (length in 3 bytes); and the SHA-256 fingerprints of the chain's
 *                                              issuers (length in 2 bytes), at most 2,047
 *
 *   Vector names[];                            the names of the objects that a step needs
 *
 *   struct {
 *       Vector name;                           "tile/0/000" and so on (C2SP tlog-tiles)
 *       uint64 start;                          where the content begins in the bundle
 *       uint64 length;
 *       opaque sha256[32];
 *   } Object;
 *
 *   struct {
 *       opaque tree_head_signature[50];        what is signed for the head (RFC 6962, section 3.5)
 *       Vector checkpoint;                     the text of its checkpoint (C2SP tlog-checkpoint), without a signature
 *       Object objects<0..2^64-1>;             the objects of the bundle, in order
 *   } Published;
 *
 *   struct {
 *       uint64 leaf_index;
 *       uint64 timestamp;
 *       Vector signed;                         what is signed for the SCT (RFC 6962, section 3.2), which is also the leaf
 *   } Receipt;
 *
 *   struct {
 *       Published published;
 *       Vector state;                          the new state
 *       Vector bundle;
 *       Receipt receipts[];                    one for each submission, in the batch's order; of a repeat that of the first
 *   } Step;
 *
 * Entries repeat one another if their entry types and signed entries are equal; of these the first is taken in. A reply goes into `out`, which has `room`
 * bytes; bytes after the reply are unchanged. 9 (WAGTENIB_NO_ROOM): *length says how much room the reply needs, and nothing else is written; the call has
 * done all its work, so give a second call at least that much. On any other code but 0 nothing is written, not even *length. */

/* The state of a log without leaves, at this timestamp: 295 bytes. 0, 8 or 9. */
uint32_t wagtenib_step_begin(uint64_t timestamp, uint8_t *out, size_t room, uint64_t *length);

/* The names of the objects whose contents a step from this state needs. 0, 8, 9 or 36. */
uint32_t wagtenib_step_needs(const uint8_t *state, size_t state_length, uint8_t *out, size_t room, uint64_t *length);

/* A step from this state, a Step, at the timestamp `now`, which is at most max_ahead milliseconds beyond the state's. 0, 8, 9 or the first reason in this
 * order: 10, 55, 56, 36, 35, 48, 49, 50, 51, 52. */
uint32_t wagtenib_step(const uint8_t *origin, size_t origin_length, const uint8_t *state, size_t state_length, const uint8_t *edge, size_t edge_length,
                       const uint8_t *batch, size_t batch_length, uint64_t now, uint64_t max_ahead, uint8_t *out, size_t room, uint64_t *length);

/* The bytes to sign in the receipt of a submission, a batch of one, whose entry has this timestamp and is the leaf at leaf_index, by an audit path from that
 * leaf to the root of the state. The fingerprints of the submission's chain are not compared. 0, 8, 9 or the first reason in this order: 55, 36, 54. */
uint32_t wagtenib_step_claim(const uint8_t *state, size_t state_length, uint64_t leaf_index, uint64_t timestamp, const uint8_t *path, size_t path_length,
                             const uint8_t *submission, size_t submission_length, uint8_t *out, size_t room, uint64_t *length);

/* What is Published of the step that made this state, by its bundle. 0, 8, 9 or the first reason in this order: 10, 36, 53. */
uint32_t wagtenib_step_resume(const uint8_t *origin, size_t origin_length, const uint8_t *state, size_t state_length, const uint8_t *bundle,
                              size_t bundle_length, uint8_t *out, size_t room, uint64_t *length);

/* A node of a log: which command it carries out next (docs/NODE.md). Any number of nodes can write one log over one lock with compare-and-set and one store of
 * objects. A node begins with the command 0 (read the lock). It carries a command out, and calls wagtenib_node_next with the command and its outcome. Then the log
 * is one growing list, however many nodes call it, and whichever of them is killed at whichever command.
 *
 * A state of the log has a timestamp (milliseconds since 1970), the timestamp of the state that it was made from, and a salt, which is a random number. A lock's
 * text is a state's line, the address of the node that set it, and these numbers. The caller keeps the texts; wagtenib_lock_state says which state a text is of. */
struct wagtenib_node_state {
    uint64_t timestamp;
    uint64_t previous_timestamp;
    uint64_t salt;
};

/* A command. Those numbers and states that it is not about are 0.
 *
 *   0  read the lock
 *   1  look whether the head of the state `seen` is published, and if it is not, read the state's staged batch
 *   2  make a step from the state `seen`, or name a staged batch that may be deleted
 *   3  put the staged batch of the state `next`, which was made from `seen` and has `objects` objects
 *   4  swap the lock from the text of `seen` to that of `next`
 *   5  delete the staged batch of the state `next`
 *   6  put all `objects` objects of the state `next` under their public names
 *   7  add the entries of the state `next` to the index
 *   8  have the head of the state `next` signed, and publish it
 *   9  answer the submissions of the state `next` */
struct wagtenib_node_command {
    struct wagtenib_node_state seen;
    struct wagtenib_node_state next;
    uint64_t objects;
    uint32_t command;
};

/* The outcome of a command.
 *
 *   0  it is done
 *   1  it is not done, or is not known to be done and is not tried any more
 *   2  the lock has the text of `state`
 *   3  the head is published
 *   4  the staged batch was read, and has `objects` objects
 *   5  a step was made: it led to `state`, which has `objects` objects
 *   6  the store has a staged batch of `state` */
struct wagtenib_node_outcome {
    struct wagtenib_node_state state;
    uint64_t objects;
    uint32_t outcome;
};

/* The command that follows a command, by its outcome. 0: it is in `next`. An outcome that does not belong to the command gives the command again. 112 or 113:
 * nothing is written. */
uint32_t wagtenib_node_next(const struct wagtenib_node_command *command, const struct wagtenib_node_outcome *outcome,
                            struct wagtenib_node_command *next);

/* What a node finds of a log when it starts, beside the lock's text. `flags` is the sum of: 1 if the machine saw a head before (`seen`), 2 if a head was
 * signed (`signed_head`), 4 if a head is published, 8 if the store lists a head (the newest one), 16 if a guard decides what is signed, 32 if the store
 * has any object of a log, 64 if the operator asks for a new log, 128 if the lock exists. The root of a head is compared only if its size and its timestamp are
 * those of the lock's head. */
struct wagtenib_node_found {
    struct wagtenib_head seen;
    struct wagtenib_head signed_head;
    struct wagtenib_head published;
    struct wagtenib_head listed;
    uint32_t flags;
};

/* What a node does when it starts. It must read the lock first and the rest after it; lock_length is 0 if there is no lock. 0: it continues from the lock's text, since
 * no head that it found is later, and none with the size and timestamp of the lock's head has another root. 116: it creates the lock. 117 to 123: it must do neither, for the first reason in this order: 117 if there is no lock; otherwise
 * 118, 120 or 119, 121, 122, 123. 114: the bytes are no lock's text, or there are none although the lock exists. */
uint32_t wagtenib_node_start(const uint8_t *lock, size_t lock_length, const struct wagtenib_node_found *found);

/* Whether a node may go on from `head`, if `accepted` is the newest head that it accepted. `proof` is the consistency proof between them; if their sizes are
 * equal, or the size of `accepted` is 0, it is not read. 0: `head` is the accepted head again, or its timestamp is later, and its tree contains that of
 * `accepted` by the proof. Otherwise the first reason in this order: 32, 33, 34, then 5, 2, 3, 6 or 4 of the proof.
 *
 * A lock may hold an older text again, if its store is restored from a backup, and other nodes may continue from there. So a node keeps the newest head that it
 * accepted in a memory of its own, calls this function for the head of each text that it reads from the lock, and signs and publishes nothing of a text
 * before the result is 0 and the memory has its head. Then all heads and receipts that it signs belong to one list, whatever the lock holds. */
uint32_t wagtenib_node_accept(const struct wagtenib_head *accepted, const struct wagtenib_head *head, const uint8_t *proof, size_t proof_length);

/* Writes a lock's text: `line` is the state's line that a step gave, `node` the address of this node (UTF-8 without a line end), `previous_timestamp` that of the state
 * from which the step was made, and `salt` a new random number. 0: the text is written. 9: *length says how much room it needs, and nothing else is
 * written. 8: nothing is written. wagtenib_lock_state refuses the text if the line is none. */
uint32_t wagtenib_lock_text(const uint8_t *line, size_t line_length, const uint8_t *node, size_t node_length, uint64_t previous_timestamp,
                            uint64_t salt, uint8_t *text, size_t room, uint64_t *length);

/* Reads a lock's text. 0: its state and number of entries are written. 114: nothing is written. */
uint32_t wagtenib_lock_state(const uint8_t *text, size_t text_length, struct wagtenib_node_state *state, uint64_t *tree_size);

/* Writes the name of a state's staged batch, `staging/` and 48 hexadecimal digits in lower case. */
void wagtenib_batch_name(const struct wagtenib_node_state *state, uint8_t name[56]);

/* Reads the name of a staged batch. 0: its state is written, and wagtenib_batch_name writes this very name for it. 115: nothing is written. */
uint32_t wagtenib_batch_state(const uint8_t *name, size_t name_length, struct wagtenib_node_state *state);

/* Tiles of hashes (C2SP tlog-tiles). A reader asks for the names of the tiles that a root, an audit path or a consistency proof is made of, fetches these
 * tiles, and hands them in, in the order of the names: `contents` has their bytes, one tile after the other, and `lengths` the length of each tile in bytes. A
 * partial tile has as many hashes as its name says. If the tiles are those of a list of leaves, the result is the list's. Whatever they are, a reader checks
 * the result with wagtenib_verify_inclusion or wagtenib_verify_consistency.
 * 0: the result is written. 64, 1 or 7: no tree has it. 65 to 67: more tiles are handed in than are named; or the first wrong tile is missing, or does not have
 * 32 bytes for each of its hashes. 9: the result has no room, and *length (or *count, of hashes) says how much it needs. 8: memory is refused. Nothing else is
 * written unless the result is 0. 768 bytes serve for all names, and 65 hashes for all proofs. */

/* The names of the tiles, the lowest level first, each ended by a line feed. 0, 8 or 9; and 64 of a root, 1 of a path, 7 of a proof. */
uint32_t wagtenib_root_tiles(uint64_t tree_size, uint8_t *names, size_t room, uint64_t *length);
uint32_t wagtenib_path_tiles(uint64_t leaf_index, uint64_t tree_size, uint8_t *names, size_t room, uint64_t *length);
uint32_t wagtenib_proof_tiles(uint64_t first, uint64_t second, uint8_t *names, size_t room, uint64_t *length);

/* The root of the first tree_size leaves (RFC 6962 section 2.1). 0, 8, or 64 to 67. */
uint32_t wagtenib_root_of_tiles(uint64_t tree_size, const uint8_t *contents, size_t contents_length, const uint64_t *lengths, size_t tiles, uint8_t root[32]);

/* The audit path of a leaf (section 2.1.1), and the consistency proof from the first leaves to second (section 2.1.2). 0, 8, 9, 65 to 67; 1 of a path, 7 of a
 * proof. */
uint32_t wagtenib_path_of_tiles(uint64_t leaf_index, uint64_t tree_size, const uint8_t *contents, size_t contents_length, const uint64_t *lengths, size_t tiles,
                                uint8_t *path, size_t room, uint64_t *count);
uint32_t wagtenib_proof_of_tiles(uint64_t first, uint64_t second, const uint8_t *contents, size_t contents_length, const uint64_t *lengths, size_t tiles,
                                 uint8_t *proof, size_t room, uint64_t *count);

/* Data tiles (C2SP static-ct-api, "Log Entries"). In the presentation language of RFC 5246 (section 4), with Vector as above, the entries of a tile in order:
 *
 *   struct {
 *       Vector leaf;                           MerkleTreeLeaf (RFC 6962 section 3.4), the bytes that are hashed. wagtenib_decode_leaf reads it
 *       uint64 submitted_start;                the first byte in the tile of what was submitted: the certificate (entry type 0) or the precertificate (1)
 *       uint64 submitted_length;               bytes
 *       uint64 issuers_start;                  the first byte in the tile of the SHA-256 fingerprints of the issuers, which have 32 bytes each
 *       uint64 issuers_length;                 bytes
 *   } TileEntry;
 *
 *   TileEntry entries[];                       40 bytes for each entry and all bytes of the tile are always room enough */

/* Reads a data tile. 0 exactly if the bytes are leaves of data tiles (TileLeaf), one after the other, to their end; their entries are in `entries`. The number of
 * entries is not limited, and may be 0, and the extensions of an entry are not looked at: wagtenib_compare_data_tile compares them with the tile's name. 9: *length says how much room the entries need, and nothing else is written. 17, 20, 21 or 139: an entry is none, *faulty_index gets its
 * index in the tile, and the code says its first fault. 8: malloc refused. Nothing else is written with any code except 0. */
uint32_t wagtenib_data_tile_leaves(const uint8_t *tile, size_t tile_length, uint8_t *entries, size_t room, uint64_t *length, uint64_t *faulty_index);

/* Compares a data tile with its name ("tile/data/.."), for a reader that has the entries of the log before the index `next`. 0: it is the data tile of this name,
 * as many entries as the name says, it has the entry at `next`, and each entry from that one on names exactly its own index in its extensions (leaf_index). 150: the
 * same, but *index gets the first index in the log, from `next` on, whose entry does not. 149: it has another number of entries, which *index gets. 17, 20, 21 or
 * 139: an entry is none, *index gets its index in the tile, and the code says its first fault. 146: the name is not that of a data tile. 147: the tile begins after
 * `next`. 148: it ends before it; the bytes are not read with 146 to 148. 8: malloc refused. Nothing is written but *index, with the codes that say so. */
uint32_t wagtenib_compare_data_tile(const uint8_t *name, size_t name_length, uint64_t next, const uint8_t *tile, size_t tile_length, uint64_t *index);

/* Certificates (RFC 6962 sections 3.1 to 3.4), in DER. Output of a length that only the call knows goes into `entry` or `leaf`, which has room for that many
 * bytes, and *length gets its length. 9: it has no room, *length says how much it needs, and nothing else is written. 80 to 90: a certificate gives nothing.
 * This is the first reason that reading meets, and *field says where: the fields of a certificate (RFC 5280 section 4.1) have the numbers 1 certificate, 2
 * tbsCertificate, 3 signatureAlgorithm, 4 signatureValue, 5 version, 6 serialNumber, 7 signature, 8 issuer, 9 validity, 10 subject, 11
 * subjectPublicKeyInfo, 12 issuerUniqueID, 13 subjectUniqueID and 14 extensions, and 16 is added for the certificate of the issuer. *field is written with no
 * other code. 8: memory is refused. Nothing else is written with 8, 80 to 91. */

/* The entry of the precertificate with this TBSCertificate: the same without the poison extension (section 3.2). All other bytes stay as they are, except the
 * lengths around them. If a precertificate signing certificate issued it, the caller must replace the issuer and its key identifier first. 0, 8, 9, or 80
 * to 89. */
uint32_t wagtenib_precertificate_entry(const uint8_t *tbs, size_t tbs_length, uint8_t *entry, size_t room, uint64_t *length, uint32_t *field);

/* The leaf (MerkleTreeLeaf, section 3.4) that a timestamp in this certificate promises, with this time in milliseconds and these CtExtensions (without their
 * length): of the certificate without its list of timestamps, and of SHA-256 of its issuer's key. The log signs these bytes (section 3.2). 0, 8, 9, 80 to 88,
 * 90, or 91. */
uint32_t wagtenib_promised_leaf(const uint8_t *certificate, size_t certificate_length, const uint8_t *issuer, size_t issuer_length, uint64_t timestamp,
                                const uint8_t *extensions, size_t extensions_length, uint8_t *leaf, size_t room, uint64_t *length, uint32_t *field);

/* Whether that leaf is in a tree. 0: the audit path leads from it to the root, so it is at leaf_index of every list of tree_size leaves with this root
 * (assuming no SHA-256 collision). 1 to 4: the path does not. Otherwise as of wagtenib_promised_leaf. */
uint32_t wagtenib_check_promise(const uint8_t *certificate, size_t certificate_length, const uint8_t *issuer, size_t issuer_length, uint64_t timestamp,
                                const uint8_t *extensions, size_t extensions_length, uint64_t leaf_index, uint64_t tree_size, const uint8_t *path,
                                size_t path_length, const uint8_t root[32], uint32_t *field);

/* The names of a certificate (RFC 5280 section 4), in DER. `entry_type` is that of struct wagtenib_leaf_info: 0, and the bytes are a certificate; or 1, and they are
 * the TBSCertificate of a precertificate. The names are the common names of the subject, and after them the dNSName, rfc822Name,
 * uniformResourceIdentifier and iPAddress of subjectAltName, in order. In the presentation language of RFC 5246 (section 4), with Vector as above:
 *
 *   enum { common_name(1), bmp_common_name(2), universal_common_name(3), dns_name(4), mail_address(5), uri(6), ip_address(7), (255) } Kind;
 *
 *   struct {
 *       Kind kind;
 *       Vector bytes;                          as they are in the certificate: a character of bmp_common_name has 2 bytes, and one of universal_common_name 4
 *   } Name;
 *
 *   Name names[];
 *
 *   Vector watched[];                          the watched names. One that begins with a dot is watched with all names below it
 *
 *   struct {
 *       uint64 position;                       of the watched name in the list, counted from 0
 *       enum { alt_name(1), common_name(2), in_bytes(3), (255) } where;   common_name: no name of subjectAltName is the watched one
 *   } Found;
 *
 *   Found found[];
 *
 * Output, *length, *field and memory are as of the certificates above. 80 to 86: reading gives no names. The field 15 is subjectAltName. Otherwise as follows. */

/* The names. 0, 8, 9, 20, or 80 to 86. */
uint32_t wagtenib_certificate_names(uint32_t entry_type, const uint8_t *certificate, size_t certificate_length, uint8_t *names, size_t room, uint64_t *length,
                                    uint32_t *field);

/* Which of the watched names the certificate has, in the order of the list. A watched name is found by its labels (RFC 9525 section 6.3), without regard to the
 * case of ASCII letters and to one dot at its end: it is a name of the certificate, or a wildcard there stands for it. A mail address and a URI are compared by
 * their host, and an IP address by its text (RFC 5952). 0, 8, 9, or the first reason in this order: 20, 144, 80 to 86. */
uint32_t wagtenib_watched_names(uint32_t entry_type, const uint8_t *certificate, size_t certificate_length, const uint8_t *watched, size_t watched_length,
                                uint8_t *found, size_t room, uint64_t *length, uint32_t *field);

/* Which of the watched names are somewhere in the bytes, in the order of the list, each with the place in_bytes. The bytes may be any bytes: for example a
 * certificate that cannot be read, or that has the name in a field that no call above reads. A watched name is in the bytes if its text is, without regard to the
 * case of ASCII letters. Its text is the name without one dot at its end, and without the `*.` or the dot in front. An empty text is in all bytes. 0, 8, 9 or 144. */
uint32_t wagtenib_names_in_bytes(const uint8_t *bytes, size_t bytes_length, const uint8_t *watched, size_t watched_length, uint8_t *found, size_t room,
                                 uint64_t *length);

/* Texts and bytes that are signed, and the numbers by which keys are named. A reader needs them to check the signatures of logs and witnesses. No function here
 * checks a signature, and none decides what may be signed. */

/* The content of a checkpoint's text. Its origin is the first origin_length bytes of the text. */
struct wagtenib_checkpoint {
    uint64_t tree_size;     /* leaves */
    uint64_t origin_length; /* bytes */
    uint8_t root[32];
};

/* Writes the text of a checkpoint without signatures and extension lines (C2SP tlog-checkpoint). 0: it is in `text`. 9: *length says how much room it needs, and
 * nothing else is written. 8, or 10: nothing is written. */
uint32_t wagtenib_checkpoint_text(const uint8_t *origin, size_t origin_length, uint64_t tree_size, const uint8_t root[32], uint8_t *text, size_t room,
                                  uint64_t *length);

/* Reads the text of a checkpoint, with its last line end and without the empty line and the signatures after it. 0 exactly if it is one without extension lines,
 * and its content is in *checkpoint. 96 or 8: nothing is written. */
uint32_t wagtenib_read_checkpoint(const uint8_t *text, size_t text_length, struct wagtenib_checkpoint *checkpoint);

/* Writes the TreeHeadSignature of a head: the bytes under the log's signature (RFC 6962 section 3.5), also in a checkpoint (C2SP static-ct-api, "Checkpoints"). */
void wagtenib_tree_head_signature(const struct wagtenib_head *head, uint8_t signed_bytes[50]);

/* Writes the bytes under a cosignature of this time, in seconds since 1970, over the text of a note (C2SP tlog-cosignature, "cosignature/v1"). The text may be any
 * in UTF-8, with extension lines too. 0: they are in `message`. 9: *length says how much room they need, and nothing else is written. 8, or 145: nothing is
 * written. 41 bytes more than the text has are always enough. A witness calls wagtenib_witness_cosign instead, which decides whether it may sign them. */
uint32_t wagtenib_cosignature_message(uint64_t time, const uint8_t *text, size_t text_length, uint8_t *message, size_t room, uint64_t *length);

/* key_id = the first 4 bytes of SHA-256(name || 0A || algorithm || public key), by which a signature of a note names its key (C2SP signed-note). The algorithm 1 is
 * Ed25519 and 4 is cosignature/v1, and the key has 32 bytes. For the algorithm 5, RFC6962NoteSignature, the LogID is in place of the key. */
void wagtenib_note_key_id(const uint8_t *name, size_t name_length, uint8_t algorithm, const uint8_t *public_key, size_t public_key_length, uint8_t key_id[4]);

/* log_id = SHA-256 of the log's public key, a SubjectPublicKeyInfo in DER (RFC 6962 section 3.2). */
void wagtenib_log_id(const uint8_t *public_key, size_t public_key_length, uint8_t log_id[32]);

/* What a witness cosigned last of a log. */
struct wagtenib_witnessed_tree {
    uint64_t tree_size; /* leaves */
    uint64_t time;      /* seconds since 1970 */
    uint8_t root[32];
};

/* The witness decides which checkpoints are cosigned (C2SP tlog-witness). Its state is, for each log, the message that it cosigned last (C2SP tlog-cosignature,
 * "cosignature/v1": a line with the version, a line with the time in seconds, and the checkpoint's text), and belongs to the caller, who keeps it in a place that
 * one process at a time can change. To cosign a checkpoint:
 *
 *   1. check the log's signature, read the state, and call wagtenib_witness_cosign with it (wagtenib_witness_first if the log was never cosigned);
 *   2. after 0, store the *length bytes of `out` as the new state, only if the old state is still there (or the new one already);
 *   3. after that, sign these bytes.
 *
 * Then all trees that were cosigned are those of beginnings of one list, however many processes call the witness and wherever they are killed. An empty or
 * damaged state is never taken for none: it is refused as 36. The calls take memory (malloc), and give it back before they return. */

/* Whether `checkpoint` may be the first that is cosigned of the log with this origin (its name, without a line end). Call it only if the operator added the log,
 * and never because a state is missing. It is as wagtenib_witness_cosign after the tree without leaves, at the time 0. */
uint32_t wagtenib_witness_first(const uint8_t *origin, size_t origin_length, const uint8_t *checkpoint, size_t checkpoint_length, uint64_t old,
                                const uint8_t *proof, size_t proof_length, uint64_t time, uint8_t *out, size_t room, uint64_t *length);

/* Whether `checkpoint`, the text of a note with its last line end, may be cosigned at this time (in seconds since 1970) after the message `state`. `old` is the
 * size that the consistency proof is from. 0: the checkpoint has the origin of the state, `old` is the size of the state's tree, the proof leads from that tree to
 * the checkpoint's (it is empty if both are the same, or the last one has no leaves), and the time is neither 0 nor earlier than the state's; `out` begins with
 * the message, which has *length bytes, and the rest of it is unchanged. 9: the message has *length bytes, and `out` has no room for them; 41 bytes more than the
 * checkpoint has are always enough. Otherwise nothing is written, and the result is the first reason in this order: 36, 96, 97, 98, 99, 34, 100, then 5, 2, 3, 6
 * or 4 of the proof, 101; or 8. */
uint32_t wagtenib_witness_cosign(const uint8_t *state, size_t state_length, const uint8_t *checkpoint, size_t checkpoint_length, uint64_t old,
                                 const uint8_t *proof, size_t proof_length, uint64_t time, uint8_t *out, size_t room, uint64_t *length);

/* Reads a state. 0: its tree and time are in `last`, and it is the state `seen`, or that of a later cosignature of the same log: its time is not earlier, and its
 * tree is the same or has more leaves. 36: one of both is not the message of a cosignature. 37: the state was rolled back, or is of another log. 8: malloc
 * refused. Nothing is written unless the result is 0. To read a state without another, pass it twice. */
uint32_t wagtenib_witness_state(const uint8_t *seen, size_t seen_length, const uint8_t *state, size_t state_length, struct wagtenib_witnessed_tree *last);

/* The monitor judges what a log hands out: tree heads, entries and consistency proofs. Its state is bytes, which belong to the caller, and each call over a state
 * writes the next one. The state has the accepted head, the newer head that waits for its entries, the earliest and the newest timestamp that each of both was handed
 * out with, and the roots of the perfect subtrees of the accepted leaves and of all leaves that were read. No leaf is kept. To watch a log:
 *
 *   1. check the signature of a tree head, and hand the head to wagtenib_monitor_head with the state (that of wagtenib_monitor_begin at first, or that of
 *      wagtenib_monitor_start to read a log from its end);
 *   2. if the verdict is 131, ask the log for a consistency proof from this head to the known one, and hand it to wagtenib_monitor_older: a fork that lags is older
 *      too;
 *   3. while the verdict is 129, hand the entries from the index leaves_read on to wagtenib_monitor_entries;
 *   4. after each call that returns 0, keep the *length bytes of `out` as the state. Before it, or together with it in one write, keep what speaks against the log,
 *      and the entries or what was found in them: entries before leaves_read are not handed out again, so what is kept after the state is lost by a kill between.
 *
 * A call that never came back counts for nothing: the old state still stands. Every head that gets the verdict 128 is that of a beginning of one list of leaves,
 * those that the log handed out and that are accepted after the last call. So is each older head that gets the verdict 137 beside the accepted head (assuming no
 * SHA-256 collision). Judge an older head again if it was judged beside the waiting head, after that head is accepted.
 *
 * The verdicts 132, 133, 134 and 135 speak against the log. A head gets one of the first three if and only if it and a known head contradict each other, which is two
 * signatures of the log's key. Known are the heads of the accepted and of the waiting tree, with their earliest and their newest timestamp. An entry that is later than
 * its head speaks against the log (later_timestamp is not 0, or wagtenib_monitor_entry returns 142), and so does one of a tiled log that does not name its own index
 * (wagtenib_compare_data_tile returns 150). The verdict 138 does not: keep both heads, and compare the smaller one with the root that the log's tiles or entries give.
 *
 * A state is read only if its parts fit one another and its hash is right. Everything else is refused as 36. A state that a call wrote is never refused, and neither is
 * one that begins with the byte 1, which has no newest timestamps (its heads count as handed out once). An empty state is never taken for the first one. The calls take memory (malloc), and give it back before
 * they return. 4,275 bytes have room for every state. */

/* What a call says. A number that the verdict does not name is 0. */
struct wagtenib_monitor_verdict {
    uint64_t leaves_accepted;    /* leaves of the accepted head */
    uint64_t leaves_read;        /* leaves that were read: the index of the next one that is wanted */
    uint64_t leaves_wanted;      /* leaves of the waiting head, or leaves_read if no head waits */
    struct wagtenib_head known;  /* 131 to 134: the known head; its earliest timestamp, or its newest with 134 */
    uint8_t root[32];            /* 135: the root of the leaves that were read */
    uint32_t verdict;            /* 128 to 138 */
    uint32_t fault;              /* 138: the fault of the proof, as of wagtenib_verify_consistency */
};

/* What is reported of the entries that were read. They are indexes in the log. */
struct wagtenib_entry_report {
    uint64_t head_timestamp;     /* the timestamp in milliseconds of the head that waited for them; 0 if none waited */
    uint64_t later_index;        /* the first entry that is later than that head (RFC 6962 section 3.5) */
    uint64_t later_timestamp;    /* its timestamp in milliseconds; 0 if there is none */
    uint64_t faulty_index;       /* the first entry that is no leaf */
    uint32_t fault;              /* its fault, 17 to 22 as of wagtenib_decode_leaf; 0 if each entry is a leaf */
};

/* The state of a monitor that was handed nothing. 0: `out` begins with it, it has *length bytes, and the rest of `out` is unchanged. 9: *length says how much
 * room it needs, and nothing else is written. 8: nothing is written. */
uint32_t wagtenib_monitor_begin(uint8_t *out, size_t room, uint64_t *length);

/* The state of a monitor that is told to trust this head: it counts as accepted, and reading goes on from the leaf with the index tree_size. The caller must have
 * checked the head's signature. `subtrees` are the roots of the perfect subtrees of the head's leaves, largest first, as wagtenib_push keeps them. They are in the
 * audit path of the last leaf: if tree_size ends with k zeros in binary, the leaf hash and the first k hashes give the smallest subtree, and the others of the path
 * are the larger ones, from the smallest up.
 * If the trusted head is that of a list of leaves, each head with the verdict 128 after it is that of a beginning of one list, which begins with these leaves
 * (assuming no SHA-256 collision). Nothing is said of these leaves themselves: no one has read them, and a head that no leaves have is not found out.
 * 140: there are not as many subtrees as a tree of tree_size leaves has (the ones of that number in binary). 4: they lead to another root. Otherwise as
 * wagtenib_monitor_begin, and nothing is written with 140 and 4. */
uint32_t wagtenib_monitor_start(const struct wagtenib_head *head, const uint8_t *subtrees, size_t count, uint8_t *out, size_t room, uint64_t *length);

/* The verdict on a tree head. It is compared with the accepted head and the waiting one: 130 to 134; 132, 133 and 134 come before the others, and the accepted head
 * before the waiting one. With 130 the next state has its timestamp. If it is larger and later than both, it waits from then on, and is compared with the leaves that
 * were read: 128, 129 or 135. While another head waits, a larger one gets the verdict on that head, 129, and is not kept: hand it in again later. 0: the verdict is in `verdict`, and `out` begins with the
 * next state, which has *length bytes; the rest of `out` is unchanged. 9: that state has *length bytes, and `out` has no room for them; nothing else is written.
 * 36: `state` is no state. 8: malloc refused. Nothing is written with 36 and 8. */
uint32_t wagtenib_monitor_head(const uint8_t *state, size_t state_length, const struct wagtenib_head *head, struct wagtenib_monitor_verdict *verdict, uint8_t *out,
                               size_t room, uint64_t *length);

/* The verdict on the leaves from the index `start` on. `leaves` has the bytes of all of them (MerkleTreeLeaf, RFC 6962 section 3.4), one after the other, and
 * `lengths` the length of each. 141: the lengths do not add up to leaves_length, and nothing is written. The verdict is 136 if no head waits, or `start` is not
 * leaves_read. Otherwise as many are read as the waiting head wants, whether they are leaves or not, and that head is compared with all that were read: 128, 129 or
 * 135. `report` is written with the verdict. Otherwise as wagtenib_monitor_head. */
uint32_t wagtenib_monitor_entries(const uint8_t *state, size_t state_length, uint64_t start, const uint8_t *leaves, size_t leaves_length, const uint64_t *lengths,
                                  size_t count, struct wagtenib_monitor_verdict *verdict, struct wagtenib_entry_report *report, uint8_t *out, size_t room,
                                  uint64_t *length);

/* The verdict on a consistency proof from the accepted head to the waiting one: 137 or 138, or 136 if there are no two such heads. The state stays the same.
 * Otherwise as wagtenib_monitor_head. */
uint32_t wagtenib_monitor_proof(const uint8_t *state, size_t state_length, const uint8_t *path, size_t path_length, struct wagtenib_monitor_verdict *verdict,
                                uint8_t *out, size_t room, uint64_t *length);

/* The verdict on a consistency proof from an older head, which got the verdict 131, to the accepted head if that has more leaves, otherwise to the waiting one: 137 or
 * 138, or 136 if neither has more leaves. A head of no leaves needs no proof: it is judged by its root alone. Timestamps are not compared. The state stays the same. Otherwise as
 * wagtenib_monitor_head. */
uint32_t wagtenib_monitor_older(const uint8_t *state, size_t state_length, const struct wagtenib_head *head, const uint8_t *path, size_t path_length,
                                struct wagtenib_monitor_verdict *verdict, uint8_t *out, size_t room, uint64_t *length);

/* Compares two tree heads of one log by their numbers. 0: `head` has more leaves than `known`, and is later. 130: the same size and root. 131: it has fewer leaves and
 * is earlier. After 0 and 131 a consistency proof decides (wagtenib_verify_consistency). 132, 133 and 134: the two heads contradict each other (RFC 6962 section 3.5). */
uint32_t wagtenib_compare_heads(const struct wagtenib_head *known, const struct wagtenib_head *head);

/* The verdict on one leaf (MerkleTreeLeaf, RFC 6962 section 3.4) beside a tree head with this timestamp, both in milliseconds. A report has only the first entries
 * that are later or no leaf; with its head_timestamp, this call says it of each entry that was read. 0: it is no later than the head. 142: it is later, which speaks
 * against the log (section 3.5). *timestamp gets the leaf's in both cases. 17 to 22: the bytes are no leaf, as of wagtenib_decode_leaf, and nothing is written. */
uint32_t wagtenib_monitor_entry(uint64_t head_timestamp, const uint8_t *leaf, size_t leaf_length, uint64_t *timestamp);

#ifdef __cplusplus
}
#endif

#endif
