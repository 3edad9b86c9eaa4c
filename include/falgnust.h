/* Decoders of EVR0 evidence sections and of SemCode functions and their blocks, proved, as C functions.
 *
 * Link target/staticlib/libfalgnust.a, which tools/library writes (x86-64 Linux). The functions of crates/falgnust/src are
 * declared here in full; each has there, as its contract, the definition that its answer is proved to equal. They allocate nothing, keep
 * nothing between calls, write to the lent tables and to a register that is brought alone, and may be called from several threads.
 *
 * What a caller owes, since nothing checks it:
 *   - a pointer is not null and is valid for the length after it, also where that is 0;
 *   - a lent table or a register overlaps neither another one nor the bytes.
 *
 * What a caller gets: an answer that is accepted, with zeros in its refusal; or refused, with the kind, number and offset of document 01
 * (docs/01-scope.md) and zeros in the other fields, but for a cursor. After a refusal each table that was lent is zeros, whole;
 * else the entries past a count are zeros. */
#ifndef FALGNUST_H
#define FALGNUST_H

#include <stdbool.h>
#include <stddef.h>
#include <stdint.h>

#ifdef __cplusplus
extern "C" {
#define FALGNUST_ASSERT static_assert
#else
#define FALGNUST_ASSERT _Static_assert
#endif

/* The version of this header: ten thousand times the first number, a hundred times the second, and the third. The first rises where a
 * struct, an argument or an answer changes, and the second where something is added. */
#define FALGNUST_VERSION 70400

/* Layouts: the size of each struct below is that of the struct in crates/falgnust/src. */
#define FALGNUST_SIZE(type, size) FALGNUST_ASSERT(sizeof(type) == (size), #type " has another layout")

FALGNUST_ASSERT(sizeof(size_t) == 8, "the library is for 64 bits");

/* ---- Refusals ---- */

/* The kinds, in document 01's order, and after them those of the requests (docs/02-change-requests.md). */
enum {
    FALGNUST_INVALID = 0,
    FALGNUST_LIMIT = 1,
    FALGNUST_STRINGS = 2,
    FALGNUST_DEBUG = 3,
    FALGNUST_OWNERSHIP = 4,
    FALGNUST_ADDED = 5,
    FALGNUST_TRUNCATED = 6,
    FALGNUST_NAME = 7,
    FALGNUST_SIGNATURE = 8
};

typedef struct FalgnustRefusal {
    uint8_t kind;
    uint8_t number; /* 1 to 76; 0 in an accepted answer */
    size_t offset;
} FalgnustRefusal;
FALGNUST_SIZE(FalgnustRefusal, 16);

/* The message of each number, in the Rust's words; after those of 31, 36 and 73 the Rust writes the count; 63, 64 and 72 have three each
 * there, and 71 two; it has none of 61, 62, 66 to 70 and 74 to 76. 0 stands for no refusal. */
static const char *const FALGNUST_MESSAGES[77] = {
    "accepted",
    "missing mandatory EVR0 section",
    "EVR0 length truncated",
    "EVR0 payload exceeds bounded section budget or is empty",
    "EVR0 payload truncated",
    "EVR0 truncated field",
    "EVR0 empty or overlong text field",
    "EVR0 invalid UTF-8",
    "EVR0 control character in text field",
    "EVR0 nonzero reserved bytes",
    "unsupported EVR0 schema",
    "EVR0 flags must be zero",
    "EVR0 table count exceeds limit",
    "EVR0 count exceeds remaining payload",
    "EVR0 allocation budget exceeded",
    "EVR0 work budget exceeded",
    "EVR0 proposition table not strictly ordered",
    "EVR0 proof identity or order invalid",
    "EVR0 witness or parent ranges are not contiguous",
    "EVR0 proof range exceeds table",
    "EVR0 unknown proof rule",
    "EVR0 invalid proof rule shape",
    "EVR0 witness or parent table not fully owned",
    "EVR0 witness identity, polarity or source span invalid",
    "EVR0 payload has trailing bytes",
    "EVR0 invalid or noncanonical parent reference",
    "EVR0 parent identity or authority mismatch",
    "EVR0 derivation depth limit exceeded",
    "EVR0 witness and proof proposition mismatch",
    "EVR0 witness polarity contradicts rule",
    "missing string table header",
    "too many strings in function: ",
    "missing string length",
    "string too long in function string table",
    "invalid utf8 in string table",
    "missing debug symbol count",
    "too many debug symbols: ",
    "missing debug pc",
    "missing debug line",
    "missing debug col",
    "missing ownership path count",
    "missing ownership event kind",
    "missing borrow activation mode",
    "missing borrow executable anchor",
    "unrecognized borrow activation mode",
    "missing write execution mode",
    "missing write executable anchor",
    "unrecognized write execution mode",
    "missing ownership path root",
    "missing ownership path component count",
    "missing ownership path component kind",
    "missing ownership tuple index",
    "missing ownership field symbol",
    "Write(AdtPayload) is not an admitted ownership path under any header revision",
    "Borrow(AdtPayload) requires a header at or above SEMCODE_ADT_BORROW_OWNERSHIP_MIN_REVISION",
    "missing ownership adt payload variant",
    "missing ownership adt payload index",
    "SequenceIndexStatic requires a header at or above SEMCODE_SEQUENCE_OWNERSHIP_MIN_REVISION",
    "missing ownership sequence index",
    "unsupported ownership path component kind",
    "unsupported ownership event kind",
    "lent table shorter than its count",
    "number not in the accepted table",
    "function's name length or code length cut, or its block past the end",
    "function's name empty, too long, cut or not UTF-8",
    "too many functions (>1024)",
    "path of more than 16 components",
    "path touches a lock of another owner, and either is a write",
    "more than 256 locks",
    "count or rule of a rule table outside its bounds or cut, or bytes left over",
    "rule's name given twice",
    "OWN0 or SIG0 section missing",
    "parameter count or family cut, or family unknown",
    "too many callable-signature parameters: ",
    "source sets differ",
    "number of a column in more groups than needed, or too large for its field",
    "columns cut, or bytes left over after them"
};

/* ---- Evidence sections ----
 *
 * The lent tables take the start of each proposition record in the payload, the start of each proof record, each proof's depth and, where
 * it is lent, each proof's mark. A table that is shorter than its count is refused with 61. Tables of (bytes_len - cursor) / 15 propositions
 * and (bytes_len - cursor) / 35 proofs, depths and marks are never too short, nor are tables of 65536 each.
 *
 * The payload of an accepted section is bytes[cursor + 8] to bytes[section.cursor - 1]. */

typedef struct FalgnustSection {
    bool accepted;
    FalgnustRefusal refusal; /* its offset is a place in the bytes */
    uint8_t source_set[32];
    uint8_t compiler_contract[32];
    uint16_t epoch;
    uint16_t schema; /* 1 or 2: a span's start and end take 4 bytes each in the payload under 1, and 8 under 2 */
    size_t policy_at; /* places in the payload of the policy's and the issuer's length: falgnust_read_text reads each */
    size_t issuer_at;
    size_t policy_chars; /* how many characters each has */
    size_t issuer_chars;
    size_t propositions; /* the four counts */
    size_t proofs;
    size_t witnesses;
    size_t parents;
    size_t cursor; /* after the section; after a refusal, the cursor that was brought */
} FalgnustSection;
FALGNUST_SIZE(FalgnustSection, 168);

/* A proof's mark: whether every walk down from it, by any parents until none is left, ends at a positive witness (polarity 1), every such
 * walk at a negative one (polarity 0), or neither. */
enum {
    FALGNUST_MARK_POSITIVE = 1,
    FALGNUST_MARK_NEGATIVE = 2,
    FALGNUST_MARK_BOTH = 3
};

/* Decodes the section at a cursor. */
FalgnustSection falgnust_decode_evr0_section(
    const uint8_t *bytes, size_t bytes_len, size_t cursor,
    uint64_t *propositions, size_t propositions_len,
    uint64_t *proofs, size_t proofs_len,
    uint64_t *depths, size_t depths_len,
    uint8_t *marks, size_t marks_len);

/* The same without the marks, for a caller that looks at none. */
FalgnustSection falgnust_decode_evr0_unmarked(
    const uint8_t *bytes, size_t bytes_len, size_t cursor,
    uint64_t *propositions, size_t propositions_len,
    uint64_t *proofs, size_t proofs_len,
    uint64_t *depths, size_t depths_len);

/* A text of a record: its place in the payload, its bytes (UTF-8 without control characters), its characters, the place after it. */
typedef struct FalgnustSpan {
    size_t start;
    size_t len;
    size_t chars;
    size_t next;
} FalgnustSpan;
FALGNUST_SIZE(FalgnustSpan, 32);

/* In each record, start is its place in the payload. */

typedef struct FalgnustProposition {
    bool accepted;
    FalgnustRefusal refusal;
    size_t start;
    FalgnustSpan kind;
    uint32_t ast_owner_id;
    uint32_t semantic_scope_id;
    uint32_t type_obligation_id;
} FalgnustProposition;
FALGNUST_SIZE(FalgnustProposition, 80);

typedef struct FalgnustProof {
    bool accepted;
    FalgnustRefusal refusal;
    size_t start;
    uint32_t proof_id;
    uint32_t proposition_index;
    FalgnustSpan rule_id;
    uint32_t authority_context;
    uint32_t witness_first; /* a witness number */
    uint32_t witness_count;
    uint32_t parent_first; /* a parent cell's number */
    uint32_t parent_count;
    uint8_t authorized_operation;
} FalgnustProof;
FALGNUST_SIZE(FalgnustProof, 96);

typedef struct FalgnustWitness {
    bool accepted;
    FalgnustRefusal refusal;
    size_t start;
    uint8_t file_digest[32];
    uint8_t origin_digest[32];
    uint32_t witness_id;
    uint32_t proposition_index;
    uint8_t polarity;
    uint64_t source_start; /* 64 bits under either schema */
    uint64_t source_end;
} FalgnustWitness;
FALGNUST_SIZE(FalgnustWitness, 128);

typedef struct FalgnustParent {
    bool accepted;
    FalgnustRefusal refusal;
    size_t start;
    uint32_t proof_id; /* the parent's number */
} FalgnustParent;
FALGNUST_SIZE(FalgnustParent, 40);

/* A record at a place of a payload: a proposition at an entry of the table of propositions, a proof at one of proofs, a witness and a
 * parent cell at the places below. This is how to read all records of a section that was decoded once. A place where no such record
 * stands gives whatever its bytes say, or a refusal (5 to 9) whose offset counts from that place.
 *
 * schema, here and below, is the section's: under 2 a witness takes 92 bytes, its span's start and end 8 each; any other number means 84 and
 * 4, as 1 does. */
FalgnustProposition falgnust_read_proposition(const uint8_t *payload, size_t payload_len, size_t at);
FalgnustProof falgnust_read_proof(const uint8_t *payload, size_t payload_len, size_t at);
FalgnustWitness falgnust_read_witness(const uint8_t *payload, size_t payload_len, uint16_t schema, size_t at);
FalgnustParent falgnust_read_parent(const uint8_t *payload, size_t payload_len, size_t at);

/* The place of a witness and of a parent cell in a payload of len bytes, by the counts of its section; 0, where no record stands, for a
 * number that is not below its count. */
size_t falgnust_witness_place(size_t len, uint16_t schema, size_t witnesses, size_t parents, uint32_t number);
size_t falgnust_parent_place(size_t len, size_t parents, uint32_t number);

/* The fields of many records at once, as words of a lent table, for whoever copies all records of a section that was decoded once. Nothing is
 * checked but that each record is there, so the starts have to be those of its records. Each record takes so many words, in the order of its
 * struct above; a text stands there as its place and its length, a digest as its place. The answer is true where every record is there and
 * all words fit, and the words past them are zeros; where it is false, all words are zeros. */
bool falgnust_proposition_words( /* 5 words each */
    const uint8_t *payload, size_t payload_len, const uint64_t *starts, size_t starts_len, uint64_t *words, size_t words_len);
bool falgnust_proof_words( /* 10 words each */
    const uint8_t *payload, size_t payload_len, const uint64_t *starts, size_t starts_len, uint64_t *words, size_t words_len);
bool falgnust_witness_words( /* 7 words each: number, proposition, polarity, first digest, start, end, second digest */
    const uint8_t *payload, size_t payload_len, uint16_t schema, const uint64_t *starts, size_t starts_len, uint64_t *words, size_t words_len);
/* The parent cells from a place on, as many as there are words. */
bool falgnust_parent_words(const uint8_t *payload, size_t payload_len, size_t at, uint64_t *words, size_t words_len);

/* A record by its number. Each call decodes the section anew first, with the refusals and the tables of falgnust_decode_evr0_unmarked, whose
 * offsets are places in the bytes; a number that is not below its count is then refused with 62 at 0. */
FalgnustProposition falgnust_proposition_number(
    const uint8_t *bytes, size_t bytes_len, size_t cursor, uint32_t number,
    uint64_t *propositions, size_t propositions_len,
    uint64_t *proofs, size_t proofs_len,
    uint64_t *depths, size_t depths_len);
FalgnustProof falgnust_proof_number(
    const uint8_t *bytes, size_t bytes_len, size_t cursor, uint32_t number,
    uint64_t *propositions, size_t propositions_len,
    uint64_t *proofs, size_t proofs_len,
    uint64_t *depths, size_t depths_len);
FalgnustWitness falgnust_witness_number(
    const uint8_t *bytes, size_t bytes_len, size_t cursor, uint32_t number,
    uint64_t *propositions, size_t propositions_len,
    uint64_t *proofs, size_t proofs_len,
    uint64_t *depths, size_t depths_len);
FalgnustParent falgnust_parent_number(
    const uint8_t *bytes, size_t bytes_len, size_t cursor, uint32_t number,
    uint64_t *propositions, size_t propositions_len,
    uint64_t *proofs, size_t proofs_len,
    uint64_t *depths, size_t depths_len);

/* The way down from a proof, always to the first parent, with a limit on the moves: the witness at its end and the moves made; or spent,
 * where as many moves as the limit were made and the proof reached has a parent. An accepted section has no way of more than 255 moves. */
typedef struct FalgnustWayDown {
    bool accepted;
    FalgnustRefusal refusal;
    bool spent;
    uint32_t witness; /* where it is not spent: a witness number */
    uint64_t moves;   /* where it is not spent */
    uint32_t proof;   /* where it is spent: the proof reached */
} FalgnustWayDown;
FALGNUST_SIZE(FalgnustWayDown, 48);

/* Decodes anew, and 62, as above. */
FalgnustWayDown falgnust_way_down(
    const uint8_t *bytes, size_t bytes_len, size_t cursor, uint32_t from, uint64_t limit,
    uint64_t *propositions, size_t propositions_len,
    uint64_t *proofs, size_t proofs_len,
    uint64_t *depths, size_t depths_len);

/* Whether some proof of a proposition has operation 1 and mark 1: both one proof's, whatever its authority and whatever other proofs are
 * marked. */
typedef struct FalgnustAuthorised {
    bool accepted;
    FalgnustRefusal refusal;
    bool authorised;
} FalgnustAuthorised;
FALGNUST_SIZE(FalgnustAuthorised, 32);

/* Decodes anew as falgnust_decode_evr0_section does, with its marks; 62 as above. */
FalgnustAuthorised falgnust_authorised(
    const uint8_t *bytes, size_t bytes_len, size_t cursor, uint32_t proposition,
    uint64_t *propositions, size_t propositions_len,
    uint64_t *proofs, size_t proofs_len,
    uint64_t *depths, size_t depths_len,
    uint8_t *marks, size_t marks_len);

/* The same of every proposition, in one pass: the answer and the four tables of falgnust_decode_evr0_section, and authorised[i] is 1 where
 * proposition i is authorised, else 0. That table is to be as long as the one of propositions: the shorter of the two decides whether 61 is
 * given. Whoever lists a section asks this and not falgnust_authorised of each proposition, which decodes it each time. */
FalgnustSection falgnust_authorised_table(
    const uint8_t *bytes, size_t bytes_len, size_t cursor,
    uint64_t *propositions, size_t propositions_len,
    uint64_t *proofs, size_t proofs_len,
    uint64_t *depths, size_t depths_len,
    uint8_t *marks, size_t marks_len,
    uint8_t *authorised, size_t authorised_len);

/* ---- Two sections compared ----
 *
 * Two compilers translate the same sources, and their sections are held against each other. Each section stands in its bytes at its cursor, and
 * has five lent tables of its own, those of falgnust_authorised_table; one part of bytes may serve as both. Propositions are matched on kind, owner,
 * scope and type. Each that either section has stands once in a list, in the order of propositions, as a verdict in the lent table `verdicts`. */

/* Authorised in both or in neither; in one of the two alone; a proposition of the first section alone; of the second alone. */
enum {
    FALGNUST_AGREED = 1,
    FALGNUST_CONTRADICTED = 2,
    FALGNUST_FIRST_ONLY = 3,
    FALGNUST_SECOND_ONLY = 4
};

/* Whose refusal an answer holds: in this order they are asked. */
enum {
    FALGNUST_COMPARED = 0,       /* no one's */
    FALGNUST_RULES_REFUSED = 1,  /* the table's of rules: 69 or 70, at 0 */
    FALGNUST_FIRST_REFUSED = 2,  /* the first section's: as falgnust_authorised_table refuses it, at a place in the first bytes */
    FALGNUST_SECOND_REFUSED = 3, /* the second section's: likewise, at a place in the second bytes */
    FALGNUST_PAIR_REFUSED = 4    /* of both together: 74 where the source sets differ, at the second's source set, second_cursor + 12 in the second
                                    bytes; then 61 at 0 where verdicts is shorter than the list */
};

typedef struct FalgnustComparison {
    bool accepted;
    uint8_t whose; /* FALGNUST_COMPARED exactly where accepted */
    FalgnustRefusal refusal;
    size_t agreed; /* how many of each verdict; the list is as long as all four together */
    size_t contradicted;
    size_t first_only;
    size_t second_only;
} FalgnustComparison;
FALGNUST_SIZE(FalgnustComparison, 56);

/* Compares. The list has at least as many entries as the larger count of propositions and at most as many as both together, 131072. agreed,
 * contradicted and first_only are together the first section's propositions; agreed, contradicted and second_only the second's. The source set is
 * the first digest of a section; the other fields of the heads are not compared.
 *
 * Where it is accepted the ten tables hold both sections, and the list is walked with a place in each table of propositions, from 0: an entry of 1
 * or 2 is the proposition at both places, and both advance; one of 3 is the first's, and the first's advances; one of 4 is the second's, and the
 * second's advances. After a refusal, whosever, all eleven tables are zeros. */
FalgnustComparison falgnust_compare_sections(
    const uint8_t *first, size_t first_len, size_t first_cursor,
    uint64_t *first_propositions, size_t first_propositions_len,
    uint64_t *first_proofs, size_t first_proofs_len,
    uint64_t *first_depths, size_t first_depths_len,
    uint8_t *first_marks, size_t first_marks_len,
    uint8_t *first_authorised, size_t first_authorised_len,
    const uint8_t *second, size_t second_len, size_t second_cursor,
    uint64_t *second_propositions, size_t second_propositions_len,
    uint64_t *second_proofs, size_t second_proofs_len,
    uint64_t *second_depths, size_t second_depths_len,
    uint8_t *second_marks, size_t second_marks_len,
    uint8_t *second_authorised, size_t second_authorised_len,
    uint8_t *verdicts, size_t verdicts_len);

/* ---- Depth by rounds ---- */

/* A check of the depths whose method fits on a card: in each round, counted from 1, it marks the proofs all of whose parents
 * were marked in earlier rounds; a proof's depth is the round in which it is marked. */
typedef struct FalgnustRounds {
    bool accepted;
    FalgnustRefusal refusal;
    size_t proofs; /* how many there are, each of them marked */
    size_t cursor; /* after the section; as it was brought where it is refused */
} FalgnustRounds;
FALGNUST_SIZE(FalgnustRounds, 40);

/* The round of each proof goes to a lent table, beside those of the starts; 61 covers all three. It refuses as falgnust_decode_evr0_unmarked
 * would without 27 to 29, so 25 or 26 of any proof comes first; then with 27 where a proof is unmarked after 256 rounds. No witness is asked
 * of a proof (28, 29). Of a section that falgnust_decode_evr0_unmarked accepts, the rounds are its depths. */
FalgnustRounds falgnust_depth_by_rounds(
    const uint8_t *bytes, size_t bytes_len, size_t cursor,
    uint64_t *propositions, size_t propositions_len,
    uint64_t *proofs, size_t proofs_len,
    uint64_t *rounds, size_t rounds_len);

/* ---- Sections by loaded rules ----
 *
 * A table of rules takes the place of the four. As bytes: their count, 1 to 32, then of each rule its name as text (a 2-byte length and 1
 * to 64 bytes of UTF-8 without control characters) and its witness count, parent count, operation and polarity, a byte each. A rule has
 * either one witness, no parent and polarity 0 or 1, or no witness, 1 or 2 parents and polarity 2, which is not asked; its operation is 0
 * or 1. Rules may stand in any order. These bytes (examples/four.rules) are the four, under which every answer is that of the functions above:
 *
 *   04
 *   0D 00 "POS-WITNESS-1" 01 00 00 01
 *   0D 00 "NEG-WITNESS-1" 01 00 00 00
 *   0D 00 "JOIN-SAME-P-1" 00 02 00 02
 *   0B 00 "OP-T-ONLY-1"   00 01 01 02
 *
 * A table is refused before any section is looked at, as FALGNUST_ADDED at 0, the count first, then rule by rule and 69 before 70, and what is
 * left over last: 69 a count or rule outside these bounds or cut, or bytes left over; 70 a name given twice. No bytes are 69 too, and not the
 * four. Nothing is kept between calls, so the table comes with each, which loads it anew. */

typedef struct FalgnustRules {
    bool accepted;
    FalgnustRefusal refusal; /* 69 or 70, at 0 */
    size_t count; /* how many rules */
} FalgnustRules;
FALGNUST_SIZE(FalgnustRules, 32);

/* Loads a table of rules, to see whether it is one. */
FalgnustRules falgnust_load_rules(const uint8_t *rules, size_t rules_len);

/* The functions above, by the rules of a table: 69 and 70 first, with every lent table zeros and the cursor that was brought, and then all that
 * they promise, with the table's rules for the four. A name that the table does not have is 20, though it be one of the four; 29 asks the
 * polarity that a one-witness rule gives; rules of two parents are joins. */
FalgnustSection falgnust_decode_evr0_section_by_rules(
    const uint8_t *rules, size_t rules_len,
    const uint8_t *bytes, size_t bytes_len, size_t cursor,
    uint64_t *propositions, size_t propositions_len,
    uint64_t *proofs, size_t proofs_len,
    uint64_t *depths, size_t depths_len,
    uint8_t *marks, size_t marks_len);
FalgnustSection falgnust_decode_evr0_unmarked_by_rules(
    const uint8_t *rules, size_t rules_len,
    const uint8_t *bytes, size_t bytes_len, size_t cursor,
    uint64_t *propositions, size_t propositions_len,
    uint64_t *proofs, size_t proofs_len,
    uint64_t *depths, size_t depths_len);
FalgnustProposition falgnust_proposition_number_by_rules(
    const uint8_t *rules, size_t rules_len,
    const uint8_t *bytes, size_t bytes_len, size_t cursor, uint32_t number,
    uint64_t *propositions, size_t propositions_len,
    uint64_t *proofs, size_t proofs_len,
    uint64_t *depths, size_t depths_len);
FalgnustProof falgnust_proof_number_by_rules(
    const uint8_t *rules, size_t rules_len,
    const uint8_t *bytes, size_t bytes_len, size_t cursor, uint32_t number,
    uint64_t *propositions, size_t propositions_len,
    uint64_t *proofs, size_t proofs_len,
    uint64_t *depths, size_t depths_len);
FalgnustWitness falgnust_witness_number_by_rules(
    const uint8_t *rules, size_t rules_len,
    const uint8_t *bytes, size_t bytes_len, size_t cursor, uint32_t number,
    uint64_t *propositions, size_t propositions_len,
    uint64_t *proofs, size_t proofs_len,
    uint64_t *depths, size_t depths_len);
FalgnustParent falgnust_parent_number_by_rules(
    const uint8_t *rules, size_t rules_len,
    const uint8_t *bytes, size_t bytes_len, size_t cursor, uint32_t number,
    uint64_t *propositions, size_t propositions_len,
    uint64_t *proofs, size_t proofs_len,
    uint64_t *depths, size_t depths_len);
FalgnustWayDown falgnust_way_down_by_rules(
    const uint8_t *rules, size_t rules_len,
    const uint8_t *bytes, size_t bytes_len, size_t cursor, uint32_t from, uint64_t limit,
    uint64_t *propositions, size_t propositions_len,
    uint64_t *proofs, size_t proofs_len,
    uint64_t *depths, size_t depths_len);
FalgnustAuthorised falgnust_authorised_by_rules(
    const uint8_t *rules, size_t rules_len,
    const uint8_t *bytes, size_t bytes_len, size_t cursor, uint32_t proposition,
    uint64_t *propositions, size_t propositions_len,
    uint64_t *proofs, size_t proofs_len,
    uint64_t *depths, size_t depths_len,
    uint8_t *marks, size_t marks_len);
FalgnustSection falgnust_authorised_table_by_rules(
    const uint8_t *rules, size_t rules_len,
    const uint8_t *bytes, size_t bytes_len, size_t cursor,
    uint64_t *propositions, size_t propositions_len,
    uint64_t *proofs, size_t proofs_len,
    uint64_t *depths, size_t depths_len,
    uint8_t *marks, size_t marks_len,
    uint8_t *authorised, size_t authorised_len);
/* One table of rules for both sections. */
FalgnustComparison falgnust_compare_sections_by_rules(
    const uint8_t *rules, size_t rules_len,
    const uint8_t *first, size_t first_len, size_t first_cursor,
    uint64_t *first_propositions, size_t first_propositions_len,
    uint64_t *first_proofs, size_t first_proofs_len,
    uint64_t *first_depths, size_t first_depths_len,
    uint8_t *first_marks, size_t first_marks_len,
    uint8_t *first_authorised, size_t first_authorised_len,
    const uint8_t *second, size_t second_len, size_t second_cursor,
    uint64_t *second_propositions, size_t second_propositions_len,
    uint64_t *second_proofs, size_t second_proofs_len,
    uint64_t *second_depths, size_t second_depths_len,
    uint8_t *second_marks, size_t second_marks_len,
    uint8_t *second_authorised, size_t second_authorised_len,
    uint8_t *verdicts, size_t verdicts_len);
FalgnustRounds falgnust_depth_by_rounds_by_rules(
    const uint8_t *rules, size_t rules_len,
    const uint8_t *bytes, size_t bytes_len, size_t cursor,
    uint64_t *propositions, size_t propositions_len,
    uint64_t *proofs, size_t proofs_len,
    uint64_t *rounds, size_t rounds_len);

/* ---- Sections by column ----
 *
 * A section written by column: its head, then each field of each table as a column, with counts, text lengths and whole numbers of 4 or 8 bytes
 * in groups of seven bits. docs/COLUMNS.md has the layout. What is written of a section and the section itself give each other back, byte for
 * byte; no other columns are of that section, and no other file is taken back.
 *
 * The lent tables are those of falgnust_decode_evr0_unmarked and hold what it leaves there: when taking back, of the section that is rebuilt. What is
 * written goes to `output`, another table of bytes that is lent: the answer is the length, and the bytes past it are zeros. 61 at 0 says that the
 * output is too short; after it, as after any refusal, every table and the output are zeros, whole.
 *
 * Lengths that are always enough:
 *   - writing: len + len / 4 bytes of output for a section of len bytes (8 and its payload length), 5242890 for any; tables as above;
 *   - taking back: 8 bytes of output and as many as the payload length says, which is bytes 4 to 7 of the columns as of the section, and is at
 *     most 4194304; tables of so many by 15 propositions and by 35 proofs and depths, or of 65536 each. Columns that are of no section may be refused
 *     with 61 there, and with another number where the output has 8 * columns_len bytes, which is enough for any. */

typedef struct FalgnustColumns {
    bool accepted;
    FalgnustRefusal refusal;
    size_t length; /* how many bytes were written */
} FalgnustColumns;
FALGNUST_SIZE(FalgnustColumns, 32);

/* Writes the section at a cursor by column. Refused as falgnust_decode_evr0_unmarked refuses it, then with 61 at 0. Bytes before the cursor
 * and behind the section are not written. */
FalgnustColumns falgnust_write_columns(
    const uint8_t *bytes, size_t bytes_len, size_t cursor,
    uint64_t *propositions, size_t propositions_len,
    uint64_t *proofs, size_t proofs_len,
    uint64_t *depths, size_t depths_len,
    uint8_t *output, size_t output_len);

/* Writes the section that columns are of. Refused, in the order of the file: 75 a number in more groups than needed or too large for its field,
 * at its first byte that no right number has there; 76 columns cut, at columns_len, or bytes left over, at the first. Then 61 at 0. Then as
 * falgnust_decode_evr0_unmarked refuses the section that was rebuilt, at cursor 0: its offset is a place in that section, and its 61, which is never at
 * 0, is of the other tables. */
FalgnustColumns falgnust_take_columns(
    const uint8_t *columns, size_t columns_len,
    uint64_t *propositions, size_t propositions_len,
    uint64_t *proofs, size_t proofs_len,
    uint64_t *depths, size_t depths_len,
    uint8_t *output, size_t output_len);

/* Both by the rules of a table: 69 and 70 first, with every lent table and the output zeros. */
FalgnustColumns falgnust_write_columns_by_rules(
    const uint8_t *rules, size_t rules_len,
    const uint8_t *bytes, size_t bytes_len, size_t cursor,
    uint64_t *propositions, size_t propositions_len,
    uint64_t *proofs, size_t proofs_len,
    uint64_t *depths, size_t depths_len,
    uint8_t *output, size_t output_len);
FalgnustColumns falgnust_take_columns_by_rules(
    const uint8_t *rules, size_t rules_len,
    const uint8_t *columns, size_t columns_len,
    uint64_t *propositions, size_t propositions_len,
    uint64_t *proofs, size_t proofs_len,
    uint64_t *depths, size_t depths_len,
    uint8_t *output, size_t output_len);

/* ---- Function blocks ----
 *
 * A lent list takes the debug symbols, two lent tables take the place in the block of each string's length and of each path's event kind, and
 * a lent table of bytes takes the families of the signature's parameters. One that is shorter than its count is refused with 61; 8192
 * symbols, 256 strings, 65535 paths and 4096 families are never too few. A signature is read from revision 20 on, where OWN0 and SIG0 have
 * to be there (71); below it there is none, which is not a signature of 0 parameters. Offsets are
 * base_offset plus the place in the block, held at the largest 64-bit number; the fields of an accepted answer are places in the block. */

typedef struct FalgnustDebugSymbol {
    size_t pc;
    uint32_t line;
    uint16_t col;
} FalgnustDebugSymbol;
FALGNUST_SIZE(FalgnustDebugSymbol, 16);

typedef struct FalgnustBlock {
    bool accepted;
    FalgnustRefusal refusal;
    bool has_debug_section;
    bool has_ownership_section;
    bool has_signature;
    size_t string_count;
    size_t string_table_end_offset;
    size_t debug_symbol_count;
    size_t debug_symbols_start;
    size_t path_count;
    size_t parameter_count;
    size_t families_start; /* where the first family stands, or would */
    size_t instr_start_offset;
} FalgnustBlock;
FALGNUST_SIZE(FalgnustBlock, 96);

/* The families of a parameter, as the format's byte. */
enum {
    FALGNUST_QUAD = 1,
    FALGNUST_BOOL = 2,
    FALGNUST_TEXT = 3,
    FALGNUST_SEQUENCE = 4,
    FALGNUST_MAP = 5,
    FALGNUST_CLOSURE = 6,
    FALGNUST_I32 = 7,
    FALGNUST_U32 = 8,
    FALGNUST_FX = 9,
    FALGNUST_F64 = 10,
    FALGNUST_TUPLE = 11,
    FALGNUST_RECORD = 12,
    FALGNUST_ADT = 13,
    FALGNUST_UNIT = 14,
    FALGNUST_BYTES = 15
};

/* Decodes a block's strings, DBG0 and OWN0 tables, and its signature. */
FalgnustBlock falgnust_parse_string_table_debug_and_ownership(
    size_t base_offset, const uint8_t *code, size_t code_len, uint16_t header_rev,
    FalgnustDebugSymbol *symbols, size_t symbols_len,
    uint64_t *strings, size_t strings_len,
    uint64_t *paths, size_t paths_len,
    uint8_t *families, size_t families_len);

typedef struct FalgnustBlockWords {
    FalgnustBlock block;
    size_t words; /* how many words the block has; 0 where it is refused */
} FalgnustBlockWords;
FALGNUST_SIZE(FalgnustBlockWords, 104);

/* Decodes a block and writes the words of its records to the front of one lent table, each record read once: of a string 2 words, the place and
 * the length of its bytes; of a symbol 3, pc, line and column; of a path those of falgnust_path_words. They stand in the order of the block: the
 * strings, the symbols, the paths. A family is the byte of the block at its place, from families_start on. Where the words do not fit, the block is
 * refused with 61 at its end, where its instructions start. A table of code_len words is never too short. Past the words this table keeps what stood
 * there; after a refusal it is zeros, whole. */
FalgnustBlockWords falgnust_block_words(
    size_t base_offset, const uint8_t *code, size_t code_len, uint16_t header_rev, uint64_t *words, size_t words_len);

/* In each record of a block, next is the place after it. */

typedef struct FalgnustText {
    bool accepted;
    FalgnustRefusal refusal;
    size_t start; /* of its bytes */
    size_t len;
    size_t chars;
    size_t next;
} FalgnustText;
FALGNUST_SIZE(FalgnustText, 56);

typedef struct FalgnustSymbol {
    bool accepted;
    FalgnustRefusal refusal;
    size_t pc;
    uint32_t line;
    uint16_t col;
    size_t next;
} FalgnustSymbol;
FALGNUST_SIZE(FalgnustSymbol, 48);

/* A borrow, 0 to 2, or a write, 3 to 5. */
enum {
    FALGNUST_BORROW = 0,                /* without activation: below revision 21 */
    FALGNUST_BORROW_FRAME_ENTRY = 1,
    FALGNUST_BORROW_STORE_SITE = 2,
    FALGNUST_WRITE = 3,                 /* without execution: below revision 21 */
    FALGNUST_WRITE_STORE_SITE = 4,
    FALGNUST_WRITE_RECORD_SITE = 5
};

typedef struct FalgnustEvent {
    uint8_t event;
    uint32_t site; /* of 2, 4 and 5; else 0 */
} FalgnustEvent;
FALGNUST_SIZE(FalgnustEvent, 8);

typedef struct FalgnustPath {
    bool accepted;
    FalgnustRefusal refusal;
    FalgnustEvent event;
    uint32_t root_symbol_id;
    uint16_t component_count;
    size_t components_start;
    size_t next;
} FalgnustPath;
FALGNUST_SIZE(FalgnustPath, 56);

/* Kinds of a component, as the format's byte. */
enum {
    FALGNUST_TUPLE_INDEX = 0,
    FALGNUST_FIELD_SYMBOL = 1,
    FALGNUST_ADT_PAYLOAD = 2, /* first is the variant, second its index */
    FALGNUST_SEQUENCE_INDEX = 3
};

typedef struct FalgnustParts {
    uint8_t kind;
    uint32_t first;
    uint16_t second; /* of FALGNUST_ADT_PAYLOAD; else 0 */
} FalgnustParts;
FALGNUST_SIZE(FalgnustParts, 12);

typedef struct FalgnustComponent {
    bool accepted;
    FalgnustRefusal refusal;
    FalgnustParts component;
    size_t next;
} FalgnustComponent;
FALGNUST_SIZE(FalgnustComponent, 48);

/* A record at a place of a block that was decoded once: a string at an entry of the table of strings, a path at one of paths, symbol i at
 * debug_symbols_start + 10 * i, a path's components one after the other from components_start on. kind is the path's first byte, 0 for a
 * borrow and 1 for a write. The offset of a refusal is the place in the block, without a base. */
FalgnustText falgnust_read_string(const uint8_t *bytes, size_t bytes_len, size_t at);
FalgnustSymbol falgnust_read_debug_symbol(const uint8_t *code, size_t code_len, size_t at);
FalgnustPath falgnust_read_path(const uint8_t *code, size_t code_len, size_t at, uint16_t header_rev);
FalgnustComponent falgnust_read_component(const uint8_t *code, size_t code_len, size_t at, uint16_t header_rev, uint8_t kind);

/* The words of the paths of a block that start at these places: event, site, root, how many components, as in FalgnustPath, and a word for each
 * component, kind + 4 * first + 17179869184 * second, as in FalgnustParts. As many paths as are there and fit, from the first on: how many, and
 * zeros past their words. A path takes 4 words and one for each component. */
size_t falgnust_path_words(
    const uint8_t *code, size_t code_len, uint16_t header_rev, const uint64_t *starts, size_t starts_len, uint64_t *words, size_t words_len);

/* A record by its number. Each call decodes the block anew first, with the refusals and the tables of the block's decoder, base_offset in
 * their offsets, and room for 8192 symbols; a number that is not below its count is then refused with 62 at 0. */
FalgnustText falgnust_string_number(
    size_t base_offset, const uint8_t *code, size_t code_len, uint16_t header_rev, size_t number,
    uint64_t *strings, size_t strings_len,
    uint64_t *paths, size_t paths_len,
    uint8_t *families, size_t families_len);
FalgnustSymbol falgnust_symbol_number(
    size_t base_offset, const uint8_t *code, size_t code_len, uint16_t header_rev, size_t number,
    uint64_t *strings, size_t strings_len,
    uint64_t *paths, size_t paths_len,
    uint8_t *families, size_t families_len);
FalgnustPath falgnust_path_number(
    size_t base_offset, const uint8_t *code, size_t code_len, uint16_t header_rev, size_t number,
    uint64_t *strings, size_t strings_len,
    uint64_t *paths, size_t paths_len,
    uint8_t *families, size_t families_len);
/* Component `component` of path `number`. */
FalgnustComponent falgnust_component_number(
    size_t base_offset, const uint8_t *code, size_t code_len, uint16_t header_rev, size_t number, size_t component,
    uint64_t *strings, size_t strings_len,
    uint64_t *paths, size_t paths_len,
    uint8_t *families, size_t families_len);

/* ---- All functions of a file ----
 *
 * From a cursor to the end of the bytes: each function's name, its code length and its block, decoded as above with its place in the bytes as
 * base_offset. A lent table takes the place of each name's length. It has to have an entry for a function before that is read, else 61
 * there; (bytes_len - cursor) / 9 + 1 entries are never too few, nor are 1024. The list and the three tables of a block end as the last
 * function's; where there is no function they are zeros. All places are places in the bytes, but for those in `last`. */

typedef struct FalgnustFunctions {
    bool accepted;
    FalgnustRefusal refusal;
    size_t functions; /* how many */
    size_t cursor;    /* the end; where there is no function, and after a refusal, the cursor that was brought */
    size_t last_code; /* where the last function's block starts */
    FalgnustBlock last; /* that block; not accepted and zeros where there is no function */
} FalgnustFunctions;
FALGNUST_SIZE(FalgnustFunctions, 144);

/* Decodes all functions from a cursor on. A cursor at or past the end gives none. */
FalgnustFunctions falgnust_decode_functions(
    const uint8_t *bytes, size_t bytes_len, size_t cursor, uint16_t header_rev,
    FalgnustDebugSymbol *symbols, size_t symbols_len,
    uint64_t *functions, size_t functions_len,
    uint64_t *strings, size_t strings_len,
    uint64_t *paths, size_t paths_len,
    uint8_t *families, size_t families_len);

typedef struct FalgnustFunction {
    bool accepted;
    FalgnustRefusal refusal;
    FalgnustSpan name; /* 1 to 1024 bytes of UTF-8; control characters may be among them */
    size_t code_offset;
    size_t code_len;
    size_t next; /* after its block */
} FalgnustFunction;
FALGNUST_SIZE(FalgnustFunction, 80);

/* The head of the function at a place, as an entry of the table of functions is; 63 or 64 where none stands there. The block is not
 * decoded: its records are read by the functions above from bytes + code_offset, code_len of them, with base_offset code_offset. */
FalgnustFunction falgnust_read_function(const uint8_t *bytes, size_t bytes_len, size_t at);

/* The head of a function by its number. Decodes all functions anew, with the refusals and the tables of falgnust_decode_functions and room
 * for 8192 symbols; a number that is not below the count is then refused with 62 at 0. */
FalgnustFunction falgnust_function_number(
    const uint8_t *bytes, size_t bytes_len, size_t cursor, uint16_t header_rev, size_t number,
    uint64_t *functions, size_t functions_len,
    uint64_t *strings, size_t strings_len,
    uint64_t *paths, size_t paths_len,
    uint8_t *families, size_t families_len);

/* ---- Locks ----
 *
 * A register holds at most 256 locks, each of an owner on a path of some block. The caller keeps it between calls; it needs no constructor, since
 * zeros are the empty register, and any words mean some register. It is no lent table: nothing clears it, and a refused claim leaves every
 * word as it was. One call at a time may have it.
 *
 * An owner claims all paths of a block or none, and brings the source set, any 32 bytes, in which the block's symbols are numbered. Two paths touch when
 * one is the beginning of the other, root and components compared: a bare root touches all below it, and equal paths touch. Roots are the same where
 * symbol and source set are both the same. Borrows of different owners may touch, a write may touch nothing of another owner, and an owner
 * never hinders itself, whatever sets it brings. */

typedef struct FalgnustRegister {
    uint64_t words[6145]; /* how many locks are held, and 24 words for each: for the functions below alone to read */
} FalgnustRegister;
FALGNUST_SIZE(FalgnustRegister, 49160);

typedef struct FalgnustClaim {
    bool accepted;
    FalgnustRefusal refusal;
    size_t held; /* how many locks are held afterwards */
} FalgnustClaim;
FALGNUST_SIZE(FalgnustClaim, 32);

/* An owner, any number, claims the paths of a block. The block is decoded first, with the refusals and the tables of the block's decoder,
 * base_offset in their offsets, and room for 8192 symbols. Then, at 0: 66 where a path has more than 16 components, 67 where a path touches one
 * that another owner holds and either is a write, 68 where more than 256 locks would be held. Else there is a lock more for each path, in
 * the block's order, also where it equals one that is held; a block without paths is accepted by a full register too. */
FalgnustClaim falgnust_claim(
    FalgnustRegister *locks, uint32_t owner,
    size_t base_offset, const uint8_t *code, size_t code_len, uint16_t header_rev, const uint8_t source[32],
    uint64_t *strings, size_t strings_len,
    uint64_t *paths, size_t paths_len,
    uint8_t *families, size_t families_len);

/* Drops exactly what an owner holds, of every source set; nothing is dropped where it holds nothing. The others stay in their order. The answer is how many locks are
 * held afterwards. */
size_t falgnust_release(FalgnustRegister *locks, uint32_t owner);

/* How many locks are held. */
size_t falgnust_held(const FalgnustRegister *locks);

typedef struct FalgnustLock {
    bool accepted;
    FalgnustRefusal refusal;
    uint32_t owner;
    bool write; /* a borrow where it is not */
    uint32_t root_symbol_id;
    size_t component_count;
    uint8_t source[32]; /* the set that was brought with the claim */
} FalgnustLock;
FALGNUST_SIZE(FalgnustLock, 80);

typedef struct FalgnustLockPart {
    bool accepted;
    FalgnustRefusal refusal;
    FalgnustParts component;
} FalgnustLockPart;
FALGNUST_SIZE(FalgnustLockPart, 40);

/* A held lock by its number, in the order in which they were claimed, and a component of its path; 62 at 0 where there is none. */
FalgnustLock falgnust_lock_number(const FalgnustRegister *locks, size_t number);
FalgnustLockPart falgnust_lock_part(const FalgnustRegister *locks, size_t number, size_t part);

/* ---- Texts and fields ---- */

/* A text of a section (a 2-byte length and 1 to 4096 bytes of UTF-8 without control characters) at a place of these bytes; refusals 5 to 8,
 * whose offset is a place in these bytes and does not count from at. */
FalgnustText falgnust_read_text(const uint8_t *bytes, size_t bytes_len, size_t at);

/* The place and the length, 2 words, of each text of a section, or string of a block, that was accepted: by the place of its length. As
 * falgnust_proof_words. */
bool falgnust_text_words(
    const uint8_t *bytes, size_t bytes_len, const uint64_t *starts, size_t starts_len, uint64_t *words, size_t words_len);

/* The rest is there to compare the readers with the Rust's one by one; a caller needs none of it. */

/* A field of 1, 2 or 4 bytes, little-endian, and the place after it; where it passes the end, zeros. */
typedef struct FalgnustField {
    bool whole;
    uint32_t value;
    size_t next;
} FalgnustField;
FALGNUST_SIZE(FalgnustField, 16);

FalgnustField falgnust_read_u8(const uint8_t *bytes, size_t bytes_len, size_t at);
FalgnustField falgnust_read_u16_le(const uint8_t *bytes, size_t bytes_len, size_t at);
FalgnustField falgnust_read_u32_le(const uint8_t *bytes, size_t bytes_len, size_t at);

/* Whether the bytes of a tag stand at a place. */
bool falgnust_tag_at(const uint8_t *bytes, size_t bytes_len, size_t at, const uint8_t *tag, size_t tag_len);

/* 0: not UTF-8; 1: UTF-8 without control characters; 2: UTF-8 with one. chars counts the characters, of 1 and 2. */
typedef struct FalgnustScanned {
    uint8_t answer;
    size_t chars;
} FalgnustScanned;
FALGNUST_SIZE(FalgnustScanned, 16);

FalgnustScanned falgnust_scan(const uint8_t *bytes, size_t bytes_len);

/* len bytes at a place: whether they are there, are UTF-8, hold a control character; their characters, and the place after them. */
typedef struct FalgnustUtf8 {
    bool whole;
    bool text;
    bool control;
    size_t chars;
    size_t next;
} FalgnustUtf8;
FALGNUST_SIZE(FalgnustUtf8, 24);

FalgnustUtf8 falgnust_read_utf8(const uint8_t *bytes, size_t bytes_len, size_t at, size_t len);

#ifdef __cplusplus
}
#endif

#endif
