/*
 * Perchmellow: a rider's card and a charging post, proved.
 *
 *     tools/staticlib                                 builds target/staticlib/libperchmellow.a for x86-64 Linux
 *     cc -Iinclude app.c target/staticlib/libperchmellow.a
 *
 * A card of 2^k ticks holds values of a chain: x_0 is the seed, x_(i+1) is the function of x_i, and the anchor is x_(2^k).
 * Its rounds put out x_(2^k - 1) down to x_0. A post keeps the value it took last and credits what leads to it.
 * A card of any other number n of ticks is one of 2^k, k being the least with room for them (its level), that begins with its last n
 * rounds: it puts out x_(n - 1) down to x_0, and its anchor is x_n.
 *
 * Every call checks its own input: numbers may be any, buffers of any length and content. A call that refuses has changed no byte.
 * A call that does not refuse has changed only what is said below; bytes behind a record, a value or a list stay.
 *
 * What the caller owes, since C cannot be asked for it:
 *   - a pointer is good for as many entries as the length beside it says, and `list` is aligned as uint32_t is;
 *   - a buffer that a call writes (not const below) overlaps no other buffer of that call;
 *   - no other thread uses the buffers during the call. The library itself keeps no state.
 * A pointer may be null where its length is 0.
 */
#ifndef PERCHMELLOW_H
#define PERCHMELLOW_H

#include <stddef.h>
#include <stdint.h>

#ifdef __cplusplus
extern "C" {
#endif

/* ---- the version: the Rust wrapper's too */

#define PERCHMELLOW_VERSION "1.0.0"
#define PERCHMELLOW_VERSION_MAJOR 1
#define PERCHMELLOW_VERSION_MINOR 0
#define PERCHMELLOW_VERSION_PATCH 0
/* one number to compare: #if PERCHMELLOW_VERSION_NUMBER >= 10100 is true from 1.1.0 on */
#define PERCHMELLOW_VERSION_NUMBER (10000 * PERCHMELLOW_VERSION_MAJOR + 100 * PERCHMELLOW_VERSION_MINOR + PERCHMELLOW_VERSION_PATCH)

/* ---- sizes, in bytes where nothing else is said */

#define PERCHMELLOW_K_MOST 20u          /* the greatest k */
#define PERCHMELLOW_TICKS_MOST 1048576u /* the most ticks of a card, 2^20 */
#define PERCHMELLOW_GAP_MOST 64u        /* the greatest gap limit */
#define PERCHMELLOW_VALUE 16u           /* a seed, an anchor, a tick */
#define PERCHMELLOW_POST 40u            /* a post record */
#define PERCHMELLOW_CARD_MOST 624u      /* the longest card record */
#define PERCHMELLOW_POSITIONS_MOST 38u  /* the longest position list, in entries */

/* slots of a card: k + 1, under speed-1 the larger of k + 1 and 2k - 2 */
#define PERCHMELLOW_SLOTS(k, schedule) ((schedule) == PERCHMELLOW_SPEED_1 && (k) > 3u ? 2u * (k) - 2u : (k) + 1u)
/* the level of a card of so many ticks, from 1 to 2^20: the least k with 2^k at least as many. PERCHMELLOW_LEVEL(300u) is 9 */
#define PERCHMELLOW_LEVEL(ticks)                                                                                              \
    (0u + ((ticks) > 1u) + ((ticks) > 2u) + ((ticks) > 4u) + ((ticks) > 8u) + ((ticks) > 16u) + ((ticks) > 32u) +             \
     ((ticks) > 64u) + ((ticks) > 128u) + ((ticks) > 256u) + ((ticks) > 512u) + ((ticks) > 1024u) + ((ticks) > 2048u) +       \
     ((ticks) > 4096u) + ((ticks) > 8192u) + ((ticks) > 16384u) + ((ticks) > 32768u) + ((ticks) > 65536u) +                   \
     ((ticks) > 131072u) + ((ticks) > 262144u) + ((ticks) > 524288u))
/* the record of a card of 2^k ticks, for k up to 20; of 300 ticks, PERCHMELLOW_CARD(PERCHMELLOW_LEVEL(300u), schedule) */
#define PERCHMELLOW_CARD(k, schedule) (16u + PERCHMELLOW_VALUE * PERCHMELLOW_SLOTS(k, schedule))

/* ---- records, byte by byte; numbers have the low byte first. docs/RULES.md, "Records", says more
 *
 *     a card   0-1 the mark 0xB7 0x01; 2 function; 3 schedule; 4 k; 5-7 zero; 8-11 the next round, from 1 to 2^(k+1); 12-15 zero;
 *              then PERCHMELLOW_SLOTS(k, schedule) slots of 16 bytes: the values held from slot 0 on, zeros behind them
 *     a post   0-1 the mark 0xB7 0x02; 2 function; 3 k; 4-7 the ticks paid, at most 2^k; 8-23 the anchor; 24-39 the value held
 *
 * Bytes behind a record are neither read nor written, so a record may be copied from buffer to buffer between calls.
 */

/* ---- for firmware
 *
 * The library wants memcpy and memset of whoever links it, and nothing else: no heap, no other function of C's, no data of its own.
 * The most hashes that one call does, with k up to 20: start, positions and enrol none; offer 64; anchor and settle 2^k; anchor_ticks n
 * and start_ticks n - 1; rebuild as many as the highest position that is held, 2^k - 1 at most; a round by its schedule, preparing and
 * paying: rushing 2^k - 1 and 2^(k-1) - 1; speed-1 1 and k - 1; speed-2 2 and k - 1; optimal k / 2 + 1 and (k + 1) / 2, rounded down
 * (k at least 2). docs/FIRMWARE.md has the figures.
 */
#define PERCHMELLOW_STACK 5120u         /* no call takes more stack than this, as the library is built here; tests/stack.c measures it */

/* ---- functions and schedules */

#define PERCHMELLOW_MD5 0u  /* MD5 of the value */
#define PERCHMELLOW_AES 1u  /* AES-128 of the zero block under the value */

#define PERCHMELLOW_RUSHING 0u  /* all hashes in the last preparing round */
#define PERCHMELLOW_SPEED_1 1u  /* one in each preparing round */
#define PERCHMELLOW_SPEED_2 2u  /* two in each preparing round of the second half */
#define PERCHMELLOW_OPTIMAL 3u  /* no paying round does more than half of k, rounded up */

/* ---- the word that each call answers
 *
 *     bits 0-7    the refusal's number, 0 for none; a refusal's other bits are 0
 *     bits 8-15   a kind: 1 for a tick, a credit or a yes, else 0
 *     bits 16-39  the first number: the tick's position, how many positions, the ticks credited
 *     bits 40-63  the second: the hashes of the round
 */
#define PERCHMELLOW_REFUSAL(word) ((unsigned)((word) & 0xffu))
#define PERCHMELLOW_KIND(word) ((unsigned)((word) >> 8 & 0xffu))
#define PERCHMELLOW_FIRST(word) ((uint32_t)((word) >> 16 & 0xffffffu))
#define PERCHMELLOW_SECOND(word) ((uint32_t)((word) >> 40))

/* ---- refusals */

#define PERCHMELLOW_UNKNOWN_FUNCTION 1u  /* function is not 0 or 1 */
#define PERCHMELLOW_TOO_MANY_TICKS 2u    /* k over 20 */
#define PERCHMELLOW_UNKNOWN_SCHEDULE 3u  /* schedule over 3 */
#define PERCHMELLOW_WRONG_LENGTH 4u      /* a seed, anchor or value not of 16 bytes; a record, list or out buffer too short */
#define PERCHMELLOW_BAD_RECORD 5u        /* a record not as laid out; a round or ticks paid out of range */
#define PERCHMELLOW_SPENT 6u             /* a card with no round left, or a post paid in full */
#define PERCHMELLOW_BAD_GAP 7u           /* the gap limit outside 1 to 64 */
#define PERCHMELLOW_NO_ROOM 8u           /* more values after the round than slots; proved never to come */
#define PERCHMELLOW_NOT_TAKEN 9u         /* no number of steps leads from the value to the one held */
#define PERCHMELLOW_BAD_TICKS 10u        /* the number of ticks outside 1 to 1,048,576 */

/* A refusal's sentence, as the Rust wrapper says it. Never null; nothing has to be linked for it. For C99 or later, and C++. */
#if defined __cplusplus || (defined __STDC_VERSION__ && __STDC_VERSION__ >= 199901L)
static inline const char *perchmellow_refusal_text(unsigned number) {
    switch (number) {
    case 0u: return "nothing is refused";
    case PERCHMELLOW_UNKNOWN_FUNCTION: return "the function is not one of 0 (MD5) and 1 (AES)";
    case PERCHMELLOW_TOO_MANY_TICKS: return "k is over 20";
    case PERCHMELLOW_UNKNOWN_SCHEDULE:
        return "the schedule is not one of 0 (rushing), 1 (speed-1), 2 (speed-2) and 3 (optimal)";
    case PERCHMELLOW_WRONG_LENGTH:
        return "a seed, anchor or value is not of 16 bytes, or a record, list or out buffer is too short";
    case PERCHMELLOW_BAD_RECORD:
        return "the record is not laid out as it should be, or a round or the ticks paid are out of range";
    case PERCHMELLOW_SPENT: return "the card has no round left, or the post is paid in full";
    case PERCHMELLOW_BAD_GAP: return "the gap limit is not from 1 to 64";
    case PERCHMELLOW_NO_ROOM: return "the record has too few slots for what the round would hold";
    case PERCHMELLOW_NOT_TAKEN: return "no number of steps within the gap limit and the unpaid ticks leads to the value held";
    case PERCHMELLOW_BAD_TICKS: return "the number of ticks is not from 1 to 1048576";
    default: return "no refusal has this number";
    }
}
#endif

/* ---- the calls. Each says the first refusal that applies, in the order given */

/*
 * Lays out a card of 2^k ticks at the front of `record`, to begin with round 1. PERCHMELLOW_CARD(k, schedule) bytes are written.
 * Refuses: function (1), k (2), schedule (3), seed not of 16 bytes or record too short (4). Answers 0.
 */
uint64_t perchmellow_start(uint32_t function, uint32_t k, uint32_t schedule, const uint8_t *seed, size_t seed_len, uint8_t *record,
                           size_t record_len);

/*
 * Lays out a card of `ticks` ticks, from 1 to PERCHMELLOW_TICKS_MOST, at the front of `record`, to begin with round 2^(k+1) - ticks, where
 * k is PERCHMELLOW_LEVEL(ticks): every round of it is a tick. PERCHMELLOW_CARD(k, schedule) bytes are written.
 * Refuses: function (1), schedule (3), ticks (10), seed not of 16 bytes or record too short (4). Answers 0.
 */
uint64_t perchmellow_start_ticks(uint32_t function, uint32_t ticks, uint32_t schedule, const uint8_t *seed, size_t seed_len,
                                 uint8_t *record, size_t record_len);

/*
 * Writes the record of a card of 2^k ticks before the round, from 1 to 2^(k+1), to the front of `record`: the bytes that a start and the
 * rounds before it leave there. PERCHMELLOW_CARD(k, schedule) bytes are written. A card of n ticks of which p are paid goes on at round
 * 2^(k+1) - n + p, where k is PERCHMELLOW_LEVEL(n).
 * Refuses: function (1), k (2), schedule (3), round out of range (5), seed not of 16 bytes or record too short (4). Answers 0.
 */
uint64_t perchmellow_rebuild(uint32_t function, uint32_t k, uint32_t schedule, uint32_t round, const uint8_t *seed, size_t seed_len,
                             uint8_t *record, size_t record_len);

/*
 * Runs one round of the card in `record`. A preparing round is quiet: kind 0, its hashes, `out` untouched. A paying round is a tick:
 * kind 1, its position, its hashes, and the tick in the first 16 bytes of `out`.
 * Refuses: record under 16 bytes (4); its mark or its zero bytes (5); function (1); k (2); schedule (3); record shorter than its k
 * asks (4); round out of range, or a free slot that is not zero (5); no round left (6); out buffer under 16 bytes (4); no room (8).
 */
uint64_t perchmellow_round(uint8_t *record, size_t record_len, uint8_t *out, size_t out_len);

/*
 * Writes the chain positions that a card holds before the round, from 1 to 2^(k+1), to the front of `list`, in falling order. Answers
 * how many, and the hashes of that round. PERCHMELLOW_POSITIONS_MOST entries are always enough.
 * Refuses: k (2), schedule (3), round out of range (5), list too short (4).
 */
uint64_t perchmellow_positions(uint32_t k, uint32_t schedule, uint32_t round, uint32_t *list, size_t list_len);

/*
 * Writes the anchor of a card of 2^k ticks to the first 16 bytes of `out`.
 * Refuses: function (1), k (2), seed not of 16 bytes or out buffer under 16 bytes (4). Answers 0.
 */
uint64_t perchmellow_anchor(uint32_t function, uint32_t k, const uint8_t *seed, size_t seed_len, uint8_t *out, size_t out_len);

/*
 * Writes the anchor of a card of `ticks` ticks, from 1 to PERCHMELLOW_TICKS_MOST, to the first 16 bytes of `out`.
 * Refuses: function (1), ticks (10), seed not of 16 bytes or out buffer under 16 bytes (4). Answers 0.
 */
uint64_t perchmellow_anchor_ticks(uint32_t function, uint32_t ticks, const uint8_t *seed, size_t seed_len, uint8_t *out, size_t out_len);

/*
 * Writes the record of a post for a card of 2^k ticks with this anchor, 0 paid, to the first 40 bytes of `record`. For a card of n ticks
 * k is PERCHMELLOW_LEVEL(n); the post counts to 2^k all the same, and the card has no tick for what is beyond n.
 * Refuses: function (1), k (2), anchor not of 16 bytes or record under 40 bytes (4). Answers 0.
 */
uint64_t perchmellow_enrol(uint32_t function, uint32_t k, const uint8_t *anchor, size_t anchor_len, uint8_t *record, size_t record_len);

/*
 * Offers a value to the post in `record`. The least g from 1 to the smaller of `gap` and the unpaid ticks, such that g steps from the
 * value give the one held, is credited: kind 1, g, and the value becomes the one held.
 * Refuses: record under 40 bytes (4); its mark (5); function (1); k (2); paid out of range or the value held not the anchor with 0
 * paid (5); gap (7); paid in full (6); value not of 16 bytes (4); no such g (9).
 */
uint64_t perchmellow_offer(uint8_t *record, size_t record_len, const uint8_t *value, size_t value_len, uint32_t gap);

/*
 * Whether `paid` steps from the last value give the anchor: kind 1 for yes, 0 for no.
 * Refuses: function (1), k (2), anchor or last value not of 16 bytes (4), paid over 2^k (5).
 */
uint64_t perchmellow_settle(uint32_t function, uint32_t k, const uint8_t *anchor, size_t anchor_len, const uint8_t *last, size_t last_len,
                            uint32_t paid);

#ifdef __cplusplus
}
#endif

#endif
