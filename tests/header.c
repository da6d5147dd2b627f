/* The library from C and C++: a card of 16 ticks against a post, under every schedule and both functions, with one tick missed, and
 * rebuilt before each round; a card of 300 ticks; the sizes of perchmellow.h held to what the calls refuse; its version and its texts.
 * Prints a line for each card, and stops at the first thing that is not so. */
#include <stdio.h>
#include <stdlib.h>
#include <string.h>

#include "perchmellow.h"

#define REQUIRE(what)                                                      \
    do {                                                                   \
        if (!(what)) {                                                     \
            fprintf(stderr, "header.c:%d: not so: %s\n", __LINE__, #what); \
            exit(1);                                                       \
        }                                                                  \
    } while (0)

static void ride(uint32_t function, uint32_t schedule) {
    const uint32_t k = 4, rounds = 31;
    uint8_t seed[PERCHMELLOW_VALUE], anchor[PERCHMELLOW_VALUE], tick[PERCHMELLOW_VALUE];
    uint8_t card[PERCHMELLOW_CARD_MOST], rebuilt[PERCHMELLOW_CARD_MOST], post[PERCHMELLOW_POST];
    uint32_t list[PERCHMELLOW_POSITIONS_MOST], credited = 0, hashes = 0, next = 15, missed = 0;
    memset(seed, 7, sizeof seed);
    memset(card, 0xcc, sizeof card);
    memset(rebuilt, 0xcc, sizeof rebuilt);

    const size_t len = PERCHMELLOW_CARD(k, schedule);
    REQUIRE(perchmellow_start(function, k, schedule, seed, sizeof seed, card, len - 1) == PERCHMELLOW_WRONG_LENGTH);
    REQUIRE(card[0] == 0xcc);
    REQUIRE(perchmellow_start(function, k, schedule, seed, sizeof seed, card, len) == 0);
    REQUIRE(card[len] == 0xcc);
    REQUIRE(perchmellow_anchor(function, k, seed, sizeof seed, anchor, sizeof anchor) == 0);
    REQUIRE(perchmellow_enrol(function, k, anchor, sizeof anchor, post, sizeof post) == 0);

    for (uint32_t round = 1; round <= rounds; round++) {
        const uint64_t held = perchmellow_positions(k, schedule, round, list, PERCHMELLOW_POSITIONS_MOST);
        REQUIRE(PERCHMELLOW_REFUSAL(held) == 0);
        REQUIRE(PERCHMELLOW_FIRST(held) <= PERCHMELLOW_SLOTS(k, schedule));
        REQUIRE(perchmellow_rebuild(function, k, schedule, round, seed, sizeof seed, rebuilt, len) == 0);
        REQUIRE(memcmp(rebuilt, card, sizeof card) == 0);
        const uint64_t word = perchmellow_round(card, len, tick, sizeof tick);
        REQUIRE(PERCHMELLOW_REFUSAL(word) == 0);
        REQUIRE(PERCHMELLOW_SECOND(word) == PERCHMELLOW_SECOND(held));
        REQUIRE(PERCHMELLOW_KIND(word) == (round >= 16));
        hashes += PERCHMELLOW_SECOND(word);
        if (PERCHMELLOW_KIND(word) == 0)
            continue;
        REQUIRE(PERCHMELLOW_FIRST(word) == next);
        REQUIRE(list[0] == next);
        next--;
        if (round == 20) { /* this tick is lost on the way */
            missed = 1;
            continue;
        }
        if (missed)
            REQUIRE(perchmellow_offer(post, sizeof post, tick, sizeof tick, 1) == PERCHMELLOW_NOT_TAKEN);
        const uint64_t credit = perchmellow_offer(post, sizeof post, tick, sizeof tick, 2);
        REQUIRE(PERCHMELLOW_REFUSAL(credit) == 0 && PERCHMELLOW_KIND(credit) == 1);
        REQUIRE(PERCHMELLOW_FIRST(credit) == 1 + missed);
        credited += PERCHMELLOW_FIRST(credit);
        missed = 0;
    }
    REQUIRE(perchmellow_rebuild(function, k, schedule, rounds + 1, seed, sizeof seed, rebuilt, len) == 0);
    REQUIRE(memcmp(rebuilt, card, sizeof card) == 0);
    REQUIRE(perchmellow_rebuild(function, k, schedule, rounds + 2, seed, sizeof seed, rebuilt, len) == PERCHMELLOW_BAD_RECORD);
    REQUIRE(perchmellow_rebuild(function, k, schedule, 1, seed, sizeof seed, rebuilt, len - 1) == PERCHMELLOW_WRONG_LENGTH);
    REQUIRE(memcmp(rebuilt, card, sizeof card) == 0);
    REQUIRE(perchmellow_round(card, len, tick, sizeof tick) == PERCHMELLOW_SPENT);
    REQUIRE(perchmellow_offer(post, sizeof post, tick, sizeof tick, 1) == PERCHMELLOW_SPENT);
    REQUIRE(PERCHMELLOW_KIND(perchmellow_settle(function, k, anchor, sizeof anchor, tick, sizeof tick, credited)) == 1);
    REQUIRE(perchmellow_settle(function, k, anchor, sizeof anchor, tick, sizeof tick, credited - 1) == 0);
    printf("function %u, schedule %u: %u ticks credited, %u hashes\n", (unsigned)function, (unsigned)schedule, (unsigned)credited,
           (unsigned)hashes);
}

/* a card of 300 ticks, in a record of just its size: the level is known when this is compiled */
static void sold(uint32_t function) {
    enum { TICKS = 300, K = PERCHMELLOW_LEVEL(TICKS), CARD = PERCHMELLOW_CARD(PERCHMELLOW_LEVEL(300u), PERCHMELLOW_OPTIMAL) };
    uint8_t seed[PERCHMELLOW_VALUE], anchor[2 * PERCHMELLOW_VALUE], tick[PERCHMELLOW_VALUE], card[CARD + 8], post[PERCHMELLOW_POST];
    memset(seed, 7, sizeof seed);
    memset(card, 0xcc, sizeof card);
    memset(anchor, 0xcc, sizeof anchor);

    REQUIRE(perchmellow_start_ticks(function, TICKS, PERCHMELLOW_OPTIMAL, seed, sizeof seed, card, CARD - 1) == PERCHMELLOW_WRONG_LENGTH);
    REQUIRE(card[0] == 0xcc);
    REQUIRE(perchmellow_start_ticks(function, TICKS, PERCHMELLOW_OPTIMAL, seed, sizeof seed, card, CARD) == 0);
    REQUIRE(card[CARD] == 0xcc);
    REQUIRE(perchmellow_anchor_ticks(function, TICKS, seed, sizeof seed, anchor, PERCHMELLOW_VALUE - 1) == PERCHMELLOW_WRONG_LENGTH);
    REQUIRE(anchor[0] == 0xcc);
    REQUIRE(perchmellow_anchor_ticks(function, TICKS, seed, sizeof seed, anchor, sizeof anchor) == 0);
    REQUIRE(anchor[PERCHMELLOW_VALUE] == 0xcc);
    REQUIRE(perchmellow_enrol(function, K, anchor, PERCHMELLOW_VALUE, post, sizeof post) == 0);

    for (uint32_t next = TICKS; next > 0; next--) {
        const uint64_t word = perchmellow_round(card, CARD, tick, sizeof tick);
        REQUIRE(PERCHMELLOW_REFUSAL(word) == 0 && PERCHMELLOW_KIND(word) == 1 && PERCHMELLOW_FIRST(word) == next - 1);
        REQUIRE(PERCHMELLOW_FIRST(perchmellow_offer(post, sizeof post, tick, sizeof tick, 1)) == 1);
    }
    REQUIRE(perchmellow_round(card, CARD, tick, sizeof tick) == PERCHMELLOW_SPENT);
    REQUIRE(memcmp(tick, seed, sizeof tick) == 0);
    REQUIRE(PERCHMELLOW_KIND(perchmellow_settle(function, K, anchor, PERCHMELLOW_VALUE, tick, sizeof tick, TICKS)) == 1);
    printf("function %u: a card of %d ticks at level %d\n", (unsigned)function, (int)TICKS, (int)K);
}

#if PERCHMELLOW_VERSION_NUMBER != 10000 * PERCHMELLOW_VERSION_MAJOR + 100 * PERCHMELLOW_VERSION_MINOR + PERCHMELLOW_VERSION_PATCH
#error "the version's number is not made of its three parts"
#endif

static void version(void) {
    char parts[40];
    snprintf(parts, sizeof parts, "%d.%d.%d", PERCHMELLOW_VERSION_MAJOR, PERCHMELLOW_VERSION_MINOR, PERCHMELLOW_VERSION_PATCH);
    REQUIRE(strcmp(parts, PERCHMELLOW_VERSION) == 0);
}

/* every number has a text, and no refusal that of another number */
static void texts(void) {
    for (unsigned number = 0; number < 256; number++) {
        REQUIRE(strlen(perchmellow_refusal_text(number)) > 0);
        for (unsigned refusal = PERCHMELLOW_UNKNOWN_FUNCTION; refusal <= PERCHMELLOW_BAD_TICKS; refusal++)
            REQUIRE(number == refusal || strcmp(perchmellow_refusal_text(number), perchmellow_refusal_text(refusal)) != 0);
    }
}

static uint8_t long_card[PERCHMELLOW_CARD(20u, PERCHMELLOW_SPEED_1)];

int main(void) {
    uint8_t value[PERCHMELLOW_VALUE] = {0}, card[PERCHMELLOW_CARD_MOST];
    uint32_t list[PERCHMELLOW_POSITIONS_MOST];
    for (uint32_t function = 0; function < 2; function++)
        for (uint32_t schedule = 0; schedule < 4; schedule++)
            ride(function, schedule);
    sold(PERCHMELLOW_MD5);
    sold(PERCHMELLOW_AES);

    /* the sizes */
    for (uint32_t schedule = 0; schedule < 4; schedule++)
        for (uint32_t k = 0; k <= PERCHMELLOW_K_MOST; k++) {
            const size_t len = PERCHMELLOW_CARD(k, schedule);
            REQUIRE(len <= PERCHMELLOW_CARD_MOST);
            REQUIRE(perchmellow_start(0, k, schedule, value, sizeof value, card, len) == 0);
            REQUIRE(perchmellow_start(0, k, schedule, value, sizeof value, card, len - 1) == PERCHMELLOW_WRONG_LENGTH);
        }
    REQUIRE(PERCHMELLOW_CARD(20u, PERCHMELLOW_SPEED_1) == PERCHMELLOW_CARD_MOST);
    REQUIRE(sizeof long_card == PERCHMELLOW_CARD_MOST);
    REQUIRE(perchmellow_start(0, 20, PERCHMELLOW_SPEED_1, value, sizeof value, long_card, sizeof long_card) == 0);
    for (uint32_t ticks = 1; ticks <= 4096; ticks++) {
        const uint32_t k = PERCHMELLOW_LEVEL(ticks);
        REQUIRE((uint32_t)1 << k >= ticks && (k == 0 || (uint32_t)1 << (k - 1) < ticks));
        REQUIRE(perchmellow_start_ticks(0, ticks, 3, value, sizeof value, card, sizeof card) == 0);
        REQUIRE(card[4] == k);
    }
    for (uint32_t k = 1; k <= PERCHMELLOW_K_MOST; k++) {
        REQUIRE(PERCHMELLOW_LEVEL((uint32_t)1 << k) == k);
        REQUIRE(PERCHMELLOW_LEVEL(((uint32_t)1 << (k - 1)) + 1u) == k);
    }
    REQUIRE(PERCHMELLOW_LEVEL(PERCHMELLOW_TICKS_MOST) == PERCHMELLOW_K_MOST);
    version();
    texts();

    /* refusals of numbers, and nulls of length 0 */
    REQUIRE(perchmellow_start(2, 21, 4, NULL, 0, NULL, 0) == PERCHMELLOW_UNKNOWN_FUNCTION);
    REQUIRE(perchmellow_start(0, 21, 4, NULL, 0, NULL, 0) == PERCHMELLOW_TOO_MANY_TICKS);
    REQUIRE(perchmellow_start(0, 20, 4, NULL, 0, NULL, 0) == PERCHMELLOW_UNKNOWN_SCHEDULE);
    REQUIRE(perchmellow_start(0, 20, 3, NULL, 0, NULL, 0) == PERCHMELLOW_WRONG_LENGTH);
    REQUIRE(perchmellow_start_ticks(2, 0, 4, NULL, 0, NULL, 0) == PERCHMELLOW_UNKNOWN_FUNCTION);
    REQUIRE(perchmellow_start_ticks(0, 0, 4, NULL, 0, NULL, 0) == PERCHMELLOW_UNKNOWN_SCHEDULE);
    REQUIRE(perchmellow_start_ticks(0, 0, 3, NULL, 0, NULL, 0) == PERCHMELLOW_BAD_TICKS);
    REQUIRE(perchmellow_start_ticks(0, PERCHMELLOW_TICKS_MOST + 1u, 3, NULL, 0, NULL, 0) == PERCHMELLOW_BAD_TICKS);
    REQUIRE(perchmellow_start_ticks(0, PERCHMELLOW_TICKS_MOST, 3, NULL, 0, NULL, 0) == PERCHMELLOW_WRONG_LENGTH);
    REQUIRE(perchmellow_rebuild(2, 21, 4, 0, NULL, 0, NULL, 0) == PERCHMELLOW_UNKNOWN_FUNCTION);
    REQUIRE(perchmellow_rebuild(0, 21, 4, 0, NULL, 0, NULL, 0) == PERCHMELLOW_TOO_MANY_TICKS);
    REQUIRE(perchmellow_rebuild(0, 20, 4, 0, NULL, 0, NULL, 0) == PERCHMELLOW_UNKNOWN_SCHEDULE);
    REQUIRE(perchmellow_rebuild(0, 20, 3, 0, NULL, 0, NULL, 0) == PERCHMELLOW_BAD_RECORD);
    REQUIRE(perchmellow_rebuild(0, 20, 3, 2097153, NULL, 0, NULL, 0) == PERCHMELLOW_BAD_RECORD);
    REQUIRE(perchmellow_rebuild(0, 20, 3, 2097152, NULL, 0, NULL, 0) == PERCHMELLOW_WRONG_LENGTH);
    REQUIRE(perchmellow_anchor_ticks(2, 0, NULL, 0, NULL, 0) == PERCHMELLOW_UNKNOWN_FUNCTION);
    REQUIRE(perchmellow_anchor_ticks(0, 0, NULL, 0, NULL, 0) == PERCHMELLOW_BAD_TICKS);
    REQUIRE(perchmellow_anchor_ticks(0, PERCHMELLOW_TICKS_MOST, NULL, 0, NULL, 0) == PERCHMELLOW_WRONG_LENGTH);
    REQUIRE(perchmellow_round(NULL, 0, NULL, 0) == PERCHMELLOW_WRONG_LENGTH);
    REQUIRE(perchmellow_positions(4, 3, 0, list, PERCHMELLOW_POSITIONS_MOST) == PERCHMELLOW_BAD_RECORD);
    REQUIRE(perchmellow_positions(4, 3, 1, NULL, 0) == PERCHMELLOW_WRONG_LENGTH);
    REQUIRE(perchmellow_positions(4, 3, 32, NULL, 0) == 0);
    REQUIRE(perchmellow_settle(0, 4, value, sizeof value, value, sizeof value, 17) == PERCHMELLOW_BAD_RECORD);
    REQUIRE(PERCHMELLOW_KIND(perchmellow_settle(0, 4, value, sizeof value, value, sizeof value, 0)) == 1);
    return 0;
}
