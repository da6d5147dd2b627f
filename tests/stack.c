/*
 * How much stack the calls take: each is run on a stack of its own that was filled with a pattern, for every k, schedule and function and
 * for rounds of every kind, and the deepest byte that changed is looked for. Prints a line a call; fails where a call takes more than the
 * header says. What the test's own frame takes is measured the same way and taken off.
 */
#include <perchmellow.h>

#include <stdio.h>
#include <stdlib.h>
#include <string.h>
#include <ucontext.h>

enum { STACK = 64 * 1024, PATTERN = 0xA5 };

static unsigned char stack[STACK];
static ucontext_t here, there;

/* what the next call is made with */
static uint8_t seed[PERCHMELLOW_VALUE], card[PERCHMELLOW_CARD_MOST], post[PERCHMELLOW_POST], out[PERCHMELLOW_VALUE];
static uint32_t list[PERCHMELLOW_POSITIONS_MOST], function, k, schedule, round_number;
static uint64_t word;

/* a card of k whose pebblers all run when it begins */
static uint32_t ticks(void) { return ((uint32_t)1 << k) - (k > 1); }

static void nothing(void) {}
static void start(void) { word = perchmellow_start(function, k, schedule, seed, sizeof seed, card, sizeof card); }
static void start_ticks(void) { word = perchmellow_start_ticks(function, ticks(), schedule, seed, sizeof seed, card, sizeof card); }
static void rebuild(void) { word = perchmellow_rebuild(function, k, schedule, round_number, seed, sizeof seed, card, sizeof card); }
static void run(void) { word = perchmellow_round(card, sizeof card, out, sizeof out); }
static void positions(void) { word = perchmellow_positions(k, schedule, round_number, list, PERCHMELLOW_POSITIONS_MOST); }
static void anchor(void) { word = perchmellow_anchor(function, k, seed, sizeof seed, out, sizeof out); }
static void anchor_ticks(void) { word = perchmellow_anchor_ticks(function, ticks(), seed, sizeof seed, out, sizeof out); }
static void enrol(void) { word = perchmellow_enrol(function, k, seed, sizeof seed, post, sizeof post); }
static void offer(void) { word = perchmellow_offer(post, sizeof post, out, sizeof out, PERCHMELLOW_GAP_MOST); }
static void settle(void) { word = perchmellow_settle(function, k, seed, sizeof seed, out, sizeof out, 64); }

static size_t taken(void (*call)(void)) {
    size_t i = 0;
    memset(stack, PATTERN, sizeof stack);
    if (getcontext(&there) != 0) exit(2);
    there.uc_stack.ss_sp = stack;
    there.uc_stack.ss_size = sizeof stack;
    there.uc_link = &here;
    makecontext(&there, call, 0);
    if (swapcontext(&here, &there) != 0) exit(2);
    while (i < sizeof stack && stack[i] == PATTERN) i++;
    return sizeof stack - i;
}

static int failed;

/* the most that a call took, beyond an empty one */
static void say(const char *name, size_t most, size_t empty, size_t limit) {
    size_t used = most - empty;
    printf("%-12s %5zu bytes of stack\n", name, used);
    if (used > limit) {
        printf("failed: the header says at most %zu\n", limit);
        failed = 1;
    }
}

static void greater(size_t *most, size_t now) {
    if (now > *most) *most = now;
}

/* a well-formed record before the given round, with strange values */
static void lay(uint32_t r) {
    uint32_t held;
    round_number = r;
    positions();
    if (PERCHMELLOW_REFUSAL(word) != 0) exit(2);
    held = PERCHMELLOW_FIRST(word);
    start();
    if (PERCHMELLOW_REFUSAL(word) != 0) exit(2);
    card[8] = (uint8_t)r, card[9] = (uint8_t)(r >> 8), card[10] = (uint8_t)(r >> 16), card[11] = (uint8_t)(r >> 24);
    memset(card + 16, 0, sizeof card - 16);
    memset(card + 16, 0x5C, PERCHMELLOW_VALUE * held);
}

static void refused(const char *name, uint32_t r) {
    if (PERCHMELLOW_REFUSAL(word) == 0) return;
    printf("failed: %s, round %u of k = %u under schedule %u, was refused\n", name, (unsigned)r, (unsigned)k, (unsigned)schedule);
    failed = 1;
}

int main(void) {
    size_t empty = taken(nothing), started = 0, sold = 0, rebuilt = 0, ran = 0, listed = 0, anchored = 0, led = 0;
    size_t enrolled = 0, offered = 0, settled = 0;
    long calls = 0;
    memset(seed, 7, sizeof seed);
    for (function = 0; function < 2; function++) {
        for (k = 0; k <= PERCHMELLOW_K_MOST; k++) {
            for (schedule = 0; schedule < 4; schedule++) {
                uint32_t end = (uint32_t)2 << k, step;
                greater(&started, taken(start));
                if (k <= 12 || function == PERCHMELLOW_MD5) greater(&sold, taken(start_ticks));
                /* every round of short cards; of long ones the rounds about each power of two, and some between */
                for (round_number = 1; round_number < end; round_number += step) {
                    uint32_t r = round_number, left = end - r;
                    int near = r < 40 || left < 40 || ((r + 3) & (r - 4)) < 8 || ((left + 3) & (left - 4)) < 8;
                    step = k <= 7 || near ? 1 : 1 + end / 512;
                    if (schedule == PERCHMELLOW_RUSHING && k > 12) continue; /* up to a million hashes in one round */
                    lay(r);
                    round_number = r;
                    greater(&listed, taken(positions));
                    greater(&ran, taken(run));
                    refused("round", r);
                    calls += 2;
                    /* where the walk is short; and once for each k where all of its pebblers run */
                    if (list[0] < 256 || (function == PERCHMELLOW_MD5 && r == end / 2 + 1)) {
                        greater(&rebuilt, taken(rebuild));
                        refused("rebuild", r);
                        calls++;
                    }
                    round_number = r;
                }
            }
            if (k <= 12) greater(&anchored, taken(anchor));
            if (k <= 12) greater(&led, taken(anchor_ticks));
            greater(&enrolled, taken(enrol));
            memset(out, 9, sizeof out);
            greater(&offered, taken(offer));
            if (k >= 6) greater(&settled, taken(settle));
        }
    }
    printf("%ld rounds, lists and rebuilds\n", calls);
    say("start", started, empty, PERCHMELLOW_STACK);
    say("start_ticks", sold, empty, PERCHMELLOW_STACK);
    say("rebuild", rebuilt, empty, PERCHMELLOW_STACK);
    say("round", ran, empty, PERCHMELLOW_STACK);
    say("positions", listed, empty, PERCHMELLOW_STACK);
    say("anchor", anchored, empty, PERCHMELLOW_STACK);
    say("anchor_ticks", led, empty, PERCHMELLOW_STACK);
    say("enrol", enrolled, empty, PERCHMELLOW_STACK);
    say("offer", offered, empty, PERCHMELLOW_STACK);
    say("settle", settled, empty, PERCHMELLOW_STACK);
    return failed;
}
