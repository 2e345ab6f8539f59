/*
 * Document 01's day at the desk on two posted paths, through the library: prints
 * its 14 lines, and exits with status 1 where a line or a word left behind differs,
 * or the ledger left behind does not open. Then its resale is contested and its chain
 * unwound, each on another ledger, and stamps are read, written and compared, all
 * without a line.
 *
 *   cc -std=c11 -o example example.c -L<archive> -lluddrisa
 */
#include <stdio.h>
#include <string.h>

#include "luddrisa.h"

enum {
    ROWS = 8,
    HOURS = 4,
    PROFILES = 5,
    ROW_WORDS = 16 + PROFILES * HOURS,
    LEDGER_WORDS = 8 + ROWS * ROW_WORDS,
    POSTING_WORDS = 64 * HOURS,
    POSTS = 2,
    ACTIONS = 14,
    STAMP_BYTES = 16
};

/* Profiles one after the other. */
static const uint32_t profiles[] = {100, 100, 100, 100, 40, 60, 40, 50, 1, 20};

/* Beforehand: paths 1 and 2 posted at 100 MW in all hours. */
static const struct luddrisa_action posts[POSTS] = {
    {.kind = 8, .actor = 1, .start = 0, .stop = 4, .offset = 0, .length = 4, .path = 1},
    {.kind = 8, .actor = 1, .start = 0, .stop = 4, .offset = 0, .length = 4, .path = 2},
};

static const struct luddrisa_action list[ACTIONS] = {
    {.kind = 1, .actor = 10, .reqtype = 1, .seller = 1, .start = 0, .stop = 4,
     .price = 500, .offset = 0, .length = 4, .path = 1},
    {.kind = 2, .actor = 1, .reference = 1, .status = 10, .price = 500},
    {.kind = 3, .actor = 10, .reference = 1, .status = 13, .price = 500},
    {.kind = 1, .actor = 20, .reqtype = 3, .seller = 10, .related = 1, .start = 1, .stop = 3,
     .flags = 1, .price = 700, .offset = 4, .length = 2, .path = 1},
    {.kind = 2, .actor = 10, .reference = 2, .status = 10, .price = 700},
    {.kind = 1, .actor = 10, .reqtype = 5, .seller = 1, .related = 1, .start = 2, .stop = 4,
     .flags = 1, .offset = 6, .length = 2, .path = 2},
    {.kind = 2, .actor = 1, .reference = 3, .status = 10},
    {.kind = 1, .actor = 30, .reqtype = 3, .seller = 10, .related = 1, .start = 2, .stop = 3,
     .flags = 1, .offset = 8, .length = 1, .path = 1},
    {.kind = 2, .actor = 10, .reference = 4, .status = 10},
    {.kind = 2, .actor = 1, .reference = 1, .status = 15},
    {.kind = 1, .actor = 10, .reqtype = 8, .seller = 1, .related = 3, .start = 3, .stop = 4,
     .flags = 1, .offset = 9, .length = 1, .path = 2},
    {.kind = 2, .actor = 1, .reference = 5, .status = 10},
    {.kind = 2, .actor = 10, .reference = 2, .status = 16},
    {.kind = 2, .actor = 1, .reference = 3, .status = 16},
};

static const struct luddrisa_answer expected[ACTIONS] = {
    {0, 1, 0, 1, 0},    {0, 1, 1, 10, 0},   {0, 1, 10, 13, 400}, {0, 2, 0, 1, 0},
    {0, 2, 1, 13, 100}, {0, 3, 0, 1, 0},    {0, 3, 1, 13, 90},   {0, 4, 0, 1, 0},
    {14, 0, 0, 0, 0},   {0, 1, 13, 15, 210}, {0, 5, 0, 1, 0},    {0, 5, 1, 13, 20},
    {0, 2, 13, 16, 100}, {15, 0, 0, 0, 0},
};

/* One profile of a row: 0 requested, 1 granted, 2 available, 3 displaced, 4 reduced. */
static const uint32_t *profile(const uint32_t *ledger, uint32_t reference, uint32_t which)
{
    return ledger + 8 + (reference - 1) * ROW_WORDS + 16 + which * HOURS;
}

/* Hands a list over, its profiles in the slice above. */
static uint32_t batch(uint32_t *ledger, uint32_t *postings, const struct luddrisa_action *actions,
                      size_t count, struct luddrisa_answer *answers)
{
    return luddrisa_batch(ledger, LEDGER_WORDS, postings, POSTING_WORDS, profiles,
                          sizeof profiles / sizeof profiles[0], actions, count, answers, count);
}

/* What a contest answers for the day's resale, which entity 10 sells and which is
 * two of the four hours; the challenger can go to 4 hours and its holder to 3. */
static struct luddrisa_answer contest(uint32_t *ledger, const uint32_t *postings,
                                      const uint32_t *moves, size_t moves_len,
                                      const uint32_t *replies, size_t replies_len)
{
    return luddrisa_contest(ledger, LEDGER_WORDS, postings, POSTING_WORDS, 10, 2, 4, 3, moves,
                            moves_len, replies, replies_len);
}

static int differs(struct luddrisa_answer answer, struct luddrisa_answer from)
{
    return memcmp(&answer, &from, sizeof answer) != 0;
}

/* The day up to the resale, and then a contest for it: how many answers and words
 * differ from what they should be. */
static int contests(void)
{
    static const uint32_t moves[] = {3, 4, 0};
    static const uint32_t replies[] = {1, 0};
    static const uint32_t again[] = {3, 3};
    static const uint32_t displaced[HOURS] = {0, 40, 60, 0};
    const struct luddrisa_answer kept = {0, 2, 13, 13, 0};
    const struct luddrisa_answer lost = {0, 2, 13, 15, 100};
    const struct luddrisa_answer refused = {25, 0, 0, 0, 0};
    uint32_t ledger[LEDGER_WORDS];
    uint32_t before[LEDGER_WORDS];
    uint32_t postings[POSTING_WORDS] = {0};
    struct luddrisa_answer answers[ACTIONS];
    int differences = 0;

    if (luddrisa_create(ledger, LEDGER_WORDS, ROWS, HOURS, 1, 3600, 0) != 0 ||
        batch(ledger, postings, posts, POSTS, answers) != 0 ||
        batch(ledger, postings, list, 5, answers) != 0) {
        return 1;
    }
    memcpy(before, ledger, sizeof before);
    /* Three hours are matched, and the challenger names no more, or the same again. */
    differences += differs(contest(ledger, postings, moves, 1, replies, 1), kept);
    differences += differs(contest(ledger, postings, again, 2, replies, 2), refused);
    differences += memcmp(ledger, before, sizeof before) != 0;
    /* Four are not, and the third move is not looked at. */
    differences += differs(contest(ledger, postings, moves, 3, replies, 2), lost);
    differences += memcmp(profile(ledger, 2, 3), displaced, sizeof displaced) != 0;
    differences += luddrisa_open(ledger, LEDGER_WORDS) != 0;
    return differences;
}

/* The day up to its tenth action: rows 2 and 3 came from row 1, and row 4 is open and
 * preconfirmed. How many answers about unwinding them are not what they should be. */
static int unwinds(void)
{
    static const uint32_t from_the_ends[] = {3, 4, 2, 1};
    static const uint32_t too_early[] = {3, 4, 1, 2};
    uint32_t ledger[LEDGER_WORDS];
    uint32_t postings[POSTING_WORDS] = {0};
    struct luddrisa_answer answers[ACTIONS];
    int differences = 0;

    if (luddrisa_create(ledger, LEDGER_WORDS, ROWS, HOURS, 1, 3600, 0) != 0 ||
        batch(ledger, postings, posts, POSTS, answers) != 0 ||
        batch(ledger, postings, list, 9, answers) != 0) {
        return 1;
    }
    differences += luddrisa_annuls_in_order(ledger, LEDGER_WORDS, postings, POSTING_WORDS,
                                            from_the_ends, 4) != 1;
    differences += luddrisa_annuls_in_order(ledger, LEDGER_WORDS, postings, POSTING_WORDS,
                                            too_early, 4) != 0;
    return differences;
}

/* A customer's stamp, and the reply ten minutes later: how many answers and bytes differ
 * from what they should be. */
static int stamps(void)
{
    static const uint8_t asked[] = "20070423060000ES";
    static const uint8_t in_daylight_time[] = "20070423070000ED";
    static const uint8_t second_70[] = "20070423220070ES";
    static const uint32_t es = 1;
    uint8_t reply[STAMP_BYTES] = {0};
    uint32_t second;
    uint32_t order;
    int differences = 0;

    differences += luddrisa_read_stamp(asked, STAMP_BYTES, &second) != 0 || second != 230641200;
    differences += luddrisa_write_stamp(reply, STAMP_BYTES, second + 600, es) != 0 ||
                   memcmp(reply, "20070423061000ES", STAMP_BYTES) != 0;
    differences += luddrisa_compare_stamps(asked, STAMP_BYTES, reply, STAMP_BYTES, &order) != 0 ||
                   order != 0;
    differences += luddrisa_compare_stamps(reply, STAMP_BYTES, asked, STAMP_BYTES, &order) != 0 ||
                   order != 2;
    /* The same second, told in another zone. */
    differences += luddrisa_compare_stamps(asked, STAMP_BYTES, in_daylight_time, STAMP_BYTES,
                                           &order) != 0 || order != 1;
    differences += luddrisa_read_stamp(second_70, STAMP_BYTES, &second) != 18 || second != 0;
    differences += luddrisa_compare_stamps(reply, STAMP_BYTES, second_70, STAMP_BYTES,
                                           &order) != 18 || order != 0;
    return differences;
}

int main(void)
{
    static const uint32_t displaced[HOURS] = {100, 100, 60, 70};
    static const uint32_t available[HOURS] = {0, 0, 40, 30};
    static const uint32_t reduced[HOURS] = {0, 0, 0, 0};
    static const struct luddrisa_answer posted[POSTS];
    uint32_t ledger[LEDGER_WORDS];
    uint32_t postings[POSTING_WORDS] = {0};
    struct luddrisa_answer answers[ACTIONS];
    uint32_t opening;
    uint64_t cents;
    int differences = 0;

    if (luddrisa_create(ledger, LEDGER_WORDS, ROWS, HOURS, 1, 3600, 0) != 0) {
        return 1;
    }
    if (batch(ledger, postings, posts, POSTS, answers) != 0) {
        return 1;
    }
    differences += memcmp(answers, posted, sizeof posted) != 0;
    if (batch(ledger, postings, list, ACTIONS, answers) != 0) {
        return 1;
    }
    for (int i = 0; i < ACTIONS; i++) {
        printf("%d %lu %lu %lu %lu %lu\n", i + 1, (unsigned long)answers[i].number,
               (unsigned long)answers[i].reference, (unsigned long)answers[i].before,
               (unsigned long)answers[i].after, (unsigned long)answers[i].moved);
        differences += memcmp(&answers[i], &expected[i], sizeof answers[i]) != 0;
    }
    differences += memcmp(profile(ledger, 1, 3), displaced, sizeof displaced) != 0;
    differences += memcmp(profile(ledger, 3, 2), available, sizeof available) != 0;
    for (uint32_t reference = 1; reference <= 5; reference++) {
        differences += memcmp(profile(ledger, reference, 4), reduced, sizeof reduced) != 0;
    }
    for (int i = 0; i < POSTING_WORDS; i++) {
        differences += postings[i] != (i < 2 * HOURS ? 100u : 0u);
    }
    /* Row 3 is CONFIRMED at bid 0, row 1 no longer. */
    differences += luddrisa_charge(ledger, LEDGER_WORDS, 3, &cents) != 0 || cents != 0;
    differences += luddrisa_charge(ledger, LEDGER_WORDS, 1, &cents) != 11 || cents != 0;
    /* As it would be opened tomorrow, when it has been stored overnight. */
    opening = luddrisa_open(ledger, LEDGER_WORDS);
    if (opening != 0) {
        fprintf(stderr, "the ledger does not open: %lu\n", (unsigned long)opening);
        return 1;
    }
    differences += contests();
    differences += unwinds();
    differences += stamps();
    return differences != 0;
}
