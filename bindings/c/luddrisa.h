/*
 * luddrisa.h: an hourly ledger of point-to-point transmission reservations.
 *
 * Documents 01 and 02 state the rules; this page says how they are called.
 *
 * THE LEDGER is a slice of 32-bit words that the caller owns, keeps and may
 * store: 8 + rows * (16 + 5 * hours) words, neither more nor fewer.
 *
 *   head      rows, hours, provider, confirmation window in seconds, base hour,
 *             now, rows used, 0
 *   row       type, status, customer, seller, related reference, start, stop,
 *             flags, bid, offer, limit, path, four zeros, then five profiles of
 *             `hours` words: requested, granted, available, displaced, reduced
 *
 * The row of reference n begins at word 8 + (n - 1) * (16 + 5 * hours), and its
 * profile p, 0 requested to 4 reduced, 16 + p * hours further on. A profile has
 * a word for every hour of the ledger, 0 outside the row's span.
 *
 * A reference (ASSIGNMENT_REF) counts from 1: reference n is the n-th row.
 * Entities are 1 to 65,535. Hours run from start up to, not including, stop.
 * Seconds count from 2000-01-01 00:00 UT. Prices are cents per MW-day, at most
 * 99,999,999. A profile word is whole MW, at most 100,000. Paths are 1 to 64.
 *
 * THE POSTINGS are a second slice that the caller owns and keeps beside the
 * ledger: what the provider says that each path can carry, in whole MW, at most
 * 100,000. They are 64 * hours words, path by path; that of path p in hour h is
 * postings[(p - 1) * hours + h]. When the ledger is created the caller sets them
 * to 0. While they are 0 nothing can be confirmed: the provider posts by action
 * 8, and no other action and no contest changes them.
 *
 * Use of a path in an hour is the available of its CONFIRMED rows, and of the
 * CONFIRMED non-firm redirects that left it for another path, while their related
 * row is CONFIRMED and they may return to it. A confirmation, an annulment or a
 * posting that would let use exceed the posting is refused. A firm redirect gives
 * its old path up, so annulling it can fail once that path is sold again.
 *
 * TYPES     1 ORIGINAL firm, 2 ORIGINAL non-firm, 3 RESALE, 4 REDIRECT firm,
 *           5 REDIRECT non-firm, 6 PART_TRANSFER, 7 FULL_TRANSFER, 8 RELINQUISH
 * STATUSES  1 QUEUED, 2 INVALID, 3 RECEIVED, 4 STUDY, 5 REFUSED,
 *           6 COUNTEROFFER, 7 CR_COUNTEROFFER, 8 REBID, 9 SUPERSEDED,
 *           10 ACCEPTED, 11 CR_ACCEPTED, 12 DECLINED, 13 CONFIRMED,
 *           14 WITHDRAWN, 15 DISPLACED, 16 ANNULLED, 17 RETRACTED
 * FLAGS     1 preconfirmed, 2 coordinated (these two on submission), 4 approved,
 *           8 granted given, 16 offer given, 32 countered (these four are set by
 *           the ledger). A move to 6 or 7 sets 32 for good, and a preconfirmed row
 *           that has it can be withdrawn from any open status, one that has not
 *           only from 6, 7 and 11
 *
 * ACTIONS, the fields they read beside kind and actor:
 *
 *   1 submit           reqtype, seller, related, start, stop, flags, price,
 *                      profile, path
 *   2 seller status    reference, status; for 6, 7, 10, 11 price and profile
 *   3 customer status  reference, status; for 8, 13 price and profile
 *   4 approve          reference
 *   5 reduce           reference, profile
 *   6 lapse            reference
 *   7 clock            time
 *   8 post             path, start, stop, profile
 *
 * A profile is `length` words from `offset` on in the word slice handed over
 * with the actions, one for each hour of the span. Kinds 2 and 3 take length 0
 * as no profile; that of kind 8 may be all 0 and replaces the path's postings
 * from start to stop. Fields that a kind does not read are ignored.
 *
 * A reduction takes its profile from the row's available and adds it to its
 * reduced, hour by hour. Nothing else writes reduced: there stands what was cut
 * from the row in all, also once it is displaced. A charge does not look at it.
 *
 * CONTESTS   The holder of a firm row has the first refusal: a challenger that
 * asks for a longer term gets the row displaced only if the holder does not match
 * it. The row's seller runs the contest, from two lists of words. A move of the
 * challenger's is a term in hours, or 0, which stops. A reply of the holder's is
 * 0, which yields, or any other word, which matches the term named, whatever the
 * word is. Both have a greatest term. Every term must outlast the one before, the
 * first one the row itself (stop - start). Where the challenger stops the row is
 * kept, where the holder yields it is lost, and where a list runs out the contest
 * is left unfinished. A match does not lengthen the row. Words change where the
 * row is lost, and then as by its displacement. A contest is no kind of action.
 *
 * BALANCE   Whatever list of actions and contests a fresh ledger is given, every
 * hour of what it leaves balances, and it opens. No action or contest tests the
 * balance, so a ledger that was stored is to be opened when it is taken up again,
 * before it is handed to any other call.
 *
 * ANSWERS   Accepted: 0, the reference, the status before (0 for a submission)
 * and after, and the MW-hours moved; the clock and a posting give five zeros. A
 * lost contest has its displacement's answer, 13 and then 15; one that was kept
 * or left unfinished has 13, 13 and 0. Refused: the number and four zeros, and no
 * word of the ledger or of the postings changes.
 *
 *    1 ledger unsound or not to be created so, postings not 64 * hours words or
 *      one of them over 100,000, or, judged last, an available, displaced or
 *      reduced word would pass 100,000
 *    2 unknown kind, type or status         11 the row can't move so, or is
 *    3 no entity, or not the right party       contested but not firm
 *    4 no such reference                    12 price too high, or price or
 *    5 time below now or past 2099             capacity do not agree
 *    6 not a span of the ledger             13 transfer not approved
 *    7 profile does not fit                 14 available short in an hour
 *    8 all rows used                        15 available differs from granted
 *    9 related row does not fit             16 limit not reached
 *   10 flags                                17 fewer answers than actions
 *   18 not a stamp                          19 stamp not written
 *   20 some hour does not balance (opening alone)
 *   21 path not 1 to 64, or a resale, transfer or relinquishment not on its
 *      related row's path
 *   22 use of the row's path, of its related row's or of the posted path would
 *      exceed the posting in an hour
 *   25 contests alone: a greatest term is not 1 to `hours`, or the holder's is
 *      shorter than its row; a term or a match goes beyond what its party can, or
 *      a term does not outlast the one before
 *
 * ORDER   Two actions, neither of them a submission, a clock change or a posting,
 * come to the same in either order if their rows are of different trees and no
 * path stands in rows of both: the same words, and the same answer to each,
 * refusals included. A tree is an original and all rows that descend from it by
 * their related references, whatever their status. With a path in common the
 * first may be confirmed and the second refused.
 *
 * POINTERS   No pointer may be NULL, also where its length is 0. Each must be
 * aligned for its type and good for its length during the call. What a call
 * writes must overlap nothing else that it is handed. The library keeps no
 * pointer and no state: calls on different ledgers may run at the same time,
 * calls on one ledger or its postings may not, save those that only read it.
 *
 * No call fails in any other way than stated here, whatever the words are.
 */
#ifndef LUDDRISA_H
#define LUDDRISA_H

#include <stddef.h>
#include <stdint.h>

#ifdef __cplusplus
extern "C" {
#endif

struct luddrisa_action {
    uint32_t kind;
    uint32_t actor;
    uint32_t reference;
    uint32_t reqtype; /* document 01's type */
    uint32_t status;
    uint32_t seller;
    uint32_t related;
    uint32_t start;
    uint32_t stop;
    uint32_t flags;
    uint32_t price;
    uint32_t time;
    uint32_t offset; /* of the profile in the word slice */
    uint32_t length; /* of the profile, 0 where none comes */
    uint32_t path;
};

struct luddrisa_answer {
    uint32_t number; /* 0 accepted, otherwise why it was refused */
    uint32_t reference;
    uint32_t before;
    uint32_t after;
    uint32_t moved; /* MW-hours */
};

/*
 * Makes the slice a ledger with no rows used and the clock at 0. Gives 0, or 1
 * where a number or the length is wrong, and then leaves the slice as it is.
 * rows 1 to 1,024; hours 1 to 744; window 1 to 2,592,000; base + hours at most
 * 876,600.
 */
uint32_t luddrisa_create(uint32_t *ledger, size_t len, uint32_t rows, uint32_t hours,
                         uint32_t provider, uint32_t window, uint32_t base);

/*
 * Opens a stored ledger: to be called when it is taken up again. Only reads, and
 * does not look at the postings. Gives 0; 1 where the ledger is unsound; then 20
 * where some hour does not balance, which is where one of these fails:
 *
 * For a CONFIRMED or DISPLACED row that is no relinquish record, granted equals
 * its own available + displaced + reduced plus the granted of the CONFIRMED and
 * DISPLACED rows related to it. Of a redirect among these only what it has not
 * given back counts: its granted less that of its own CONFIRMED and DISPLACED
 * relinquish records.
 *
 * For a CONFIRMED or DISPLACED original, granted equals the sum of available +
 * displaced + reduced over itself and all rows descended from it, at any status.
 */
uint32_t luddrisa_open(const uint32_t *ledger, size_t ledger_len);

/*
 * Answers each action in turn, action i into answers[i]. Gives 0, also for an
 * empty list, or 17 where there are fewer answers than actions, with nothing
 * done. Spare answers are not written. The list is not all-or-nothing: each
 * action has its own answer and those accepted stay; the next one finds ledger
 * and postings as they left them.
 */
uint32_t luddrisa_batch(uint32_t *ledger, size_t ledger_len, uint32_t *postings,
                        size_t postings_len, const uint32_t *words, size_t words_len,
                        const struct luddrisa_action *actions, size_t actions_len,
                        struct luddrisa_answer *answers, size_t answers_len);

/*
 * Runs a contest for the row of a reference. challenger and holder are their
 * greatest terms in hours and no entities; moves are the challenger's, replies
 * the holder's, read in turn: a term, its answer, the next term. Words behind the
 * end of the contest are not read. Only the ledger is written, and only where the
 * row is lost: `after` is then 15, and 13 where it is kept or unfinished.
 *
 * Refused as a displacement (action 2, status 15) by the same actor: 1, 3, 4, 3,
 * 11. Then 11 where the row is not firm; 25 for the greatest terms; 25 for the
 * first term or match that does not fit, whatever was matched before, and for a
 * term also where nobody answers it; and at the very end, for a lost row alone, 1
 * where a displaced word would pass 100,000.
 */
struct luddrisa_answer luddrisa_contest(uint32_t *ledger, size_t ledger_len,
                                        const uint32_t *postings, size_t postings_len,
                                        uint32_t actor, uint32_t reference, uint32_t challenger,
                                        uint32_t holder, const uint32_t *moves, size_t moves_len,
                                        const uint32_t *replies, size_t replies_len);

/*
 * Tells whether a deal chain can be unwound so: 1 where annulling the references in
 * that order, each by its row's seller (action 2, status 16) and each on what the
 * one before left, is accepted at every step, otherwise 0. Only reads: nothing is
 * annulled, and the answer holds as long as no other call writes.
 *
 * 1 for the empty list, whatever the words are. 0 for any other where the ledger is
 * unsound or the postings do not fit it; where a reference is named twice or is not
 * there, and so for every list of more references than rows are used; and where a
 * step is refused with 11, 15, 22 or, for a displaced word, 1: a relinquish record
 * at 13, a row from which something taken has not come back, a firm redirect while
 * there is no room on the path it left. What is annulled earlier in the list comes
 * back and makes room. An open preconfirmed row may be named anywhere, for it moves
 * nothing.
 */
uint32_t luddrisa_annuls_in_order(const uint32_t *ledger, size_t ledger_len,
                                  const uint32_t *postings, size_t postings_len,
                                  const uint32_t *references, size_t references_len);

/*
 * The charge of a CONFIRMED row: MW-hours granted * bid / 24, to the cent, a
 * half up. Gives 0 and the cents, or 1, 4 or 11 and 0 cents.
 */
uint32_t luddrisa_charge(const uint32_t *ledger, size_t len, uint32_t reference, uint64_t *cents);

/*
 * The profile in force: granted once given, requested before, the span only.
 * Gives its number of hours, 0 where the ledger is unsound or has no such
 * reference. Its words are written to the front of out if they fit, otherwise
 * nothing is written; 744 words always suffice.
 */
size_t luddrisa_profile_in_force(const uint32_t *ledger, size_t len, uint32_t reference,
                                 uint32_t *out, size_t out_len);

/*
 * Reads a stamp, yyyymmddhhmmss and zone UT, ES, ED, CS, CD, MS, MD, PS or PD,
 * exactly 16 bytes. Gives 0 and the second, or 18 and second 0.
 */
uint32_t luddrisa_read_stamp(const uint8_t *bytes, size_t len, uint32_t *second);

/*
 * Compares two stamps by their seconds, whatever their zones. Gives 0, and order 0,
 * 1 or 2 as the first is earlier than, the same as or later than the second; or 18
 * and order 0 where either is refused, and then 0 does not mean earlier. Order is
 * always written. Both stamps are only read and may be the same slice.
 */
uint32_t luddrisa_compare_stamps(const uint8_t *first, size_t first_len, const uint8_t *second,
                                 size_t second_len, uint32_t *order);

/*
 * Writes the stamp of a second in a zone, 0 to 8 in the order above. Gives 0,
 * or 19 where the second or the zone is out of range, the local year is before
 * 2000 or the slice is not 16 bytes, and then writes nothing.
 */
uint32_t luddrisa_write_stamp(uint8_t *bytes, size_t len, uint32_t second, uint32_t zone);

#ifdef __cplusplus
}
#endif

#endif
