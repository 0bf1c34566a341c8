/* Bench for other languages: the reference levels of a station's dossier, and the conduct test.
 *
 * docs/LIBRARY.md says how to build the library and link with it, and what the records of a dossier are; docs/calls.c shows every call.
 *
 * Answers. Every call answers one 64-bit number, class * 2^56 + a * 2^32 + b, which bench_class, bench_a and bench_b take apart:
 *   class 0  accepted, passes, or a value in the low 56 bits
 *   class 1  fails: a is the pair and b the lamination, both from 1; 0 and 0 for a single price
 *   class 2  refused: a is the number and b the place (README.md lists the numbers)
 * There is no other class. For every dossier, hour, offer, price and length, the answer and what is written are proved to be what the
 * definitions say (docs/PROMISE.md), and every call ends. A refused call shows no level and writes nothing.
 *
 * Units. Levels and prices are in cents: per MWh for energy, per start, per hour for no-load, per MW for reserve. Quantities are in 0.1 MW,
 * charged energy in kWh, places and lengths in bytes. Hours are counted as the dossier's requests (RQ) and first hours (FV, AV, MV) count them, from 0
 * to 4,294,967,295.
 * Levels: 1 energy, 2 start, 3 no-load, 4 reserve. Conditions: 1 narrow, 2 broad, 3 global.
 *
 * Owners. A plant may be offered by two owners, 1 and 2. A call with an hour names one: what this one adds (AO) joins the common amounts, and what the
 * other adds is passed over. Any other owner is refused with 3 at 0, before all else. The calls without an hour know no owner, and go by the records of both.
 *
 * Memory. A call reads and writes what it is lent and nothing else, allocates nothing and keeps no pointer. It can't see what lies behind a
 * pointer: a length above what is there is the caller's fault, and so are a list or buffer that overlaps the dossier or another list, and a null
 * pointer. Where a length is 0 any pointer but null will do.
 *
 * Threads. There is no state: any number of threads may call at once, with the same dossier too. Of other functions the library calls memcpy and
 * memset alone. A call takes at most 135,000 bytes of stack, so a thread should have 256 KiB; the 128 KiB that some systems give
 * a thread may be too few, and the process then ends.
 */
#ifndef BENCH_H
#define BENCH_H

#include <stddef.h>
#include <stdint.h>

#ifdef __cplusplus
extern "C" {
#endif

/* The version of the library; `bench --version` tells that of the command, which is the same. */
#define BENCH_VERSION "0.1.0"

/* How many words bench_levels writes. */
#define BENCH_WORDS 66

/* A buffer of this many bytes holds every report. */
#define BENCH_REPORT_BYTES 2312

/* How many prices and how many energies bench_week writes: one for each interval of five minutes over seven days. */
#define BENCH_INTERVALS 2016

/* The parts of an answer. */
static inline unsigned bench_class(uint64_t answer) { return (unsigned)(answer >> 56); }
static inline uint32_t bench_a(uint64_t answer) { return (uint32_t)(answer >> 32 & 0xFFFFFF); }
static inline uint32_t bench_b(uint64_t answer) { return (uint32_t)(answer & 0xFFFFFFFF); }

/* Whether a dossier is accepted: 0, or refused with 13, 1 to 9 or 17. The calls below but bench_current refuse such a dossier alike. Those with an hour
 * are refused with 3 at 0 before that for an owner that isn't 1 or 2, and with 20 at 0 behind it where the profile of the hour has no fuel in force: all of
 * its fuel lies ahead. */
uint64_t bench_accept(const uint8_t *dossier, size_t length);

/* Where the current record of a mark and key stands in the dossier, the one with the highest issue: a is its start and b its length. It is never
 * refused: both are 0 where there is no such record, or the dossier draws 13 or 1 to 4; one that draws 5 to 9 or 17 can be looked up in.
 *   mark  its two letters, the first high: 0x4655 is FU. FU and FV ask for the same, the highest issue of both, and so do AD and AV, MM and MV
 *   key   its bytes as one number, the first high, four of them in AO; 0 for RS and LC, which have none */
uint64_t bench_current(const uint8_t *dossier, size_t length, uint16_t mark, uint32_t key);

/* The levels at an hour and for an owner, into a list of words: of each key the highest issue counts whose first hour has come, and third-party payments
 * (cost 4), which are withdrawn, join no level. The value is 66, and words past these stay. A list of fewer (count) is refused with 15 at 0.
 *   words[0]         the profile, 1 to 4
 *   words[1]         the number n of laminations, 1 to 20
 *   words[2 + 3 * i] and the two behind it: from and to (0.1 MW) and level (cents) of lamination i + 1; 0 where i is n to 19
 *   words[62]        the levels held, a bit each: 1 energy, 2 start, 4 no-load, 8 reserve
 *   words[63]        start, words[64] no-load, words[65] reserve, in cents; 0 where not held */
uint64_t bench_levels(const uint8_t *dossier, size_t length, uint32_t hour, uint8_t owner, uint64_t *words, size_t count);

/* The conduct test of an owner's energy offer at an hour and under a condition: 0 if it passes; if it fails, the first pair that does and, of the
 * laminations that it fails in, the first. Refused with 14 if the dossier has no threshold for the condition and energy, 10 if the offer is
 * malformed (a place that is the length of an offer above 4,294,967,295 bytes is cut to its low 32 bits), 11 if a quantity is above the capacity.
 *   offer  1 to 20 pairs of six bytes, the high bytes first: quantity (2 bytes, 0.1 MW) and price (4 bytes, cents per MWh, two's complement, -200,000
 *          to 200,000). Quantities rise from above 0, prices don't fall. A pair reaches from the quantity before it, or 0, to its own. */
uint64_t bench_energy_test(const uint8_t *dossier, size_t length, uint32_t hour, uint8_t owner, uint8_t condition, const uint8_t *offer,
                           size_t offer_length);

/* The conduct test of one price of an owner, in cents and of any value, for a level other than energy (2 to 4): 0 if it passes. Refused with 12 if the
 * technology doesn't hold the level, or it is energy; 14 if the dossier has no threshold for the condition and the level. */
uint64_t bench_price_test(const uint8_t *dossier, size_t length, uint32_t hour, uint8_t owner, uint8_t level, uint8_t condition, int32_t price);

/* The report at an hour and for an owner, into a buffer: lines of ASCII, each with a newline behind it and no null byte, levels in dollars and quantities
 * in MW. The last line is `retired N`: N third-party payments (cost 4), common ones and the owner's, are in force at the hour in its profile, and no level
 * has them. The value is the length written,
 * and bytes past it stay. A buffer that the report doesn't fit is refused with 15 at 0. */
uint64_t bench_report(const uint8_t *dossier, size_t length, uint32_t hour, uint8_t owner, uint8_t *buffer, size_t buffer_length);

/* The charging week, into a list of prices and a list of energies; the value is 2,016, and places past these stay. A list of fewer (price_count,
 * energy_count) is refused with 15 at 0, and both lists stay as they were.
 *   prices[n - 1]    the price of interval n, in cents per MWh, and energies[n - 1] its energy, in kWh: those of its current record (CH); both 0
 *                    where there is none, and so in every interval of a station that isn't storage */
uint64_t bench_week(const uint8_t *dossier, size_t length, int32_t *prices, size_t price_count, uint32_t *energies, size_t energy_count);

#ifdef __cplusplus
}
#endif

#endif
