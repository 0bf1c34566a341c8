/* Every call of the library from C, on case R1 of README.md with two thresholds, with prices that come in later and one that is known early, with
 * a payment that is withdrawn, with what a second owner adds, and the charging week of a battery. docs/calls.py is the same from Python; both print docs/calls.out.
 * With the library built (tools/library), at the root of the repository:
 *
 *   cc -std=c99 -Iinclude -o target/calls docs/calls.c target/staticlib/libbench.a && target/calls
 */
#include <inttypes.h>
#include <stdio.h>

#include "bench.h"

/* A plant with one owner is asked about as owner 1. */
enum { NARROW = 1, RESERVE = 4, HOUR = 0, OWNER = 1 };

/* Bytes in the making: a dossier or an offer. */
struct bytes {
    uint8_t at[1000];
    size_t length;
};

/* A number of so many bytes, the high byte first. */
static void put(struct bytes *to, int width, uint64_t number) {
    while (width-- > 0) to->at[to->length++] = (uint8_t)(number >> 8 * width);
}

/* What a record begins with: its mark and its issue. Its fields come next. */
static void begin(struct bytes *dossier, const char *mark, uint32_t issue) {
    put(dossier, 1, (uint8_t)mark[0]);
    put(dossier, 1, (uint8_t)mark[1]);
    put(dossier, 4, issue);
}

static void put_station(struct bytes *dossier) {
    begin(dossier, "RS", 1);
    put(dossier, 1, 1);      /* technology: thermal */
    put(dossier, 2, 1000);   /* capacity: 100.0 MW */
    put(dossier, 2, 1000);   /* performance factor: 1.000 */
    put(dossier, 4, 500000); /* MJ per start */
    put(dossier, 4, 100000); /* MJ per hour at no load */
    put(dossier, 4, 0);      /* incremental fuel: nuclear alone */
    put(dossier, 4, 0);      /* state of charge: storage alone */
    put(dossier, 2, 0);      /* charging efficiency: storage alone */
    put(dossier, 2, 0);      /* window: storage and hydroelectric alone */
}

/* A point of the heat curve: its number, its output in 0.1 MW, its heat in MJ per hour. */
static void put_point(struct bytes *dossier, int point, int output, uint32_t heat) {
    begin(dossier, "HP", 1);
    put(dossier, 1, point);
    put(dossier, 2, output);
    put(dossier, 4, heat);
}

/* The fuel price of profile 1 in micro-dollars per GJ, with emission at 1.00 dollar. */
static void put_fuel(struct bytes *dossier, uint32_t issue, uint32_t fuel) {
    begin(dossier, "FU", issue);
    put(dossier, 1, 1);
    put(dossier, 4, fuel);
    put(dossier, 4, 1000000);
}

/* A cost of profile 1 for a level, in micro-dollars: consumables (3), or payments to third parties (4). */
static void put_adder(struct bytes *dossier, int cost, int level, uint64_t amount) {
    begin(dossier, "AD", 1);
    put(dossier, 1, 1);
    put(dossier, 1, cost);
    put(dossier, 1, level);
    put(dossier, 8, amount);
}

static void put_maintenance(struct bytes *dossier) {
    begin(dossier, "MM", 1);
    put(dossier, 1, 1);         /* profile */
    put(dossier, 1, 1);         /* item */
    put(dossier, 8, 200000000); /* cost: 2,000,000.00 dollars */
    put(dossier, 2, 1000);      /* output: 100.0 MW */
    put(dossier, 4, 25000);     /* interval in hours */
    put(dossier, 2, 100);       /* 10.0 hours per start */
}

/* How far above a level a price may be under the narrow condition: percent, and a margin in cents, all ones for none. The floor is 0. */
static void put_threshold(struct bytes *dossier, int level, int percent, uint32_t margin) {
    begin(dossier, "TH", 1);
    put(dossier, 1, NARROW);
    put(dossier, 1, level);
    put(dossier, 2, percent);
    put(dossier, 4, margin);
    put(dossier, 4, 0);
}

static struct bytes r1(void) {
    struct bytes dossier = {{0}, 0};
    put_station(&dossier);
    put_point(&dossier, 1, 500, 500000);
    put_point(&dossier, 2, 1000, 900000);
    put_fuel(&dossier, 1, 4000000);
    put_adder(&dossier, 3, 1, 1500000);
    put_adder(&dossier, 3, RESERVE, 250000);
    put_maintenance(&dossier);
    put_threshold(&dossier, 1, 50, 2500);
    put_threshold(&dossier, RESERVE, 100, UINT32_MAX);
    return dossier;
}

/* What was asked, and what an answer says; `good` is what class 0 means here. */
static void say(const char *asked, uint64_t answer, const char *good) {
    switch (bench_class(answer)) {
    case 0: printf("%s: %s\n", asked, good); break;
    case 1: printf("%s: fails, pair %" PRIu32 ", lamination %" PRIu32 "\n", asked, bench_a(answer), bench_b(answer)); break;
    default: printf("%s: refused %" PRIu32 " at %" PRIu32 "\n", asked, bench_a(answer), bench_b(answer));
    }
}

static void show_report(const struct bytes *dossier) {
    uint8_t buffer[BENCH_REPORT_BYTES];
    uint64_t answer = bench_report(dossier->at, dossier->length, HOUR, OWNER, buffer, sizeof buffer);
    say("report", answer, "written");
    if (bench_class(answer) == 0) fwrite(buffer, 1, bench_b(answer), stdout);
}

static void show_levels(const struct bytes *dossier) {
    static const char *const names[] = {"start", "no-load", "reserve"};
    uint64_t words[BENCH_WORDS];
    uint64_t answer = bench_levels(dossier->at, dossier->length, HOUR, OWNER, words, BENCH_WORDS);
    say("levels", answer, "written");
    if (bench_class(answer) != 0) return;
    printf("profile %" PRIu64 "\n", words[0]);
    for (uint64_t i = 0; i < words[1]; i++) {
        const uint64_t *step = words + 2 + 3 * i;
        printf("lamination %" PRIu64 ", %" PRIu64 " to %" PRIu64 ": %" PRIu64 " cents\n", i + 1, step[0], step[1], step[2]);
    }
    for (int i = 0; i < 3; i++) {
        if (words[62] >> (i + 1) & 1) printf("%s: %" PRIu64 " cents\n", names[i], words[63 + i]);
    }
}

/* Half the capacity at 42.30, the level, and the other half at a price in cents. */
static uint64_t offer_test(const struct bytes *dossier, uint8_t owner, int32_t price) {
    struct bytes offer = {{0}, 0};
    put(&offer, 2, 500);
    put(&offer, 4, 4230);
    put(&offer, 2, 1000);
    put(&offer, 4, (uint32_t)price);
    return bench_energy_test(dossier->at, dossier->length, HOUR, owner, NARROW, offer.at, offer.length);
}

static uint64_t reserve_test(const struct bytes *dossier, int32_t price) {
    return bench_price_test(dossier->at, dossier->length, HOUR, OWNER, RESERVE, NARROW, price);
}

/* Fuel prices that come in later: the issue that is there once more, or a newer one and behind it an older one. */
static void show_fuel(const struct bytes *dossier) {
    struct bytes twice = *dossier, later = *dossier;
    put_fuel(&twice, 1, 5000000);
    say("fuel with the same issue", bench_accept(twice.at, twice.length), "accepted");
    put_fuel(&later, 3, 5000000);
    put_fuel(&later, 2, 4500000);
    say("fuel with issues 3 and 2", bench_accept(later.at, later.length), "accepted");
    uint64_t part = bench_current(later.at, later.length, 0x4655, 1); /* FU of profile 1 */
    uint32_t start = bench_a(part);
    int issue = later.at[start + 5]; /* the low byte of four is enough here */
    printf("current fuel: issue %d, %" PRIu32 " bytes at %" PRIu32 "\n", issue, bench_b(part), start);
}

/* The energy level at an hour and for an owner. */
static void show_energy(const struct bytes *dossier, uint32_t hour, uint8_t owner) {
    uint64_t words[BENCH_WORDS] = {0};
    char asked[50], good[30];
    uint64_t answer = bench_levels(dossier->at, dossier->length, hour, owner, words, BENCH_WORDS);
    snprintf(asked, sizeof asked, "energy at hour %" PRIu32 ", owner %u", hour, (unsigned)owner);
    snprintf(good, sizeof good, "%" PRIu64 " cents", words[4]);
    say(asked, answer, good);
}

/* Gas at 5.00 dollars from hour 24 on, sent early; and oil, profile 2, which is asked for two hours before its price begins. */
static void show_first_hours(const struct bytes *dossier) {
    struct bytes later = *dossier;
    begin(&later, "FV", 2);
    put(&later, 4, 24); /* first hour */
    put(&later, 1, 1);  /* profile */
    put(&later, 4, 5000000);
    put(&later, 4, 1000000);
    begin(&later, "RQ", 1);
    put(&later, 1, 1);  /* request */
    put(&later, 4, 26); /* first hour */
    put(&later, 4, 40); /* last hour */
    put(&later, 1, 2);  /* profile */
    begin(&later, "FV", 1);
    put(&later, 4, 28);
    put(&later, 1, 2);
    put(&later, 4, 11500000);
    put(&later, 4, 1800000);
    say("fuel from hour 24 on", bench_accept(later.at, later.length), "accepted");
    for (uint32_t hour = 23; hour <= 29; hour += 2) show_energy(&later, hour, OWNER);
}

/* A payment to a third party, 2.00 for energy: it is withdrawn, so that no level has it, and the report counts it in its last line. */
static void show_payment(const struct bytes *dossier) {
    struct bytes paid = *dossier;
    put_adder(&paid, 4, 1, 2000000);
    say("third-party payment", bench_accept(paid.at, paid.length), "accepted");
    show_report(&paid);
}

/* A plant that two owners offer: the second adds 0.75 for energy, of which the first sees nothing. There is no third. */
static void show_owners(const struct bytes *dossier) {
    struct bytes shared = *dossier;
    begin(&shared, "AO", 1);
    put(&shared, 1, 2); /* owner */
    put(&shared, 1, 1); /* profile */
    put(&shared, 1, 3); /* cost: consumables */
    put(&shared, 1, 1); /* level: energy */
    put(&shared, 8, 750000);
    say("a second owner", bench_accept(shared.at, shared.length), "accepted");
    for (uint8_t owner = 1; owner <= 3; owner++) show_energy(&shared, HOUR, owner);
    say("energy at 64.57, owner 1", offer_test(&shared, 1, 6457), "passes");
    say("energy at 64.57, owner 2", offer_test(&shared, 2, 6457), "passes");
    uint64_t part = bench_current(shared.at, shared.length, 0x414F, 0x02010301); /* AO of owner 2, profile 1, cost 3, level 1 */
    printf("its amount: %" PRIu32 " bytes at %" PRIu32 "\n", bench_b(part), bench_a(part));
}

/* A battery of 80.0 MW with one full hour of charge and one hour in its window. */
static struct bytes battery(void) {
    struct bytes dossier = {{0}, 0};
    begin(&dossier, "RS", 1);
    put(&dossier, 1, 3);   /* technology: storage */
    put(&dossier, 2, 800); /* capacity: 80.0 MW */
    put(&dossier, 2, 0);   /* performance factor: thermal and nuclear alone */
    put(&dossier, 4, 0);   /* MJ per start: thermal alone */
    put(&dossier, 4, 0);   /* MJ per hour at no load: thermal alone */
    put(&dossier, 4, 0);   /* incremental fuel: nuclear alone */
    put(&dossier, 4, 800); /* state of charge: 80.0 MWh */
    put(&dossier, 2, 800); /* charging efficiency: 0.800 */
    put(&dossier, 2, 1);   /* window: one hour */
    begin(&dossier, "FU", 1);
    put(&dossier, 1, 1);      /* profile */
    put(&dossier, 4, 750000); /* 0.75 dollars per MWh beside the charging cost */
    put(&dossier, 4, 0);      /* emission: thermal alone */
    begin(&dossier, "HR", 1);
    put(&dossier, 1, 1);    /* hour */
    put(&dossier, 4, 6115); /* its price: 61.15 */
    return dossier;
}

/* What was charged in an interval of five minutes: its price in cents per MWh, its energy in kWh. */
static void put_charging(struct bytes *dossier, uint32_t issue, int interval, int32_t price, uint32_t energy) {
    begin(dossier, "CH", issue);
    put(dossier, 2, interval);
    put(dossier, 4, (uint32_t)price);
    put(dossier, 4, energy);
}

/* The intervals in which a battery charged: of interval 13 the newer record counts, though the older one lies behind it. */
static void show_week(void) {
    static int32_t prices[BENCH_INTERVALS];
    static uint32_t energies[BENCH_INTERVALS];
    struct bytes dossier = battery();
    put_charging(&dossier, 2, 13, 2000, 1000);
    put_charging(&dossier, 1, 49, -500, 3000);
    put_charging(&dossier, 1, 13, 1850, 2500);
    say("week in a short list", bench_week(dossier.at, dossier.length, prices, BENCH_INTERVALS, energies, BENCH_INTERVALS - 1), "written");
    uint64_t answer = bench_week(dossier.at, dossier.length, prices, BENCH_INTERVALS, energies, BENCH_INTERVALS);
    say("week", answer, "written");
    if (bench_class(answer) != 0) return;
    for (int i = 0; i < BENCH_INTERVALS; i++) {
        if (energies[i] > 0) printf("interval %d: %" PRIu32 " kWh at %" PRId32 " cents\n", i + 1, energies[i], prices[i]);
    }
}

int main(void) {
    struct bytes dossier = r1();
    say("dossier", bench_accept(dossier.at, dossier.length), "accepted");
    show_report(&dossier);
    show_levels(&dossier);
    say("energy at 63.45", offer_test(&dossier, OWNER, 6345), "passes");
    say("energy at 63.46", offer_test(&dossier, OWNER, 6346), "passes");
    say("energy at 2000.01", offer_test(&dossier, OWNER, 200001), "passes");
    say("reserve at 0.50", reserve_test(&dossier, 50), "passes");
    say("reserve at 0.51", reserve_test(&dossier, 51), "passes");
    show_fuel(&dossier);
    show_first_hours(&dossier);
    show_payment(&dossier);
    show_owners(&dossier);
    show_week();
    return 0;
}
