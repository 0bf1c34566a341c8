"""Every call of the library from Python, on case R1 of README.md with two thresholds, with prices that come in later and one that is known early, with
a payment that is withdrawn, with what a second owner adds, and the charging week of a battery. docs/calls.c is the same from C; both print docs/calls.out.
With the library built (tools/library), at the root of the repository:

    cc -shared -o target/libbench.so -Wl,--whole-archive target/staticlib/libbench.a -Wl,--no-whole-archive
    python3 docs/calls.py target/libbench.so
"""
import ctypes
import os
import sys

NARROW, RESERVE, HOUR = 1, 4, 0
OWNER = 1  # a plant with one owner is asked about as this one
WORDS = 66  # that the levels take
REPORT_BYTES = 2312  # hold every report
INTERVALS = 2016  # of five minutes over seven days

U8, U16, U32, U64, I32, SIZE = ctypes.c_uint8, ctypes.c_uint16, ctypes.c_uint32, ctypes.c_uint64, ctypes.c_int32, ctypes.c_size_t
BYTES = ctypes.c_char_p  # lent to be read; a null byte doesn't end it, since the length goes along

# what each function is lent, as include/bench.h declares it; without it ctypes takes an answer for a number of 32 bits
LENT = {
    "bench_accept": [BYTES, SIZE],
    "bench_current": [BYTES, SIZE, U16, U32],
    "bench_levels": [BYTES, SIZE, U32, U8, ctypes.POINTER(U64), SIZE],
    "bench_energy_test": [BYTES, SIZE, U32, U8, U8, BYTES, SIZE],
    "bench_price_test": [BYTES, SIZE, U32, U8, U8, U8, I32],
    "bench_report": [BYTES, SIZE, U32, U8, ctypes.POINTER(U8), SIZE],
    "bench_week": [BYTES, SIZE, ctypes.POINTER(I32), SIZE, ctypes.POINTER(U32), SIZE],
}


def opened(path):
    """The library in a shared object, its functions declared."""
    if not os.path.exists(path):
        sys.exit(f"calls.py: {path} is missing; the lines at the top of this file make it")
    library = ctypes.CDLL(os.path.abspath(path))
    for name, lent in LENT.items():
        function = getattr(library, name)
        function.argtypes, function.restype = lent, U64
    return library


def record(mark, issue, *fields):
    """A record: its mark, its issue, and each field as a number of so many bytes, the high byte first."""
    numbers = [number.to_bytes(width, "big") for width, number in fields]
    return b"".join([mark, issue.to_bytes(4, "big"), *numbers])


def fuel(issue, price):
    """The fuel price of profile 1 in micro-dollars per GJ, with emission at 1.00 dollar."""
    return record(b"FU", issue, (1, 1), (4, price), (4, 1_000_000))


STATION = record(
    b"RS",
    1,
    (1, 1),  # technology: thermal
    (2, 1_000),  # capacity: 100.0 MW
    (2, 1_000),  # performance factor: 1.000
    (4, 500_000),  # MJ per start
    (4, 100_000),  # MJ per hour at no load
    (4, 0),  # incremental fuel: nuclear alone
    (4, 0),  # state of charge: storage alone
    (2, 0),  # charging efficiency: storage alone
    (2, 0),  # window: storage and hydroelectric alone
)

MAINTENANCE = record(
    b"MM",
    1,
    (1, 1),  # profile
    (1, 1),  # item
    (8, 200_000_000),  # cost: 2,000,000.00 dollars
    (2, 1_000),  # output: 100.0 MW
    (4, 25_000),  # interval in hours
    (2, 100),  # 10.0 hours per start
)

R1 = b"".join([
    STATION,
    record(b"HP", 1, (1, 1), (2, 500), (4, 500_000)),  # point 1: 50.0 MW takes 500,000 MJ per hour
    record(b"HP", 1, (1, 2), (2, 1_000), (4, 900_000)),  # point 2: 100.0 MW takes 900,000
    fuel(1, 4_000_000),
    record(b"AD", 1, (1, 1), (1, 3), (1, 1), (8, 1_500_000)),  # profile 1, consumables: 1.50 for energy
    record(b"AD", 1, (1, 1), (1, 3), (1, RESERVE), (8, 250_000)),  # and 0.25 for reserve
    MAINTENANCE,
    record(b"TH", 1, (1, NARROW), (1, 1), (2, 50), (4, 2_500), (4, 0)),  # energy: 50 % or 25.00 above the level
    record(b"TH", 1, (1, NARROW), (1, RESERVE), (2, 100), (4, 2**32 - 1), (4, 0)),  # reserve: 100 %, no margin
])

BATTERY = b"".join([
    record(
        b"RS",
        1,
        (1, 3),  # technology: storage
        (2, 800),  # capacity: 80.0 MW
        (2, 0),  # performance factor: thermal and nuclear alone
        (4, 0),  # MJ per start: thermal alone
        (4, 0),  # MJ per hour at no load: thermal alone
        (4, 0),  # incremental fuel: nuclear alone
        (4, 800),  # state of charge: 80.0 MWh
        (2, 800),  # charging efficiency: 0.800
        (2, 1),  # window: one hour
    ),
    record(b"FU", 1, (1, 1), (4, 750_000), (4, 0)),  # profile 1: 0.75 dollars per MWh beside the charging cost
    record(b"HR", 1, (1, 1), (4, 6_115)),  # hour 1 of the window: 61.15
])


def parts(answer):
    """Class, a and b of an answer."""
    return answer >> 56, answer >> 32 & 0xFFFFFF, answer & 0xFFFFFFFF


def say(asked, answer, good):
    """What was asked, and what an answer says; `good` is what class 0 means here."""
    kind, a, b = parts(answer)
    said = [good, f"fails, pair {a}, lamination {b}", f"refused {a} at {b}"]
    print(f"{asked}: {said[kind]}")


def show_report(bench, dossier):
    buffer = (U8 * REPORT_BYTES)()
    answer = bench.bench_report(dossier, len(dossier), HOUR, OWNER, buffer, len(buffer))
    say("report", answer, "written")
    kind, _, length = parts(answer)
    if kind == 0:
        print(bytes(buffer[:length]).decode("ascii"), end="")


def show_levels(bench, dossier):
    words = (U64 * WORDS)()
    answer = bench.bench_levels(dossier, len(dossier), HOUR, OWNER, words, len(words))
    say("levels", answer, "written")
    if parts(answer)[0] != 0:
        return
    print(f"profile {words[0]}")
    for i in range(words[1]):
        start, end, level = words[2 + 3 * i : 5 + 3 * i]
        print(f"lamination {i + 1}, {start} to {end}: {level} cents")
    for i, name in enumerate(["start", "no-load", "reserve"]):
        if words[62] >> (i + 1) & 1:
            print(f"{name}: {words[63 + i]} cents")


def offer_test(bench, dossier, owner, price):
    """Half the capacity at 42.30, the level, and the other half at a price in cents."""
    pairs = [(500, 4_230), (1_000, price)]
    offer = b"".join(quantity.to_bytes(2, "big") + cents.to_bytes(4, "big", signed=True) for quantity, cents in pairs)
    return bench.bench_energy_test(dossier, len(dossier), HOUR, owner, NARROW, offer, len(offer))


def reserve_test(bench, dossier, price):
    return bench.bench_price_test(dossier, len(dossier), HOUR, OWNER, RESERVE, NARROW, price)


def show_fuel(bench, dossier):
    """Fuel prices that come in later: the issue that is there once more, or a newer one and behind it an older one."""
    twice = dossier + fuel(1, 5_000_000)
    say("fuel with the same issue", bench.bench_accept(twice, len(twice)), "accepted")
    later = dossier + fuel(3, 5_000_000) + fuel(2, 4_500_000)
    say("fuel with issues 3 and 2", bench.bench_accept(later, len(later)), "accepted")
    mark = int.from_bytes(b"FU", "big")
    _, start, length = parts(bench.bench_current(later, len(later), mark, 1))
    issue = int.from_bytes(later[start + 2 : start + 6], "big")
    print(f"current fuel: issue {issue}, {length} bytes at {start}")


def show_energy(bench, dossier, hour, owner):
    """The energy level at an hour and for an owner."""
    words = (U64 * WORDS)()
    answer = bench.bench_levels(dossier, len(dossier), hour, owner, words, len(words))
    say(f"energy at hour {hour}, owner {owner}", answer, f"{words[4]} cents")


def show_first_hours(bench, dossier):
    """Gas at 5.00 dollars from hour 24 on, sent early; and oil, profile 2, which is asked for two hours before its price begins."""
    gas = record(b"FV", 2, (4, 24), (1, 1), (4, 5_000_000), (4, 1_000_000))
    request = record(b"RQ", 1, (1, 1), (4, 26), (4, 40), (1, 2))
    oil = record(b"FV", 1, (4, 28), (1, 2), (4, 11_500_000), (4, 1_800_000))
    later = dossier + gas + request + oil
    say("fuel from hour 24 on", bench.bench_accept(later, len(later)), "accepted")
    for hour in range(23, 30, 2):
        show_energy(bench, later, hour, OWNER)


def show_payment(bench, dossier):
    """A payment to a third party, 2.00 for energy: it is withdrawn, so that no level has it, and the report counts it in its last line."""
    paid = dossier + record(b"AD", 1, (1, 1), (1, 4), (1, 1), (8, 2_000_000))
    say("third-party payment", bench.bench_accept(paid, len(paid)), "accepted")
    show_report(bench, paid)


def show_owners(bench, dossier):
    """A plant that two owners offer: the second adds 0.75 for energy, of which the first sees nothing. There is no third."""
    key = (1, 2), (1, 1), (1, 3), (1, 1)  # owner 2, profile 1, consumables, energy
    shared = dossier + record(b"AO", 1, *key, (8, 750_000))
    say("a second owner", bench.bench_accept(shared, len(shared)), "accepted")
    for owner in range(1, 4):
        show_energy(bench, shared, HOUR, owner)
    say("energy at 64.57, owner 1", offer_test(bench, shared, 1, 6_457), "passes")
    say("energy at 64.57, owner 2", offer_test(bench, shared, 2, 6_457), "passes")
    mark = int.from_bytes(b"AO", "big")
    _, start, length = parts(bench.bench_current(shared, len(shared), mark, 0x02_01_03_01))
    print(f"its amount: {length} bytes at {start}")


def charging(issue, interval, price, energy):
    """What was charged in an interval of five minutes: its price in cents per MWh, its energy in kWh."""
    return record(b"CH", issue, (2, interval), (4, price & 0xFFFFFFFF), (4, energy))


def show_week(bench):
    """The intervals in which a battery charged: of interval 13 the newer record counts, though the older one lies behind it."""
    prices, energies = (I32 * INTERVALS)(), (U32 * INTERVALS)()
    dossier = BATTERY + charging(2, 13, 2_000, 1_000) + charging(1, 49, -500, 3_000) + charging(1, 13, 1_850, 2_500)
    say("week in a short list", bench.bench_week(dossier, len(dossier), prices, INTERVALS, energies, INTERVALS - 1), "written")
    answer = bench.bench_week(dossier, len(dossier), prices, INTERVALS, energies, INTERVALS)
    say("week", answer, "written")
    if parts(answer)[0] != 0:
        return
    for interval, (price, energy) in enumerate(zip(prices, energies), 1):
        if energy > 0:
            print(f"interval {interval}: {energy} kWh at {price} cents")


def main():
    if len(sys.argv) != 2:
        sys.exit("usage: calls.py SHARED_OBJECT; the lines at the top of this file make one")
    bench = opened(sys.argv[1])
    say("dossier", bench.bench_accept(R1, len(R1)), "accepted")
    show_report(bench, R1)
    show_levels(bench, R1)
    say("energy at 63.45", offer_test(bench, R1, OWNER, 6_345), "passes")
    say("energy at 63.46", offer_test(bench, R1, OWNER, 6_346), "passes")
    say("energy at 2000.01", offer_test(bench, R1, OWNER, 200_001), "passes")
    say("reserve at 0.50", reserve_test(bench, R1, 50), "passes")
    say("reserve at 0.51", reserve_test(bench, R1, 51), "passes")
    show_fuel(bench, R1)
    show_first_hours(bench, R1)
    show_payment(bench, R1)
    show_owners(bench, R1)
    show_week(bench)


main()
