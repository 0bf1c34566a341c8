//! What `--help` prints.

use crate::marks::{Mark, MARKS};

pub const ALL: &str = "\
bench: reference levels of a station, and offers held against them

  bench new TECHNOLOGY     a commented text of a station to begin with
  bench pack FILE          a dossier from text
  bench unpack FILE        text from a dossier
  bench check FILE...      whether a dossier is accepted, and if not, why
  bench levels FILE...     the levels at an hour
  bench explain FILE...    each level term by term, with the records that it rests on
  bench test FILE...       an offer or a price held against the levels of an hour
  bench offers FILE        many offers to many stations, one a line
  bench day FILE...        the levels over hours as a table, and pictures
  bench week FILE...       a battery's charging week as a table, and a picture
  bench help fields        the fields of every record, with their units and ranges
  bench help records       the records that each technology must have and may have
  bench --version          the version

'bench COMMAND --help' says more. FILE is a dossier, as text or bytes, which are told apart; '-' or no
FILE at all is standard input. With --together all files are one station.

Exit status: 0 done; 1 refused; 2 wrong use, or a file that can't be read; 3 an offer that fails.
";

pub const NEW: &str = "\
bench new thermal | nuclear | storage | hydro

Writes the text of a station, with comments, that is accepted as it stands: the records that the
technology must have, and as comments those that it may have, with the units and ranges of their
fields. 'bench new thermal > gas.txt' begins a station; 'bench help records' says the same as a page.
";

pub const PACK: &str = "\
bench pack [FILE] [--out OUT]
bench pack FILE... --together [--out OUT]

Writes the dossier of a text, one record a line, to standard output or to OUT:

  # comments and blank lines are passed over
  FU issue=3 profile=1 fuel=4.00 emission=1.00

Every field of a record is written, in any order. A wrong line is refused with its number, the field
and its range, and nothing is written; so is an input without a record. 'bench help fields' lists the
fields. With --together the files are joined record by record.
";

pub const UNPACK: &str = "\
bench unpack [FILE] [--out OUT]

Writes a dossier as text, one record a line, to standard output or to OUT. 'bench pack' makes the same
bytes of it again. A dossier that draws 1, 2, 3 or 13 can't be read and is refused, and so is an input
without a record.
";

pub const CHECK: &str = "\
bench check [FILE...] [--together] [--json]

Says whether a dossier is accepted. A refusal is told in words: what it means, which record stands at
the place, what the rule wants and who can mend it. Of many files each gets a line, and a count ends
the list. With --together they are one station: texts and bytes, joined record by record, in any order;
a refusal names the file.
";

pub const LEVELS: &str = "\
bench levels [FILE...] --hour H [--owner O] [--together] [--json | --csv]

Prints the report of an hour, 0 to 4294967295: the profile, each lamination of energy with its ends in
MW and its level, and the other levels that the station holds, in dollars; last, how many third-party
payments are in force, which are withdrawn (retired N). O is the owner whose own amounts (AO) join the
common ones, 1 or 2; it is 1 without --owner, as in the program 'levels'. Of many files each gets a
line; with --together they are one station. --csv writes a table with a row for each level.
";

pub const EXPLAIN: &str = "\
bench explain [FILE...] --hour H [--owner O] [--level L] [--together] [--json]

Shows each level of an hour term by term: fuel, emission, each adder and maintenance item, a battery's
charging and opportunity side, a river station's place in the forecast, each with its records; then the
sum in micro-dollars and the level in cents. L is energy, start, no-load or reserve. The terms are held
against the library's level; where they don't add up to it, the answer says so and the status is 2.
A third-party payment is withdrawn: it is there with 0, and with what was claimed. What owner O adds (1
without --owner) is named so, behind what is common to both. A cost that doesn't count at every hour has
the hours in which it does; costs that lie ahead stand last.
";

pub const TEST: &str = "\
bench test [FILE...] --hour H [--owner O] --condition C --offer PAIRS
           [--together] [--json | --csv]
bench test [FILE...] --hour H [--owner O] --condition C --level L --price P
           [--together] [--json | --csv]

Holds an offer against the levels of an hour under a condition: narrow, broad or global. The offer is
that of owner O, 1 or 2 (1 without --owner).
PAIRS is an energy offer, quantity@price in MW and dollars per MWh, as in '50.0@42.30,100.0@63.46'.
L is start, no-load or reserve, and P a price in dollars.
The answer is passes or fails, with the first pair and lamination that fail, and the highest price
that passes. Of many files each gets a line; with --together they are one station. --csv writes a table
with a row for each file.
";

pub const OFFERS: &str = "\
bench offers [FILE] [--json | --csv]

Holds many offers against the levels of many stations in one run, one a line of FILE:

  # comments and blank lines are passed over
  station=gas.txt hour=7 condition=narrow offer=50.0@42.30,100.0@63.46
  station=gas.txt hour=7 condition=narrow level=start price=3300.00
  station=gas.txt station=today.txt hour=8 owner=2 condition=broad offer=100.0@60.00

Several stations in a line are one from several files. The owner is 1 where a line names none. A name
is looked for from the folder that the call is made in; one with a space or a # stands between quotes.
The answers have a line each, in the order of FILE, and a count ends the list.
";

pub const DAY: &str = "\
bench day [FILE...] --from H [--hours N] [--owner O] [--together] [--json | --csv]
          [--condition C --offer PAIRS] [--svg OUT [--at H]] [--svg-day OUT]

Prints the levels of N hours from hour H on (24 without --hours) as a table. A * marks the hours at which
a level is other than in the hour before; below the table stands why. The levels are those of owner O,
1 or 2 (1 without --owner). Hours without fuel in force are refused one by one. With an offer, each
hour has its verdict as well. Of many files each has its table; with --together they are one station.
--csv writes a row for each level of each hour.
--svg writes a picture of the energy curve at hour --at (the first without it), with the offer's pairs
and the highest prices that pass over it. --svg-day writes one of the levels over the hours, with the
profiles behind them and a line where a cost begins. Both are of one station.
";

pub const WEEK: &str = "\
bench week [FILE...] [--all] [--together] [--json | --csv] [--svg OUT]

Prints a battery's charging week: how many of its 2016 intervals of five minutes charged, the energy,
what was paid for it and the charging cost; then the days, and a row for each interval that has a price
or an energy. --all has a row for every interval, idle ones too. Day 1 begins with interval 1, at 00:00.
Of many files each gets a line; with --together they are one station. --csv writes a row for each
interval. A station that isn't storage has no charging week.
--svg writes a picture: price and energy over the seven days, the charging cost as a line, and a tint
where no energy was charged. It is of one station.
";

/// The fields of every record.
pub fn fields() -> String {
    let head = "Every record has issue=0 to 4294967295. A record is told by its mark and those of its fields with a *.\n\
                FV, AV and MV are FU, AD and MM with a first hour, and share their keys. AO is AD for one owner.\n";
    let marks: Vec<String> = MARKS.iter().map(of_mark).collect();
    format!("{head}\n{}", marks.join("\n"))
}

fn of_mark(mark: &Mark) -> String {
    let mut text = format!("{}: {}\n", mark.letters, mark.holds);
    for (i, field) in mark.fields.iter().enumerate().skip(1) {
        let star = if mark.key_fields().contains(&i) {
            "*"
        } else {
            " "
        };
        text += &format!("  {star} {:<18}{}\n", field.name, field.range());
    }
    text
}
