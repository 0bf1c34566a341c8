//! The rules that refuse, in words: what a number means, what the rule wants, and who can mend it.

/// One number of document 01's list.
#[derive(Debug)]
pub struct Rule {
    pub number: u8,
    pub means: &'static str,
    pub wants: &'static str,
    pub who: &'static str,
}

const STATION: &str = "station";
const TRADER: &str = "trader";
const DESK: &str = "desk";

/// The rules by number; README.md lists them with the same words. 18 and 19 belong to requests that
/// aren't built.
pub static RULES: [Rule; 18] = [
    Rule {
        number: 1,
        means: "a mark that is unknown",
        wants: "each record begins with one of the marks RS, HP, FU, AD, AO, MM, RQ, HR, CH, TH, FP, LC, FV, AV and MV",
        who: STATION,
    },
    Rule {
        number: 2,
        means: "a record that is cut short",
        wants: "each record has the whole length of its mark",
        who: STATION,
    },
    Rule {
        number: 3,
        means: "a field outside its range, a request whose first hour is after its last, a window above 168 at a station that isn't hydroelectric, or a query of an owner that isn't 1 or 2",
        wants: "each field lies in its range",
        who: STATION,
    },
    Rule {
        number: 4,
        means: "a mark, key and issue that came before",
        wants: "records of one mark and key have different issues; FU and FV share their keys, as AD and AV and as MM and MV do, and AO has its own",
        who: STATION,
    },
    Rule {
        number: 5,
        means: "no station record, RS",
        wants: "a dossier has a record RS, which says what the station is",
        who: STATION,
    },
    Rule {
        number: 6,
        means: "a record that counts at some hour and doesn't fit the technology",
        wants: "every record that no newer one of its key hides at all hours fits the technology that the current RS names",
        who: STATION,
    },
    Rule {
        number: 7,
        means: "a thermal curve with too few points, a gap, output that doesn't rise, heat or slope that falls, or an end that isn't the capacity",
        wants: "at least 2 points numbered from 1 without a gap, output rising, heat and slope not falling, the last output the capacity",
        who: STATION,
    },
    Rule {
        number: 8,
        means: "no fuel record for profile 1, or for one that a current request names",
        wants: "an FU or an FV for profile 1 and for each profile that a current RQ names",
        who: STATION,
    },
    Rule {
        number: 9,
        means: "a battery whose full hours are 0 or above the window, or a window hour missing",
        wants: "the charge lasts at least 1 full hour at capacity and no more than the window has, and each hour of the window has an HR",
        who: STATION,
    },
    Rule {
        number: 10,
        means: "a malformed offer: its length, a price out of range, a quantity that doesn't rise or a price that falls",
        wants: "1 to 20 pairs; quantities rise from above 0, prices don't fall and lie from -2000.00 to 2000.00 dollars per MWh",
        who: TRADER,
    },
    Rule {
        number: 11,
        means: "a quantity above the capacity",
        wants: "no quantity is above the station's capacity",
        who: TRADER,
    },
    Rule {
        number: 12,
        means: "a level that isn't 1 to 4, that the technology doesn't hold, or energy put to the single-price test",
        wants: "a level that the technology holds: thermal all four, nuclear energy, storage and hydro energy and reserve; energy is offered in pairs",
        who: DESK,
    },
    Rule {
        number: 13,
        means: "a dossier longer than 60,000 bytes",
        wants: "a dossier has at most 60,000 bytes",
        who: DESK,
    },
    Rule {
        number: 14,
        means: "a condition that isn't 1 to 3, or no threshold for it and the level",
        wants: "a current TH for the condition and the level",
        who: DESK,
    },
    Rule {
        number: 15,
        means: "a list or a report buffer that is too short",
        wants: "a list or a buffer with room for all that is written",
        who: DESK,
    },
    Rule {
        number: 16,
        means: "fewer than four bytes of input",
        wants: "the four bytes of the hour before the dossier",
        who: DESK,
    },
    Rule {
        number: 17,
        means: "a hydroelectric station whose window is under 50, or whose forecast lacks a place of it",
        wants: "a window of at least 50, and an FP for each place from 1 to the window",
        who: STATION,
    },
    Rule {
        number: 20,
        means: "an hour whose profile has no fuel in force",
        wants: "an FU for the profile of the hour, or an FV whose first hour has come",
        who: STATION,
    },
];

/// What is said of a number that is none of these. The library refuses by these alone, so that another
/// library or another program has been built in.
static UNKNOWN: Rule = Rule {
    number: 0,
    means: "an error of the program: it knows no such number",
    wants: "a command and a library that were built together",
    who: "maintainer of bench",
};

/// The rule of a number.
pub fn rule(number: u8) -> &'static Rule {
    let known = RULES.iter().find(|r| r.number == number);
    known.unwrap_or(&UNKNOWN)
}

impl Rule {
    /// Whether it is one of document 01's.
    pub fn is_known(&self) -> bool {
        self.number > 0
    }
}

#[cfg(test)]
mod tests {
    use super::*;

    /// The table of README.md is this one.
    #[test]
    fn readme_says_the_same() {
        let path = concat!(env!("CARGO_MANIFEST_DIR"), "/../../README.md");
        let readme = std::fs::read_to_string(path).expect("README.md");
        for rule in &RULES {
            let row = format!("| {} | {} | {} |", rule.number, rule.means, rule.who);
            assert!(readme.contains(&row), "README.md has no row {row}");
        }
    }

    #[test]
    fn each_rule_is_found_by_its_number() {
        let numbers: Vec<u8> = RULES.iter().map(|rule| rule.number).collect();
        let known: Vec<u8> = (1..=17).chain([20]).collect();
        assert_eq!(numbers, known);
        for number in 0..=u8::MAX {
            let found = rule(number);
            assert_eq!(found.is_known(), known.contains(&number));
            assert!(!found.is_known() || found.number == number);
        }
    }
}
