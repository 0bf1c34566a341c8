//! How people write the number of a field: a decimal in the unit that they use, or a word.

/// A unit: how many places after the point a number has at most and at least, and what it is called.
#[derive(Clone, Copy, Debug, PartialEq, Eq)]
pub struct Unit {
    pub places: usize,
    pub shown: usize,
    pub name: &'static str,
    /// Numbers that are written as a word, and only so.
    pub words: &'static [(&'static str, i128)],
}

/// A unit of which the paper counts whole ones.
pub const fn whole(name: &'static str) -> Unit {
    decimal(0, 0, name)
}

/// A unit of which the paper counts tenths, hundredths and so on, always written out.
pub const fn parts(places: usize, name: &'static str) -> Unit {
    decimal(places, places, name)
}

/// A unit with at most and at least so many places.
pub const fn decimal(places: usize, shown: usize, name: &'static str) -> Unit {
    Unit {
        places,
        shown,
        name,
        words: &[],
    }
}

pub const PLAIN: Unit = whole("");
pub const MEGAWATTS: Unit = parts(1, "MW");
/// Of which the paper counts cents.
pub const DOLLARS: Unit = parts(2, "dollars");
pub const DOLLARS_PER_MWH: Unit = parts(2, "dollars per MWh");
/// Of which the paper counts micro-dollars.
pub const FINE_DOLLARS: Unit = decimal(6, 2, "dollars");

pub const LEVEL: Unit =
    PLAIN.with_words(&[("energy", 1), ("start", 2), ("no-load", 3), ("reserve", 4)]);
pub const CONDITION: Unit = PLAIN.with_words(&[("narrow", 1), ("broad", 2), ("global", 3)]);

/// Why a value can't be read.
#[derive(Clone, Copy, Debug, PartialEq, Eq)]
pub enum Unreadable {
    NoNumber,
    /// It has more places after the point than this.
    Places(usize),
    /// It is a number that is written as a word.
    OfWord,
}

impl Unreadable {
    /// What is wrong, to go behind the value: ` is no number`.
    pub fn says(self) -> String {
        match self {
            Unreadable::NoNumber => " is no number".to_string(),
            Unreadable::Places(0) => " is no whole number".to_string(),
            Unreadable::Places(1) => " has more than 1 place after the point".to_string(),
            Unreadable::Places(most) => format!(" has more than {most} places after the point"),
            Unreadable::OfWord => String::new(),
        }
    }
}

impl Unit {
    pub const fn with_words(self, words: &'static [(&'static str, i128)]) -> Unit {
        Unit { words, ..self }
    }

    /// The words, in their order.
    pub fn all_words(&self) -> Vec<&'static str> {
        self.words.iter().map(|(word, _)| *word).collect()
    }

    /// The word of a number, if it has one.
    pub fn word(&self, number: i128) -> Option<&'static str> {
        let pair = self.words.iter().find(|(_, n)| *n == number);
        pair.map(|(word, _)| *word)
    }

    /// A number as people write it.
    pub fn write(&self, number: i128) -> String {
        match self.word(number) {
            Some(word) => word.to_string(),
            None => self.digits(number),
        }
    }

    fn digits(&self, number: i128) -> String {
        let sign = if number < 0 { "-" } else { "" };
        let padded = format!("{:0>1$}", number.unsigned_abs(), self.places + 1);
        let (before, after) = padded.split_at(padded.len() - self.places);
        let mut after = after.to_string();
        while after.len() > self.shown && after.ends_with('0') {
            after.pop();
        }
        let point = if after.is_empty() { "" } else { "." };
        format!("{sign}{before}{point}{after}")
    }

    /// The number of what people write. A number that has a word isn't read from digits.
    pub fn read(&self, text: &str) -> Result<i128, Unreadable> {
        if let Some((_, number)) = self.words.iter().find(|(word, _)| *word == text) {
            return Ok(*number);
        }
        let number = self.read_digits(text)?;
        match self.word(number) {
            Some(_) => Err(Unreadable::OfWord),
            None => Ok(number),
        }
    }

    fn read_digits(&self, text: &str) -> Result<i128, Unreadable> {
        let (negative, digits) = match text.strip_prefix('-') {
            Some(rest) => (true, rest),
            None => (false, text),
        };
        let (before, after) = match digits.split_once('.') {
            Some((before, after)) if !after.is_empty() => (before, after),
            Some(_) => return Err(Unreadable::NoNumber),
            None => (digits, ""),
        };
        let is_digits = |part: &str| part.bytes().all(|b| b.is_ascii_digit());
        if before.is_empty() || !is_digits(before) || !is_digits(after) {
            return Err(Unreadable::NoNumber);
        }
        if after.len() > self.places {
            return Err(Unreadable::Places(self.places));
        }
        let all = format!("{before}{after:0<0$}", self.places);
        // More digits than any field has: no range holds such a number, whatever it is.
        let size = all.parse().unwrap_or(i128::MAX);
        Ok(if negative { -size } else { size })
    }
}

#[cfg(test)]
mod tests {
    use super::*;

    #[test]
    fn numbers_are_written_with_the_places_of_their_unit() {
        assert_eq!(FINE_DOLLARS.write(4_000_000), "4.00");
        assert_eq!(FINE_DOLLARS.write(4_000_001), "4.000001");
        assert_eq!(FINE_DOLLARS.write(1_250_000), "1.25");
        assert_eq!(FINE_DOLLARS.write(10), "0.00001");
        assert_eq!(DOLLARS.write(-5), "-0.05");
        assert_eq!(MEGAWATTS.write(1_000), "100.0");
        assert_eq!(PLAIN.write(0), "0");
        assert_eq!(LEVEL.write(3), "no-load");
        assert_eq!(LEVEL.write(7), "7");
    }

    #[test]
    fn what_is_written_reads_back() {
        for unit in [PLAIN, MEGAWATTS, DOLLARS, FINE_DOLLARS, LEVEL, CONDITION] {
            for number in -2_000..2_000 {
                assert_eq!(unit.read(&unit.write(number)), Ok(number));
            }
        }
    }

    #[test]
    fn what_is_no_number_is_refused() {
        let none = Err(Unreadable::NoNumber);
        for text in [
            "", "-", ".", "4.", ".5", "4,5", "+4", "1e3", "0x10", "４", "--1", "1.2.3",
        ] {
            assert_eq!(FINE_DOLLARS.read(text), none, "{text}");
        }
        assert_eq!(DOLLARS.read("1.234"), Err(Unreadable::Places(2)));
        assert_eq!(PLAIN.read("1.0"), Err(Unreadable::Places(0)));
        assert_eq!(LEVEL.read("3"), Err(Unreadable::OfWord));
        assert_eq!(LEVEL.read("No-load"), none);
        assert_eq!(PLAIN.read(&"9".repeat(10_000)), Ok(i128::MAX));
        assert_eq!(PLAIN.read(&format!("-{}", "9".repeat(50))), Ok(-i128::MAX));
    }
}
