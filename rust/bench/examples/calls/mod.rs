//! The calls that are timed and counted, of the model and of the library, all at hour 0, for owner 1
//! and under condition 1.

use bench::INTERVALS;
use model::make::offers;
use std::fmt::Debug;
use std::hint::black_box;
use std::process::ExitCode;

pub const NAMES: [&str; 6] = [
    "accept",
    "levels",
    "energy_test",
    "price_test",
    "report",
    "week",
];

pub const HOUR: u32 = 0;
pub const OWNER: u8 = 1;
pub const CONDITION: u8 = 1;

/// Bytes for a report, more than 20 laminations take.
const ROOM: usize = 1_000;

/// What the calls are put to.
pub struct Input {
    pub dossier: Vec<u8>,
    pub offer: Vec<u8>,
    /// The last level that the station holds beside energy, if it does, and a price for it.
    pub single: Option<(u8, i32)>,
}

impl Input {
    /// The dossier is accepted, and its thresholds let a price pass that is a cent above a level.
    /// All prices are, 20 pairs of them above the laminations where they begin: the limit isn't
    /// looked at where a price is not above the level, and the first pair that fails ends the test.
    pub fn of(dossier: Vec<u8>) -> Input {
        let levels = model::levels(&dossier, HOUR, OWNER).expect("an accepted dossier");
        let above = |level: u64| level as i32 + 1;
        let energy = &levels.energy;
        let width = energy.last().map_or(0, |lamination| lamination.to) / 20;
        let pair = |n| {
            let begun = energy.iter().find(|l| width * (n - 1) < l.to);
            (width * n, begun.map_or(0, |l| above(l.level)))
        };
        let pairs: Vec<(u16, i32)> = (1..=20).map(pair).collect();
        let single = levels.single().last();
        Input {
            offer: offers::bytes(&pairs),
            single: single.map(|(level, cents)| (level, above(*cents))),
            dossier,
        }
    }

    /// The call of a name; there is no single-price test where the station holds energy alone.
    pub fn call(&self, name: &str) -> Option<Call<'_>> {
        let mut calls = self.calls().into_iter();
        calls.find(|call| call.name == name)
    }

    fn calls(&self) -> Vec<Call<'_>> {
        let [accept, levels, energy_test, price_test, report, week] = NAMES;
        let (dossier, offer) = (&self.dossier[..], &self.offer[..]);
        let mut calls = vec![
            Call::of(accept, || model::accept(dossier), || bench::accept(dossier)),
            Call::of(
                levels,
                || model::levels(dossier, HOUR, OWNER),
                || bench::levels(dossier, HOUR, OWNER),
            ),
            Call::of(
                energy_test,
                || model::energy_test(dossier, HOUR, OWNER, CONDITION, offer),
                || bench::energy_test(dossier, HOUR, OWNER, CONDITION, offer),
            ),
        ];
        if let Some((level, price)) = self.single {
            calls.push(Call::of(
                price_test,
                move || model::price_test(dossier, HOUR, OWNER, level, CONDITION, price),
                move || bench::price_test(dossier, HOUR, OWNER, level, CONDITION, price),
            ));
        }
        calls.push(Call::of(
            report,
            || lent(|buffer| model::report(dossier, HOUR, OWNER, buffer)),
            || lent(|buffer| bench::report(dossier, HOUR, OWNER, buffer)),
        ));
        calls.push(Call::of(
            week,
            || lists(|prices, energies| model::week_into(dossier, prices, energies)),
            || lists(|prices, energies| bench::week_into(dossier, prices, energies)),
        ));
        calls
    }
}

/// The answer of a call that writes to a buffer, and what it leaves there.
fn lent<T>(call: impl Fn(&mut [u8]) -> T) -> (T, [u8; ROOM]) {
    let mut buffer = [b'x'; ROOM];
    (call(&mut buffer), buffer)
}

/// The answer of a call that writes to two lists, and what it leaves there.
fn lists<T>(call: impl Fn(&mut [i32], &mut [u32]) -> T) -> (T, [i32; INTERVALS], [u32; INTERVALS]) {
    let (mut prices, mut energies) = ([7; INTERVALS], [7; INTERVALS]);
    (call(&mut prices, &mut energies), prices, energies)
}

/// One call, of the model and of the library.
pub struct Call<'a> {
    name: &'static str,
    pub model: Box<dyn Side + 'a>,
    pub library: Box<dyn Side + 'a>,
}

impl<'a> Call<'a> {
    fn of(name: &'static str, model: impl Side + 'a, library: impl Side + 'a) -> Call<'a> {
        Call {
            name,
            model: Box::new(model),
            library: Box::new(library),
        }
    }

    /// The answers of both sides have the same fields, so that they print alike.
    pub fn same(&self) -> bool {
        self.model.answer() == self.library.answer()
    }
}

/// One side of a call.
pub trait Side {
    fn once(&self);
    fn answer(&self) -> String;
}

impl<T: Debug, F: Fn() -> T> Side for F {
    fn once(&self) {
        black_box(self());
    }

    fn answer(&self) -> String {
        format!("{:?}", self())
    }
}

/// Runs a program on its arguments. Its status is 0 if all is well, 1 if not, and then it says what
/// isn't, and 2 if it couldn't run.
pub fn status(run: fn(&[&str]) -> Result<bool, String>, otherwise: &str) -> ExitCode {
    let words: Vec<String> = std::env::args().skip(1).collect();
    let words: Vec<&str> = words.iter().map(String::as_str).collect();
    match run(&words) {
        Ok(true) => ExitCode::SUCCESS,
        Ok(false) => {
            println!("{otherwise}");
            ExitCode::FAILURE
        }
        Err(fault) => {
            eprintln!("{fault}");
            ExitCode::from(2)
        }
    }
}
