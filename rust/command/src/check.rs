//! `bench check`: whether a dossier is accepted.

use crate::answer::{refused, Said, Status, Stop, Streams};
use crate::args::Args;
use crate::explain::of_dossier;
use crate::form::Form;
use crate::input::Input;
use crate::json::{object, Json};
use crate::lacks::current;
use crate::many::each;
use crate::query::owned;
use crate::record::records;

pub fn run(args: &Args, streams: &mut Streams) -> Result<Status, Stop> {
    each(args, streams, &Form::of(args, &[])?, check)
}

fn check(input: &Input) -> Said {
    let Input { dossier, lines, .. } = input;
    if let Err(refusal) = bench::accept(dossier) {
        return refused(&of_dossier(refusal, dossier, lines));
    }
    let (count, length) = (records(dossier).count(), dossier.len());
    let station = current(dossier, "RS", 0);
    let field = |name| station.map_or(String::new(), |rs| rs.value(name));
    let (technology, capacity) = (field("technology"), field("capacity"));
    let of = format!("{technology}, {capacity} MW");
    let owned = owned(dossier);
    let own = owned_words(owned);
    let line = format!("accepted: {of}, {count} records, {length} bytes{own}");
    let owners = (1..).zip(owned).map(|(owner, count)| {
        object([
            ("owner", Json::whole(owner)),
            ("adders", Json::whole(count)),
        ])
    });
    let accepted = object([
        ("technology", Json::text(technology)),
        ("capacity", Json::Number(capacity)),
        ("records", Json::whole(count)),
        ("bytes", Json::whole(length)),
        ("owners", Json::List(owners.collect())),
    ]);
    Said {
        status: Status::Done,
        counts_as: "accepted",
        words: format!("{line}\n"),
        line,
        json: object([("accepted", accepted)]),
    }
}

/// How many amounts each owner adds, to stand behind the rest; nothing where neither does.
fn owned_words(owned: [usize; 2]) -> String {
    match owned {
        [0, 0] => String::new(),
        [first, second] => format!("; AO of owner 1: {first}, of owner 2: {second}"),
    }
}
