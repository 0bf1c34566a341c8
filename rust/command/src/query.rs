//! What a call asks about: an hour, and the owner whose amounts count beside the common ones.

use crate::args::{hour, Args};
use crate::json::{object, Json};
use crate::record::records;
use crate::text::quoted;

/// The owner whom a call names that names none, as the program `levels` does.
pub const FIRST: u8 = 1;

#[derive(Clone, Copy, Debug, PartialEq, Eq)]
pub struct Query {
    pub hour: u32,
    pub owner: u8,
}

impl Query {
    /// What the options of a call say.
    pub fn of(args: &Args) -> Result<Query, String> {
        Ok(Query {
            hour: args.need("hour", hour)?,
            owner: asked_owner(args)?,
        })
    }

    /// The hour as a member of an answer.
    pub fn hour(&self) -> Json {
        object([("hour", Json::whole(self.hour as usize))])
    }

    /// The owner as a member of an answer, to stand last: members that answers had before it keep their
    /// order.
    pub fn owner(&self) -> Json {
        object([("owner", Json::whole(self.owner.into()))])
    }

    /// Both, behind a refusal.
    pub fn json(&self) -> Json {
        self.hour().and(self.owner())
    }

    /// The hour in words, with the owner where that makes a difference or was asked for.
    pub fn words(&self, dossier: &[u8]) -> String {
        format!("hour {}{}", self.hour, behind(self.owner, dossier))
    }
}

/// The owner in words, to stand behind an hour: nothing where the station adds nothing for one owner,
/// and none was asked for.
pub fn behind(owner: u8, dossier: &[u8]) -> String {
    match owner == FIRST && owned(dossier) == [0, 0] {
        true => String::new(),
        false => format!(", owner {owner}"),
    }
}

/// How many records AO each owner has.
pub fn owned(dossier: &[u8]) -> [usize; 2] {
    let owners = || records(dossier).filter_map(|r| r.owner());
    [1, 2].map(|owner| owners().filter(|o| *o == owner).count())
}

/// The owner that a call names; the first without one.
pub fn asked_owner(args: &Args) -> Result<u8, String> {
    Ok(args.get("owner", owner)?.unwrap_or(FIRST))
}

/// An owner.
pub fn owner(text: &str) -> Result<u8, String> {
    match text {
        "1" => Ok(1),
        "2" => Ok(2),
        _ => Err(format!("{} is no owner: 1 or 2", quoted(text))),
    }
}

#[cfg(test)]
mod tests {
    use super::*;

    const OWN: &[u8] = b"AO\0\0\0\x01\x02\x01\x03\x01\0\0\0\0\0\0\0\x05";
    const COMMON: &[u8] = b"AD\0\0\0\x01\x01\x03\x01\0\0\0\0\0\0\0\x05";

    #[test]
    fn there_are_two_owners() {
        assert_eq!([owner("1"), owner("2")], [Ok(1), Ok(2)]);
        for text in ["", "0", "3", "01", "+1", "1 ", "one", "-1", "1.0", "258"] {
            let says = owner(text).expect_err(text);
            assert_eq!(says, format!("'{text}' is no owner: 1 or 2"));
        }
    }

    #[test]
    fn owners_are_told_where_they_differ() {
        let words = |owner, dossier: &[u8]| Query { hour: 7, owner }.words(dossier);
        assert_eq!(words(1, COMMON), "hour 7");
        assert_eq!(words(2, COMMON), "hour 7, owner 2");
        let both = [COMMON, OWN].concat();
        assert_eq!(words(1, &both), "hour 7, owner 1");
        assert_eq!(words(2, &both), "hour 7, owner 2");
        assert_eq!(owned(&[&both[..], OWN].concat()), [0, 2]);
    }
}
