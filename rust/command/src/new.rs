//! `bench new`: a commented text of a technology that is accepted as it stands; and the page that
//! says which records a station must have and may have.

use crate::answer::{Status, Stop, Streams};
use crate::args::Args;
use crate::marks::{listed, Field, Mark};
use crate::near::hint;
use crate::needs::{Need, Technology, TECHNOLOGIES};
use crate::text::quoted;

pub fn run(args: &Args, streams: &mut Streams) -> Result<Status, Stop> {
    let names = TECHNOLOGIES.each_ref().map(|t| t.name);
    let all = listed(&names);
    let [name] = &args.files[..] else {
        return Err(Stop::Use(format!("it takes one technology: {all}")));
    };
    let name = name.to_string_lossy();
    let Some(technology) = Technology::of(&name) else {
        let (shown, meant) = (quoted(&name), hint(&name, &names));
        let says = format!("no technology is called {shown}{meant}: {all}");
        return Err(Stop::Use(says));
    };
    write!(streams.out, "{}", template(technology))?;
    Ok(Status::Done)
}

/// A text that is accepted as it stands. What a station may have stands in comments, so that no cost
/// that nobody put in is counted.
pub fn template(technology: &Technology) -> String {
    let name = technology.name;
    let head = format!(
        "# A {name} station: one record a line, its mark and every field of it as name=value.\n\
         # The numbers are made up; put yours in their place. Records with a # before them may be there: take\n\
         # the # away to use one. Of the records with one mark and key the highest issue counts, wherever it\n\
         # stands: a new price is a new line with a higher issue. FV, AV and MV have the keys of FU, AD and MM, and\n\
         # count from their first hour on: a price that is known early can be sent early. AO is what one of two\n\
         # owners adds, and counts where that owner is asked for.\n"
    );
    let sections = technology.needs.iter().map(section);
    [head].into_iter().chain(sections).collect()
}

/// The records of a mark behind what they are.
fn section(need: &Need) -> String {
    let (must, before) = match need.must {
        true => ("has to be there", ""),
        false => ("may be there", "# "),
    };
    let holds = need.mark().map_or("", |mark| mark.holds);
    let mut text = format!("\n# {}, {holds}: {must}; {}.\n", need.mark, need.how_many);
    for (field, key) in fields(need) {
        let star = if key { "*" } else { " " };
        text += &format!("#   {star} {:<18}{}\n", field.name, need.range(field));
    }
    for line in need.lines() {
        text += &format!("{before}{line}\n");
    }
    text
}

/// The fields behind the issue number, and whether each is one of the key.
fn fields(need: &Need) -> impl Iterator<Item = (&'static Field, bool)> {
    let mark = need.mark();
    let fields = mark.map_or(&[][..], |mark| mark.fields);
    let key = mark.map_or(0..0, Mark::key_fields);
    fields
        .iter()
        .enumerate()
        .skip(1)
        .map(move |(i, field)| (field, key.contains(&i)))
}

/// docs/RECORDS.md.
pub fn page() -> String {
    let head = "# Records by technology\n\n\
        Which records a station must have and may have, with the units and ranges of their fields there. \
        `bench help records` prints this page, from the table that\n\
        `bench help fields` prints; `bench new TECHNOLOGY` writes a text with them that is accepted as it stands. \
        Every record has `issue`, 0 to 4294967295; of\n\
        the records with one mark and key (the fields with a \\*) the highest issue counts, and older ones may stay. \
        FV, AV and MV share the keys of FU, AD and MM, and\n\
        count from hour `first` on: at an hour the highest issue counts whose first hour has come. \
        AO is AD for one of two owners, with keys of its own: it\n\
        counts where that owner is asked for. A record that isn't listed for a technology is refused (6).\n";
    let pages = TECHNOLOGIES.iter().map(of_technology);
    [head.to_string()].into_iter().chain(pages).collect()
}

fn of_technology(technology: &Technology) -> String {
    let mut text = format!("\n## {}\n", technology.name);
    for (must, says) in [(true, "Must have"), (false, "May have")] {
        text += &format!("\n{says}:\n\n| Record | How many | Fields |\n|---|---|---|\n");
        let rows = technology.needs.iter().filter(|need| need.must == must);
        text += &rows.map(row).collect::<String>();
    }
    text
}

fn row(need: &Need) -> String {
    let field = |(field, key): (&'static Field, bool)| {
        let star = if key { "\\*" } else { "" };
        format!("`{}`{star} {}", field.name, need.range(field))
    };
    let fields: Vec<String> = fields(need).map(field).collect();
    let holds = need.mark().map_or("", |mark| mark.holds);
    format!(
        "| {}, {holds} | {} | {} |\n",
        need.mark,
        need.how_many,
        fields.join("; ")
    )
}
