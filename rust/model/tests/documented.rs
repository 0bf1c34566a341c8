//! The list of records in docs/LIBRARY.md, beside the table.

use model::table::{Field, Kind, Role, TABLE};

/// A row as docs/LIBRARY.md has it: mark, length, and the widths in brackets of key and other fields.
#[derive(Debug, PartialEq, Eq)]
struct Row {
    mark: String,
    length: usize,
    key: Vec<usize>,
    others: Vec<usize>,
}

impl Row {
    fn of_kind(kind: &Kind) -> Row {
        let (key, others): (Vec<Field>, Vec<Field>) = kind
            .fields
            .iter()
            .partition(|field| field.role == Role::Key);
        let widths = |fields: Vec<Field>| fields.iter().map(|field| field.width).collect();
        Row {
            mark: String::from_utf8(kind.mark.to_vec()).unwrap(),
            length: kind.length,
            key: widths(key),
            others: widths(others),
        }
    }

    /// `| FU, fuel | 15 | profile (1) | fuel (4) and emission (4), … |`
    fn of_line(line: &str) -> Option<Row> {
        let cells: Vec<&str> = line.split('|').map(str::trim).collect();
        let [_, name, length, key, others, _] = cells[..] else {
            return None;
        };
        Some(Row {
            mark: name.split_once(", ")?.0.to_string(),
            length: length.parse().ok()?,
            key: widths(key),
            others: widths(others),
        })
    }
}

fn widths(cell: &str) -> Vec<usize> {
    let brackets = cell.split('(').skip(1);
    let inside = brackets.map(|text| text.split(')').next().unwrap());
    inside.map(|width| width.parse().unwrap()).collect()
}

#[test]
fn docs_library_lists_the_records() {
    let path = concat!(env!("CARGO_MANIFEST_DIR"), "/../../docs/LIBRARY.md");
    let text = std::fs::read_to_string(path).expect(path);
    let listed: Vec<Row> = text.lines().filter_map(Row::of_line).collect();
    let rows: Vec<Row> = TABLE.iter().map(Row::of_kind).collect();
    assert_eq!(listed, rows);
}
