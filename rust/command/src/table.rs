//! Rows of cells as a table that fits a screen.

/// The most columns of letters that a table takes, unless a single cell is wider.
pub const WIDEST: usize = 120;

const GAP: &str = "  ";

/// Rows below each other, each column as wide as its widest cell. What doesn't fit beside each other
/// stands in blocks, each with the first `kept` columns before it.
pub fn written(rows: &[Vec<String>], kept: usize) -> String {
    let widths = widths(rows);
    let blocks = blocks(&widths, kept.min(widths.len()));
    let block = |columns: &Vec<usize>| {
        let line = |row: &Vec<String>| line(row, columns, &widths);
        rows.iter().map(line).collect::<String>()
    };
    blocks.iter().map(block).collect::<Vec<String>>().join("\n")
}

fn widths(rows: &[Vec<String>]) -> Vec<usize> {
    let widest = |column: usize| {
        let cells = rows.iter().filter_map(|row: &Vec<String>| row.get(column));
        cells.map(|cell| cell.chars().count()).max()
    };
    (0..).map_while(widest).collect()
}

/// The columns of each block.
fn blocks(widths: &[usize], kept: usize) -> Vec<Vec<usize>> {
    let first: Vec<usize> = (0..kept).collect();
    let wide = |columns: &[usize]| {
        columns
            .iter()
            .map(|c| widths[*c] + GAP.len())
            .sum::<usize>()
    };
    let mut blocks = vec![first.clone()];
    for (column, width) in widths.iter().enumerate().skip(kept) {
        let block = blocks.last().map_or(&[][..], |block| block);
        if block.len() > kept && wide(block) + width > WIDEST {
            blocks.push(first.clone());
        }
        if let Some(block) = blocks.last_mut() {
            block.push(column);
        }
    }
    blocks
}

fn line(row: &[String], columns: &[usize], widths: &[usize]) -> String {
    let cell = |column: &usize| {
        let cell = row.get(*column).map_or("", String::as_str);
        let width = widths[*column];
        format!("{cell:>width$}")
    };
    let cells: Vec<String> = columns.iter().map(cell).collect();
    cells.join(GAP).trim_end().to_string() + "\n"
}

#[cfg(test)]
mod tests {
    use super::*;

    fn rows(columns: usize, width: usize) -> Vec<Vec<String>> {
        let row = |letter: &str| {
            (0..columns)
                .map(|c| format!("{c}{}", letter.repeat(width)))
                .collect()
        };
        vec![row("a"), row("b")]
    }

    #[test]
    fn a_table_that_fits_is_one_block() {
        let rows = vec![
            vec!["hour".to_string(), "é".to_string()],
            vec!["7".to_string(), "10.00".to_string()],
        ];
        assert_eq!(written(&rows, 1), "hour      é\n   7  10.00\n");
    }

    /// Every cell is there, no line is too wide, and each block begins with the columns that are kept.
    #[test]
    fn a_wide_table_stands_in_blocks() {
        for (columns, width) in [(3, 5), (22, 8), (27, 12), (80, 3), (4, 200)] {
            let rows = rows(columns, width);
            let written = written(&rows, 2);
            for line in written.lines().filter(|line| !line.is_empty()) {
                let count = line.chars().count();
                assert!(
                    count <= WIDEST || line.split_whitespace().count() == 3,
                    "{line}"
                );
                assert!(line.trim_start().starts_with('0'), "{line}");
            }
            for cell in rows.concat() {
                let count = written
                    .split_whitespace()
                    .filter(|word| *word == cell)
                    .count();
                let kept = cell.starts_with("0a")
                    || cell.starts_with("1a")
                    || cell.starts_with("0b")
                    || cell.starts_with("1b");
                assert!(count == 1 || kept && count > 1, "{cell} {count} times");
            }
        }
    }
}
