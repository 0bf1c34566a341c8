//! Whether each line of a text is JSON.

/// One value a line, at least one, and nothing behind it.
pub fn check(text: &str) -> Result<(), String> {
    match text.is_empty() {
        true => Err("no JSON".to_string()),
        false => text.lines().try_for_each(check_line),
    }
}

fn check_line(text: &str) -> Result<(), String> {
    match value(text) {
        Some("") => Ok(()),
        Some(rest) => Err(format!("{rest:?} stands behind the JSON")),
        None => Err(format!("no JSON: {text:?}")),
    }
}

/// What stands behind the value at the front.
fn value(text: &str) -> Option<&str> {
    match text.chars().next()? {
        '{' => members(&text[1..], '}', |text| {
            value(string(text)?.strip_prefix(':')?)
        }),
        '[' => members(&text[1..], ']', value),
        '"' => string(text),
        'n' => text.strip_prefix("null"),
        _ => number(text),
    }
}

fn members(mut text: &str, end: char, member: fn(&str) -> Option<&str>) -> Option<&str> {
    if let Some(rest) = text.strip_prefix(end) {
        return Some(rest);
    }
    loop {
        text = member(text)?;
        match text.strip_prefix(end) {
            Some(rest) => return Some(rest),
            None => text = text.strip_prefix(',')?,
        }
    }
}

fn string(text: &str) -> Option<&str> {
    let mut chars = text.strip_prefix('"')?.char_indices();
    while let Some((at, c)) = chars.next() {
        match c {
            '"' => return Some(&text[at + 2..]),
            '\\' if chars.next()?.1 == 'u' => {
                let code: Option<Vec<char>> = (0..4).map(|_| Some(chars.next()?.1)).collect();
                code?.iter().all(char::is_ascii_hexdigit).then_some(())?;
            }
            c if u32::from(c) < 32 => return None,
            _ => {}
        }
    }
    None
}

fn number(text: &str) -> Option<&str> {
    let end = text.find(|c: char| !matches!(c, '0'..='9' | '-' | '.'));
    let (number, rest) = text.split_at(end.unwrap_or(text.len()));
    let digits = number.strip_prefix('-').unwrap_or(number);
    let (whole, part) = digits.split_once('.').unwrap_or((digits, "0"));
    let is_digits = |s: &str| !s.is_empty() && s.bytes().all(|b| b.is_ascii_digit());
    let led = whole.len() > 1 && whole.starts_with('0');
    (is_digits(whole) && is_digits(part) && !led).then_some(rest)
}

#[test]
fn tells_json_from_other_text() {
    for good in [
        "null",
        "[]",
        "{}",
        "{\"a\":[-0.05,\"\\\"\\u000a\"],\"b\":{}}",
        "12.30",
    ] {
        assert_eq!(check(good), Ok(()));
    }
    for bad in [
        "",
        "01",
        "1.",
        "[1,]",
        "{\"a\"}",
        "\"\n\"",
        "\"\\u00\"",
        "null null",
        "{a:1}",
    ] {
        assert!(check(bad).is_err(), "{bad}");
    }
}
