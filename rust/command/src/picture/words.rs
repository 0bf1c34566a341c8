//! Numbers and names as text, and how much room a text takes.

/// Cents as dollars, exactly.
pub fn money(cents: i128) -> String {
    let sign = if cents < 0 { "-" } else { "" };
    let size = cents.unsigned_abs();
    format!("{sign}{}.{:02}", grouped(size / 100), size % 100)
}

pub fn megawatts(tenths: u16) -> String {
    format!("{}.{}", grouped(u128::from(tenths / 10)), tenths % 10)
}

/// With a comma before each three digits.
pub fn grouped(whole: u128) -> String {
    if whole < 1000 {
        return whole.to_string();
    }
    format!("{},{:03}", grouped(whole / 1000), whole % 1000)
}

/// About how wide a text is: rather more than less, as fonts differ.
pub fn width(text: &str, size: f64) -> f64 {
    text.chars().map(share_of_size).sum::<f64>() * size
}

fn share_of_size(letter: char) -> f64 {
    match letter {
        ' ' | '.' | ',' | ':' | ';' | '(' | ')' | '-' | 'f' | 'i' | 'j' | 'l' | 'r' | 't' => 0.4,
        'm' | 'w' | '@' | '%' | 'M' | 'W' => 1.0,
        'A'..='Z' => 0.8,
        '!'..='~' => 0.65,
        _ => 1.2,
    }
}

/// The text, or what fits of its beginning and an ellipsis.
pub fn shorten(text: &str, size: f64, room: f64) -> String {
    if width(text, size) <= room {
        return text.to_string();
    }
    let mut left = room - width("…", size);
    let fits = |letter: &char| {
        left -= share_of_size(*letter) * size;
        left >= 0.0
    };
    let kept: String = text.chars().take_while(fits).collect();
    kept.trim_end().to_string() + "…"
}

/// As XML text. What XML can't hold becomes a space.
pub fn escape(text: &str) -> String {
    let mut out = String::new();
    for letter in text.chars() {
        match letter {
            '&' => out += "&amp;",
            '<' => out += "&lt;",
            '>' => out += "&gt;",
            '"' => out += "&quot;",
            '\'' => out += "&#39;",
            '\u{fffe}' | '\u{ffff}' => out.push(' '),
            letter if letter.is_control() => out.push(' '),
            letter => out.push(letter),
        }
    }
    out
}
