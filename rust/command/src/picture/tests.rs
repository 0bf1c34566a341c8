use super::words::*;
use super::*;

fn step(from: u16, to: u16, level: u64) -> Lamination {
    Lamination { from, to, level }
}

fn pair(quantity: u16, price: i32) -> Pair {
    let (quantity, price) = (quantity.into(), price.into());
    Pair { quantity, price }
}

fn failing(pair: usize, lamination: usize) -> Failing {
    Failing { pair, lamination }
}

fn offer<'a>(pairs: &'a [Pair], highest: &'a [Option<i32>]) -> Option<Offer<'a>> {
    Some(Offer {
        pairs,
        condition: "narrow",
        highest,
        fails: None,
    })
}

fn drawn(steps: &[Lamination], offer: Option<Offer>) -> String {
    let title = "R1, hour 0";
    let picture = Picture {
        title,
        steps,
        offer,
    };
    let out = svg(&picture);
    check(&out);
    out
}

/// Tags balance, and neither tags nor texts hold what they mustn't.
pub fn check(out: &str) {
    let (mut open, mut rest) = (Vec::new(), out);
    while let Some(at) = rest.find('<') {
        check_text(&rest[..at]);
        let end = at + rest[at..].find('>').expect("a tag that ends");
        let tag = &rest[at + 1..end];
        match tag.strip_prefix('/') {
            Some(name) => assert_eq!(open.pop(), Some(name)),
            None => check_tag(tag),
        }
        if !tag.starts_with('/') && !tag.ends_with('/') {
            open.push(tag.split(' ').next().unwrap());
        }
        rest = &rest[end + 1..];
    }
    assert_eq!((open.len(), rest), (0, "\n"));
}

fn check_text(text: &str) {
    let entities = ["amp;", "lt;", "gt;", "quot;", "#39;"];
    for part in text.split('&').skip(1) {
        assert!(entities.iter().any(|entity| part.starts_with(entity)));
    }
    assert!(!text.contains(['>', '\0', '\u{1b}', '\u{ffff}']));
}

/// Attributes are quoted, and their numbers have two decimals at most.
fn check_tag(tag: &str) {
    assert!(!tag.contains(['<', '&', '"']) && !tag.contains("NaN") && !tag.contains("inf"));
    assert_eq!(tag.matches("='").count() * 2, tag.matches('\'').count());
    for part in tag.split('.').skip(1) {
        let decimals = part.chars().take_while(char::is_ascii_digit).count();
        assert!(decimals <= 2, "{tag}");
    }
}

/// Left, top, right, bottom and words of each level text.
pub fn texts(out: &str) -> Vec<(f64, f64, f64, f64, String)> {
    let value = |line: &str, name: &str| {
        let from = line.find(&format!(" {name}='")).unwrap() + name.len() + 3;
        line[from..].split('\'').next().unwrap().to_string()
    };
    let number = |line: &str, name: &str| value(line, name).parse::<f64>().unwrap();
    let text = |line: &str| {
        let words = line.split(['>', '<']).nth(2).unwrap();
        let words = words.replace("&lt;", "<").replace("&gt;", ">");
        let words = words.replace("&#39;", "'").replace("&quot;", "\"");
        let words = words.replace("&amp;", "&");
        let (x, y, size) = (
            number(line, "x"),
            number(line, "y"),
            number(line, "font-size"),
        );
        assert!(size >= 12.0);
        let wide = width(&words, size);
        let left = match value(line, "text-anchor").as_str() {
            "start" => x,
            "middle" => x - wide / 2.0,
            _ => x - wide,
        };
        (left, y - size * 0.75, left + wide, y + size * 0.25, words)
    };
    let level = |line: &&str| line.starts_with("<text") && !line.contains("rotate");
    out.lines().filter(level).map(text).collect()
}

/// No text lies on another or leaves the sheet.
pub fn check_texts(out: &str) {
    let texts = texts(out);
    for (i, a) in texts.iter().enumerate() {
        assert!(
            a.0 >= 0.0 && a.1 >= 0.0 && a.2 <= WIDTH && a.3 <= HEIGHT,
            "{a:?}"
        );
        for b in &texts[..i] {
            let apart = a.2 <= b.0 || b.2 <= a.0 || a.3 <= b.1 || b.3 <= a.1;
            assert!(apart, "{a:?} on {b:?}");
        }
    }
}

#[test]
fn a_level_alone() {
    let out = drawn(&[step(0, 1000, 4230)], None);
    check_texts(&out);
    for part in [
        "viewBox='0 0 960 600' width='100%' height='100%' role='img' font-family='sans-serif'",
        "<title>R1, hour 0</title>",
        "<desc>Dollars per MWh. Energy level: 0.0 to 100.0 MW at 42.30.</desc>",
        "<rect x='0' y='0' width='960' height='600' fill='#ffffff'/>",
        ">Output (MW)<",
        ">Price (dollars per MWh)<",
        ">energy level, 42.30<",
        ">42.30<",
    ] {
        assert!(out.contains(part), "{part}");
    }
    assert!(!out.contains("offer") && !out.contains("failure"));
    // The legend lies below the plot and its axis.
    let texts = texts(&out);
    let top = |words: &str| texts.iter().find(|text| text.4 == words).unwrap().1;
    assert!(top("energy level, 42.30") > top("Output (MW)") + 13.0);
}

#[test]
fn an_offer_that_passes_and_one_that_fails() {
    let (steps, highest) = ([step(0, 1000, 4230)], [Some(6345)]);
    let pairs = [pair(500, 4230), pair(1000, 6345)];
    let out = drawn(&steps, offer(&pairs, &highest));
    check_texts(&out);
    assert!(out.contains(">offer, passes (narrow)<"));
    assert!(out.contains(">highest price that passes (narrow)<"));
    let pairs = [pair(500, 4230), pair(1000, 6346)];
    let mut fails = offer(&pairs, &highest);
    fails.as_mut().unwrap().fails = Some(failing(2, 1));
    let out = drawn(&steps, fails);
    check_texts(&out);
    assert!(out.contains(">offer, fails (narrow)<"));
    assert!(out.contains(">first failure: pair 2 in lamination 1<"));
    assert!(out.contains(">first failure: pair 2 in lamination 1, 63.46 above 63.45<"));
    assert!(out.contains(">63.45<") && out.contains(">63.46<"));
    assert_eq!(out.matches("<circle").count(), 3);
}

#[test]
fn a_failure_that_lies_nowhere_has_no_band() {
    let (steps, pairs) = ([step(0, 500, 1), step(500, 900, 2)], [pair(500, 9)]);
    for nowhere in [
        (1, 2),
        (0, 1),
        (1, 0),
        (2, 1),
        (1, 3),
        (usize::MAX, usize::MAX),
    ] {
        let mut fails = offer(&pairs, &[Some(1), Some(2)]);
        fails.as_mut().unwrap().fails = Some(failing(nowhere.0, nowhere.1));
        let out = drawn(&steps, fails);
        assert!(out.contains(">offer, fails (narrow)<") && !out.contains("first failure"));
    }
}

#[test]
fn limits_above_the_axis_and_steps_without() {
    let steps = [
        step(0, 500, 3000),
        step(500, 900, 4000),
        step(900, 1000, 5000),
    ];
    let out = drawn(
        &steps,
        offer(&[pair(800, 3500)], &[Some(40_000), None, Some(6000)]),
    );
    check_texts(&out);
    assert!(out.contains(">400.00<") && out.contains(">above the price axis, 400.00<"));
    assert!(out.contains(">where no limit is drawn, every price passes (narrow)<"));
    assert_eq!(out.matches(LIMIT).count(), 3);
}

#[test]
fn a_price_axis_from_0_from_below_and_from_above() {
    let axis = |level: u64, price: i32| {
        let (steps, pairs) = ([step(0, 10, level)], [pair(10, price)]);
        let offer = offer(&pairs, &[]);
        let title = "";
        Axis::of(&Lines::of(&Picture {
            title,
            steps: &steps,
            offer,
        }))
    };
    let texts = |axis: Axis| axis.ticks.iter().map(|t| axis.text(*t)).collect::<Vec<_>>();
    assert_eq!(texts(axis(4000, 4000)), ["0", "10", "20", "30", "40", "50"]);
    assert_eq!(
        texts(axis(4000, -1000)),
        ["-20", "-10", "0", "10", "20", "30", "40", "50"]
    );
    assert_eq!(texts(axis(4000, 4010))[..2], ["39.98", "40.00"]);
    // A level of 40.00 would seem to lie on 0 beside a price of 2,000.00.
    let far = axis(4000, 200_000);
    assert!(far.unit.is_some() && far.share(4000) > 0.1 && far.share(6000) > far.share(4000));
    let far = axis(1_000_000_000_000, -5000);
    assert!(far.share(-5000) >= 0.0 && far.share(-5000) < far.share(0) - 0.01);
}

#[test]
fn ticks_are_round_and_few() {
    for range in (1..2000).chain((0..60).map(|power| 3_i128.pow(power) / 7 + 1)) {
        let step = round(range);
        let mut first = step;
        while first % 10 == 0 {
            first /= 10;
        }
        assert!([1, 2, 5].contains(&first) && step * 8 >= range);
        assert!(step == 1 || step * 3 < range + 3 * step);
    }
}

fn round(range: i128) -> i128 {
    super::axis::round_step(range, 8)
}

#[test]
fn numbers_and_texts() {
    assert_eq!(money(0), "0.00");
    assert_eq!(money(-5), "-0.05");
    assert_eq!(money(100_000), "1,000.00");
    assert_eq!(money(i128::from(u64::MAX)), "184,467,440,737,095,516.15");
    assert_eq!(money(i128::from(i32::MIN)), "-21,474,836.48");
    assert_eq!(megawatts(20_000), "2,000.0");
    assert_eq!(
        escape("<a> & \"b\" 'c'\0"),
        "&lt;a&gt; &amp; &quot;b&quot; &#39;c&#39; "
    );
    assert_eq!(shorten("short", 20.0, 100.0), "short");
    let short = shorten(&"A long title & ".repeat(90), 20.0, 880.0);
    assert!(short.ends_with('…') && width(&short, 20.0) <= 880.0 && short.len() > 50);
}

/// A number that only the seed decides.
fn next(seed: &mut u64) -> u64 {
    *seed ^= *seed << 13;
    *seed ^= *seed >> 7;
    *seed ^= *seed << 17;
    *seed
}

/// False once in so many times.
fn mostly(seed: &mut u64, times: u64) -> bool {
    !next(seed).is_multiple_of(times)
}

/// One of some odd numbers, or a number of any size.
fn odd(seed: &mut u64) -> u64 {
    let (kind, any) = (next(seed) % 12, next(seed));
    let edges = [0, 1, 9, 10, 100, 4230, 20_000, 1 << 31, 1 << 63, u64::MAX];
    let edge = edges.get(kind as usize);
    edge.copied().unwrap_or(any >> (any % 64))
}

#[test]
fn odd_inputs_are_drawn() {
    let mut seed = 7;
    for _ in 0..3000 {
        let s = &mut seed;
        let (count, offered) = (next(s) % 22, next(s) % 22);
        let a_step = |s: &mut u64| step(odd(s) as u16, odd(s) as u16, odd(s));
        let steps: Vec<Lamination> = (0..count).map(|_| a_step(s)).collect();
        let pairs: Vec<Pair> = (0..offered)
            .map(|_| pair(odd(s) as u16, odd(s) as i32))
            .collect();
        let limit = |s: &mut u64| mostly(s, 4).then_some(odd(s) as i32);
        let highest: Vec<Option<i32>> = (0..next(s) % 22).map(|_| limit(s)).collect();
        let fails = mostly(s, 2).then_some(failing(odd(s) as usize % 23, odd(s) as usize));
        let title = ["", "<", "]]>&\u{7}", "é漢\u{ffff}\u{202e}'\""][next(s) as usize % 4];
        let long = title.repeat(next(s) as usize % 99);
        let condition = long.as_str();
        let highest = &highest;
        let offer = mostly(s, 5).then_some(Offer {
            pairs: &pairs,
            condition,
            highest,
            fails,
        });
        let picture = Picture {
            title: &long,
            steps: &steps,
            offer,
        };
        let out = svg(&picture);
        check(&out);
        check_texts(&out);
        assert_eq!(out, svg(&picture));
    }
}

#[test]
fn texts_keep_apart_on_sound_inputs() {
    let mut seed = 11;
    for _ in 0..1500 {
        let s = &mut seed;
        let size = [100, 10_000, 1_000_000, 1_000_000_000_000][next(s) as usize % 4];
        let (mut at, mut level, mut steps) = (0, next(s) % size, Vec::new());
        for _ in 0..=next(s) % 20 {
            let to = at + 1 + (next(s) % 1000) as u16;
            steps.push(step(at, to, level));
            (at, level) = (to, level + next(s) % (size / 10));
        }
        let (mut quantity, mut pairs) = (0, Vec::new());
        let mut price = (next(s) % 220_000) as i32 - 20_000;
        while pairs.len() < 20 && quantity < at && (pairs.is_empty() || mostly(s, 9)) {
            quantity += 1 + (next(s) % u64::from(at - quantity)) as u16;
            pairs.push(pair(quantity, price));
            price = (price + (next(s) % 3000) as i32).min(200_000);
        }
        let times = 1 + next(s) % 9;
        let limit = |step: &Lamination| i32::try_from(step.level * times).ok();
        let highest: Vec<Option<i32>> = steps.iter().map(limit).collect();
        let mut offer = offer(&pairs, &highest);
        let last = failing(pairs.len(), 1 + next(s) as usize % steps.len());
        offer.as_mut().unwrap().fails = mostly(s, 2).then_some(last);
        check_texts(&drawn(&steps, offer));
    }
}

/// Whatever the file is called, the title tells the hour and the profile.
#[test]
fn a_title_keeps_what_stands_behind_the_name() {
    let behind = ", hour 4294967295, profile 4";
    for name in ["gas.txt", &"a long name ".repeat(40), &"漢".repeat(300), ""] {
        let title = title(name, behind);
        assert!(title.ends_with(behind), "{title}");
        assert_eq!(shorten(&title, TITLE, TITLE_ROOM), title);
        assert_eq!(title.starts_with(name), name.len() < 10, "{title}");
        let out = svg(&Picture {
            title: &title,
            steps: &[step(0, 1000, 4230)],
            offer: None,
        });
        assert!(out.contains(&format!("{behind}</text>")), "{out}");
    }
}
