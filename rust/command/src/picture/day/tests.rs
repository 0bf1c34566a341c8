use super::super::tests::{check, check_texts, texts};
use super::*;
use bench::Lamination;

/// Levels with this many laminations, in a profile.
fn levels(profile: u8, count: u16, held: bool) -> Levels {
    let step = |i: u16| Lamination {
        from: i * 50,
        to: (i + 1) * 50,
        level: 4_000 * u64::from(profile) + 350 * u64::from(i),
    };
    Levels {
        profile,
        energy: (0..count).map(step).collect(),
        start: held.then_some(330_000 * u64::from(profile)),
        no_load: held.then_some(50_000),
        reserve: held.then_some(25),
    }
}

fn drawn(from: u32, hours: Vec<Result<&Levels, Refusal>>) -> String {
    drawn_with(from, hours, &[])
}

fn drawn_with(from: u32, hours: Vec<Result<&Levels, Refusal>>, changed: &[u32]) -> String {
    let out = svg(&Day {
        title: "a day",
        from,
        hours,
        changed: changed.to_vec(),
    });
    check(&out);
    check_texts(&out);
    out
}

const REFUSAL: Refusal = Refusal {
    number: 8,
    place: 7,
};

#[test]
fn profiles_and_refused_hours_are_told_apart() {
    let all = [1, 2, 3, 4].map(|profile| levels(profile, 3, true));
    let hour = |hour: usize| match hour {
        9..=11 => Err(REFUSAL),
        _ => Ok(&all[hour / 6]),
    };
    let out = drawn(100, (0..24).map(hour).collect());
    for part in [
        ">profile 1<",
        ">profile 4<",
        ">refused 8<",
        ">hours 109 to 111: refused 8<",
        "hours 100 to 105: profile 1; energy to 5.0 MW 40.00, to 10.0 MW 43.50, to 15.0 MW 47.00; start 3,300.00; no-load 500.00; reserve 0.25.",
        "hours 109 to 111: refused 8 at 7.",
        ">Hour<",
        ">123<",
        ">to 15.0 MW<",
        ">reserve<",
    ] {
        assert!(out.contains(part), "{part} in {out}");
    }
    // Above the plots and in the legend.
    assert_eq!(out.matches(">profile 2<").count(), 2);
}

/// An axis that isn't even or doesn't start at 0 is told: the steps look other than they are.
#[test]
fn the_axis_is_told() {
    let [low, high] = [(100, 10), (900_000, 100)].map(|(first, step)| {
        let mut levels = levels(1, 4, false);
        for (lamination, i) in levels.energy.iter_mut().zip(0..) {
            lamination.level = first + step * i;
        }
        levels
    });
    let even = levels(1, 20, true);
    for (hours, told) in [
        (vec![&low, &high, &low], "The energy axis is logarithmic."),
        (
            vec![&high, &high],
            "The energy axis doesn&#39;t start at 0.",
        ),
        (vec![&even, &even], ""),
    ] {
        let out = drawn(0, hours.into_iter().map(Ok).collect());
        assert!(out.contains(told), "{told} in {out}");
        assert_eq!(out.contains("axis"), !told.is_empty(), "{out}");
    }
}

#[test]
fn days_of_every_size_are_drawn() {
    for (count, held) in [(1, false), (2, true), (20, true)] {
        let all = [1, 2].map(|profile| levels(profile, count, held));
        for hours in [1, 2, 24, 168, 8_784] {
            let hour = |hour: usize| Ok(&all[hour / 7 % 2]);
            for from in [0, u32::MAX - 8_784] {
                let out = drawn(from, (0..hours).map(hour).collect());
                let named = |name: &str| out.contains(&format!(">{name}<"));
                let others = ["start", "no-load", "reserve"].into_iter().all(named);
                assert_eq!(others, held, "{count} laminations, {hours} hours");
            }
        }
    }
}

/// Each hour from which another cost counts has a line in every plot.
#[test]
fn costs_that_begin_are_told() {
    let all = [1, 2].map(|n| levels(n, 3, true));
    let hours = || (0..24).map(|hour| Ok(&all[hour / 12])).collect();
    let out = drawn_with(100, hours(), &[112]);
    assert_eq!(
        out.matches("stroke-dasharray='2 4'").count(),
        4 + 1,
        "{out}"
    );
    assert!(out.contains(">a cost begins: hour 112<"));
    assert!(out.contains(" A cost begins: hour 112."));
    let many: Vec<u32> = (100..124).collect();
    let out = drawn_with(100, hours(), &many);
    assert!(out.contains(">a cost begins: hours 100, 101, 102, 103, 104, 105, and more<"));
    assert!(!drawn(100, hours()).contains("a cost begins"));
}

/// Where each dotted line stands, but for that of the legend.
fn lines_of_change(out: &str) -> Vec<f64> {
    let lines = out.lines().filter(|line| line.contains(CHANGE));
    let upright = lines.filter_map(|line| line.split(['M', ' ', 'V', '\'']).nth(3)?.parse().ok());
    let mut upright: Vec<f64> = upright.collect();
    upright.pop();
    upright
}

/// The price of a level that goes on where another cost begins stands off the line there.
#[test]
fn prices_stand_beside_lines_of_change() {
    let [one, two] = [1, 2].map(|n| levels(n, 2, true));
    let hours = (0..24).map(|hour| Ok(if hour < 12 { &one } else { &two }));
    let out = drawn_with(0, hours.collect(), &[12]);
    let lines = lines_of_change(&out);
    assert_eq!(lines.len(), 4);
    let prices: Vec<_> = texts(&out)
        .into_iter()
        .filter(|t| t.4 == "500.00")
        .collect();
    assert_eq!(prices.len(), 1, "{out}");
    assert!(!(prices[0].0..prices[0].2).contains(&lines[0]), "{out}");
}

/// A year with another cost every eighth hour: lines stay apart, and the legend says so.
#[test]
fn lines_of_change_do_not_run_together() {
    let all = [1, 2].map(|n| levels(n, 3, true));
    let changed: Vec<u32> = (8..8_784).step_by(8).collect();
    let hours = (0..8_784).map(|hour| Ok(&all[hour / 8 % 2]));
    let out = drawn_with(0, hours.collect(), &changed);
    let lines = lines_of_change(&out);
    let in_one_plot = &lines[..lines.len() / 4];
    assert!(in_one_plot.len() > 80, "{in_one_plot:?}");
    assert!(in_one_plot.windows(2).all(|x| x[1] - x[0] > 5.0));
    assert!(
        out.contains(">a cost begins (not all are drawn): hours 8, 16, 24, 32, 40, 48, and more<")
    );
}

/// Stretches that are refused alike have one entry, and those too narrow for a name have none.
#[test]
fn many_stretches() {
    let found = levels(1, 2, true);
    let hour = |hour| {
        if hour % 2 == 0 {
            Ok(&found)
        } else {
            Err(REFUSAL)
        }
    };
    let out = drawn(0, (0..96).map(hour).collect());
    assert!(
        out.contains(">hours 1, 3, 5, and more: refused 8<"),
        "{out}"
    );
    assert_eq!(out.matches(": refused 8<").count(), 1);
    assert!(!out.contains(">refused 8<"));
}

/// Names of twenty laminations that lie close together stay beside them.
#[test]
fn names_stand_beside_their_levels() {
    let plot = |bottom: f64| Plot {
        left: 0.0,
        right: 700.0,
        top: TOP,
        bottom,
        end: 24,
        axis: Axis::even(0, 10_000, 8),
    };
    let course = |i: i128| Course {
        name: format!("{i}"),
        runs: vec![(0, 24, 4_000 + 100 * i)],
    };
    let courses: Vec<Course> = (0..20).map(course).collect();
    let named = |plot: &Plot| {
        let names = beside(plot, &courses);
        let far = names.iter().map(|(y, name)| {
            let level = 4_000 + 100 * name.parse::<i128>().unwrap();
            (y - plot.y(level)).abs()
        });
        (names.len(), far.fold(0.0, f64::max))
    };
    for bottom in [200.0, 300.0, 500.0] {
        let (count, far) = named(&plot(bottom));
        assert!(count > 1 && far < 2.0 * SPACE, "{count} names, {far} away");
    }
    assert_eq!(axis_name(&plot(200.0), true), "Energy ($/MWh)");
    assert_eq!(axis_name(&plot(300.0), true), "Energy (dollars per MWh)");
}

#[test]
fn a_refused_day_is_drawn() {
    let out = drawn(0, vec![Err(REFUSAL); 24]);
    assert!(out.contains(">hours 0 to 23: refused 8<"));
}
