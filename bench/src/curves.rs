//! What is plotted: restart over the log's length, twice, and begin over the
//! tail's.

use crate::clock::Clock;
use crate::measure::{self, Times};
use crate::plot::{Curve, Plot, Times as Axis};
use crate::programs::Program;
use crate::rows::{abort_many, commit_groups, logged, opened, EMPTY_GROUPS, FULL_GROUPS, RESTART};
use second::layout::MAX_UNDOS;
use second::log::Csn;
use second::trace::{Call, World};
use std::path::Path;

/// Points of a curve, beside the one at 0.
const POINTS: usize = 8;
const ABORTS: usize = 4_060;

const COLOURS: [(&str, &str); 3] = [
    ("ours", "#1f5fbf"),
    ("second", "#c8641e"),
    ("tuned", "#2e8b57"),
];

/// Writes the plots into a folder. All their points are gone through together,
/// so that a slow moment of the machine bends no curve.
pub fn write_all(
    folder: &Path,
    clock: &Clock,
    programs: &mut [Box<dyn Program>],
) -> std::io::Result<()> {
    let sets = sets();
    let points = || {
        sets.iter()
            .flat_map(|set| set.worlds.iter().map(|w| (&w.1, &set.call)))
    };
    let calls: Vec<_> = points().collect();
    let times = measure::least(|| measure::calls(clock, programs, &calls));
    let names: Vec<&str> = programs.iter().map(|program| program.name()).collect();
    let mut curves = curves(&sets, &names, &times).into_iter();
    for (file, title, x_title, axis) in PLOTS {
        let plot = Plot {
            title: title.to_string(),
            x_title: x_title.to_string(),
            axis,
            curves: curves.by_ref().take(2 * names.len()).collect(),
        };
        std::fs::write(folder.join(file), plot.svg())?;
    }
    Ok(())
}

/// The file of each plot, its titles and its axis of times: two sets each.
const PLOTS: [(&str, &str, &str, Axis); 3] = [
    (
        "restart.svg",
        "Restart over the length of the log, time on a logarithmic scale",
        "bytes of groups in the log",
        Axis::Logarithmic,
    ),
    (
        "tail.svg",
        "Begin over the length of the tail, time on a logarithmic scale",
        "bytes of groups in the tail",
        Axis::Logarithmic,
    ),
    (
        "power-up.svg",
        "Restart over the length of a log of empty groups",
        "bytes of groups in the log",
        Axis::Linear,
    ),
];

/// Worlds with so many bytes of groups.
type Worlds = Vec<(usize, World)>;

/// A call over growing lengths of one kind of groups.
struct Set {
    groups: &'static str,
    dashed: bool,
    call: Call,
    worlds: Worlds,
}

/// Two of restart, two of begin, and two of restart with and without eight
/// transactions in the image.
fn sets() -> [Set; 6] {
    let set = |groups, dashed, call, worlds| Set {
        groups,
        dashed,
        call,
        worlds,
    };
    [
        set("632-byte groups", false, RESTART, full_logs()),
        set("empty groups", true, RESTART, empty_logs(false)),
        set("632-byte groups", false, Call::Begin, full_tails()),
        set("aborts", true, Call::Begin, abort_tails()),
        set("no image", false, RESTART, empty_logs(false)),
        set("eight in the image", true, RESTART, empty_logs(true)),
    ]
}

/// Parts of a number, from none to all of it, close together at first: there
/// the curves bend most.
fn parts(whole: usize) -> impl Iterator<Item = usize> {
    (0..=POINTS).map(move |i| whole * i * i / (POINTS * POINTS))
}

fn full_logs() -> Worlds {
    let world = |k| (632 * k, logged(false, k, MAX_UNDOS));
    parts(FULL_GROUPS).map(world).collect()
}

fn empty_logs(image: bool) -> Worlds {
    let world = |k| (8 * k, logged(image, k, 0));
    parts(EMPTY_GROUPS).map(world).collect()
}

/// Their transactions are not listed any more: number 2 does not ask for them.
fn full_tails() -> Worlds {
    let world = |k| {
        let mut world = opened();
        let tail = commit_groups(k, MAX_UNDOS);
        world.tail[..tail.len()].copy_from_slice(&tail);
        world.state.csn_assigned = Csn(k as u32);
        (tail.len(), world)
    };
    parts(FULL_GROUPS).map(world).collect()
}

fn abort_tails() -> Worlds {
    let mut world = opened();
    let mut standing = 0;
    let mut worlds = Vec::new();
    for k in parts(ABORTS) {
        abort_many(&mut world, k - standing);
        standing = k;
        worlds.push((4 * k, world.clone()));
    }
    worlds
}

/// A curve of each program for each set; the times are those of all points in
/// a row.
fn curves(sets: &[Set], names: &[&str], times: &Times) -> Vec<Curve> {
    let mut rest = &times[..];
    let mut curves = Vec::new();
    for set in sets {
        let (own, others) = rest.split_at(set.worlds.len());
        let curve = |(i, name): (usize, &&str)| Curve {
            label: format!("{name}, {}", set.groups),
            colour: colour(name),
            dashed: set.dashed,
            points: points(&set.worlds, own, i),
        };
        curves.extend(names.iter().enumerate().map(curve));
        rest = others;
    }
    curves
}

/// The bytes and the times of the i-th program.
fn points(worlds: &Worlds, times: &[Vec<f64>], i: usize) -> Vec<(f64, f64)> {
    let bytes = worlds.iter().map(|(bytes, _)| *bytes as f64);
    bytes.zip(times.iter().map(|times| times[i])).collect()
}

fn colour(name: &str) -> &'static str {
    let found = COLOURS.iter().find(|(known, _)| *known == name);
    found.expect("a colour for each program").1
}
