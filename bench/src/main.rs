//! Prints the table of one run; with a folder as its argument it also writes
//! the plots there.

use bench::clock::Clock;
use bench::curves;
use bench::floor;
use bench::measure::{self, Stepper};
use bench::peers;
use bench::programs::{self, Program};
use bench::rows;
use bench::table;
use std::path::Path;

fn main() -> std::io::Result<()> {
    let clock = Clock::set();
    let mut programs = programs::all();
    let shared = std::env::var("BENCH_SHM").unwrap_or("/dev/shm".to_string());
    let files = Path::new(&shared).join(format!("luppaneth-bench-{}", std::process::id()));
    std::fs::create_dir(&files)?;
    tables(&clock, &mut programs, &files);
    std::fs::remove_dir_all(files)?;
    match std::env::args().nth(1) {
        Some(folder) => curves::write_all(Path::new(&folder), &clock, &mut programs),
        None => Ok(()),
    }
}

/// Both tables; the databases' files stand in the folder.
fn tables(clock: &Clock, programs: &mut [Box<dyn Program>], files: &Path) {
    let (peers, missing) = peers::all(files);
    let mut steppers: Vec<Stepper> = floor::FLOORS.map(Stepper::Floor).into();
    steppers.extend(programs::all().into_iter().map(Stepper::Program));
    steppers.extend(peers.into_iter().map(Stepper::Peer));
    let rows = rows::all();
    let calls: Vec<_> = rows.iter().map(|row| (&row.world, &row.call)).collect();
    let mut turn = 0;
    let times = measure::least(|| {
        let mut times = measure::calls(clock, programs, &calls);
        times.push(measure::steps(clock, &mut steppers, &mut turn));
        times
    });
    let names: Vec<String> = steppers.iter().map(Stepper::name).collect();
    println!("{}", table::steps(&names, &times[rows.len()]));
    println!("{}", table::calls(&rows, &times));
    if programs.len() < 3 {
        println!("Left out: the proved library (LUPPANETH_LIB names no folder).");
    }
    for word in missing {
        println!("Left out: {word}.");
    }
}
