//! Time, by the medians of many short batches.

use std::hint::black_box;
use std::time::Instant;

const BATCHES: usize = 12;
/// A batch has as many goes as fit into this, within the two limits: short, so
/// that some batches meet no other work of the machine.
const BATCH_NANOS: f64 = 500_000.0;
const FEWEST: usize = 5;
const MOST: usize = 101;

pub struct Clock {
    /// What two looks at the clock take without anything between them.
    empty: f64,
}

impl Clock {
    pub fn set() -> Clock {
        let looks = (0..20_001).map(|_| Clock { empty: 0.0 }.once(|| ()));
        Clock {
            empty: median(looks.collect()),
        }
    }

    /// The nanoseconds of one go.
    fn once<T>(&self, work: impl FnOnce() -> T) -> f64 {
        let start = Instant::now();
        black_box(work());
        start.elapsed().as_nanos() as f64 - self.empty
    }

    /// The nanoseconds of each work: the least of the batches' medians. The
    /// batches of the works take turns, so that a slow moment of the machine
    /// meets them all. What `prepare` does is not timed.
    pub fn each<W>(
        &self,
        works: &mut [W],
        mut prepare: impl FnMut(&mut W),
        mut go: impl FnMut(&mut W),
    ) -> Vec<f64> {
        let mut least = vec![f64::INFINITY; works.len()];
        let mut sizes = vec![FEWEST; works.len()];
        for _ in 0..BATCHES {
            for (i, work) in works.iter_mut().enumerate() {
                let time = self.batch(sizes[i], work, &mut prepare, &mut go);
                sizes[i] = ((BATCH_NANOS / time.max(1.0)) as usize).clamp(FEWEST, MOST);
                least[i] = least[i].min(time);
            }
        }
        least
    }

    fn batch<W>(
        &self,
        size: usize,
        work: &mut W,
        prepare: &mut impl FnMut(&mut W),
        go: &mut impl FnMut(&mut W),
    ) -> f64 {
        let mut times = Vec::with_capacity(size);
        for _ in 0..size {
            prepare(work);
            times.push(self.once(|| go(work)));
        }
        median(times)
    }
}

fn median(mut times: Vec<f64>) -> f64 {
    times.sort_by(f64::total_cmp);
    times[times.len() / 2]
}
