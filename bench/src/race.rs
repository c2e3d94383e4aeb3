//! The plain pass, the rendering and the library timed in turns.

use crate::cases::Table;
use crate::floor::pass;
use std::hint::black_box;
use std::time::Instant;

/// Between two looks at the clock a call gets as many tables, one after another, as make up this many rows.
const ROWS_ON_THE_CLOCK: usize = 256;

/// Best times of one call, in nanoseconds.
#[derive(Clone, Copy, Debug)]
pub struct Times {
    pub floor: f64,
    pub rendering: f64,
    pub library: f64,
}

impl Times {
    pub fn over_rendering(&self) -> f64 {
        self.library / self.rendering
    }

    pub fn is_slower(&self) -> bool {
        self.over_rendering() > 1.0
    }

    pub fn over_floor(&self) -> f64 {
        self.library / self.floor
    }
}

/// Times a call of the rendering and of the library beside the plain pass. Each has its turn in every round, so that a
/// noisy moment hits all alike, and its best round counts.
pub fn race(
    table: &Table,
    rounds: usize,
    mut rendering: impl FnMut(&mut [u8]),
    mut library: impl FnMut(&mut [u8]),
) -> Times {
    let mut track = Track::of(&table.memory(), table.rows);
    let mut best = Times { floor: f64::INFINITY, rendering: f64::INFINITY, library: f64::INFINITY };
    for _ in 0..rounds {
        best.floor = best.floor.min(track.time(|memory| {
            black_box(pass(memory));
        }));
        best.rendering = best.rendering.min(track.time(&mut rendering));
        best.library = best.library.min(track.time(&mut library));
    }
    best
}

/// What is done with a table's memory.
type Call<'s> = Box<dyn FnMut(&mut [u8]) + 's>;

/// One of those that are timed in turns.
pub struct Side<'s> {
    memory: Vec<u8>,
    call: Call<'s>,
}

impl<'s> Side<'s> {
    pub fn new(memory: &[u8], call: impl FnMut(&mut [u8]) + 's) -> Side<'s> {
        Side { memory: memory.to_vec(), call: Box::new(call) }
    }

    /// The plain pass over this memory.
    pub fn pass(memory: &[u8]) -> Side<'s> {
        Side::new(memory, |memory| {
            black_box(pass(memory));
        })
    }
}

/// The best times of any number of sides on tables of so many rows, timed in turns as by [`race`].
pub fn best<const N: usize>(rows: usize, rounds: usize, sides: [Side; N]) -> [f64; N] {
    let mut sides = sides.map(|Side { memory, call }| (Track::of(&memory, rows), call));
    let mut best = [f64::INFINITY; N];
    for _ in 0..rounds {
        for (best, (track, call)) in best.iter_mut().zip(&mut sides) {
            *best = best.min(track.time(call));
        }
    }
    best
}

/// Equal tables side by side, and what they are put back to. Each starts on a cache line, since elsewhere the plain pass
/// takes half as long again.
struct Track {
    size: usize,
    stride: usize,
    start: Vec<u8>,
    memory: Vec<u8>,
    from: usize,
}

impl Track {
    const LINE: usize = 64;

    fn of(memory: &[u8], rows: usize) -> Track {
        let mut one = memory.to_vec();
        let size = one.len();
        let stride = size.next_multiple_of(Track::LINE);
        one.resize(stride, 0);
        let start = one.repeat(ROWS_ON_THE_CLOCK / rows);
        let memory = vec![0; start.len() + Track::LINE];
        let from = memory.as_ptr().align_offset(Track::LINE);
        Track { size, stride, start, memory, from }
    }

    /// The time of one call. The tables are put back before, off the clock.
    fn time(&mut self, mut call: impl FnMut(&mut [u8])) -> f64 {
        let tables = &mut self.memory[self.from..][..self.start.len()];
        tables.copy_from_slice(&self.start);
        let clock = Instant::now();
        tables.chunks_exact_mut(self.stride).for_each(|table| call(&mut table[..self.size]));
        let took = clock.elapsed();
        let calls = self.start.len() / self.stride;
        took.as_nanos() as f64 / calls as f64
    }
}
