//! How fast drones are at most, and how far they move while one is late.
use crate::curves::{halves, widest, widest_step, Curve};
use crate::fleet::{Segment, Show};
use std::fmt::Write;

/// By parts of this depth speeds are bounded, whatever the depth of the search.
const REACH_DEPTH: u32 = 6;

/// No two positions are farther apart on an axis, in millimetres.
const FARTHEST: i128 = 65_536;

/// The greatest of a speed that was found and the bound of a segment on an axis by its parts of a depth, in micrometres
/// per second.
fn fastest(segment: &Segment, ms: i64, axis: usize, depth: u32, found: i128) -> i128 {
    if !segment.moves(axis) {
        return found;
    }
    let curve = segment.raised(axis).map(i64::from);
    let (step, ms) = (widest_step(&curve), i128::from(ms));
    let time = 5_040 * ms;
    if i128::from(7_000_000 * step) <= time * found {
        return found;
    }
    let slow = (time * found << (6 * depth)) / 7_000_000;
    let way = (7_000_000 * widest(&curve.map(i128::from), step.into(), depth, slow)) << depth;
    let scale = time << (7 * depth);
    found.max((way + scale - 1) / scale)
}

/// The lines of all drones' speeds by parts of a depth.
pub fn speeds(show: &Show, depth: u32) -> String {
    let mut out = String::new();
    for (drone, name) in show.names.iter().enumerate() {
        let of = |axis| {
            let flight = show.flight(drone).zip(&show.times);
            flight.fold(0, |found, (segment, &ms)| fastest(segment, ms, axis, depth, found))
        };
        let [x, y, z] = [0, 1, 2].map(of);
        writeln!(out, "speed {name} {x} {y} {z}").expect("room");
    }
    out
}

/// How many millimetres any drone moves on each axis at most in the time by which one may be late.
pub fn reach(show: &Show) -> [i64; 3] {
    if show.late == 0 {
        return [0; 3];
    }
    [0, 1, 2].map(|axis| {
        let found = show.flown().fold(0, |found, (ms, segment)| fastest(segment, ms, axis, REACH_DEPTH, found));
        (i128::from(show.late) * found + 999_999).div_euclid(1_000_000).min(FARTHEST) as i64
    })
}

/// The widest second difference in the parts, or `least`. A half bends at most 32 times as much as its whole.
fn widest_bend(curve: &Curve<i128>, depth: u32, least: i128) -> i128 {
    let whole = curve.windows(3).map(|it| (it[2] - 2 * it[1] + it[0]).abs()).max().unwrap_or(0);
    if depth == 0 {
        return least.max(whole);
    }
    if whole << (5 * depth) <= least {
        return least;
    }
    let (left, right) = halves(curve);
    widest_bend(&right, depth - 1, widest_bend(&left, depth - 1, least))
}

/// The velocities at both ends of a segment on an axis, as numerators over its duration.
fn ends(segment: &Segment, axis: usize) -> [i128; 2] {
    let n = segment.degree(axis);
    let step = |from, to| i128::from(segment.value(axis, to)) - i128::from(segment.value(axis, from));
    if n == 0 { [0; 2] } else { [step(0, 1), step(n - 1, n)].map(|v| n as i128 * v) }
}

/// On an axis: the greatest acceleration and the greatest jump of speed so far, the number of the cue that begins with
/// that jump, from 1, and the velocity at which the last cue ended, as a fraction.
struct Axis {
    most: i128,
    jump: i128,
    cue: usize,
    before: (i128, i128),
}

impl Axis {
    /// Looks at the jump to a velocity at which a cue begins, given as a fraction, and says whether there is one.
    fn jumps(&mut self, cue: usize, (speed, ms): (i128, i128)) -> bool {
        let gap = 1_000_000 * (speed * self.before.1 - self.before.0 * ms).abs();
        let time = ms * self.before.1;
        let jump = (gap + time - 1) / time;
        if self.jump < jump {
            (self.jump, self.cue) = (jump, cue);
        }
        gap != 0
    }

    /// Looks at the acceleration of a segment by its parts of a depth.
    fn bends(&mut self, segment: &Segment, axis: usize, ms: i128, depth: u32) {
        let square = 3 * ms * ms;
        let least = self.most * (square << (5 * depth)) / 25_000_000;
        let widest = widest_bend(&segment.raised(axis).map(i128::from), depth, least);
        if widest > least {
            let time = square << (7 * depth);
            self.most = self.most.max((25_000_000 * (widest << (2 * depth)) + time - 1) / time);
        }
    }
}

/// The lines of all drones' accelerations by parts of a depth, and of their jumps of speed.
pub fn dynamics(show: &Show, depth: u32) -> String {
    let (mut out, mut greatest) = (String::new(), [[0; 3]; 2]);
    for (drone, name) in show.names.iter().enumerate() {
        let mut moving = [false; 2];
        let axes = [0, 1, 2].map(|axis| {
            let mut it = Axis { most: 0, jump: 0, cue: 1, before: (0, 1) };
            for (cue, (segment, &ms)) in show.flight(drone).zip(&show.times).enumerate() {
                let ([first, last], ms) = (ends(segment, axis), i128::from(ms));
                moving[0] |= it.jumps(cue + 1, (first, ms)) && cue == 0;
                it.before = (last, ms);
                it.bends(segment, axis, ms, depth);
            }
            moving[1] |= it.jumps(show.cues() + 1, (0, 1));
            greatest[0][axis] = it.most.max(greatest[0][axis]);
            greatest[1][axis] = it.jump.max(greatest[1][axis]);
            it
        });
        let [x, y, z] = axes.each_ref().map(|it| it.most);
        let [u, v, w] = axes.each_ref().map(|it| format!("{} cue {}", it.jump, it.cue));
        let [begins, ends] = moving.map(|it| if it { "moving" } else { "rest" });
        write!(out, "dynamics {name} acceleration {x} {y} {z}").expect("room");
        writeln!(out, " jump {u} {v} {w} begins {begins} ends {ends}").expect("room");
    }
    let [[x, y, z], [u, v, w]] = greatest;
    writeln!(out, "greatest acceleration {x} {y} {z} jump {u} {v} {w}").expect("room");
    out
}
