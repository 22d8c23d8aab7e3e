//! Where two drones come nearest, at 33 instants of each cue.
use crate::curves::CHOOSE;
use crate::fleet::{Segment, Show};

const PARTS: i64 = 32;

/// A position on an axis after so many parts of a segment, as a numerator over PARTS^7.
fn position(segment: &Segment, axis: usize, at: i64) -> i64 {
    let n = segment.degree(axis);
    let weight = |k: usize| CHOOSE[n][k] * at.pow(k as u32) * (PARTS - at).pow((n - k) as u32);
    let sum: i64 = (0..=n).map(|k| weight(k) * i64::from(segment.value(axis, k))).sum();
    sum * PARTS.pow((7 - n) as u32)
}

/// The line on the nearest pair, and that on the first one whose ellipsoids touch, if one does.
pub fn closest(show: &Show) -> String {
    let (r, h) = (i128::from(show.r), i128::from(show.h));
    let right = 4 * r * r * h * h * i128::from(PARTS).pow(14);
    let mut best = (i128::MAX, String::new());
    let mut touch = String::new();
    for cue in 0..show.cues() {
        for at in 0..=PARTS {
            let of = |drone| [0, 1, 2].map(|axis| position(show.segment(drone, cue), axis, at));
            let places: Vec<[i64; 3]> = (0..show.drones()).map(of).collect();
            for a in 0..places.len() {
                for b in a + 1..places.len() {
                    let [x, y, z] = [0, 1, 2].map(|axis| i128::from(places[b][axis] - places[a][axis]));
                    let left = h * h * (x * x + y * y) + r * r * z * z;
                    let (first, second) = (&show.names[a], &show.names[b]);
                    let name = || format!("pair {first} {second} cue {} at {at} of {PARTS}", cue + 1);
                    if left < best.0 {
                        best = (left, name());
                    }
                    if touch.is_empty() && left <= right {
                        touch = format!("touch {}\n", name());
                    }
                }
            }
        }
    }
    let level = 1000 * (best.0 / right) + 1000 * (best.0 % right) / right;
    format!("closest {} level {level}\n{touch}", best.1)
}
