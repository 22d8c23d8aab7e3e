//! The rows of `play`: where each drone is at each instant of a step, rounded down.
use std::io::{self, Write};

const BUFFER: usize = 65536;

/// A segment's milliseconds, and its control values on x, y and z in millimetres and of yaw in tenths of a degree.
pub struct Segment {
    pub ms: u64,
    pub axes: [Vec<i64>; 4],
}

/// A drone, which segment it is in and when that began.
pub struct Drone {
    name: Vec<u8>,
    segments: Vec<Segment>,
    at: usize,
    begin: u64,
}

impl Drone {
    pub fn new(name: &[u8], segments: Vec<Segment>) -> Drone {
        Drone { name: name.to_vec(), segments, at: 0, begin: 0 }
    }

    /// Where it is at an instant that is no earlier than the one before.
    fn at(&mut self, instant: u64, weights: &mut Weights) -> [i64; 4] {
        while self.segments[self.at].ms < instant - self.begin {
            self.begin += self.segments[self.at].ms;
            self.at += 1;
        }
        let segment = &self.segments[self.at];
        weights.move_to(segment.ms, instant - self.begin);
        let [x, y, z, yaw] = &segment.axes;
        [weights.value(x, 1000), weights.value(y, 1000), weights.value(z, 1000), weights.value(yaw, 10)]
    }

    /// Adds its row.
    fn put(&self, instant: u64, row: [i64; 4], out: &mut Vec<u8>) {
        put(out, instant as i64);
        out.push(b' ');
        out.extend_from_slice(&self.name);
        for v in row {
            out.push(b' ');
            put(out, v);
        }
        out.push(b'\n');
    }
}

/// The weights of an instant of a segment by degree, as 64-bit numbers where they fit. They are worked out where a
/// drone needs them, and drones at the same instant of a segment share them.
struct Weights {
    ms: u64,
    t: u64,
    made: [bool; 3],
    fits: [bool; 3],
    small: [[i64; 8]; 3],
    large: [[i128; 8]; 3],
}

const DEGREES: [u32; 3] = [1, 3, 7];
const CHOOSE: [[i64; 8]; 3] = [[1, 1, 0, 0, 0, 0, 0, 0], [1, 3, 3, 1, 0, 0, 0, 0], [1, 7, 21, 35, 35, 21, 7, 1]];

impl Weights {
    fn of(ms: u64, t: u64) -> Weights {
        let fits = DEGREES.map(|n| (ms as i128).pow(n) < (1 << 62) / (32768 * 1000));
        Weights { ms, t, made: [false; 3], fits, small: [[0; 8]; 3], large: [[0; 8]; 3] }
    }

    fn move_to(&mut self, ms: u64, t: u64) {
        if self.ms != ms {
            *self = Weights::of(ms, t);
        } else if self.t != t {
            self.t = t;
            self.made = [false; 3];
        }
    }

    fn make(&mut self, row: usize) {
        let n = DEGREES[row];
        for k in 0..=n {
            let choose = CHOOSE[row][k as usize];
            if self.fits[row] {
                self.small[row][k as usize] = choose * (self.t as i64).pow(k) * ((self.ms - self.t) as i64).pow(n - k);
            } else {
                let (t, rest) = (self.t as i128, (self.ms - self.t) as i128);
                self.large[row][k as usize] = choose as i128 * t.pow(k) * rest.pow(n - k);
            }
        }
        self.made[row] = true;
    }

    fn value(&mut self, points: &[i64], scale: i64) -> i64 {
        let row = match points.len() {
            1 => return scale * points[0],
            2 => 0,
            4 => 1,
            _ => 2,
        };
        if !self.made[row] {
            self.make(row);
        }
        let n = DEGREES[row];
        if self.fits[row] {
            let sum: i64 = points.iter().zip(&self.small[row]).map(|(p, w)| p * w).sum();
            return (scale * sum).div_euclid((self.ms as i64).pow(n));
        }
        let whole = (self.ms as i128).pow(n);
        let sum: i128 = points.iter().zip(&self.large[row]).map(|(&p, w)| p as i128 * w).sum();
        let scale = scale as i128;
        (scale * sum.div_euclid(whole) + scale * sum.rem_euclid(whole) / whole) as i64
    }
}

const PAIRS: [[u8; 2]; 100] = {
    let mut pairs = [[0; 2]; 100];
    let mut k = 0;
    while k < 100 {
        pairs[k] = [b'0' + (k / 10) as u8, b'0' + (k % 10) as u8];
        k += 1;
    }
    pairs
};

/// Adds the digits of a number.
pub fn put(out: &mut Vec<u8>, v: i64) {
    let mut digits = [0u8; 20];
    let mut at = 20;
    let mut rest = v.unsigned_abs();
    while rest >= 10 {
        at -= 2;
        digits[at..at + 2].copy_from_slice(&PAIRS[(rest % 100) as usize]);
        rest /= 100;
    }
    if rest > 0 || at == 20 {
        at -= 1;
        digits[at] = b'0' + rest as u8;
    }
    if v < 0 {
        out.push(b'-');
    }
    out.extend_from_slice(&digits[at..]);
}

/// Writes the rows of drones.
pub fn write(drones: &mut [Drone], step: u64, sink: &mut impl Write) -> io::Result<()> {
    let end: u64 = drones[0].segments.iter().map(|it| it.ms).sum();
    let mut out = Vec::with_capacity(2 * BUFFER);
    let mut weights = Weights::of(1, 0);
    let mut instant = 0;
    loop {
        for drone in &mut *drones {
            let row = drone.at(instant, &mut weights);
            drone.put(instant, row, &mut out);
        }
        if out.len() >= BUFFER {
            sink.write_all(&out)?;
            out.clear();
        }
        if instant == end {
            return sink.write_all(&out);
        }
        instant = (instant + step).min(end);
    }
}
