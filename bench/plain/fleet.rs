//! A show as its text says it, and what its drones fly.
use crate::curves::{raised, Curve};
use crate::lanes::extent;
use crate::text::{Text, MICROMETRES, MILLIMETRES, MILLISECONDS};

/// Millimetres on x, y and z. The fourth number is 0, so that four lanes hold a place.
pub type Place = [i16; 4];

/// The least and the greatest value on each axis, in millimetres.
#[derive(Clone, Copy)]
pub struct Bounds {
    pub low: Place,
    pub high: Place,
}

impl Bounds {
    const NONE: Bounds = Bounds { low: [i16::MAX; 4], high: [i16::MIN; 4] };

    fn with(self, other: Bounds) -> Bounds {
        Bounds {
            low: std::array::from_fn(|axis| self.low[axis].min(other.low[axis])),
            high: std::array::from_fn(|axis| self.high[axis].max(other.high[axis])),
        }
    }

    fn of(points: &[Place]) -> Bounds {
        let (fours, _) = points.as_chunks();
        let each = |four| Bounds::from(extent(four));
        fours.iter().map(each).fold(Bounds::NONE, Bounds::with)
    }

    fn from([low, high]: [Place; 2]) -> Bounds {
        Bounds { low, high }
    }

    /// Whether they are apart by at least as much as this on some axis.
    pub fn are_far(&self, other: &Bounds, gaps: &[i32; 3]) -> bool {
        (0..3).any(|axis| {
            let [low, high] = [self.low[axis], self.high[axis]].map(i32::from);
            (i32::from(other.low[axis]) - high).max(low - i32::from(other.high[axis])) >= gaps[axis]
        })
    }

    /// As whole numbers by axis.
    pub fn rows(&self) -> [[i64; 2]; 3] {
        std::array::from_fn(|axis| [self.low[axis].into(), self.high[axis].into()])
    }
}

/// What a drone flies in a cue: its control points up to the last of its degree, three or seven.
#[derive(Clone, Copy)]
pub struct Segment {
    points: [Place; 8],
    last: usize,
    pub bounds: Bounds,
}

impl Segment {
    fn hold(at: Place) -> Segment {
        Segment { points: [at; 8], last: 3, bounds: Bounds { low: at, high: at } }
    }

    fn end(&self) -> Place {
        self.points[self.last]
    }

    /// Whether it moves on an axis.
    pub fn moves(&self, axis: usize) -> bool {
        self.bounds.low[axis] < self.bounds.high[axis]
    }

    fn holds(&self) -> bool {
        self.bounds.low == self.bounds.high
    }

    pub fn begin(&self) -> Place {
        self.points[0]
    }

    /// Its degree on an axis.
    pub fn degree(&self, axis: usize) -> usize {
        if self.moves(axis) { self.last } else { 0 }
    }

    /// A control value on an axis: there are as many as its degree and one more.
    pub fn value(&self, axis: usize, k: usize) -> i16 {
        self.points[k][axis]
    }

    /// Its control values of degree seven on an axis, times 5,040.
    pub fn raised(&self, axis: usize) -> Curve<i32> {
        let values = self.points.map(|point| i32::from(point[axis]));
        if self.last == 7 { values.map(|v| 5040 * v) } else { raised(&values[..4]) }
    }
}

pub struct Show {
    /// The half axes to the side and up and down, and how far drones stray, in millimetres; how late, in milliseconds.
    pub r: i64,
    pub h: i64,
    pub stray: i64,
    pub late: i64,
    /// Which memory the trajectories are written into, and where they begin in it.
    pub memory: u8,
    pub offset: u32,
    pub names: Vec<String>,
    /// The milliseconds of each cue.
    pub times: Vec<i64>,
    /// The bounds of each flight.
    pub bounds: Vec<Bounds>,
    starts: Vec<Place>,
    /// By cue, and in each by drone.
    segments: Vec<Segment>,
    /// The drone whose act is likely to come next.
    next: usize,
}

/// A trajectory as it is sent has at most so many pieces, of at most so many milliseconds each; a memory has so many
/// bytes.
const MOST_PIECES: usize = 255;
const LONGEST_PIECE: i64 = 65_535;
const MEMORY: usize = 4096;

/// The next number of micrometres in millimetres, halves up.
#[inline(always)]
fn millimetres(text: &mut Text) -> i16 {
    // Made positive, so that the quotient is rounded down.
    let micrometres = text.quantity(-100_000_000, 100_000_000, MICROMETRES) + 100_000_500;
    i16::try_from((micrometres as u32 / 1000) as i32 - 100_000).expect("a coordinate that fits")
}

#[inline(never)]
fn place(text: &mut Text) -> Place {
    let mut place = [0; 4];
    for v in &mut place[..3] {
        *v = millimetres(text);
    }
    place
}

/// The next half axis in millimetres.
fn axis(text: &mut Text) -> i64 {
    text.quantity(1, 2000, MILLIMETRES)
}

/// The millionths of the ways from the centre to the start and to the end in each control point of a quarter circle.
type Shares = [[i64; 8]; 2];
const ARC: Shares = [[1_000_000, 1_000_000, 552_285, 0, 0, 0, 0, 0], [0, 552_285, 1_000_000, 1_000_000, 0, 0, 0, 0]];
const SWING: Shares = [
    [1_000_000, 1_000_000, 1_000_000, 1_063_179, 696_647, 0, 0, 0],
    [0, 0, 0, 696_647, 1_063_179, 1_000_000, 1_000_000, 1_000_000],
];
const ARC_IN: Shares = [
    [1_000_000, 1_000_000, 1_000_144, 993_507, 974_935, 785_073, 473_387, 0],
    [0, 0, 114_406, 186_897, 507_934, 741_519, 1_000_000, 1_000_000],
];
const ARC_OUT: Shares = [
    [1_000_000, 1_000_000, 741_519, 507_934, 186_897, 114_406, 0, 0],
    [0, 473_387, 785_073, 974_935, 993_507, 1_000_144, 1_000_000, 1_000_000],
];

/// The control points of a quarter circle whose start and centre have whole millimetres, and the last of its degree.
#[inline(never)]
fn quarter(act: &[u8], start: Place, text: &mut Text) -> ([Place; 8], usize) {
    let (shares, last) = match act {
        b"arc" => (ARC, 3),
        b"swing" => (SWING, 7),
        b"arc_in" => (ARC_IN, 7),
        b"arc_out" => (ARC_OUT, 7),
        _ => panic!("an act that is known"),
    };
    let is_left = match text.word() {
        b"ccw" => true,
        b"cw" => false,
        _ => panic!("a sense that is known"),
    };
    let centre = [(); 2].map(|()| text.quantity(-100_000_000, 100_000_000, MICROMETRES));
    assert!(centre.iter().all(|v| v % 1000 == 0), "a centre in whole millimetres");
    let [x, y] = [0, 1].map(|axis| 1000 * i64::from(start[axis]) - centre[axis]);
    let end = if is_left { [-y, x] } else { [y, -x] };
    let mut points = [start; 8];
    for k in 0..=last {
        for (axis, from, to) in [(0, x, end[0]), (1, y, end[1])] {
            let share = |share: i64, way: i64| (share * way + 500_000).div_euclid(1_000_000);
            let micrometres = centre[axis] + share(shares[0][k], from) + share(shares[1][k], to);
            points[k][axis] = i16::try_from((micrometres + 500).div_euclid(1000)).expect("a coordinate that fits");
        }
    }
    (points, last)
}

fn no_yaw(text: &mut Text) {
    assert!(text.word() == b"0", "a yaw of 0");
}

impl Show {
    /// The show that a text stands for, up to a line of two percent signs.
    pub fn read(text: &mut Text) -> Show {
        let (names, starts, times, segments, bounds) = (Vec::new(), Vec::new(), Vec::new(), Vec::new(), Vec::new());
        let (r, h, stray, late, memory, offset, next) = (120, 300, 0, 0, 2, 0, 0);
        let mut show = Show { r, h, stray, late, memory, offset, names, times, bounds, starts, segments, next };
        while !text.is_done() {
            match text.word() {
                b"%%" => {
                    text.end_line();
                    break;
                }
                word => show.line(word, text),
            }
            text.end_line();
        }
        let bounds = |drone| show.flight(drone).fold(Bounds::NONE, |all, it| all.with(it.bounds));
        show.bounds = (0..show.drones()).map(bounds).collect();
        assert!((0..show.drones()).all(|drone| show.fits(drone)), "trajectories that fit into the memory");
        show
    }

    /// Reads the rest of a line with this first word.
    fn line(&mut self, word: &[u8], text: &mut Text) {
        match word {
            b"" | b"end" => {}
            b"choreo" => text.has_units = text.word() == b"2",
            b"memory" => (self.memory, self.offset) = (text.number(0, 255) as u8, text.number(0, 4095) as u32),
            b"ellipsoid" => (self.r, self.h) = (axis(text), axis(text)),
            b"stray" => self.stray = text.quantity(0, 1000, MILLIMETRES),
            b"late" => self.late = text.quantity(0, 1000, MILLISECONDS),
            b"drone" => {
                assert!(self.times.is_empty(), "drones before cues");
                self.names.push(String::from_utf8_lossy(text.word()).into_owned());
                self.starts.push(place(text));
                no_yaw(text);
            }
            b"cue" => self.begin_cue(text.quantity(1, 65_535, MILLISECONDS)),
            name => self.act(name, text),
        }
    }

    /// Adds a cue in which all drones hold.
    fn begin_cue(&mut self, ms: i64) {
        let last = self.segments.len().saturating_sub(self.drones());
        for drone in 0..self.drones() {
            let at = self.segments.get(last + drone).map_or(self.starts[drone], Segment::end);
            self.segments.push(Segment::hold(at));
        }
        self.times.push(ms);
        self.next = 0;
    }

    /// Reads the act of a drone into its place in the last cue.
    fn act(&mut self, name: &[u8], text: &mut Text) {
        let is_next = self.names.get(self.next).is_some_and(|it| it.as_bytes() == name);
        let drone = if is_next { Some(self.next) } else { self.names.iter().position(|it| it.as_bytes() == name) };
        let drone = drone.expect("a line that is known");
        let first = self.segments.len().checked_sub(self.drones()).expect("a cue");
        let segment = &mut self.segments[first + drone];
        match text.word() {
            b"curve" => segment.points[1..4].fill_with(|| place(text)),
            b"move" => {
                segment.points[4..].fill(place(text));
                segment.last = 7;
            }
            act => (segment.points, segment.last) = quarter(act, segment.points[0], text),
        }
        no_yaw(text);
        segment.bounds = Bounds::of(&segment.points[..=segment.last]);
        self.next = drone + 1;
    }

    pub fn drones(&self) -> usize {
        self.names.len()
    }

    pub fn cues(&self) -> usize {
        self.times.len()
    }

    /// The segments of a drone.
    pub fn flight(&self, drone: usize) -> impl Iterator<Item = &Segment> {
        self.segments[drone.min(self.segments.len())..].iter().step_by(self.drones())
    }

    /// No two drones are farther apart on an axis, in millimetres.
    pub fn widest(&self) -> i64 {
        let all = self.bounds.iter().fold(Bounds::NONE, |all, it| all.with(*it));
        all.rows().map(|[low, high]| high - low).into_iter().fold(0, i64::max)
    }

    /// What all drones fly, cue by cue, with the milliseconds.
    pub fn flown(&self) -> impl Iterator<Item = (i64, &Segment)> {
        let cues = self.times.iter().zip(self.segments.chunks(self.drones().max(1)));
        cues.flat_map(|(&ms, cue)| cue.iter().map(move |segment| (ms, segment)))
    }

    /// What a drone flies in a cue.
    pub fn segment(&self, drone: usize, cue: usize) -> &Segment {
        &self.segments[cue * self.drones() + drone]
    }

    /// The pieces that a drone is sent with their milliseconds, holds joined.
    pub fn pieces(&self, drone: usize) -> Vec<(i64, &Segment)> {
        let mut out: Vec<(i64, &Segment)> = Vec::with_capacity(self.cues());
        for (&ms, segment) in self.times.iter().zip(self.flight(drone)) {
            match out.last_mut() {
                Some((all, last)) if last.holds() && segment.holds() && *all + ms <= LONGEST_PIECE => *all += ms,
                _ => out.push((ms, segment)),
            }
        }
        out
    }

    /// Whether a drone's trajectory fits into its memory.
    fn fits(&self, drone: usize) -> bool {
        let pieces = self.pieces(drone);
        let size = |it: &Segment| 3 + 2 * (0..3).map(|axis| it.degree(axis)).sum::<usize>();
        let bytes = 11 + pieces.iter().map(|(_, it)| size(it)).sum::<usize>();
        bytes + self.offset as usize <= MEMORY && pieces.len() <= MOST_PIECES
    }
}
