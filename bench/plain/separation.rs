//! The search for directions, and certificates.
use crate::directions::{points_of, rows_of, Likely, Pair, Points, Raised, Rows, Table, MOST_DEPTH};
use crate::fleet::Show;
use crate::lanes::Four;
use crate::text::Text;

const DEPTH: u32 = 6;

/// A node of a tree: a part that is split, or one that this direction separates.
enum Node {
    Split,
    Leaf(usize),
}

/// The halves of a part. Neighbours are added, and sums of so many control values are divided by how many they are.
fn halves_of(part: &Points) -> [Points; 2] {
    let (mut row, mut left, mut right) = (*part, *part, *part);
    for k in 1..8 {
        for j in 0..8 - k {
            row[j] = row[j] + row[j + 1];
        }
        let share = Four::all(1.0 / (1 << k) as f32);
        (left[k], right[7 - k]) = (row[0] * share, row[7 - k] * share);
    }
    [left, right]
}

/// The places at both ends of a whole cue.
fn ends_of(rows: &Rows) -> [[Four; 3]; 2] {
    [rows.map(|row| row[0].spread::<0>()), rows.map(|row| row[1].spread::<255>())]
}

/// A search over a pair of drones in a cue, and where its nodes go.
struct Search<'a, F> {
    table: &'a Table,
    pair: &'a Pair<'a>,
    note: F,
}

impl<F: FnMut(Node)> Search<'_, F> {
    /// Notes the tree of the cue, or finds the first part of the greatest depth that no direction separates.
    fn whole(&mut self) -> Result<(), u32> {
        let rows = &self.pair.rows;
        let separates = |k: usize| self.table.directions[k].separates(self.pair, rows, 0, 0);
        if let Some(k) = self.table.first(ends_of(rows), separates) {
            (self.note)(Node::Leaf(k));
            return Ok(());
        }
        self.split(&points_of(rows), 0, 0, ends_of(rows).map(|end| self.table.likely(end)))
    }

    /// The same where whole cues mostly have no direction: both ends are weighed once, along all directions.
    fn near(&mut self) -> Result<(), u32> {
        let rows = &self.pair.rows;
        let ends = ends_of(rows).map(|end| self.table.likely(end));
        if self.is_separated(rows, 0, 0, ends[0].and(ends[1])) {
            return Ok(());
        }
        self.split(&points_of(rows), 0, 0, ends)
    }

    /// The same for a part, by its depth, its index and the directions that are likely at its ends.
    fn part(&mut self, part: &Points, depth: u32, index: u32, ends: [Likely; 2]) -> Result<(), u32> {
        let likely = ends[0].and(ends[1]);
        if !likely.is_none() && self.is_separated(&rows_of(part), depth, index, likely) {
            return Ok(());
        }
        if depth == DEPTH {
            return Err(index);
        }
        self.split(part, depth, index, ends)
    }

    fn split(&mut self, part: &Points, depth: u32, index: u32, ends: [Likely; 2]) -> Result<(), u32> {
        (self.note)(Node::Split);
        let [left, right] = halves_of(part);
        let middle = right[0];
        let middle = self.table.likely([middle.spread::<0>(), middle.spread::<85>(), middle.spread::<170>()]);
        self.part(&left, depth + 1, 2 * index, [ends[0], middle])?;
        self.part(&right, depth + 1, 2 * index + 1, [middle, ends[1]])
    }

    /// Notes the first of some directions that separates a part, if one does.
    fn is_separated(&mut self, rows: &Rows, depth: u32, index: u32, mut likely: Likely) -> bool {
        let found = likely.find(|&k| self.table.directions[k].separates(self.pair, rows, depth, index));
        if let Some(k) = found {
            (self.note)(Node::Leaf(k));
        }
        found.is_some()
    }
}

/// All pairs of drones.
fn pairs(drones: usize) -> impl Iterator<Item = (usize, usize)> {
    (0..drones).flat_map(move |a| (a + 1..drones).map(move |b| (a, b)))
}

/// The raised curves of a drone, cue by cue.
fn raised_of(show: &Show, drone: usize) -> Vec<Raised> {
    show.flight(drone).map(|it| [it.raised(0), it.raised(1), it.raised(2)]).collect()
}

/// The line on the first part of a cue that no direction separates.
fn refusal(show: &Show, a: usize, b: usize, cue: usize, index: u32) -> String {
    let (a, b, cue, parts) = (&show.names[a], &show.names[b], cue + 1, 1 << DEPTH);
    format!("error 5 pair {a} {b} cue {cue} part {index} of {parts}\n")
}

/// Whether all drones are apart at all times, or else where they aren't. Curves are raised where boxes don't tell
/// enough, and the direction that separated last is asked first.
pub fn check(show: &Show, table: &Table) -> Result<(), String> {
    let (mut raised, mut last) = (vec![None; show.drones()], 0);
    for (a, b) in pairs(show.drones()) {
        if show.bounds[a].are_far(&show.bounds[b], &table.gaps) {
            continue;
        }
        for drone in [a, b] {
            raised[drone].get_or_insert_with(|| raised_of(show, drone));
        }
        let (Some(first), Some(second)) = (&raised[a], &raised[b]) else { unreachable!("both are raised") };
        for cue in 0..show.cues() {
            if show.segment(a, cue).bounds.are_far(&show.segment(b, cue).bounds, &table.gaps) {
                continue;
            }
            let pair = Pair::new(&first[cue], &second[cue]);
            if !table.directions[last].separates(&pair, &pair.rows, 0, 0) {
                let note = |node| if let Node::Leaf(k) = node { last = k };
                Search { table, pair: &pair, note }.near().map_err(|index| refusal(show, a, b, cue, index))?;
            }
        }
    }
    Ok(())
}

/// The certificate of a show, or where a part of a cue is blocked.
pub fn certificate(show: &Show, table: &Table) -> Result<Vec<u8>, String> {
    let mut out = format!("version 2\ncertificate {DEPTH}\n").into_bytes();
    let raised: Vec<Vec<Raised>> = (0..show.drones()).map(|drone| raised_of(show, drone)).collect();
    for (a, b) in pairs(show.drones()) {
        for (cue, (first, second)) in raised[a].iter().zip(&raised[b]).enumerate() {
            let note = |node| match node {
                Node::Split => out.push(b'.'),
                Node::Leaf(k) => out.extend_from_slice(&[b'0' + k as u8 / 10, b'0' + k as u8 % 10]),
            };
            let pair = &Pair::new(first, second);
            Search { table, pair, note }.whole().map_err(|index| refusal(show, a, b, cue, index))?;
            out.push(b'\n');
        }
    }
    Ok(out)
}

/// A certificate that is being read, and the greatest depth of its parts.
struct Judge<'a> {
    table: &'a Table,
    text: Text<'a>,
    most: u32,
}

impl Judge<'_> {
    /// The next node of a tree.
    fn node(&mut self) -> Node {
        match self.text.byte() {
            b'.' => Node::Split,
            tens @ b'0'..=b'9' => match self.text.byte() {
                ones @ b'0'..=b'9' => Node::Leaf(usize::from(10 * (tens - b'0') + ones - b'0')),
                _ => panic!("a direction"),
            },
            _ => panic!("a node"),
        }
    }

    /// Whether the nodes that come next are a valid tree of a cue.
    fn is_valid(&mut self, pair: &Pair) -> bool {
        match self.node() {
            Node::Leaf(k) => self.table.directions[k].separates(pair, &pair.rows, 0, 0),
            Node::Split => self.are_valid(pair, &points_of(&pair.rows), 0, 0),
        }
    }

    /// Whether those that come next are valid trees of both halves of a part, by its depth and its index.
    fn are_valid(&mut self, pair: &Pair, part: &Points, depth: u32, index: u32) -> bool {
        depth < self.most
            && halves_of(part).iter().zip(2 * index..).all(|(half, index)| match self.node() {
                Node::Leaf(k) => self.table.directions[k].separates(pair, &rows_of(half), depth + 1, index),
                Node::Split => self.are_valid(pair, half, depth + 1, index),
            })
    }
}

/// The line on a certificate, which must be valid.
pub fn verified(show: &Show, table: &Table, mut text: Text) -> String {
    assert!(text.word() == b"version" && text.word() == b"2", "a certificate of version 2");
    text.end_line();
    assert!(text.word() == b"certificate", "a depth");
    let most = text.number(0, MOST_DEPTH.into()) as u32;
    text.end_line();
    let mut judge = Judge { table, text, most };
    let raised: Vec<Vec<Raised>> = (0..show.drones()).map(|drone| raised_of(show, drone)).collect();
    let mut trees = 0;
    for (a, b) in pairs(show.drones()) {
        for (first, second) in raised[a].iter().zip(&raised[b]) {
            assert!(judge.is_valid(&Pair::new(first, second)), "a tree that is valid");
            assert!(judge.text.byte() == b'\n', "no more than a tree");
            trees += 1;
        }
    }
    assert!(judge.text.is_done(), "no more trees");
    format!("valid depth {most} trees {trees}\n")
}
