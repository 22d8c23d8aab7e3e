//! The host of an upload, without read-back and starts.
use crate::fleet::Show;
use crate::plans::load_of;
use std::io::{self, Read, Write};

const MOST_FRAMES: u32 = 4_000_000;

/// A drone's packets, which of them are acknowledged, their ticks, and the first write that isn't acknowledged.
struct Drone {
    packets: Vec<Vec<u8>>,
    writes: usize,
    acked: Vec<bool>,
    ticks: Vec<u8>,
    cursor: usize,
}

impl Drone {
    /// The packets that are in flight, at most four.
    fn flight(&self) -> impl Iterator<Item = usize> + '_ {
        let writes = (self.cursor..self.writes).filter(move |&k| !self.acked[k]).take(4);
        let define = (self.cursor == self.writes && !self.acked[self.writes]).then_some(self.writes);
        writes.chain(define)
    }

    /// The packet that an answer acknowledges.
    fn named(&self, answer: &[u8]) -> Option<usize> {
        let (port, least, key) = match answer[0] & 0xF3 {
            0x42 => (0x42, 7, 6),
            0x80 => (0x80, 5, 4),
            _ => return None,
        };
        if answer.len() < least {
            return None;
        }
        if port == 0x80 {
            let k = self.writes;
            return (self.packets[k][1..key] == answer[1..key]).then_some(k);
        }
        let first = u32::from_le_bytes(self.packets[0][2..6].try_into().ok()?);
        let address = u32::from_le_bytes(answer[2..6].try_into().ok()?);
        let k = address.checked_sub(first)? as usize / 24;
        (k < self.writes && self.packets[k][1..key] == answer[1..key]).then_some(k)
    }
}

struct Host {
    drones: Vec<Drone>,
    left: usize,
}

impl Host {
    fn send(&self, drone: usize, k: usize, out: &mut Vec<u8>) {
        let packet = &self.drones[drone].packets[k];
        out.extend_from_slice(&[0x50, drone as u8 + 1, packet.len() as u8]);
        out.extend_from_slice(packet);
    }

    fn send_all(&self, out: &mut Vec<u8>) {
        for (d, drone) in self.drones.iter().enumerate() {
            for k in drone.flight() {
                self.send(d, k, out);
            }
        }
    }

    fn tick(&mut self, out: &mut Vec<u8>) -> Option<u8> {
        let mut gave_up = false;
        for drone in &mut self.drones {
            let flight: Vec<usize> = drone.flight().collect();
            for k in flight {
                drone.ticks[k] += 1;
                gave_up |= drone.ticks[k] == 20;
            }
        }
        if gave_up {
            return Some(9);
        }
        self.send_all(out);
        None
    }

    fn hear(&mut self, d: usize, answer: &[u8], out: &mut Vec<u8>) -> Option<u8> {
        let drone = &mut self.drones[d];
        let k = drone.named(answer)?;
        if drone.acked[k] {
            return None;
        }
        if answer[if answer[0] & 0xF3 == 0x42 { 6 } else { 4 }] != 0 {
            return Some(10);
        }
        let mut before = [usize::MAX; 4];
        for (slot, it) in before.iter_mut().zip(drone.flight()) {
            *slot = it;
        }
        if !before.contains(&k) {
            return None;
        }
        drone.acked[k] = true;
        while drone.cursor < drone.writes && drone.acked[drone.cursor] {
            drone.cursor += 1;
        }
        self.left -= 1;
        if self.left == 0 {
            return Some(0);
        }
        let mut after = [usize::MAX; 4];
        for (slot, it) in after.iter_mut().zip(self.drones[d].flight()) {
            *slot = it;
        }
        for it in after {
            if it != usize::MAX && !before.contains(&it) {
                self.send(d, it, out);
            }
        }
        None
    }

    /// Takes a whole frame, a tick or a packet of a drone, and says whether the upload ends with it.
    #[inline(always)]
    fn take(&mut self, frame: &[u8], out: &mut Vec<u8>) -> Option<u8> {
        match frame {
            [_] => self.tick(out),
            [_, drone, _, answer @ ..] if usize::from(*drone) <= self.drones.len() => {
                self.hear(usize::from(*drone) - 1, answer, out)
            }
            _ => None,
        }
    }
}

fn host_of(show: &Show) -> Host {
    let drone = |drone| {
        let packets = load_of(show, drone);
        let count = packets.len();
        Drone { packets, writes: count - 1, acked: vec![false; count], ticks: vec![0; count], cursor: 0 }
    };
    let drones: Vec<Drone> = (0..show.drones()).map(drone).collect();
    let left = drones.iter().map(|it| it.packets.len()).sum();
    Host { drones, left }
}

/// How many bytes the next frame has, or none as long as that isn't known. It is an error if none begins so.
fn size_of(rest: &[u8]) -> Result<usize, ()> {
    match rest {
        [] | [0x50] | [0x50, 1..=32] => Ok(0),
        [0x54, ..] => Ok(1),
        [0x50, 1..=32, length @ 1..=31, ..] => Ok(3 + *length as usize),
        _ => Err(()),
    }
}

/// Uploads a show over a link, and says how that ended.
pub fn run(show: &Show, source: &mut impl Read, sink: &mut impl Write) -> io::Result<u8> {
    let mut host = host_of(show);
    let mut out = Vec::new();
    host.send_all(&mut out);
    let mut buffer = [0u8; 4096];
    let (mut begin, mut end, mut frames) = (0, 0, 0);
    let status = loop {
        let rest = &buffer[begin..end];
        let Ok(size) = size_of(rest) else { break 11 };
        if size == 0 || size > rest.len() {
            sink.write_all(&out)?;
            sink.flush()?;
            out.clear();
            buffer.copy_within(begin..end, 0);
            (begin, end) = (0, end - begin);
            let more = source.read(&mut buffer[end..])?;
            if more == 0 {
                break if end == 0 { 8 } else { 11 };
            }
            end += more;
            continue;
        }
        if let Some(status) = host.take(&rest[..size], &mut out) {
            break status;
        }
        begin += size;
        frames += 1;
        if frames == MOST_FRAMES {
            break 13;
        }
    };
    out.extend_from_slice(&[0x45, status]);
    sink.write_all(&out)?;
    Ok(status)
}
