//! The plan that `compile` writes: bytes of trajectories, and packets.
use crate::fleet::{Segment, Show};

const DIGITS: &[u8; 16] = b"0123456789ABCDEF";

/// The bytes of a trajectory. Yaw is 0 all the time.
fn bytes_of(pieces: &[(i64, &Segment)]) -> Vec<u8> {
    let mut out = Vec::with_capacity(4096);
    for v in pieces[0].1.begin() {
        out.extend_from_slice(&v.to_le_bytes());
    }
    for (ms, segment) in pieces {
        let degrees = [0, 1, 2].map(|axis| segment.degree(axis));
        // The kinds 0 to 3 have the degrees 0, 1, 3 and 7.
        let [x, y, z] = degrees.map(|degree| degree.count_ones() as u8);
        out.push(x | y << 2 | z << 4);
        out.extend_from_slice(&(*ms as u16).to_le_bytes());
        for axis in 0..3 {
            for k in 1..=degrees[axis] {
                out.extend_from_slice(&segment.value(axis, k).to_le_bytes());
            }
        }
    }
    out.extend_from_slice(&[0; 3]);
    out
}

/// Adds a line of bytes in hexadecimal digits.
fn put(word: &str, bytes: &[u8], out: &mut Vec<u8>) {
    out.extend_from_slice(word.as_bytes());
    let begin = out.len();
    out.resize(begin + 3 * bytes.len(), b' ');
    for (places, b) in out[begin..].chunks_exact_mut(3).zip(bytes) {
        places[1] = DIGITS[usize::from(b >> 4)];
        places[2] = DIGITS[usize::from(b & 15)];
    }
    out.push(b'\n');
}

/// Hands on the packets that load a trajectory, each with its word: writes, and last the one that defines it.
fn each_packet(show: &Show, data: &[u8], pieces: usize, mut take: impl FnMut(&str, &[u8])) {
    for (k, chunk) in data.chunks(24).enumerate() {
        let [a, b, c, d] = (show.offset + 24 * k as u32).to_le_bytes();
        let head = [0x4E, show.memory, a, b, c, d];
        take("write", &[&head, chunk].concat());
    }
    let [a, b, c, d] = show.offset.to_le_bytes();
    take("define", &[0x8C, 6, 0, 1, 1, a, b, c, d, pieces as u8]);
}

/// The packets that load the trajectory of a drone.
pub fn load_of(show: &Show, drone: usize) -> Vec<Vec<u8>> {
    let (pieces, mut packets) = (show.pieces(drone), Vec::new());
    each_packet(show, &bytes_of(&pieces), pieces.len(), |_, packet| packets.push(packet.to_vec()));
    packets
}

/// The text of the plan of a show.
pub fn plan(show: &Show) -> Vec<u8> {
    let mut out = b"plan 1\n".to_vec();
    for (drone, name) in show.names.iter().enumerate() {
        let pieces = show.pieces(drone);
        let data = bytes_of(&pieces);
        out.extend_from_slice(b"drone ");
        out.extend_from_slice(name.as_bytes());
        out.extend_from_slice(format!(" bytes {} pieces {}\n", data.len(), pieces.len()).as_bytes());
        put("data", &data, &mut out);
        each_packet(show, &data, pieces.len(), |word, packet| put(word, packet, &mut out));
        put("start", &[0x8C, 5, 0, 0, 0, 0, 0, 0, 0x80, 0x3F], &mut out);
    }
    out.extend_from_slice(b"end\n");
    out
}
