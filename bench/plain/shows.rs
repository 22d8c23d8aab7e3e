//! A plain program that does what `check`, `certify`, `verify`, `compile`, `play`, `boxes`, `speed`, `dynamics`,
//! `explain` and `upload` do for shows of drones that hold or fly by `curve`, `move` and quarter circles, with any half
//! axes, stray and lateness, and the depth that stands where the words set none: for bench/time, which compares the two.
//! It stops at lines and trees that it doesn't know.
//!
//! It has one thread and no more than SSE2. The text is read once. Boxes of whole flights are asked before those of
//! cues, and these before curves. Directions are weighed four at a time in 32-bit floats, a place between two parts
//! once for both, and whole numbers decide where a sum is too near to what it must reach.
//!
//!     shows check|certify|compile|explain < SHOW
//!     shows play --step MS < SHOW
//!     shows speed|dynamics --depth D < SHOW
//!     shows verify < SHOW-AND-CERTIFICATE
//!     shows boxes < SHOW-AND-REGIONS
//!     shows upload < SHOW-AND-FRAMES
mod boxes;
mod curves;
mod directions;
mod fleet;
mod lanes;
mod motions;
mod nearest;
mod plans;
mod rows;
mod separation;
mod text;
mod upload;

use directions::Table;
use fleet::Show;
use std::io::{self, BufRead, Read, Write};
use text::Text;

/// The drones of a show as `play` flies them.
fn played(show: &Show) -> Vec<rows::Drone> {
    let segment = |(&ms, it): (&i64, &fleet::Segment)| {
        let points = |axis: usize| (0..=it.degree(axis)).map(|k| it.value(axis, k).into()).collect();
        rows::Segment { ms: ms as u64, axes: [points(0), points(1), points(2), vec![0]] }
    };
    let flight = |drone| show.times.iter().zip(show.flight(drone)).map(segment).collect();
    show.names.iter().enumerate().map(|(drone, name)| rows::Drone::new(name.as_bytes(), flight(drone))).collect()
}

/// The line on a show whose drones are apart.
fn passed(show: &Show) -> String {
    let (drones, cues, ms) = (show.drones(), show.cues(), show.times.iter().sum::<i64>());
    format!("ok drones {drones} cues {cues} duration_ms {ms}\n")
}

/// What a command writes at status 0, or the line of a refusal. Rows are written as they are made.
fn answer(command: &str, option: u32, mut text: Text) -> Result<Vec<u8>, String> {
    let show = Show::read(&mut text);
    assert!(text.is_done() || matches!(command, "verify" | "boxes"), "a show alone");
    match command {
        "speed" => return Ok(motions::speeds(&show, option).into_bytes()),
        "dynamics" => return Ok(motions::dynamics(&show, option).into_bytes()),
        "boxes" => return boxes::judged(&show, text).map(String::into_bytes),
        _ => {}
    }
    let table = Table::make(&show, motions::reach(&show));
    match command {
        "certify" => return separation::certificate(&show, &table),
        "verify" => return Ok(separation::verified(&show, &table, text).into_bytes()),
        _ => separation::check(&show, &table)?,
    }
    match command {
        "compile" => Ok(plans::plan(&show)),
        "explain" => Ok(format!("separated\n{}", nearest::closest(&show)).into_bytes()),
        "play" => {
            rows::write(&mut played(&show), option.into(), &mut io::stdout().lock()).expect("a sink");
            Ok(Vec::new())
        }
        _ => Ok(passed(&show).into_bytes()),
    }
}

/// Uploads a show whose text ends with a line of two percent signs. Frames come after it.
fn uploaded() -> io::Result<u8> {
    let (mut source, mut text, mut begin) = (io::stdin().lock(), Vec::new(), 0);
    while source.read_until(b'\n', &mut text)? > 0 && text[begin..] != *b"%%\n" {
        begin = text.len();
    }
    let show = Show::read(&mut Text::new(&text));
    separation::check(&show, &Table::make(&show, motions::reach(&show))).expect("a show that is separated");
    upload::run(&show, &mut source, &mut io::stdout().lock())
}

fn main() -> io::Result<()> {
    let words: Vec<String> = std::env::args().skip(1).collect();
    if words[0] == "upload" {
        std::process::exit(uploaded()?.into());
    }
    let option = words.get(2).map_or(0, |word| word.parse().expect("a number"));
    let mut input = Vec::new();
    io::stdin().read_to_end(&mut input)?;
    match answer(&words[0], option, Text::new(&input)) {
        Ok(out) => io::stdout().write_all(&out),
        Err(line) => {
            io::stdout().write_all(line.as_bytes())?;
            std::process::exit(line.split(' ').nth(1).and_then(|it| it.parse().ok()).expect("a status"))
        }
    }
}
