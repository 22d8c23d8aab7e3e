//! Judges shows of drones in this process. What the C function promises is proved; that this file declares it rightly
//! isn't.

use std::ffi::c_void;

extern "C" {
    fn hemtoghai_run(
        words: *const c_void,
        words_length: usize,
        input: *const c_void,
        input_length: usize,
        output: *mut c_void,
        output_length: usize,
        size: *mut usize,
    ) -> u8;
}

/// The status of an answer for which there is no room.
const NO_ROOM: u8 = 7;

/// The status of a command, as docs/COMMANDS.md has it, and all that it wrote. It is 1, and nothing is written, where the
/// library is out of memory.
#[derive(Clone, Debug, PartialEq, Eq)]
pub struct Verdict {
    pub status: u8,
    pub output: Vec<u8>,
}

/// The verdict of a command, as `"compile --depth 4"`, over an input.
#[must_use]
pub fn run(words: &str, input: &[u8]) -> Verdict {
    let mut output = vec![0u8; 4096];
    loop {
        let mut size = 0usize;
        // SAFETY: each pointer and length are those of one slice that lives for the call. `output` and `size` are
        // borrowed mutably, so they share no byte with the others. Rust's pointers are never null.
        let status = unsafe {
            hemtoghai_run(
                words.as_ptr().cast(),
                words.len(),
                input.as_ptr().cast(),
                input.len(),
                output.as_mut_ptr().cast(),
                output.len(),
                &mut size,
            )
        };
        if status == NO_ROOM {
            output.resize(size, 0);
            continue;
        }
        output.truncate(size);
        return Verdict { status, output };
    }
}

#[cfg(test)]
mod tests {
    use super::run;

    const SHOW: &[u8] =
        b"choreo 1\ndrone solo 0 0 1000000 0\ncue 2000\nsolo move 1000000 0 1000000 0\nend\n";

    #[test]
    fn a_show_is_accepted() {
        let verdict = run("check", SHOW);
        assert_eq!(verdict.status, 0);
        assert_eq!(verdict.output, b"ok drones 1 cues 1 duration_ms 2000\n");
    }

    #[test]
    fn a_long_answer_comes_whole() {
        let verdict = run("play --step 1", SHOW);
        assert_eq!(verdict.status, 0);
        assert!(verdict.output.starts_with(b"0 solo 0 0 1000000 0\n"));
        assert!(verdict.output.ends_with(b"2000 solo 1000000 0 1000000 0\n"));
        assert_eq!(
            verdict.output.iter().filter(|byte| **byte == b'\n').count(),
            2001
        );
    }

    #[test]
    fn no_command() {
        assert_eq!(run("fly", SHOW).output, b"error 2 usage\n");
    }
}
