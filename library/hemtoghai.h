/* hemtoghai.h: judges shows of Crazyflie drones in your own process.
 *
 * One function answers every command of the program `show`, over bytes in memory. `input` is what the program would
 * read from standard input, `output` takes what it would write, and its status is returned. docs/COMMANDS.md has the
 * commands, their output and each status; docs/LANGUAGE.md has the language of shows; docs/CALLING.md has programs in
 * C, C++ and Rust.
 *
 *     char line[256];
 *     size_t size;
 *     uint8_t status = hemtoghai_run("check", 5, text, text_length, line, sizeof line, &size);
 *     if (status == HEMTOGHAI_DONE) puts("the drones keep apart");
 *
 * What a status says, and what is proved: the contract of hemtoghai_run in crates/hemtoghai/src/lib.rt. Its clauses
 * stand in brackets here. "The show" is the one whose text stands in `input` before the marker line, if there is one.
 * A drone's "curve" is that of the trajectory that it is sent.
 *
 * - 0 of check, compile, certify, play, report, verify, rehearse and upload: the text is that of a show. At every
 *   instant each drone's curve is within half a millimetre of what the text says, on each of x, y and z, and its yaw is
 *   equal. The ellipsoids around any two drones share no point at any instant, while each is within the show's `stray`
 *   of its curve and no two are further apart in time than its `late` (flies). Each upload of that show goes right,
 *   with the drone and the link of docs/RADIO.md (uploads).
 * - 0 of compile: the first `*size` bytes of `output` are the plan of trajectories of which that holds (headline).
 * - upload, whatever the status: where the answer begins with a packet, the same holds of the show (begun). So it is
 *   where neither `*size` nor `output_length` is 0 and the first byte of `output` is 'P'.
 * - 0 of drill: the show that drill makes flies near and apart, as above (drilled).
 * - 0 of boxes, speed, explain and dynamics: the text is that of a show, and curves are as near to it as above
 *   (behaves). **These four return 0 for drones that collide, too.** They say:
 *   - boxes: at every instant each drone's curve, with `stray` and the half axes of its ellipsoid added to each side,
 *     is outside of every keepout and inside of every volume of the regions (regions).
 *   - speed: between any two instants a curve moves along x, y or z by at most the drone's bound in `output` times the
 *     time between them, and no bound is above the limit (speeds).
 *   - explain: where `output` begins with the line "separated", any two drones keep apart as above. A touch that it
 *     names is one: there the ellipsoids around two drones share a point while both are where their curves are, and at
 *     none of the listed instants before it do any two. Where it has "no-touch", no two do at any listed instant
 *     (touches). docs/COMMANDS.md says which instants are listed.
 *   - dynamics: within each segment the speed of a curve along x, y or z changes by at most the drone's bound in
 *     `output` times the time. No jump of speed between two segments, at the beginning or at the end is greater than
 *     the one there, and neither is above its limit (motions).
 * - 0 of help and version says nothing of a show. What 0 of direct says is proved of the program alone (`run`).
 * - An input has one answer: two calls with the same words, in UTF-8, and the same input, neither of which ends with 1,
 *   differ in nothing but where a room is too small. An input without a fault gets 0, unless that is 1 or 7. A status
 *   other than 0, 1, 7 and 17 is that of the program's first cause, and `output` has its line, or of upload its end
 *   frame (behaves, outcomes, usage).
 * - 7 only where `output` is too small. Then it has the first `output_length` bytes of the answer. At every other
 *   status all `*size` bytes of the answer are in `output`, and the bytes after them stay as they were (no_room, whole,
 *   behaves, usage).
 * - 17 only where a word isn't UTF-8. At 1 and 17 `*size` is 0 and `output` is as it was (memory, no_words).
 * - There is no status 6, and none above 20 (read, known).
 * - The call returns, and touches no memory of yours but `output` and `*size`.
 *
 * What is not proved: that memory ran out where the status is 1; how long a call takes; what stands under "Stack" and
 * "What a caller owes"; and this header. docs/CALLING.md says what else is trusted, and docs/PROMISES.md what is
 * assumed of drones.
 *
 * Threads. A call has no state but its arguments and the blocks that it takes from malloc, all of which it frees before
 * it returns. So any number of threads may call at once, each with an `output` and a `size` of its own.
 *
 * Stack. Every command on every example took at most 60 KiB, measured. Give a thread 256 KiB.
 *
 * Processor. x86-64 with the instructions of x86-64-v2.
 */
#ifndef HEMTOGHAI_H
#define HEMTOGHAI_H

#include <stddef.h>
#include <stdint.h>

#ifdef __cplusplus
extern "C" {
#endif

/* The version of this header. */
#define HEMTOGHAI_VERSION_MAJOR 0
#define HEMTOGHAI_VERSION_MINOR 2
#define HEMTOGHAI_VERSION_PATCH 0
#define HEMTOGHAI_VERSION \
    (HEMTOGHAI_VERSION_MAJOR * 65536 + HEMTOGHAI_VERSION_MINOR * 256 + HEMTOGHAI_VERSION_PATCH)

/* The statuses: the program's, but for three. 7 is of a room that is too small, and 17 of words that aren't UTF-8; 6
 * never comes, since no read fails. */
enum hemtoghai_status {
    HEMTOGHAI_DONE = 0,             /* what stands above for the command; the whole answer is in `output` */
    HEMTOGHAI_NO_MEMORY = 1,        /* out of memory: `*size` is 0, and `output` is as it was */
    HEMTOGHAI_USAGE = 2,            /* the words are no command */
    HEMTOGHAI_NO_SHOW = 3,          /* the show's text is faulty or too large */
    HEMTOGHAI_TOO_MUCH = 4,         /* a drone's trajectory doesn't fit its memory */
    HEMTOGHAI_BLOCKED = 5,          /* two drones may come too near: the answer names them and the part of the cue */
    HEMTOGHAI_NO_ROOM = 7,          /* the answer has more bytes than `output`: its status is not known */
    HEMTOGHAI_ENDED = 8,            /* the schedule or the frames ended before the upload or the flight did */
    HEMTOGHAI_GAVE_UP = 9,          /* no drone acknowledged a packet in time */
    HEMTOGHAI_REFUSED = 10,         /* a drone refused a packet */
    HEMTOGHAI_FAULTY = 11,          /* the second text, or a frame, is faulty or too large */
    HEMTOGHAI_NOT_VALID = 12,       /* the certificate isn't valid */
    HEMTOGHAI_TOO_MANY_FRAMES = 13, /* an upload takes no more frames */
    HEMTOGHAI_DIFFERS = 14,         /* read-back found other bytes than were sent */
    HEMTOGHAI_ENTERS = 15,          /* a drone may enter a region */
    HEMTOGHAI_TOO_FAST = 16,        /* a drone may be faster than the limit */
    HEMTOGHAI_NO_WORDS = 17,        /* a word isn't UTF-8: `*size` is 0, and `output` is as it was */
    HEMTOGHAI_TOO_ABRUPT = 18,      /* an acceleration or a jump of speed may be above the limit */
    HEMTOGHAI_NO_FLIGHT = 19,       /* a way up, a show and a way down are no flight */
    HEMTOGHAI_NOT_FLOWN = 20        /* the flight wasn't flown whole, or a drone was off its curve or silent */
};

/* Answers a command, and returns the status.
 *
 * words, words_length    the command with its options, as "compile --depth 4". Every byte from 0 to 32 separates
 *                        words, so a zero byte at the end may be counted or not.
 * input, input_length    what the command reads: a show; for `verify`, `rehearse`, `boxes` and `upload` then a marker
 *                        line "%%" and the second part; for `direct` three shows, a marker line after each, and
 *                        frames. `help`, `version` and `drill` read nothing.
 * output, output_length  where the answer goes, without a zero byte at its end. It may be uninitialised.
 * size                   gets the bytes of the answer, also where `output` has room for fewer.
 *
 * At 7 call again, with the same words and input and room for `*size` bytes. `check` answers with one line.
 *
 * What a caller owes:
 * - Each pointer is to as many bytes as its length says, and `size` to an aligned size_t. A length is below 2^63. Where
 *   a length is 0 the pointer may be null; that was tried, and no proof speaks of null.
 * - `output` and `*size` share no byte with each other, nor with `words` or `input`. Nobody else reads or writes them
 *   during the call, nor writes `words` or `input`. The library keeps no pointer after it.
 * - malloc, realloc and free are of one allocator, whose blocks are aligned to 16, as in every C library.
 * - The call isn't made by a signal handler, nor in a forked child of a process that has threads.
 */
uint8_t hemtoghai_run(const void *words, size_t words_length, const void *input, size_t input_length, void *output,
                      size_t output_length, size_t *size);

/* The version of the library, as HEMTOGHAI_VERSION is that of the header. */
uint32_t hemtoghai_version(void);

#ifdef __cplusplus
}
#endif

#endif
