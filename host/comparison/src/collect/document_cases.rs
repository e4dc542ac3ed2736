//! Cases with their answers from request 1: a command, the responses to it, and what comes after each. They are told by
//! the bytes that are sent, not by the numbers of a state.

use gorvisclen::{Collection, Refused, COLLECT_NUMBERS, EXTENDED_FORCED, EXTENDED_SUPPORTED, SHORT_ONLY};

use crate::answer::Writes;
use crate::call::{call, Call, Input};
use crate::tally::{Labels, Tally};

const LABELS: Labels = ("collect, case by case (checked against document 02)", &[]);

/// What comes after a response.
#[derive(Clone, Copy, Debug)]
enum After {
    /// These bytes are to be sent.
    Send(&'static [u8]),
    /// It ended with this status and so many bytes.
    Done([u8; 2], u8),
    Refused(u8),
}
use After::{Done, Refused as No, Send};

/// A command: header, expected length, data.
type Command = ([u8; 4], u32, &'static [u8]);

/// A case: the command, its modes, what comes after each response, and the room at the end, which was all EE.
type Case = (Command, &'static [u8], &'static [(&'static [u8], After)], &'static [u8]);

const NAME: &[u8] = &[0xA0, 0x00, 0x00, 0x00, 0x03];
const SELECT: Command = ([0x00, 0xA4, 0x04, 0x00], 256, NAME);
const SELECT_WITHOUT_LE: Command = ([0x00, 0xA4, 0x04, 0x00], 0, NAME);
const READ: Command = ([0x00, 0xB0, 0x00, 0x00], 16, &[]);
/// A class with chaining bit, secure messaging and channel.
const CHAINED: Command = ([0x1D, 0xB0, 0x01, 0x02], 0, &[]);

const ALL: &[u8] = &[SHORT_ONLY, EXTENDED_SUPPORTED, EXTENDED_FORCED];
const NOT_FORCED: &[u8] = &[SHORT_ONLY, EXTENDED_SUPPORTED];
const FORCED: &[u8] = &[EXTENDED_FORCED];

/// The vectors of the request's page, then its other sentences.
const CASES: [Case; 14] = [
    // 1.7
    (
        SELECT,
        ALL,
        &[
            (&[0x61, 0x03], Send(&[0x00, 0xC0, 0x00, 0x00, 0x03])),
            (&[0x01, 0x02, 0x03, 0x90, 0x00], Done([0x90, 0x00], 3)),
        ],
        &[0x01, 0x02, 0x03, 0xEE, 0xEE, 0xEE, 0xEE, 0xEE],
    ),
    // 1.8: parts with 61xx are collected too.
    (
        SELECT,
        ALL,
        &[
            (&[0xAA, 0x61, 0x00], Send(&[0x00, 0xC0, 0x00, 0x00, 0x00])),
            (&[0xBB, 0x61, 0x01], Send(&[0x00, 0xC0, 0x00, 0x00, 0x01])),
            (&[0xCC, 0x62, 0x82], Done([0x62, 0x82], 3)),
        ],
        &[0xAA, 0xBB, 0xCC, 0xEE, 0xEE, 0xEE, 0xEE, 0xEE],
    ),
    // 1.9
    (READ, NOT_FORCED, &[(&[0x6C, 0x05], Send(&[0x00, 0xB0, 0x00, 0x00, 0x05]))], &[0xEE, 0xEE]),
    // 1.16: 23 changes neither the room nor the state.
    (
        READ,
        ALL,
        &[
            (&[0x09, 0x08, 0x07, 0x06, 0x90, 0x00], No(23)),
            (&[0x01, 0x61, 0x01], Send(&[0x00, 0xC0, 0x00, 0x00, 0x01])),
            (&[0x05, 0x04, 0x03, 0x90, 0x00], No(23)),
            (&[0x02, 0x90, 0x00], Done([0x90, 0x00], 2)),
        ],
        &[0x01, 0x02, 0xEE],
    ),
    // 6C00 asks for 256. In the command's own mode, that is in two bytes after a zero byte.
    (READ, FORCED, &[(&[0x6C, 0x00], Send(&[0x00, 0xB0, 0x00, 0x00, 0x00, 0x01, 0x00]))], &[]),
    (READ, NOT_FORCED, &[(&[0x6C, 0x00], Send(&[0x00, 0xB0, 0x00, 0x00, 0x00]))], &[]),
    // A command without Le gets one.
    (
        SELECT_WITHOUT_LE,
        NOT_FORCED,
        &[(&[0x6C, 0x05], Send(&[0x00, 0xA4, 0x04, 0x00, 0x05, 0xA0, 0x00, 0x00, 0x00, 0x03, 0x05]))],
        &[],
    ),
    (
        SELECT_WITHOUT_LE,
        FORCED,
        &[
            (
                &[0x6C, 0x05],
                Send(&[0x00, 0xA4, 0x04, 0x00, 0x00, 0x00, 0x05, 0xA0, 0x00, 0x00, 0x00, 0x03, 0x00, 0x05]),
            ),
            (
                &[0x6C, 0x00],
                Send(&[0x00, 0xA4, 0x04, 0x00, 0x00, 0x00, 0x05, 0xA0, 0x00, 0x00, 0x00, 0x03, 0x01, 0x00]),
            ),
        ],
        &[],
    ),
    // The command again, and again; then GET RESPONSE, and that again.
    (
        READ,
        NOT_FORCED,
        &[
            (&[0x6C, 0x05], Send(&[0x00, 0xB0, 0x00, 0x00, 0x05])),
            (&[0x6C, 0xFF], Send(&[0x00, 0xB0, 0x00, 0x00, 0xFF])),
            (&[0x61, 0x20], Send(&[0x00, 0xC0, 0x00, 0x00, 0x20])),
            (&[0x6C, 0x07], Send(&[0x00, 0xC0, 0x00, 0x00, 0x07])),
            (&[0x6C, 0x00], Send(&[0x00, 0xC0, 0x00, 0x00, 0x00])),
            (&[0xAA, 0x61, 0xFF], Send(&[0x00, 0xC0, 0x00, 0x00, 0xFF])),
            (&[0xBB, 0x6A, 0x82], Done([0x6A, 0x82], 2)),
        ],
        &[0xAA, 0xBB, 0xEE],
    ),
    // Data beside 6Cxx are collected.
    (
        READ,
        NOT_FORCED,
        &[
            (&[0xAA, 0x6C, 0x02], Send(&[0x00, 0xB0, 0x00, 0x00, 0x02])),
            (&[0xBB, 0xCC, 0x6C, 0x02], No(23)),
            (&[0xBB, 0x90, 0x00], Done([0x90, 0x00], 2)),
        ],
        &[0xAA, 0xBB],
    ),
    // The class is the command's, as it is.
    (CHAINED, ALL, &[(&[0x61, 0x08], Send(&[0x1D, 0xC0, 0x00, 0x00, 0x08]))], &[]),
    // 22 comes before 23, and changes nothing.
    (
        READ,
        ALL,
        &[(&[], No(22)), (&[0x61], No(22)), (&[0xAA, 0x61, 0x01], No(23)), (&[0x90, 0x01], Done([0x90, 0x01], 0))],
        &[],
    ),
    // Data that look like a status, and a status that looks like data.
    (READ, ALL, &[(&[0x61, 0x10, 0x90, 0x61], Done([0x90, 0x61], 2))], &[0x61, 0x10, 0xEE]),
    // A warning without data is the end.
    (SELECT, ALL, &[(&[0x63, 0xC2], Done([0x63, 0xC2], 0))], &[0xEE]),
];

/// A case in one mode.
#[derive(Debug)]
struct Played(&'static Case, u8);

impl Input for Played {}

impl After {
    /// It in bytes.
    fn told(&self) -> Vec<u8> {
        match self {
            Send(bytes) => [&[0, bytes.len() as u8], *bytes].concat(),
            Done([sw1, sw2], len) => vec![1, *sw1, *sw2, *len],
            No(number) => vec![2, *number],
        }
    }
}

impl Played {
    /// What must come, in bytes, and the room at the end.
    fn expected(&self) -> Vec<u8> {
        let Played((_, _, turns, room), _) = self;
        let told = turns.iter().flat_map(|(_, after)| after.told());
        told.chain(room.iter().copied()).collect()
    }

    /// What comes, played with the library.
    fn ours(&self) -> Result<Vec<u8>, Refused> {
        let Played(((header, le, data), _, turns, room), mode) = self;
        let mut state = Collection::start(*header, *le, *mode, data)?;
        let (mut room, mut told) = (vec![0xEE; room.len()], Vec::new());
        for (response, _) in *turns {
            let (mut out, mut buffer, mut written) = ([0; COLLECT_NUMBERS], [0; 32], [0]);
            match (state.step(response, &mut room, &mut out), out[0]) {
                (Err(Refused(number)), _) => told.extend(No(number).told()),
                (Ok(()), 0) => {
                    state = Collection::after(out);
                    state.write(data, &mut buffer, 0, &mut written)?;
                    told.extend([0, written[0] as u8]);
                    told.extend(&buffer[..buffer.len().min(written[0] as usize)]);
                }
                (Ok(()), _) => told.extend(Done([out[1] as u8, out[2] as u8], out[3] as u8).told()),
            }
        }
        told.extend(room);
        Ok(told)
    }
}

pub fn compare(tally: &mut Tally) {
    for case in &CASES {
        for &mode in case.1 {
            let played = Played(case, mode);
            let len = played.expected().len();
            call(
                LABELS,
                played,
                |played, to, out| {
                    let told = played.ours()?;
                    to.iter_mut().zip(&told).for_each(|(place, byte)| *place = *byte);
                    out[0] = told.len() as u64;
                    Ok(())
                },
                |played, _| {
                    let expected = played.expected();
                    Ok(Writes::new([expected.len() as u64], 0, expected))
                },
            )
            .compare(tally, len, 1);
        }
    }
}
