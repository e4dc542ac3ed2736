//! A simulated card. It answers a command with its data, in random parts: with 61xx, with 6Cxx to the command and to
//! GET RESPONSE, for ever, or with some other status, which is the end. Between its answers come responses that are
//! refused. Every byte that is sent, every byte of the room and every number must be as the history says, and what is
//! sent must be read by the card as it was meant, in both readings.

use gorvisclen::{Collection, COLLECTION_NUMBERS, COLLECT_NUMBERS, COMMAND_NUMBERS, CRATE_READING, STANDARD_READING};

use super::history::History;
use super::model;
use super::operations::{collected, start, step, write};
use crate::answer::Writes;
use crate::builder::{random_expected_len, random_header, random_mode, BuilderInput, EXPECTED_LENGTHS};
use crate::call::{call, Call};
use crate::hex::Hex;
use crate::lent::{bytes, Lent};
use crate::random::Random;
use crate::response::{random_out_len, random_status};
use crate::tally::{Labels, Tally};

const START: Labels = ("a card: the start (checked against document 02)", &[]);
const SENT: Labels = ("a card: the bytes that are sent (checked against document 02)", &[]);
const READ: Labels = ("a card: what is sent, read in both readings (checked against document 02)", &[]);
const ANSWERED: Labels = ("a card: a response, and more is to be sent (checked against document 02)", &[]);
const END: Labels = ("a card: the last response (checked against document 02)", &[]);
const REFUSED: Labels = ("a card: a response that is refused (checked against document 02)", &[]);
const COLLECTED: Labels = ("a card: the copy of all that is collected (checked against document 02)", &[]);

/// How often something is sent to a card that does not end.
const MOST_SENT: usize = 24;

/// A card that answers 61xx for ever.
const ALWAYS_MORE: [usize; 3] = [1, 0, 0];

/// How many of some answers are 61xx, 6Cxx, and the end. The last three cards never end.
const MANNERS: [[usize; 3]; 8] =
    [[6, 1, 1], [2, 4, 1], [1, 1, 1], [0, 2, 1], [0, 0, 1], [5, 1, 0], [0, 1, 0], ALWAYS_MORE];

/// What an answer of a card says: 61xx, 6Cxx, or the end.
#[derive(Clone, Copy)]
enum Says {
    More,
    WrongLength,
    End,
}

/// A card, and how many of its data it has sent.
struct Card {
    data: Vec<u8>,
    sent: usize,
    manner: [usize; 3],
    /// Whether it sends data only with its last answer.
    silent: bool,
}

impl Card {
    fn random(random: &mut Random, turn: usize) -> Self {
        let n = match turn % 1_000 {
            400 => 65_000 + random.below(3_000),
            0..80 => random.below(3_000),
            _ => random.below(60),
        };
        Card { data: random.bytes(n), sent: 0, manner: random.one_of(&MANNERS), silent: random.below(4) == 0 }
    }

    /// Its next `n` bytes, or all that are left.
    fn next(&mut self, n: usize) -> Vec<u8> {
        let from = self.sent;
        self.sent = self.data.len().min(from + n);
        self.data[from..self.sent].to_vec()
    }

    /// What it says, in its manner.
    fn says(&self, random: &mut Random) -> Says {
        let [more, wrong_length, end] = self.manner;
        match random.below(more + wrong_length + end) {
            n if n < more => Says::More,
            n if n < more + wrong_length => Says::WrongLength,
            _ => Says::End,
        }
    }

    /// Its answer to whatever was sent. With 61xx and 6Cxx come some data, few, or none.
    fn answer(&mut self, random: &mut Random) -> Vec<u8> {
        let (says, left) = (self.says(random), self.data.len() - self.sent);
        let n = match (says, random.below(4)) {
            (Says::End, _) => left,
            _ if self.silent => 0,
            (Says::More, 0) => 1 + random.below(256),
            (Says::More, 1) => random.below(left / 4 + 1),
            _ => random.below(4).saturating_sub(1),
        };
        let data = self.next(n);
        let xx = match random.below(2) {
            0 => (left - data.len()).min(256) as u8,
            _ => random.byte(),
        };
        let status = match says {
            Says::More => [0x61, xx],
            Says::WrongLength => [0x6C, xx],
            Says::End => last_status(random),
        };
        [&data[..], &status].concat()
    }
}

/// A random status other than 61xx and 6Cxx.
fn last_status(random: &mut Random) -> [u8; 2] {
    match random_status(random) {
        [0x61 | 0x6C, xx] => [0x90, xx & 1],
        status => status,
    }
}

/// A random command to send.
fn random_command<'a>(random: &mut Random, data: &'a [u8]) -> BuilderInput<'a> {
    let mut header = random_header(random);
    header[0] = header[0].min(0xFE);
    let le = random_expected_len(random, &EXPECTED_LENGTHS);
    BuilderInput::new(header, le, random_mode(random), data)
}

/// What goes to and fro: all that was accepted, and the state and the room as they must be.
struct Exchange<'a> {
    history: History<'a>,
    state: Collection,
    room: Lent<u8>,
}

impl<'a> Exchange<'a> {
    fn start(tally: &mut Tally, command: BuilderInput<'a>, room_len: usize) -> Self {
        let history = History { command, accepted: Vec::new() };
        let numbers = model::numbers(history.state());
        start(command).compare_with(tally, START, &Ok(numbers.into()), &bytes(0), COLLECTION_NUMBERS);
        Exchange { history, state: Collection::from_numbers(numbers), room: bytes(room_len) }
    }

    /// Sends what is to be sent, from some place of a buffer, which may be too short. Then the card reads it.
    fn send(&self, tally: &mut Tally, random: &mut Random) {
        let (at, sent) = (random.below(4), self.history.bytes());
        let buffer_len = at + sent.len() + random.below(4) - usize::from(random.below(8) == 0);
        let answer = Ok(Writes::new([sent.len() as u64], at, sent));
        let call = write(self.state, self.history.command.data, at);
        call.compare_with(tally, SENT, &answer, &bytes(buffer_len), 1 + random.below(2));
        self.read(tally, CRATE_READING);
        self.read(tally, STANDARD_READING);
    }

    /// What the card reads: header, data and expected length are those that are meant.
    fn read(&self, tally: &mut Tally, reading: u8) {
        let (meant, data) = (self.history.to_send(), self.history.command.data);
        let [lc_len, le_len] = meant.length_fields().map(|field| field.len());
        let [class, instruction, p1, p2] = meant.header.map(u64::from);
        let (place, n) = (4 + lc_len as u64, meant.data.len() as u64);
        let (le, extended) = (meant.written_expected_len().into(), (lc_len > 1 || le_len > 1).into());
        let numbers = [class, instruction, p1, p2, place, n, le, extended];
        let answer = Ok(Writes::new(numbers, 0, meant.data));
        call(
            READ,
            ((self.state, reading), Hex(data)),
            |((state, reading), data), to, out| {
                let (mut buffer, mut written) = (vec![0xEE; data.len() + 16], [0]);
                state.write(data, &mut buffer, 0, &mut written)?;
                let apdu = &buffer[..buffer.len().min(written[0] as usize)];
                gorvisclen::command(*reading, apdu, out)?;
                gorvisclen::command_data(*reading, apdu, to, &mut [0])
            },
            |_, _| Ok([0; COMMAND_NUMBERS].into()),
        )
        .compare_with(tally, READ, &answer, &bytes(meant.data.len()), COMMAND_NUMBERS);
    }

    /// Takes a response, and returns whether it was accepted.
    fn take(&mut self, tally: &mut Tally, response: &[u8], out_len: usize) -> bool {
        let refusal = self.history.refusal(response, self.room.len());
        if refusal.is_none() {
            self.history.accepted.push(response.to_vec());
        }
        let labels = match (refusal, self.history.end()) {
            (Some(_), _) => REFUSED,
            _ if out_len < COLLECT_NUMBERS => REFUSED,
            (None, Some(_)) => END,
            (None, None) => ANSWERED,
        };
        let (numbers, collected) = (self.history.numbers(), self.history.collected());
        // The front of the room is all that is collected, from its first byte.
        let answer = refusal.map_or_else(|| Ok(Writes::new(numbers, 0, collected)), Err);
        step(self.state, response).compare_with(tally, labels, &answer, &self.room, out_len);
        match answer {
            Ok(writes) if out_len >= COLLECT_NUMBERS => {
                writes.write(self.room.part(), &mut [0; COLLECT_NUMBERS]).unwrap();
                self.state = Collection::after(numbers);
                return true;
            }
            Ok(_) => drop(self.history.accepted.pop()),
            Err(_) => (),
        }
        false
    }

    /// Brings responses that are refused: too short, too long for the room, or with `out` too short.
    fn take_refused(&mut self, tally: &mut Tally, random: &mut Random) {
        for _ in 0..random.below(3) {
            let free = self.room.len() - self.history.collected_len();
            let (n, out_len) = match random.below(3) {
                0 => (random.below(2), COLLECT_NUMBERS + random.below(2)),
                1 if free < 4_000 => (free + 3 + random.below(3), COLLECT_NUMBERS),
                _ => (random.below(30), random.below(COLLECT_NUMBERS)),
            };
            let mut response = random.bytes(n);
            if let Some(status) = response.last_chunk_mut() {
                *status = random_status(random);
            }
            assert!(!self.take(tally, &response, out_len), "the history accepts a response that is to be refused");
        }
    }

    /// Takes the card's answer. If the room is too short, the same answer may come again, with a longer room.
    fn take_answer(&mut self, tally: &mut Tally, random: &mut Random, response: &[u8]) {
        let out_len = COLLECT_NUMBERS + random.below(2);
        if self.take(tally, response, out_len) || random.below(2) == 0 {
            return;
        }
        let mut longer = bytes(self.history.collected_len() + response.len() + random.below(20));
        let old = self.room.part();
        let kept = old.len().min(longer.len());
        longer.part()[..kept].copy_from_slice(&old[..kept]);
        self.room = longer;
        assert!(self.take(tally, response, out_len), "the history refuses a response that fits");
    }
}

/// How long the data of the command are, in a random exchange.
fn random_data_len(random: &mut Random, turn: usize) -> usize {
    match turn % 1_000 {
        0 => 65_530 + random.below(6),
        1..200 => random.one_of(&[254, 255, 256, 257, 600]),
        _ => random.below(12),
    }
}

/// A random command, a random card, and a room that is long enough for its data or not.
pub fn random_exchange(tally: &mut Tally, random: &mut Random, turn: usize) {
    let n = random_data_len(random, turn);
    let data = random.bytes(n);
    let command = random_command(random, &data);
    let card = Card::random(random, turn);
    let room_len = match random.below(6) {
        0 => card.data.len().saturating_sub(1),
        1 => card.data.len(),
        2 => random.below(card.data.len() + 1),
        _ => card.data.len() + random.below(20),
    };
    play(tally, random, command, card, room_len);
}

/// Cards that answer 61xx without data for ever, in a room of no bytes.
pub fn endless(tally: &mut Tally, random: &mut Random) {
    for _ in 0..8 {
        let command = random_command(random, &[]);
        let card = Card { data: Vec::new(), sent: 0, manner: ALWAYS_MORE, silent: true };
        play(tally, random, command, card, 0);
    }
}

/// A command is sent to a card, and its answers are collected until the end, or until enough was sent.
fn play(tally: &mut Tally, random: &mut Random, command: BuilderInput<'_>, mut card: Card, room_len: usize) {
    let mut exchange = Exchange::start(tally, command, room_len);
    for _ in 0..MOST_SENT {
        exchange.send(tally, random);
        exchange.take_refused(tally, random);
        let response = card.answer(random);
        exchange.take_answer(tally, random, &response);
        if exchange.history.end().is_some() {
            break;
        }
    }
    let all = exchange.history.collected();
    let answer = Ok(Writes::new([all.len() as u64], 0, &all[..]));
    let call = collected(all.len(), exchange.room.part());
    call.compare_with(tally, COLLECTED, &answer, &bytes(all.len() + random.below(3)), random_out_len(random, 1));
}
