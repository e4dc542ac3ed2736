//! Times commands that are read: parsing, the owned copy of a command, copying its data, and extending a held command.
//!
//! The Rust returns an owned command by value, with its room. Our stand-in for `heapless` clears that room first; the
//! real one does not. Here the room is as long as the data. Extending is timed over 64 calls in a row, each by the same
//! number of data bytes.

use std::hint::black_box;
use std::time::Instant;

use gorvisclen::{CRATE_READING, OWNED_NUMBERS};
use original::command::{Command, CommandView, FromSliceError};

use super::operations::{data, own, parse, CommandInput};
use super::rust_reading::{encoded, owned_numbers, refusal};
use crate::answer::reply_number;
use crate::benchmark::{best_of, check, ours, Size, Table, HEADER, NO_LIMIT};
use crate::call::Call;
use crate::hex::Hex;

/// The limit of the ratio to the Rust's time, for parsing a command.
const LIMIT: f64 = 1.10;

/// How many times a held command is extended.
const EXTENSIONS: usize = 64;

/// Commands to parse: the kind, the case, the bytes.
fn samples() -> Vec<(&'static str, &'static str, Vec<u8>)> {
    let data = &[0xAA; 65_535];
    let body = |lc, n, le: &[u8]| encoded(&HEADER, lc, &data[..n], le);
    let less = |apdu: Vec<u8>| apdu[..apdu.len() - 1].to_vec();
    vec![
        ("short", "case 1", HEADER.to_vec()),
        ("short", "case 2S", body(0, 0, &[0])),
        ("short", "case 3S, 16 bytes", body(1, 16, &[])),
        ("short", "case 4S, 255 bytes", body(1, 255, &[0])),
        ("extended", "case 2E", body(0, 0, &[0, 1, 0])),
        ("extended", "case 3E, 16 bytes", body(3, 16, &[])),
        ("extended", "case 3E, 256 bytes", body(3, 256, &[])),
        ("extended", "case 4E, 65,535 bytes", body(3, 65_535, &[0, 0])),
        ("refused", "1, under 4 bytes", HEADER[..3].to_vec()),
        ("refused", "3, class FF", vec![0xFF, 0xA4, 0x04, 0x00]),
        ("refused", "4, a byte too few", less(body(1, 16, &[]))),
        ("refused", "5, a byte too few", less(body(3, 256, &[]))),
    ]
}

fn parsing(table: &mut Table) {
    for commands_of_kind in samples().chunk_by(|one, next| one.0 == next.0) {
        let calls: Vec<_> = commands_of_kind.iter().map(|(_, _, apdu)| parse((CRATE_READING, Hex(apdu)))).collect();
        table.calls(commands_of_kind[0].0, LIMIT, &calls, Size::default());
        for ((_, name, _), call) in commands_of_kind.iter().zip(calls) {
            table.calls(&format!("  {name}"), LIMIT, &[call], Size::default());
        }
    }
}

/// A command with `n` data bytes and an Le, short if that is possible.
fn apdu(n: usize) -> Vec<u8> {
    let (lc, le): (_, &[u8]) = if n < 256 { (1, &[0]) } else { (3, &[0, 0]) };
    encoded(&HEADER, lc, &vec![0xAA; n], le)
}

#[inline(never)]
fn copy_data(input: &CommandInput, to: &mut [u8], out: &mut [u64]) -> u8 {
    let Ok(view) = CommandView::try_from(input.1 .0) else {
        return 5;
    };
    to[..view.data().len()].copy_from_slice(view.data());
    out[0] = view.data().len() as u64;
    0
}

#[inline(never)]
fn copy<const N: usize>(apdu: &[u8]) -> Result<Command<N>, FromSliceError> {
    Command::try_from(apdu)
}

/// Times the owned copy and the copied data of a command with `N` data bytes.
fn copies<const N: usize>(table: &mut Table, words: &str) {
    let apdu = apdu(N);
    let input = (CRATE_READING, Hex(&apdu[..]));
    let name = format!("owned copy, {words}");
    let command = Command::<N>::try_from(&apdu).unwrap();
    let (mut room, mut out) = ([7; N], [7; OWNED_NUMBERS]);
    let reply = own(input).ours(&mut room, &mut out);
    check(&name, (0, owned_numbers(&command), &command.data()[..]), (reply_number(reply), out, &room));
    let size = Size { to: N, out: OWNED_NUMBERS, bytes: 0 };
    table.returning((&name, NO_LIMIT), size, &[own(input)], |_| copy::<N>(black_box(&apdu)), ours);
    let name = format!("data handed back, {words}");
    table.sides((&name, NO_LIMIT), size, (&[input], &[data(input)]), copy_data, ours);
}

/// A command that holds no data.
fn none_held<const N: usize>() -> Box<Command<N>> {
    Box::new(Command::try_from(&HEADER).unwrap())
}

#[inline(never)]
fn extend<const N: usize>(extension: &[u8], held: &mut Command<N>) -> u8 {
    match CommandView::try_from(extension) {
        Ok(view) => held.extend_from_command_view(view).map_or(18, |()| 0),
        Err(error) => refusal(error),
    }
}

fn time_rust_extensions<const N: usize>(extension: &[u8], held: &mut Command<N>) -> f64 {
    let start = Instant::now();
    for _ in 0..EXTENSIONS {
        black_box(extend(black_box(extension), black_box(held)));
    }
    start.elapsed().as_nanos() as f64 / EXTENSIONS as f64
}

fn time_our_extensions(extension: &[u8], room: &mut [u8], out: &mut [u64; OWNED_NUMBERS]) -> f64 {
    let start = Instant::now();
    let mut len = 0;
    for _ in 0..EXTENSIONS {
        let (room, out) = (black_box(&mut *room), black_box(&mut *out));
        let reply = gorvisclen::command_extend(len, room, black_box(extension), out);
        black_box(reply_number(reply));
        len = out[4] as usize;
    }
    start.elapsed().as_nanos() as f64 / EXTENSIONS as f64
}

/// Times extensions by `N / EXTENSIONS` data bytes each.
fn extending<const N: usize>(table: &mut Table, words: &str) {
    let name = format!("extend by {words}");
    let extension = apdu(N / EXTENSIONS);
    let (mut held, mut room, mut out) = (none_held::<N>(), vec![1; N], [7; OWNED_NUMBERS]);
    time_rust_extensions(&extension, &mut held);
    time_our_extensions(&extension, &mut room, &mut out);
    check(&name, owned_numbers(&held), out);
    check(&name, &held.data()[..], &room[..]);
    let rust = || best_of(40, || time_rust_extensions(&extension, &mut none_held::<N>()));
    let ours = || best_of(40, || time_our_extensions(&extension, &mut vec![1; N], &mut out.clone()));
    table.time(&name, NO_LIMIT, rust, ours);
}

pub fn bench(table: &mut Table) {
    parsing(table);
    copies::<16>(table, "16 bytes");
    copies::<255>(table, "255 bytes");
    copies::<4_096>(table, "4,096 bytes");
    extending::<{ 16 * EXTENSIONS }>(table, "16 bytes");
    extending::<{ 255 * EXTENSIONS }>(table, "255 bytes");
    extending::<{ 1_000 * EXTENSIONS }>(table, "1,000 bytes");
}
