//! The class byte: every byte, every operation, `out` of every length up to 13; then random bytes.

use gorvisclen::{CLASS_CONSTANTS, CLASS_NUMBERS, NONE};
use original::command::class::{Class, Interindustry, Range, SecureMessaging, NO_SM_CLA, SM_CLA, ZERO_CLA};

use crate::benchmark::{Size, Table, NO_LIMIT};
use crate::call::{call, Call};
use crate::random::Random;
use crate::recording::Operation;
use crate::tally::Tally;

/// The label of each number of a class.
const NUMBER_LABELS: [&str; CLASS_NUMBERS] = [
    "Class::into_inner",
    "Class::range",
    "Class::secure_messaging",
    "Class::secure_messaging, standard reading (checked against a table of ISO/IEC 7816-4)",
    "SecureMessaging::none",
    "SecureMessaging::none, standard reading (checked against a table of ISO/IEC 7816-4)",
    "Class::chain",
    "Chain::last_or_only",
    "Chain::not_the_last",
    "Class::channel",
    "Class::channel, standard reading (checked against a table of ISO/IEC 7816-4)",
];

const CONSTANT_LABELS: [&str; CLASS_CONSTANTS] = ["ZERO_CLA", "NO_SM_CLA", "SM_CLA"];

/// Secure messaging by ISO/IEC 7816-4: the bits that decide, their value, the meaning. A byte that fits no row is
/// unknown.
const STANDARD_SECURE_MESSAGING: [(u8, u8, SecureMessaging); 6] = [
    (0b1110_1100, 0b0000_0000, SecureMessaging::None),
    (0b1110_1100, 0b0000_0100, SecureMessaging::Proprietary),
    (0b1110_1100, 0b0000_1000, SecureMessaging::Standard),
    (0b1110_1100, 0b0000_1100, SecureMessaging::Authenticated),
    (0b1110_0000, 0b0100_0000, SecureMessaging::None),
    (0b1110_0000, 0b0110_0000, SecureMessaging::Standard),
];

/// The channel by ISO/IEC 7816-4: the bits that decide, their value, the bits of the number, the number of the first
/// channel. A byte that fits no row has no channel.
const STANDARD_CHANNEL: [(u8, u8, u8, u8); 2] =
    [(0b1110_0000, 0b0000_0000, 0b0000_0011, 0), (0b1100_0000, 0b0100_0000, 0b0000_1111, 4)];

fn range_number(range: Range) -> u64 {
    match range {
        Range::Interindustry(Interindustry::First) => 0,
        Range::Interindustry(Interindustry::Further) => 1,
        Range::Interindustry(Interindustry::Reserved) => 2,
        Range::Proprietary => 3,
    }
}

fn channel_number(channel: Option<u8>) -> u64 {
    channel.map_or(NONE, u64::from)
}

type Numbers = [u64; CLASS_NUMBERS];

/// The numbers that the Rust has. An enum is the place of its variant. The numbers of the standard reading are zeros.
#[inline(always)]
fn rust_numbers(class: Class) -> Numbers {
    [
        class.into_inner().into(),
        range_number(class.range()),
        class.secure_messaging() as u64,
        0,
        class.secure_messaging().none().into(),
        0,
        class.chain() as u64,
        class.chain().last_or_only().into(),
        class.chain().not_the_last().into(),
        channel_number(class.channel()),
        0,
    ]
}

/// The same numbers, with those of the standard reading from the tables.
fn with_standard(mut numbers: Numbers) -> Numbers {
    let cla = numbers[0] as u8;
    let messaging = STANDARD_SECURE_MESSAGING.iter().find(|row| cla & row.0 == row.1);
    let messaging = messaging.map_or(SecureMessaging::Unknown, |row| row.2);
    let channel = STANDARD_CHANNEL.iter().find(|row| cla & row.0 == row.1);
    numbers[3] = messaging as u64;
    numbers[5] = (messaging == SecureMessaging::None).into();
    numbers[10] = channel_number(channel.map(|row| row.3 + (cla & row.2)));
    numbers
}

#[inline(always)]
fn rust_answer<const CHAINED: bool>(cla: u8) -> Result<Numbers, u8> {
    let class = Class::from_byte(cla).map_err(|_| 3)?;
    Ok(rust_numbers(if CHAINED { class.as_chained() } else { class }))
}

/// The class of a byte, or the same with its chaining bit set. The reference for the standard reading is the tables.
fn class<const CHAINED: bool>(cla: u8) -> impl Call<CLASS_NUMBERS> {
    let (name, operation) = match CHAINED {
        true => ("Class::as_chained", Operation::ClassAsChained),
        false => ("Class::from_byte", Operation::Class),
    };
    call(
        (name, &NUMBER_LABELS),
        cla,
        |&cla, _, out| if CHAINED { gorvisclen::class_as_chained(cla, out) } else { gorvisclen::class(cla, out) },
        |&cla, _| Ok(rust_answer::<CHAINED>(cla)?.into()),
    )
    .with_reference(|&cla, _| Ok(with_standard(rust_answer::<CHAINED>(cla)?).into()))
    .recorded_as(operation)
}

fn range(cla: u8) -> impl Call<1> {
    call(
        ("Range::from_cla", &[]),
        cla,
        |&cla, _, out| gorvisclen::range(cla, out),
        |&cla, _| Ok([range_number(Range::from_cla(cla).map_err(|_| 3)?)].into()),
    )
    .recorded_as(Operation::Range)
}

fn constants() -> impl Call<CLASS_CONSTANTS> {
    call(
        ("the constants of class", &CONSTANT_LABELS),
        (),
        |_, _, out| gorvisclen::class_constants(out),
        |_, _| Ok([ZERO_CLA, NO_SM_CLA, SM_CLA].map(|class| class.into_inner().into()).into()),
    )
    .recorded_as(Operation::ClassConstants)
}

/// Every operation on a class byte, with `out` of this length.
fn every_operation(tally: &mut Tally, cla: u8, out_len: usize) {
    class::<false>(cla).compare_numbers(tally, out_len);
    class::<true>(cla).compare_numbers(tally, out_len);
    range(cla).compare_numbers(tally, out_len);
}

/// Random class bytes.
pub fn random_cases(tally: &mut Tally, random: &mut Random) {
    for _ in 0..4 {
        let cla = if random.below(16) == 0 { 0xFF } else { random.byte() };
        every_operation(tally, cla, random.below(CLASS_NUMBERS + 3));
    }
    constants().compare_numbers(tally, random.below(6));
}

/// Every byte, with `out` of this length.
fn every_byte(tally: &mut Tally, out_len: usize) {
    for cla in 0..=255 {
        every_operation(tally, cla, out_len);
    }
    constants().compare_numbers(tally, out_len);
}

pub fn compare(tally: &mut Tally, random: &mut Random) {
    for out_len in 0..=13 {
        every_byte(tally, out_len);
    }
    for _ in 0..5_000 {
        random_cases(tally, random);
    }
}

/// The calls that are recorded: every byte once.
pub fn recorded(tally: &mut Tally, _: &mut Random) {
    every_byte(tally, CLASS_NUMBERS);
}

/// The Rust gives the 8 numbers that it has. The library gives these and the 3 of the standard reading.
pub fn bench(table: &mut Table) {
    let size = Size::default();
    table.calls("class, every byte", NO_LIMIT, &(0..=255).map(class::<false>).collect::<Vec<_>>(), size);
    for (name, cla) in [
        ("  first interindustry, 0D", 0x0D),
        ("  further interindustry, 65", 0x65),
        ("  reserved, 21", 0x21),
        ("  proprietary, 84", 0x84),
        ("  refused 3, FF", 0xFF),
    ] {
        table.calls(name, NO_LIMIT, &[class::<false>(cla)], size);
    }
    table.calls("class, chained, every byte", NO_LIMIT, &(0..=255).map(class::<true>).collect::<Vec<_>>(), size);
    table.calls("range of a class, every byte", NO_LIMIT, &(0..=255).map(range).collect::<Vec<_>>(), size);
}
