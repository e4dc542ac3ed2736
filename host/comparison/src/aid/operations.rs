//! The calls of the operations on an AID.

use gorvisclen::{AID_NUMBERS, NONE};
use original::aid::{Aid, FromSliceError};

use crate::call::{call, Call};
use crate::hex::Hex;
use crate::recording::Operation;

/// The label of each number of an AID.
const NUMBER_LABELS: [&str; AID_NUMBERS] = [
    "Aid::as_bytes, its length",
    "Aid::truncated, its length",
    "Aid::category",
    "Aid::is_international",
    "Aid::is_national",
    "Aid::is_standard",
    "Aid::is_proprietary",
    "Aid::rid, its length",
    "Aid::pix, its length",
];

/// The labels of the parts of an AID, by the number of the part. Every larger number means the last one.
const PART_LABELS: [&str; 4] = ["Aid::as_bytes", "Aid::truncated", "Aid::rid", "Aid::pix"];

/// The number of a refusal.
pub fn refusal(error: FromSliceError) -> u8 {
    match error {
        FromSliceError::Empty => 6,
        FromSliceError::TooLong => 7,
        FromSliceError::TruncatedLengthLargerThanLength => 8,
        FromSliceError::NationalRidTooShort => 9,
        FromSliceError::InternationalRidTooShort => 10,
    }
}

/// The length of a part, or `NONE`.
pub fn part_len_number(part: Option<&[u8]>) -> u64 {
    part.map_or(NONE, |part| part.len() as u64)
}

/// The numbers of an AID. The category is the place of its variant in the Rust's enum.
#[inline(always)]
pub fn aid_numbers(aid: &Aid) -> [u64; AID_NUMBERS] {
    [
        aid.as_bytes().len() as u64,
        aid.truncated().len() as u64,
        aid.category() as u64,
        aid.is_international().into(),
        aid.is_national().into(),
        aid.is_standard().into(),
        aid.is_proprietary().into(),
        part_len_number(aid.rid()),
        part_len_number(aid.pix()),
    ]
}

/// The input that makes an AID: its name, and its truncated length.
pub type AidInput<'a> = (Hex<'a, u8>, usize);

/// The Rust's AID, or the number of its refusal.
#[inline(always)]
pub fn rust_aid((name, truncated_len): &AidInput) -> Result<Aid, u8> {
    Aid::try_new_truncatable(name, *truncated_len).map_err(refusal)
}

/// The AID of a name that may be truncated.
pub fn try_new_truncatable(input: AidInput<'_>) -> impl Call<AID_NUMBERS> + '_ {
    call(
        ("Aid::try_new_truncatable", &NUMBER_LABELS),
        input,
        |(name, truncated_len), _, out| gorvisclen::aid(name, *truncated_len, out),
        |input, _| Ok(aid_numbers(&rust_aid(input)?).into()),
    )
    .recorded_as(Operation::Aid)
}

/// The AID of a name that is not truncated.
pub fn try_new(name: &[u8]) -> impl Call<AID_NUMBERS> + '_ {
    call(
        ("Aid::try_new", &NUMBER_LABELS),
        Hex(name),
        |name, _, out| gorvisclen::aid_whole(name, out),
        |name, _| Ok(aid_numbers(&Aid::try_new(name).map_err(refusal)?).into()),
    )
    .recorded_as(Operation::AidWhole)
}

/// A part of the Rust's AID, by its number. Every larger number means the last part.
#[inline(always)]
pub fn rust_part(aid: &Aid, part: u8) -> Option<&[u8]> {
    match part {
        0 => Some(aid.as_bytes()),
        1 => Some(aid.truncated()),
        2 => aid.rid(),
        _ => aid.pix(),
    }
}

/// A part of an AID, copied.
pub fn part(input: AidInput<'_>, part: u8) -> impl Call<1> + '_ {
    call(
        (PART_LABELS[usize::from(part.min(3))], &[]),
        (input, part),
        |((name, truncated_len), part), to, out| gorvisclen::aid_part(name, *truncated_len, *part, to, out),
        |(input, part), _| Ok(rust_part(&rust_aid(input)?, *part).map(|bytes| bytes.to_vec().into()).into()),
    )
    .recorded_as(Operation::AidPart)
}

/// Whether an AID is selected by a name.
pub fn matches<'a>(input: AidInput<'a>, selected: &'a [u8]) -> impl Call<1> + 'a {
    call(
        ("Aid::matches", &[]),
        (input, Hex(selected)),
        |((name, truncated_len), selected), _, out| gorvisclen::aid_matches(name, *truncated_len, selected, out),
        |(input, selected), _| Ok([rust_aid(input)?.matches(selected).into()].into()),
    )
    .recorded_as(Operation::AidMatches)
}

/// A registered AID.
pub const PIV: &[u8] = &[0xA0, 0x00, 0x00, 0x03, 0x08, 0x00, 0x00, 0x10, 0x00, 0x01, 0x00];
