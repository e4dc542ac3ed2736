//! Cases with their answers from document 01.

use gorvisclen::{Pieces, Refused, PIECE_NUMBERS};

use super::steps::should_split;
use crate::builder::BuilderInput;
use crate::call::Call;
use crate::lent::{bytes, numbers, Outcome};
use crate::loops::pairs;
use crate::tally::Tally;

const STEPS_LABEL: &str = "CommandBuilder::should_split, case by case (checked against document 01)";
const PIECES_LABEL: &str = "the pieces of a chain, case by case (checked against document 01)";

const HEADER: [u8; 4] = [0x00, 0xDB, 0x3F, 0xFF];

/// A step: the mode, the buffer, how many data bytes, the expected length; then how many bytes the first part takes and
/// the expected length of the rest, or nothing if the command is not split.
type Row = (u8, usize, usize, u32, Option<(u64, u64)>);

const STEPS: [Row; 16] = [
    (0, 10, 5, 1, Some((4, 1))),
    (0, 261, 255, 256, None),
    (0, 261, 256, 0, Some((254, 0))),
    // Over 255 bytes Lc counts as three bytes and Le as two, although a short piece follows.
    (0, 261, 256, 5, Some((252, 5))),
    (0, 261, 600, 256, Some((252, 256))),
    (0, 260, 255, 256, Some((254, 256))),
    (0, 70_000, 256, 0, Some((255, 0))),
    // Short only lowers the expected length of the rest.
    (0, 10, 5, 65_536, Some((4, 256))),
    (1, 261, 255, 256, None),
    (1, 261, 256, 0, Some((254, 0))),
    (1, 12, 5, 257, Some((3, 257))),
    (1, 65_544, 65_535, 65_536, None),
    (1, 65_543, 65_535, 65_536, Some((65_534, 65_536))),
    (2, 12, 5, 0, None),
    (2, 11, 5, 0, Some((4, 0))),
    (2, 11, 5, 1, Some((2, 1))),
];

/// A chain: the expected length, how many data bytes, the buffer; then for each piece its data bytes and all its bytes,
/// or a refusal.
type Cut = (u16, usize, usize, Result<&'static [[usize; 2]], u8>);

const CUTS: [Cut; 9] = [
    (256, 255, 261, Ok(&[[255, 261]])),
    (0, 256, 261, Ok(&[[254, 259], [2, 7]])),
    (5, 256, 261, Ok(&[[252, 257], [4, 10]])),
    (256, 600, 261, Ok(&[[252, 257], [252, 257], [96, 102]])),
    (1, 5, 10, Ok(&[[4, 9], [1, 7]])),
    (257, 0, 10, Ok(&[[0, 5]])),
    (1, 300, 9, Err(14)),
    (0, 0, 9, Err(14)),
    (0, 65_536, 261, Err(13)),
];

/// Compares single steps.
pub fn steps(tally: &mut Tally) {
    let data = vec![0xAA; 65_535];
    for ((mode, available, n, le, parts), class) in pairs(STEPS, [0x00, 0x80, 0xEF, 0x10]) {
        let [_, instruction, p1, p2] = HEADER;
        let header = [class, instruction, p1, p2];
        let answer = match parts {
            None => [0; 6],
            Some((len, le)) => [1, len, (class | 0x10).into(), 0, class.into(), le],
        };
        let input = BuilderInput::new(header, le, mode, &data[..n]);
        should_split(input, available).compare_with_table(tally, STEPS_LABEL, &Ok(answer.into()), 0);
    }
    for (mode, (n, available, answer)) in pairs(0..3, [(0, 3, Err(14)), (0, 4, Ok([0; 6])), (1, 4, Err(14))]) {
        let input = BuilderInput::new(HEADER, 1, mode, &data[..n]);
        let answer = answer.map(|numbers| numbers.into());
        should_split(input, available).compare_with_table(tally, STEPS_LABEL, &answer, 0);
    }
}

/// The sizes of the pieces that the library writes, or the number of a refusal.
fn sizes(le: u16, data: &[u8], available: usize) -> Result<Vec<[usize; 2]>, Refused> {
    let mut pieces = Pieces::new_non_extended(HEADER, data, le, available)?;
    let (mut sizes, mut buffer, mut out) = (vec![], [0; 261], [0; PIECE_NUMBERS]);
    loop {
        pieces.write_next(data, &mut buffer, 0, &mut out)?;
        if out[0] == 0 || sizes.len() == 1_000 {
            return Ok(sizes);
        }
        let next = pieces.after(out);
        let end = if next.done { data.len() } else { next.place };
        sizes.push([end - pieces.place, out[1] as usize]);
        pieces = next;
    }
}

/// Compares the sizes of the pieces of chains.
pub fn pieces(tally: &mut Tally) {
    let data = vec![0xAA; 65_536];
    let many = [vec![[1, 6]; 45], vec![[4, 9]; 63], vec![[3, 9]]].concat();
    for (le, n, available, expected) in CUTS.into_iter().chain([(1, 300, 10, Ok(&many[..]))]) {
        let outcome = |sizes: Result<&[[usize; 2]], Refused>| {
            let bytes_of_sizes =
                sizes.unwrap_or_default().as_flattened().iter().flat_map(|size| size.to_be_bytes()).collect();
            Outcome::new(sizes.map(|_| ()), numbers(0), bytes(0)).with_input(bytes_of_sizes)
        };
        let ours = sizes(le, &data[..n], available);
        let [reference, ours] = [expected.map_err(Refused), ours.as_deref().map_err(|refused| *refused)].map(outcome);
        let input = || format!("{n} data bytes, le {le}, buffer of {available} bytes");
        tally.compare((PIECES_LABEL, &[]), input, &reference, &ours);
    }
}
