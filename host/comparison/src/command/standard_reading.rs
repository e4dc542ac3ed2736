//! Commands in the standard reading, which the Rust does not have: a table.

use super::rust_reading::Parsed;

/// The label of an operation in the standard reading.
macro_rules! standard {
    ($operation:literal) => {
        concat!($operation, ", standard reading (checked against a table of ISO/IEC 7816-3)")
    };
}

pub const NO_CASE: &str = standard!("CommandView::try_from, no case");
pub const STANDARD_DATA: &str = standard!("CommandView::data");
pub const STANDARD_OWNED: &str = standard!("Command::try_from");

/// The seven cases of ISO/IEC 7816-3, 12.1.3: the label, how many bytes the field Lc has, how many the field Le has.
pub const CASES: [(&str, usize, usize); 7] = [
    (standard!("CommandView::try_from, case 1"), 0, 0),
    (standard!("CommandView::try_from, case 2S"), 0, 1),
    (standard!("CommandView::try_from, case 3S"), 1, 0),
    (standard!("CommandView::try_from, case 4S"), 1, 1),
    (standard!("CommandView::try_from, case 2E"), 0, 3),
    (standard!("CommandView::try_from, case 3E"), 3, 0),
    (standard!("CommandView::try_from, case 4E"), 3, 2),
];

/// The number in a field Lc or Le. A field of three bytes starts with a zero.
fn field_number(field: &[u8]) -> Option<usize> {
    match *field {
        [] => Some(0),
        [n] => Some(n.into()),
        [m, n] | [0, m, n] => Some(u16::from_be_bytes([m, n]).into()),
        _ => None,
    }
}

/// The length of the data and the expected length, if the body fits the case with these lengths of Lc and Le.
fn in_case(body: &[u8], lc_len: usize, le_len: usize) -> Option<(usize, usize)> {
    let nc = field_number(body.get(..lc_len)?)?;
    let field = body.get(lc_len + nc..)?;
    if (lc_len > 0 && nc == 0) || field.len() != le_len {
        return None;
    }
    let ne = match (le_len, field_number(field)?) {
        (1, 0) => 256,
        (2 | 3, 0) => 65_536,
        (_, n) => n,
    };
    Some((nc, ne))
}

/// A command as the table reads it.
pub fn parse_by_table(apdu: &[u8]) -> Result<Parsed<'_>, u8> {
    let [cla, ins, p1, p2, ref body @ ..] = *apdu else {
        return Err(1);
    };
    if cla == 0xFF {
        return Err(3);
    }
    let [cla, ins, p1, p2] = [cla, ins, p1, p2].map(usize::from);
    for (label, lc_len, le_len) in CASES {
        if let Some((nc, ne)) = in_case(body, lc_len, le_len) {
            let extended = usize::from(lc_len > 1 || le_len > 1);
            let numbers = [cla, ins, p1, p2, 4 + lc_len, nc, ne, extended].map(|n| n as u64);
            return Ok(Parsed { label, numbers, data: &body[lc_len..lc_len + nc] });
        }
    }
    Err(match *body {
        [0, 0, 0, _, _] => 21,
        [0, ..] => 5,
        _ => 4,
    })
}
