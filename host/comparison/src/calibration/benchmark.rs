//! Times calibration records. The Rust has no such operation. Beside reading a record, whether it has lapsed and the
//! due date shown is what is nearest in the Rust: its lookup of E1, C2 in the same record, which looks at no other
//! object and at no date. Writing is beside the model.

use gorvisclen::PROFILE_BYTES;
use original::tlv::{get_data_object, Tag};

use super::operations::{lapsed, put, read, serial, shown, shown_from, Fields};
use crate::benchmark::{checked, ours, Size, Table, NO_LIMIT};
use crate::call::Call;
use crate::tlv::rust_tag;

/// The date that is asked for, and that of the records.
const GIVEN: [u32; 3] = [2026, 11, 17];
const DUE: [u32; 3] = [2026, 12, 31];

/// A record, and the path to its due date for the Rust.
struct Sample {
    record: Vec<u8>,
    path: [Tag; 2],
}

/// The four bytes of the due date by the Rust's lookup.
#[inline(never)]
fn by_rust(sample: &Sample, to: &mut [u8], _: &mut [u64]) -> u8 {
    let Some(due) = get_data_object(&sample.path, &sample.record) else { return 11 };
    to[..due.len()].copy_from_slice(due);
    0
}

/// Checks a call, and times it beside the Rust's lookup.
fn line<const N: usize>(table: &mut Table, name: &str, sample: &Sample, call: impl Call<N>) {
    let calls = [call];
    let size = checked(name, &calls, Size { to: PROFILE_BYTES, ..Size::default() });
    table.time_sides((name, NO_LIMIT), size, (std::slice::from_ref(sample), &calls), by_rust, ours);
}

pub fn bench(table: &mut Table) {
    for (n, words) in [(1, "serial of 1 byte"), (16, "serial of 16 bytes")] {
        let serial_bytes = vec![0x41; n];
        let fields = Fields::new(&serial_bytes, DUE, 200_000);
        let record = fields.record().expect("a good record");
        let sample = Sample { record, path: [0xE1, 0xC2].map(|tag| rust_tag(&tag).unwrap()) };
        let record = &sample.record[..];
        line(table, &format!("profile read, {words}"), &sample, read(record));
        line(table, "  its serial", &sample, serial(record));
        line(table, "  whether it has lapsed", &sample, lapsed(record, GIVEN));
        line(table, "  due date shown, the card's", &sample, shown(record, record));
        line(table, "  due date shown, the desk's", &sample, shown(&record[1..], record));
        line(table, "  whose it is", &sample, shown_from(record, record));
        let size = Size { to: PROFILE_BYTES, ..Size::default() };
        table.calls("  written (model)", NO_LIMIT, &[put(fields, 0)], size);
    }
}
