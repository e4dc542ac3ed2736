//! Times collecting. The Rust has no such operation: start and step are beside the model, plain Rust that does the
//! same, and what is sent is beside the Rust's builder, which is made before the calls.

use gorvisclen::{Collection, COLLECT_NUMBERS, COMMAND, EXTENDED_SUPPORTED, GET_RESPONSE};

use super::model::get_response_header;
use super::operations::{start, step, write};
use crate::benchmark::{ours, Size, Table, HEADER, NO_LIMIT};
use crate::builder::{write_built, BuilderInput};

const SENT: Collection = Collection { kind: COMMAND, header: HEADER, le: 256, mode: EXTENDED_SUPPORTED, held: 300 };

pub fn bench(table: &mut Table) {
    let data = [0xAA; 256];
    let command = BuilderInput::new(HEADER, 256, EXTENDED_SUPPORTED, &data[..16]);
    table.calls("collection started (model)", NO_LIMIT, &[start(command)], Size::default());
    for (n, of) in [(0, "no data"), (256, "256 bytes")] {
        let size = Size { to: 300 + n, out: COLLECT_NUMBERS, bytes: n };
        for (words, status) in [("61xx", [0x61, 0x10]), ("6Cxx", [0x6C, 0x10]), ("the end", [0x90, 0x00])] {
            let response = [&data[..n], &status].concat();
            table.calls(&format!("step, {words}, {of} (model)"), NO_LIMIT, &[step(SENT, &response)], size);
        }
    }
    let header = get_response_header(HEADER[0]);
    for (name, state, data) in [
        ("write GET RESPONSE", Collection { kind: GET_RESPONSE, header, ..SENT }, &[][..]),
        ("write the command again, 16 bytes", SENT, &data[..16]),
    ] {
        let Collection { header, le, mode, .. } = state;
        let builder = BuilderInput::new(header, le, mode, data).rust_builder().unwrap();
        let size = Size { to: 300, out: 1, bytes: 0 };
        table.sides((name, NO_LIMIT), size, (&[builder], &[write(state, data, 0)]), write_built, ours);
    }
}
