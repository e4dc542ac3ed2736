//! A model of the text that apdulist prints, from document 01, "The listing", with the places of request 2 of document
//! 02. The original Rust reads commands and objects.

use original::command::CommandView;
use original::tlv::{take_data_object, take_tag};

/// The most bytes of an input.
pub const MAX_INPUT: usize = 60_000;

/// A two-byte number at the front, and the rest.
fn number(bytes: &[u8]) -> Option<(usize, &[u8])> {
    let (front, rest) = bytes.split_first_chunk::<2>()?;
    Some((u16::from_be_bytes(*front).into(), rest))
}

/// A section: a count, then that many items, each after its length; and the rest.
fn section(bytes: &[u8]) -> Option<(Vec<&[u8]>, &[u8])> {
    let (count, mut rest) = number(bytes)?;
    let mut items = Vec::new();
    for _ in 0..count {
        let (len, after_len) = number(rest)?;
        let (item, after_item) = after_len.split_at_checked(len)?;
        items.push(item);
        rest = after_item;
    }
    Some((items, rest))
}

/// Both sections, if nothing follows them.
fn sections(input: &[u8]) -> Option<[Vec<&[u8]>; 2]> {
    if input.len() > MAX_INPUT {
        return None;
    }
    let (commands, rest) = section(input)?;
    let (records, rest) = section(rest)?;
    rest.is_empty().then_some([commands, records])
}

/// The line of a command without its number.
fn command(apdu: &[u8]) -> String {
    match CommandView::try_from(apdu) {
        // The Rust's errors are in the order of the numbers.
        Err(error) => format!("refused {}", 1 + error as u8),
        Ok(view) => format!(
            "{:02X} {:02X} {:02X} {:02X} lc {} le {} {}",
            view.class().into_inner(),
            u8::from(view.instruction()),
            view.p1,
            view.p2,
            view.data().len(),
            view.expected(),
            if view.extended { "extended" } else { "short" },
        ),
    }
}

/// The lines of a record without its number. The place of a refusal is how many bytes of the record are before it.
fn objects(record: &[u8]) -> Vec<String> {
    let mut lines = Vec::new();
    let mut left = record;
    while !left.is_empty() {
        let number = lines.len() + 1;
        let Some((_, value, after_object)) = take_data_object(left) else {
            lines.push(format!("{number} refused 12 at {}", record.len() - left.len()));
            break;
        };
        let (_, after_tag) = take_tag(left).expect("an object starts with a tag");
        let tag = &left[..left.len() - after_tag.len()];
        let hex: String = tag.iter().map(|byte| format!("{byte:02X}")).collect();
        lines.push(format!("{number} {hex} {}", value.len()));
        left = after_object;
    }
    lines
}

/// The whole text for an input.
pub fn text(input: &[u8]) -> String {
    let Some([commands, records]) = sections(input) else {
        return "refused 20\n".into();
    };
    let mut lines = vec![format!("commands {}", commands.len())];
    for (i, apdu) in commands.iter().enumerate() {
        lines.push(format!("{} {}", i + 1, command(apdu)));
    }
    lines.push(format!("records {}", records.len()));
    for (i, record) in records.iter().enumerate() {
        lines.extend(objects(record).iter().map(|line| format!("{}.{line}", i + 1)));
    }
    lines.join("\n") + "\n"
}
