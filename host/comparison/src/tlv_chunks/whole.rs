//! What the Rust reads in a whole record, and so what must be told of it in chunks: by all bytes so far and those that
//! are handed in, not by states. Objects are those of `take_data_object`. It reads no header alone; its two parts do,
//! `take_tag` and `take_len`. They say whether the header of an object that is cut is whole, and after which byte no
//! header can be read any more, whatever follows.

use std::ops::Range;

use gorvisclen::{ChunkWalk, CHUNK_NUMBERS};
use original::tlv::{take_data_object, take_len, take_tag};

use super::told::{stopped, Event, Joined, Tells};
use crate::answer::Told;
use crate::tlv::rust_walk::{place_of, tag_number};

/// A header that is whole: the tag, and where the value is. A value that is cut ends past the record.
struct Header {
    tag: u64,
    value: Range<usize>,
}

/// An object, or what there is of it.
struct Object {
    start: usize,
    header: Option<Header>,
}

pub struct Whole<'a> {
    pub record: &'a [u8],
    /// The objects that the Rust reads, and one more, at which it stops: that one is cut or cannot be read, or has no
    /// bytes at all.
    objects: Vec<Object>,
    /// The place right after the first byte after which nothing can be read, if there is one.
    unreadable: Option<usize>,
}

/// The header that some bytes begin with, if it is whole and can be read: its tag, where its value starts, and the
/// value's length.
fn header(bytes: &[u8]) -> Option<(u64, usize, usize)> {
    let (tag, rest) = take_tag(bytes)?;
    let (len, behind) = take_len(rest)?;
    Some((tag_number(tag), place_of(behind, bytes).start, len))
}

/// Whether a header that begins with some bytes can be read: these bytes alone, or with any byte and zeros behind them.
fn can_be_read(front: &[u8]) -> bool {
    let (mut bytes, n) = ([0; 16], front.len());
    bytes[..n].copy_from_slice(front);
    // The first two are enough for all headers that can be read.
    let mut next = [0x00, 0x20].into_iter().chain(0..=255);
    let with = |byte| {
        bytes[n] = byte;
        header(&bytes).is_some()
    };
    header(front).is_some() || next.any(with)
}

/// The state in a header that is not complete.
fn state_in_header(bytes: &[u8]) -> ChunkWalk {
    let Some((tag, rest)) = take_tag(bytes) else {
        let tag = bytes.iter().fold(0, |n, &byte| n * 256 + u32::from(byte));
        return ChunkWalk { kind: bytes.len() as u8, tag, number: 0 };
    };
    let (kind, number) = match *rest {
        [] => (3, 0),
        [0x81] => (4, 0),
        [0x82] => (5, 0),
        [0x82, high] => (6, high.into()),
        _ => panic!("a header that is complete: {bytes:X?}"),
    };
    ChunkWalk { kind, tag: tag_number(tag) as u32, number }
}

impl<'a> Whole<'a> {
    pub fn of(record: &'a [u8]) -> Self {
        let (mut objects, mut rest, mut start) = (Vec::new(), record, 0);
        while let Some((tag, value, behind)) = take_data_object(rest) {
            let header = Header { tag: tag_number(tag), value: place_of(value, record) };
            objects.push(Object { start, header: Some(header) });
            (rest, start) = (behind, record.len() - behind.len());
        }
        let cut = header(rest).map(|(tag, at, len)| Header { tag, value: start + at..start + at + len });
        let unreadable = match cut {
            Some(_) => None,
            None => (1..=rest.len()).find(|&n| !can_be_read(&rest[..n])).map(|n| start + n),
        };
        objects.push(Object { start, header: cut });
        Whole { record, objects, unreadable }
    }

    /// The object that the byte at a place belongs to.
    fn object_at(&self, at: usize) -> &Object {
        &self.objects[self.objects.partition_point(|object| object.start <= at) - 1]
    }

    /// Whether the walk has stopped at a place: a byte before it made a header unreadable.
    pub fn has_stopped_at(&self, at: usize) -> bool {
        self.unreadable.is_some_and(|place| place <= at)
    }

    /// The state after all bytes before a place.
    pub fn state_at(&self, at: usize) -> ChunkWalk {
        let object = self.object_at(at);
        match &object.header {
            _ if self.has_stopped_at(at) => stopped(12),
            _ if object.start == at => ChunkWalk::START,
            Some(Header { value, .. }) if value.start <= at => {
                ChunkWalk { kind: 7, tag: 0, number: (value.end - at - 1) as u16 }
            }
            _ => state_in_header(&self.record[object.start..at]),
        }
    }

    /// What is told when the bytes from a place to another are handed in, in the state at the first.
    pub fn take(&self, at: usize, end: usize) -> Told<CHUNK_NUMBERS> {
        let tells = match &self.object_at(at).header {
            _ if self.has_stopped_at(at) => return Err((12, Tells::only(0).numbers(stopped(12)))),
            Some(Header { tag, value }) if at < value.start && value.start <= end => {
                Tells { head: Some([*tag, value.len() as u64]), end: value.is_empty(), taken: value.start - at }
            }
            Some(Header { value, .. }) if value.start <= at && value.end <= end => {
                Tells { head: None, end: true, taken: value.end - at }
            }
            None if self.has_stopped_at(end) => {
                let taken = self.unreadable.map_or(0, |place| place - at);
                return Err((12, Tells::only(taken).numbers(stopped(12))));
            }
            _ => Tells::only(end - at),
        };
        Ok(tells.numbers(self.state_at(at + tells.taken)))
    }

    /// What is told when no bytes come after those before a place.
    pub fn close(&self, at: usize) -> Told<CHUNK_NUMBERS> {
        let number = if self.state_at(at) == ChunkWalk::START { 11 } else { 12 };
        Err((number, Tells::only(0).numbers(stopped(number))))
    }

    /// All that is told, up to the refusal, which comes before closing or by it; and the state after all bytes.
    pub fn joined(&self) -> Joined {
        let mut events = Vec::new();
        for Header { tag, value } in self.objects.iter().filter_map(|object| object.header.as_ref()) {
            events.push(Event::Head(*tag, value.len() as u64));
            events.extend((value.end <= self.record.len()).then_some(Event::End));
        }
        let at_boundary = self.objects.last().is_none_or(|object| object.start == self.record.len());
        events.push(Event::Refused(if at_boundary { 11 } else { 12 }));
        Joined::new(&events, self.state_at(self.record.len()))
    }

    /// The places at which objects and values start and end.
    pub fn edges(&self) -> Vec<usize> {
        let of_object = |object: &Object| {
            let value = object.header.as_ref().map(|header| [header.value.start, header.value.end]);
            [object.start].into_iter().chain(value.into_iter().flatten())
        };
        self.objects.iter().flat_map(of_object).filter(|&at| at <= self.record.len()).collect()
    }
}
