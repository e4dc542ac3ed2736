//! The Rust's serialization, with the inputs of the exported functions of the same names. What is serialized is made
//! before the call, and not on its stack. Inputs on which the Rust panics are left out.

use std::slice;

use original::command::DataStream;
use original::tlv::{Tag, Tlv};
use original_private::command::class::Class;
use original_private::command::{short_only, CommandBuilder, ExpectedLen};

use crate::choices::Argument;
use crate::measured::Lent;
use crate::painted::{Function, Stack};

type Builder<'a> = CommandBuilder<&'a [u8]>;

/// What a call replied and how much it took; nothing if the Rust was not called.
pub type Outcome = Option<(u8, usize)>;

/// Calls one of the functions below, with an object, a number, and the part of a room from a place on.
fn call<T>(
    (stack, lent): (&mut Stack, &mut Lent),
    function: Function,
    (object, number): (&T, usize),
    (room_len, at): (usize, usize),
) -> Outcome {
    let rest = lent.room(room_len).get_mut(at..)?;
    let words = [object as *const T as u64, number as u64, rest.as_mut_ptr() as u64, rest.len() as u64];
    // Safety: each of the functions takes such arguments.
    Some(unsafe { stack.call(function, &words) })
}

unsafe extern "C" fn write_command(builder: &Builder, _: usize, to: *mut u8, len: usize) -> u8 {
    builder.serialize_into(&mut slice::from_raw_parts_mut(to, len)).is_err().into()
}

/// As `next` of the Rust's chain, and then `serialize_into`.
unsafe extern "C" fn write_piece(builder: &Builder, available: usize, to: *mut u8, len: usize) -> u8 {
    let mut to = slice::from_raw_parts_mut(to, len);
    match builder.should_split(available) {
        Some((first, _)) => first.serialize_into(&mut to).is_err().into(),
        None => builder.serialize_into(&mut to).is_err().into(),
    }
}

unsafe extern "C" fn write_object(object: &Tlv<&[u8]>, _: usize, to: *mut u8, len: usize) -> u8 {
    object.to_writer(&mut slice::from_raw_parts_mut(to, len)).is_err().into()
}

/// The numbers of a call, its bytes to read, and the length of its room.
fn parts<'a>(arguments: &[&'a Argument]) -> (Vec<usize>, &'a [u8], usize) {
    let (mut numbers, mut bytes, mut room_len) = (vec![], &[][..], 0);
    for argument in arguments {
        match argument {
            Argument::Number(n) => numbers.push(*n),
            Argument::Bytes(list) => bytes = list,
            Argument::Room(len) => room_len = *len,
            Argument::Tags(_) | Argument::Numbers(_) => {}
        }
    }
    (numbers, bytes, room_len)
}

/// A builder; nothing if the Rust has no such class, or panics.
fn builder(header: [usize; 4], le: usize, mode: usize, data: &[u8]) -> Option<Builder<'_>> {
    let [class, instruction, p1, p2] = header.map(|byte| byte as u8);
    let class = Class::try_from(class).ok().filter(|_| data.len() <= 65_535)?;
    let (instruction, le) = (instruction.into(), u16::try_from(le).map_or(ExpectedLen::Max, ExpectedLen::Ne));
    Some(match mode {
        0 => short_only(class, instruction, [p1, p2], data, le),
        1 => CommandBuilder::new(class, instruction, p1, p2, data, le),
        _ => CommandBuilder::new(class, instruction, p1, p2, data, le).force_extended(),
    })
}

pub fn serialize_into(stack: &mut Stack, lent: &mut Lent, arguments: &[&Argument]) -> Outcome {
    let (numbers, data, room_len) = parts(arguments);
    let [class, instruction, p1, p2, le, mode, at] = numbers[..] else { panic!("another function's arguments") };
    let builder = builder([class, instruction, p1, p2], le, mode, data)?;
    call((stack, lent), write_command as Function, (&builder, 0), (room_len, at))
}

pub fn write_next(stack: &mut Stack, lent: &mut Lent, arguments: &[&Argument]) -> Outcome {
    let (numbers, data, room_len) = parts(arguments);
    let [class, instruction, p1, p2, le, available, place, done, at] = numbers[..] else {
        panic!("another function's arguments")
    };
    if available < 10 || done != 0 {
        return None;
    }
    let builder = builder([class, instruction, p1, p2], le, 0, data.get(place..).unwrap_or_default())?;
    call((stack, lent), write_piece as Function, (&builder, available), (room_len, at))
}

pub fn put_data_object(stack: &mut Stack, lent: &mut Lent, arguments: &[&Argument]) -> Outcome {
    let (numbers, value, room_len) = parts(arguments);
    let [b1, b2, b3, at] = numbers[..] else { panic!("another function's arguments") };
    let object = Tlv::new(Tag::from([b1, b2, b3].map(|byte| byte as u8)), value);
    call((stack, lent), write_object as Function, (&object, 0), (room_len, at))
}
