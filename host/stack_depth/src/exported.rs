//! The exported functions, and what each of their arguments is tried with.

use crate::choices::{self, Argument};
use crate::painted::Function;

/// A parameter: its kind, and what it is tried with.
pub struct Parameter {
    pub kind: &'static str,
    pub choices: Vec<Argument>,
}

/// An exported function.
pub struct Exported {
    pub name: &'static str,
    pub function: Function,
    pub parameters: Vec<Parameter>,
}

/// Lists functions by their names without the prefix, with a kind of `choices` for each argument.
macro_rules! exported {
    ($($name:ident($($kind:ident),*);)*) => {
        /// All exported functions.
        pub fn all() -> Vec<Exported> {
            vec![$({
                extern "C" {
                    #[link_name = concat!("gorvisclen_", stringify!($name))]
                    fn exported();
                }
                let parameters = vec![$(Parameter { kind: stringify!($kind), choices: choices::$kind() }),*];
                Exported { name: stringify!($name), function: exported as Function, parameters }
            }),*]
        }
    };
}

exported! {
    class(class, out);
    class_as_chained(class, out);
    range(class, out);
    class_constants(out);
    aid(name, truncated_len, out);
    aid_whole(name, out);
    aid_matches(name, truncated_len, name, out);
    aid_part(name, truncated_len, part, buffer, out);
    command(flag, command, out);
    command_data(flag, command, buffer, out);
    command_owned(flag, command, buffer, out);
    command_extend(held, buffer, command, out);
    required_len(built_class, byte, byte, byte, le, mode, data, out);
    force_extended(built_class, byte, byte, byte, le, mode, data, out);
    builder_eq(built_class, byte, byte, byte, le, mode, data, command, out);
    serialize_into(built_class, byte, byte, byte, le, mode, data, buffer, place, out);
    should_split(built_class, byte, byte, byte, le, mode, data, available, out);
    new_non_extended(built_class, byte, byte, byte, data, chain_le, available);
    write_next(built_class, byte, byte, byte, chain_le, available, place, flag, data, buffer, place, out);
    join(flag, class, byte, byte, byte, held, command, buffer, out);
    reset(flag, class, byte, byte, byte, held);
    joined_data(held, data, buffer, out);
    response_split(response, out);
    response_data(response, buffer, out);
    response_append(response, held, buffer, out);
    status(sw1, sw2, out);
    status_name(sw1, sw2, buffer, out);
    collect_start(built_class, byte, byte, byte, le, mode, data, out);
    collect_step(flag, built_class, byte, byte, byte, le, mode, held, response, buffer, out);
    collect_write(flag, built_class, byte, byte, byte, le, mode, data, buffer, place, out);
    collected(held, data, buffer, out);
    take_tag(flag, record, out);
    take_len(flag, record, out);
    take_data_object(flag, record, place, out);
    get_data_object(flag, record, path, out);
    value(flag, record, path, buffer, out);
    put_data_object(tag_byte, tag_byte, tag_byte, data, buffer, place, out);
    build_index(record, buffer, place, out);
    check_index(file, out);
    get_indexed(file, record, path, out);
    take_chunk(walk_kind, walk_tag, walk_number, chunk, out);
    close_chunks(walk_kind, walk_tag, walk_number, out);
    read_profile(profile, out);
    profile_serial(profile, buffer, out);
    has_lapsed(profile, year, month, day, out);
    due_shown(profile, profile, buffer, out);
    due_shown_from(profile, profile, out);
    put_profile(serial, year, month, day, capacity, buffer, place, out);
}
