// Functions that use private items of command.rs. They are included after it, in the same module.

/// As `CommandBuilder::new`, but with `ExtendedLen::Unsupported`.
pub fn short_only(
    class: class::Class,
    instruction: Instruction,
    [p1, p2]: [u8; 2],
    data: &[u8],
    le: ExpectedLen,
) -> CommandBuilder<&[u8]> {
    let supported = CommandBuilder::new(class, instruction, p1, p2, data, le);
    CommandBuilder {
        extended_length: ExtendedLen::Unsupported,
        ..supported
    }
}

/// The fields of a builder except its data: header, expected length, and mode (0 short only, 1 supported, 2 forced).
pub fn fields(builder: &CommandBuilder<&[u8]>) -> ([u8; 4], ExpectedLen, u8) {
    let header = [
        builder.class.into_inner(),
        builder.instruction.into(),
        builder.p1,
        builder.p2,
    ];
    let mode = match builder.extended_length {
        ExtendedLen::Unsupported => 0,
        ExtendedLen::Supported => 1,
        ExtendedLen::Forced => 2,
    };
    (header, builder.le, mode)
}

/// The chain that cuts the rest of a command.
pub fn chain_of(rest: CommandBuilder<&[u8]>, available_len: usize) -> ChainedCommandIterator<'_> {
    ChainedCommandIterator {
        command: Some(rest),
        available_len,
    }
}

/// The rest of a command that a chain has not cut yet.
pub fn rest_of<'a>(chain: &ChainedCommandIterator<'a>) -> Option<CommandBuilder<&'a [u8]>> {
    chain.command.clone()
}
