//! All calls of a function, and what they took of the stack.

use crate::choices::{Argument, MOST_LENT};
use crate::exported::Parameter;
use crate::painted::{Function, Stack};

/// What calls may write: two slices of bytes and one of numbers. It is not cleared between calls.
pub struct Lent {
    rooms: [Vec<u8>; 2],
    numbers: Vec<u64>,
}

impl Lent {
    pub fn new() -> Lent {
        Lent { rooms: [vec![0; MOST_LENT], vec![0; MOST_LENT]], numbers: vec![0; 16] }
    }

    pub fn room(&mut self, len: usize) -> &mut [u8] {
        &mut self.rooms[0][..len]
    }

    /// Arguments as words: a slice is a pointer and a length.
    fn words(&mut self, arguments: &[&Argument]) -> Vec<u64> {
        let mut words = vec![];
        let mut rooms = self.rooms.iter_mut();
        for argument in arguments {
            words.extend(match argument {
                Argument::Number(_) => None,
                Argument::Bytes(list) => Some(list.as_ptr() as u64),
                Argument::Tags(list) => Some(list.as_ptr() as u64),
                Argument::Room(len) => Some(rooms.next().expect("too many rooms")[..*len].as_mut_ptr() as u64),
                Argument::Numbers(len) => Some(self.numbers[..*len].as_mut_ptr() as u64),
            });
            words.push(argument.size() as u64);
        }
        words
    }

    /// Calls an exported function.
    ///
    /// # Safety
    /// The arguments have to be those of the function.
    pub unsafe fn call(&mut self, stack: &mut Stack, function: Function, arguments: &[&Argument]) -> (u8, usize) {
        stack.call(function, &self.words(arguments))
    }
}

/// What the calls of a function took.
pub struct Measured {
    pub calls: usize,
    pub accepted: usize,
    /// For each choice of each parameter, the most that its calls took; nothing if there was no such call.
    pub by_choice: Vec<Vec<Option<usize>>>,
}

impl Measured {
    /// Makes a call for every combination of arguments. It returns its reply and what it took, or nothing if it cannot
    /// be made.
    pub fn new(parameters: &[Parameter], mut call: impl FnMut(&[&Argument]) -> Option<(u8, usize)>) -> Measured {
        let by_choice = parameters.iter().map(|parameter| vec![None; parameter.choices.len()]).collect();
        let mut measured = Measured { calls: 0, accepted: 0, by_choice };
        for combination in 0..parameters.iter().map(|parameter| parameter.choices.len()).product() {
            let chosen = chosen(combination, parameters);
            let choices = parameters.iter().map(|parameter| &parameter.choices).zip(&chosen);
            let arguments: Vec<&Argument> = choices.map(|(choices, &i)| &choices[i]).collect();
            if let Some((reply, depth)) = call(&arguments) {
                measured.calls += 1;
                measured.accepted += usize::from(reply == 0);
                for (depths, i) in measured.by_choice.iter_mut().zip(chosen) {
                    depths[i] = depths[i].max(Some(depth));
                }
            }
        }
        measured
    }

    /// The most that a call took.
    pub fn deepest(&self) -> usize {
        self.by_choice.iter().flatten().flatten().copied().max().unwrap_or_default()
    }
}

/// Which choice of each parameter belongs to a combination: its digits.
fn chosen(combination: usize, parameters: &[Parameter]) -> Vec<usize> {
    let mut rest = combination;
    let digit = |parameter: &Parameter| {
        let digit = rest % parameter.choices.len();
        rest /= parameter.choices.len();
        digit
    };
    parameters.iter().map(digit).collect()
}
