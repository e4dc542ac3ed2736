//! Collecting in plain words, over all that came: a command, and the responses to it that were accepted. The data are
//! those of all responses, joined. GET RESPONSE is sent once a 61xx has come, the command before that. The last status
//! says the expected length; before the first it is the command's own. The last status is the end unless it is 61xx or
//! 6Cxx.

use gorvisclen::{Collection, COLLECT_NUMBERS, COMMAND, GET_RESPONSE};

use super::model::{asked_len, ended, get_response_header, goes_on, GET_RESPONSE_MODE};
use crate::builder::BuilderInput;

pub struct History<'a> {
    pub command: BuilderInput<'a>,
    /// Responses, each of at least two bytes.
    pub accepted: Vec<Vec<u8>>,
}

impl<'a> History<'a> {
    fn parts(&self) -> impl DoubleEndedIterator<Item = (&[u8], &[u8; 2])> {
        self.accepted.iter().filter_map(|response| response.split_last_chunk())
    }

    pub fn collected(&self) -> Vec<u8> {
        self.parts().flat_map(|(data, _)| data).copied().collect()
    }

    pub fn collected_len(&self) -> usize {
        self.parts().map(|(data, _)| data.len()).sum()
    }

    /// The status at which it ended, if it has.
    pub fn end(&self) -> Option<[u8; 2]> {
        let (_, &status) = self.parts().next_back()?;
        (!matches!(status, [0x61 | 0x6C, _])).then_some(status)
    }

    fn get_response(&self) -> bool {
        self.parts().any(|(_, status)| status[0] == 0x61)
    }

    fn expected_len(&self) -> u32 {
        self.parts().next_back().map_or(self.command.le, |(_, status)| asked_len(status[1]))
    }

    /// What is to be sent.
    pub fn to_send(&self) -> BuilderInput<'a> {
        let BuilderInput { header, mode, data, .. } = self.command;
        let le = self.expected_len();
        match self.get_response() {
            true => BuilderInput::new(get_response_header(header[0]), le, GET_RESPONSE_MODE, &[]),
            false => BuilderInput::new(header, le, mode, data),
        }
    }

    /// The bytes to send. Those of GET RESPONSE are five.
    pub fn bytes(&self) -> Vec<u8> {
        match self.get_response() {
            true => vec![self.command.header[0], 0xC0, 0x00, 0x00, self.expected_len() as u8],
            false => self.to_send().bytes(),
        }
    }

    /// The state in which this is to be sent.
    pub fn state(&self) -> Collection {
        let BuilderInput { header, le, mode, .. } = self.to_send();
        let kind = if self.get_response() { GET_RESPONSE } else { COMMAND };
        Collection { kind, header, le, mode, held: self.collected_len() }
    }

    /// The numbers of the last step.
    pub fn numbers(&self) -> [u64; COLLECT_NUMBERS] {
        self.end().map_or_else(|| goes_on(self.state()), |status| ended(status, self.collected_len()))
    }

    /// The refusal of a response in a room of this length, if it is refused.
    pub fn refusal(&self, response: &[u8], room_len: usize) -> Option<u8> {
        match response.len() {
            0 | 1 => Some(22),
            n if self.collected_len() + n - 2 > room_len => Some(23),
            _ => None,
        }
    }
}
