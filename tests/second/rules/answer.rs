//! The answer of a call: six numbers, and how they are laid down.

/// Six fields of four bytes, low byte first (reading 10).
pub const ANSWER_BYTES: usize = 24;

/// "Every answer carries a code, a place, which, rounds, number of winners, start."
#[derive(Clone, Copy, Debug, Default, PartialEq, Eq)]
pub struct Answer {
    pub code: u32,
    pub place: u32,
    pub which: u32,
    pub rounds: u32,
    pub winners: u32,
    pub start: u32,
}

impl Answer {
    /// "Refusals have rounds, winners and start 0."
    pub fn refusal(code: u32, place: u32, which: u32) -> Answer {
        Answer { code, place, which, ..Answer::default() }
    }

    pub fn bytes(&self) -> [u8; ANSWER_BYTES] {
        let fields = [self.code, self.place, self.which, self.rounds, self.winners, self.start];
        let mut bytes = [0; ANSWER_BYTES];
        for (place, field) in fields.iter().enumerate() {
            bytes[4 * place..4 * place + 4].copy_from_slice(&field.to_le_bytes());
        }
        bytes
    }

    /// Empty if the buffer is too short to have been written to.
    pub fn from_bytes(bytes: &[u8]) -> Option<Answer> {
        if bytes.len() < ANSWER_BYTES {
            return None;
        }
        let field = |place: usize| {
            u32::from_le_bytes(bytes[4 * place..4 * place + 4].try_into().expect("four bytes"))
        };
        Some(Answer {
            code: field(0),
            place: field(1),
            which: field(2),
            rounds: field(3),
            winners: field(4),
            start: field(5),
        })
    }
}
