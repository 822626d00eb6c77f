//! A refusal: its number and the words of docs/ANSWERS.md.

use std::error::Error;
use std::fmt;

/// Why a call was refused. A refused call has written nothing.
#[derive(Clone, Copy, Debug, PartialEq, Eq)]
pub struct Refusal {
    number: u64,
}

impl Refusal {
    /// The refusal of an answer's number, none for 0.
    pub(crate) fn of(number: u64) -> Result<(), Refusal> {
        if number == 0 {
            return Ok(());
        }
        Err(Refusal { number })
    }

    /// The refusal's number, as in docs/ANSWERS.md.
    pub fn number(self) -> u64 {
        self.number
    }

    /// The words for the number, as in docs/ANSWERS.md.
    pub fn words(self) -> &'static str {
        match self.number {
            1 => "the algorithm is not one of 1 to 8",
            2 => "the padding does not belong to the algorithm",
            3 => "the tag's number of bits is not allowed for the algorithm",
            4 => "the keys have the wrong length for the algorithm, or it takes no master",
            5 => "the first key is the same as another and must differ",
            7 => "the message has the wrong number of bytes for its bits",
            8 => "the message has more than 8388608 bits",
            9 => "the message is too short for the algorithm",
            10 => "the tag or the room for it has the wrong number of bytes",
            11 => "the session is closed or for the other purpose, or its last piece ended within a byte",
            12 => "the message is not as long as was declared",
            20 => "the slip is cut short",
            21 => "a field is missing or out of order",
            22 => "a field's length or value is not allowed",
            23 => "the expiry is not a real date from 2000 to 2099",
            24 => "there are bytes after the seal",
            25 => "the slip names another algorithm, padding or m than agreed",
            30 => "the seal is wrong",
            41 => "no such whole block",
            _ => "a number that this binding has no words for",
        }
    }
}

/// As the program says it: `refused 30: the seal is wrong`.
impl fmt::Display for Refusal {
    fn fmt(&self, f: &mut fmt::Formatter<'_>) -> fmt::Result {
        write!(f, "refused {}: {}", self.number, self.words())
    }
}

impl Error for Refusal {}
