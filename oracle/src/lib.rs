//! A second reading of documents 01 and 02: the Wm side of a tunnel access server, written
//! to be held beside the paper and compared with another program call by call.
//!
//! The first modules bear the names of the paper's headings; the others make calls
//! and write them down as a script.

pub mod burst;
pub mod deciding;
pub mod disconnecting;
pub mod handling;
pub mod history;
pub mod judging;
pub mod known_avps;
pub mod moving;
pub mod reading_a_message;
pub mod reauthorizing;
pub mod rules;
pub mod set_up;
pub mod the_board;
pub mod the_table;
pub mod the_year;
pub mod writing_the_answer;

pub mod abort_calls;
pub mod abort_signs;
pub mod board_calls;
pub mod board_report;
pub mod burst_calls;
pub mod burst_rounds;
pub mod burst_signs;
pub mod cases;
pub mod damages;
pub mod drafts;
pub mod either_case;
pub mod faults;
pub mod form_signs;
pub mod forms;
pub mod framing;
pub mod generator;
pub mod history_calls;
pub mod judge_rounds;
pub mod judge_signs;
pub mod judging_calls;
pub mod move_signs;
pub mod moves;
pub mod old_answers;
pub mod operator_signs;
pub mod operators;
pub mod past_the_rollover;
pub mod planting;
pub mod program;
pub mod random;
pub mod reauth_calls;
pub mod reauth_circles;
pub mod reauth_signs;
pub mod recorder;
pub mod report;
pub mod rollover;
pub mod script;
pub mod second_blocks;
pub mod sequences;
pub mod year_calls;

/// The code of an outcome and its kind.
#[derive(Clone, Copy, Debug, PartialEq, Eq)]
pub enum Code {
    /// A number from 1 to 8, or 33: no Diameter answer was written.
    NoAnswer(u16),
    /// A Result-Code.
    Plain(u16),
    /// An Experimental-Result of 3GPP.
    Experimental(u16),
}

pub const fn plain(number: u16) -> Code {
    Code::Plain(number)
}

pub const fn experimental(number: u16) -> Code {
    Code::Experimental(number)
}

pub const SUCCESS: Code = plain(2001);

impl Code {
    pub fn number(self) -> u16 {
        let (Code::NoAnswer(n) | Code::Plain(n) | Code::Experimental(n)) = self;
        n
    }

    /// 0 no answer, 1 Result-Code, 2 Experimental-Result.
    pub fn kind(self) -> u8 {
        match self {
            Code::NoAnswer(_) => 0,
            Code::Plain(_) => 1,
            Code::Experimental(_) => 2,
        }
    }
}

/// What handling a request returns. `cut` holds the lengths of the cut access's
/// Session-Id, gateway host and realm; in form 1 no realm is held.
#[derive(Clone, Copy, Debug, PartialEq, Eq)]
pub struct Outcome {
    pub code: Code,
    pub length: usize,
    pub place: u8,
    pub cut: Option<[usize; 3]>,
}

impl Outcome {
    /// Code, kind, length, place, cut, and the lengths of the cut texts.
    pub fn numbers(&self) -> [u32; 8] {
        let [session, host, realm] = self.cut.unwrap_or_default();
        [
            u32::from(self.code.number()),
            u32::from(self.code.kind()),
            self.length as u32,
            u32::from(self.place),
            u32::from(self.cut.is_some()),
            session as u32,
            host as u32,
            realm as u32,
        ]
    }

    pub fn no_answer(number: u16) -> Outcome {
        Outcome {
            code: Code::NoAnswer(number),
            length: 0,
            place: 0,
            cut: None,
        }
    }
}
