use std::fmt;

/// Why a call was refused, a run was stopped or a record could not be walked.
#[derive(Clone, Copy, PartialEq, Eq, Hash, Debug)]
pub enum Refusal {
    BadProgram = 1,
    BadCounts = 2,
    BadTurn = 3,
    TooLittleLent = 4,
    NameUnbound = 5,
    WrongValue = 6,
    WrongMode = 7,
    NoInput = 8,
    NoRoom = 9,
    TooDeep = 10,
    HoldersDisagree = 11,
    NotAnEvent = 12,
}

impl Refusal {
    const ALL: [Refusal; 12] = [
        Refusal::BadProgram,
        Refusal::BadCounts,
        Refusal::BadTurn,
        Refusal::TooLittleLent,
        Refusal::NameUnbound,
        Refusal::WrongValue,
        Refusal::WrongMode,
        Refusal::NoInput,
        Refusal::NoRoom,
        Refusal::TooDeep,
        Refusal::HoldersDisagree,
        Refusal::NotAnEvent,
    ];

    /// The refusal of a number, as an event of kind 7 holds it.
    pub fn from_number(number: u8) -> Option<Refusal> {
        Refusal::ALL.into_iter().find(|refusal| refusal.number() == number)
    }

    pub fn number(self) -> u8 {
        self as u8
    }
}

impl fmt::Display for Refusal {
    fn fmt(&self, out: &mut fmt::Formatter) -> fmt::Result {
        out.write_str(match self {
            Refusal::BadProgram => "bad program",
            Refusal::BadCounts => "the input counts are not n in number, or don't sum to the number of input integers",
            Refusal::BadTurn => "a turn not below n, or past the 65,535th",
            Refusal::TooLittleLent => "R below 10, fewer than n length places, or less working area than stated",
            Refusal::NameUnbound => "a name is unbound",
            Refusal::WrongValue => "a value of the wrong sort or at the wrong set",
            Refusal::WrongMode => "the mode doesn't fit",
            Refusal::NoInput => "that party's input is used up",
            Refusal::NoRoom => "no record room for a member's event; in the joint run, for the site's own",
            Refusal::TooDeep => "a LET with 64 frames down already",
            Refusal::HoldersDisagree => "holders disagree at a joint step",
            Refusal::NotAnEvent => "not an event",
        })
    }
}

impl std::error::Error for Refusal {}
