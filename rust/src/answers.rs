//! What the calls answer, and how it is read from their numbers, by the parts that the library takes them apart
//! into (crates/mqtt_acl/specs/Unpacked.antt); what allows is what the library says does. No two answers have the
//! same number; a number that is no answer can come only from another library, and is an error.

use std::error::Error;
use std::fmt;

use crate::sys::{self, Parts};

/// Why a call is refused: the first cause in document 01's order, "Refusals by operation". All lent memory is
/// then unchanged.
#[derive(Clone, Copy, Debug, PartialEq, Eq, Hash)]
#[non_exhaustive]
pub enum Refusal {
    /// 1: a text over its length, a rule text over its lines, or an array of over 64 topics.
    TooLong,
    /// 2: session over 255, earlier code over 4 (connect) or over 2, QoS over 2, or nanoseconds over
    /// 999,999,999.
    OutOfRange,
    /// 3: the store is not as laid out.
    Malformed,
    /// 4: a count out of range, or a store whose length is not the formula's.
    Counts,
    /// 5: a line that is not the JSON of document 01.
    NotJson,
    /// 6: a line that is not a rule.
    NotARule,
    /// 7: a text over 256 bytes once filled.
    FilledTooLong,
    /// 8: new filter rows exceed those free.
    FiltersFull,
    /// 9: new eq rows exceed those free.
    EqsFull,
    /// 10: new note rows exceed those free.
    NotesFull,
    /// A number that this crate doesn't know, from a newer library. 0 where what came is no answer at all, which
    /// the library of this version is proved not to give. Either is a denial.
    Unknown(u8),
}

/// What came is no answer.
const NO_ANSWER: Refusal = Refusal::Unknown(0);

impl Refusal {
    /// The number of document 01, 1 to 10; that of [`Refusal::Unknown`] is any other.
    pub fn number(self) -> u8 {
        match self {
            Refusal::TooLong => 1,
            Refusal::OutOfRange => 2,
            Refusal::Malformed => 3,
            Refusal::Counts => 4,
            Refusal::NotJson => 5,
            Refusal::NotARule => 6,
            Refusal::FilledTooLong => 7,
            Refusal::FiltersFull => 8,
            Refusal::EqsFull => 9,
            Refusal::NotesFull => 10,
            Refusal::Unknown(number) => number,
        }
    }

    fn of(number: u8) -> Refusal {
        match number {
            1 => Refusal::TooLong,
            2 => Refusal::OutOfRange,
            3 => Refusal::Malformed,
            4 => Refusal::Counts,
            5 => Refusal::NotJson,
            6 => Refusal::NotARule,
            7 => Refusal::FilledTooLong,
            8 => Refusal::FiltersFull,
            9 => Refusal::EqsFull,
            10 => Refusal::NotesFull,
            _ => Refusal::Unknown(number),
        }
    }
}

impl fmt::Display for Refusal {
    fn fmt(&self, f: &mut fmt::Formatter<'_>) -> fmt::Result {
        let cause = match self {
            Refusal::TooLong => "a text is too long",
            Refusal::OutOfRange => "a number is out of range",
            Refusal::Malformed => "the store is not as laid out",
            Refusal::Counts => "a count or the store's length is out of range",
            Refusal::NotJson => "not the JSON of a rule line",
            Refusal::NotARule => "not a rule",
            Refusal::FilledTooLong => "a filled text is too long",
            Refusal::FiltersFull => "no room for the filter rows",
            Refusal::EqsFull => "no room for the eq rows",
            Refusal::NotesFull => "no room for the note rows",
            Refusal::Unknown(0) => return write!(f, "what the library says is no answer"),
            Refusal::Unknown(number) => return write!(f, "error {number}: not known to this crate"),
        };
        write!(f, "error {}: {cause}", self.number())
    }
}

impl Error for Refusal {}

/// A refusal with the line of the rule text.
#[derive(Clone, Copy, Debug, PartialEq, Eq, Hash)]
pub struct LineRefusal {
    /// The cause.
    pub refusal: Refusal,
    /// The line, from 1; 257 for a text of over 256 lines; 0 where the cause has none.
    pub line: u16,
}

impl LineRefusal {
    fn of(number: u8, line: u64) -> LineRefusal {
        match u16::try_from(line) {
            Ok(line) if line <= 257 => LineRefusal { refusal: Refusal::of(number), line },
            _ => NO_ANSWER.into(),
        }
    }
}

/// Without a line, so that `?` takes either: after [`Counts::new`](crate::Counts::new) and events, and after
/// [`Store::open`](crate::Store::open).
impl From<Refusal> for LineRefusal {
    fn from(refusal: Refusal) -> LineRefusal {
        LineRefusal { refusal, line: 0 }
    }
}

impl fmt::Display for LineRefusal {
    fn fmt(&self, f: &mut fmt::Formatter<'_>) -> fmt::Result {
        match self.line {
            0 => self.refusal.fmt(f),
            line => write!(f, "{}, line {line}", self.refusal),
        }
    }
}

impl Error for LineRefusal {}

/// The earlier answer to a connect, by whatever the broker asked before.
#[derive(Clone, Copy, Debug, PartialEq, Eq, Hash)]
#[repr(u8)]
pub enum EarlierConnect {
    /// There is none.
    None = 0,
    /// Allowed.
    Allow = 1,
    /// The client wasn't found.
    NotFound = 2,
    /// Bad name or password; kept.
    BadLogin = 3,
    /// Not authorized; kept.
    NotAuthorized = 4,
}

/// The earlier answer to a subscribe or a publish.
#[derive(Clone, Copy, Debug, PartialEq, Eq, Hash)]
#[repr(u8)]
pub enum Earlier {
    /// There is none.
    None = 0,
    /// Allowed.
    Allow = 1,
    /// Rejected; kept.
    Rejected = 2,
}

/// May the client connect? The deciding rule's number is from 1, 0 for none.
#[derive(Clone, Copy, Debug, PartialEq, Eq, Hash)]
#[non_exhaustive]
pub enum Connect {
    /// The earlier answer is kept: bad name or password, or not authorized.
    Kept(EarlierConnect),
    /// Allowed by the rule.
    Allow {
        /// The deciding rule.
        rule: u16,
        /// The superuser flag of the last listed user.
        superuser: bool,
    },
    /// Not authorized, by the rule, or by none.
    Refuse {
        /// The deciding rule, or 0.
        rule: u16,
    },
}

/// May the client subscribe? The deciding rule's number is from 1, 0 for none.
#[derive(Clone, Copy, Debug, PartialEq, Eq, Hash)]
#[non_exhaustive]
pub enum Subscribe {
    /// The earlier answer is kept: rejected.
    Kept(Earlier),
    /// Allowed by the rule.
    Allow {
        /// The deciding rule.
        rule: u16,
        /// The asked QoS.
        qos: u8,
    },
    /// Refused, by the rule, or by none: the Rust's `UnspecifiedError`.
    Refuse {
        /// The deciding rule, or 0.
        rule: u16,
    },
}

/// May the client publish? The deciding rule's number is from 1, 0 for none.
#[derive(Clone, Copy, Debug, PartialEq, Eq, Hash)]
#[non_exhaustive]
pub enum Publish {
    /// The earlier answer is kept: rejected.
    Kept(Earlier),
    /// Allowed by the rule.
    Allow {
        /// The deciding rule.
        rule: u16,
    },
    /// Not authorized, by the rule, or by none.
    Refuse {
        /// The deciding rule, or 0.
        rule: u16,
        /// The caller's disconnect flag.
        disconnect: bool,
    },
}

/// May the client subscribe, by its own rules?
#[derive(Clone, Copy, Debug, PartialEq, Eq, Hash)]
#[non_exhaustive]
pub enum ClientSubscribe {
    /// Allowed by the rule, or as a superuser.
    Allow {
        /// The rule that hits, from 1; 0 for a superuser.
        rule: u16,
        /// The asked QoS.
        qos: u8,
    },
    /// Not authorized, by the rule.
    Refuse {
        /// The rule that hits, from 1.
        rule: u16,
    },
    /// No rule hits.
    NoDecision,
}

/// May the client publish, by its own rules?
#[derive(Clone, Copy, Debug, PartialEq, Eq, Hash)]
#[non_exhaustive]
pub enum ClientPublish {
    /// Allowed by the rule, or as a superuser.
    Allow {
        /// The rule that hits, from 1; 0 for a superuser.
        rule: u16,
    },
    /// Not authorized, by the rule.
    Refuse {
        /// The rule that hits, from 1.
        rule: u16,
        /// The caller's disconnect flag.
        disconnect: bool,
    },
    /// No rule hits.
    NoDecision,
}

/// Do the users that a rule lists agree with a client?
#[derive(Clone, Copy, Debug, PartialEq, Eq, Hash)]
#[non_exhaustive]
pub enum Identity {
    /// One of them doesn't.
    Differs,
    /// Every one does, or none is listed.
    Agrees {
        /// The superuser flag of the last listed user.
        superuser: bool,
    },
    /// The line is no rule: not an agreement.
    NoRule,
}

impl Parts {
    /// The deciding rule.
    fn by(self) -> Result<u16, Refusal> {
        match u16::try_from(self.rule) {
            Ok(rule) if rule <= 256 => Ok(rule),
            _ => Err(NO_ANSWER),
        }
    }

    /// The code that is kept.
    fn kept_connect(self) -> Result<EarlierConnect, Refusal> {
        match self.code {
            3 => Ok(EarlierConnect::BadLogin),
            4 => Ok(EarlierConnect::NotAuthorized),
            _ => Err(NO_ANSWER),
        }
    }

    fn kept(self) -> Result<Earlier, Refusal> {
        match self.code {
            2 => Ok(Earlier::Rejected),
            _ => Err(NO_ANSWER),
        }
    }

    /// The refusal of a call that has no lines.
    fn refused(self) -> Refusal {
        match self.line {
            0 => Refusal::of(self.refusal),
            _ => NO_ANSWER,
        }
    }

    /// The refusal of a call by the text of the client's rules.
    fn refused_at(self) -> LineRefusal {
        LineRefusal::of(self.refusal, self.line)
    }
}

/// 0 done, else the number.
pub(crate) fn done(answer: u8) -> Result<(), Refusal> {
    match answer {
        0 => Ok(()),
        number => Err(Refusal::of(number)),
    }
}

/// 0 done, else the number and its line.
pub(crate) fn opened(answer: u32) -> Result<(), LineRefusal> {
    match sys::open_parts(answer) {
        (0, 0) => Ok(()),
        (number, line) => Err(LineRefusal::of(number, line.into())),
    }
}

/// A number that isn't known is no agreement either.
pub(crate) fn identity(answer: u8) -> Identity {
    match answer {
        0 => Identity::Differs,
        1 => Identity::Agrees { superuser: false },
        2 => Identity::Agrees { superuser: true },
        _ => Identity::NoRule,
    }
}

pub(crate) fn connect(answer: u32) -> Result<Connect, Refusal> {
    let parts = sys::parts(answer.into());
    match parts.what {
        0 => Err(parts.refused()),
        1 => Ok(Connect::Kept(parts.kept_connect()?)),
        2 | 3 if parts.allows => Ok(Connect::Allow { rule: parts.by()?, superuser: parts.superuser }),
        8 => Ok(Connect::Refuse { rule: parts.by()? }),
        _ => Err(NO_ANSWER),
    }
}

pub(crate) fn subscribe(answer: u32) -> Result<Subscribe, Refusal> {
    let parts = sys::parts(answer.into());
    match parts.what {
        0 => Err(parts.refused()),
        1 => Ok(Subscribe::Kept(parts.kept()?)),
        4..=6 if parts.allows => Ok(Subscribe::Allow { rule: parts.by()?, qos: parts.qos }),
        11 => Ok(Subscribe::Refuse { rule: parts.by()? }),
        _ => Err(NO_ANSWER),
    }
}

pub(crate) fn publish(answer: u32) -> Result<Publish, Refusal> {
    let parts = sys::parts(answer.into());
    match parts.what {
        0 => Err(parts.refused()),
        1 => Ok(Publish::Kept(parts.kept()?)),
        7 if parts.allows => Ok(Publish::Allow { rule: parts.by()? }),
        9 | 10 => Ok(Publish::Refuse { rule: parts.by()?, disconnect: parts.disconnect }),
        _ => Err(NO_ANSWER),
    }
}

pub(crate) fn client_subscribe(answer: u64) -> Result<ClientSubscribe, LineRefusal> {
    let parts = sys::parts(answer);
    match parts.what {
        0 => Err(parts.refused_at()),
        4..=6 if parts.allows => Ok(ClientSubscribe::Allow { rule: parts.by()?, qos: parts.qos }),
        8 => Ok(ClientSubscribe::Refuse { rule: parts.by()? }),
        12 => Ok(ClientSubscribe::NoDecision),
        _ => Err(NO_ANSWER.into()),
    }
}

pub(crate) fn client_publish(answer: u64) -> Result<ClientPublish, LineRefusal> {
    let parts = sys::parts(answer);
    match parts.what {
        0 => Err(parts.refused_at()),
        7 if parts.allows => Ok(ClientPublish::Allow { rule: parts.by()? }),
        9 | 10 => Ok(ClientPublish::Refuse { rule: parts.by()?, disconnect: parts.disconnect }),
        12 => Ok(ClientPublish::NoDecision),
        _ => Err(NO_ANSWER.into()),
    }
}

pub(crate) fn expired(answer: u64) -> Result<bool, Refusal> {
    let parts = sys::parts(answer);
    match parts.what {
        0 => Err(parts.refused()),
        13 => Ok(false),
        14 => Ok(true),
        _ => Err(NO_ANSWER),
    }
}

#[cfg(test)]
mod tests {
    use super::*;

    #[test]
    fn a_question_s_numbers() {
        assert_eq!(connect(16 * 3 + 1), Ok(Connect::Kept(EarlierConnect::BadLogin)));
        assert_eq!(connect(16 * 4 + 1), Ok(Connect::Kept(EarlierConnect::NotAuthorized)));
        assert_eq!(connect(16 * 256 + 2), Ok(Connect::Allow { rule: 256, superuser: false }));
        assert_eq!(connect(16 + 3), Ok(Connect::Allow { rule: 1, superuser: true }));
        assert_eq!(connect(8), Ok(Connect::Refuse { rule: 0 }));
        for asked in 0..3u8 {
            let answer = 16 * 7 + 4 + u32::from(asked);
            assert_eq!(subscribe(answer), Ok(Subscribe::Allow { rule: 7, qos: asked }));
            assert_eq!(client_subscribe(answer.into()), Ok(ClientSubscribe::Allow { rule: 7, qos: asked }));
        }
        assert_eq!(subscribe(16 * 2 + 1), Ok(Subscribe::Kept(Earlier::Rejected)));
        assert_eq!(subscribe(16 * 2 + 11), Ok(Subscribe::Refuse { rule: 2 }));
        assert_eq!(publish(16 * 2 + 1), Ok(Publish::Kept(Earlier::Rejected)));
        assert_eq!(publish(16 * 2 + 7), Ok(Publish::Allow { rule: 2 }));
        assert_eq!(publish(9), Ok(Publish::Refuse { rule: 0, disconnect: false }));
        assert_eq!(publish(10), Ok(Publish::Refuse { rule: 0, disconnect: true }));
        for number in 1..=10 {
            assert_eq!(publish(16 * number).map_err(|r| u32::from(r.number())), Err(number));
        }
    }

    #[test]
    fn a_client_s_numbers() {
        assert_eq!(client_subscribe(16 + 8), Ok(ClientSubscribe::Refuse { rule: 1 }));
        assert_eq!(client_subscribe(12), Ok(ClientSubscribe::NoDecision));
        assert_eq!(client_publish(7), Ok(ClientPublish::Allow { rule: 0 }));
        assert_eq!(client_publish(16 * 256 + 9), Ok(ClientPublish::Refuse { rule: 256, disconnect: false }));
        assert_eq!(client_publish(16 + 10), Ok(ClientPublish::Refuse { rule: 1, disconnect: true }));
        assert_eq!(client_publish(12), Ok(ClientPublish::NoDecision));
        let refused = LineRefusal { refusal: Refusal::FilledTooLong, line: 256 };
        assert_eq!(client_publish(16 * (7 + 256 * 256)), Err(refused));
        assert_eq!(opened(7 + 256 * 256), Err(refused));
        assert_eq!(opened(0), Ok(()));
        assert_eq!((expired(13), expired(14), expired(32)), (Ok(false), Ok(true), Err(Refusal::OutOfRange)));
    }

    /// A number of another library is an error, and never an answer that allows. Nothing panics.
    #[test]
    fn no_answers() {
        let none = Refusal::Unknown(0);
        assert_eq!(connect(0), Err(none));
        assert_eq!(connect(16 * 257 + 2), Err(none));
        assert_eq!(connect(16 * 2 + 1), Err(none));
        assert_eq!(connect(16 * 257 * 16), Err(none));
        assert_eq!(subscribe(2), Err(none));
        assert_eq!(subscribe(16 * 3 + 1), Err(none));
        assert_eq!(publish(16 * 3 + 1), Err(none));
        assert_eq!(client_publish(11), Err(none.into()));
        assert_eq!(client_publish(16 * 257 + 7), Err(none.into()));
        assert_eq!(client_publish(u64::MAX), Err(none.into()));
        assert_eq!(client_subscribe(16 * (1 + 256 * 258)), Err(none.into()));
        assert_eq!(client_subscribe(16 * (1 + 256 * 65_536)), Err(none.into()));
        assert_eq!((expired(12), expired(0)), (Err(none), Err(none)));
        assert_eq!(
            (opened(256), opened(258 * 256 + 1)),
            (Err(LineRefusal { refusal: none, line: 1 }), Err(none.into()))
        );
        for answer in 3..=255 {
            assert_eq!(identity(answer), Identity::NoRule);
        }
    }

    /// Numbers that a later version may add: refusals from 11 on, and the value 15.
    #[test]
    fn later_numbers() {
        for number in 11..=255u8 {
            let later = Refusal::Unknown(number);
            assert_eq!(later.number(), number);
            assert_eq!(done(number), Err(later));
            assert_eq!(opened(u32::from(number) + 256 * 7), Err(LineRefusal { refusal: later, line: 7 }));
            assert_eq!(connect(16 * u32::from(number)), Err(later));
            assert_eq!(subscribe(16 * u32::from(number)), Err(later));
            assert_eq!(publish(16 * u32::from(number)), Err(later));
            assert_eq!(client_subscribe(16 * u64::from(number)), Err(later.into()));
            assert_eq!(client_publish(16 * u64::from(number)), Err(later.into()));
            assert_eq!(expired(16 * u64::from(number)), Err(later));
        }
        for rule in [0, 1, 256] {
            let (answer, none) = (16 * rule + 15, Refusal::Unknown(0));
            assert_eq!(
                (connect(answer), subscribe(answer), publish(answer)),
                (Err(none), Err(none), Err(none))
            );
            let answer = u64::from(answer);
            assert_eq!(
                (client_subscribe(answer), client_publish(answer)),
                (Err(none.into()), Err(none.into()))
            );
            assert_eq!(expired(answer), Err(none));
        }
    }

    /// Any number is read by every call, and allows only where the library says that it does.
    #[test]
    fn any_number() {
        for answer in (0..1 << 17).chain((1..1 << 9).map(|n| u32::MAX / n)) {
            let allows = sys::parts(answer.into()).allows;
            assert!(allows || !matches!(connect(answer), Ok(Connect::Allow { .. })));
            assert!(allows || !matches!(subscribe(answer), Ok(Subscribe::Allow { .. })));
            assert!(allows || !matches!(publish(answer), Ok(Publish::Allow { .. })));
            let wide = u64::from(answer) << 32 | u64::from(answer);
            for answer in [answer.into(), wide] {
                let (allows, what) = (sys::parts(answer).allows, sys::parts(answer).what);
                assert!(allows || !matches!(client_subscribe(answer), Ok(ClientSubscribe::Allow { .. })));
                assert!(allows || !matches!(client_publish(answer), Ok(ClientPublish::Allow { .. })));
                assert_eq!(what == 13, expired(answer) == Ok(false));
            }
            let _ = opened(answer);
        }
    }
}
