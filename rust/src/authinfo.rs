//! The rules that came with a client's credentials, and whether these still hold.

use std::time::Duration;

use crate::answers::{self, ClientPublish, ClientSubscribe, LineRefusal, Refusal};
use crate::sys;

/// A client with the rules that came with its credentials: lines of JSON objects, at most 32,768 bytes and
/// 256 lines. They are read at each question; a line that is no rule refuses it, whoever asks.
#[derive(Clone, Copy, Debug, Default)]
pub struct AuthInfo<'a> {
    /// Is the client a superuser? Then all is allowed, by rule 0, once nothing is refused by number.
    pub superuser: bool,
    /// The client id, at most 64 bytes.
    pub id: &'a [u8],
    /// The user name, at most 64 bytes.
    pub name: Option<&'a [u8]>,
    /// The rules.
    pub rules: &'a [u8],
}

impl AuthInfo<'_> {
    /// May the client subscribe to the topic, with this QoS? Refused by 1 or 2, line 0 or 257, else by the
    /// first faulty line's 1, 5, 6, 7.
    pub fn subscribe(self, topic: &[u8], qos: u64) -> Result<ClientSubscribe, LineRefusal> {
        answers::client_subscribe(sys::client_subscribe(self, topic, qos))
    }

    /// May the client publish to the topic? Refused as above. A refusal by a rule carries the disconnect
    /// flag.
    pub fn publish(
        self,
        topic: &[u8],
        qos: u64,
        retain: bool,
        disconnect: bool,
    ) -> Result<ClientPublish, LineRefusal> {
        answers::client_publish(sys::client_publish(self, topic, qos, retain, disconnect))
    }
}

/// A time: seconds with nanoseconds.
#[derive(Clone, Copy, Debug, PartialEq, Eq, Hash)]
pub struct Time {
    /// Whole seconds.
    pub seconds: u64,
    /// Nanoseconds, at most 999,999,999.
    pub nanoseconds: u64,
}

/// What a clock says since the epoch: `SystemTime::now().duration_since(UNIX_EPOCH)`.
impl From<Duration> for Time {
    fn from(since: Duration) -> Time {
        Time { seconds: since.as_secs(), nanoseconds: since.subsec_nanos().into() }
    }
}

/// Are the credentials expired now? An expiry below now is; an equal one isn't; none never. Refused by 2.
pub fn expired(expiry: Option<Time>, now: Time) -> Result<bool, Refusal> {
    let parts = |time: Time| (time.seconds, time.nanoseconds);
    answers::expired(sys::expired(expiry.map(parts), parts(now)))
}
