//! A store: the plugin's rules, and the rows and notes that clients bring.

use std::fmt;

use crate::answers::{self, Connect, Earlier, EarlierConnect, LineRefusal, Publish, Refusal, Subscribe};
use crate::host::Rows;
use crate::sys;

/// R, F, E, N: the bytes for the rule text and the rows that each table has room for, all in range.
#[derive(Clone, Copy, Debug, PartialEq, Eq, Hash)]
pub struct Counts {
    bytes: u64,
    filters: u64,
    eqs: u64,
    notes: u64,
}

impl Counts {
    const HEADER: u64 = 16;
    const FILTER_ROW: u64 = 326;
    const EQ_ROW: u64 = 260;
    const NOTE_ROW: u64 = 260;
    const MOST_BYTES: u64 = 32_768;
    const MOST_ROWS: u64 = 4_096;

    /// R from 1 to 32,768, and F, E, N from 1 to 4,096; else refused by 4.
    pub fn new(bytes: u64, filters: u64, eqs: u64, notes: u64) -> Result<Counts, Refusal> {
        let rows_fit = [filters, eqs, notes].iter().all(|rows| (1..=Counts::MOST_ROWS).contains(rows));
        if rows_fit && (1..=Counts::MOST_BYTES).contains(&bytes) {
            Ok(Counts { bytes, filters, eqs, notes })
        } else {
            Err(Refusal::Counts)
        }
    }

    /// The length of a store: 16 + R + 326F + 260E + 260N.
    pub fn length(self) -> usize {
        let rows =
            Counts::FILTER_ROW * self.filters + Counts::EQ_ROW * self.eqs + Counts::NOTE_ROW * self.notes;
        (Counts::HEADER + self.bytes + rows) as usize
    }

    fn numbers(self) -> [u64; 4] {
        [self.bytes, self.filters, self.eqs, self.notes]
    }
}

/// Who asks: the client id, and what else is known of the client.
#[derive(Clone, Copy, Default)]
pub struct Client<'a> {
    /// The client id, at most 64 bytes.
    pub id: &'a [u8],
    /// The user name, at most 64 bytes.
    pub name: Option<&'a [u8]>,
    /// The password, at most 128 bytes.
    pub password: Option<&'a [u8]>,
    /// The address as text, at most 45 bytes.
    pub address: Option<&'a [u8]>,
}

/// Without the password.
impl fmt::Debug for Client<'_> {
    fn fmt(&self, f: &mut fmt::Formatter<'_>) -> fmt::Result {
        f.debug_struct("Client")
            .field("id", &self.id)
            .field("name", &self.name)
            .field("address", &self.address)
            .finish_non_exhaustive()
    }
}

/// A store. Its bytes are its own; each event and question is one call on them.
///
/// `earlier`, of a question, is the answer of whatever the broker asked before: a refusal is kept.
#[derive(Clone, PartialEq, Eq)]
pub struct Store {
    bytes: Vec<u8>,
}

/// Without the bytes, which may hold passwords.
impl fmt::Debug for Store {
    fn fmt(&self, f: &mut fmt::Formatter<'_>) -> fmt::Result {
        f.debug_struct("Store").field("length", &self.bytes.len()).finish_non_exhaustive()
    }
}

impl Store {
    /// Opens a store for a rule text. Refused by 1 (text over R, line 0; over 256 lines, line 257), else by
    /// the first faulty line's 1, 5, 6.
    pub fn open(counts: Counts, rules: &[u8]) -> Result<Store, LineRefusal> {
        let mut store = Store { bytes: vec![0; counts.length()] };
        store.reopen(counts, rules)?;
        Ok(store)
    }

    /// Opens the store anew, in its own bytes: no row stays. Refused, also by 4 where its length isn't that
    /// of the counts, it is as it was.
    pub fn reopen(&mut self, counts: Counts, rules: &[u8]) -> Result<(), LineRefusal> {
        answers::opened(sys::open(&mut self.bytes, counts.numbers(), rules))
    }

    /// A store from bytes that were kept. Any will do: where they aren't as laid out, events and questions
    /// are refused by 3.
    pub fn from_bytes(bytes: Vec<u8>) -> Store {
        Store { bytes }
    }

    /// The bytes of the store.
    pub fn as_bytes(&self) -> &[u8] {
        &self.bytes
    }

    /// The bytes of the store, handed back.
    pub fn into_bytes(self) -> Vec<u8> {
        self.bytes
    }

    /// Event: a client has connected. Templates are filled with its id and name and give rows and notes.
    /// Refused by 1, 2, 3, 7, 8, 9, 10.
    pub fn connected(&mut self, session: u64, client: Client<'_>) -> Result<(), Refusal> {
        answers::done(sys::connected(&mut self.bytes, session, client))
    }

    /// Event: a client has disconnected. Of the filter rows of its id those go that T-match a note of the session
    /// that is a valid filter; the notes stay. Refused by 1, 2, 3. Its time grows with the client's rows times the
    /// session's notes: 512 of each take 1 ms with short texts, at worst 0.3 s; 4,096 of each 0.2 s, at worst 20 s.
    pub fn disconnected(&mut self, session: u64, client: Client<'_>) -> Result<(), Refusal> {
        answers::done(sys::disconnected(&mut self.bytes, session, client))
    }

    /// Event: a session has ended. Its notes go. Refused by 2, 3.
    pub fn ended(&mut self, session: u64) -> Result<(), Refusal> {
        answers::done(sys::ended(&mut self.bytes, session))
    }

    /// How many rows of each table are used; none where the store is not as laid out.
    pub fn used_rows(&self) -> Option<Rows> {
        Rows::of(sys::used_rows(&self.bytes))
    }

    /// May the client connect? Refused by 1, 2, 3.
    pub fn connect(
        &self,
        earlier: EarlierConnect,
        client: Client<'_>,
        protocol: u8,
    ) -> Result<Connect, Refusal> {
        answers::connect(sys::connect(&self.bytes, earlier as u64, client, protocol))
    }

    /// May the client subscribe to the topic, with this QoS? Refused by 1, 2, 3.
    pub fn subscribe(
        &self,
        earlier: Earlier,
        client: Client<'_>,
        protocol: Option<u8>,
        topic: &[u8],
        qos: u64,
    ) -> Result<Subscribe, Refusal> {
        answers::subscribe(sys::subscribe(&self.bytes, earlier as u64, client, protocol, topic, qos))
    }

    /// May the client publish to the topic? A refusal by a rule, or by none, carries the disconnect flag.
    /// Refused by 1, 2, 3.
    pub fn publish(
        &self,
        earlier: Earlier,
        client: Client<'_>,
        protocol: Option<u8>,
        topic: &[u8],
        disconnect: bool,
    ) -> Result<Publish, Refusal> {
        answers::publish(sys::publish(&self.bytes, earlier as u64, client, protocol, topic, disconnect))
    }
}

#[cfg(test)]
mod tests {
    use super::*;

    /// The checked constructor takes exactly the counts that the proved function takes.
    #[test]
    fn counts_are_those_of_open() {
        let edges = |most: u64| [0, 1, most, most + 1, u64::from(u16::MAX) + 2, u64::MAX];
        let mut all = Vec::new();
        for bytes in edges(Counts::MOST_BYTES) {
            all.push([bytes, 1, 1, 1]);
        }
        for rows in edges(Counts::MOST_ROWS) {
            all.extend([[1, rows, 1, 1], [1, 1, rows, 1], [1, 1, 1, rows]]);
        }
        all.push([u64::MAX; 4]);
        for counts in all {
            let [bytes, filters, eqs, notes] = counts;
            match Counts::new(bytes, filters, eqs, notes) {
                Ok(taken) => {
                    let mut store = vec![1; taken.length()];
                    assert_eq!(sys::open(&mut store, counts, b""), 0, "{counts:?}");
                    assert_eq!(sys::open(&mut store[1..], counts, b""), 4, "{counts:?}");
                }
                Err(refusal) => {
                    assert_eq!(refusal, Refusal::Counts);
                    let least = Counts { bytes: 1, filters: 1, eqs: 1, notes: 1 }.length();
                    assert_eq!(sys::open(&mut vec![1; least], counts, b""), 4, "{counts:?}");
                    assert_eq!(sys::open(&mut [], counts, b""), 4, "{counts:?}");
                }
            }
        }
    }
}
