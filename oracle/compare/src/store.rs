//! A store of the port: what it is asked, and what its bytes hold.

use oracle::decide::Kind;
use oracle::events::{Event, Tables};
use oracle::questions::Asked;
use oracle::rules::Client;

/// Document 01: bytes of a text, of an owner, in a row.
const TEXT: usize = 256;
const OWNER: usize = 64;

pub struct Store {
    pub counts: port::Counts,
    pub bytes: Vec<u8>,
}

impl Store {
    /// For rule texts of up to so many bytes.
    pub fn new(room: u64) -> Store {
        Store::of(port::Counts { bytes: room, filters: 64, eqs: 32, notes: 64 })
    }

    pub fn of(counts: port::Counts) -> Store {
        Store { counts, bytes: vec![0xa5; counts.length()] }
    }

    /// What the bytes are to be: document 01's layout with these used rows.
    pub fn laid_out(&self, text: &[u8], rows: &Tables) -> Vec<u8> {
        let port::Counts { bytes, filters, eqs, notes } = self.counts;
        let used = [rows.filters.len(), rows.eqs.len(), rows.notes.len()].map(|n| n as u64);
        let header = [bytes, filters, eqs, notes, text.len() as u64, used[0], used[1], used[2]];
        let mut out: Vec<u8> = header.iter().flat_map(|n| (*n as u16).to_le_bytes()).collect();
        let mut at = 16;
        let mut part = |length: u64, rows: &[u8]| {
            out.extend(rows);
            at += length as usize;
            out.resize(at, 0);
        };
        part(bytes, text);
        let filter = |(rule, text, owner): &(usize, Vec<u8>, Vec<u8>)| {
            let numbers = [*rule, text.len(), owner.len()];
            [numbered(&numbers), padded(text, TEXT), padded(owner, OWNER)].concat()
        };
        part(326 * filters, &rows.filters.iter().flat_map(filter).collect::<Vec<u8>>());
        let row = |n: usize, text: &[u8]| [numbered(&[n, text.len()]), padded(text, TEXT)].concat();
        part(260 * eqs, &rows.eqs.iter().flat_map(|(rule, text)| row(*rule, text)).collect::<Vec<u8>>());
        part(
            260 * notes,
            &rows.notes.iter().flat_map(|(s, text)| row(*s as usize, text)).collect::<Vec<u8>>(),
        );
        out
    }

    fn number(&self, at: usize) -> usize {
        u16::from_le_bytes([self.bytes[at], self.bytes[at + 1]]) as usize
    }

    /// At most so many bytes, wherever the length comes from.
    fn text(&self, at: usize, length: usize, most: usize) -> Vec<u8> {
        self.bytes[at..at + length.min(most)].to_vec()
    }

    /// The used rows, as the bytes have them. Whether the rest is as laid out is asked by `laid_out`.
    pub fn tables(&self) -> Tables {
        let port::Counts { bytes, filters, eqs, notes } = self.counts;
        let filters_at = 16 + bytes as usize;
        let eqs_at = filters_at + 326 * filters as usize;
        let notes_at = eqs_at + 260 * eqs as usize;
        let rows = |used, room: u64| 0..self.number(used).min(room as usize);
        let filter = |i: usize| {
            let at = filters_at + 326 * i;
            let text = self.text(at + 6, self.number(at + 2), TEXT);
            (self.number(at), text, self.text(at + 6 + TEXT, self.number(at + 4), OWNER))
        };
        let row = |at: usize| (self.number(at), self.text(at + 4, self.number(at + 2), TEXT));
        let note = |(session, text): (usize, Vec<u8>)| (session as u64, text);
        Tables {
            filters: rows(10, filters).map(filter).collect(),
            eqs: rows(12, eqs).map(|i| row(eqs_at + 260 * i)).collect(),
            notes: rows(14, notes).map(|i| note(row(notes_at + 260 * i))).collect(),
        }
    }

    pub fn open(&mut self, text: &[u8]) -> u32 {
        port::open(&mut self.bytes, self.counts, text)
    }

    pub fn event(&mut self, event: &Event) -> u32 {
        let number = match event {
            Event::Connected { session, id, name } => {
                let name = (name.given, name.value.as_bytes());
                port::connected(&mut self.bytes, *session, id.as_bytes(), name)
            }
            Event::Disconnected { session, id } => {
                port::disconnected(&mut self.bytes, *session, id.as_bytes())
            }
            Event::Ended { session } => port::ended(&mut self.bytes, *session),
        };
        number as u32
    }

    pub fn ask(&self, asked: &Asked, disconnect: bool) -> u32 {
        let Client { id, name, password, address, protocol } = &asked.client;
        let client = port::Client {
            earlier: asked.earlier,
            id: id.as_bytes(),
            name: (name.given, name.value.as_bytes()),
            password: (password.given, &password.value),
            address: (address.given, address.value.as_bytes()),
            protocol: (protocol.given, protocol.value),
        };
        let topic = asked.topic.as_bytes();
        match asked.kind {
            Kind::Connect => port::connect(&self.bytes, client),
            Kind::Subscribe => port::subscribe(&self.bytes, client, topic, asked.qos),
            Kind::Publish => port::publish(&self.bytes, client, topic, disconnect),
        }
    }
}

fn numbered(numbers: &[usize]) -> Vec<u8> {
    numbers.iter().flat_map(|n| (*n as u16).to_le_bytes()).collect()
}

fn padded(text: &[u8], length: usize) -> Vec<u8> {
    let mut out = text.to_vec();
    out.resize(length, 0);
    out
}
