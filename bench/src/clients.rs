//! Clients, and the rows of a store that a rule's templates give them.

use rmqtt::types::{ClientId, Id, UserName};

pub struct Client {
    pub session: u64,
    pub id: Id,
}

impl Client {
    /// The client with this number, which has one of so many names.
    pub fn new(n: usize, names: u64) -> Client {
        let name = UserName::from(format!("n{}", n as u64 % names));
        Client { session: n as u64 % 256, id: Id::new(None, ClientId::from(format!("g{n}")), Some(name)) }
    }

    fn name(&self) -> &str {
        self.id.username.as_ref().expect("a name")
    }

    /// The port's events; 0 done.
    pub fn connected(&self, store: &mut [u8]) -> u8 {
        port::connected(store, self.session, self.id.client_id.as_bytes(), (true, self.name().as_bytes()))
    }

    pub fn disconnected(&self, store: &mut [u8]) -> u8 {
        port::disconnected(store, self.session, self.id.client_id.as_bytes())
    }

    pub fn ended(&self, store: &mut [u8]) -> u8 {
        port::ended(store, self.session)
    }
}

/// They give each client a filter row and a note, and each name an eq row.
pub struct Templates {
    filter: String,
    eq: String,
}

impl Templates {
    pub fn common() -> Templates {
        Templates { filter: "bench/%c/set".into(), eq: "room/%u".into() }
    }

    /// Rows that are equal up to their last bytes.
    fn worst() -> Templates {
        Templates { filter: format!("{}/%c", "bench".repeat(50)), eq: format!("{}/%u", "room".repeat(62)) }
    }

    /// Those of the list with this name.
    pub fn of(list: &str) -> Templates {
        if list == "4096w" {
            return Templates::worst();
        }
        Templates::common()
    }

    pub fn topics(&self) -> String {
        format!("\"{}\",{{\"eq\":\"{}\"}}", self.filter, self.eq)
    }

    pub fn filter(&self, id: &str) -> String {
        self.filter.replace("%c", id)
    }
}

/// Writes the rows that the clients have by the templates of a rule.
pub fn lay_out(
    store: &mut [u8],
    counts: port::Counts,
    rule: usize,
    templates: &Templates,
    clients: &[Client],
) {
    let names = clients.len().min(counts.eqs as usize);
    for (at, used) in [(10, clients.len()), (12, names), (14, clients.len())] {
        store[at..at + 2].copy_from_slice(&(used as u16).to_le_bytes());
    }
    let (filters, rest) = store[16 + counts.bytes as usize..].split_at_mut(326 * counts.filters as usize);
    let (eqs, notes) = rest.split_at_mut(260 * counts.eqs as usize);
    for (n, client) in clients.iter().enumerate() {
        let id = &client.id.client_id;
        let filter = templates.filter(id);
        write(&mut filters[326 * n..], rule, &[(&filter, 256), (id, 64)]);
        write(&mut notes[260 * n..], client.session as usize, &[(&filter, 256)]);
        if n < names {
            write(&mut eqs[260 * n..], rule, &[(&templates.eq.replace("%u", client.name()), 256)]);
        }
    }
}

/// Writes a row of a table: its number and its texts, each in so many bytes.
fn write(row: &mut [u8], number: usize, texts: &[(&str, usize)]) {
    let lengths = texts.iter().map(|(text, _)| text.len());
    for (i, n) in [number].into_iter().chain(lengths).enumerate() {
        row[2 * i..2 * i + 2].copy_from_slice(&(n as u16).to_le_bytes());
    }
    let mut at = 2 + 2 * texts.len();
    for (text, room) in texts {
        row[at..at + text.len()].copy_from_slice(text.as_bytes());
        at += room;
    }
}
