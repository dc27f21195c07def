//! The events: the port's calls on a store, and the plugin's hooks. Both hold
//! the rows of other clients; the events are of one client more.

use std::hint::black_box;

use oracle::decide::Attrs;
use oracle::Runtime;
use rmqtt::types::{ClientId, Id, UserName};

use crate::clients::Client;
use crate::lists::List;
use crate::measure::{repeat, Row};

/// What is repeated: an event that changes nothing, or all three, which leave
/// the tables as they were.
#[derive(Clone, Copy, PartialEq)]
enum Event {
    /// Connected, of a client whose rows are there.
    Present,
    /// Disconnected, of a client whose note is there, and no row.
    Gone,
    /// Session end, of a session without notes.
    Ended,
    /// Connected, disconnected, session end.
    Cycle,
}

pub struct Events {
    list: List,
    event: Event,
    client: Client,
    /// The plugin's notes of the client's session.
    attrs: Attrs,
    runtime: Runtime,
}

impl Events {
    /// On a list with the rows of so many other clients. The name of the client
    /// is one of theirs, since an eq row, once there, stays.
    pub fn new(others: usize, event: &str) -> Events {
        let event = match event {
            "present" => Event::Present,
            "gone" => Event::Gone,
            "ended" => Event::Ended,
            "cycle" => Event::Cycle,
            other => panic!("no event {other}"),
        };
        let id = Id::new(None, ClientId::from(format!("g{others}")), Some(UserName::from("n0")));
        let client = Client { session: 255, id };
        let (list, attrs) = (List::with_clients(others), Attrs::default());
        let mut events = Events { list, event, client, attrs, runtime: oracle::runtime() };
        events.begin();
        events
    }

    /// The tables as the event finds them.
    fn begin(&mut self) {
        let Events { list, client, attrs, .. } = self;
        if matches!(self.event, Event::Present | Event::Gone) {
            assert_eq!(client.connected(&mut list.store), 0);
            self.runtime.block_on(list.plugin.connected(&client.id, attrs));
        }
        if self.event == Event::Gone {
            assert_eq!(client.disconnected(&mut list.store), 0);
            self.runtime.block_on(list.plugin.disconnected(&client.id, attrs));
        }
    }

    /// The number of calls that are done.
    fn port(&mut self, n: usize) -> usize {
        let Events { event, client, list, .. } = self;
        let call = |_: &usize| {
            let store = black_box(&mut list.store);
            let number = match event {
                Event::Present => client.connected(store),
                Event::Gone => client.disconnected(store),
                Event::Ended => client.ended(store),
                Event::Cycle => client.connected(store) | client.disconnected(store) | client.ended(store),
            };
            number == 0
        };
        (0..n).filter(call).count()
    }

    /// All in one turn of the runtime, which runs the tasks that the plugin spawns.
    /// Present is given a session of its own: the plugin notes what it has noted.
    fn rust(&mut self, n: usize) -> usize {
        let Events { event, client, list, attrs, runtime } = self;
        let plugin = &list.plugin;
        runtime.block_on(async {
            for _ in 0..n {
                match event {
                    Event::Present => plugin.connected(&client.id, &Attrs::default()).await,
                    Event::Gone => plugin.disconnected(&client.id, attrs).await,
                    Event::Ended => panic!("the plugin knows no session end"),
                    Event::Cycle => {
                        let session = Attrs::default();
                        plugin.connected(&client.id, &session).await;
                        plugin.disconnected(&client.id, &session).await;
                    }
                }
            }
        });
        n
    }

    fn floor(&self, n: usize) -> usize {
        let calls = if self.event == Event::Cycle { 3 } else { 1 };
        repeat(std::slice::from_ref(&self.list), n, |list| (0..calls).all(|_| list.floor()))
    }
}

impl Row for Events {
    fn run(&mut self, side: &str, n: usize) -> usize {
        match side {
            "none" => repeat(&[()], n, |_| true),
            "port" => self.port(n),
            "rust" => self.rust(n),
            "floor" => self.floor(n),
            other => panic!("no side {other}"),
        }
    }

    fn sides(&self) -> &'static [&'static str] {
        match self.event {
            Event::Ended => &["port", "floor"],
            _ => &["port", "rust", "floor"],
        }
    }

    /// Both sides have the same rows, and have them afterwards.
    fn check(&mut self, _: bool) {
        self.list.check();
        let store = self.list.store.clone();
        let [rows, in_plugin] = self.list.filter_rows();
        assert_eq!(rows, in_plugin, "filter rows");
        for side in self.sides() {
            assert_eq!(self.run(side, 2), 2, "{side}");
        }
        assert!(store == self.list.store, "the store is as it was");
        assert_eq!(self.list.filter_rows(), [rows, rows], "filter rows afterwards");
    }

    fn counted(&self) -> usize {
        30
    }
}
