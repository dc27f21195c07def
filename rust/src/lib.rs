//! Access rules of an MQTT broker: who may connect, subscribe and publish.
//!
//! The functions behind this crate are written in Rattle and proved: for any bytes and any numbers each gives
//! the answer of the specification, which docs/SPEC.md retells, refusals too. This crate is the thin
//! layer that calls them from Rust: it lends slices, and turns the numbers that come back into enums. The layer is
//! tested, not proved.
//!
//! - [`Store`]: the plugin's rules, with the rows that clients bring; events ([`Store::connected`], ..) and
//!   questions ([`Store::connect`], [`Store::subscribe`], [`Store::publish`]).
//! - [`AuthInfo`]: the rules that came with one client's credentials; [`expired`].
//! - [`valid_filter`], [`tree_match`] (T, the plugin's), [`plain_match`] (P, the per-client rules').
//! - [`check_rule`], [`identity`], [`is_document`], [`is_document_within`]: one line.
//! - [`plain_name`], [`templates`], [`Store::used_rows`]: which ids to refuse, how large to make the tables, how
//!   full they are.
//!
//! Texts are bytes, of any content. No call allocates but [`Store::open`] and a store's `clone`, and none keeps
//! what it is lent; on the stack 24 KB will do. A refusal is an `Err` with document 01's number, and then nothing
//! has changed; `?` takes one without a line for one with ([`LineRefusal`]). No call panics, whatever it is given
//! and whatever the library answers: a number that isn't known is [`Refusal::Unknown`]. An empty slice may be lent
//! everywhere: nothing is read from its address.
//!
//! ```
//! use mqtt_acl::{Client, Connect, Counts, Earlier, EarlierConnect, LineRefusal, Publish, Store};
//!
//! let rules = br#"["allow",{"user":"bo"},"publish",["bench/%c/set"]]
//! ["deny","all","pubsub"]
//! "#;
//! let mut store = Store::open(Counts::new(2048, 64, 32, 64)?, rules)?;
//! let g7 = Client { id: b"g7", name: Some(b"bo"), ..Client::default() };
//!
//! assert_eq!(store.connect(EarlierConnect::None, g7, 4)?, Connect::Refuse { rule: 0 });
//! store.connected(1, g7)?;
//! let answer = store.publish(Earlier::None, g7, Some(4), b"bench/g7/set", true)?;
//! assert_eq!(answer, Publish::Allow { rule: 1 });
//! # Ok::<(), LineRefusal>(())
//! ```
//!
//! # A client's life
//!
//! [`Store::connect`] is asked when its CONNECT comes; [`Store::connected`] is told once it is in, and fills the
//! rules' `%c` and `%u` with its id and name, which gives it rows. [`Store::subscribe`] and [`Store::publish`] are
//! asked for each filter and each message, a delivery as a subscribe to the message's topic.
//! [`Store::disconnected`] is told when it has left, [`Store::ended`] when its session is over.
//!
//! - Sessions are 0 to 255, in one of two ways, which are proved to give the same rows
//!   (crates/hosting/specs/Claims.antt). Each client has a number of its own: it enters by connected, and leaves by
//!   disconnected and ended; only then does the number serve another. Or one number serves all: a client enters by
//!   connected and ended, and leaves by connected, disconnected and ended, with the name by which it came.
//! - Rows belong to the id, not to the connection. On a take-over the old one leaves, then the new one enters. A
//!   disconnected that is told late takes away the rows of the new one.
//! - Ask a will before the client leaves: its rows are gone afterwards.
//! - A reload of the broker may ask basic authentication again. Ask connect and no more: take no new session number
//!   and tell no connected.
//! - A broker may ask for a made-up client, without address, password and protocol (Mosquitto's
//!   `check_retain_source`). Rules that list an address or a protocol don't mean it, and deny rules that do don't
//!   deny it.
//! - A rule that asks for a password, an address or a protocol asks in every question: keep them while the client is
//!   there. The superuser flag of connect is not looked at afterwards.
//! - Ids and names with `+`, `#`, `/` or a leading `$` widen rules ([`plain_name`]), and an id with `%` may take the
//!   user name in. Refuse them where rules have `%c` or `%u`. A client's own rules are widened in the same way.
//! - Eq rows never leave; [`Templates`] says how large to make the tables.
//! - New rules without losing rows: open a second store, let everyone present enter it, and take it in place of the
//!   first if nothing was refused.
//!
//! include/mqtt_acl.h says the rest: what is proved of it, and what a broker does on each refusal.
//!
//! # Building
//!
//! For x86-64 Linux alone; another target is refused. build.rs asks `bin/build mqtt_acl` of the repository, which
//! proves and writes what changed, or links the libmqtt_acl.a of the folder that the environment variable
//! `MQTT_ACL_LIB` names.
//!
//! # Between versions
//!
//! While the first number is 0, a new second number may change names, arguments and the layout of a store. A new
//! third number changes none of these: it may add calls, refusals and answers, for which the enums are
//! `#[non_exhaustive]`; take one that isn't known as a refusal. This crate takes those of a newer library as
//! [`Refusal::Unknown`]. [`version`] is that of the library that is linked.
#![deny(missing_docs, unsafe_code, unsafe_op_in_unsafe_fn)]

#[cfg(not(all(target_arch = "x86_64", target_os = "linux", target_pointer_width = "64")))]
compile_error!("libmqtt_acl.a is for x86-64 Linux");

/// The Rust of the repository's README.md is run as a test.
#[cfg(doctest)]
#[doc = include_str!("../../README.md")]
struct Readme;

mod answers;
mod authinfo;
mod host;
mod line;
mod store;
#[allow(unsafe_code)]
mod sys;

pub use answers::{
    ClientPublish, ClientSubscribe, Connect, Earlier, EarlierConnect, Identity, LineRefusal, Publish,
    Refusal, Subscribe,
};
pub use authinfo::{expired, AuthInfo, Time};
pub use host::{plain_name, templates, Rows, Templates};
pub use line::{
    check_rule, identity, is_document, is_document_within, plain_match, tree_match, valid_filter,
};
pub use store::{Client, Counts, Store};

/// The version of the library that is linked: 10,000 times its first number, 100 times its second, and its third.
pub fn version() -> u32 {
    sys::version()
}
