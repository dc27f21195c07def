//! The exported functions as crates/mqtt_acl declares them, and each as a safe function on slices. All of the
//! crate's unsafe code is here.
//!
//! Why a safe caller cannot break what the library takes for granted, the same for every call below:
//! - a slice's address is aligned for bytes, and its length is what can be read; of an empty slice the address
//!   is dangling, and nothing is read from it;
//! - a flag crosses as a byte, of which any is taken: 0 is false, every other true;
//! - the store that a call writes is the only `&mut`, so nothing else that is lent overlaps it;
//! - the functions ask nothing more: they are proved to answer on any bytes and any numbers, without a trap,
//!   and keep no address.

use crate::{AuthInfo, Client};

mod exported {
    extern "C" {
        pub fn mqtt_acl_version() -> u32;
        pub fn mqtt_acl_valid_filter(text: *const u8, text_length: usize) -> u8;
        pub fn mqtt_acl_tree_match(
            filter: *const u8,
            filter_length: usize,
            text: *const u8,
            text_length: usize,
        ) -> u8;
        pub fn mqtt_acl_plain_match(
            filter: *const u8,
            filter_length: usize,
            text: *const u8,
            text_length: usize,
        ) -> u8;
        pub fn mqtt_acl_is_document(line: *const u8, line_length: usize) -> u8;
        pub fn mqtt_acl_is_document_within(line: *const u8, line_length: usize, most: usize) -> u8;
        pub fn mqtt_acl_rule_refusal(line: *const u8, line_length: usize) -> u8;
        pub fn mqtt_acl_identity(
            line: *const u8,
            line_length: usize,
            id: *const u8,
            id_length: usize,
            has_name: u8,
            name: *const u8,
            name_length: usize,
            has_password: u8,
            password: *const u8,
            password_length: usize,
            has_address: u8,
            address: *const u8,
            address_length: usize,
            has_protocol: u8,
            protocol: u8,
        ) -> u8;
        pub fn mqtt_acl_open(
            store: *mut u8,
            store_length: usize,
            bytes: u64,
            filters: u64,
            eqs: u64,
            notes: u64,
            text: *const u8,
            text_length: usize,
        ) -> u32;
        pub fn mqtt_acl_connected(
            store: *mut u8,
            store_length: usize,
            session: u64,
            id: *const u8,
            id_length: usize,
            has_name: u8,
            name: *const u8,
            name_length: usize,
        ) -> u8;
        pub fn mqtt_acl_disconnected(
            store: *mut u8,
            store_length: usize,
            session: u64,
            id: *const u8,
            id_length: usize,
        ) -> u8;
        pub fn mqtt_acl_ended(store: *mut u8, store_length: usize, session: u64) -> u8;
        pub fn mqtt_acl_connect(
            store: *const u8,
            store_length: usize,
            earlier: u64,
            id: *const u8,
            id_length: usize,
            has_name: u8,
            name: *const u8,
            name_length: usize,
            has_password: u8,
            password: *const u8,
            password_length: usize,
            has_address: u8,
            address: *const u8,
            address_length: usize,
            protocol: u8,
        ) -> u32;
        pub fn mqtt_acl_subscribe(
            store: *const u8,
            store_length: usize,
            earlier: u64,
            id: *const u8,
            id_length: usize,
            has_name: u8,
            name: *const u8,
            name_length: usize,
            has_password: u8,
            password: *const u8,
            password_length: usize,
            has_address: u8,
            address: *const u8,
            address_length: usize,
            has_protocol: u8,
            protocol: u8,
            topic: *const u8,
            topic_length: usize,
            qos: u64,
        ) -> u32;
        pub fn mqtt_acl_publish(
            store: *const u8,
            store_length: usize,
            earlier: u64,
            id: *const u8,
            id_length: usize,
            has_name: u8,
            name: *const u8,
            name_length: usize,
            has_password: u8,
            password: *const u8,
            password_length: usize,
            has_address: u8,
            address: *const u8,
            address_length: usize,
            has_protocol: u8,
            protocol: u8,
            topic: *const u8,
            topic_length: usize,
            disconnect: u8,
        ) -> u32;
        pub fn mqtt_acl_plain_name(name: *const u8, name_length: usize) -> u8;
        pub fn mqtt_acl_filter_templates(rules: *const u8, rules_length: usize) -> usize;
        pub fn mqtt_acl_eq_templates(rules: *const u8, rules_length: usize) -> usize;
        pub fn mqtt_acl_used_rows(store: *const u8, store_length: usize) -> u64;
        pub fn mqtt_acl_client_subscribe(
            superuser: u8,
            id: *const u8,
            id_length: usize,
            has_name: u8,
            name: *const u8,
            name_length: usize,
            rules: *const u8,
            rules_length: usize,
            topic: *const u8,
            topic_length: usize,
            qos: u64,
        ) -> u64;
        pub fn mqtt_acl_client_publish(
            superuser: u8,
            id: *const u8,
            id_length: usize,
            has_name: u8,
            name: *const u8,
            name_length: usize,
            rules: *const u8,
            rules_length: usize,
            topic: *const u8,
            topic_length: usize,
            qos: u64,
            retain: u8,
            disconnect: u8,
        ) -> u64;
        pub fn mqtt_acl_expired(
            has_expiry: u8,
            expiry_seconds: u64,
            expiry_nanoseconds: u64,
            seconds: u64,
            nanoseconds: u64,
        ) -> u64;
        pub fn mqtt_acl_answer_what(answer: u64) -> u8;
        pub fn mqtt_acl_answer_allows(answer: u64) -> u8;
        pub fn mqtt_acl_answer_rule(answer: u64) -> u64;
        pub fn mqtt_acl_answer_code(answer: u64) -> u64;
        pub fn mqtt_acl_answer_qos(answer: u64) -> u8;
        pub fn mqtt_acl_answer_superuser(answer: u64) -> u8;
        pub fn mqtt_acl_answer_disconnect(answer: u64) -> u8;
        pub fn mqtt_acl_answer_refusal(answer: u64) -> u8;
        pub fn mqtt_acl_answer_line(answer: u64) -> u64;
        pub fn mqtt_acl_open_refusal(answer: u32) -> u8;
        pub fn mqtt_acl_open_line(answer: u32) -> u32;
    }
}

/// The three parts by which an optional text crosses; an absent one lends the empty slice.
fn lent(text: Option<&[u8]>) -> (u8, *const u8, usize) {
    let bytes = text.unwrap_or(&[]);
    (text.is_some().into(), bytes.as_ptr(), bytes.len())
}

pub(crate) fn version() -> u32 {
    // SAFETY: a number alone.
    unsafe { exported::mqtt_acl_version() }
}

pub(crate) fn valid_filter(text: &[u8]) -> bool {
    // SAFETY: see the module; the function only reads.
    unsafe { exported::mqtt_acl_valid_filter(text.as_ptr(), text.len()) != 0 }
}

pub(crate) fn tree_match(filter: &[u8], text: &[u8]) -> bool {
    // SAFETY: see the module; the function only reads.
    unsafe { exported::mqtt_acl_tree_match(filter.as_ptr(), filter.len(), text.as_ptr(), text.len()) != 0 }
}

pub(crate) fn plain_match(filter: &[u8], text: &[u8]) -> bool {
    // SAFETY: see the module; the function only reads.
    unsafe { exported::mqtt_acl_plain_match(filter.as_ptr(), filter.len(), text.as_ptr(), text.len()) != 0 }
}

pub(crate) fn is_document(line: &[u8]) -> bool {
    // SAFETY: see the module; the function only reads.
    unsafe { exported::mqtt_acl_is_document(line.as_ptr(), line.len()) != 0 }
}

pub(crate) fn is_document_within(line: &[u8], most: usize) -> bool {
    // SAFETY: see the module; the function only reads.
    unsafe { exported::mqtt_acl_is_document_within(line.as_ptr(), line.len(), most) != 0 }
}

pub(crate) fn rule_refusal(line: &[u8]) -> u8 {
    // SAFETY: see the module; the function only reads.
    unsafe { exported::mqtt_acl_rule_refusal(line.as_ptr(), line.len()) }
}

pub(crate) fn identity(line: &[u8], who: Client<'_>, protocol: Option<u8>) -> u8 {
    let (has_name, name, name_length) = lent(who.name);
    let (has_password, password, password_length) = lent(who.password);
    let (has_address, address, address_length) = lent(who.address);
    // SAFETY: see the module; the function only reads.
    unsafe {
        exported::mqtt_acl_identity(
            line.as_ptr(),
            line.len(),
            who.id.as_ptr(),
            who.id.len(),
            has_name,
            name,
            name_length,
            has_password,
            password,
            password_length,
            has_address,
            address,
            address_length,
            protocol.is_some().into(),
            protocol.unwrap_or(0),
        )
    }
}

/// The counts R, F, E, N in this order.
pub(crate) fn open(store: &mut [u8], counts: [u64; 4], text: &[u8]) -> u32 {
    let [bytes, filters, eqs, notes] = counts;
    // SAFETY: see the module; the function writes the store and reads the text.
    unsafe {
        exported::mqtt_acl_open(
            store.as_mut_ptr(),
            store.len(),
            bytes,
            filters,
            eqs,
            notes,
            text.as_ptr(),
            text.len(),
        )
    }
}

pub(crate) fn connected(store: &mut [u8], session: u64, who: Client<'_>) -> u8 {
    let (has_name, name, name_length) = lent(who.name);
    // SAFETY: see the module; the function writes the store and reads the rest.
    unsafe {
        exported::mqtt_acl_connected(
            store.as_mut_ptr(),
            store.len(),
            session,
            who.id.as_ptr(),
            who.id.len(),
            has_name,
            name,
            name_length,
        )
    }
}

pub(crate) fn disconnected(store: &mut [u8], session: u64, who: Client<'_>) -> u8 {
    // SAFETY: see the module; the function writes the store and reads the id.
    unsafe {
        exported::mqtt_acl_disconnected(
            store.as_mut_ptr(),
            store.len(),
            session,
            who.id.as_ptr(),
            who.id.len(),
        )
    }
}

pub(crate) fn ended(store: &mut [u8], session: u64) -> u8 {
    // SAFETY: see the module; the function writes the store.
    unsafe { exported::mqtt_acl_ended(store.as_mut_ptr(), store.len(), session) }
}

pub(crate) fn connect(store: &[u8], earlier: u64, who: Client<'_>, protocol: u8) -> u32 {
    let (has_name, name, name_length) = lent(who.name);
    let (has_password, password, password_length) = lent(who.password);
    let (has_address, address, address_length) = lent(who.address);
    // SAFETY: see the module; the function only reads.
    unsafe {
        exported::mqtt_acl_connect(
            store.as_ptr(),
            store.len(),
            earlier,
            who.id.as_ptr(),
            who.id.len(),
            has_name,
            name,
            name_length,
            has_password,
            password,
            password_length,
            has_address,
            address,
            address_length,
            protocol,
        )
    }
}

pub(crate) fn subscribe(
    store: &[u8],
    earlier: u64,
    who: Client<'_>,
    protocol: Option<u8>,
    topic: &[u8],
    qos: u64,
) -> u32 {
    let (has_name, name, name_length) = lent(who.name);
    let (has_password, password, password_length) = lent(who.password);
    let (has_address, address, address_length) = lent(who.address);
    // SAFETY: see the module; the function only reads.
    unsafe {
        exported::mqtt_acl_subscribe(
            store.as_ptr(),
            store.len(),
            earlier,
            who.id.as_ptr(),
            who.id.len(),
            has_name,
            name,
            name_length,
            has_password,
            password,
            password_length,
            has_address,
            address,
            address_length,
            protocol.is_some().into(),
            protocol.unwrap_or(0),
            topic.as_ptr(),
            topic.len(),
            qos,
        )
    }
}

pub(crate) fn publish(
    store: &[u8],
    earlier: u64,
    who: Client<'_>,
    protocol: Option<u8>,
    topic: &[u8],
    disconnect: bool,
) -> u32 {
    let (has_name, name, name_length) = lent(who.name);
    let (has_password, password, password_length) = lent(who.password);
    let (has_address, address, address_length) = lent(who.address);
    // SAFETY: see the module; the function only reads.
    unsafe {
        exported::mqtt_acl_publish(
            store.as_ptr(),
            store.len(),
            earlier,
            who.id.as_ptr(),
            who.id.len(),
            has_name,
            name,
            name_length,
            has_password,
            password,
            password_length,
            has_address,
            address,
            address_length,
            protocol.is_some().into(),
            protocol.unwrap_or(0),
            topic.as_ptr(),
            topic.len(),
            disconnect.into(),
        )
    }
}

pub(crate) fn plain_name(name: &[u8]) -> bool {
    // SAFETY: see the module; the function only reads.
    unsafe { exported::mqtt_acl_plain_name(name.as_ptr(), name.len()) != 0 }
}

pub(crate) fn filter_templates(rules: &[u8]) -> usize {
    // SAFETY: see the module; the function only reads.
    unsafe { exported::mqtt_acl_filter_templates(rules.as_ptr(), rules.len()) }
}

pub(crate) fn eq_templates(rules: &[u8]) -> usize {
    // SAFETY: see the module; the function only reads.
    unsafe { exported::mqtt_acl_eq_templates(rules.as_ptr(), rules.len()) }
}

pub(crate) fn used_rows(store: &[u8]) -> u64 {
    // SAFETY: see the module; the function only reads.
    unsafe { exported::mqtt_acl_used_rows(store.as_ptr(), store.len()) }
}

pub(crate) fn client_subscribe(owner: AuthInfo<'_>, topic: &[u8], qos: u64) -> u64 {
    let (has_name, name, name_length) = lent(owner.name);
    // SAFETY: see the module; the function only reads.
    unsafe {
        exported::mqtt_acl_client_subscribe(
            owner.superuser.into(),
            owner.id.as_ptr(),
            owner.id.len(),
            has_name,
            name,
            name_length,
            owner.rules.as_ptr(),
            owner.rules.len(),
            topic.as_ptr(),
            topic.len(),
            qos,
        )
    }
}

pub(crate) fn client_publish(
    owner: AuthInfo<'_>,
    topic: &[u8],
    qos: u64,
    retain: bool,
    disconnect: bool,
) -> u64 {
    let (has_name, name, name_length) = lent(owner.name);
    // SAFETY: see the module; the function only reads.
    unsafe {
        exported::mqtt_acl_client_publish(
            owner.superuser.into(),
            owner.id.as_ptr(),
            owner.id.len(),
            has_name,
            name,
            name_length,
            owner.rules.as_ptr(),
            owner.rules.len(),
            topic.as_ptr(),
            topic.len(),
            qos,
            retain.into(),
            disconnect.into(),
        )
    }
}

/// Seconds and nanoseconds of the expiry, if there is one, and of now.
pub(crate) fn expired(expiry: Option<(u64, u64)>, now: (u64, u64)) -> u64 {
    let (seconds, nanoseconds) = expiry.unwrap_or((0, 0));
    // SAFETY: numbers alone.
    unsafe { exported::mqtt_acl_expired(expiry.is_some().into(), seconds, nanoseconds, now.0, now.1) }
}

/// What is read from the number that a question, or expiry, has answered.
#[derive(Clone, Copy, Debug, PartialEq, Eq)]
pub(crate) struct Parts {
    pub what: u8,
    pub allows: bool,
    pub rule: u64,
    pub code: u64,
    pub qos: u8,
    pub superuser: bool,
    pub disconnect: bool,
    pub refusal: u8,
    pub line: u64,
}

pub(crate) fn parts(answer: u64) -> Parts {
    // SAFETY: numbers alone.
    unsafe {
        Parts {
            what: exported::mqtt_acl_answer_what(answer),
            allows: exported::mqtt_acl_answer_allows(answer) != 0,
            rule: exported::mqtt_acl_answer_rule(answer),
            code: exported::mqtt_acl_answer_code(answer),
            qos: exported::mqtt_acl_answer_qos(answer),
            superuser: exported::mqtt_acl_answer_superuser(answer) != 0,
            disconnect: exported::mqtt_acl_answer_disconnect(answer) != 0,
            refusal: exported::mqtt_acl_answer_refusal(answer),
            line: exported::mqtt_acl_answer_line(answer),
        }
    }
}

/// The number and the line of what opening has answered; the number is 0 for done.
pub(crate) fn open_parts(answer: u32) -> (u8, u32) {
    // SAFETY: numbers alone.
    unsafe { (exported::mqtt_acl_open_refusal(answer), exported::mqtt_acl_open_line(answer)) }
}

#[cfg(test)]
mod tests {
    use super::exported::*;
    use super::*;
    use std::ptr::{null, null_mut};

    /// Null with length 0, which a C caller may hand over: nothing is read or written there.
    #[test]
    fn null_addresses() {
        let (n, m) = (null(), null_mut());
        let three = 16 * 3;
        // SAFETY: a length of 0 lends nothing, whatever the address.
        unsafe {
            assert_eq!(
                (
                    mqtt_acl_valid_filter(n, 0),
                    mqtt_acl_tree_match(n, 0, n, 0),
                    mqtt_acl_plain_match(n, 0, n, 0)
                ),
                (1, 1, 1)
            );
            assert_eq!((mqtt_acl_is_document(n, 0), mqtt_acl_is_document_within(n, 0, usize::MAX)), (0, 0));
            assert_eq!(mqtt_acl_rule_refusal(n, 0), 5);
            assert_eq!(mqtt_acl_identity(n, 0, n, 0, 1, n, 0, 1, n, 0, 1, n, 0, 1, 0), 3);
            assert_eq!(mqtt_acl_open(m, 0, 1, 1, 1, 1, n, 0), 4);
            assert_eq!(mqtt_acl_connected(m, 0, 0, n, 0, 1, n, 0), 3);
            assert_eq!((mqtt_acl_disconnected(m, 0, 0, n, 0), mqtt_acl_ended(m, 0, 0)), (3, 3));
            assert_eq!(mqtt_acl_connect(n, 0, 0, n, 0, 1, n, 0, 1, n, 0, 1, n, 0, 0), three);
            assert_eq!(mqtt_acl_subscribe(n, 0, 0, n, 0, 1, n, 0, 1, n, 0, 1, n, 0, 1, 0, n, 0, 0), three);
            assert_eq!(mqtt_acl_publish(n, 0, 0, n, 0, 1, n, 0, 1, n, 0, 1, n, 0, 1, 0, n, 0, 1), three);
            assert_eq!(mqtt_acl_plain_name(n, 0), 1);
            assert_eq!((mqtt_acl_filter_templates(n, 0), mqtt_acl_eq_templates(n, 0)), (0, 0));
            assert_eq!(mqtt_acl_used_rows(n, 0), u64::MAX);
            assert_eq!(mqtt_acl_client_subscribe(0, n, 0, 1, n, 0, n, 0, n, 0, 0), 12);
            assert_eq!(mqtt_acl_client_publish(1, n, 0, 1, n, 0, n, 0, n, 0, 0, 1, 1), 7);
        }
    }

    /// The same with a store that has a rule for such a client.
    #[test]
    fn null_texts() {
        let n = null();
        let rule = br#"["allow",{"clientid":"","user":"","password":"","ipaddr":""},"all",["%c"]]"#;
        let mut store = [0; 16 + 256 + 326 + 260 + 260];
        assert_eq!(open(&mut store, [256, 1, 1, 1], rule), 0);
        let (lent, length) = (store.as_mut_ptr(), store.len());
        // SAFETY: as above; the store is lent alone.
        unsafe {
            assert_eq!(
                mqtt_acl_identity(rule.as_ptr(), rule.len(), n, 0, 1, n, 0, 1, n, 0, 1, n, 0, 0, 0),
                1
            );
            assert_eq!(mqtt_acl_connect(lent, length, 0, n, 0, 1, n, 0, 1, n, 0, 1, n, 0, 0), 16 + 2);
            assert_eq!(mqtt_acl_publish(lent, length, 0, n, 0, 1, n, 0, 1, n, 0, 1, n, 0, 0, 0, n, 0, 0), 9);
            assert_eq!(mqtt_acl_connected(lent, length, 0, n, 0, 1, n, 0), 0);
            assert_eq!(
                mqtt_acl_publish(lent, length, 0, n, 0, 1, n, 0, 1, n, 0, 1, n, 0, 0, 0, n, 0, 0),
                16 + 7
            );
            assert_eq!(
                mqtt_acl_subscribe(lent, length, 0, n, 0, 1, n, 0, 1, n, 0, 1, n, 0, 0, 0, n, 0, 2),
                16 + 6
            );
            assert_eq!(mqtt_acl_disconnected(lent, length, 0, n, 0), 0);
            assert_eq!(
                mqtt_acl_subscribe(lent, length, 0, n, 0, 1, n, 0, 1, n, 0, 1, n, 0, 0, 0, n, 0, 2),
                11
            );
            assert_eq!(mqtt_acl_open(lent, length, 256, 1, 1, 1, n, 0), 0);
        }
    }

    /// A flag is false at 0 and true at any other byte.
    #[test]
    fn flags() {
        let rule = br#"["allow",{"user":"x","password":"x","ipaddr":"x","protocol":4}]"#;
        let own = br#"{"permission":"deny","action":"publish","retain":true,"topic":"eq ${username}"}"#;
        let mut store = [0; 16 + 256 + 326 + 260 + 260];
        assert_eq!(open(&mut store, [256, 1, 1, 1], rule), 0);
        let (s, k) = (store.as_ptr(), store.len());
        let (x, r, o) = (b"x".as_ptr(), rule.as_ptr(), own.as_ptr());
        for f in 0..=255u8 {
            let is = u32::from(f != 0);
            let by = |yes: u32, no: u32| if f != 0 { yes } else { no };
            // SAFETY: each address is of a slice of that length.
            unsafe {
                assert_eq!(mqtt_acl_identity(r, rule.len(), x, 1, f, x, 1, f, x, 1, f, x, 1, f, 4), is as u8);
                assert_eq!(mqtt_acl_connect(s, k, 0, x, 1, f, x, 1, f, x, 1, f, x, 1, 4), by(16 + 2, 8));
                assert_eq!(
                    mqtt_acl_subscribe(s, k, 0, x, 1, f, x, 1, f, x, 1, f, x, 1, f, 4, x, 1, 0),
                    by(16 + 4, 11)
                );
                assert_eq!(
                    mqtt_acl_publish(s, k, 0, x, 1, f, x, 1, f, x, 1, f, x, 1, f, 4, x, 1, f),
                    by(16 + 7, 9)
                );
                assert_eq!(mqtt_acl_publish(s, k, 0, x, 1, 0, x, 1, 0, x, 1, 0, x, 1, 0, 4, x, 1, f), 9 + is);
                assert_eq!(
                    mqtt_acl_client_subscribe(f, x, 1, 1, x, 1, o, own.len(), x, 1, 1),
                    by(5, 12).into()
                );
                assert_eq!(
                    mqtt_acl_client_publish(f, x, 1, 1, x, 1, o, own.len(), x, 1, 1, 0, 0),
                    by(7, 12).into()
                );
                let refused = mqtt_acl_client_publish(0, x, 1, f, x, 1, o, own.len(), x, 1, 1, f, f);
                assert_eq!(refused, by(16 + 10, 16 * (6 + 256)).into());
                assert_eq!(mqtt_acl_expired(f, 0, 0, 1, 0), by(14, 13).into());
            }
        }
    }

    /// An earlier code that is none: its last good value, those past it, and the largest.
    #[test]
    fn earlier_codes() {
        let mut store = [0; 16 + 1 + 326 + 260 + 260];
        assert_eq!(open(&mut store, [1, 1, 1, 1], b""), 0);
        let who = Client::default();
        for past in [0, 1, 1 << 8, 1 << 16, 1 << 32, 1 << 63, u64::MAX - 4] {
            let by = if past == 0 { 0 } else { 2 };
            assert_eq!(parts(connect(&store, 4 + past, who, 4).into()).refusal, by);
            assert_eq!(parts(subscribe(&store, 2 + past, who, None, b"a", 0).into()).refusal, by);
            assert_eq!(parts(publish(&store, 2 + past, who, None, b"a", true).into()).refusal, by);
        }
    }

    /// Any number has its parts.
    #[test]
    fn parts_of_any_number() {
        for what in 0..16 {
            for carried in [0, 1, 2, 10, 255, 256, 257, 256 * 257 + 10, u64::MAX / 16] {
                let read = parts(16 * carried + what);
                let within = |least, most, part| if (least..=most).contains(&what) { part } else { 0 };
                assert_eq!(u64::from(read.what), what);
                assert_eq!(read.allows, (2..=7).contains(&what));
                assert_eq!((read.rule, read.code), (within(2, 11, carried), within(1, 1, carried)));
                assert_eq!(u64::from(read.refusal), within(0, 0, carried % 256));
                assert_eq!(read.line, within(0, 0, carried / 256));
                assert_eq!(u64::from(read.qos), within(5, 6, what.saturating_sub(4)));
                assert_eq!((read.superuser, read.disconnect), (what == 3, what == 10));
            }
        }
        assert_eq!(open_parts(u32::MAX), (255, u32::MAX / 256));
        assert_eq!(open_parts(10 + 256 * 257), (10, 257));
        assert_eq!(open_parts(0), (0, 0));
    }
}
