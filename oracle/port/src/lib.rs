//! The port's exported functions, safe on slices. A lent text crosses as its
//! place and its length, a flag as 0 or 1.

pub mod clients;

mod exported {
    extern "C" {
        pub fn mqtt_acl_valid_filter(s: *const u8, s_len: usize) -> u8;
        pub fn mqtt_acl_tree_match(
            filter: *const u8,
            filter_len: usize,
            text: *const u8,
            text_len: usize,
        ) -> u8;
        pub fn mqtt_acl_plain_match(
            filter: *const u8,
            filter_len: usize,
            text: *const u8,
            text_len: usize,
        ) -> u8;
        pub fn mqtt_acl_is_document(line: *const u8, line_len: usize) -> u8;
        pub fn mqtt_acl_is_document_within(line: *const u8, line_len: usize, most: usize) -> u8;
        pub fn mqtt_acl_rule_refusal(line: *const u8, line_len: usize) -> u8;
        pub fn mqtt_acl_identity(
            line: *const u8,
            line_len: usize,
            id: *const u8,
            id_len: usize,
            has_name: u8,
            name: *const u8,
            name_len: usize,
            has_password: u8,
            password: *const u8,
            password_len: usize,
            has_address: u8,
            address: *const u8,
            address_len: usize,
            has_protocol: u8,
            protocol: u8,
        ) -> u8;
        pub fn mqtt_acl_open(
            store: *mut u8,
            store_len: usize,
            bytes: u64,
            filters: u64,
            eqs: u64,
            notes: u64,
            text: *const u8,
            text_len: usize,
        ) -> u32;
        pub fn mqtt_acl_connected(
            store: *mut u8,
            store_len: usize,
            session: u64,
            id: *const u8,
            id_len: usize,
            has_name: u8,
            name: *const u8,
            name_len: usize,
        ) -> u8;
        pub fn mqtt_acl_disconnected(
            store: *mut u8,
            store_len: usize,
            session: u64,
            id: *const u8,
            id_len: usize,
        ) -> u8;
        pub fn mqtt_acl_ended(store: *mut u8, store_len: usize, session: u64) -> u8;
        pub fn mqtt_acl_connect(
            store: *const u8,
            store_len: usize,
            earlier: u64,
            id: *const u8,
            id_len: usize,
            has_name: u8,
            name: *const u8,
            name_len: usize,
            has_password: u8,
            password: *const u8,
            password_len: usize,
            has_address: u8,
            address: *const u8,
            address_len: usize,
            protocol: u8,
        ) -> u32;
        pub fn mqtt_acl_subscribe(
            store: *const u8,
            store_len: usize,
            earlier: u64,
            id: *const u8,
            id_len: usize,
            has_name: u8,
            name: *const u8,
            name_len: usize,
            has_password: u8,
            password: *const u8,
            password_len: usize,
            has_address: u8,
            address: *const u8,
            address_len: usize,
            has_protocol: u8,
            protocol: u8,
            topic: *const u8,
            topic_len: usize,
            qos: u64,
        ) -> u32;
        pub fn mqtt_acl_publish(
            store: *const u8,
            store_len: usize,
            earlier: u64,
            id: *const u8,
            id_len: usize,
            has_name: u8,
            name: *const u8,
            name_len: usize,
            has_password: u8,
            password: *const u8,
            password_len: usize,
            has_address: u8,
            address: *const u8,
            address_len: usize,
            has_protocol: u8,
            protocol: u8,
            topic: *const u8,
            topic_len: usize,
            disconnect: u8,
        ) -> u32;
    }
}

pub fn valid_filter(s: &[u8]) -> bool {
    // SAFETY: the function only reads, and only the slice.
    unsafe { exported::mqtt_acl_valid_filter(s.as_ptr(), s.len()) != 0 }
}

pub fn tree_match(filter: &[u8], text: &[u8]) -> bool {
    // SAFETY: as above, both slices.
    unsafe { exported::mqtt_acl_tree_match(filter.as_ptr(), filter.len(), text.as_ptr(), text.len()) != 0 }
}

pub fn plain_match(filter: &[u8], text: &[u8]) -> bool {
    // SAFETY: as above, both slices.
    unsafe { exported::mqtt_acl_plain_match(filter.as_ptr(), filter.len(), text.as_ptr(), text.len()) != 0 }
}

pub fn is_document(line: &[u8]) -> bool {
    // SAFETY: as above, the slice.
    unsafe { exported::mqtt_acl_is_document(line.as_ptr(), line.len()) != 0 }
}

pub fn is_document_within(line: &[u8], most: usize) -> bool {
    // SAFETY: as above, the slice.
    unsafe { exported::mqtt_acl_is_document_within(line.as_ptr(), line.len(), most) != 0 }
}

/// 0 a rule, 1 too long, 5 not the JSON, 6 not a rule.
pub fn rule_refusal(line: &[u8]) -> u8 {
    // SAFETY: as above.
    unsafe { exported::mqtt_acl_rule_refusal(line.as_ptr(), line.len()) }
}

/// A value that may be absent: whether it is given, and what is lent in any case.
pub type Lent<T> = (bool, T);

/// 0 differs, 1 agrees, 2 agrees with the superuser flag, 3 the line is no rule.
pub fn identity(
    line: &[u8],
    id: &[u8],
    name: Lent<&[u8]>,
    password: Lent<&[u8]>,
    address: Lent<&[u8]>,
    protocol: Lent<u8>,
) -> u8 {
    // SAFETY: as above, all slices.
    unsafe {
        exported::mqtt_acl_identity(
            line.as_ptr(),
            line.len(),
            id.as_ptr(),
            id.len(),
            name.0.into(),
            name.1.as_ptr(),
            name.1.len(),
            password.0.into(),
            password.1.as_ptr(),
            password.1.len(),
            address.0.into(),
            address.1.as_ptr(),
            address.1.len(),
            protocol.0.into(),
            protocol.1,
        )
    }
}

/// R, F, E, N: the bytes for the rule text and the rows that each table has room for.
#[derive(Clone, Copy, Debug)]
pub struct Counts {
    pub bytes: u64,
    pub filters: u64,
    pub eqs: u64,
    pub notes: u64,
}

impl Counts {
    /// The length of a store.
    pub fn length(self) -> usize {
        (16 + self.bytes + 326 * self.filters + 260 * self.eqs + 260 * self.notes) as usize
    }
}

/// 0 done, else the number of document 01 plus 256 times the line.
pub fn open(store: &mut [u8], counts: Counts, text: &[u8]) -> u32 {
    let Counts { bytes, filters, eqs, notes } = counts;
    // SAFETY: the function reads both slices and writes the first.
    unsafe {
        exported::mqtt_acl_open(
            store.as_mut_ptr(),
            store.len(),
            bytes,
            filters,
            eqs,
            notes,
            text.as_ptr(),
            text.len(),
        )
    }
}

/// An event: 0 done, else the number of document 01.
pub fn connected(store: &mut [u8], session: u64, id: &[u8], name: Lent<&[u8]>) -> u8 {
    // SAFETY: the function reads the slices and writes the first.
    unsafe {
        exported::mqtt_acl_connected(
            store.as_mut_ptr(),
            store.len(),
            session,
            id.as_ptr(),
            id.len(),
            name.0.into(),
            name.1.as_ptr(),
            name.1.len(),
        )
    }
}

pub fn disconnected(store: &mut [u8], session: u64, id: &[u8]) -> u8 {
    // SAFETY: as above.
    unsafe {
        exported::mqtt_acl_disconnected(store.as_mut_ptr(), store.len(), session, id.as_ptr(), id.len())
    }
}

pub fn ended(store: &mut [u8], session: u64) -> u8 {
    // SAFETY: as above, the slice.
    unsafe { exported::mqtt_acl_ended(store.as_mut_ptr(), store.len(), session) }
}

/// Who asks, by what an earlier answer left.
#[derive(Clone, Copy)]
pub struct Client<'a> {
    pub earlier: u64,
    pub id: &'a [u8],
    pub name: Lent<&'a [u8]>,
    pub password: Lent<&'a [u8]>,
    pub address: Lent<&'a [u8]>,
    /// Connect takes it as given.
    pub protocol: Lent<u8>,
}

/// The answers of the three questions are packed, see crates/mqtt_acl/specs/Answers.antt.
pub fn connect(store: &[u8], c: Client) -> u32 {
    // SAFETY: the function only reads, and only the slices.
    unsafe {
        exported::mqtt_acl_connect(
            store.as_ptr(),
            store.len(),
            c.earlier,
            c.id.as_ptr(),
            c.id.len(),
            c.name.0.into(),
            c.name.1.as_ptr(),
            c.name.1.len(),
            c.password.0.into(),
            c.password.1.as_ptr(),
            c.password.1.len(),
            c.address.0.into(),
            c.address.1.as_ptr(),
            c.address.1.len(),
            c.protocol.1,
        )
    }
}

pub fn subscribe(store: &[u8], c: Client, topic: &[u8], qos: u64) -> u32 {
    // SAFETY: as above.
    unsafe {
        exported::mqtt_acl_subscribe(
            store.as_ptr(),
            store.len(),
            c.earlier,
            c.id.as_ptr(),
            c.id.len(),
            c.name.0.into(),
            c.name.1.as_ptr(),
            c.name.1.len(),
            c.password.0.into(),
            c.password.1.as_ptr(),
            c.password.1.len(),
            c.address.0.into(),
            c.address.1.as_ptr(),
            c.address.1.len(),
            c.protocol.0.into(),
            c.protocol.1,
            topic.as_ptr(),
            topic.len(),
            qos,
        )
    }
}

pub fn publish(store: &[u8], c: Client, topic: &[u8], disconnect: bool) -> u32 {
    // SAFETY: as above.
    unsafe {
        exported::mqtt_acl_publish(
            store.as_ptr(),
            store.len(),
            c.earlier,
            c.id.as_ptr(),
            c.id.len(),
            c.name.0.into(),
            c.name.1.as_ptr(),
            c.name.1.len(),
            c.password.0.into(),
            c.password.1.as_ptr(),
            c.password.1.len(),
            c.address.0.into(),
            c.address.1.as_ptr(),
            c.address.1.len(),
            c.protocol.0.into(),
            c.protocol.1,
            topic.as_ptr(),
            topic.len(),
            disconnect.into(),
        )
    }
}
