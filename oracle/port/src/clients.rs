//! The exported per-client questions and expiry, safe on slices. Their answers are packed, see
//! crates/mqtt_acl/specs/Clients.antt.

use crate::Lent;

mod exported {
    extern "C" {
        pub fn mqtt_acl_client_subscribe(
            superuser: u8,
            id: *const u8,
            id_len: usize,
            has_name: u8,
            name: *const u8,
            name_len: usize,
            rules: *const u8,
            rules_len: usize,
            topic: *const u8,
            topic_len: usize,
            qos: u64,
        ) -> u64;
        pub fn mqtt_acl_client_publish(
            superuser: u8,
            id: *const u8,
            id_len: usize,
            has_name: u8,
            name: *const u8,
            name_len: usize,
            rules: *const u8,
            rules_len: usize,
            topic: *const u8,
            topic_len: usize,
            qos: u64,
            retain: u8,
            disconnect: u8,
        ) -> u64;
        pub fn mqtt_acl_expired(
            has_expiry: u8,
            expiry_seconds: u64,
            expiry_nanoseconds: u64,
            seconds: u64,
            nanoseconds: u64,
        ) -> u64;
    }
}

/// Who asks, by the rules that came with the credentials.
#[derive(Clone, Copy)]
pub struct Owner<'a> {
    pub superuser: bool,
    pub id: &'a [u8],
    pub name: Lent<&'a [u8]>,
    pub rules: &'a [u8],
}

pub fn subscribe(c: Owner, qos: u64, topic: &[u8]) -> u64 {
    // SAFETY: the function only reads, and only the slices.
    unsafe {
        exported::mqtt_acl_client_subscribe(
            c.superuser.into(),
            c.id.as_ptr(),
            c.id.len(),
            c.name.0.into(),
            c.name.1.as_ptr(),
            c.name.1.len(),
            c.rules.as_ptr(),
            c.rules.len(),
            topic.as_ptr(),
            topic.len(),
            qos,
        )
    }
}

pub fn publish(c: Owner, qos: u64, retain: bool, disconnect: bool, topic: &[u8]) -> u64 {
    // SAFETY: as above.
    unsafe {
        exported::mqtt_acl_client_publish(
            c.superuser.into(),
            c.id.as_ptr(),
            c.id.len(),
            c.name.0.into(),
            c.name.1.as_ptr(),
            c.name.1.len(),
            c.rules.as_ptr(),
            c.rules.len(),
            topic.as_ptr(),
            topic.len(),
            qos,
            retain.into(),
            disconnect.into(),
        )
    }
}

/// Seconds and nanoseconds of the expiry, if there is one, and of now.
pub fn expired(expiry: Lent<(u64, u64)>, now: (u64, u64)) -> u64 {
    // SAFETY: numbers alone.
    unsafe { exported::mqtt_acl_expired(expiry.0.into(), expiry.1 .0, expiry.1 .1, now.0, now.1) }
}
