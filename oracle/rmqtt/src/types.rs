//! Stand-in for rmqtt/src/types.rs: the types that access rules use, with the
//! fields that they read. Method bodies are those of the original, but for the
//! address (see `RemoteAddr`) and `Debug` of `Id`.

use std::any::Any;
use std::fmt;
use std::net::{IpAddr, SocketAddr};
use std::ops::Deref;
use std::sync::Arc;

use bytestring::ByteString;

use crate::acl::AuthInfo;
use crate::codec::types::MQTT_LEVEL_5;
use crate::codec::v3::Connect as ConnectV3;
use crate::codec::v5::{Connect as ConnectV5, PublishAckReason, SubscribeAckReason};

pub use crate::codec::types::Publish as CodecPublish;

pub type ClientId = ByteString;
pub type UserName = ByteString;
pub type Superuser = bool;
pub type Password = bytes::Bytes;
pub type Topic = crate::topic::Topic;
pub type TopicFilter = ByteString;
pub type IsDisconnect = bool;
pub type QoS = crate::codec::types::QoS;
pub type HashMap<K, V> = std::collections::HashMap<K, V, ahash::RandomState>;

#[derive(Clone, Debug)]
pub enum ConnectInfo {
    V3(Id, Box<ConnectV3>),
    V5(Id, Box<ConnectV5>),
}

impl ConnectInfo {
    pub fn id(&self) -> &Id {
        match self {
            ConnectInfo::V3(id, _) => id,
            ConnectInfo::V5(id, _) => id,
        }
    }

    pub fn client_id(&self) -> &ClientId {
        match self {
            ConnectInfo::V3(id, _) => &id.client_id,
            ConnectInfo::V5(id, _) => &id.client_id,
        }
    }

    pub fn username(&self) -> Option<&UserName> {
        match self {
            ConnectInfo::V3(_, conn_info) => conn_info.username.as_ref(),
            ConnectInfo::V5(_, conn_info) => conn_info.username.as_ref(),
        }
    }

    pub fn password(&self) -> Option<&Password> {
        match self {
            ConnectInfo::V3(_, conn_info) => conn_info.password.as_ref(),
            ConnectInfo::V5(_, conn_info) => conn_info.password.as_ref(),
        }
    }

    pub fn proto_ver(&self) -> u8 {
        match self {
            ConnectInfo::V3(_, conn_info) => conn_info.protocol.level(),
            ConnectInfo::V5(_, _) => MQTT_LEVEL_5,
        }
    }
}

pub type SubscribeAclResult = SubscribeReturn;

#[derive(Clone, Debug)]
pub struct PublishAclResult(pub PublishResult);

impl PublishAclResult {
    pub fn allow() -> Self {
        PublishAclResult(PublishResult::reason_code(PublishAckReason::Success, None, false))
    }

    pub fn rejected(disconnect: IsDisconnect, reason_string: Option<ByteString>) -> Self {
        PublishAclResult(PublishResult::reason_code(
            PublishAckReason::NotAuthorized,
            Some(reason_string.unwrap_or_else(|| "PublishRefused".into())),
            disconnect,
        ))
    }

    pub fn is_allow(&self) -> bool {
        matches!(self.0.reason_code, PublishAckReason::Success)
    }

    pub fn is_rejected(&self) -> bool {
        !self.is_allow()
    }
}

#[derive(Clone, Debug)]
pub struct PublishResult {
    pub reason_code: PublishAckReason,
    pub reason_string: Option<ByteString>,
    pub disconnect: IsDisconnect,
}

impl PublishResult {
    pub fn reason_code(
        reason_code: PublishAckReason,
        reason_string: Option<ByteString>,
        disconnect: IsDisconnect,
    ) -> PublishResult {
        PublishResult { reason_code, reason_string, disconnect }
    }
}

#[derive(Clone, Debug)]
pub enum AuthResult {
    Allow(Superuser, Option<AuthInfo>),
    NotFound,
    BadUsernameOrPassword,
    NotAuthorized,
}

/// The original has a case for each protocol version; both only give the QoS.
#[derive(Clone, Debug)]
pub struct SubscriptionOptions {
    qos: QoS,
}

impl SubscriptionOptions {
    pub fn new(qos: QoS) -> Self {
        SubscriptionOptions { qos }
    }

    pub fn qos(&self) -> QoS {
        self.qos
    }
}

#[derive(Clone, Debug)]
pub struct Subscribe {
    pub topic_filter: TopicFilter,
    pub opts: SubscriptionOptions,
}

#[derive(Clone, Debug)]
pub struct SubscribeReturn {
    pub ack_reason: SubscribeAckReason,
    pub prev_opts: Option<SubscriptionOptions>,
}

impl SubscribeReturn {
    pub fn new_success(qos: QoS, prev_opts: Option<SubscriptionOptions>) -> Self {
        let ack_reason = match qos {
            QoS::AtMostOnce => SubscribeAckReason::GrantedQos0,
            QoS::AtLeastOnce => SubscribeAckReason::GrantedQos1,
            QoS::ExactlyOnce => SubscribeAckReason::GrantedQos2,
        };
        Self { ack_reason, prev_opts }
    }

    pub fn new_failure(ack_reason: SubscribeAckReason) -> Self {
        Self { ack_reason, prev_opts: None }
    }

    pub fn success(&self) -> Option<QoS> {
        match self.ack_reason {
            SubscribeAckReason::GrantedQos0 => Some(QoS::AtMostOnce),
            SubscribeAckReason::GrantedQos1 => Some(QoS::AtLeastOnce),
            SubscribeAckReason::GrantedQos2 => Some(QoS::ExactlyOnce),
            _ => None,
        }
    }

    pub fn failure(&self) -> bool {
        !matches!(
            self.ack_reason,
            SubscribeAckReason::GrantedQos0
                | SubscribeAckReason::GrantedQos1
                | SubscribeAckReason::GrantedQos2
        )
    }
}

/// The broker's publish, around the codec's.
#[derive(Clone, Debug)]
pub struct Publish {
    pub inner: Box<CodecPublish>,
}

impl Deref for Publish {
    type Target = CodecPublish;

    fn deref(&self) -> &Self::Target {
        self.inner.as_ref()
    }
}

#[derive(Clone)]
pub struct Id(Arc<_Id>);

pub struct _Id {
    pub remote_addr: Option<RemoteAddr>,
    pub client_id: ClientId,
    pub username: Option<UserName>,
}

impl Id {
    pub fn new(remote_addr: Option<RemoteAddr>, client_id: ClientId, username: Option<UserName>) -> Self {
        Self(Arc::new(_Id { remote_addr, client_id, username }))
    }
}

impl Deref for Id {
    type Target = _Id;

    fn deref(&self) -> &Self::Target {
        &self.0
    }
}

/// A constant, so that the plugin's log lines can be read back.
impl fmt::Debug for Id {
    fn fmt(&self, f: &mut fmt::Formatter<'_>) -> fmt::Result {
        f.write_str("id")
    }
}

/// The original has a `SocketAddr`, whose `ip()` the plugin prints and compares.
/// This one can also hold a text that no address prints as.
#[derive(Clone, Copy)]
pub enum RemoteAddr {
    Socket(SocketAddr),
    Text(AddrText),
}

/// A text of at most 45 bytes, document 01's limit. It is `Copy`, since the
/// plugin copies the address out of the id.
#[derive(Clone, Copy)]
pub struct AddrText {
    bytes: [u8; 45],
    len: usize,
}

pub enum RemoteIp {
    Ip(IpAddr),
    Text(AddrText),
}

impl RemoteAddr {
    /// Panics over 45 bytes.
    pub fn new(text: &str) -> RemoteAddr {
        match text.parse::<IpAddr>() {
            Ok(ip) if ip.to_string() == text => RemoteAddr::Socket(SocketAddr::new(ip, 1883)),
            _ => {
                let mut bytes = [0; 45];
                bytes[..text.len()].copy_from_slice(text.as_bytes());
                RemoteAddr::Text(AddrText { bytes, len: text.len() })
            }
        }
    }

    pub fn ip(&self) -> RemoteIp {
        match self {
            RemoteAddr::Socket(addr) => RemoteIp::Ip(addr.ip()),
            RemoteAddr::Text(text) => RemoteIp::Text(*text),
        }
    }
}

impl fmt::Display for RemoteIp {
    fn fmt(&self, f: &mut fmt::Formatter<'_>) -> fmt::Result {
        match self {
            RemoteIp::Ip(ip) => ip.fmt(f),
            RemoteIp::Text(t) => f.write_str(std::str::from_utf8(&t.bytes[..t.len]).expect("built from str")),
        }
    }
}

#[derive(Clone, Debug)]
pub enum Reason {
    Unknown,
}

/// What plugins keep with a session.
#[derive(Default)]
pub struct ExtraAttrs {
    attrs: HashMap<ByteString, Box<dyn Any + Sync + Send>>,
}

impl ExtraAttrs {
    pub fn get<T: Any + Sync + Send>(&self, key: &str) -> Option<&T> {
        self.attrs.get(key).and_then(|v| v.downcast_ref::<T>())
    }

    pub fn get_default_mut<T: Any + Sync + Send, F: Fn() -> T>(
        &mut self,
        key: ByteString,
        def_fn: F,
    ) -> Option<&mut T> {
        self.attrs.entry(key).or_insert_with(|| Box::new(def_fn())).downcast_mut::<T>()
    }
}
