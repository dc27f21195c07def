//! The three questions, as the plugin's hooks take them, and their answers.

use bytestring::ByteString;
use rmqtt::codec::types::Protocol;
use rmqtt::codec::v5::SubscribeAckReason;
use rmqtt::codec::{v3, v5};
use rmqtt::hook::HookResult;
use rmqtt::session::Session;
use rmqtt::types::{
    AuthResult, CodecPublish, ConnectInfo, Id, Password, Publish, PublishAclResult, QoS, Subscribe,
    SubscribeAclResult, SubscriptionOptions,
};

#[derive(Clone, Copy, Debug, PartialEq, Eq, Hash)]
pub enum Kind {
    Connect,
    Subscribe,
    Publish,
}

pub struct Question {
    pub kind: Kind,
    /// Document 01's code of the earlier answer.
    pub earlier: u64,
    pub id: Id,
    pub password: Option<Password>,
    /// Connect always has one.
    pub protocol: Option<u8>,
    pub topic: String,
    pub qos: QoS,
}

#[derive(Clone, Copy, Debug, PartialEq, Eq)]
pub enum Answer {
    Allow,
    Super,
    NotAuthorized,
    BadName,
    Unspecified,
    /// Not authorized, with the disconnect flag.
    Drop,
}

impl Question {
    /// The earlier answer. A refused subscribe has a reason that the plugin
    /// never gives, a rejected publish no disconnect flag: what is kept shows.
    pub fn acc(&self) -> Option<HookResult> {
        Some(match (self.kind, self.earlier) {
            (_, 0) => return None,
            (Kind::Connect, 1) => HookResult::AuthResult(AuthResult::Allow(false, None)),
            (Kind::Connect, 2) => HookResult::AuthResult(AuthResult::NotFound),
            (Kind::Connect, 3) => HookResult::AuthResult(AuthResult::BadUsernameOrPassword),
            (Kind::Connect, 4) => HookResult::AuthResult(AuthResult::NotAuthorized),
            (Kind::Subscribe, 1) => {
                HookResult::SubscribeAclResult(SubscribeAclResult::new_success(self.qos, None))
            }
            (Kind::Subscribe, 2) => HookResult::SubscribeAclResult(SubscribeAclResult::new_failure(
                SubscribeAckReason::NotAuthorized,
            )),
            (Kind::Publish, 1) => HookResult::PublishAclResult(PublishAclResult::allow()),
            (Kind::Publish, 2) => HookResult::PublishAclResult(PublishAclResult::rejected(false, None)),
            (kind, code) => panic!("{kind:?} has no earlier code {code}"),
        })
    }

    pub fn session(&self) -> Session {
        Session::new(self.id.clone(), Default::default(), self.password.clone(), self.protocol)
    }

    pub fn connect_info(&self) -> ConnectInfo {
        let (id, username, password) = (self.id.clone(), self.id.username.clone(), self.password.clone());
        match self.protocol.expect("connect has a protocol") {
            5 => ConnectInfo::V5(id, Box::new(v5::Connect { username, password })),
            level => {
                let protocol = Protocol(level);
                ConnectInfo::V3(id, Box::new(v3::Connect { protocol, username, password }))
            }
        }
    }

    pub fn subscribe(&self) -> Subscribe {
        Subscribe {
            topic_filter: ByteString::from(self.topic.as_str()),
            opts: SubscriptionOptions::new(self.qos),
        }
    }

    pub fn publish(&self) -> Publish {
        let topic = ByteString::from(self.topic.as_str());
        Publish { inner: Box::new(CodecPublish { retain: false, qos: self.qos, topic }) }
    }

    pub fn answer(&self, result: Option<HookResult>) -> Answer {
        match (self.kind, result) {
            (Kind::Connect, Some(HookResult::AuthResult(r))) => match r {
                AuthResult::Allow(false, None) => Answer::Allow,
                AuthResult::Allow(true, None) => Answer::Super,
                AuthResult::NotAuthorized => Answer::NotAuthorized,
                AuthResult::BadUsernameOrPassword => Answer::BadName,
                other => panic!("connect answered {other:?}"),
            },
            (Kind::Subscribe, Some(HookResult::SubscribeAclResult(r))) => match r.ack_reason {
                SubscribeAckReason::UnspecifiedError => Answer::Unspecified,
                SubscribeAckReason::NotAuthorized => Answer::NotAuthorized,
                _ => {
                    assert_eq!(r.success(), Some(self.qos), "the granted QoS is the asked one");
                    Answer::Allow
                }
            },
            (Kind::Publish, Some(HookResult::PublishAclResult(r))) => match (r.is_allow(), r.0.disconnect) {
                (true, _) => Answer::Allow,
                (false, true) => Answer::Drop,
                (false, false) => Answer::NotAuthorized,
            },
            (kind, other) => panic!("{kind:?} answered {other:?}"),
        }
    }
}
