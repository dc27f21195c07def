//! Stand-in for the crate rmqtt-codec, which isn't in docs/src: packets with the
//! fields that access rules read. `QoS::try_from` and the enums of reasons are
//! guesses from their use, with the names of MQTT 5.0.

pub mod types {
    use bytestring::ByteString;

    pub const MQTT_LEVEL_5: u8 = 5;

    #[derive(Clone, Copy, Debug, PartialEq, Eq)]
    #[repr(u8)]
    pub enum QoS {
        AtMostOnce = 0,
        AtLeastOnce = 1,
        ExactlyOnce = 2,
    }

    impl QoS {
        pub fn value(&self) -> u8 {
            *self as u8
        }
    }

    #[derive(Debug, thiserror::Error)]
    #[error("invalid QoS {0}")]
    pub struct InvalidQoS(u8);

    impl TryFrom<u8> for QoS {
        type Error = InvalidQoS;

        fn try_from(v: u8) -> Result<Self, InvalidQoS> {
            match v {
                0 => Ok(QoS::AtMostOnce),
                1 => Ok(QoS::AtLeastOnce),
                2 => Ok(QoS::ExactlyOnce),
                _ => Err(InvalidQoS(v)),
            }
        }
    }

    /// The protocol level of an MQTT 3 CONNECT.
    #[derive(Clone, Copy, Debug)]
    pub struct Protocol(pub u8);

    impl Protocol {
        pub fn level(&self) -> u8 {
            self.0
        }
    }

    #[derive(Clone, Debug)]
    pub struct Publish {
        pub retain: bool,
        pub qos: QoS,
        pub topic: ByteString,
    }
}

pub mod v3 {
    use super::types::Protocol;
    use bytes::Bytes;
    use bytestring::ByteString;

    #[derive(Clone, Debug)]
    pub struct Connect {
        pub protocol: Protocol,
        pub username: Option<ByteString>,
        pub password: Option<Bytes>,
    }
}

pub mod v5 {
    use bytes::Bytes;
    use bytestring::ByteString;

    #[derive(Clone, Debug)]
    pub struct Connect {
        pub username: Option<ByteString>,
        pub password: Option<Bytes>,
    }

    #[derive(Clone, Copy, Debug, PartialEq, Eq)]
    pub enum SubscribeAckReason {
        GrantedQos0,
        GrantedQos1,
        GrantedQos2,
        UnspecifiedError,
        NotAuthorized,
    }

    #[derive(Clone, Copy, Debug, PartialEq, Eq)]
    pub enum PublishAckReason {
        Success,
        NotAuthorized,
    }
}
