//! Stand-in for rmqtt/src/session.rs: a session as far as the plugin looks at
//! it. The original's password and protocol are those of its CONNECT.

use std::fmt;
use std::ops::Deref;
use std::sync::Arc;

use tokio::sync::RwLock;

use crate::types::{ExtraAttrs, Id, Password};
use crate::Result;

#[derive(Clone)]
pub struct Session(Arc<_Session>);

pub struct _Session {
    pub id: Id,
    pub extra_attrs: Arc<RwLock<ExtraAttrs>>,
    password: Option<Password>,
    protocol: Option<u8>,
}

impl Session {
    pub fn new(
        id: Id,
        extra_attrs: Arc<RwLock<ExtraAttrs>>,
        password: Option<Password>,
        protocol: Option<u8>,
    ) -> Self {
        Session(Arc::new(_Session { id, extra_attrs, password, protocol }))
    }
}

impl _Session {
    pub fn password(&self) -> Option<&Password> {
        self.password.as_ref()
    }

    /// The original of docs/src never fails; its trait allows others that do,
    /// and the plugin then goes on without a protocol.
    pub async fn protocol(&self) -> Result<u8> {
        self.protocol.ok_or_else(|| anyhow::anyhow!("no protocol"))
    }
}

impl Deref for Session {
    type Target = _Session;

    fn deref(&self) -> &Self::Target {
        self.0.as_ref()
    }
}

impl fmt::Debug for Session {
    fn fmt(&self, f: &mut fmt::Formatter<'_>) -> fmt::Result {
        write!(f, "Session {:?}", self.id)
    }
}
