//! The transport lent to the published code: it keeps what is sent, and every send succeeds.
use std::net::SocketAddr;
use std::sync::Mutex;

use async_trait::async_trait;
use prost::Message;
use tokio::net::{lookup_host, ToSocketAddrs};

use super::convert;
use super::words::Sent;
use crate::core::transport::TransportLayer;
use crate::error::{Error, Result};
use crate::pb::SwimMessage;

#[derive(Debug, Default)]
pub struct Wire {
    /// Bytes as sent: what the driver makes of them is no part of a timed call.
    sent: Mutex<Vec<(SocketAddr, Vec<u8>)>>,
}

impl Wire {
    /// The messages sent since the last call of this function.
    pub fn take_sent(&self) -> Vec<Sent> {
        let bytes = std::mem::take(&mut *self.sent.lock().expect("one thread"));
        bytes
            .iter()
            .map(|(target, buf)| read(*target, buf))
            .collect()
    }
}

fn read(target: SocketAddr, buf: &[u8]) -> Sent {
    let message = SwimMessage::decode(buf).expect("the published code encodes messages");
    let action = message.action.expect("a message has an action");
    Sent {
        target: convert::address(&target.to_string()),
        packet: convert::packet(&action),
    }
}

#[async_trait]
impl TransportLayer for Wire {
    async fn recv(&self, _buf: &mut [u8]) -> Result<usize> {
        Err(not_lent("the driver hands messages to the handler itself"))
    }

    async fn send_to<A>(&self, buf: &[u8], target: A) -> Result<usize>
    where
        A: ToSocketAddrs + Send,
    {
        // Text that is an address already is not looked up anywhere.
        let target = lookup_host(target).await?.next();
        let target = target.ok_or_else(|| not_lent("a target is one address"))?;
        let sent = (target, buf.to_vec());
        self.sent.lock().expect("one thread").push(sent);
        Ok(buf.len())
    }

    fn local_addr(&self) -> Result<String> {
        Err(not_lent("the driver knows the address"))
    }
}

fn not_lent(why: &str) -> Error {
    Error::Internal {
        message: why.to_string(),
        location: snafu::location!(),
    }
}
