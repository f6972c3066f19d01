//! Stand-in for stream.rs: instead of a socket, the in-memory server.
use crate::error::Error;
use crate::message::{BackendMessage, FrontendMessage, ReceivedMessage};
use crate::program::server::Server;
use std::sync::{Arc, Mutex};

pub struct PgStream {
    pub(crate) server: Arc<Mutex<Server>>,
    pub(crate) server_version_num: Option<u32>,
    buffer: Vec<u8>,
}

impl PgStream {
    pub(super) fn over(server: Arc<Mutex<Server>>) -> Self {
        PgStream { server, server_version_num: None, buffer: Vec::new() }
    }
    pub(crate) fn write_msg<M: FrontendMessage>(&mut self, _: M) -> Result<(), Error> {
        Ok(())
    }
    pub(crate) async fn send<M: FrontendMessage>(&mut self, _: M) -> Result<(), Error> {
        Ok(())
    }
    pub(crate) async fn recv(&mut self) -> Result<ReceivedMessage, Error> {
        Err(err_protocol!("the stand-in server sends no messages"))
    }
    pub(crate) async fn recv_expect<M: BackendMessage>(&mut self) -> Result<M, Error> {
        Err(err_protocol!("the stand-in server sends no messages"))
    }
    pub(crate) async fn flush(&mut self) -> Result<(), Error> {
        Ok(())
    }
    pub(crate) async fn shutdown(&mut self) -> Result<(), Error> {
        Ok(())
    }
    pub(crate) fn write_buffer(&self) -> &[u8] {
        &self.buffer
    }
    pub(crate) fn write_buffer_mut(&mut self) -> &mut Vec<u8> {
        &mut self.buffer
    }
    pub(crate) fn shrink_buffers(&mut self) {}
}
