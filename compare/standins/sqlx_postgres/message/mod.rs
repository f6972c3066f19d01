//! Stand-in for message/mod.rs; parameter_description.rs and row_description.rs are originals.
use crate::error::Error;
use crate::io::StatementId;
use sqlx_core::bytes::Bytes;
use std::ops::Range;

mod parameter_description;
mod row_description;

pub use parameter_description::ParameterDescription;
pub use row_description::{Field, RowDescription};

#[derive(Debug, PartialOrd, PartialEq)]
pub enum BackendMessageFormat {
    ParameterDescription,
    RowDescription,
    ReadyForQuery,
}

pub trait BackendMessage: Sized {
    const FORMAT: BackendMessageFormat;
    fn decode_body(buf: Bytes) -> Result<Self, Error>;
}

pub struct ReceivedMessage {
    pub format: BackendMessageFormat,
    pub contents: Bytes,
}
impl ReceivedMessage {
    pub fn decode<T: BackendMessage>(self) -> Result<T, Error> {
        T::decode_body(self.contents)
    }
}

#[derive(Debug)]
#[repr(u8)]
pub enum TransactionStatus {
    Idle = b'I',
    Transaction = b'T',
    Error = b'E',
}

#[derive(Debug)]
pub struct ReadyForQuery {
    pub transaction_status: TransactionStatus,
}
impl BackendMessage for ReadyForQuery {
    const FORMAT: BackendMessageFormat = BackendMessageFormat::ReadyForQuery;
    fn decode_body(_: Bytes) -> Result<Self, Error> {
        Ok(ReadyForQuery { transaction_status: TransactionStatus::Idle })
    }
}

pub trait FrontendMessage {}
pub struct Query<'a>(pub &'a str);
pub struct Terminate;
pub enum Close {
    Statement(StatementId),
}
impl FrontendMessage for Query<'_> {}
impl FrontendMessage for Terminate {}
impl FrontendMessage for Close {}

/// A row as it came: one buffer, and where each value lies in it.
#[derive(Debug)]
pub struct DataRow {
    pub(crate) storage: Bytes,
    pub(crate) values: Vec<Option<Range<u32>>>,
}
impl DataRow {
    #[inline]
    pub(crate) fn get(&self, index: usize) -> Option<&'_ [u8]> {
        self.values[index]
            .as_ref()
            .map(|r| &self.storage[(r.start as usize)..(r.end as usize)])
    }
}
