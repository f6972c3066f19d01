//! Stand-ins for database.rs, arguments.rs, options/ and bind_iter.rs.
use crate::encode::{Encode, IsNull};
use crate::error::BoxDynError;
use crate::{PgColumn, PgConnection, PgRow, PgTypeInfo, PgValueRef};
use sqlx_core::database::Database;
use std::ops::{Deref, DerefMut};

#[derive(Debug)]
pub struct Postgres;

impl Database for Postgres {
    type Connection = PgConnection;
    type Row = PgRow;
    type Column = PgColumn;
    type TypeInfo = PgTypeInfo;
    type ValueRef<'r> = PgValueRef<'r>;
    type ArgumentBuffer = PgArgumentBuffer;
}

#[derive(Default)]
pub struct PgArgumentBuffer(Vec<u8>);
impl Deref for PgArgumentBuffer {
    type Target = Vec<u8>;
    fn deref(&self) -> &Vec<u8> {
        &self.0
    }
}
impl DerefMut for PgArgumentBuffer {
    fn deref_mut(&mut self) -> &mut Vec<u8> {
        &mut self.0
    }
}

pub struct PgArguments;
pub struct PgConnectOptions;

/// Encoding of arrays: named by types/array.rs, never called here.
pub trait PgBindIterExt: Iterator + Sized {
    fn bind_iter(self) -> PgBindIter<Self> {
        PgBindIter(self)
    }
}
impl<I: Iterator> PgBindIterExt for I {}
pub struct PgBindIter<I>(I);
impl<'q, I> Encode<'q, Postgres> for PgBindIter<I> {
    fn encode_by_ref(&self, _: &mut PgArgumentBuffer) -> Result<IsNull, BoxDynError> {
        Err("arrays are not encoded here".into())
    }
}
