//! The crate root under which the ten original files of sqlx-postgres 0.9.0 stand, unchanged.
//!
//! `compare/build` copies them beside this file under their own paths:
//!   column.rs  connection/mod.rs  connection/resolve.rs  message/parameter_description.rs
//!   message/row_description.rs  row.rs  statement.rs  type_info.rs  types/array.rs  types/oid.rs
//! Everything else here is a stand-in.

#[macro_use]
extern crate sqlx_core;

pub(crate) use sqlx_core::driver_prelude::*;

// originals
mod column;
mod connection;
mod row;
mod statement;
mod type_info;

// stand-ins for the crate's other files
mod io;
mod message;
mod plumbing;
mod types;
mod value;

// the program that reads scripts
mod program;

pub(crate) use column::PgColumn;
pub(crate) use connection::PgConnection;
pub(crate) use plumbing::{PgArgumentBuffer, PgArguments, PgBindIterExt, PgConnectOptions, Postgres};
pub(crate) use row::PgRow;
pub(crate) use statement::PgStatement;
pub(crate) use type_info::PgTypeInfo;
pub(crate) use types::PgHasArrayType;
pub(crate) use value::{PgValueFormat, PgValueRef};

fn main() {
    program::main()
}
