//! Stand-in for establish.rs: a fresh connection over the stand-in server, and the calls that the program makes of it.
use super::stream::PgStream;
use super::{LogSettings, PgConnection, PgConnectionInner};
use crate::common::StatementCache;
use crate::error::Error;
use crate::io::StatementId;
use crate::message::{ParameterDescription, RowDescription, TransactionStatus};
use crate::program::server::Server;
use crate::statement::PgStatementMetadata;
use crate::type_info::PgType;
use crate::types::Oid;
use crate::{HashMap, PgTypeInfo};
use std::sync::{Arc, Mutex};

impl PgConnection {
    pub(crate) fn over(server: Arc<Mutex<Server>>) -> Self {
        PgConnection {
            inner: Box::new(PgConnectionInner {
                stream: PgStream::over(server),
                process_id: 0,
                secret_key: 0,
                next_statement_id: StatementId,
                cache_statement: StatementCache::new(),
                cache_type_info: HashMap::new(),
                cache_type_oid: HashMap::new(),
                cache_elem_type_to_array: HashMap::new(),
                cache_table_data: HashMap::new(),
                pending_ready_for_query_count: 0,
                transaction_status: TransactionStatus::Idle,
                transaction_depth: 0,
                log_settings: LogSettings,
            }),
        }
    }

    /// `resolve_statement_metadata` of resolve.rs, which is `pub(super)`.
    pub(crate) async fn bind(
        &mut self,
        queries: bool,
        parameters: Option<ParameterDescription>,
        rows: Option<RowDescription>,
        origins: bool,
    ) -> Result<Arc<PgStatementMetadata>, Error> {
        if queries {
            self.resolve_statement_metadata::<true>(parameters, rows, origins).await
        } else {
            self.resolve_statement_metadata::<false>(parameters, rows, origins).await
        }
    }

    /// What the connection knows of an OID: the answer of a statement with that one parameter, no queries allowed.
    pub(crate) async fn known(&mut self, oid: Oid) -> Result<Option<PgTypeInfo>, Error> {
        let parameters = ParameterDescription { types: [oid].into_iter().collect() };
        let bound = self
            .resolve_statement_metadata::<false>(Some(parameters), None, false)
            .await?;
        Ok(match &bound.parameters[0].0 {
            PgType::DeclareWithOid(_) => None,
            _ => Some(bound.parameters[0].clone()),
        })
    }
}
