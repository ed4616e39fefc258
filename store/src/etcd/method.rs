use super::etcd_protocol::EtcdProtocol;

/// A method of etcd, which a member is called for.
#[derive(Clone, Copy, Debug, PartialEq, Eq)]
pub(super) enum Method {
    /// Read a range of keys.
    Range,
    /// Make a transaction.
    Transaction,
    /// Discard history.
    Compact,
    /// Tell changes, as a stream.
    Watch,
    /// Grant a lease.
    Grant,
    /// Keep leases, each as it is asked for.
    KeepAlive,
    /// End a lease.
    Revoke,
    /// Tell about its own data.
    Status,
    /// Return the room of discarded data.
    Defragment,
    /// Tell or end alarms.
    Alarm,
    /// Give a user a token.
    Authenticate,
}

impl Method {
    /// Returns the path of its calls.
    pub(super) fn path(self, protocol: EtcdProtocol) -> &'static str {
        let (json, grpc) = self.paths();
        match protocol {
            EtcdProtocol::Json => json,
            EtcdProtocol::Grpc => grpc,
        }
    }

    /// Returns the paths of its calls in JSON and in gRPC.
    fn paths(self) -> (&'static str, &'static str) {
        match self {
            Method::Range => ("/v3/kv/range", "/etcdserverpb.KV/Range"),
            Method::Transaction => ("/v3/kv/txn", "/etcdserverpb.KV/Txn"),
            Method::Compact => ("/v3/kv/compaction", "/etcdserverpb.KV/Compact"),
            Method::Watch => ("/v3/watch", "/etcdserverpb.Watch/Watch"),
            Method::Grant => ("/v3/lease/grant", "/etcdserverpb.Lease/LeaseGrant"),
            Method::KeepAlive => ("/v3/lease/keepalive", "/etcdserverpb.Lease/LeaseKeepAlive"),
            Method::Revoke => ("/v3/lease/revoke", "/etcdserverpb.Lease/LeaseRevoke"),
            Method::Status => ("/v3/maintenance/status", "/etcdserverpb.Maintenance/Status"),
            Method::Defragment => (
                "/v3/maintenance/defragment",
                "/etcdserverpb.Maintenance/Defragment",
            ),
            Method::Alarm => ("/v3/maintenance/alarm", "/etcdserverpb.Maintenance/Alarm"),
            Method::Authenticate => ("/v3/auth/authenticate", "/etcdserverpb.Auth/Authenticate"),
        }
    }
}
