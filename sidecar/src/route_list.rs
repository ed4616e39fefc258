use crate::sidecar_service::SidecarService;
use durkenzo_fleet::Fleet;
use serde::Serialize;

/// The owner of each shard that has one, as this process has read the records.
#[derive(Debug, Serialize)]
pub(crate) struct RouteList {
    /// The latest revision of a record, after which a client may ask for changes.
    pub(crate) revision: u64,
    /// How many shards there are.
    shards: u16,
    routes: Vec<ShardRoute>,
}

/// The owner of a shard.
#[derive(Debug, Serialize)]
struct ShardRoute {
    shard: u16,
    server: u16,
    revision: u64,
    /// The URL at which the owner's sidecar serves clients, if the owner is there.
    url: Option<String>,
}

impl RouteList {
    /// Returns what this process knows now.
    pub(crate) fn of(fleet: &Fleet<SidecarService>) -> RouteList {
        let shards = fleet.sharding().shards();
        let routes = (0..shards).filter_map(|shard| {
            let owner = fleet.owner(shard)?;
            Some(ShardRoute {
                shard,
                server: owner.server,
                revision: owner.revision,
                url: owner.clients.map(|it| format!("http://{it}")),
            })
        });
        let routes: Vec<_> = routes.collect();
        RouteList {
            revision: routes.iter().map(|it| it.revision).max().unwrap_or(0),
            shards,
            routes,
        }
    }

    /// Returns how many shards this server owns.
    pub(crate) fn owned_by(&self, server: u16) -> usize {
        self.routes.iter().filter(|it| it.server == server).count()
    }
}
