use sm_envelope::Refusal;
use sm_ownership::record::Record;
use sm_ownership::route::Route;
use sm_ranges::server_id::ServerId;
use sm_service::reply::Reply;
use sm_table::{WorldAnswer, WorldFault};

// What a step answered. Of a reply it has the number, the server, the place and the count.
#[derive(Clone, Copy, Debug, PartialEq, Eq, Drop)]
pub enum Told {
    Made,
    Seen(Record),
    Sent,
    Began(ServerId),
    Forwarded(ServerId),
    Refused(Refusal),
    Replied(u64, ServerId, u64, i64),
    RepliedNoCount,
    Way(Option<Route>),
    Fault(WorldFault),
}

impl Told {
    pub fn of(answer: &WorldAnswer<Reply>) -> Told {
        match answer {
            WorldAnswer::Made => Told::Made,
            WorldAnswer::Seen(record) => Told::Seen(*record),
            WorldAnswer::Sent => Told::Sent,
            WorldAnswer::Began(server) => Told::Began(*server),
            WorldAnswer::Forwarded(server) => Told::Forwarded(*server),
            WorldAnswer::Refused(refusal) => Told::Refused(*refusal),
            WorldAnswer::Replied {
                number,
                server,
                place,
                reply: Reply::Count(count),
            } => Told::Replied(*number, *server, *place, *count),
            WorldAnswer::Replied { .. } => Told::RepliedNoCount,
            WorldAnswer::Way(route) => Told::Way(*route),
        }
    }
}
