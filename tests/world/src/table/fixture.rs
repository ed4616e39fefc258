ghost use Rattle.std.specs.Prelude.{◌≡◌, map, replicate};
ghost use Rattle.sm_ranges.specs.declared.stand.Stand.TheVariants.{Vacant};
ghost use Rattle.sm_tasks.specs.Caps.{MeetsCaps};

use super::act::Act;
use super::told::Told;
use crate::common::new_books;
use sm_desk::Desk;
use sm_ownership::change::Change;
use sm_place::Books;
use sm_ranges::layout::Layout;
use sm_ranges::server_id::ServerId;
use sm_ranges::shard_id::ShardId;
use sm_service::counter_text::CounterText;
use sm_table::{Setup, World, WorldFault};
use sm_tasks::Tasks;
use std::alloc::Global;
use std::process::Abort;
use test_fixture::new_bodies;

// Books of so many vacant shards, and of servers 1 to 4.
fn books_of_four(rt: &impl Abort, alloc: Global, count: usize) -> Books
    ensures caps { MeetsCaps (record { ops = 1 }) result }
    ensures vacant { map (λ shard. shard.stand) result.shards ≡ replicate count Vacant }
{
    let servers = [
        ServerId::of(1),
        ServerId::of(2),
        ServerId::of(3),
        ServerId::of(4),
    ];
    new_books(alloc, count, &servers).ok().expect(rt, "books")
}

// Shards 0 to 3, of the keys below `m`, and from `m`, `s` and `x` on, that keep two requests each; and servers 1 to 4.
pub fn new_world(rt: &impl Abort, alloc: Global) -> World<CounterText> {
    let bounds: [&[u8]; 4] = [b"", b"m", b"s", b"x"];
    let layout = Layout::new(alloc, &bounds).ok().expect(rt, "a layout");
    let count = layout.count();
    let bodies = new_bodies(alloc, count, 2).ok().expect(rt, "bodies");
    let setup = Setup {
        layout,
        desk: Desk::new(books_of_four(rt, alloc, count), Tasks::new(1)),
        ceiling: 100,
    };
    World::new(alloc, setup, bodies).ok().expect(rt, "a world")
}

// A world, and the memory for the keys of the requests that it is sent.
#[derive(Drop)]
pub struct Fixture {
    alloc: Global,
    world: World<CounterText>,
}

impl Fixture {
    pub fn new(rt: &impl Abort, alloc: Global) -> Fixture {
        Fixture::of(alloc, new_world(rt, alloc))
    }

    // This world, which has this memory for keys.
    pub fn of(alloc: Global, world: World<CounterText>) -> Fixture {
        Fixture { alloc, world }
    }

    // What the step is answered, where there is memory for its key.
    pub fn told(&mut self, act: &Act) -> Told {
        let Ok(step) = act.step(self.alloc) else {
            return Told::Fault(WorldFault::NoMemory);
        };
        match self.world.step(step) {
            Ok(answer) => Told::of(&answer),
            Err(fault) => Told::Fault(fault),
        }
    }

    // Makes the steps, each of which is to answer so.
    pub fn follow(&mut self, rt: &impl Abort, cases: &[(Act, Told)]) {
        for (act, told) in cases {
            assert_eq!(*rt; self.told(act), *told);
        }
    }

    // Makes the change, which is answered so, and looks at the shard, of which that is seen.
    pub fn change(&mut self, rt: &impl Abort, k: ShardId, change: Change, told: Told, seen: Told) {
        self.follow(rt, &[(Act::Change(k, change), told), (Act::Look(k), seen)]);
    }

    pub fn reaches(&self, server: ServerId) -> bool {
        self.world.desk().reaches(server)
    }
}

// A world after these steps, each of which was to answer so.
pub fn followed(rt: &impl Abort, alloc: Global, cases: &[(Act, Told)]) -> Fixture {
    let mut fixture = Fixture::new(rt, alloc);
    fixture.follow(rt, cases);
    fixture
}

// Makes the steps in a world of their own.
pub fn follow(rt: &impl Abort, alloc: Global, cases: &[(Act, Told)]) {
    let _fixture = followed(rt, alloc, cases);
}
