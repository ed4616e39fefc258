//! Steps by chance: migrations, failures, restarts, checkpoints and holds.
ghost use Rattle.std.specs.Prelude.{◌<◌};

use crate::progress::Progress;
use sm_cluster::Cluster;
use sm_desk::Command;
use sm_ownership::Change;
use sm_ranges::server_id::ServerId;
use sm_ranges::shard_id::ShardId;
use sm_service::CounterText;
use std::alloc::Global;
use std::rt::Clock;
use std::sync::Wait;

/// Takes steps by chance until the run's time is over, each beside further calls; how many were made.
pub(crate) fn steps<R: Wait + Clock>(
    rt: &R,
    alloc: Global,
    cluster: &mut Cluster<CounterText>,
    run: &Progress,
    seed: u64,
) -> Vec<u64> {
    let mut seed = seed;
    let mut made = 0u64;
    for _ in 0..u64::MAX {
        if run.nanoseconds(rt) > run.plan.nanoseconds() {
            break;
        }
        if step(rt, cluster, &mut seed) {
            made = made.wrapping_add(1);
        }
        run.wait_round();
    }
    let mut figures = Vec::new(alloc);
    let _kept = figures.push(made).is_ok();
    figures
}

// Gives a command, publishes, makes a checkpoint, or holds or frees a shard; whether that was made.
fn step<R: Wait>(rt: &R, cluster: &mut Cluster<CounterText>, seed: &mut u64) -> bool {
    let Some(k) = ShardId::new(u16::from(below(8, seed))) else {
        return false;
    };
    let server = server_drawn(seed);
    match below(16, seed) {
        0 | 1 => cluster.publish(rt, k).is_ok(),
        2 => cluster.checkpoint(k, server).is_ok(),
        3 => cluster.hold(k, server).is_ok(),
        4 | 5 => cluster.free(k).is_ok(),
        _ => cluster.command(command_drawn(k, server, seed)).is_ok(),
    }
}

fn command_drawn(k: ShardId, server: ServerId, seed: &mut u64) -> Command {
    match below(16, seed) {
        0 => Command::Ask(server),
        1 => Command::Approve(server),
        2 => Command::Stopped(server),
        3 | 4 | 5 => Command::Back(server),
        6 => Command::Fail(server),
        _ => Command::Change(k, change_drawn(server, seed)),
    }
}

fn change_drawn(server: ServerId, seed: &mut u64) -> Change {
    match below(12, seed) {
        0 | 1 => Change::PrepareAddShard(server),
        2 | 3 => Change::PrepareDropShard,
        4 | 5 => Change::AddShard,
        6 | 7 => Change::DropShard,
        8 => Change::Cancel,
        9 => Change::Pause,
        10 => Change::Resume,
        _ => Change::Reassign(server),
    }
}

fn server_drawn(seed: &mut u64) -> ServerId {
    match below(3, seed) {
        0 => ServerId::of(1),
        1 => ServerId::of(2),
        _ => ServerId::of(3),
    }
}

// A number below the bound that looks drawn by chance, the same for the same seed.
fn below(bound: u8, seed: &mut u64) -> u8
    requires { 0 < bound }
{
    *seed = seed
        .wrapping_mul(6_364_136_223_846_793_005)
        .wrapping_add(1_442_695_040_888_963_407);
    seed.to_be_bytes()[0] % bound
}
