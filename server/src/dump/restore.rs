use super::{DumpFault, ShardHead};
use crate::body::BoxedBody;
use durkenzo::{ChangeFault, Control, RestoreFault, ShardId};

/// Gives each shard the stand that its head says, on a board on which no shard has an owner.
pub fn restore(control: &Control<BoxedBody>, heads: &[ShardHead]) -> Result<(), DumpFault> {
    heads.iter().try_for_each(|head| {
        let made = restore_one(control, head);
        made.map_err(|fault| match fault {
            RestoreFault::Change(fault) => DumpFault::Stand(head.shard, fault),
            _ => DumpFault::NoMemory,
        })
    })
}

fn restore_one(control: &Control<BoxedBody>, head: &ShardHead) -> Result<(), RestoreFault> {
    let shard = ShardId::new(head.shard).map_err(|_| ChangeFault::UnknownShard)?;
    control.restore(shard, head.stand)
}
