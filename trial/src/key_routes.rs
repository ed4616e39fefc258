use crate::{RespClient, RespReply, TrialPlan};

/// The routes of keys, as the servers tell them: which server a client must call for a key.
#[derive(Debug, Default)]
pub(crate) struct KeyRoutes {
    /// The address of each shard's owner; empty if the owners aren't known.
    owners: Vec<String>,
}

impl KeyRoutes {
    /// Returns the address of the key's owner, or the address of this turn if no server tells it.
    pub(crate) fn address(&mut self, plan: &TrialPlan, key: &str, turn: u64) -> String {
        if self.owners.is_empty() {
            self.owners = read(plan, turn).unwrap_or_default();
        }
        let at = hash(key.as_bytes()) as usize % self.owners.len().max(1);
        match self.owners.get(at) {
            Some(address) if !address.is_empty() => address.clone(),
            _ => plan.address(turn).to_owned(),
        }
    }

    /// Forgets the routes, so that they are asked for again.
    pub(crate) fn forget(&mut self) {
        self.owners.clear();
    }
}

/// Returns the addresses of the owners, as the server of this turn says: lines with a shard, its owner, and the owner's
/// address for clients.
fn read(plan: &TrialPlan, turn: u64) -> Option<Vec<String>> {
    let mut client = RespClient::connect(plan.address(turn), plan.patience).ok()?;
    let RespReply::List(lines) = client.call(&["SM", "ROUTES"]).ok()? else {
        return None;
    };
    let address = |line: &RespReply| match line {
        RespReply::Text(Some(it)) | RespReply::Line(it) => {
            let last = it.rsplit(' ').next().unwrap_or_default();
            last.trim_start_matches('-').to_owned()
        }
        _ => String::new(),
    };
    Some(lines.iter().skip(1).map(address).collect())
}

/// Returns the sum by which the server spreads keys without braces.
fn hash(bytes: &[u8]) -> u64 {
    const ODD: u64 = 0x9e37_79b9_7f4a_7c15;
    let add = |sum: u64, word| (sum.rotate_left(29) ^ u64::from_le_bytes(word)).wrapping_mul(ODD);
    let chunks = bytes.chunks(8).map(|it| {
        let mut word = [0; 8];
        word[..it.len()].copy_from_slice(it);
        word
    });
    let sum = chunks.fold(bytes.len() as u64, add);
    let sum = (sum ^ sum >> 32).wrapping_mul(ODD);
    sum ^ sum >> 29
}
