//! The keys of a shard. Each key has 16 bytes: the first two are the shard's number, and the last four are the key's.

pub fn key_of(shard: usize, number: u32) -> [u8; 16] {
    let mut key = *b"..shard's key...";
    key[..2].copy_from_slice(&(shard as u16).to_be_bytes());
    key[12..].copy_from_slice(&number.to_be_bytes());
    key
}

/// Returns the bound at which the shard's keys begin.
pub fn bound_of(shard: usize) -> Vec<u8> {
    match shard {
        0 => Vec::new(),
        _ => (shard as u16).to_be_bytes().to_vec(),
    }
}
