use super::greeting::FIRST_VERSION;
use super::{Fields, WireFault};

/// The version of the table of commands of a process that doesn't tell one.
pub const FIRST_TABLE: u16 = 1;

/// The identity of a process.
#[derive(Clone, Copy, Debug, PartialEq, Eq)]
pub struct Identity {
    /// The server that it runs.
    pub server: u16,
    /// The checksum of its settings.
    pub settings: u64,
    /// Its number. Of two processes with the same server, the later one has the greater number.
    pub process: u64,
    /// The version of its host's table of commands. A process is only sent requests of this version and of earlier
    /// ones.
    pub table: u16,
}

impl Identity {
    /// Writes it as greetings of this version do.
    pub(super) fn write(&self, version: u8, out: &mut Vec<u8>) {
        out.extend(self.server.to_be_bytes());
        out.extend(self.settings.to_be_bytes());
        out.extend(self.process.to_be_bytes());
        if version > FIRST_VERSION {
            out.extend(self.table.to_be_bytes());
        }
    }

    /// Reads it from a greeting of this version.
    pub(super) fn read(version: u8, fields: &mut Fields<'_>) -> Result<Identity, WireFault> {
        Ok(Identity {
            server: fields.short()?,
            settings: fields.long()?,
            process: fields.long()?,
            table: match version {
                FIRST_VERSION => FIRST_TABLE,
                _ => fields.short()?,
            },
        })
    }
}

/// Returns a checksum of the settings, which distinguishes processes with different settings.
pub fn checksum(settings: &[u8]) -> u64 {
    settings.iter().fold(0xcbf2_9ce4_8422_2325, |sum, byte| {
        (sum ^ u64::from(*byte)).wrapping_mul(0x0100_0000_01b3)
    })
}

#[cfg(test)]
mod tests {
    use super::*;

    #[test]
    fn settings_that_differ_have_other_sums() {
        assert_ne!(checksum(b"hash\n{}"), checksum(b"hash\n{ }"));
    }
}
