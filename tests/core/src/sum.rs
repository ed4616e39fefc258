ghost use Rattle.std.specs.Prelude.{◌+◌, ◌%◌, ◌^◌, ◌==◌, if◌then◌else◌};
ghost use Rattle.std.specs.Int.{to_be_bytes, w64};
ghost use Rattle.std.proofs.lemmas.Bool.{cond-true};

use sm_shard::{ReadAnswer, StoreMachine};
use std::alloc::{AllocError, Global};

/// A sum, to which each request adds.
#[derive(Drop)]
pub struct Sum {
    pub total: u64,
}

impl StoreMachine<u64, u64> for Sum {
    ghost service = { record {
      start = record { total = 0 };
      after = λ sum amount. if amount == 0 then sum else record { total = (sum.total + amount) % 2 ^ 64 };
      reply = λ sum amount. (sum.total + amount) % 2 ^ 64;
      reads = λ amount. amount == 0;
      text = λ sum amount. to_be_bytes w64 sum.total;
      spelled = λ sum. to_be_bytes w64 sum.total;
    } };

    ghost size = { λ amount. 8 };

    fn new(_: Global) -> Sum {
        Sum { total: 0 }
    }

    fn answer(&mut self, _: Global, request: &u64) -> Result<u64, AllocError> {
        let total = self.total.wrapping_add(*request);
        if *request != 0 {
            self.total = total;
        }
        Ok(total)
    }

    fn peek(&self, alloc: Global, request: &u64) -> Result<Option<ReadAnswer<u64>>, AllocError> {
        if *request != 0 {
            return Ok(None);
        }
        Ok(Some(ReadAnswer {
            reply: self.total.wrapping_add(*request),
            text: Vec::from_slice(alloc, &self.total.to_be_bytes())?,
        }))
    }

    fn size_of(_: &u64) -> u64 {
        8
    }

    fn save(&self, alloc: Global) -> Result<Vec<u8>, AllocError> {
        Vec::from_slice(alloc, &self.total.to_be_bytes())
    }

    fn load(_: Global, bytes: &[u8]) -> Result<Option<Sum>, AllocError> {
        if bytes.len() != 8 {
            return Ok(None);
        }
        Ok(Some(Sum {
            total: u64::from_be_bytes([
                bytes[0], bytes[1], bytes[2], bytes[3], bytes[4], bytes[5], bytes[6], bytes[7],
            ]),
        }))
    }

    ghost reads_leave = { λ sum amount reads.
        cond-true (amount == 0) sum (record { total = (sum.total + amount) % 2 ^ 64 }) reads };
}
