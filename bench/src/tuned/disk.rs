//! Flush and checkpoint.

use super::image::encode;
use super::state::State;
use super::{Refusal, Stored};
use second::layout::{DISK_LEN, IMAGE_A, IMAGE_B, LOG, POINTER};

impl State {
    pub fn flush(
        &mut self,
        disk: &mut [u8],
        memory: &mut [u8],
        tail: &mut [u8],
        count: usize,
        allowed: usize,
    ) -> Result<Stored, Refusal> {
        if disk.len() != DISK_LEN {
            return Err(1);
        }
        let admitted = self.admit_first(memory, tail, count)?;
        let (size, end) = (admitted.first.end, admitted.end);
        let made = size.min(allowed);
        disk[LOG + self.logend as usize..][..made].copy_from_slice(&tail[..made]);
        if allowed < size {
            return Ok(self.cut_off(memory, tail, made));
        }
        tail.copy_within(size..end, 0);
        tail[end - size..end].fill(0);
        self.logend += size as u16;
        self.ondisk = admitted.first.last;
        Ok(Stored {
            cut: false,
            stores: made,
        })
    }

    pub fn checkpoint(
        &mut self,
        disk: &mut [u8],
        memory: &mut [u8],
        tail: &mut [u8],
        allowed: usize,
    ) -> Result<Stored, Refusal> {
        if disk.len() != DISK_LEN {
            return Err(1);
        }
        self.admit(memory, tail)?;
        let (slot, named) = match disk[POINTER] {
            0 | 2 => (IMAGE_A, 1),
            _ => (IMAGE_B, 2),
        };
        let size = encode(self, memory, &mut disk[slot..], allowed);
        if allowed <= size {
            return Ok(self.cut_off(memory, tail, allowed));
        }
        disk[POINTER] = named;
        Ok(Stored {
            cut: false,
            stores: size + 1,
        })
    }

    /// What a cut leaves.
    fn cut_off(&mut self, memory: &mut [u8], tail: &mut [u8], stores: usize) -> Stored {
        memory.fill(0);
        tail.fill(0);
        self.unrecover();
        Stored { cut: true, stores }
    }
}
