//! What document 02, A.6, claims of a disk.

use crate::inspect::one_page;
use crate::layout::{LOG_LEN, MEMORY_LEN, PAGES, PAGE_LEN, TAIL_LEN};
use crate::restart::restart;

/// The sixteen pages laid together are the memory that a restart, given stores
/// enough, leaves on a copy, and each page is refused as it is.
pub fn check_pages(disk: &[u8]) -> Result<(), String> {
    let mut memory = vec![0xA5; MEMORY_LEN];
    let mut tail = vec![0xA5; TAIL_LEN];
    let (_, result) = restart(&mut disk.to_vec(), &mut memory, &mut tail, LOG_LEN);
    let wanted = result.map(|_| ());
    for page in 0..PAGES {
        let mut buffer = vec![0xA5; PAGE_LEN];
        let told = one_page(disk, &mut buffer, page);
        if told != wanted {
            return Err(format!("page {page} is {told:?}, the restart {wanted:?}"));
        }
        if buffer != memory[page * PAGE_LEN..(page + 1) * PAGE_LEN] {
            return Err(format!("page {page} is not the one that a restart leaves"));
        }
    }
    Ok(())
}
