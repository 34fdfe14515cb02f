//! What looks at a disk, takes no state and stores nothing: the first groups,
//! one page and the outcomes (document 02, A.3, A.6 and A.8).

use crate::layout::{DISK_LEN, LOG, MEMORY_LEN, PAGES, PAGE_LEN};
use crate::log::{read_log, Csn, Group};
use crate::restart::{go_forward, named_image, recover};
use crate::state::Refusal;

/// How far the first groups reach.
#[derive(Clone, Copy, Debug, PartialEq, Eq)]
pub struct Reached {
    pub log_end: usize,
    pub csn: Csn,
}

/// Leaves the memory as it is after step 3's first so many groups, or all if
/// fewer; with none it is the image's. Numbers 1, 3 and 4 as at restart.
pub fn first_groups(disk: &[u8], memory: &mut [u8], count: usize) -> Result<Reached, Refusal> {
    if disk.len() != DISK_LEN || memory.len() != MEMORY_LEN {
        return Err(1);
    }
    memory.fill(0);
    let (image, image_memory) = named_image(disk)?;
    memory.copy_from_slice(&image_memory);
    let log = read_log(&disk[LOG + image.log_end..], image.csn_on_disk);
    let first = &log.groups[..count.min(log.groups.len())];
    go_forward(first, image.txs, memory);
    let size = first.iter().map(Group::size).sum::<usize>();
    let last = first.iter().filter_map(Group::csn).next_back();
    Ok(Reached {
        log_end: image.log_end + size,
        csn: last.unwrap_or(image.csn_on_disk),
    })
}

/// Fills the buffer with that page as restart, given stores enough, would
/// leave it. Numbers 1 and 17, then 3 to 5 as at restart, which zero it.
pub fn one_page(disk: &[u8], buffer: &mut [u8], page: usize) -> Result<(), Refusal> {
    if disk.len() != DISK_LEN || buffer.len() != PAGE_LEN {
        return Err(1);
    }
    if page >= PAGES {
        return Err(17);
    }
    buffer.fill(0);
    let found = recover(disk)?;
    buffer.copy_from_slice(&found.memory[page * PAGE_LEN..(page + 1) * PAGE_LEN]);
    Ok(())
}

pub const COMMITTED: u8 = 1;
pub const ABORTED: u8 = 2;

/// What became of each id, by its last group in the log read from its first
/// byte: committed, aborted, or 0 where it has none. Gives the count of groups.
/// Numbers 1 and 20.
pub fn outcomes(disk: &[u8], ids: &[u16], out: &mut [u8]) -> Result<usize, Refusal> {
    if disk.len() != DISK_LEN {
        return Err(1);
    }
    let rising = ids.windows(2).all(|pair| pair[0] < pair[1]);
    if !rising || ids.len() != out.len() {
        return Err(20);
    }
    out.fill(0);
    let log = read_log(&disk[LOG..], Csn(0));
    for group in &log.groups {
        if let Ok(place) = ids.binary_search(&group.id().0) {
            out[place] = group.csn().map_or(ABORTED, |_| COMMITTED);
        }
    }
    Ok(log.groups.len())
}

/// The office's lines: each id with what became of it, or the refusal alone.
pub fn outcome_lines(disk: &[u8], ids: &[u16]) -> String {
    let mut told = vec![0; ids.len()];
    if let Err(number) = outcomes(disk, ids, &mut told) {
        return format!("refused={number}\n");
    }
    let line = |(id, outcome): (&u16, &u8)| match *outcome {
        COMMITTED => format!("{id} committed\n"),
        ABORTED => format!("{id} aborted\n"),
        _ => format!("{id} neither\n"),
    };
    ids.iter().zip(&told).map(line).collect()
}
