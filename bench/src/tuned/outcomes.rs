//! Which transactions went through (document 02, A.8).

use super::log::group;
use super::Refusal;
use second::inspect::{ABORTED, COMMITTED};
use second::layout::{DISK_LEN, LOG};

/// The outcome of each id's last group in the log; the count of groups.
pub fn outcomes(disk: &[u8], ids: &[u16], out: &mut [u8]) -> Result<u32, Refusal> {
    if disk.len() != DISK_LEN {
        return Err(1);
    }
    if ids.len() != out.len() || !rises(ids) {
        return Err(20);
    }
    out.fill(0);
    let log = &disk[LOG..];
    let (mut at, mut last, mut count) = (0, 0, 0);
    while let Some(found) = group(&log[at..], last) {
        if let Some(place) = place_of(ids, found.id) {
            out[place] = found.commit.map_or(ABORTED, |_| COMMITTED);
        }
        last = found.commit.unwrap_or(last);
        at += found.size;
        count += 1;
    }
    Ok(count)
}

/// Whether each is above the one before it: block by block, so that a block is
/// compared many at a time.
fn rises(ids: &[u16]) -> bool {
    let Some((_, rest)) = ids.split_first() else {
        return true;
    };
    let mut blocks = ids.chunks(64).zip(rest.chunks(64));
    blocks.all(|(low, high)| low.iter().zip(high).fold(true, |up, (l, h)| up & (l < h)))
}

/// In a list that rises an id stands no further from the first than it is above
/// it; where no id is left out in between, just there.
fn place_of(ids: &[u16], id: u16) -> Option<usize> {
    let most = usize::from(id.checked_sub(*ids.first()?)?);
    match ids.get(most) {
        Some(&there) if there == id => Some(most),
        Some(_) => ids[..most].binary_search(&id).ok(),
        None => ids.binary_search(&id).ok(),
    }
}
