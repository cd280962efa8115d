//! The weekly totals: a sheet's records are added to a copy of the lent table,
//! which is handed back only when nothing refuses it.

use crate::refusal::Refusal;

/// The totals of a table, one for each of the workers 1 to 500.
const WORKERS: usize = 500;
const HIGHEST_TOTAL: u32 = 1_000_000_000;

const END: u8 = 0;
const PIECES: u8 = 1;
const DATE: u8 = 2;

pub fn add_sheet(totals: &mut [u32], sheet: &[u8]) -> Result<(), Refusal> {
    let lent: &[u32] = totals;
    let mut grown: [u32; WORKERS] = lent.try_into().map_err(|_| Refusal::BadSheet)?;
    add_records(&mut grown, sheet).ok_or(Refusal::BadSheet)?;
    // Totals never fall, so one that was too high at any moment still is.
    if grown.iter().any(|&total| total > HIGHEST_TOTAL) {
        return Err(Refusal::Total);
    }
    totals.copy_from_slice(&grown);
    Ok(())
}

/// Nothing if the bytes aren't a sheet; the totals are of no use then.
fn add_records(totals: &mut [u32; WORKERS], sheet: &[u8]) -> Option<()> {
    let mut left = sheet;
    loop {
        left = match left {
            [END] => return Some(()),
            [PIECES, low, high, pieces_low, pieces_high, rest @ ..] => {
                let worker = u16::from_le_bytes([*low, *high]);
                let pieces = u16::from_le_bytes([*pieces_low, *pieces_high]);
                let total = totals.get_mut(usize::from(worker).checked_sub(1)?)?;
                // Any number of records may be handed in: a sum beyond 32 bits
                // has to stay too high.
                *total = total.saturating_add(u32::from(pieces));
                rest
            }
            [DATE, _, _, _, _, rest @ ..] => rest,
            _ => return None,
        };
    }
}
