//! Save: room is reckoned whole, on the disc and in the lent buffer, before the
//! first byte is written.

use crate::check::require_sound;
use crate::directory::{self, Entry, Slot, UNPROTECTED};
use crate::disc::{Address, Disc, DiscMut, Sector};
use crate::module::{sectors_taken, write_sector, Header};
use crate::name::Name;
use crate::refusal::Refusal;
use crate::writes::WriteList;

/// What a save will take from the disc.
struct Plan {
    /// The module's sectors in order.
    file: Vec<Sector>,
    slot: Slot,
    /// The last directory sector, if a new one is to be linked from it.
    grows_from: Option<Sector>,
    free_pointer: Address,
    free_count: usize,
    used_count: usize,
}

impl Plan {
    /// How many sectors are written: the system sector, the file's, and the
    /// entry's directory sector with the one that a new one is linked from.
    fn writes(&self) -> usize {
        1 + self.file.len() + 1 + usize::from(self.grows_from.is_some())
    }
}

/// Gives the length of the list of writes. The sectors are written in the
/// list's order, each once.
pub fn save(
    mut disc: DiscMut<'_>,
    name: &[u8],
    page: u32,
    start: u16,
    transfer: u16,
    sheet: &[u8],
    writes: &mut [u8],
) -> Result<usize, Refusal> {
    let name = Name::of_file(name).ok_or(Refusal::Name)?;
    let header = Header::new(page, start, transfer, sheet.len()).ok_or(Refusal::Module)?;
    require_sound(disc.now())?;
    if directory::find(disc.now(), name).is_some() {
        return Err(Refusal::Taken);
    }
    let plan = plan(disc.now(), sheet.len()).ok_or(Refusal::Room)?;
    let mut list = WriteList::lent(writes, plan.writes())?;
    disc.put_free_pointer(plan.free_pointer);
    disc.put_counts(plan.free_count, plan.used_count);
    list.add(disc.now(), Sector::SYSTEM);
    write_file(&mut disc, &plan.file, &header, sheet, &mut list);
    write_entry(&mut disc, &plan, name, &mut list);
    Ok(list.end())
}

/// Nothing if the free chain is shorter than the save needs.
fn plan(disc: Disc<'_>, length: usize) -> Option<Plan> {
    let needed = sectors_taken(length);
    let slot = directory::free_slot(disc);
    let taken_count = needed + usize::from(slot.is_none());
    let mut file: Vec<Sector> = disc.chain(disc.free_pointer()).take(taken_count).collect();
    if file.len() < taken_count {
        return None;
    }
    let free_pointer = disc.link(*file.last()?).or_zeros();
    let (slot, grows_from) = match slot {
        Some(slot) => (slot, None),
        None => {
            let sector = file.pop()?;
            (Slot { sector, index: 0 }, directory::sectors(disc).last())
        }
    };
    Some(Plan {
        file,
        slot,
        grows_from,
        free_pointer,
        free_count: disc.free_count() - taken_count,
        used_count: disc.used_count() + needed,
    })
}

fn write_file(
    disc: &mut DiscMut<'_>,
    file: &[Sector],
    header: &Header,
    sheet: &[u8],
    list: &mut WriteList<'_>,
) {
    let mut left = sheet;
    for (position, &sector) in file.iter().enumerate() {
        left = write_sector(disc.sector_mut(sector), position, header, left);
        let link = file
            .get(position + 1)
            .map_or(Address::END, |&next| disc.now().address(next));
        disc.put_link(sector, link);
        list.add(disc.now(), sector);
    }
}

fn write_entry(disc: &mut DiscMut<'_>, plan: &Plan, name: Name, list: &mut WriteList<'_>) {
    if plan.grows_from.is_some() {
        disc.sector_mut(plan.slot.sector).fill(0);
    }
    let entry = Entry {
        name,
        length: plan.file.len() as u16,
        first: disc.now().address(plan.file[0]),
        last: disc.now().address(plan.file[plan.file.len() - 1]),
        attribute: UNPROTECTED,
    };
    directory::fill_slot(disc, plan.slot, &entry);
    list.add(disc.now(), plan.slot.sector);
    if let Some(last) = plan.grows_from {
        let grown = disc.now().address(plan.slot.sector);
        disc.put_link(last, grown);
        list.add(disc.now(), last);
    }
}
