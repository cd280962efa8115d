//! The disc as sectors and chains, their places in the image, and the fields
//! of the system sector. `Format` is the one home of the number of sectors.

use crate::refusal::Refusal;
use std::ops::Range;

pub const SECTOR_BYTES: usize = 256;
pub const MAX_TRACKS: usize = 80;
/// Of the larger format.
pub const MAX_SECTORS: usize = MAX_TRACKS * TEN;
pub const LINK_BYTES: usize = 2;

const NINE: usize = 9;
const TEN: usize = 10;

pub const FREE_POINTER: usize = 0x10;
pub const DIRECTORY_POINTER: usize = 0x12;
pub const FREE_COUNT: usize = 0x14;
pub const USED_COUNT: usize = 0x16;
pub const DISC_NAME: usize = 0x18;
pub const VERSION: usize = 0x40;

/// The order in which the sectors of a track pass: along the chain of a blank
/// disc, and for ten also from place to place of a moved image.
const ORDER_OF_NINE: [u8; NINE] = [1, 4, 7, 2, 5, 8, 3, 6, 9];
const ORDER_OF_TEN: [u8; TEN] = [1, 4, 7, 10, 3, 6, 9, 2, 5, 8];

/// Which place of its track each sector has in a moved image; sector 1 comes
/// first here, and places count from 0.
const MOVED_PLACES: [u8; TEN] = places_in(ORDER_OF_TEN);

const fn places_in(order: [u8; TEN]) -> [u8; TEN] {
    let mut places = [0; TEN];
    let mut place = 0;
    while place < TEN {
        places[order[place] as usize - 1] = place as u8;
        place += 1;
    }
    places
}

/// What the caller states of an image by two numbers: how many sectors a track
/// has, and how they are arranged in the image. Only these three exist.
#[derive(Debug, Clone, Copy, PartialEq, Eq)]
pub enum Format {
    /// Nine sectors, by number.
    Nine,
    /// Ten sectors, by number.
    Ten,
    /// Ten sectors, in passing order.
    TenMoved,
}

impl Format {
    pub fn stated(sectors: u32, arrangement: u32) -> Option<Format> {
        match (sectors, arrangement) {
            (9, 0) => Some(Format::Nine),
            (10, 0) => Some(Format::Ten),
            (10, 1) => Some(Format::TenMoved),
            _ => None,
        }
    }

    pub fn sectors_per_track(self) -> usize {
        self.passing_order().len()
    }

    pub fn passing_order(self) -> &'static [u8] {
        match self {
            Format::Nine => &ORDER_OF_NINE,
            Format::Ten | Format::TenMoved => &ORDER_OF_TEN,
        }
    }

    /// The whole tracks in a count of sectors. Dividing by a number that stands
    /// here is quicker than by one that only the run knows.
    fn whole_tracks(self, sectors: usize) -> usize {
        match self {
            Format::Nine => sectors / NINE,
            Format::Ten | Format::TenMoved => sectors / TEN,
        }
    }
}

/// A sector's number on the disc: with ten sectors a track 10t + s - 1, with
/// nine 9t + s - 1. It is neither a byte position nor a track and sector pair,
/// and the type keeps the three apart.
#[derive(Debug, Clone, Copy, PartialEq, Eq)]
pub struct Sector(u32);

impl Sector {
    /// 0/1, the only sector outside every chain.
    pub const SYSTEM: Sector = Sector(0);

    /// The sector of a number, which the caller knows to be on the disc.
    pub fn numbered(number: usize) -> Sector {
        Sector(number as u32)
    }

    pub fn number(self) -> usize {
        self.0 as usize
    }

    /// Byte position of the sector in an image. Nothing else knows how an
    /// image is arranged.
    fn start(self, format: Format) -> usize {
        let number = self.number();
        let place = match format {
            Format::Nine | Format::Ten => number,
            Format::TenMoved => {
                let in_track = number % TEN;
                number - in_track + usize::from(MOVED_PLACES[in_track])
            }
        };
        place * SECTOR_BYTES
    }
}

/// A track and sector pair as stored. It may lie anywhere, or end a chain.
#[derive(Debug, Clone, Copy, PartialEq, Eq)]
pub struct Address {
    pub track: u8,
    pub sector: u8,
}

impl Address {
    /// The end of a chain as this library writes it.
    pub const END: Address = Address {
        track: 0,
        sector: 0,
    };

    /// Links stand track first.
    pub fn from_link(bytes: &[u8]) -> Address {
        Address {
            track: bytes[0],
            sector: bytes[1],
        }
    }

    pub fn to_link(self) -> [u8; 2] {
        [self.track, self.sector]
    }

    /// Pointers, in the system sector and in entries, stand sector first.
    pub fn from_pointer(bytes: &[u8]) -> Address {
        Address {
            track: bytes[1],
            sector: bytes[0],
        }
    }

    pub fn to_pointer(self) -> [u8; 2] {
        [self.sector, self.track]
    }

    /// Track 0 is real, so the sector byte alone ends a chain.
    pub fn is_end(self) -> bool {
        self.sector == 0
    }

    /// The same address, with every form of end turned into zeros.
    pub fn or_zeros(self) -> Address {
        if self.is_end() {
            Address::END
        } else {
            self
        }
    }
}

/// An image of a known format and a right size, for reading.
#[derive(Debug, Clone, Copy)]
pub struct Disc<'a> {
    image: &'a [u8],
    tracks: usize,
    format: Format,
}

impl<'a> Disc<'a> {
    pub fn open(image: &'a [u8], sectors: u32, arrangement: u32) -> Result<Disc<'a>, Refusal> {
        let format = Format::stated(sectors, arrangement).ok_or(Refusal::Size)?;
        let tracks = format.whole_tracks(image.len() / SECTOR_BYTES);
        let whole = tracks * format.sectors_per_track() * SECTOR_BYTES == image.len();
        if whole && (1..=MAX_TRACKS).contains(&tracks) {
            Ok(Disc {
                image,
                tracks,
                format,
            })
        } else {
            Err(Refusal::Size)
        }
    }

    pub fn tracks(self) -> usize {
        self.tracks
    }

    pub fn format(self) -> Format {
        self.format
    }

    pub fn sectors(self) -> usize {
        self.image.len() / SECTOR_BYTES
    }

    /// Where the 256 bytes of a sector lie in the image.
    pub fn place(self, sector: Sector) -> Range<usize> {
        let start = sector.start(self.format);
        start..start + SECTOR_BYTES
    }

    /// The 256 bytes of a sector.
    pub fn sector(self, sector: Sector) -> &'a [u8] {
        &self.image[self.place(sector)]
    }

    /// The 256 bytes of 0/1.
    pub fn system(self) -> &'a [u8] {
        self.sector(Sector::SYSTEM)
    }

    pub fn link(self, sector: Sector) -> Address {
        Address::from_link(self.sector(sector))
    }

    /// The sector of a track and a sector number, if the disc has it.
    pub fn on_disc(self, track: u32, sector: u32) -> Option<Sector> {
        let per_track = self.format.sectors_per_track() as u32;
        // Sector 0 wraps round to a number that no track has.
        let in_track = sector.wrapping_sub(1);
        let on_disc = (track as usize) < self.tracks && in_track < per_track;
        on_disc.then(|| Sector(track * per_track + in_track))
    }

    /// The sector at an address, or nothing for an end or a place off the disc.
    pub fn locate(self, address: Address) -> Option<Sector> {
        self.on_disc(u32::from(address.track), u32::from(address.sector))
    }

    pub fn address(self, sector: Sector) -> Address {
        let track = self.format.whole_tracks(sector.number());
        let before = track * self.format.sectors_per_track();
        Address {
            track: track as u8,
            sector: (sector.number() - before) as u8 + 1,
        }
    }

    /// The sectors from an address to the end link. The walk gives up after as
    /// many steps as the disc has sectors, so it ends on unsound images too.
    pub fn chain(self, head: Address) -> Chain<'a> {
        Chain {
            disc: self,
            next: head,
            steps_left: self.sectors(),
        }
    }

    pub fn free_pointer(self) -> Address {
        Address::from_pointer(&self.system()[FREE_POINTER..])
    }

    pub fn directory_pointer(self) -> Address {
        Address::from_pointer(&self.system()[DIRECTORY_POINTER..])
    }

    pub fn free_count(self) -> usize {
        usize::from(word(self.system(), FREE_COUNT))
    }

    pub fn used_count(self) -> usize {
        usize::from(word(self.system(), USED_COUNT))
    }

    pub fn disc_name(self) -> &'a [u8] {
        &self.system()[DISC_NAME..DISC_NAME + 9]
    }
}

/// An image of a known format and a right size, for writing.
#[derive(Debug)]
pub struct DiscMut<'a> {
    image: &'a mut [u8],
    tracks: usize,
    format: Format,
}

impl<'a> DiscMut<'a> {
    pub fn open(
        image: &'a mut [u8],
        sectors: u32,
        arrangement: u32,
    ) -> Result<DiscMut<'a>, Refusal> {
        let Disc { tracks, format, .. } = Disc::open(image, sectors, arrangement)?;
        Ok(DiscMut {
            image,
            tracks,
            format,
        })
    }

    /// The disc as it stands now.
    pub fn now(&self) -> Disc<'_> {
        Disc {
            image: self.image,
            tracks: self.tracks,
            format: self.format,
        }
    }

    pub fn clear(&mut self) {
        self.image.fill(0);
    }

    pub fn sector_mut(&mut self, sector: Sector) -> &mut [u8] {
        let place = self.now().place(sector);
        &mut self.image[place]
    }

    pub fn system_mut(&mut self) -> &mut [u8] {
        self.sector_mut(Sector::SYSTEM)
    }

    pub fn put_link(&mut self, sector: Sector, link: Address) {
        self.sector_mut(sector)[..LINK_BYTES].copy_from_slice(&link.to_link());
    }

    pub fn put_free_pointer(&mut self, pointer: Address) {
        self.system_mut()[FREE_POINTER..FREE_POINTER + 2].copy_from_slice(&pointer.to_pointer());
    }

    pub fn put_directory_pointer(&mut self, pointer: Address) {
        self.system_mut()[DIRECTORY_POINTER..DIRECTORY_POINTER + 2]
            .copy_from_slice(&pointer.to_pointer());
    }

    pub fn put_counts(&mut self, free: usize, used: usize) {
        let system = self.system_mut();
        put_word(system, FREE_COUNT, free as u16);
        put_word(system, USED_COUNT, used as u16);
    }
}

/// The sectors of a chain in order.
#[derive(Debug, Clone)]
pub struct Chain<'a> {
    disc: Disc<'a>,
    next: Address,
    steps_left: usize,
}

impl Iterator for Chain<'_> {
    type Item = Sector;

    fn next(&mut self) -> Option<Sector> {
        let sector = self.disc.locate(self.next)?;
        self.steps_left = self.steps_left.checked_sub(1)?;
        self.next = self.disc.link(sector);
        Some(sector)
    }
}

/// A 16-bit number, low byte first.
pub fn word(bytes: &[u8], at: usize) -> u16 {
    u16::from_le_bytes([bytes[at], bytes[at + 1]])
}

pub fn put_word(bytes: &mut [u8], at: usize, value: u16) {
    bytes[at..at + 2].copy_from_slice(&value.to_le_bytes());
}
