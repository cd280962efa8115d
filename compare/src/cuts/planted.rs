//! Wrong repairs in place of the library's: those that a pulled card can show
//! must be seen by the cuts alone.

use super::Cuts;
use crate::planted_repair::planted;
use crate::runs::fails;
use crate::writing::Writing;

const SEED: u64 = 650_065;
/// About as many as the short run of the driver has.
const CUTS: u64 = 40_000;

fn is_seen(writing: Writing) -> bool {
    let cuts = Cuts {
        writing,
        ..Cuts::new(SEED)
    };
    fails(cuts, CUTS)
}

#[test]
#[rustfmt::skip]
fn every_fault_that_a_pulled_card_shows_is_seen() {
    let faults = planted!(
        SoundRefused, Rule7Refused, FullRefused, NoFilesRefused, ByNumber, OrderOfTenForNine,
        LastTrackFirst, LastSectorFirst, OldOrderFirst, LostFirst, SoundLeft, Rotated,
        EndLinkLeft, EndTrackLeft, EndToFirst, LinksSectorFirst, FirstLinkLeft, PointerTrackFirst,
        PointerLeft, PointerTrackLeft, EmptyPointerTrackLeft, FreeCountLeft, FreeCountOneMore,
        FreeCountLowByte, FreeCountHighFirst, UsedCountLeft, UsedCountLowByte, UsedCountOfFiles,
        UsedCountWithDirectory, BodiesCleared, LostBodiesCleared, LastBodyCleared, BootCleared,
        DirectoryEndCleared, FileEndCleared, ProtectionLifted, VersionWritten,
        DirectoryOfOneSector, SystemThreaded, LastOfFileThreaded, LastFileThreaded,
        BlankDirectoryKept, LostLeft, OneLostThreaded, ManyLostLeft, LostDirectoryKept,
        LastTrackLeft, TrackZeroLeft, LastSectorLeft, MovedAsPlain, MovedOrder, NineAsTen,
        PlacesOf16Bits, UpTo79Tracks, NothingDone,
    );
    let unseen = faults.into_iter().filter(|(_, writing)| !is_seen(*writing));
    let unseen: Vec<&str> = unseen.map(|(name, _)| name).collect();
    assert_eq!(unseen, Vec::<&str>::new());
}
