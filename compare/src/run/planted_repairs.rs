//! Wrong repairs in place of the library's: each must be seen.

use super::planted_lists::failures;
use crate::planted_repair::planted;

#[test]
fn the_right_repair_passes() {
    let [(_, writing)] = planted!(Right);
    assert_eq!(failures(writing), 0);
}

#[test]
#[rustfmt::skip]
fn every_fault_planted_in_the_repair_is_seen() {
    let faults = planted!(
        SoundRefused, Rule6Refused, Rule7Refused, Rule8Refused, Rule1Done, Rule2Done, Rule3Done,
        Rule4Done, Rule5Done, UnsoundForSize, SizeForUnsound, NineMovedTaken, ArrangementCut,
        SectorsCut, OtherSectorsTaken, LengthRoundedDown, TooLongTaken, FullRefused,
        NoFilesRefused, WritesWhenRefused, ByNumber, OrderOfTenForNine, LastTrackFirst,
        LastSectorFirst, OldOrderFirst, LostFirst, SoundLeft, Rotated, EndLinkLeft, EndTrackLeft,
        EndToFirst, LinksSectorFirst, FirstLinkLeft, PointerTrackFirst, PointerLeft,
        PointerTrackLeft, EmptyPointerLeft, EmptyPointerTrackLeft, FreeCountLeft,
        FreeCountOneMore, FreeCountLowByte, FreeCountHighFirst, UsedCountLeft, UsedCountLowByte,
        UsedCountOfFiles, UsedCountWithDirectory, BodiesCleared, LostBodiesCleared,
        LastBodyCleared, BootCleared, DirectoryEndCleared, FileEndCleared, ProtectionLifted,
        VersionWritten, DirectoryOfOneSector, SystemThreaded, LastOfFileThreaded,
        LastFileThreaded, BlankDirectoryKept, LostLeft, OneLostThreaded, ManyLostLeft,
        LostDirectoryKept, LastTrackLeft, TrackZeroLeft, LastSectorLeft, MovedAsPlain,
        MovedOrder, NineAsTen, PlacesOf16Bits, UpTo79Tracks, NothingDone,
    );
    let unseen = faults.into_iter().filter(|(_, writing)| failures(*writing) == 0);
    let unseen: Vec<&str> = unseen.map(|(name, _)| name).collect();
    assert_eq!(unseen, Vec::<&str>::new());
}
