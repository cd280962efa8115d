//! The history: a plain book of a run, and what it claims at each moment.
//!
//! The claims hold for any program that follows the document, so the calls
//! that they speak of are taken from a `Program`. A run has one number of
//! sectors a track and one arrangement throughout: the book is told both at the
//! start and keeps them.

use crate::command::{Answer, Buffer, Command};
use crate::cuts::{counts_as_done, write_count, Step};
use crate::disc::{word, Disc, Sector, FREE_COUNT};
use crate::generate::typed_form;
use crate::writes_book::{list_fault, list_length};
use crate::{check, list, read, save, Filled, Reading};

const SLOTS_PER_DIRECTORY_SECTOR: usize = 15;
/// The most bytes that a module has.
pub(crate) const WHOLE_PAGE: usize = 65_536;
/// What lent buffers hold before a call.
const FILL: u8 = 0xA5;
/// What the sheets of tried saves are made of.
const SHEET: u8 = 7;

/// A program whose calls the claims of the book speak of.
pub trait Program {
    fn read(
        &self,
        image: &[u8],
        sectors: u32,
        arrangement: u32,
        name: &[u8],
        buffer: &mut [u8],
    ) -> Reading;

    #[allow(clippy::too_many_arguments)]
    fn save(
        &self,
        image: &mut [u8],
        sectors: u32,
        arrangement: u32,
        name: &[u8],
        page: u32,
        start: u16,
        transfer: u16,
        sheet: &[u8],
        writes: &mut [u8],
    ) -> Filled;
}

/// The calls of this crate.
#[derive(Debug, Clone, Copy)]
pub struct Reference;

impl Program for Reference {
    fn read(
        &self,
        image: &[u8],
        sectors: u32,
        arrangement: u32,
        name: &[u8],
        buffer: &mut [u8],
    ) -> Reading {
        read(image, sectors, arrangement, name, buffer)
    }

    fn save(
        &self,
        image: &mut [u8],
        sectors: u32,
        arrangement: u32,
        name: &[u8],
        page: u32,
        start: u16,
        transfer: u16,
        sheet: &[u8],
        writes: &mut [u8],
    ) -> Filled {
        save(
            image,
            sectors,
            arrangement,
            name,
            page,
            start,
            transfer,
            sheet,
            writes,
        )
    }
}

/// What a standing file reads as.
#[derive(Debug, Clone, PartialEq, Eq)]
pub enum BookReading {
    /// Read answers 0 with these numbers and these bytes.
    Module(Reading, Vec<u8>),
    /// Read answers 9.
    NotPlain,
}

#[derive(Debug, Clone, PartialEq, Eq)]
pub struct StandingFile {
    pub name: [u8; 9],
    pub sectors: usize,
    pub reading: BookReading,
}

/// Fed the starting image, each command's arguments and whether the command
/// was accepted; it never looks at the image again.
#[derive(Debug, Clone, PartialEq, Eq)]
pub struct Book {
    sectors: u32,
    arrangement: u32,
    sectors_on_disc: usize,
    directory_at_start: usize,
    /// The most files that stood at any moment from the start on.
    peak: usize,
    files: Vec<StandingFile>,
}

impl Book {
    /// The book of a run that starts with this image, with these numbers stated
    /// throughout; none if the image isn't sound.
    pub fn start(image: &[u8], sectors: u32, arrangement: u32) -> Option<Book> {
        let checked = check(image, sectors, arrangement);
        if (checked.number, checked.rule) != (0, 0) {
            return None;
        }
        let disc = Disc::open(image, sectors, arrangement).ok()?;
        let files = files_at_start(image, sectors, arrangement);
        Some(Book {
            sectors,
            arrangement,
            sectors_on_disc: disc.sectors(),
            directory_at_start: follow(disc, pointer(disc.system(), 0x12))?.len(),
            peak: files.len(),
            files,
        })
    }

    /// The number of sectors a track that the run states.
    pub fn sectors(&self) -> u32 {
        self.sectors
    }

    pub fn arrangement(&self) -> u32 {
        self.arrangement
    }

    pub fn standing(&self) -> &[StandingFile] {
        &self.files
    }

    /// Directory sectors: those of the start, or as many as the peak needed.
    pub fn directory(&self) -> usize {
        let for_peak = (self.peak + SLOTS_PER_DIRECTORY_SECTOR - 1) / SLOTS_PER_DIRECTORY_SECTOR;
        self.directory_at_start.max(for_peak)
    }

    pub fn file_sectors(&self) -> usize {
        self.files.iter().map(|file| file.sectors).sum()
    }

    /// The free-sector sum: all sectors, 10T or 9T, - 1 - directory - files.
    /// Sound runs never make it negative.
    pub fn free(&self) -> usize {
        (self.sectors_on_disc - 1).saturating_sub(self.directory() + self.file_sectors())
    }

    /// The sectors that a save of `length` bytes needs now.
    pub fn need(&self, length: usize) -> usize {
        let full = self.files.len() == SLOTS_PER_DIRECTORY_SECTOR * self.directory();
        module_sectors(length) + usize::from(full)
    }

    /// How many sectors a save of `length` bytes lists: the system sector, the
    /// module's, and one directory sector or, where the need has one for a new
    /// directory sector, two.
    pub fn writes_of_save(&self, length: usize) -> usize {
        self.need(length) + 2
    }

    /// The answer due to a save, lent so many bytes for its list, that nothing
    /// but room can refuse.
    pub fn save_due(&self, length: usize, lent: usize) -> Filled {
        if self.need(length) > self.free() {
            refused_filling(8)
        } else {
            listing_due(self.writes_of_save(length), lent)
        }
    }

    /// The answer due to a command that lists its writes, unless a refusal other
    /// than 8 and 10 applies; nothing for any other command.
    pub fn due(&self, command: &Command) -> Option<Filled> {
        let lent = command.lent_for_writes()?.length;
        Some(match command {
            Command::Save { sheet, .. } => self.save_due(sheet.len(), lent),
            // Directory sector, last sector, system sector.
            Command::Delete { .. } => listing_due(3, lent),
            // The entry's directory sector.
            _ => listing_due(1, lent),
        })
    }

    /// Enters a command. A refused one changes nothing, nor does any repair, nor
    /// a replay: after an accepted one the book is over (see `History`).
    pub fn record(&mut self, command: &Command, accepted: bool) {
        if !accepted {
            return;
        }
        match command {
            Command::Save {
                name,
                page,
                start,
                transfer,
                sheet,
                ..
            } => self.add(name, *page, (*start, *transfer), sheet),
            Command::Delete { name, .. } => {
                let gone = stored(name);
                self.files.retain(|file| file.name != gone);
            }
            Command::Rename { old, new, .. } => {
                let old = stored(old);
                for file in self.files.iter_mut().filter(|file| file.name == old) {
                    file.name = stored(new);
                }
            }
            Command::Blank { .. } => self.restart_blank(),
            Command::Check
            | Command::List { .. }
            | Command::Read { .. }
            | Command::Protect { .. }
            | Command::View { .. }
            | Command::Repair
            | Command::Replay { .. } => {}
        }
    }

    fn add(&mut self, name: &[u8], page: u32, (start, transfer): (u16, u16), sheet: &[u8]) {
        let start = u32::from(start);
        let reading = Reading {
            number: 0,
            page,
            start,
            end: start + sheet.len() as u32 - 1,
            transfer: u32::from(transfer),
            length: sheet.len() as u32,
        };
        self.files.push(StandingFile {
            name: stored(name),
            sectors: module_sectors(sheet.len()),
            reading: BookReading::Module(reading, sheet.to_vec()),
        });
        self.peak = self.peak.max(self.files.len());
    }

    /// A blank disc is itself a start: one directory sector and no file.
    fn restart_blank(&mut self) {
        self.directory_at_start = 1;
        self.peak = 0;
        self.files.clear();
    }
}

/// The book of a run with replays, cuts and repairs. After an accepted replay,
/// and as long as the image was never sound, the next sound image is a new
/// start. From a cut to the next accepted repair, replay or blank the book is
/// kept on, but demand 3 is silent.
#[derive(Debug, Clone, PartialEq, Eq)]
pub struct History {
    sectors: u32,
    arrangement: u32,
    book: Option<Book>,
    /// A card was pulled and nothing that ends the silence came since.
    cut: bool,
}

impl History {
    pub fn start(image: &[u8], sectors: u32, arrangement: u32) -> History {
        History {
            sectors,
            arrangement,
            book: Book::start(image, sectors, arrangement),
            cut: false,
        }
    }

    /// None while demand 3 is silent.
    pub fn book(&self) -> Option<&Book> {
        self.book.as_ref().filter(|_| !self.cut)
    }

    /// Enters a command. The image as it left it is looked at only for a start.
    pub fn record(&mut self, command: &Command, accepted: bool, image: &[u8]) {
        let replayed = accepted && matches!(command, Command::Replay { .. });
        match &mut self.book {
            Some(book) if !replayed => book.record(command, accepted),
            _ => self.book = Book::start(image, self.sectors, self.arrangement),
        }
        let ends_silence = matches!(command, Command::Repair | Command::Blank { .. });
        if replayed || accepted && ends_silence {
            self.cut = false;
        }
    }

    /// Enters an accepted command whose list of so many writes was cut after
    /// `made` of them.
    pub fn record_cut(&mut self, command: &Command, writes: usize, made: usize) {
        if let (Some(book), Some(done)) = (&mut self.book, counts_as_done(command, writes, made)) {
            book.record(command, done);
        }
        self.cut = true;
    }

    /// Enters a step with its answer and the image after it.
    pub fn record_step(&mut self, step: &Step, answer: &Answer, image: &[u8]) {
        let (sectors, arrangement) = (self.sectors, self.arrangement);
        let list = answer.list_of_writes();
        let writes = list.and_then(|list| write_count(image, sectors, arrangement, list));
        match (step.cut, writes) {
            (Some(made), Some(writes)) => self.record_cut(&step.command, writes, made),
            _ => self.record(&step.command, answer.accepted(), image),
        }
    }
}

/// The answer to a command of so many writes that only 10 can refuse.
fn listing_due(writes: usize, lent: usize) -> Filled {
    let length = list_length(writes);
    if lent < length {
        refused_filling(10)
    } else {
        Filled {
            number: 0,
            length: length as u32,
        }
    }
}

fn refused_filling(number: u32) -> Filled {
    Filled { number, length: 0 }
}

/// The module formula, as the document words it.
pub(crate) fn module_sectors(length: usize) -> usize {
    if length <= 245 {
        1
    } else {
        1 + (length - 245 + 252) / 253
    }
}

/// The nine bytes of a name that a command accepted.
pub(crate) fn stored(typed: &[u8]) -> [u8; 9] {
    let mut parts = typed.split(|&byte| byte == b'.');
    let mut name = [b' '; 9];
    for (at, part) in [0, 6].into_iter().zip(&mut parts) {
        name[at..at + part.len()].copy_from_slice(part);
    }
    name
}

fn files_at_start(image: &[u8], sectors: u32, arrangement: u32) -> Vec<StandingFile> {
    let mut records = vec![0; 14 + 13 * SLOTS_PER_DIRECTORY_SECTOR * image.len() / 256 + 1];
    let listed = list(image, sectors, arrangement, &mut records);
    records[14..listed.length as usize - 1]
        .chunks_exact(13)
        .map(|record| file_at_start(image, sectors, arrangement, record))
        .collect()
}

fn file_at_start(image: &[u8], sectors: u32, arrangement: u32, record: &[u8]) -> StandingFile {
    let mut name = [0; 9];
    name.copy_from_slice(&record[1..10]);
    let mut buffer = vec![0; WHOLE_PAGE];
    let typed = typed_form(&name);
    let reading = read(image, sectors, arrangement, &typed, &mut buffer);
    StandingFile {
        name,
        sectors: usize::from(word(record, 10)),
        reading: if reading.number == 0 {
            buffer.truncate(reading.length as usize);
            BookReading::Module(reading, buffer)
        } else {
            BookReading::NotPlain
        },
    }
}

/// A pointer's track and sector, which stand sector first.
pub(crate) fn pointer(sector: &[u8], at: usize) -> (u8, u8) {
    (sector[at + 1], sector[at])
}

/// The sector numbers from a track and sector to the end link; nothing if the
/// chain leaves the disc or is longer than it.
pub(crate) fn follow(disc: Disc<'_>, head: (u8, u8)) -> Option<Vec<usize>> {
    let mut met = Vec::new();
    let (mut track, mut sector) = head;
    while sector != 0 {
        let on_disc = disc.on_disc(u32::from(track), u32::from(sector))?;
        if met.len() == disc.sectors() {
            return None;
        }
        met.push(on_disc.number());
        let bytes = disc.sector(on_disc);
        (track, sector) = (bytes[0], bytes[1]);
    }
    Some(met)
}

/// What is wrong at one moment of a run, if the image is not as the book of
/// the run claims, or the program does not save and read as it claims.
pub fn moment_fault(program: &impl Program, image: &[u8], book: &Book) -> Option<String> {
    if image.len() != book.sectors_on_disc * 256 {
        return Some("the image is not of the starting size".to_string());
    }
    places_fault(image, book)
        .or_else(|| room_fault(program, image, book))
        .or_else(|| readings_fault(program, image, book))
        .or_else(|| absent_fault(program, image, book))
}

/// The sectors met by following each chain of an image to its end link.
struct Places {
    directory: Vec<usize>,
    files: Vec<Vec<usize>>,
    free: Vec<usize>,
}

fn places(disc: Disc<'_>) -> Option<Places> {
    let directory = follow(disc, pointer(disc.system(), 0x12))?;
    let files: Option<Vec<Vec<usize>>> = file_heads(disc, &directory)
        .into_iter()
        .map(|head| follow(disc, head))
        .collect();
    Some(Places {
        directory,
        files: files?,
        free: follow(disc, pointer(disc.system(), 0x10))?,
    })
}

/// Every sector in exactly one place, and the free sectors as the sum says.
/// The part of `moment_fault` that calls nothing.
pub fn places_fault(image: &[u8], book: &Book) -> Option<String> {
    let disc = match Disc::open(image, book.sectors, book.arrangement) {
        Ok(disc) => disc,
        Err(_) => return Some("the image is of no right size".to_string()),
    };
    let places = match places(disc) {
        Some(places) => places,
        None => return Some("a chain leaves the disc or does not end".to_string()),
    };
    let mut met = vec![0; disc.sectors()];
    let in_files = places.files.iter().flatten();
    for &number in in_files.chain(&places.directory).chain(&places.free) {
        met[number] += 1;
    }
    let counted = usize::from(word(disc.system(), FREE_COUNT));
    let (chained, sum) = (places.free.len(), book.free());
    if met[0] != 0 || met[1..].iter().any(|&times| times != 1) {
        Some(format!("sectors are not met once each: {met:?}"))
    } else if places.files.len() != book.files.len() {
        Some(format!("{} entries stand", places.files.len()))
    } else if chained != sum || counted != sum {
        Some(format!("free: chain {chained}, count {counted}, sum {sum}"))
    } else {
        None
    }
}

/// The first sector's track and sector of each entry, in directory order.
fn file_heads(disc: Disc<'_>, directory: &[usize]) -> Vec<(u8, u8)> {
    directory
        .iter()
        .flat_map(|&number| slots_in_use(disc, number))
        .map(|slot| pointer(slot, 11))
        .collect()
}

/// The slots of a directory sector that aren't free.
pub(crate) fn slots_in_use(disc: Disc<'_>, number: usize) -> impl Iterator<Item = &[u8]> {
    let sector = disc.sector(Sector::numbered(number));
    sector[3..243]
        .chunks_exact(16)
        .filter(|&slot| slot != [0; 16])
}

/// A save of a new name is accepted exactly when its need is within the sum and
/// its list within the lent buffer.
fn room_fault(program: &impl Program, image: &[u8], book: &Book) -> Option<String> {
    let name = absent_names(book).next()?;
    let free = book.free();
    let mut lengths = vec![1, 245, 246, 499];
    for sectors in free.saturating_sub(1).max(1)..=free + 1 {
        let most = 245 + 253 * (sectors - 1);
        lengths.extend([most, most + 1]);
    }
    lengths
        .into_iter()
        .filter(|&length| length <= WHOLE_PAGE)
        .find_map(|length| room_for_fault(program, image, book, &name, length))
}

/// Tries a save with buffers of several lengths. Those that are too short come
/// first and leave the image as it is for the next.
fn room_for_fault(
    program: &impl Program,
    image: &[u8],
    book: &Book,
    name: &[u8],
    length: usize,
) -> Option<String> {
    let mut copy = image.to_vec();
    let list = list_length(book.writes_of_save(length));
    [0, list - 1, list + length % 3]
        .into_iter()
        .find_map(|lent| {
            let answer = tried_save(program, &mut copy, book, name, (length, lent));
            let (number, due) = (answer.number(), book.save_due(length, lent).number);
            let command = Command::Save {
                name: name.to_vec(),
                page: 0,
                start: 0,
                transfer: 0,
                sheet: vec![SHEET; length],
                writes: Buffer {
                    length: lent,
                    fill: FILL,
                },
            };
            (number != due)
                .then(|| format!("save of {length} bytes, {lent} lent: {number}, not {due}"))
                .or_else(|| answer_fault(book, &command, &answer, (image, &copy)))
        })
}

fn tried_save(
    program: &impl Program,
    image: &mut [u8],
    book: &Book,
    name: &[u8],
    (length, lent): (usize, usize),
) -> Answer {
    let (sectors, arrangement) = (book.sectors, book.arrangement);
    let (sheet, mut buffer) = (vec![SHEET; length], vec![FILL; lent]);
    let lent = &mut buffer;
    let filled = program.save(image, sectors, arrangement, name, 0, 0, 0, &sheet, lent);
    Answer::Wrote(filled, buffer)
}

/// What the answer of a command that lists its writes lacks, by the book as it
/// was before the command, and by the image before and after it.
pub fn answer_fault(
    book: &Book,
    command: &Command,
    answer: &Answer,
    (old, new): (&[u8], &[u8]),
) -> Option<String> {
    let (filled, buffer) = match answer {
        Answer::Wrote(filled, buffer) => (*filled, buffer),
        _ => return None,
    };
    let (due, lent) = (book.due(command)?, command.lent_for_writes()?);
    let (list, rest) = buffer.split_at(buffer.len().min(filled.length as usize));
    if buffer.len() != lent.length || rest.iter().any(|&byte| byte != lent.fill) {
        Some("the rest of the buffer is changed".to_string())
    } else if matches!(filled.number, 0 | 8 | 10) && filled != due {
        Some(format!("{filled:?} is answered, not {due:?}"))
    } else if filled.number == 0 {
        list_fault(command, (book.sectors, book.arrangement), (old, new), list)
    } else {
        (filled.length != 0 || old != new).then(|| format!("refused, but {filled:?} or a write"))
    }
}

/// Every file in the book reads as the book says.
fn readings_fault(program: &impl Program, image: &[u8], book: &Book) -> Option<String> {
    book.files.iter().find_map(|file| {
        let length = match &file.reading {
            BookReading::Module(reading, _) => reading.length as usize,
            BookReading::NotPlain => 300,
        };
        let lengths = [0, length - 1, length, length + 3];
        lengths
            .iter()
            .find_map(|&lent| reading_fault(program, image, book, file, lent))
    })
}

fn reading_fault(
    program: &impl Program,
    image: &[u8],
    book: &Book,
    file: &StandingFile,
    lent: usize,
) -> Option<String> {
    let mut buffer = vec![FILL; lent];
    let typed = typed_form(&file.name);
    let answer = program.read(image, book.sectors, book.arrangement, &typed, &mut buffer);
    let mut expected_buffer = vec![FILL; lent];
    let expected = match &file.reading {
        BookReading::NotPlain => refused(9),
        BookReading::Module(_, bytes) if lent < bytes.len() => refused(10),
        BookReading::Module(reading, bytes) => {
            expected_buffer[..bytes.len()].copy_from_slice(bytes);
            *reading
        }
    };
    let right = answer == expected && buffer == expected_buffer;
    let name = String::from_utf8_lossy(&file.name);
    (!right).then(|| format!("read of '{name}' with {lent}: {answer:?}"))
}

/// What a refused read answers.
pub fn refused(number: u32) -> Reading {
    Reading {
        number,
        page: 0,
        start: 0,
        end: 0,
        transfer: 0,
        length: 0,
    }
}

/// Legal names that are not in the book give 4.
fn absent_fault(program: &impl Program, image: &[u8], book: &Book) -> Option<String> {
    absent_names(book).find_map(|name| {
        let (sectors, arrangement) = (book.sectors, book.arrangement);
        let answer = program.read(image, sectors, arrangement, &name, &mut [0; 8]);
        let typed = String::from_utf8_lossy(&name);
        (answer != refused(4)).then(|| format!("absent '{typed}' gives {answer:?}"))
    })
}

fn absent_names(book: &Book) -> impl Iterator<Item = Vec<u8>> + '_ {
    const CANDIDATES: [&[u8]; 7] = [
        b"A",
        b"B.C",
        b"AB",
        b"A.B",
        b"ZZZZZZ.ZZZ",
        b"QQQQQQ",
        b"9.000",
    ];
    CANDIDATES
        .iter()
        .map(|typed| typed.to_vec())
        .filter(move |typed| book.files.iter().all(|file| file.name != stored(typed)))
}
