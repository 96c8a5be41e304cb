//! NSF from Rust, over its C interface: a store that is closed where it is dropped.
//!
//! What the C interface asks of who calls is kept by this crate's types: a store is owned, it stays on one thread, and
//! no call overlaps another. Many threads share one by its owner, a thread to which each has a [`Seat`].
mod device;
mod file;
mod scan;
mod shared;
mod sys;

use device::Device;
use std::fmt;
use std::fs::{self, File};
use std::io::{self, ErrorKind, Read, Seek, SeekFrom, Write};
use std::marker::PhantomData;
use std::path::Path;

pub use scan::{Pair, Range, Scan, ScanBack};
pub use shared::{Seat, Shared};
pub use sys::Place;

/// Why a call was refused.
#[derive(Debug)]
pub enum Refused {
    /// By its number in nsf.h.
    Store(u32),
    /// The transaction owes a step, or has a change left.
    Unready,
    /// What was asked for is done, and isn't safe, as a flush was refused by this number.
    Unsafe(u32),
    /// The change of the row at this place is begun, and a further step of it was refused by this number: `finish` makes
    /// the others, or `roll_back` takes it back.
    Begun { place: Place, number: u32 },
    /// The index of the store isn't that of its rows: `from_bytes` opens what the file has, to look at it.
    Unsound,
    /// By the system.
    System(io::Error),
}

// The names of the refusals, by number.
const NAMES: [&str; 23] = [
    "NoMemory",
    "DeviceFailed",
    "NotFormatted",
    "Damaged",
    "DeviceTooSmall",
    "BadGeometry",
    "TooManyTxns",
    "TooManyChanges",
    "NoSuchTxn",
    "NoSuchRow",
    "RowBusy",
    "HeapFull",
    "IndexFull",
    "KeyTooLong",
    "BodyTooLong",
    "TxnsActive",
    "IndexExists",
    "NoIndex",
    "NotBuilt",
    "Stopped",
    "Exhausted",
    "BadScript",
    "OldVersion",
];

impl fmt::Display for Refused {
    fn fmt(&self, f: &mut fmt::Formatter<'_>) -> fmt::Result {
        match self {
            Refused::Store(number) => match NAMES.get((*number as usize).wrapping_sub(1)) {
                Some(name) => write!(f, "{number} {name}"),
                None => write!(f, "{number}"),
            },
            Refused::Unready => f.write_str("the transaction owes a step, or is rolling back"),
            Refused::Unsafe(number) => {
                write!(
                    f,
                    "it is committed, and not safe: {}",
                    Refused::Store(*number)
                )
            }
            Refused::Begun { number, .. } => {
                write!(
                    f,
                    "the change is begun, and a further step of it was refused: {}",
                    Refused::Store(*number)
                )
            }
            Refused::Unsound => f.write_str("the index of the store isn't that of its rows"),
            Refused::System(error) => write!(f, "{error}"),
        }
    }
}

impl std::error::Error for Refused {}

impl From<io::Error> for Refused {
    fn from(error: io::Error) -> Refused {
        Refused::System(error)
    }
}

fn checked(status: u32) -> Result<(), Refused> {
    match status {
        0 => Ok(()),
        number => Err(Refused::Store(number)),
    }
}

/// How large a store is.
#[derive(Clone, Copy, Debug)]
pub struct Geometry {
    pub pages: u32,
    pub entries: u32,
    pub slots: u32,
}

/// What a step of the builder came to.
#[derive(Clone, Copy, Debug, PartialEq, Eq)]
pub enum Built {
    Goes,
    Complete,
}

/// A row.
#[derive(Clone, Debug, PartialEq, Eq)]
pub struct Row {
    pub key: Vec<u8>,
    pub body: Vec<u8>,
}

/// How far an index is.
#[derive(Clone, Copy, Debug, PartialEq, Eq)]
pub enum Life {
    Absent,
    Building,
    Complete,
}

/// What a store is, and how far it has come: the number of the last record made, up to which number all are synced, how
/// many attempts the builder made since the store was opened, the pages of rows, and the life of the index.
#[derive(Clone, Copy, Debug, PartialEq, Eq)]
pub struct Status {
    pub last: u64,
    pub horizon: u64,
    pub attempts: u64,
    /// Rows of the table, committed or not.
    pub rows: u64,
    /// Entries of the index.
    pub entries: u64,
    /// Those of them that are marked. The others are visible.
    pub marked: u64,
    pub pages: u32,
    pub life: Life,
}

/// A store that is open. It is closed where it is dropped, before its device is.
pub struct Store {
    handle: sys::Handle,
    _device: Option<Device>,
    // a handle stays on its thread
    _here: PhantomData<*mut ()>,
}

mod kind {
    pub const BEGIN: u32 = 1;
    pub const INSERT: u32 = 2;
    pub const DELETE: u32 = 3;
    pub const UPDATE: u32 = 4;
    pub const STEP: u32 = 5;
    pub const UNDO: u32 = 6;
    pub const END: u32 = 7;
    pub const COMMIT: u32 = 8;
    pub const CREATE: u32 = 9;
    pub const BUILD: u32 = 10;
    pub const CLEAN: u32 = 11;
    pub const GET: u32 = 14;
    pub const FIND: u32 = 15;
    pub const DROP: u32 = 17;

    pub const STEPPED: u32 = 3;
    pub const UNDONE: u32 = 4;
    pub const DONE: u32 = 12;
    pub const IDLE: u32 = 13;
    pub const CLEANED: u32 = 14;
    pub const WRAPPED: u32 = 16;
    pub const ROW: u32 = 22;
    pub const ABSENT: u32 = 25;
    pub const COMPLETE: u32 = 28;
    pub const SKIPPED: u32 = 29;
    pub const PAIR: u32 = 30;
}

// So many steps of the cleaner at most before others have their turn.
const CLEAN_STEPS: u32 = 256;

// The row that is told of, if one is.
fn row_of(reply: &sys::Reply) -> Option<Row> {
    (reply.kind == kind::ROW).then(|| Row {
        key: reply.key[..usize::from(reply.key_length)].to_vec(),
        body: reply.body[..usize::from(reply.body_length)].to_vec(),
    })
}

impl Store {
    fn vacant(device: Option<Device>) -> Store {
        Store {
            handle: sys::Handle {
                at: std::ptr::null_mut(),
            },
            _device: device,
            _here: PhantomData,
        }
    }

    // Makes a store over the device. Where it is refused, that is told before the device goes.
    fn created(
        device: Option<Device>,
        geometry: Geometry,
        refuse: impl Fn(),
    ) -> Result<Store, Refused> {
        let line = device.as_ref().map_or(-1, Device::line);
        let mut store = Store::vacant(device);
        let Geometry {
            pages,
            entries,
            slots,
        } = geometry;
        checked(unsafe { sys::nsf_create(&mut store.handle, line, pages, entries, slots) })
            .inspect_err(|_| refuse())?;
        Ok(store)
    }

    // Makes a store in the file, which is locked. Where it is refused, that is told while it still is.
    fn created_in(mut file: File, geometry: Geometry, refuse: impl Fn()) -> Result<Store, Refused> {
        let Geometry {
            pages,
            entries,
            slots,
        } = geometry;
        let sectors = unsafe { sys::nsf_sectors(pages, entries, slots) };
        let locked = file::fill(&mut file, sectors).and_then(|()| file.try_clone());
        let locked = locked.inspect_err(|_| refuse())?;
        let device = Device::start(file).inspect_err(|_| refuse())?;
        let made = Store::created(Some(device), geometry, refuse);
        drop(locked);
        made
    }

    /// Makes a store in memory.
    pub fn in_memory(geometry: Geometry) -> Result<Store, Refused> {
        Store::created(None, geometry, || ())
    }

    /// Makes a store in a new file. Until it is made, the file has the name with `.nsf-draft` added, its draft, so that a crash
    /// meanwhile leaves no half of a store. A draft that such a crash left is removed: one that nobody has open, and that
    /// begins with a store or with zeros. Another file that has one of the two names is left alone (`AlreadyExists`), and
    /// so is a draft that another process makes now (`WouldBlock`). Where the call is refused, no other file is left.
    pub fn create_at(path: impl AsRef<Path>, geometry: Geometry) -> Result<Store, Refused> {
        let path = path.as_ref();
        if fs::symlink_metadata(path).is_ok() {
            return Err(io::Error::from(ErrorKind::AlreadyExists).into());
        }
        let draft = file::draft_of(path);
        let file = file::begin(&draft)?;
        // as long as it is locked: who has opened it by its name finds that it has none
        let remove = || {
            let _ = fs::remove_file(&draft);
        };
        let store = Store::created_in(file, geometry, &remove)?;
        file::publish(&draft, path).inspect_err(|_| remove())?;
        Ok(store)
    }

    /// Makes a store in a file, and locks it. One that isn't empty is refused. Who is cut off leaves a file that is no
    /// store. Its name is safe once its folder is synced, which is the caller's to do.
    pub fn create(file: File, geometry: Geometry) -> Result<Store, Refused> {
        file::lock(&file)?;
        if file.metadata()?.len() > 0 {
            return Err(io::Error::from(ErrorKind::AlreadyExists).into());
        }
        Store::created_in(file, geometry, || ())
    }

    /// Opens the store in the file of this name, and locks it. The name is safe then, if its folder may be read.
    pub fn open_at(path: impl AsRef<Path>) -> Result<Store, Refused> {
        Store::open(file::take(path.as_ref())?)
    }

    /// Opens the store in a file, which can be read and written, and locks it. What was read is written back and
    /// synced: after a sync that failed in an earlier process the system may show bytes that no disk has. One whose index
    /// isn't that of its rows is refused.
    pub fn open(mut file: File) -> Result<Store, Refused> {
        file::lock(&file)?;
        let mut bytes = Vec::new();
        file.seek(SeekFrom::Start(0))?;
        file.read_to_end(&mut bytes)?;
        file.seek(SeekFrom::Start(0))?;
        file.write_all(&bytes)?;
        file.sync_all()?;
        let device = Device::start(file)?;
        let line = device.line();
        let mut store = Store::vacant(Some(device));
        checked(unsafe { sys::nsf_open(&mut store.handle, line, bytes.as_ptr(), bytes.len()) })?;
        if !store.is_sound() {
            return Err(Refused::Unsound);
        }
        Ok(store)
    }

    /// Opens the store that the bytes hold, in memory.
    pub fn from_bytes(bytes: &[u8]) -> Result<Store, Refused> {
        let mut store = Store::vacant(None);
        checked(unsafe { sys::nsf_open(&mut store.handle, -1, bytes.as_ptr(), bytes.len()) })?;
        Ok(store)
    }

    /// The bytes that the store holds, which `from_bytes` opens: what was flushed is in them.
    pub fn save(&mut self) -> Vec<u8> {
        let (mut bytes, mut room) = (Vec::new(), [[0; 512]; 64]);
        loop {
            let first = bytes.len() as u64 / 512;
            let count =
                unsafe { sys::nsf_save(&mut self.handle, first, room.as_mut_ptr(), room.len()) };
            bytes.extend(room[..count as usize].iter().flatten());
            if count < 64 {
                return bytes;
            }
        }
    }

    fn ask(
        &mut self,
        event: sys::Event,
        key: &[u8],
        body: &[u8],
        places: &mut [Place],
    ) -> Result<sys::Reply, Refused> {
        let mut reply = sys::Reply::NONE;
        checked(unsafe {
            sys::nsf_serve(
                &mut self.handle,
                &event,
                key.as_ptr(),
                key.len(),
                body.as_ptr(),
                body.len(),
                places.as_mut_ptr(),
                places.len(),
                &mut reply,
            )
        })?;
        Ok(reply)
    }

    // What a transaction that isn't ready for it is refused.
    fn ask_ready(
        &mut self,
        event: sys::Event,
        key: &[u8],
        body: &[u8],
    ) -> Result<sys::Reply, Refused> {
        let reply = self.ask(event, key, body, &mut [])?;
        if reply.kind == kind::SKIPPED {
            return Err(Refused::Unready);
        }
        Ok(reply)
    }

    fn ask_of(&mut self, kind: u32, txn: u64) -> Result<sys::Reply, Refused> {
        let event = sys::Event {
            kind,
            txn,
            ..sys::Event::default()
        };
        self.ask(event, &[], &[], &mut [])
    }

    /// Begins a transaction, and answers its number.
    pub fn begin(&mut self) -> Result<u64, Refused> {
        Ok(self.ask_of(kind::BEGIN, 0)?.number)
    }

    /// Makes the steps that a transaction owes.
    pub fn finish(&mut self, txn: u64) -> Result<(), Refused> {
        while self.ask_of(kind::STEP, txn)?.kind == kind::STEPPED {}
        Ok(())
    }

    // Makes the steps of a change behind its first one.
    fn finish_begun(&mut self, txn: u64, place: Place) -> Result<(), Refused> {
        match self.finish(txn) {
            Err(Refused::Store(number)) => Err(Refused::Begun { place, number }),
            finished => finished,
        }
    }

    /// Inserts a row.
    pub fn insert(&mut self, txn: u64, key: &[u8], body: &[u8]) -> Result<Place, Refused> {
        let event = sys::Event {
            kind: kind::INSERT,
            txn,
            ..sys::Event::default()
        };
        let reply = self.ask_ready(event, key, body)?;
        let place = Place {
            page: reply.page,
            slot: reply.slot,
        };
        self.finish_begun(txn, place)?;
        Ok(place)
    }

    /// Deletes the row at a place.
    pub fn delete(&mut self, txn: u64, place: Place) -> Result<(), Refused> {
        let event = sys::Event {
            kind: kind::DELETE,
            txn,
            page: place.page,
            slot: place.slot,
        };
        self.ask_ready(event, &[], &[])?;
        self.finish_begun(txn, place)
    }

    /// Puts another row in place of the one at a place.
    pub fn update(
        &mut self,
        txn: u64,
        place: Place,
        key: &[u8],
        body: &[u8],
    ) -> Result<(), Refused> {
        let event = sys::Event {
            kind: kind::UPDATE,
            txn,
            page: place.page,
            slot: place.slot,
        };
        self.ask_ready(event, key, body)?;
        self.finish_begun(txn, place)
    }

    /// Takes back what a transaction did, and ends it.
    pub fn roll_back(&mut self, txn: u64) -> Result<(), Refused> {
        while self.ask_of(kind::UNDO, txn)?.kind == kind::UNDONE {}
        self.ask_of(kind::END, txn).map(|_| ())
    }

    /// Commits a transaction, and answers its ticket.
    pub fn commit(&mut self, txn: u64) -> Result<u64, Refused> {
        let event = sys::Event {
            kind: kind::COMMIT,
            txn,
            ..sys::Event::default()
        };
        Ok(self.ask_ready(event, &[], &[])?.number)
    }

    /// Creates the index.
    pub fn create_index(&mut self) -> Result<(), Refused> {
        self.ask_of(kind::CREATE, 0).map(|_| ())
    }

    /// Drops the index, complete or not.
    pub fn drop_index(&mut self) -> Result<(), Refused> {
        self.ask_of(kind::DROP, 0).map(|_| ())
    }

    /// Makes a step of the builder.
    pub fn build(&mut self) -> Result<Built, Refused> {
        match self.ask_of(kind::BUILD, 0)?.kind {
            kind::DONE | kind::IDLE => Ok(Built::Complete),
            _ => Ok(Built::Goes),
        }
    }

    /// Takes the marked entries out of the index that nobody needs any more, up to its end, and answers how many.
    pub fn clean(&mut self) -> Result<u64, Refused> {
        let mut taken = 0;
        loop {
            let (more, is_at_end) = self.clean_on()?;
            taken += more;
            if is_at_end {
                return Ok(taken);
            }
        }
    }

    // How many entries some steps of the cleaner have taken out, and whether it is at the end of the index.
    fn clean_on(&mut self) -> Result<(u64, bool), Refused> {
        let mut taken = 0;
        for _ in 0..CLEAN_STEPS {
            match self.ask_of(kind::CLEAN, 0)?.kind {
                kind::CLEANED => taken += 1,
                kind::WRAPPED => return Ok((taken, true)),
                _ => {}
            }
        }
        Ok((taken, false))
    }

    /// The row at a place.
    pub fn get(&mut self, place: Place) -> Result<Option<Row>, Refused> {
        let event = sys::Event {
            kind: kind::GET,
            page: place.page,
            slot: place.slot,
            ..sys::Event::default()
        };
        let reply = self.ask(event, &[], &[], &mut [])?;
        Ok(row_of(&reply))
    }

    /// The committed row at a place, without what isn't committed yet.
    pub fn get_committed(&mut self, place: Place) -> Result<Option<Row>, Refused> {
        let mut reply = sys::Reply::NONE;
        checked(unsafe { sys::nsf_get_committed(&mut self.handle, &place, &mut reply) })?;
        Ok(row_of(&reply))
    }

    /// The places of the rows with a key.
    pub fn find(&mut self, key: &[u8]) -> Result<Vec<Place>, Refused> {
        let event = sys::Event {
            kind: kind::FIND,
            ..sys::Event::default()
        };
        let mut places = vec![Place::default(); 16];
        loop {
            let found = self.ask(event, key, &[], &mut places)?.number as usize;
            if found <= places.len() {
                places.truncate(found);
                return Ok(places);
            }
            places.resize(found, Place::default());
        }
    }

    /// Flushes until every record made is synced, and answers how far they are.
    pub fn flush(&mut self) -> Result<u64, Refused> {
        let mut reply = sys::Reply::NONE;
        checked(unsafe { sys::nsf_flush(&mut self.handle, &mut reply) })?;
        Ok(reply.number)
    }

    /// Takes an image and makes it current.
    pub fn image(&mut self) -> Result<u64, Refused> {
        let mut reply = sys::Reply::NONE;
        checked(unsafe { sys::nsf_image(&mut self.handle, &mut reply) })?;
        Ok(reply.number)
    }

    /// How far the store has come.
    pub fn status(&mut self) -> Status {
        let mut status = sys::Status::default();
        unsafe { sys::nsf_stat(&mut self.handle, &mut status) };
        Status {
            last: status.last,
            horizon: status.horizon,
            attempts: status.attempts,
            rows: status.rows,
            entries: status.entries,
            marked: status.marked,
            pages: status.pages,
            life: match status.life {
                kind::ABSENT => Life::Absent,
                kind::COMPLETE => Life::Complete,
                _ => Life::Building,
            },
        }
    }

    /// Whether the index fits the rows. To be asked while no transaction is active.
    pub fn is_sound(&mut self) -> bool {
        unsafe { sys::nsf_can_open(&mut self.handle) }
    }
}

impl Drop for Store {
    fn drop(&mut self) {
        if !self.handle.at.is_null() {
            unsafe { sys::nsf_close(&mut self.handle) }
        }
    }
}
