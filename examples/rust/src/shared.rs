//! A store that many threads share.
//!
//! It belongs to one thread, its owner, to which seats hand what they want done. Commits that come meanwhile are made
//! safe by one flush. Between what they want the owner builds the index, if it isn't complete.
use crate::scan::{Pair, Range};
use crate::sys::Place;
use crate::{Built, Life, Refused, Row, Status, Store};
use std::sync::atomic::{AtomicU64, Ordering};
use std::sync::mpsc::{self, Receiver, RecvTimeoutError, Sender, SyncSender};
use std::sync::Arc;
use std::thread::{self, JoinHandle};
use std::time::{Duration, Instant};

// So many steps of the builder behind each look at what is wanted, and so many before its records are flushed.
const BUILD_STEPS: u32 = 32;
const BUILD_STEPS_A_FLUSH: u32 = 1024;

type Job = Box<dyn FnOnce(&mut Owner) + Send>;
type Waiting = Box<dyn FnOnce(Result<(), u32>) + Send>;
// reads a pair of a range, from either end
type ReadPair = fn(&mut Range, &mut Store) -> Result<Option<Pair>, Refused>;

enum Wanted {
    // what is done at once
    Now(Job),
    // the beginning of a transaction, which waits while the index is created or dropped
    Begin(Job),
    // the creation (or dropping) of the index, which waits so long until no transaction is active
    Quiet {
        job: Job,
        patience: Duration,
        drops: bool,
    },
    Stop,
}

// So many things are done at most before what was committed is made safe.
const BATCH: usize = 64;

// A transaction that is active, and the number of its seat; none where it is nobody's, and is to be rolled back yet.
#[derive(Clone, Copy, PartialEq, Eq)]
struct Active {
    txn: u64,
    seat: Option<u64>,
}

// The thread that has the store.
struct Owner {
    store: Store,
    waiting: Vec<Waiting>,
    held: Vec<Wanted>,
    quiet: Option<(Job, Option<Instant>)>,
    // the transactions that are active
    active: Vec<Active>,
    unflushed: u32,
    builds: bool,
}

impl Owner {
    fn new(mut store: Store) -> Owner {
        let builds = is_building(&store.status());
        Owner {
            store,
            waiting: Vec::new(),
            held: Vec::new(),
            quiet: None,
            active: Vec::new(),
            unflushed: 0,
            builds,
        }
    }

    // A creation or dropping waits, with whoever is to begin behind it; where the index is there already, or is not, it
    // is answered at once.
    fn take(&mut self, wanted: Wanted) {
        let has_index = self.store.status().life != Life::Absent;
        match wanted {
            Wanted::Begin(_) | Wanted::Quiet { .. } if self.quiet.is_some() => {
                self.held.push(wanted)
            }
            Wanted::Quiet {
                job,
                patience,
                drops,
            } if drops == has_index => {
                self.quiet = Some((job, Instant::now().checked_add(patience)))
            }
            Wanted::Now(job) | Wanted::Begin(job) | Wanted::Quiet { job, .. } => job(self),
            Wanted::Stop => {}
        }
    }

    // The creation or dropping that waits, once no transaction is active or its time is over.
    fn take_due(&mut self) -> Option<Job> {
        let is_late = |at: Option<Instant>| at.is_some_and(|at| Instant::now() >= at);
        let is_quiet = self.active.is_empty();
        let due = self.quiet.take_if(|(_, at)| is_quiet || is_late(*at));
        due.map(|(job, _)| job)
    }

    // Serves what waited for quiet, and takes what waited behind it, up to the next of its kind that has to wait.
    fn end_quiet(&mut self) {
        while let Some(job) = self.take_due() {
            job(self);
            for wanted in std::mem::take(&mut self.held) {
                self.take(wanted);
            }
            self.builds = is_building(&self.store.status());
        }
    }

    // Rolls a seat's transactions back, or nobody's. Those of which that is refused are nobody's then.
    fn roll_back_of(&mut self, seat: Option<u64>) {
        for mut it in std::mem::take(&mut self.active) {
            if it.seat == seat {
                if self.store.roll_back(it.txn).is_ok() {
                    continue;
                }
                it.seat = None;
            }
            self.active.push(it);
        }
    }

    fn make_safe(&mut self) {
        let flushed = match self.store.flush() {
            Ok(_) => Ok(()),
            Err(Refused::Store(number)) => Err(number),
            Err(_) => Err(2),
        };
        self.unflushed = 0;
        for waiting in std::mem::take(&mut self.waiting) {
            waiting(flushed);
        }
    }

    fn build_on(&mut self) {
        for _ in 0..BUILD_STEPS {
            self.builds = matches!(self.store.build(), Ok(Built::Goes));
            if !self.builds {
                break;
            }
        }
        self.unflushed += BUILD_STEPS;
        if self.unflushed >= BUILD_STEPS_A_FLUSH || !self.builds {
            self.make_safe();
        }
    }

    // The next thing that is wanted; none where none is yet. The error is that nobody is left to want anything.
    fn next(&self, wanted: &Receiver<Wanted>) -> Result<Option<Wanted>, ()> {
        if self.builds {
            return match wanted.try_recv() {
                Ok(it) => Ok(Some(it)),
                Err(mpsc::TryRecvError::Empty) => Ok(None),
                Err(mpsc::TryRecvError::Disconnected) => Err(()),
            };
        }
        let Some((_, at)) = &self.quiet else {
            return wanted.recv().map(Some).map_err(|_| ());
        };
        let Some(at) = at else {
            return wanted.recv().map(Some).map_err(|_| ());
        };
        match wanted.recv_timeout(at.saturating_duration_since(Instant::now())) {
            Ok(it) => Ok(Some(it)),
            Err(RecvTimeoutError::Timeout) => Ok(None),
            Err(RecvTimeoutError::Disconnected) => Err(()),
        }
    }

    fn serve(mut self, wanted: &Receiver<Wanted>) -> Result<(), Refused> {
        let mut goes_on = true;
        while goes_on {
            let first = match self.next(wanted) {
                Ok(first) => first,
                Err(()) => break,
            };
            for it in first.into_iter().chain(wanted.try_iter().take(BATCH)) {
                goes_on &= !matches!(it, Wanted::Stop);
                self.take(it);
            }
            self.roll_back_of(None);
            self.end_quiet();
            if !self.waiting.is_empty() {
                self.make_safe();
            }
            if self.builds {
                self.build_on();
            }
        }
        self.store.flush().map(|_| ())
    }
}

fn is_building(status: &Status) -> bool {
    matches!(status.life, Life::Building)
}

/// A store that is shared. Where it is dropped, what was committed is flushed, and the store is closed.
pub struct Shared {
    wanted: Sender<Wanted>,
    // how many seats there were
    seats: Arc<AtomicU64>,
    owner: Option<JoinHandle<Result<(), Refused>>>,
}

/// A seat at a shared store, of one thread at a time. A transaction is of the seat that began it: of another one each
/// call is refused (9), and where its seat is dropped it is rolled back.
pub struct Seat {
    wanted: Sender<Wanted>,
    seats: Arc<AtomicU64>,
    number: u64,
}

impl Seat {
    fn new(wanted: Sender<Wanted>, seats: Arc<AtomicU64>) -> Seat {
        let number = seats.fetch_add(1, Ordering::SeqCst);
        Seat {
            wanted,
            seats,
            number,
        }
    }
}

/// A clone is another seat.
impl Clone for Seat {
    fn clone(&self) -> Seat {
        Seat::new(self.wanted.clone(), Arc::clone(&self.seats))
    }
}

impl Drop for Seat {
    fn drop(&mut self) {
        let number = Some(self.number);
        let leave = move |owner: &mut Owner| owner.roll_back_of(number);
        // the error is that the store is closed
        let _ = self.wanted.send(Wanted::Now(Box::new(leave)));
    }
}

impl Shared {
    /// Shares the store that this opens or makes, on the owner's thread.
    pub fn start(
        open: impl FnOnce() -> Result<Store, Refused> + Send + 'static,
    ) -> Result<Shared, Refused> {
        let (wanted, asked) = mpsc::channel();
        let (opened, is_open) = mpsc::sync_channel(1);
        let owner = thread::Builder::new().spawn(move || match open() {
            Ok(store) => {
                let _ = opened.send(Ok(()));
                Owner::new(store).serve(&asked)
            }
            Err(refused) => {
                let _ = opened.send(Err(refused));
                Ok(())
            }
        })?;
        is_open.recv().unwrap_or(Err(Refused::Store(STOPPED)))?;
        Ok(Shared {
            wanted,
            seats: Arc::default(),
            owner: Some(owner),
        })
    }

    /// A seat.
    pub fn seat(&self) -> Seat {
        Seat::new(self.wanted.clone(), Arc::clone(&self.seats))
    }

    /// Makes what was committed safe, and closes the store. Calls of seats are refused from then on.
    pub fn close(mut self) -> Result<(), Refused> {
        self.stop()
    }

    fn stop(&mut self) -> Result<(), Refused> {
        let _ = self.wanted.send(Wanted::Stop);
        match self.owner.take().map(JoinHandle::join) {
            Some(Ok(flushed)) => flushed,
            Some(Err(_)) => Err(Refused::Store(STOPPED)),
            None => Ok(()),
        }
    }
}

impl Drop for Shared {
    fn drop(&mut self) {
        let _ = self.stop();
    }
}

// The numbers of two refusals: of a transaction that isn't this seat's, and of what is asked of a store that was closed.
const NO_SUCH_TXN: u32 = 9;
const STOPPED: u32 = 20;

fn stopped<E>(_: E) -> Refused {
    Refused::Store(STOPPED)
}

fn answered<T>(
    answer: SyncSender<Result<T, Refused>>,
    does: impl FnOnce(&mut Owner) -> Result<T, Refused> + Send + 'static,
) -> Job
where
    T: Send + 'static,
{
    Box::new(move |owner| {
        let _ = answer.send(does(owner));
    })
}

// What is answered once it is safe.
fn answered_safe<T>(
    answer: SyncSender<Result<T, Refused>>,
    does: impl FnOnce(&mut Owner) -> Result<T, Refused> + Send + 'static,
) -> Job
where
    T: Send + 'static,
{
    Box::new(move |owner| match does(owner) {
        Ok(value) => owner.waiting.push(Box::new(move |flushed| {
            let _ = answer.send(flushed.map(|()| value).map_err(Refused::Unsafe));
        })),
        Err(refused) => {
            let _ = answer.send(Err(refused));
        }
    })
}

impl Owner {
    // Refuses a transaction that isn't this seat's.
    fn own(&self, seat: u64, txn: u64) -> Result<(), Refused> {
        let seat = Some(seat);
        if self.active.contains(&Active { txn, seat }) {
            return Ok(());
        }
        Err(Refused::Store(NO_SUCH_TXN))
    }

    fn begin(&mut self, seat: u64) -> Result<u64, Refused> {
        let txn = self.store.begin()?;
        let seat = Some(seat);
        self.active.push(Active { txn, seat });
        Ok(txn)
    }

    // The transaction is active no longer.
    fn forget(&mut self, txn: u64) {
        self.active.retain(|it| it.txn != txn);
    }

    fn commit(&mut self, seat: u64, txn: u64) -> Result<(), Refused> {
        self.own(seat, txn)?;
        self.store.commit(txn)?;
        self.forget(txn);
        Ok(())
    }

    fn roll_back(&mut self, seat: u64, txn: u64) -> Result<(), Refused> {
        self.own(seat, txn)?;
        self.store.roll_back(txn)?;
        self.forget(txn);
        Ok(())
    }

    fn put(&mut self, seat: u64, key: &[u8], body: &[u8]) -> Result<Place, Refused> {
        let txn = self.begin(seat)?;
        let put = self.store.insert(txn, key, body).and_then(|place| {
            self.commit(seat, txn)?;
            Ok(place)
        });
        if put.is_ok() || self.roll_back(seat, txn).is_ok() {
            return put;
        }
        for it in &mut self.active {
            if it.txn == txn {
                it.seat = None;
            }
        }
        put
    }
}

// A transaction that is rolled back where this is dropped.
struct Begun<'a> {
    seat: &'a Seat,
    txn: u64,
}

impl Drop for Begun<'_> {
    fn drop(&mut self) {
        let _ = self.seat.roll_back(self.txn);
    }
}

impl Seat {
    fn want<T: Send + 'static>(
        &self,
        wanted: impl FnOnce(SyncSender<Result<T, Refused>>) -> Wanted,
    ) -> Result<T, Refused> {
        let (answer, answered) = mpsc::sync_channel(1);
        self.wanted.send(wanted(answer)).map_err(stopped)?;
        answered.recv().map_err(stopped)?
    }

    fn ask<T: Send + 'static>(
        &self,
        does: impl FnOnce(&mut Owner) -> Result<T, Refused> + Send + 'static,
    ) -> Result<T, Refused> {
        self.want(|answer| Wanted::Now(answered(answer, does)))
    }

    // The same of a transaction of this seat.
    fn ask_of<T: Send + 'static>(
        &self,
        txn: u64,
        does: impl FnOnce(&mut Store) -> Result<T, Refused> + Send + 'static,
    ) -> Result<T, Refused> {
        let seat = self.number;
        self.ask(move |owner| {
            owner.own(seat, txn)?;
            does(&mut owner.store)
        })
    }

    /// Begins a transaction. While the index is to be created or dropped, it waits.
    pub fn begin(&self) -> Result<u64, Refused> {
        let seat = self.number;
        self.want(|answer| Wanted::Begin(answered(answer, move |owner| owner.begin(seat))))
    }

    /// Inserts a row.
    pub fn insert(&self, txn: u64, key: &[u8], body: &[u8]) -> Result<Place, Refused> {
        let (key, body) = (key.to_vec(), body.to_vec());
        self.ask_of(txn, move |store| store.insert(txn, &key, &body))
    }

    /// Deletes the row at a place.
    pub fn delete(&self, txn: u64, place: Place) -> Result<(), Refused> {
        self.ask_of(txn, move |store| store.delete(txn, place))
    }

    /// Puts another row in place of the one at a place.
    pub fn update(&self, txn: u64, place: Place, key: &[u8], body: &[u8]) -> Result<(), Refused> {
        let (key, body) = (key.to_vec(), body.to_vec());
        self.ask_of(txn, move |store| store.update(txn, place, &key, &body))
    }

    /// Commits, and waits until the transaction is safe. By `Refused::Unsafe` it is committed, and not safe yet; by any
    /// other refusal it is active as before.
    pub fn commit(&self, txn: u64) -> Result<(), Refused> {
        let seat = self.number;
        let commit = move |owner: &mut Owner| owner.commit(seat, txn);
        self.want(|answer| Wanted::Now(answered_safe(answer, commit)))
    }

    /// Commits, and waits for nothing: it is safe once `wait` answered behind it.
    pub fn commit_later(&self, txn: u64) -> Result<(), Refused> {
        let seat = self.number;
        self.ask(move |owner| owner.commit(seat, txn))
    }

    /// Makes the steps that a change of the transaction still owes, where one was refused.
    pub fn finish(&self, txn: u64) -> Result<(), Refused> {
        self.ask_of(txn, move |store| store.finish(txn))
    }

    /// Waits until all that was committed before is safe.
    pub fn wait(&self) -> Result<(), Refused> {
        self.want(|answer| Wanted::Now(answered_safe(answer, |_| Ok(()))))
    }

    /// Takes back what a transaction did, and ends it.
    pub fn roll_back(&self, txn: u64) -> Result<(), Refused> {
        let seat = self.number;
        self.ask(move |owner| owner.roll_back(seat, txn))
    }

    /// Inserts a row in a transaction of its own, and waits until it is safe. By `Refused::Unsafe` the row is there, and
    /// not safe yet; by any other refusal it isn't.
    pub fn put(&self, key: &[u8], body: &[u8]) -> Result<Place, Refused> {
        let (key, body, seat) = (key.to_vec(), body.to_vec(), self.number);
        let put = move |owner: &mut Owner| owner.put(seat, &key, &body);
        self.want(|answer| Wanted::Begin(answered_safe(answer, put)))
    }

    /// Does this in a transaction, which is committed where it answers, and else rolled back, also where it panics. By
    /// `Refused::Unsafe` it is committed, and not safe yet.
    pub fn transact<T>(
        &self,
        does: impl FnOnce(&Seat, u64) -> Result<T, Refused>,
    ) -> Result<T, Refused> {
        let txn = self.begin()?;
        let begun = Begun { seat: self, txn };
        let value = does(self, txn)?;
        match self.commit(txn) {
            Ok(()) => {
                std::mem::forget(begun);
                Ok(value)
            }
            Err(Refused::Unsafe(number)) => {
                std::mem::forget(begun);
                Err(Refused::Unsafe(number))
            }
            Err(refused) => Err(refused),
        }
    }

    /// The row at a place, committed or not.
    pub fn get(&self, place: Place) -> Result<Option<Row>, Refused> {
        self.ask(move |owner| owner.store.get(place))
    }

    /// The committed row at a place.
    pub fn get_committed(&self, place: Place) -> Result<Option<Row>, Refused> {
        self.ask(move |owner| owner.store.get_committed(place))
    }

    /// The places of the rows with a key.
    pub fn find(&self, key: &[u8]) -> Result<Vec<Place>, Refused> {
        let key = key.to_vec();
        self.ask(move |owner| owner.store.find(&key))
    }

    /// The next pairs of a range, so many at most, all of one moment; fewer where no more are left.
    pub fn scan(&self, range: &mut Range, limit: usize) -> Result<Vec<Pair>, Refused> {
        self.read(range, limit, Range::read_next)
    }

    /// The same from the end: at first the last pairs of the range, the last one first. A range that is read as is
    /// committed is refused.
    pub fn scan_back(&self, range: &mut Range, limit: usize) -> Result<Vec<Pair>, Refused> {
        self.read(range, limit, Range::read_previous)
    }

    fn read(&self, range: &mut Range, limit: usize, read: ReadPair) -> Result<Vec<Pair>, Refused> {
        let mut here = range.clone();
        let (pairs, there) = self.ask(move |owner| {
            let mut pairs = Vec::new();
            while pairs.len() < limit {
                match read(&mut here, &mut owner.store)? {
                    Some(pair) => pairs.push(pair),
                    None => break,
                }
            }
            Ok((pairs, here))
        })?;
        *range = there;
        Ok(pairs)
    }

    /// Creates the index once no transaction is active; others wait so long before they begin one. Where some are active
    /// when the time is over, it is refused (16), and all is as before. Who calls it has no transaction of its own. The
    /// owner then builds it.
    pub fn create_index(&self, patience: Duration) -> Result<(), Refused> {
        self.want(|answer| {
            let job = answered_safe(answer, |owner: &mut Owner| owner.store.create_index());
            Wanted::Quiet {
                job,
                patience,
                drops: false,
            }
        })
    }

    /// Drops the index, complete or not, as `create_index` creates it.
    pub fn drop_index(&self, patience: Duration) -> Result<(), Refused> {
        self.want(|answer| {
            let job = answered_safe(answer, |owner: &mut Owner| owner.store.drop_index());
            Wanted::Quiet {
                job,
                patience,
                drops: true,
            }
        })
    }

    /// Has the owner go on with a build that a refusal ended.
    pub fn build_on(&self) -> Result<(), Refused> {
        self.ask(|owner| {
            owner.builds = is_building(&owner.store.status());
            Ok(())
        })
    }

    /// Looks at some entries of the index, from where it stopped, and takes those out that are marked and that nobody
    /// needs any more. Answers how many, and whether it is at the end of the index; the next call begins anew then.
    pub fn clean_on(&self) -> Result<(u64, bool), Refused> {
        self.ask(|owner| owner.store.clean_on())
    }

    /// The same up to the end of the index. Other seats have their turn meanwhile.
    pub fn clean(&self) -> Result<u64, Refused> {
        let mut taken = 0;
        loop {
            let (more, is_at_end) = self.clean_on()?;
            taken += more;
            if is_at_end {
                return Ok(taken);
            }
        }
    }

    /// How far the store and its index are.
    pub fn status(&self) -> Result<Status, Refused> {
        self.ask(|owner| Ok(owner.store.status()))
    }
}
