use nsf::{Geometry, Life, Range, Refused, Shared, Store};
use std::fs::{File, OpenOptions};
use std::thread;
use std::time::{Duration, Instant};

const GEOMETRY: Geometry = Geometry {
    pages: 64,
    entries: 16384,
    slots: 64,
};

const PATIENCE: Duration = Duration::from_secs(5);

fn at(path: &std::path::Path) -> File {
    OpenOptions::new()
        .read(true)
        .write(true)
        .create(true)
        .truncate(false)
        .open(path)
        .unwrap()
}

fn await_index(seat: &nsf::Seat) {
    while seat.status().unwrap().life != Life::Complete {
        thread::sleep(Duration::from_millis(1));
    }
}

#[test]
fn seats_write_while_the_index_is_created_and_built() {
    let path = std::env::temp_dir().join(format!("nsf-shared-{}", std::process::id()));
    let file = path.clone();
    let shared = Shared::start(move || Store::create(at(&file), GEOMETRY)).unwrap();
    let writers: Vec<_> = (0..4u8)
        .map(|writer| {
            let seat = shared.seat();
            thread::spawn(move || {
                for turn in 0..100u8 {
                    seat.put(&[writer, turn], b"row").unwrap();
                    let refused = seat.transact(|seat, txn| {
                        seat.insert(txn, &[writer, turn, 1], b"never there")?;
                        Err::<(), Refused>(Refused::Unready)
                    });
                    assert!(refused.is_err());
                }
            })
        })
        .collect();
    let seat = shared.seat();
    seat.create_index(PATIENCE).unwrap();
    await_index(&seat);
    for writer in writers {
        writer.join().unwrap();
    }
    shared.close().unwrap();
    assert!(matches!(seat.begin(), Err(Refused::Store(20))));

    let mut store = Store::open(at(&path)).unwrap();
    assert!(store.is_sound());
    let pairs: Result<Vec<_>, _> = store.scan(Range::all()).collect();
    let keys: Vec<_> = pairs.unwrap().into_iter().map(|pair| pair.key).collect();
    let wanted: Vec<_> = (0..4u8)
        .flat_map(|writer| (0..100u8).map(move |turn| vec![writer, turn]))
        .collect();
    assert_eq!(keys, wanted);
    drop(store);
    std::fs::remove_file(path).unwrap();
}

#[test]
fn what_is_committed_is_read_beside_what_is_not() {
    let shared = Shared::start(|| Store::in_memory(GEOMETRY)).unwrap();
    let (seat, other) = (shared.seat(), shared.seat());
    let place = seat.put(b"old", b"row").unwrap();
    seat.create_index(PATIENCE).unwrap();
    await_index(&seat);
    let txn = seat.begin().unwrap();
    seat.update(txn, place, b"new", b"row").unwrap();
    assert_eq!(other.get(place).unwrap().unwrap().key, b"new");
    assert_eq!(other.get_committed(place).unwrap().unwrap().key, b"old");
    let keys = |range: &Range| -> Vec<_> {
        let pairs = other.scan(&mut range.clone(), 10).unwrap();
        pairs.into_iter().map(|pair| pair.key).collect()
    };
    assert_eq!(keys(&Range::all()), [b"new".to_vec()]);
    assert_eq!(keys(&Range::all().committed()), [b"old".to_vec()]);
    seat.commit(txn).unwrap();
    assert_eq!(keys(&Range::all().committed()), [b"new".to_vec()]);
    assert_eq!(other.status().unwrap().marked, 1);
    assert_eq!(other.clean().unwrap(), 1);
    assert_eq!(other.status().unwrap().marked, 0);
}

#[test]
fn pairs_are_read_from_either_end() {
    let shared = Shared::start(|| Store::in_memory(GEOMETRY)).unwrap();
    let seat = shared.seat();
    for key in [b"a", b"b", b"c"] {
        seat.put(key, b"row").unwrap();
    }
    seat.create_index(PATIENCE).unwrap();
    await_index(&seat);
    let mut range = Range::all();
    let last = seat.scan_back(&mut range, 2).unwrap();
    assert_eq!([&last[0].key, &last[1].key], [b"c", b"b"]);
    let first = seat.scan_back(&mut range, 2).unwrap();
    assert_eq!(first.len(), 1);
    assert_eq!(first[0].key, b"a");
    assert!(seat.scan_back(&mut Range::all().committed(), 1).is_err());
}

#[test]
fn creation_waits_and_then_gives_up() {
    let shared = Shared::start(|| Store::in_memory(GEOMETRY)).unwrap();
    let (seat, other) = (shared.seat(), shared.seat());
    let txn = seat.begin().unwrap();
    let begun = Instant::now();
    let refused = other.create_index(Duration::from_millis(50));
    assert!(matches!(refused, Err(Refused::Store(16))));
    assert!(begun.elapsed() >= Duration::from_millis(50));
    seat.insert(txn, b"key", b"row").unwrap();
    seat.commit(txn).unwrap();
    other.create_index(Duration::ZERO).unwrap();
    await_index(&seat);
    assert_eq!(seat.find(b"key").unwrap().len(), 1);
    other.drop_index(PATIENCE).unwrap();
    assert!(matches!(seat.find(b"key"), Err(Refused::Store(18))));
}

#[test]
fn a_range_is_read_from_bound_to_bound() {
    let mut store = Store::in_memory(GEOMETRY).unwrap();
    let txn = store.begin().unwrap();
    for key in ["a", "ab", "ab", "b", "c"] {
        store.insert(txn, key.as_bytes(), b"").unwrap();
    }
    store.commit(txn).unwrap();
    assert!(matches!(
        store.scan(Range::all()).next(),
        Some(Err(Refused::Store(18)))
    ));
    store.create_index().unwrap();
    while store.build().unwrap() != nsf::Built::Complete {}
    let mut keys = |range: Range| -> Vec<String> {
        let pairs: Result<Vec<_>, _> = store.scan(range.clone()).collect();
        let pairs = pairs.unwrap();
        let back: Result<Vec<_>, _> = store.scan_back(range).collect();
        assert!(pairs.iter().rev().eq(&back.unwrap()));
        let text = |pair: nsf::Pair| String::from_utf8(pair.key).unwrap();
        pairs.into_iter().map(text).collect()
    };
    assert_eq!(keys(Range::all()), ["a", "ab", "ab", "b", "c"]);
    assert_eq!(keys(Range::new("ab".."c")), ["ab", "ab", "b"]);
    assert_eq!(keys(Range::new(..="ab")), ["a", "ab", "ab"]);
    assert_eq!(keys(Range::prefix(b"a")), ["a", "ab", "ab"]);
    assert_eq!(keys(Range::prefix(b"")).len(), 5);
    assert!(keys(Range::new("d"..)).is_empty());
    assert!(matches!(
        store.scan_back(Range::all().committed()).next(),
        Some(Err(Refused::Store(24)))
    ));
}

#[test]
fn what_waits_behind_a_dropping_is_served_in_turn() {
    let shared = Shared::start(|| Store::in_memory(GEOMETRY)).unwrap();
    let seat = shared.seat();
    seat.put(b"key", b"row").unwrap();
    seat.create_index(Duration::MAX).unwrap();
    await_index(&seat);
    let refused = seat.create_index(PATIENCE).unwrap_err();
    assert!(matches!(refused, Refused::Store(17)));
    let txn = seat.begin().unwrap();
    let asks: [fn(nsf::Seat); 3] = [
        |seat| seat.drop_index(Duration::MAX).unwrap(),
        |seat| seat.create_index(Duration::MAX).unwrap(),
        |seat| {
            let _ = seat.put(b"key", b"row").unwrap();
        },
    ];
    let waiting: Vec<_> = asks
        .into_iter()
        .map(|ask| {
            let other = shared.seat();
            let asks = thread::spawn(move || ask(other));
            // so that each waits before the next one asks, also on a busy machine
            thread::sleep(Duration::from_millis(300));
            asks
        })
        .collect();
    seat.commit(txn).unwrap();
    for asks in waiting {
        asks.join().unwrap();
    }
    await_index(&seat);
    assert_eq!(seat.find(b"key").unwrap().len(), 2);
}

#[test]
fn a_transaction_is_rolled_back_where_its_work_panics() {
    let shared = Shared::start(|| Store::in_memory(GEOMETRY)).unwrap();
    let seat = shared.seat();
    let other = shared.seat();
    let died = thread::spawn(move || {
        other.transact(|seat, txn| -> Result<(), Refused> {
            seat.insert(txn, b"key", b"row")?;
            panic!("as it is to be");
        })
    });
    assert!(died.join().is_err());
    seat.create_index(Duration::ZERO).unwrap();
    await_index(&seat);
    assert!(seat.find(b"key").unwrap().is_empty());
}

#[test]
fn a_transaction_is_of_one_seat() {
    let shared = Shared::start(|| Store::in_memory(GEOMETRY)).unwrap();
    let seat = shared.seat();
    let other = seat.clone();
    let txn = seat.begin().unwrap();
    let place = seat.insert(txn, b"ant", b"1").unwrap();
    let refusals = [
        other.insert(txn, b"bee", b"2").err(),
        other.update(txn, place, b"bee", b"2").err(),
        other.delete(txn, place).err(),
        other.finish(txn).err(),
        other.commit(txn).err(),
        other.commit_later(txn).err(),
        other.roll_back(txn).err(),
    ];
    for refused in refusals {
        assert!(matches!(refused, Some(Refused::Store(9))));
    }
    seat.commit(txn).unwrap();
    assert_eq!(other.get_committed(place).unwrap().unwrap().key, b"ant");
    assert!(matches!(seat.commit(txn), Err(Refused::Store(9))));
}

#[test]
fn what_a_seat_leaves_behind_is_rolled_back() {
    let shared = Shared::start(|| Store::in_memory(GEOMETRY)).unwrap();
    let (seat, other) = (shared.seat(), shared.seat());
    let kept = seat.begin().unwrap();
    seat.insert(kept, b"ant", b"1").unwrap();
    for _ in 0..3 {
        let lost = other.begin().unwrap();
        other.insert(lost, b"bee", b"2").unwrap();
    }
    drop(other);
    assert!(matches!(
        seat.create_index(Duration::ZERO),
        Err(Refused::Store(16))
    ));
    seat.commit(kept).unwrap();
    seat.create_index(Duration::ZERO).unwrap();
    await_index(&seat);
    assert_eq!(seat.find(b"ant").unwrap().len(), 1);
    assert!(seat.find(b"bee").unwrap().is_empty());
}

#[test]
fn an_index_is_cleaned_by_pieces() {
    let shared = Shared::start(|| Store::in_memory(GEOMETRY)).unwrap();
    let seat = shared.seat();
    seat.create_index(PATIENCE).unwrap();
    await_index(&seat);
    for i in 0..300u32 {
        let place = seat.put(&i.to_be_bytes(), b"row").unwrap();
        seat.transact(|seat, txn| seat.delete(txn, place)).unwrap();
    }
    let (first, is_at_end) = seat.clean_on().unwrap();
    assert!(first > 0 && !is_at_end);
    let (second, is_at_end) = seat.clean_on().unwrap();
    assert!(is_at_end);
    assert_eq!(first + second, 300);
}
