use nsf::{Built, Geometry, Refused, Store};
use std::fs::{File, OpenOptions};
use std::io::ErrorKind;

const GEOMETRY: Geometry = Geometry {
    pages: 4,
    entries: 256,
    slots: 16,
};

fn put(store: &mut Store, key: &[u8], body: &[u8]) -> Result<nsf::Place, Refused> {
    let txn = store.begin()?;
    let place = store.insert(txn, key, body)?;
    store.commit(txn)?;
    Ok(place)
}

fn build(store: &mut Store) -> Result<(), Refused> {
    while store.build()? != Built::Complete {}
    Ok(())
}

#[test]
fn an_index_is_built_while_the_table_is_written() {
    let mut store = Store::in_memory(GEOMETRY).unwrap();
    for i in 0..100u32 {
        put(&mut store, &(i % 10).to_be_bytes(), &i.to_be_bytes()).unwrap();
    }
    store.create_index().unwrap();
    for i in 100..120u32 {
        store.build().unwrap();
        put(&mut store, &(i % 10).to_be_bytes(), &i.to_be_bytes()).unwrap();
    }
    build(&mut store).unwrap();
    for key in 0..10u32 {
        let places = store.find(&key.to_be_bytes()).unwrap();
        assert_eq!(places.len(), 12);
        for place in places {
            let row = store.get(place).unwrap().unwrap();
            assert_eq!(row.key, key.to_be_bytes());
        }
    }
    assert!(store.is_sound());
}

#[test]
fn a_refusal_has_its_number() {
    let mut store = Store::in_memory(GEOMETRY).unwrap();
    assert!(matches!(store.commit(7), Err(Refused::Store(9))));
    let txn = store.begin().unwrap();
    assert!(matches!(
        store.insert(txn, &[0; 57], &[]),
        Err(Refused::Store(14))
    ));
    assert!(matches!(
        store.insert(txn, &[], &[0; 70]),
        Err(Refused::Store(15))
    ));
    assert!(matches!(store.find(b"key"), Err(Refused::Store(18))));
    assert!(matches!(
        Store::in_memory(Geometry {
            pages: 0,
            ..GEOMETRY
        }),
        Err(Refused::Store(6))
    ));
}

#[test]
fn a_change_is_taken_back() {
    let mut store = Store::in_memory(GEOMETRY).unwrap();
    let place = put(&mut store, b"old", b"row").unwrap();
    store.create_index().unwrap();
    build(&mut store).unwrap();
    let txn = store.begin().unwrap();
    store.update(txn, place, b"new", b"row").unwrap();
    assert_eq!(store.find(b"new").unwrap(), [place]);
    store.roll_back(txn).unwrap();
    assert_eq!(store.find(b"old").unwrap(), [place]);
    assert_eq!(store.find(b"new").unwrap(), []);
    store.drop_index().unwrap();
    let refused = store.find(b"old").unwrap_err();
    assert_eq!(refused.to_string(), "18 NoIndex");
}

#[test]
fn a_store_in_memory_is_saved() {
    let mut store = Store::in_memory(GEOMETRY).unwrap();
    let kept = put(&mut store, b"kept", b"row").unwrap();
    store.create_index().unwrap();
    build(&mut store).unwrap();
    store.flush().unwrap();
    let lost = put(&mut store, b"lost", b"row").unwrap();
    let bytes = store.save();

    let mut copy = Store::from_bytes(&bytes).unwrap();
    assert!(copy.is_sound());
    assert_eq!(copy.get(kept).unwrap().unwrap().body, b"row");
    assert_eq!(copy.get(lost).unwrap(), None);
    assert_eq!(copy.find(b"kept").unwrap(), [kept]);
    // the store that was saved goes on
    assert_eq!(store.find(b"lost").unwrap(), [lost]);
    assert!(matches!(
        Store::from_bytes(&bytes[..512]),
        Err(Refused::Store(_))
    ));
}

fn at(path: &std::path::Path) -> File {
    OpenOptions::new()
        .read(true)
        .write(true)
        .create(true)
        .truncate(false)
        .open(path)
        .unwrap()
}

#[test]
fn a_file_holds_what_was_flushed() {
    let path = std::env::temp_dir().join(format!("nsf-rust-{}", std::process::id()));
    let mut store = Store::create(at(&path), GEOMETRY).unwrap();
    let kept = put(&mut store, b"kept", b"row").unwrap();
    store.create_index().unwrap();
    build(&mut store).unwrap();
    store.flush().unwrap();
    let lost = put(&mut store, b"lost", b"row").unwrap();
    assert!(matches!(Store::open(at(&path)), Err(Refused::System(_))));
    drop(store);

    let mut store = Store::open(at(&path)).unwrap();
    assert!(store.is_sound());
    assert_eq!(store.get(kept).unwrap().unwrap().body, b"row");
    assert_eq!(store.get(lost).unwrap(), None);
    assert_eq!(store.find(b"kept").unwrap().len(), 1);
    assert_eq!(store.find(b"lost").unwrap().len(), 0);
    let mut place = kept;
    place.slot = 40;
    assert_eq!(store.get(place).unwrap(), None);
    let txn = store.begin().unwrap();
    store.delete(txn, kept).unwrap();
    store.commit(txn).unwrap();
    store.image().unwrap();
    drop(store);

    let mut store = Store::open(at(&path)).unwrap();
    assert_eq!(store.get(kept).unwrap(), None);
    drop(store);
    std::fs::remove_file(path).unwrap();
}

#[test]
fn what_is_marked_is_cleaned() {
    let mut store = Store::in_memory(GEOMETRY).unwrap();
    let places: Vec<_> = (0..20u8)
        .map(|i| put(&mut store, &[i], b"row").unwrap())
        .collect();
    store.create_index().unwrap();
    build(&mut store).unwrap();
    let txn = store.begin().unwrap();
    for place in &places[..10] {
        store.delete(txn, *place).unwrap();
    }
    store.commit(txn).unwrap();
    store.flush().unwrap();
    assert_eq!(store.status().marked, 10);
    assert_eq!(store.clean().unwrap(), 10);
    assert_eq!(store.status().marked, 0);
    assert_eq!(store.status().entries, 10);
    assert!(store.is_sound());
}

#[test]
fn a_file_is_made_and_opened_by_its_name() {
    let path = std::env::temp_dir().join(format!("nsf-rust-named-{}", std::process::id()));
    let mut store = Store::create_at(&path, GEOMETRY).unwrap();
    let kept = put(&mut store, b"kept", b"row").unwrap();
    store.flush().unwrap();
    drop(store);
    // a file that has the name, or that of the draft, is left alone
    let is_left = |refused| matches!(refused, Some(Refused::System(it)) if it.kind() == ErrorKind::AlreadyExists);
    assert!(is_left(Store::create_at(&path, GEOMETRY).err()));
    let draft = path.with_extension("nsf-draft");
    assert!(!draft.exists());
    std::fs::write(&draft, b"other").unwrap();
    assert!(is_left(Store::create_at(&path, GEOMETRY).err()));
    assert_eq!(std::fs::read(&draft).unwrap(), b"other");

    let mut store = Store::open_at(&path).unwrap();
    assert_eq!(store.get(kept).unwrap().unwrap().body, b"row");
    drop(store);
    std::fs::remove_file(draft).unwrap();
    std::fs::remove_file(path).unwrap();
}

#[test]
fn a_store_is_made_in_an_empty_file_alone() {
    let path = std::env::temp_dir().join(format!("nsf-rust-empty-{}", std::process::id()));
    let mut store = Store::create(at(&path), GEOMETRY).unwrap();
    let kept = put(&mut store, b"kept", b"row").unwrap();
    store.flush().unwrap();
    drop(store);
    let refused = Store::create(at(&path), GEOMETRY).err();
    assert!(matches!(refused, Some(Refused::System(it)) if it.kind() == ErrorKind::AlreadyExists));
    let mut store = Store::open_at(&path).unwrap();
    assert_eq!(store.get(kept).unwrap().unwrap().body, b"row");
    drop(store);
    std::fs::remove_file(path).unwrap();
}

// A draft that a killed making left: empty, zeros, or a store that is whole; or the file has its name too.
#[test]
fn a_draft_that_was_left_gives_way() {
    let path = std::env::temp_dir().join(format!("nsf-rust-left-{}", std::process::id()));
    let draft = path.with_extension("nsf-draft");
    drop(Store::create_at(&path, GEOMETRY).unwrap());
    let whole = std::fs::read(&path).unwrap();
    std::fs::remove_file(&path).unwrap();
    for left in [&[][..], &[0; 700], &whole] {
        std::fs::write(&draft, left).unwrap();
        drop(Store::create_at(&path, GEOMETRY).unwrap());
        assert!(!draft.exists());
        std::fs::remove_file(&path).unwrap();
    }
    let made = File::create(&draft).unwrap();
    made.try_lock().unwrap();
    let refused = Store::create_at(&path, GEOMETRY).err();
    assert!(matches!(refused, Some(Refused::System(it)) if it.kind() == ErrorKind::WouldBlock));
    assert!(draft.exists());
    drop(made);
    drop(Store::create_at(&path, GEOMETRY).unwrap());
    std::fs::hard_link(&path, &draft).unwrap();
    drop(Store::open_at(&path).unwrap());
    assert!(!draft.exists());
    std::fs::remove_file(path).unwrap();
}

// Where a byte of a row's key is another one, or of an entry's, the index isn't that of the rows.
#[test]
fn a_store_that_is_not_sound_is_refused() {
    let path = std::env::temp_dir().join(format!("nsf-rust-unsound-{}", std::process::id()));
    let key = b"a key that no other bytes are";
    let mut store = Store::create_at(&path, GEOMETRY).unwrap();
    put(&mut store, key, b"row").unwrap();
    store.create_index().unwrap();
    build(&mut store).unwrap();
    store.image().unwrap();
    drop(store);
    let bytes = std::fs::read(&path).unwrap();
    let mut unsound = 0;
    for at in (0..bytes.len() - key.len()).filter(|at| bytes[*at..].starts_with(key)) {
        let mut harmed = bytes.clone();
        harmed[at] = b'z';
        std::fs::write(&path, &harmed).unwrap();
        match Store::open_at(&path) {
            Ok(mut store) => assert!(store.is_sound()),
            Err(Refused::Unsound) => unsound += 1,
            Err(Refused::Store(_)) => continue,
            Err(refused) => panic!("{refused}"),
        }
    }
    assert!(unsound > 0);
    std::fs::remove_file(path).unwrap();
}

// What is written to a file that is opened so is put at its end, wherever it is to be.
#[test]
fn a_file_that_is_appended_to_is_refused() {
    let path = std::env::temp_dir().join(format!("nsf-rust-append-{}", std::process::id()));
    let appended = || {
        let mut options = OpenOptions::new();
        options.read(true).append(true).create(true);
        options.open(&path).unwrap()
    };
    let is_invalid = |refused| matches!(refused, Some(Refused::System(it)) if it.kind() == ErrorKind::InvalidInput);
    assert!(is_invalid(Store::create(appended(), GEOMETRY).err()));
    drop(Store::create(at(&path), GEOMETRY).unwrap());
    let before = std::fs::read(&path).unwrap();
    assert!(is_invalid(Store::open(appended()).err()));
    assert_eq!(std::fs::read(&path).unwrap(), before);
    std::fs::remove_file(path).unwrap();
}

#[test]
fn what_can_be_no_store_is_refused() {
    let path = std::env::temp_dir().join(format!("nsf-rust-long-{}", std::process::id()));
    let is_invalid = |refused| matches!(refused, Some(Refused::System(it)) if it.kind() == ErrorKind::InvalidInput);
    assert!(is_invalid(Store::open_at("/dev/zero").err()));
    at(&path).set_len(1 << 40).unwrap();
    assert!(is_invalid(Store::open_at(&path).err()));
    at(&path).set_len(100).unwrap();
    assert!(matches!(Store::open_at(&path), Err(Refused::Store(_))));
    std::fs::remove_file(path).unwrap();
}
