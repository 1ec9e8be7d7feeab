//! Saving and loading.

mod common;

use common::{folder, memory, patch, place_of_array, place_of_number, rows, HEAD};
use region_store::{NotLoaded, Store};
use std::error::Error;
use std::fs;
use std::os::unix::fs::symlink;
use std::path::{Path, PathBuf};
use std::process::{self, Command};
use std::sync::mpsc;
use std::thread;
use std::time::{Duration, Instant};

/// A store of one page with an object of region 2 in slot 0: a free pointer, null, and the number 17.
fn begun() -> Store {
    let mut store = Store::new(1).unwrap();
    let clue = store.declare(&[1, 0]).unwrap();
    store.new_region().unwrap();
    store.push(2).unwrap();
    store.allocate(0, 2, clue).unwrap();
    store.put(0, 1, 17).unwrap();
    store
}

/// The bytes of a saved store.
fn saved(store: &Store, folder: &Path) -> Vec<u8> {
    let file = folder.join("store");
    store.save(&file).unwrap();
    let bytes = fs::read(&file).unwrap();
    fs::remove_file(&file).unwrap();
    bytes
}

/// Why these bytes are not loaded, or nothing. A load leaves the file as it was, and makes no other.
fn refused(bytes: &[u8], folder: &Path) -> Option<NotLoaded> {
    let file = folder.join("store");
    fs::write(&file, bytes).unwrap();
    let why = Store::from_file(&file).err();
    assert_eq!(fs::read(&file).unwrap(), bytes);
    assert_eq!(fs::read_dir(folder).unwrap().count(), 1);
    why
}

fn name(why: Option<NotLoaded>) -> &'static str {
    why.map_or("loaded", |why| why.name())
}

#[test]
fn a_round_trip_keeps_state_and_heap() {
    let folder = folder("round_trip");
    let file = folder.join("store");
    for pages in [1, 2, 256] {
        let mut store = Store::new(pages).unwrap();
        store.declare(&[0; 16]).unwrap();
        store.push(8).unwrap();
        store.allocate(7, 1, 1).unwrap();
        store.put(7, 15, 0x0102_0304).unwrap();
        store.save(&file).unwrap();
        let again = Store::from_file(&file).unwrap();
        assert_eq!(memory(&again), memory(&store));
        assert_eq!(again.pages(), pages);
        assert_eq!(fs::read(&file).unwrap().len(), 3676 + 256 * pages as usize);
        assert_eq!(fs::read_dir(&folder).unwrap().count(), 1);
    }
}

#[test]
fn the_bytes_of_a_file() {
    let folder = folder("bytes");
    let store = begun();
    let bytes = saved(&store, &folder);
    assert_eq!(bytes.len(), 3932);
    assert_eq!(bytes[..8], *b"REGSTORE");
    let head = bytes[8..HEAD].chunks(4).map(|n| n.try_into().unwrap());
    let head: Vec<u32> = head.map(u32::from_le_bytes).collect();
    assert_eq!(head, [region_store::VERSION, 3652, 64]);
    assert_eq!(bytes[HEAD..HEAD + 3652], store.state_bytes());
    let heap: Vec<u8> = store.heap().iter().flat_map(|n| n.to_le_bytes()).collect();
    assert_eq!(bytes[HEAD + 3652..3928], heap);
    assert_eq!(bytes[3928..], common::sum(&bytes[..3928]).to_le_bytes());
}

#[test]
fn a_save_takes_the_place_of_an_older_file() {
    let folder = folder("older");
    let file = folder.join("store");
    Store::new(9).unwrap().save(&file).unwrap();
    let store = begun();
    store.save(&file).unwrap();
    assert_eq!(memory(&Store::from_file(&file).unwrap()), memory(&store));
    assert_eq!(fs::read_dir(&folder).unwrap().count(), 1);
    fs::write(folder.join("plain"), "").unwrap();
    let permissions = |path: &Path| fs::metadata(path).unwrap().permissions();
    assert_eq!(permissions(&file), permissions(&folder.join("plain")));
}

/// The Nth name of the new file where this process saves to `store`.
fn new_name(folder: &Path, n: u32) -> PathBuf {
    folder.join(format!("store.{}.{n}.new", process::id()))
}

#[test]
fn names_that_are_taken_are_left_as_they_are() {
    let folder = folder("taken");
    let file = folder.join("store");
    let target = folder.join("target");
    fs::write(&target, "kept").unwrap();
    fs::write(new_name(&folder, 0), "left").unwrap();
    fs::create_dir(new_name(&folder, 1)).unwrap();
    symlink(&target, new_name(&folder, 2)).unwrap();
    symlink(folder.join("nowhere"), new_name(&folder, 3)).unwrap();
    let store = begun();
    store.save(&file).unwrap();
    assert_eq!(memory(&Store::from_file(&file).unwrap()), memory(&store));
    assert_eq!(fs::read_dir(&folder).unwrap().count(), 2 + 4);

    // All of them are taken; then the last is free again.
    for n in 4..100 {
        fs::write(new_name(&folder, n), "left").unwrap();
    }
    let other = Store::new(2).unwrap();
    assert_eq!(other.save(&file).unwrap_err().number(), 10);
    assert_eq!(memory(&Store::from_file(&file).unwrap()), memory(&store));
    fs::remove_file(new_name(&folder, 99)).unwrap();
    other.save(&file).unwrap();
    assert_eq!(memory(&Store::from_file(&file).unwrap()), memory(&other));
    for n in [0].into_iter().chain(4..99) {
        assert_eq!(fs::read(new_name(&folder, n)).unwrap(), b"left");
    }
    assert!(new_name(&folder, 2).is_symlink() && new_name(&folder, 3).is_symlink());
    assert_eq!(fs::read(&target).unwrap(), b"kept");
    assert_eq!(fs::read_dir(&folder).unwrap().count(), 2 + 99);
}

#[test]
fn a_link_at_the_path_is_replaced() {
    let folder = folder("link");
    let file = folder.join("store");
    let target = folder.join("target");
    fs::write(&target, "kept").unwrap();
    symlink(&target, &file).unwrap();
    let store = begun();
    store.save(&file).unwrap();
    assert!(!file.is_symlink());
    assert_eq!(memory(&Store::from_file(&file).unwrap()), memory(&store));
    assert_eq!(fs::read(&target).unwrap(), b"kept");
}

#[test]
fn of_savers_at_once_one_has_always_saved_a_whole_store() {
    let folder = folder("savers");
    let file = folder.join("store");
    let all: Vec<_> = [1, 256]
        .map(|pages| memory(&Store::new(pages).unwrap()))
        .into();
    Store::new(1).unwrap().save(&file).unwrap();
    let until = Instant::now() + Duration::from_millis(500);
    thread::scope(|scope| {
        for pages in [1, 256] {
            let file = &file;
            scope.spawn(move || {
                let store = Store::new(pages).unwrap();
                while Instant::now() < until {
                    store.save(file).unwrap();
                }
            });
        }
        while Instant::now() < until {
            assert!(all.contains(&memory(&Store::from_file(&file).unwrap())));
        }
    });
    assert_eq!(fs::read_dir(&folder).unwrap().count(), 1);
}

#[test]
fn what_cannot_be_written() {
    let folder = folder("unwritable");
    let store = begun();
    let before = memory(&store);
    let why = store.save(folder.join("none/store")).unwrap_err();
    assert_eq!((why.number(), why.name()), (10, "unwritable"));
    assert_eq!(why.to_string(), "the file cannot be written");
    assert!(why.source().is_some());
    assert_eq!(fs::read_dir(&folder).unwrap().count(), 0);

    // The path is a folder that is not empty: the new file is whole, but cannot take its place.
    fs::create_dir_all(folder.join("store/kept")).unwrap();
    assert_eq!(store.save(folder.join("store")).unwrap_err().number(), 10);
    assert!(folder.join("store/kept").is_dir());
    assert_eq!(fs::read_dir(&folder).unwrap().count(), 1);
    assert_eq!(memory(&store), before);
}

#[test]
fn what_cannot_be_read() {
    let folder = folder("unreadable");
    for path in [
        folder.join("none"),
        folder.clone(),
        "/dev/null".into(),
        "/dev/zero".into(),
    ] {
        let why = Store::from_file(path).unwrap_err();
        assert!(matches!(why, NotLoaded::Unreadable(_)));
        assert!(why.source().is_some());
        assert_eq!((why.number(), why.name()), (1, "unreadable"));
    }
}

#[test]
fn a_pipe_is_not_waited_for() {
    let fifo = folder("pipe").join("fifo");
    let made = Command::new("mkfifo").arg(&fifo).status();
    let made = made.expect("mkfifo does not run, and this test needs it");
    assert!(made.success(), "mkfifo made no pipe: {made}");
    let (sender, answers) = mpsc::channel();
    thread::spawn(move || {
        sender.send(name(Store::from_file(&fifo).err())).unwrap();
        let why = begun().save(fifo.join("store")).unwrap_err();
        sender.send(why.name()).unwrap();
    });
    let patience = Duration::from_secs(20);
    assert_eq!(answers.recv_timeout(patience), Ok("unreadable"));
    assert_eq!(answers.recv_timeout(patience), Ok("unwritable"));
}

#[test]
fn names_and_messages_are_those_of_the_table() {
    let all = [
        NotLoaded::Short,
        NotLoaded::NoStore,
        NotLoaded::OtherVersion,
        NotLoaded::WrongLengths,
        NotLoaded::Long,
        NotLoaded::WrongSum,
        NotLoaded::Unsound,
    ];
    let table = rows("file");
    for why in all {
        let row = &table[why.number() as usize - 1];
        assert_eq!(row[0], why.number().to_string());
        assert_eq!(row[1], why.name());
        assert_eq!(row[2], why.message());
        assert_eq!(row[2], why.to_string());
        assert!(why.source().is_none());
    }
}

/// Why a one-page file is refused in which the byte at a place was changed.
fn expected(bytes: &[u8], place: usize) -> &'static str {
    let words = u32::from_le_bytes(bytes[16..20].try_into().unwrap());
    match place {
        0..8 => "no_store",
        8..12 => "other_version",
        12..16 => "wrong_lengths",
        16..20 if words % 64 == 0 && (2..=256).contains(&(words / 64)) => "short",
        16..20 => "wrong_lengths",
        _ => "wrong_sum",
    }
}

#[test]
fn every_changed_byte_is_found() {
    let folder = folder("changed");
    let good = saved(&begun(), &folder);
    assert_eq!(name(refused(&good, &folder)), "loaded");
    for place in 0..good.len() {
        for change in [0xFF, 1] {
            let mut bytes = good.clone();
            bytes[place] ^= change;
            let why = name(refused(&bytes, &folder));
            assert_eq!(why, expected(&bytes, place), "byte {place}");
        }
    }
}

#[test]
fn every_other_length_is_found() {
    let folder = folder("lengths");
    let good = saved(&begun(), &folder);
    for length in 0..good.len() {
        assert_eq!(
            name(refused(&good[..length], &folder)),
            "short",
            "{length} bytes"
        );
    }
    for more in [1, 256, 100_000] {
        let mut bytes = good.clone();
        bytes.resize(good.len() + more, 0);
        assert_eq!(name(refused(&bytes, &folder)), "long");
    }
    let mut two_pages = saved(&Store::new(2).unwrap(), &folder);
    patch(&mut two_pages, 16, 64);
    assert_eq!(name(refused(&two_pages, &folder)), "long");
    for words in [0, 63, 65, 64 * 257, u32::MAX] {
        let mut bytes = good.clone();
        patch(&mut bytes, 16, words);
        assert_eq!(name(refused(&bytes, &folder)), "wrong_lengths");
    }
}

#[test]
fn the_sum_and_the_audit_find_what_the_other_does_not() {
    let folder = folder("audit");
    let store = begun();
    let good = saved(&store, &folder);

    let mut share = good.clone();
    patch(&mut share, place_of_array("shares") + 4, 1);
    assert_eq!(name(refused(&share, &folder)), "unsound");

    // So refusal 21 cannot come from a loaded store.
    for pages in [0, 2] {
        let mut made = good.clone();
        patch(&mut made, place_of_number("made"), pages);
        assert_eq!(name(refused(&made, &folder)), "unsound");
    }

    // Word 1 of the object in slot 0, behind its header.
    let at = store.locate(0).unwrap();
    let word = (64 * at.page + at.word + 1 + 1) as usize;
    assert_eq!(store.heap()[word], 17);
    let mut data = good.clone();
    patch(&mut data, place_of_array("the heap") + 4 * word, 18);
    assert_eq!(name(refused(&data, &folder)), "loaded");
    let loaded = Store::from_file(folder.join("store")).unwrap();
    assert_eq!(loaded.get(0, 1), Ok(18));
}
