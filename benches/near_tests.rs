//! What plans don't ask of an interface: rustc --edition 2024 --test -o near_tests benches/near_world.rs && ./near_tests

use super::near_interface::{Count, Deed, Entry, Header, Interface, Limits, Message, Request};

const ONE_MORE: Deed = Deed::Increment {
    counter: 1,
    by: Count::SUCCESS,
};

fn opened() -> Interface {
    let limits = Limits {
        entries: 40,
        headers: 2,
        counters: 2,
        operations: 10,
    };
    let mut interface = Interface::open(0, limits, vec![0; 64]);
    interface.allocate_portal();
    interface.allocate_counter();
    interface.allocate_counter();
    interface
}

/// An entry that counts what it takes.
fn entry(start: u32, length: u32, match_bits: u64, ignore_bits: u64) -> Entry {
    Entry {
        counter: 0,
        allow_put: true,
        count_comm: true,
        count_overflow: true,
        ..Entry::over(start, length, match_bits, ignore_bits)
    }
}

fn put(match_bits: u64, bytes: &[u8]) -> Message {
    let header = Header {
        request: Request::Put,
        match_bits,
        length: bytes.len() as u32,
        home: 0,
        ..Message::EMPTY.header
    };
    Message {
        header,
        bytes: bytes.to_vec(),
    }
}

/// How many bytes were delivered, as the answer says, if they were.
fn delivered(interface: &mut Interface, message: &Message) -> Option<u32> {
    let answer = interface.deliver(message).unwrap();
    matches!(answer.request, Request::Acknowledgement(true)).then_some(answer.length)
}

#[test]
fn operations_are_ready_by_their_thresholds() {
    let mut interface = opened();
    for threshold in [3, 1, 2, 4, 2] {
        interface.trigger(0, threshold, ONE_MORE);
    }
    let mut seen: Vec<Vec<u32>> = vec![];
    for _ in 0..4 {
        interface.count(0, Count::SUCCESS);
        seen.push(
            (0..interface.ready())
                .map(|i| interface.ready_at(i))
                .collect(),
        );
    }
    let due: [Vec<u32>; 4] = [
        vec![1],
        vec![1, 2, 4],
        vec![0, 1, 2, 4],
        vec![0, 1, 2, 3, 4],
    ];
    assert_eq!(seen, due);
    interface.trigger(0, 4, ONE_MORE);
    let number = interface.ready_at(5);
    assert!(!interface.fire(number, &mut Message { ..Message::EMPTY }));
    assert_eq!((number, interface.ready()), (5, 5));
    assert_eq!(interface.counted(1), Count::SUCCESS);
}

#[test]
fn a_use_once_entry_goes_with_its_first_message() {
    let mut interface = opened();
    let once = Entry {
        use_once: true,
        ..entry(0, 4, 7, 0)
    };
    interface.append(0, false, once);
    assert_eq!(delivered(&mut interface, &put(7, b"abcd")), Some(4));
    assert_eq!(delivered(&mut interface, &put(7, b"efgh")), None);
    assert_eq!(interface.registers(), (1, 0));
    interface.append(0, false, once);
    assert_eq!(delivered(&mut interface, &put(7, b"efgh")), Some(4));
    assert_eq!(&interface.memory()[..4], b"efgh");
}

#[test]
fn the_entry_that_was_appended_first_takes_a_message() {
    let mut interface = opened();
    for i in 0..20 {
        interface.append(0, false, entry(0, 1, 1 << 40 | i, 0));
    }
    interface.append(0, false, entry(1, 1, 1 << 40, 0xff));
    interface.append(0, false, entry(2, 1, 1 << 40 | 30, 0));
    assert_eq!(delivered(&mut interface, &put(1 << 40 | 3, b"a")), Some(1));
    assert_eq!(delivered(&mut interface, &put(1 << 40 | 30, b"b")), Some(1));
    assert_eq!(&interface.memory()[..3], b"ab\0");
}

#[test]
fn a_put_is_cut_where_its_entry_allows_it() {
    let mut interface = opened();
    interface.append(0, false, entry(0, 2, 1, 0));
    interface.append(
        0,
        false,
        Entry {
            no_truncate: true,
            ..entry(4, 2, 2, 0)
        },
    );
    interface.append(
        0,
        false,
        Entry {
            allow_put: false,
            ..entry(8, 2, 3, 0)
        },
    );
    assert_eq!(delivered(&mut interface, &put(1, b"abc")), Some(2));
    assert_eq!(delivered(&mut interface, &put(2, b"abc")), None);
    assert_eq!(delivered(&mut interface, &put(3, b"ab")), None);
    assert_eq!(interface.registers(), (1, 1));
    assert_eq!(interface.counted(0), Count::SUCCESS);
}

#[test]
fn appends_take_unexpected_headers() {
    let mut interface = opened();
    let area = Entry {
        manage_local: true,
        no_truncate: true,
        min_free: 1,
        count_comm: false,
        ..entry(32, 4, 0, u64::MAX)
    };
    interface.append(0, true, area);
    assert_eq!(delivered(&mut interface, &put(5, b"ab")), Some(2));
    assert_eq!(delivered(&mut interface, &put(5, b"cd")), Some(2));
    // The area is full and gone.
    assert_eq!(delivered(&mut interface, &put(5, b"")), None);
    let once = Entry {
        use_once: true,
        ..entry(0, 2, 5, 0)
    };
    interface.append(0, false, once);
    let left = interface.headers(0);
    assert_eq!((left.len(), left[0].place, left[0].delivered), (1, 34, 2));
    interface.append(0, false, entry(0, 2, 5, 0xffff));
    assert!(interface.headers(0).is_empty());
    assert_eq!(interface.counted(0).success, 2);
    assert_eq!(&interface.memory()[32..36], b"abcd");
}
