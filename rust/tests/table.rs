//! The table through the crate: sections by guard and by hand, reports, streams, sections read.
use qpack_table::{
    decode_stateless, read_stateless, Error, Field, Insertion, Lookup, Record, Table, INCREMENT,
};

/// RFC 9204 B.2 at capacity 220.
const B2: &[u8] = b"\x3f\xbd\x01\xc0\x0fwww.example.com\xc1\x0c/sample/path";

fn b2() -> Table {
    let mut table = Table::new();
    let received = table.on_encoder_recv(B2, &mut [0; INCREMENT]).unwrap();
    assert_eq!(
        (received.consumed, received.inserted, received.written),
        (34, 2, 1)
    );
    table
}

fn room_for(capacity: usize) -> Table {
    let mut table = Table::new();
    table.set_capacity(capacity).unwrap();
    table.set_max_blocked(1).unwrap();
    table
}

#[test]
fn b2_is_read() {
    let table = b2();
    assert_eq!(
        (
            table.capacity(),
            table.size(),
            table.inserted(),
            table.dropped()
        ),
        (220, 106, 2, 0)
    );
    let decoded = table
        .decode_header(&[0x03, 0x81, 0x10, 0x11], 1024)
        .unwrap();
    assert_eq!(
        decoded.fields,
        [
            Field::new(":authority", "www.example.com"),
            Field::new(":path", "/sample/path")
        ]
    );
    assert!(decoded.dyn_ref);
    assert_eq!(decoded.mem_size, 106);
}

#[test]
fn a_limit_on_the_bytes() {
    let table = b2();
    let section = [0x03, 0x81, 0x10, 0x11];
    assert_eq!(table.decode_header(&section, 42).unwrap().fields.len(), 2);
    assert_eq!(table.decode_header(&section, 41), Err(Error::OutputFull));
    // many times the same entry: the buffers grow until all is in
    let mut long = vec![0x03, 0x81];
    long.resize(502, 0x10);
    assert_eq!(
        table.decode_header(&long, usize::MAX).unwrap().fields.len(),
        500
    );
    assert_eq!(
        table.decode_header(&long, 500 * 25).unwrap().fields.len(),
        500
    );
    assert_eq!(
        table.decode_header(&long, 500 * 25 - 1),
        Err(Error::OutputFull)
    );
}

#[test]
fn a_refused_section_keeps_what_it_stored() {
    let table = b2();
    let (mut records, mut out) = ([Record::default(); 4], [0xaa; 64]);
    let refused = table
        .read_section(&[0x03, 0x81, 0x10, 0x12], &mut records, &mut out)
        .unwrap_err();
    assert_eq!(
        (refused.error, refused.stored.count, refused.stored.used),
        (Error::BadPostbaseIndex, 1, 25)
    );
    assert_eq!(
        records[0].split(&out),
        Some((&b":authority"[..], &b"www.example.com"[..]))
    );
    assert_eq!(records[1], Record::default());
    assert!(out[25..].iter().all(|&b| b == 0xaa));
}

#[test]
fn without_a_table() {
    let fields = decode_stateless(&[0x00, 0x00, 0xd1], 64).unwrap().fields;
    assert_eq!(fields, [Field::new(":method", "GET")]);
    assert_eq!(
        decode_stateless(&[0x00, 0x00, 0xd1], 41),
        Err(Error::HeaderTooLong)
    );
    assert_eq!(
        decode_stateless(&[0x00, 0x00, 0x80], 64),
        Err(Error::MissingRefs)
    );
    assert_eq!(
        decode_stateless(&[0x02, 0x00], 64),
        Err(Error::BadInsertCount)
    );
    assert_eq!(decode_stateless(&[], 64), Err(Error::UnexpectedEnd));
    assert_eq!(
        read_stateless(&[0x00, 0x00, 0xd1], 64, &mut [], &mut [])
            .unwrap_err()
            .error,
        Error::OutputFull
    );
}

#[test]
fn how_an_insertion_is_written() {
    let mut table = room_for(220);
    let mut section = table.encoder(4).unwrap();
    assert_eq!(section.find(b"x", b"1"), Ok(Lookup::NotFound));
    let (postbase, absolute) = (0, 1);
    let plain = Insertion::Inserted { postbase, absolute };
    assert_eq!(section.insert(b"x", b"1"), Ok(plain));
    let (postbase, relative, absolute) = (1, 0, 2);
    let named = Insertion::InsertedWithNameRef {
        postbase,
        relative,
        absolute,
    };
    assert_eq!(section.insert(b"x", b"2"), Ok(named));
    let (postbase, index, absolute) = (2, 1, 3);
    let fixed = Insertion::InsertedWithStaticNameRef {
        postbase,
        index,
        absolute,
    };
    assert_eq!(section.insert(b":path", b"/"), Ok(fixed));
    let (relative, postbase, absolute) = (2, 3, 4);
    let again = Insertion::Duplicated {
        relative,
        postbase,
        absolute,
    };
    assert_eq!(section.insert(b"x", b"1"), Ok(again));
    let (index, absolute) = (1, 2);
    assert_eq!(
        section.find(b"x", b"2"),
        Ok(Lookup::PostBase { index, absolute })
    );
    assert_eq!((section.base(), section.total_inserted()), (0, 4));
}

#[test]
fn a_guard_commits_and_a_report_releases() {
    let mut table = room_for(220);
    let mut section = table.encoder(4).unwrap();
    section.insert(b"x", b"1").unwrap();
    section.commit(1).unwrap();
    assert_eq!(table.set_capacity(0), Err(Error::ShrinkBlocked));
    assert_eq!(table.acknowledge(5), Err(Error::UnknownStreamId));
    assert_eq!(table.acknowledge(4), Ok(()));
    assert_eq!(table.set_capacity(0), Ok(()));
    assert_eq!(table.dropped(), 1);
}

#[test]
fn a_dropped_guard_gives_its_references_back() {
    let mut table = room_for(220);
    table.encoder(1).unwrap().insert(b"x", b"1").unwrap();
    assert_eq!((table.base(), table.set_capacity(0)), (None, Ok(())));
    // a refused commit leaves the section to its guard
    assert_eq!(table.encoder(1).unwrap().commit(9), Err(Error::BadLargest));
    assert_eq!(table.base(), None);
    // no guard was made, so none closes the section that was opened by hand
    table.begin(7).unwrap();
    assert_eq!(table.encoder(8).unwrap_err(), Error::SectionOpen);
    assert_eq!(table.base(), Some(0));
    assert_eq!(
        (table.abandon(), table.abandon()),
        (Ok(()), Err(Error::NoSection))
    );
}

#[test]
fn not_inserted_where_a_reference_is_in_the_way() {
    let mut table = room_for(106);
    table.put(b":authority", b"www.example.com").unwrap();
    table.put(b":path", b"/sample/path").unwrap();
    let mut section = table.encoder(0).unwrap();
    assert_eq!(
        section.find(b":authority", b"www.example.com"),
        Ok(Lookup::Relative {
            index: 1,
            absolute: 1
        })
    );
    assert_eq!(
        section.insert(b":path", b"/another/one"),
        Ok(Insertion::NotInserted(Lookup::Static(1)))
    );
    section.commit(0).unwrap();
    assert_eq!(table.set_capacity(105), Err(Error::ShrinkBlocked));
    assert_eq!(table.on_decoder_recv(&[0x80]), Ok(1));
    assert_eq!(table.set_capacity(105), Ok(()));
    assert_eq!(
        (table.inserted(), table.dropped(), table.size()),
        (2, 1, 49)
    );
}

#[test]
fn a_refused_stream_keeps_what_came_before() {
    let mut table = b2();
    // a duplicate, and then one of an entry that is not there
    let refused = table
        .on_encoder_recv(&[0x01, 0x1f, 0x00, 0x02], &mut [0; INCREMENT])
        .unwrap_err();
    assert_eq!(
        (refused.error, refused.consumed, table.inserted()),
        (Error::BadRelativeIndex, 1, 3)
    );
    let refused = table.on_decoder_recv(&[0x01, 0x42]).unwrap_err();
    assert_eq!(
        (refused.error, refused.consumed, table.known_received()),
        (Error::UnknownStreamId, 1, 1)
    );
    assert_eq!(Error::from(refused), Error::UnknownStreamId);
    // a cut instruction is left unread, and is no refusal
    let received = table.on_encoder_recv(&[0x3f], &mut [0; INCREMENT]).unwrap();
    assert_eq!((received.consumed, received.written), (0, 0));
    assert_eq!(
        table
            .on_encoder_recv(&[], &mut [0; INCREMENT - 1])
            .unwrap_err()
            .error,
        Error::BadCall
    );
}

#[test]
fn bounds_of_the_settings() {
    let mut table = Table::default();
    assert_eq!(table.set_capacity(16_384), Ok(()));
    assert_eq!(table.set_capacity(16_385), Err(Error::AboveLentRoom));
    assert_eq!(
        table.set_capacity(1_073_741_824),
        Err(Error::MaximumTableSizeTooLarge)
    );
    assert_eq!(table.set_max_blocked(65_534), Ok(()));
    assert_eq!(
        table.set_max_blocked(65_535),
        Err(Error::MaxBlockedStreamsTooLarge)
    );
    assert_eq!(
        table.put(&[b'n'; 16_384], b""),
        Err(Error::MaxTableSizeReached)
    );
    assert_eq!(table.increment(usize::MAX), Err(Error::CountTooLarge));
    assert_eq!(
        (table.cancel(0), table.capacity()),
        (Err(Error::UnknownStreamId), 16_384)
    );
}

#[test]
fn a_copy_stands_alone() {
    let table = b2();
    let mut copy = table.clone();
    copy.set_capacity(0).unwrap();
    assert_eq!((table.size(), copy.size()), (106, 0));
    assert_eq!(
        table
            .decode_header(&[0x03, 0x81, 0x10, 0x11], 64)
            .unwrap()
            .fields
            .len(),
        2
    );
}

#[test]
fn tables_cross_threads() {
    let table = b2();
    let seen = std::thread::spawn(move || table.inserted()).join().unwrap();
    assert_eq!(seen, 2);
}
