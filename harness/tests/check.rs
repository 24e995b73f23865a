//! The codec against bytes written out by hand.

use harness::answer::check;
use harness::decode::decode;
use harness::encode::encode;
use harness::special;
use harness::stream::{Aim, Stream};

/// The number and value of the check.
fn answer(pack: &[u8]) -> (u32, u32) {
    let a = check(pack).answer(0, 0);
    (a.number, a.value)
}

fn cat(parts: &[&[u8]]) -> Vec<u8> {
    parts.concat()
}

/// Machine M with the only state S.
fn machine_m() -> Vec<u8> {
    cat(&[
        &[2, 0, 1, b'M', 1, b'S'],
        &[0, 0, 0, 0],
        &[1, 0, 0, 0, 255, 255, 0, 0, 0, 0, 0, 0, 1, 0, 1, 0],
        &[1, 0, 0, 0, 0, 0, 0, 0, 255, 255],
        &[0, 0, 0, 0],
    ])
}

/// A pack whose only node (names: N, v) has one equation `v = ..` with these bytes.
fn with_expr(expr: &[u8]) -> Vec<u8> {
    let node = [1, 0, 0, 0, 1, 0, 0, 0, 0, 0, 0, 1, 0, 1, 0, 1, 0];
    cat(&[&[2, 0, 1, b'N', 1, b'v', 0, 0], &node, expr, &[0; 6]])
}

const EXPR_AT: u32 = 25;

#[test]
fn twelve_zero_bytes() {
    assert_eq!(answer(&[0; 12]), (0, 12));
    for len in 0..12 {
        assert_eq!(answer(&[0; 12][..len]), (2, len as u32));
    }
    assert_eq!(answer(&[0; 13]), (5, 12));
    assert_eq!(answer(&[0; 20]), (5, 12));
}

#[test]
fn machine_m_takes_40_bytes() {
    let m = machine_m();
    assert_eq!(m.len(), 40);
    assert_eq!(answer(&m), (0, 40));
    for len in 0..40 {
        assert_eq!(answer(&m[..len]), (2, len as u32));
    }
    let p = decode(&m).unwrap();
    assert_eq!((p.names.text(0), p.names.text(1)), ("M", "S"));
    assert_eq!((p.machines[0].owner, p.machines[0].initial), (None, 1));
    assert_eq!((p.machines[0].states[0].name, p.machines[0].states[0].refines), (1, None));
    assert_eq!(encode(&p).unwrap(), m);
}

#[test]
fn indexes() {
    // Machine name, owner, initial, state name, refinement: at these offsets.
    for (at, none) in [(12, false), (14, true), (22, false), (26, false), (34, true)] {
        let mut m = machine_m();
        m[at..at + 2].copy_from_slice(&[2, 0]);
        assert_eq!(answer(&m), (3, at as u32));
        m[at..at + 2].copy_from_slice(&[1, 0]);
        assert_eq!(answer(&m), (0, 40));
        m[at..at + 2].copy_from_slice(&[255, 255]);
        assert_eq!(answer(&m), if none { (0, 40) } else { (3, at as u32) });
        m[at..at + 2].copy_from_slice(&[254, 255]);
        assert_eq!(answer(&m), (3, at as u32));
        // Half an index is an early end.
        assert_eq!(answer(&m[..at + 1]), (2, at as u32 + 1));
    }
}

#[test]
fn names() {
    let rest = [0u8; 10];
    let pack = |names: &[u8]| cat(&[names, &rest]);
    assert_eq!(answer(&pack(&[1, 0, 0])), (3, 2));
    assert_eq!(answer(&pack(&[1, 0, 2, b'a', b'-'])), (3, 4));
    assert_eq!(answer(&pack(&[1, 0, 4, b'0', b'_', b'z', b'Z'])), (0, 17));
    // A repeated name is told at its length byte, once read.
    assert_eq!(answer(&pack(&[2, 0, 1, b'a', 1, b'a'])), (3, 4));
    assert_eq!(answer(&pack(&[3, 0, 1, b'a', 1, b'b', 1, b'a'])), (3, 6));
    assert_eq!(answer(&pack(&[2, 0, 1, b'a', 2, b'a', b'a'])), (0, 17));
    // The character that is there comes before the end that is not.
    assert_eq!(answer(&[1, 0, 9, b'a', b'-']), (3, 4));
    assert_eq!(answer(&[1, 0, 9, b'a', b'b']), (2, 5));
    // A name ending early is no repeated name.
    assert_eq!(answer(&[2, 0, 1, b'a', 2, b'a']), (2, 6));
    for bad in [b'/', b':', b'@', b'[', b'^', b'`', b'{', 0, 127, 128, 255] {
        assert_eq!(answer(&[1, 0, 1, bad]), (3, 3));
    }
}

#[test]
fn expressions_that_read() {
    let good: [&[u8]; 24] = [
        &[0, 0, 1],
        &[0, 1, 1, 2, 3, 4, 5, 6, 7, 8],
        &[0, 2, 255, 255, 255, 255, 255, 255, 255, 255],
        &[0, 3, 200],
        &[1, 1, 0],
        &[2, 1, 1, 0, 0],
        &[3, 19, 1, 0, 0, 1, 1, 0],
        &[4, 0, 0, 0, 1, 0, 0, 1, 1, 0],
        &[5, 1, 0, 0],
        &[6, 1, 0, 0, 1, 0, 0],
        &[7, 1, 0, 0, 0],
        &[7, 1, 0, 2, 0, 1, 0, 0, 1, 1, 0],
        &[8, 1, 0, 1, 0, 0],
        &[9, 1, 0, 0, 1, 0, 0],
        &[10, 2, 0, 1, 0, 0, 1, 0, 0],
        &[11, 0, 0],
        // Two field names, then two values.
        &[12, 0, 0, 2, 0, 1, 0, 1, 0, 1, 0, 0, 0, 3, 9],
        &[13, 11, 1, 0, 0],
        // Cast to an array of 2^32 - 1 arrays of 0 of the named type v.
        &[13, 12, 255, 255, 255, 255, 12, 0, 0, 0, 0, 13, 1, 0, 1, 0, 0],
        &[14, 1, 0, 1, 1, 0, 0],
        &[15, 1, 0, 1, 0, 0, 1, 1, 0],
        &[16, 0, 1, 0, 0, 1, 0, 1, 0, 0],
        // A map with an initial value, a fold without: both legal.
        &[16, 0, 1, 0, 1, 1, 0, 1, 0, 0, 1, 1, 0],
        &[16, 1, 1, 0, 0, 0, 0],
    ];
    for expr in good {
        let pack = with_expr(expr);
        assert_eq!(answer(&pack), (0, pack.len() as u32), "{expr:?}");
        assert_eq!(encode(&decode(&pack).unwrap()).unwrap(), pack);
        for cut in 0..expr.len() {
            let short = &pack[..EXPR_AT as usize + cut];
            assert_eq!(answer(short), (2, short.len() as u32), "{expr:?} cut at {cut}");
        }
    }
}

#[test]
fn expressions_that_do_not_read() {
    let bad: [(&[u8], u32); 17] = [
        (&[17], 0),
        (&[0, 4], 1),
        (&[0, 0, 2], 2),
        (&[1, 2, 0], 1),
        (&[2, 2], 1),
        (&[3, 20], 1),
        (&[5, 5, 5, 255], 3),
        (&[7, 2, 0, 0, 0], 1),
        (&[8, 255, 255], 1),
        (&[12, 2, 0], 1),
        (&[12, 0, 0, 2, 0, 1, 0, 2, 0], 7),
        (&[13, 14], 1),
        (&[13, 12, 0, 0, 0, 0, 13, 2, 0], 7),
        (&[14, 1, 0, 2], 3),
        (&[15, 9, 0], 1),
        (&[16, 2], 1),
        (&[16, 1, 1, 0, 2], 4),
    ];
    for (expr, at) in bad {
        let pack = with_expr(expr);
        assert_eq!(answer(&pack), (3, EXPR_AT + at), "{expr:?}");
    }
}

#[test]
fn an_activation_must_have_an_owner() {
    let owned = |owner: [u8; 2]| cat(&[&[1, 0, 1, b'A'], &[0; 6], &[1, 0, 0, 0], &owner, &[0; 8]]);
    assert_eq!(answer(&owned([0, 0])), (0, 24));
    assert_eq!(answer(&owned([255, 255])), (3, 14));
}

#[test]
fn kinds_and_flags() {
    // Enum, node and origin of one name: their kind bytes.
    let pack = |kind: u8, origin: u8| {
        cat(&[
            &[1, 0, 1, b'N', 1, 0, 0, 0, 1, 0, 0, 0],
            &[1, 0, 0, 0, kind, 0, 0, 0, 0, 0, 0, 0, 0],
            &[0, 0, 0, 0],
            &[1, 0, 0, 0, origin, 0, 0, 255, 255, 0, 128, 1, 0, 0, 0],
        ])
    };
    assert_eq!(answer(&pack(2, 1)), (0, 44));
    assert_eq!(answer(&pack(3, 1)), (3, 16));
    assert_eq!(answer(&pack(2, 2)), (3, 33));
}

#[test]
fn levels() {
    for width in 1..3 {
        let (pack, _) = harness::encode::encode_any(&special::nest(8, width));
        assert_eq!(answer(&pack), (0, pack.len() as u32));
        let (pack, _) = harness::encode::encode_any(&special::nest(9, width));
        assert_eq!(answer(&pack).0, 4);
    }
    // A state takes 10 bytes with its counts, a region 5 before its states: in front of the
    // level-9 region stand 8 states without the 4 bytes after their region counts.
    let (pack, _) = harness::encode::encode_any(&special::nest(9, 1));
    let names = 2 + 2 + 9 * 3;
    let at = names + 4 + 2 + 14 + 8 * 8 + 7 * 5;
    assert_eq!(answer(&pack), (4, at));
    // Tested before its bytes, also where none is left.
    assert_eq!(answer(&pack[..at as usize]), (4, at));
    assert_eq!(answer(&pack[..at as usize - 1]), (2, at - 1));
}

#[test]
fn lengths() {
    for size in [65_535, 65_536] {
        let mut p = special::nest(8, 2);
        special::pad(&mut p, size);
        let pack = encode(&p).unwrap();
        assert_eq!(pack.len(), size);
        assert_eq!(answer(&pack), (0, size as u32));
    }
    let mut p = special::nest(8, 2);
    special::pad(&mut p, 65_537);
    assert!(encode(&p).is_err());
    let (pack, _) = harness::encode::encode_any(&p);
    assert_eq!((pack.len(), answer(&pack)), (65_537, (1, 65_536)));
    // The length comes before anything else.
    assert_eq!(answer(&[255; 65_537]), (1, 65_536));
    assert_eq!(answer(&[255; 65_536]), (3, 3));
}

#[test]
fn deep_expressions_need_no_stack() {
    let depth = 65_536 - 12 - 20;
    let mut expr = vec![5u8; depth - 10];
    expr.extend([1, 0, 0]);
    let pack = with_expr(&expr);
    assert!(pack.len() > 65_000 && pack.len() <= 65_536);
    assert_eq!(answer(&pack), (0, pack.len() as u32));
    assert_eq!(encode(&decode(&pack).unwrap().clone()).unwrap(), pack);
}

#[test]
fn a_read_pack_is_written_as_it_was() {
    let mut packs = Stream::new(3, Aim::Check);
    let mut legal = 0;
    for _ in 0..20_000 {
        let pack = packs.pack();
        if let Ok(p) = decode(&pack) {
            legal += 1;
            assert_eq!(encode(&p).unwrap(), pack);
        }
    }
    assert!(legal > 2_000, "{legal}");
}
