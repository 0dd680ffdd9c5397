//! The reader, case 10 of "Tables tried by hand" and refusals 2 to 11.

mod common;

use common::*;
use second::{Refusal, Table};

/// A path of vertex 1 with this many hops, up to 12.
fn long_path(hops: u8) -> Vec<u8> {
    (1..=hops).chain([0]).collect()
}

fn refusal(bytes: &[u8]) -> (u8, u32) {
    let Refusal { number, place } = Table::read(bytes).unwrap_err();
    (number, place)
}

fn accepts(bytes: &[u8]) -> bool {
    Table::read(bytes).is_ok()
}

/// Two good records, the second of owner 2 and changed at one byte.
fn second_record_with(at: usize, byte: u8) -> Vec<u8> {
    let mut bytes = table(&[&[1, 0], &[2, 1, 0]]);
    bytes[16 + at] = byte;
    bytes
}

#[test]
fn the_reader_notes_paths_presence_longest_and_listening() {
    let bytes = table(&[&[1, 5, 0], &[1, 0], &[3, 7, 1, 0]]);
    let table = Table::read(&bytes).unwrap();
    let present: Vec<usize> = (0..64).filter(|&v| table.present()[v]).collect();
    assert_eq!(present, [0, 1, 3, 5, 7]);
    assert_eq!(table.longest(), 3);
    assert_eq!(table.slots()[1][..3], [Some(0), Some(1), None]);
    assert_eq!(table.slots()[3][..2], [Some(2), None]);
    assert_eq!(table.path_with_rank(1, 2).unwrap().vertices, [1, 0]);
    assert_eq!(table.path_with_rank(1, 3), None);
    assert_eq!(table.path_with_rank(1, 0), None);
    assert!(table.listens(1, 5) && table.listens(1, 0) && table.listens(3, 7));
    assert!(!table.listens(3, 1) && !table.listens(64, 0) && !table.listens(0, 64));
    assert_eq!(table.listening_pair_count(), 3);
}

#[test]
fn the_empty_table_has_only_vertex_0() {
    let table = Table::read(&[]).unwrap();
    assert_eq!(table.present().iter().filter(|&&p| p).count(), 1);
    assert!(table.present()[0]);
    assert_eq!(table.longest(), 0);
    assert_eq!(table.listening_pair_count(), 0);
}

#[test]
fn case_10_hops() {
    assert!(accepts(&record(1, &long_path(12))));
    for hops in [0, 13, 255] {
        let mut bytes = record(1, &long_path(12));
        bytes[1] = hops;
        assert_eq!(refusal(&bytes), (4, 0));
    }
}

#[test]
fn case_10_vertices() {
    assert!(accepts(&record(1, &[63, 0])));
    assert_eq!(refusal(&record(1, &[64, 0])), (5, 0));
}

#[test]
fn case_10_ranks() {
    let mut bytes = Vec::new();
    for rank in 1..=16 {
        bytes.extend(record(rank, &[1, rank + 1, 0]));
    }
    assert!(accepts(&bytes));
    for rank in [1, 16, 17] {
        let longer = [&bytes[..], &record(rank, &[1, 18, 0])].concat();
        assert_eq!(refusal(&longer), (10, 16));
    }
}

#[test]
fn case_10_lengths() {
    let mut bytes = fullest_table();
    assert_eq!(bytes.len(), 16_128);
    assert!(accepts(&bytes));
    bytes.extend(record(1, &[1, 0]));
    assert_eq!(bytes.len(), 16_144);
    assert_eq!(refusal(&bytes), (2, 0));
    assert_eq!(refusal(&bytes[..16_129]), (2, 0));
    assert_eq!(refusal(&[0; 17]), (3, 0));
}

#[test]
fn case_10_owners() {
    let bytes = table(&[&[1, 0], &[2, 0], &[1, 2, 0]]);
    assert_eq!(refusal(&bytes), (9, 2));
}

#[test]
fn refusal_2_comes_before_all_of_the_table() {
    assert_eq!(refusal(&[0; 16_129]), (2, 0));
}

#[test]
fn refusal_3_comes_before_the_records() {
    for length in [1, 15, 17, 16_127] {
        assert_eq!(refusal(&vec![0; length]), (3, 0));
    }
}

#[test]
fn refusal_4_for_hops() {
    assert_eq!(refusal(&second_record_with(1, 0)), (4, 1));
    assert_eq!(refusal(&second_record_with(1, 13)), (4, 1));
}

#[test]
fn refusal_5_for_a_vertex_above_63() {
    for at in 2..=4 {
        assert_eq!(refusal(&second_record_with(at, 64)), (5, 1));
    }
}

#[test]
fn refusal_6_for_unused_bytes() {
    for at in 5..=14 {
        assert_eq!(refusal(&second_record_with(at, 0)), (6, 1));
    }
    assert_eq!(refusal(&second_record_with(15, 255)), (6, 1));
}

#[test]
fn refusal_7_for_a_vertex_twice() {
    assert_eq!(refusal(&second_record_with(3, 2)), (7, 1));
    assert_eq!(refusal(&second_record_with(3, 0)), (7, 1));
}

#[test]
fn refusal_8_for_another_last_vertex() {
    assert_eq!(refusal(&second_record_with(4, 3)), (8, 1));
}

#[test]
fn an_owner_0_gets_7_or_8() {
    assert_eq!(refusal(&record(1, &[0, 1, 0])), (7, 0));
    assert_eq!(refusal(&record(1, &[0, 1])), (8, 0));
}

#[test]
fn refusal_9_for_an_owner_below_the_previous() {
    let bytes = table(&[&[3, 0], &[2, 0]]);
    assert_eq!(refusal(&bytes), (9, 1));
}

#[test]
fn refusal_9_for_two_blocks_of_one_owner_apart() {
    let bytes = table(&[&[1, 0], &[1, 2, 0], &[2, 0], &[1, 3, 0], &[1, 4, 0]]);
    assert_eq!(refusal(&bytes), (9, 3));
}

#[test]
fn refusal_10_for_two_blocks_of_one_owner_side_by_side() {
    let mut bytes = table(&[&[1, 0], &[1, 2, 0]]);
    bytes.extend(table(&[&[1, 3, 0], &[1, 4, 0]]));
    assert_eq!(refusal(&bytes), (10, 2));
}

#[test]
fn refusal_10_for_ranks_out_of_line() {
    for rank in [0, 2, 16, 17, 255] {
        assert_eq!(refusal(&record(rank, &[1, 0])), (10, 0));
        assert_eq!(refusal(&second_record_with(0, rank)), (10, 1));
    }
    let mut gap = table(&[&[1, 0]]);
    gap.extend(record(3, &[1, 2, 0]));
    assert_eq!(refusal(&gap), (10, 1));
}

#[test]
fn refusal_11_for_the_same_path_again() {
    let bytes = table(&[&[1, 0], &[1, 2, 0], &[1, 3, 0], &[1, 0]]);
    assert_eq!(refusal(&bytes), (11, 3));
    let next_to_it = table(&[&[1, 2, 0], &[1, 2, 0]]);
    assert_eq!(refusal(&next_to_it), (11, 1));
}

#[test]
fn within_a_record_the_lowest_number_decides() {
    // Each change of the second record comes on top of those before it.
    let changes: [(usize, u8, u8); 7] = [
        (0, 9, 10),
        (2, 1, 7),
        (4, 1, 7),
        (14, 0, 6),
        (3, 64, 5),
        (1, 13, 4),
        (15, 1, 4),
    ];
    let mut bytes = table(&[&[2, 0], &[2, 1, 0]]);
    for (at, byte, number) in changes {
        bytes[16 + at] = byte;
        assert_eq!(refusal(&bytes), (number, 1));
    }
}

#[test]
fn refusal_8_comes_before_9_and_9_before_10_and_10_before_11() {
    let mut bytes = table(&[&[1, 0], &[3, 0]]);
    bytes.extend(record(9, &[1, 2]));
    assert_eq!(refusal(&bytes), (8, 2));
    bytes.truncate(32);
    bytes.extend(record(9, &[1, 0]));
    assert_eq!(refusal(&bytes), (9, 2));
    bytes.truncate(16);
    bytes.extend(record(9, &[1, 0]));
    assert_eq!(refusal(&bytes), (10, 1));
}

#[test]
fn the_first_bad_record_decides() {
    let mut bytes = table(&[&[1, 0], &[1, 0], &[2, 0]]);
    bytes[16 * 2 + 1] = 0;
    assert_eq!(refusal(&bytes), (11, 1));
}
