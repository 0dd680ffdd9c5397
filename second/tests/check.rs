//! Tables 1 to 7 of "Tables tried by hand", and the most stages.

mod common;

use common::*;
use second::print::check_text;
use second::{Answer, Verdict};

fn answer(verdict: Verdict, settled: u32, stuck: u32, stages: u32, longest: u32) -> Answer {
    Answer {
        verdict,
        settled,
        stuck,
        stages,
        longest,
    }
}

fn text(table: &[u8]) -> String {
    let checked = checked(table);
    check_text(&checked.answer, &checked.rows, &checked.ring)
}

#[test]
fn table_1_is_empty_and_complete() {
    let checked = checked(&[]);
    assert_eq!(checked.answer, answer(Verdict::Complete, 0, 0, 0, 0));
    assert_eq!(checked.stage(0), 0);
    assert_eq!(checked.path(0), (0, vec![0]));
    for vertex in 1..64 {
        assert_eq!(checked.stage(vertex), 254);
        assert_eq!(checked.path(vertex), (0, vec![]));
    }
    assert_eq!(checked.ring(), []);
}

#[test]
fn table_1_prints_one_line() {
    assert_eq!(
        text(&[]),
        "verdict complete settled 0 stuck 0 stages 0 longest 0\n"
    );
}

#[test]
fn table_2_settles_at_stage_1() {
    let checked = checked(&table(&[&[1, 0]]));
    assert_eq!(checked.answer, answer(Verdict::Complete, 1, 0, 1, 1));
    assert_eq!(checked.stage(1), 1);
    assert_eq!(checked.path(1), (1, vec![1, 0]));
    assert_eq!(checked.stage(2), 254);
    assert_eq!(checked.ring(), []);
}

#[test]
fn table_3_has_ring_1_2() {
    let checked = checked(&table_3());
    assert_eq!(checked.answer, answer(Verdict::Stuck(2), 0, 2, 0, 2));
    assert_eq!((checked.stage(1), checked.stage(2)), (255, 255));
    assert_eq!(checked.path(1), (1, vec![1, 2, 0]));
    assert_eq!(checked.path(2), (1, vec![2, 1, 0]));
    assert_eq!(checked.ring(), [1, 2]);
}

#[test]
fn table_4_has_ring_1_2_3() {
    let checked = checked(&table_4());
    assert_eq!(checked.answer, answer(Verdict::Stuck(3), 0, 3, 0, 2));
    assert_eq!(checked.path(3), (1, vec![3, 1, 0]));
    assert_eq!(checked.ring(), [1, 2, 3]);
}

#[test]
fn table_5_settles_1_and_has_ring_2_3() {
    let checked = checked(&table_5());
    assert_eq!(checked.answer, answer(Verdict::Stuck(2), 1, 2, 1, 2));
    assert_eq!(checked.stage(1), 1);
    assert_eq!(checked.path(1), (1, vec![1, 0]));
    assert_eq!((checked.stage(2), checked.stage(3)), (255, 255));
    assert_eq!(checked.path(2), (1, vec![2, 3, 0]));
    assert_eq!(checked.path(3), (1, vec![3, 2, 0]));
    assert_eq!(checked.ring(), [2, 3]);
}

#[test]
fn table_5_prints_exactly_this() {
    let expected = "\
verdict stuck settled 1 stuck 2 stages 1 longest 2
1 stage 1 rank 1 path 1 0
2 stuck rank 1 path 2 3 0
3 stuck rank 1 path 3 2 0
ring 2 3
";
    assert_eq!(text(&table_5()), expected);
}

#[test]
fn table_6_settles_both_without_a_path() {
    let checked = checked(&table_6());
    assert_eq!(checked.answer, answer(Verdict::Complete, 2, 0, 2, 2));
    assert_eq!((checked.stage(2), checked.stage(1)), (1, 2));
    assert_eq!(checked.path(1), (0, vec![]));
    assert_eq!(checked.path(2), (0, vec![]));
}

#[test]
fn table_6_prints_none_twice() {
    let expected = "\
verdict complete settled 2 stuck 0 stages 2 longest 2
1 stage 2 none
2 stage 1 none
";
    assert_eq!(text(&table_6()), expected);
}

#[test]
fn table_7_takes_three_stages() {
    let checked = checked(&table_7());
    assert_eq!(checked.answer, answer(Verdict::Complete, 3, 0, 3, 2));
    assert_eq!([1, 2, 3].map(|vertex| checked.stage(vertex)), [1, 2, 3]);
    assert_eq!(checked.path(1), (1, vec![1, 0]));
    assert_eq!(checked.path(2), (1, vec![2, 1, 0]));
    assert_eq!(checked.path(3), (0, vec![]));
}

#[test]
fn table_7_prints_none_for_vertex_3() {
    let expected = "\
verdict complete settled 3 stuck 0 stages 3 longest 2
1 stage 1 rank 1 path 1 0
2 stage 2 rank 1 path 2 1 0
3 stage 3 none
";
    assert_eq!(text(&table_7()), expected);
}

#[test]
fn a_stuck_row_shows_the_best_path_against_the_final_settled_set() {
    // Vertex 2 first prefers (2 4 0), which falls away when 4 takes (4 1 0).
    let checked = checked(&table(&[
        &[1, 0],
        &[2, 4, 0],
        &[2, 3, 0],
        &[2, 0],
        &[3, 2, 0],
        &[3, 0],
        &[4, 1, 0],
        &[4, 0],
    ]));
    assert_eq!(checked.answer, answer(Verdict::Stuck(2), 2, 2, 2, 2));
    assert_eq!(checked.path(4), (1, vec![4, 1, 0]));
    assert_eq!(checked.path(2), (2, vec![2, 3, 0]));
    assert_eq!(checked.ring(), [2, 3]);
}

#[test]
fn the_ring_begins_at_its_own_lowest_vertex() {
    // The walk from 1 enters the ring at 4, and 1 is not part of the ring.
    let checked = checked(&table(&[
        &[1, 4, 0],
        &[1, 0],
        &[2, 4, 0],
        &[2, 0],
        &[3, 2, 0],
        &[3, 0],
        &[4, 3, 0],
        &[4, 0],
    ]));
    assert_eq!(checked.answer, answer(Verdict::Stuck(3), 0, 4, 0, 2));
    assert_eq!(checked.ring(), [2, 4, 3]);
}

#[test]
fn a_chain_takes_63_stages() {
    let checked = checked(&chain_of_63());
    assert_eq!(checked.answer, answer(Verdict::Complete, 63, 0, 63, 2));
    for vertex in 1..=63u8 {
        let expected = match vertex {
            1 => (1, vec![1, 0]),
            even if even % 2 == 0 => (1, vec![even, even - 1, 0]),
            odd => (2, vec![odd, 0]),
        };
        assert_eq!(checked.stage(usize::from(vertex)), vertex);
        assert_eq!(checked.path(usize::from(vertex)), expected);
    }
}

#[test]
fn refusals_print_their_record_from_4_on() {
    assert_eq!(text(&[0; 17]), "refused 3\n");
    assert_eq!(text(&[0; 16_129]), "refused 2\n");
    let owners_1_2_1 = table(&[&[1, 0], &[2, 0], &[1, 2, 0]]);
    assert_eq!(text(&owners_1_2_1), "refused 9 record 2\n");
}
