//! Which out-places a call writes. The safe calls can't show it: they lend places that nobody sees after a refusal.
use super::*;

#[macro_use]
#[path = "../../tests/support/needs_archive.rs"]
mod needs_archive;

/// What the places hold before a call.
const BEFORE: u32 = 0xa5a5_a5a5;

/// PARTIES 1, READ: with no input it stops.
const PROGRAM: [u8; 3] = [0, 1, 5];

fn check(program: &[u8]) -> (u32, u8, usize) {
    let (mut parties, mut nodes) = (0xa5, 0xa5a5);
    let code = unsafe { threadmolar_check(program.as_ptr(), program.len(), &mut parties, &mut nodes) };
    (code, parties, nodes)
}

fn single(program: &[u8], counts: &[usize], work: usize) -> (u32, u32) {
    let (mut records, mut lengths, mut work) = ([0; 20], [0; 1], vec![0; work]);
    let mut steps = BEFORE;
    let inputs: [i32; 0] = [];
    let code = unsafe {
        threadmolar_single(
            program.as_ptr(),
            program.len(),
            counts.as_ptr(),
            counts.len(),
            inputs.as_ptr(),
            inputs.len(),
            9,
            records.as_mut_ptr(),
            records.len(),
            lengths.as_mut_ptr(),
            lengths.len(),
            work.as_mut_ptr(),
            work.len(),
            &mut steps,
        )
    };
    (code, steps)
}

fn joint(program: &[u8], counts: &[usize], turns: &[u8], work: usize) -> (u32, u32) {
    let (mut records, mut lengths, mut work) = ([0; 20], [0; 1], vec![0; work]);
    let mut taken = BEFORE;
    let inputs: [i32; 0] = [];
    let code = unsafe {
        threadmolar_joint(
            program.as_ptr(),
            program.len(),
            counts.as_ptr(),
            counts.len(),
            inputs.as_ptr(),
            inputs.len(),
            turns.as_ptr(),
            turns.len(),
            records.as_mut_ptr(),
            records.len(),
            lengths.as_mut_ptr(),
            lengths.len(),
            work.as_mut_ptr(),
            work.len(),
            &mut taken,
        )
    };
    (code, taken)
}

/// The places of a walk, in the order of the call.
type Places = (usize, u8, u8, i32, u16, u16, u16);

const PLACES: Places = (91, 92, 93, 94, 95, 96, 97);

fn walk(record: &[u8], at: usize) -> (u32, Places) {
    let mut p = PLACES;
    let code = unsafe {
        threadmolar_walk(
            record.as_ptr(),
            record.len(),
            at,
            &mut p.0,
            &mut p.1,
            &mut p.2,
            &mut p.3,
            &mut p.4,
            &mut p.5,
            &mut p.6,
        )
    };
    (code, p)
}

needs_archive! {
    fn check_writes_where_the_program_is_good() {
        assert_eq!(check(&PROGRAM), (GOOD as u32, 1, 1));
        assert_eq!(check(&[0, 1, 5, 99]), (1 + 256 * 3, 0xa5, 0xa5a5));
    }

    fn single_writes_where_it_is_not_refused() {
        assert_eq!(single(&PROGRAM, &[0], 16_384), (8, 0));
        assert_eq!(single(&[0, 1, 2, 0, 0, 0, 0], &[0], 16_384), (ENDED as u32, 1));
        assert_eq!(single(&[0, 1, 99], &[0], 16_384), (1 + 256 * 2, BEFORE));
        assert_eq!(single(&PROGRAM, &[1], 16_384), (2, BEFORE));
        assert_eq!(single(&PROGRAM, &[0], 16_383), (4, BEFORE));
    }

    fn joint_writes_where_it_is_not_refused() {
        assert_eq!(joint(&PROGRAM, &[0], &[0, 0], 16_384), (OPEN as u32, 1));
        assert_eq!(joint(&[0, 1, 2, 0, 0, 0, 0], &[0], &[0, 0], 16_384), (COMPLETE as u32, 1));
        assert_eq!(joint(&[0, 1, 99], &[0], &[], 16_384), (1 + 256 * 2, BEFORE));
        assert_eq!(joint(&PROGRAM, &[], &[], 16_384), (2, BEFORE));
        assert_eq!(joint(&PROGRAM, &[0], &[0, 1], 16_384), (3 + 256, BEFORE));
        assert_eq!(joint(&PROGRAM, &[0], &[], 16_383), (4, BEFORE));
    }

    fn a_walk_writes_every_place_of_an_event_and_nothing_else() {
        let event = EVENT as u32;
        assert_eq!(walk(&[1, 1, 0, 0, 0], 0), (event, (5, 1, 0, 1, 0, 0, 0)));
        assert_eq!(walk(&[2, 1, 0, 0, 0], 0), (event, (5, 2, 0, 1, 0, 0, 0)));
        assert_eq!(walk(&[3, 4, 5, 1], 0), (event, (4, 3, 4, 0, 261, 0, 0)));
        assert_eq!(walk(&[4, 5, 1, 1, 0, 0, 0], 0), (event, (7, 4, 0, 1, 261, 0, 0)));
        assert_eq!(walk(&[5, 5, 1], 0), (event, (3, 5, 0, 0, 261, 0, 0)));
        assert_eq!(walk(&[6, 2, 1, 0, 0, 0, 5, 1, 6, 1], 0), (event, (10, 6, 2, 1, 261, 262, 0)));
        assert_eq!(walk(&[7, 9, 5, 1], 0), (event, (4, 7, 9, 0, 0, 0, 261)));
        assert_eq!(walk(&[7, 9, 5, 1], 4), (END as u32, PLACES));
        assert_eq!(walk(&[7, 9, 5, 1], usize::MAX), (END as u32, PLACES));
        assert_eq!(walk(&[7, 9, 5], 0), (NOT_AN_EVENT as u32, PLACES));
        assert_eq!(walk(&[7, 9, 5, 1], 1), (NOT_AN_EVENT as u32, PLACES));
    }
}
