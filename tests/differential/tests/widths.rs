//! The counts that C passes in words of 64 bits, at and past the edges of the table and of their fields, through the exported
//! functions themselves: the number is the model's, and a refusal leaves every place as it was.

use differential::rng::Rng;
use model::boundary;

extern "C" {
    fn lictor_derive(
        numbers: &[f64; 53],
        counts: &[u64; 35],
        center: &[f64; 192],
        scale: &[f64; 192],
        derived: &mut [f64; 29],
    ) -> u64;
    fn lictor_run_towards(
        numbers: &[f64; 53],
        counts: &[u64; 35],
        center: &[f64; 192],
        scale: &[f64; 192],
        setpoint: *const f64,
        setpoint_len: usize,
        pos: *mut f64,
        pos_len: usize,
        vel: *mut f64,
        vel_len: usize,
        n: usize,
        slacks: *mut f64,
        slacks_len: usize,
        count: &mut u64,
        margin: &mut f64,
        place: &mut u64,
    ) -> u64;
    fn lictor_tier1_reset(
        before: &mut [f64; 512],
        header: &mut [u64; 6],
        trail: &mut [f64; 256],
        samples: &mut [u64; 2],
        held: &mut [f64; 6],
        kept: &mut [u64; 2],
    ) -> u64;
}

const EDGES: [u64; 9] = [0, 8, 11, 31, 64, 127, 255, 4096, 65535];
const WIDE: [u64; 6] = [1 << 16, 1 << 32, (1 << 32) - 1, (1 << 32) + 1, u64::MAX - 1, u64::MAX];

/// Mostly a count that is accepted at its place, else one at or next to an edge.
fn count(rng: &mut Rng, good: u64) -> u64 {
    match rng.below(8) {
        0 => rng.pick(&EDGES) + rng.below(3) as u64,
        1 => rng.pick(&WIDE),
        2 => rng.pick(&EDGES).saturating_sub(1),
        _ => good,
    }
}

/// The zones' channels among the counts.
const CHANNELS: [[usize; 2]; 4] = [[6, 7], [27, 28], [29, 30], [31, 32]];

/// Any count of zones about the greatest, and channels on both sides of their field and of the declared ones, some of them twice.
fn lay_zones(rng: &mut Rng, c: &mut [u64; 35]) {
    const PAIRS: [[u64; 2]; 9] =
        [[0, 1], [1, 0], [0, 2], [2, 0], [254, 255], [255, 256], [256, 300], [300, 256], [256, 256]];
    c[5] = rng.below(7) as u64;
    c[21] = rng.pick(&[2, 3, 3, 256, 257, 300, 301, u64::MAX]);
    let few = rng.one_in(2);
    for [a0, a1] in CHANNELS {
        [c[a0], c[a1]] = rng.pick(if few { &PAIRS[..4] } else { &PAIRS });
    }
}

/// Codes of a choice between two, and some that are none.
const CODES: [u64; 12] = [0, 1, 1, 1, 1, 2, 255, 256, 257, 1 << 32, (1 << 32) + 1, u64::MAX];

/// Either shape, or a code that is none, with dim and pos_dim about the least that a disc has.
fn lay_shape(rng: &mut Rng, c: &mut [u64; 35]) {
    c[33] = rng.pick(&CODES);
    [c[0], c[1]] = [0; 2].map(|_: u64| rng.pick(&[1, 2, 2, 2, 3, 8, 9]));
}

/// How often each number was given.
fn seen(numbers: &[u8], due: &[u8]) {
    for d in due {
        let n = numbers.iter().filter(|x| *x == d).count();
        assert!(n > 100, "{d} is given {n} times");
    }
}

/// The number of a run of two substeps. What it refuses leaves every place as it was but that of the place, which is 0 for a number of the table and
/// stays for 255.
fn run_of_two(numbers: &[f64; 53], c: &[u64; 35]) -> u64 {
    let (setpoint, mut pos, mut vel, mut slacks) = ([1.0; 8], [0.0; 8], [0.5; 8], [7.0; 3]);
    let (mut count, mut margin, mut place) = (7, 7.0, 7);
    // SAFETY: the arrays are as long as include/lictor.h says, the slices are lent with their lengths, and each stands by itself.
    let number = unsafe {
        lictor_run_towards(
            numbers,
            c,
            &[0.0; 192],
            &[1.0; 192],
            setpoint.as_ptr(),
            8,
            pos.as_mut_ptr(),
            8,
            vel.as_mut_ptr(),
            8,
            2,
            slacks.as_mut_ptr(),
            3,
            &mut count,
            &mut margin,
            &mut place,
        )
    };
    let kept = (pos, vel, slacks, margin) == ([0.0; 8], [0.5; 8], [7.0; 3], 7.0);
    match number {
        0 => assert!((count, place, slacks[2]) == (2, 7, 7.0) && !kept, "{c:?}"),
        255 => assert!((count, place) == (7, 7) && kept, "{c:?}"),
        _ => assert!((count, place) == (7, 0) && kept, "{c:?}"),
    }
    number
}

#[test]
fn counts_of_any_width_are_refused_as_the_table_has_them() {
    assert!(lictor::environment_ok());
    let mut numbers = [1.0; 53];
    numbers[27..35].fill(-9.0); // box_lo
    numbers[35..43].fill(9.0); // box_hi
    let good =
        [[1, 1, 0, 1, 0, 1, 0, 1, 1, 1, 1], [1, 1, 1, 1, 1, 1, 1, 1, 1, 63, 2], [1, 3967, 8, 200, 1, 1, 0, 0, 2, 2, 1]]
            .concat();
    let good = [good, vec![0, 0]].concat();
    let mut rng = Rng::new(15);
    let (mut given, mut by_zones) = (Vec::new(), vec![Vec::new(); 6]);
    let (mut by_shape, mut by_gripper) = (vec![Vec::new(); 3], vec![Vec::new(); 3]);
    for _ in 0..400_000 {
        let kept = rng.below(3);
        let mut c: [u64; 35] =
            std::array::from_fn(|i| if rng.one_in(1 + 4 * kept) { count(&mut rng, good[i]) } else { good[i] });
        if rng.one_in(3) {
            lay_zones(&mut rng, &mut c);
        }
        if rng.one_in(3) {
            lay_shape(&mut rng, &mut c);
        }
        if rng.one_in(3) {
            c[34] = rng.pick(&CODES);
        }
        let mut derived = [7.0; 29];
        // SAFETY: the arrays are as long as include/lictor.h says, and each stands by itself.
        let number = unsafe { lictor_derive(&numbers, &c, &[0.0; 192], &[1.0; 192], &mut derived) };
        assert_eq!(number, boundary::counts(&c) as u64, "{c:?}");
        assert_eq!(number != 0, derived == [7.0; 29], "{c:?}");
        assert_eq!(number, run_of_two(&numbers, &c), "{c:?}");
        given.push(number as u8);
        by_zones[c[5].min(5) as usize].push(number as u8);
        by_shape[c[33].min(2) as usize].push(number as u8);
        by_gripper[c[34].min(2) as usize].push(number as u8);
    }
    seen(&given, &[0, 1, 3, 4, 15, 17, 255]);
    seen(&by_shape[0], &[0, 1, 3, 4, 17, 255]);
    seen(&by_shape[1], &[0, 1, 3, 4, 15, 17, 255]);
    assert!(!by_shape[0].contains(&15) && by_shape[2].iter().all(|number| *number == 255));
    by_gripper[..2].iter().for_each(|given| seen(given, &[0, 1, 3, 4, 15, 17, 255]));
    assert!(by_gripper[2].len() > 1000 && by_gripper[2].iter().all(|number| *number == 255));
    by_zones[..5].iter().for_each(|given| seen(given, &[0, 1, 3, 255]));
    by_zones[1..5].iter().for_each(|given| seen(given, &[4]));
    seen(&by_zones[5], &[1, 255]);
    assert!(!by_zones[5].contains(&0), "five zones or more");
}

#[test]
fn held_counts_of_any_width_are_refused_as_the_table_has_them() {
    let good = [7, 9, 2, 2, 1, 1, 3, 3, 1, 63];
    let mut rng = Rng::new(16);
    let mut given = Vec::new();
    for _ in 0..200_000 {
        let every = 1 + rng.below(6);
        let c: [u64; 10] = std::array::from_fn(|i| if rng.one_in(every) { count(&mut rng, good[i]) } else { good[i] });
        let mut h: [u64; 6] = c[..6].try_into().unwrap();
        if rng.one_in(4) {
            h[5] = 0;
        }
        let (t, k) = ([c[6], c[7]], [c[8], c[9]]);
        let (mut header, mut samples, mut kept, mut held) = (h, t, k, [3.0; 6]);
        // SAFETY: the arrays are as long as include/lictor.h says, and each stands by itself.
        let number = unsafe {
            lictor_tier1_reset(&mut [0.0; 512], &mut header, &mut [0.0; 256], &mut samples, &mut held, &mut kept)
        };
        assert_eq!(number, boundary::state(&h, &t, &k) as u64, "{h:?} {t:?} {k:?}");
        if number == 0 {
            h[5] = 0;
            assert_eq!((header, samples, kept, held), (h, [0, 0], [0, 0], [0.0; 6]));
        } else {
            assert_eq!((header, samples, kept, held), (h, t, k, [3.0; 6]));
        }
        given.push(number as u8);
    }
    seen(&given, &[0, 1, 5, 6, 7, 8, 255]);
}
