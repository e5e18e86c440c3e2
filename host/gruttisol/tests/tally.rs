//! The tally against counts kept by hand.
use gruttisol::answer::{Mark, Refused};
use gruttisol::tally::{Tally, COUNTS, NAMES};
use random::Random;

const FULL: u32 = u32::MAX;

/// Every answer that a tick can have, refused ones and the boundary's numbers among them.
fn answer(random: &mut Random) -> Result<Mark, Refused> {
    match random.bits() % 7 {
        k @ 0..5 => Ok(Mark::ALL[k as usize]),
        5 => Err(Refused(1 + (random.bits() % 7) as u32)),
        _ => Err(Refused(50 + (random.bits() % 3) as u32)),
    }
}

#[test]
fn counts_are_of_the_answers_taken() {
    const ANSWERS: usize = 1_000_000;
    let mut random = Random::new(1);
    let (mut tally, mut counts) = (Tally::new(), [0; COUNTS]);
    for _ in 0..ANSWERS {
        let answer = answer(&mut random);
        if let Ok(mark) = answer {
            counts[0] += 1;
            counts[match mark {
                Mark::Clean => 1,
                Mark::Cleared => 2,
                Mark::NotFinite => 3,
                Mark::Lost => 4,
                Mark::Steered => 5,
            }] += 1;
        }
        assert_eq!(tally.take(answer), Ok(()));
        assert_eq!(*tally.counts(), counts);
    }
    println!("{ANSWERS} answers: {} are {counts:?}", NAMES.join(", "));
}

/// Whatever number a refusal carries, a mark's too.
#[test]
fn no_refusal_counts() {
    for number in (0..100).chain([u32::MAX]) {
        let mut tally = Tally::of_counts([15, 1, 2, 3, 4, 5]);
        assert_eq!(tally.take(Err(Refused(number))), Ok(()), "{number}");
        assert_eq!(*tally.counts(), [15, 1, 2, 3, 4, 5], "{number}");
    }
}

#[test]
fn sums_that_do_not_add_up_are_refused() {
    for counts in [
        [1, 0, 0, 0, 0, 0],
        [0, 1, 0, 0, 0, 0],
        [0, 0, 0, 0, 0, 1],
        [4, 1, 1, 1, 1, 1], // adds up without steered
        [5, 1, 1, 1, 2, 1],
        [0, FULL, 1, 0, 0, 0],             // adds up in 32 bits
        [FULL, FULL, FULL, FULL, FULL, 3], // and so does this
    ] {
        for answer in Mark::ALL.map(Ok).into_iter().chain([Err(Refused(1)), Err(Refused(0))]) {
            let mut tally = Tally::of_counts(counts);
            assert_eq!(tally.take(answer), Err(Refused(7)));
            assert_eq!(*tally.counts(), counts);
        }
    }
}

#[test]
fn a_full_tally_takes_refused_ticks_alone() {
    let counts = [FULL, FULL - 10, 1, 2, 3, 4];
    for mark in Mark::ALL {
        let mut tally = Tally::of_counts(counts);
        assert_eq!(tally.take(Ok(mark)), Err(Refused(7)));
        assert_eq!(tally.take(Err(Refused(2))), Ok(()));
        assert_eq!(*tally.counts(), counts);
    }
    let mut tally = Tally::of_counts([FULL - 1, FULL - 11, 1, 2, 3, 4]);
    assert_eq!(tally.take(Ok(Mark::Clean)), Ok(()));
    assert_eq!(*tally.counts(), counts);
}
