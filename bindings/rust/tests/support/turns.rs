//! Random turn lists.
use super::random::Random;
use crate::plain::MAX_TURNS;

/// A list of about so many turns, in one of several manners.
pub fn turn_list(random: &mut Random, n: usize, about: usize) -> Vec<u8> {
    let mut turns = Vec::with_capacity(about + 64);
    let manner = random.below(5);
    let seldom = random.below(n) as u8;
    while turns.len() < about {
        let party = random.below(n) as u8;
        match manner {
            // rounds
            0 => turns.extend(order(random, n)),
            // one site for a while
            1 => turns.extend(std::iter::repeat_n(party, random.between(1, 30))),
            // each as far as it gets
            2 => {
                let burst = random.between(20, 200);
                turns.extend(order(random, n).into_iter().flat_map(|p| std::iter::repeat_n(p, burst)));
            }
            // one site seldom
            3 if party == seldom && n > 1 && !random.percent(5) => {}
            _ => turns.push(party),
        }
    }
    turns.truncate(about);
    turns
}

fn order(random: &mut Random, n: usize) -> Vec<u8> {
    let mut order: Vec<u8> = (0..n as u8).collect();
    for k in (1..n).rev() {
        order.swap(k, random.below(k + 1));
    }
    order
}

/// As many turns as are allowed, or just more, now and then with a bad one at either side of the limit.
pub fn long_list(random: &mut Random, n: usize) -> Vec<u8> {
    let length = random.pick(&[MAX_TURNS - 1, MAX_TURNS, MAX_TURNS + 1, MAX_TURNS + 5_000]);
    let mut turns = turn_list(random, n, length);
    if random.percent(40) {
        let at = random.between(MAX_TURNS - 3, length + 2).min(length - 1);
        turns[at] = n as u8;
    }
    turns
}
