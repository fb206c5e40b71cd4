// Places the same design as the program `place_wide`, as often as its first word says, and writes the leaf of each operator.
// With a second word, `whole`, each exchange is judged by the sum over all channels, as the rule reads; else by the channels
// that touch one of the two leaves.
use std::hint::black_box;

const OPERATORS: usize = 63;
const LEAVES: usize = 64;

type Ends = (Option<usize>, Option<usize>);

fn channels() -> Vec<Ends> {
    let across = |k: usize| (k * 101 + 17) % 252 % OPERATORS;
    let mut all: Vec<Ends> = (0..240).map(|k| (Some(k % OPERATORS), Some(across(k)))).collect();
    for k in 240..248 {
        all.push((None, Some(across(k))));
        all.push((Some(k % OPERATORS), None));
    }
    all
}

fn distance(mut a: usize, mut b: usize) -> u32 {
    let mut links = 0;
    while a != b {
        a /= 2;
        b /= 2;
        links += 2;
    }
    links
}

fn leaf_at(leaf_of: &[usize], place: Option<usize>) -> usize {
    place.map_or(0, |k| leaf_of[k])
}

fn traded(a: usize, b: usize, leaf: usize) -> usize {
    if leaf == a {
        b
    } else if leaf == b {
        a
    } else {
        leaf
    }
}

fn sum<'a>(channels: impl Iterator<Item = &'a Ends>, leaf_of: &[usize], a: usize, b: usize) -> (u32, u32) {
    channels.fold((0, 0), |(before, after), e| {
        let (from, to) = (leaf_at(leaf_of, e.0), leaf_at(leaf_of, e.1));
        (before + distance(from, to), after + distance(traded(a, b, from), traded(a, b, to)))
    })
}

fn place(channels: &[Ends], whole: bool) -> Vec<usize> {
    let mut leaf_of: Vec<usize> = (1..=OPERATORS).collect();
    let mut touching: Vec<Vec<Ends>> = (0..LEAVES)
        .map(|l| channels.iter().filter(|e| leaf_at(&leaf_of, e.0) == l || leaf_at(&leaf_of, e.1) == l).copied().collect())
        .collect();
    for _ in 0..64 {
        let lowers = |a: usize, b: usize| {
            let (before, after) = if whole {
                sum(channels.iter(), &leaf_of, a, b)
            } else {
                sum(touching[a].iter().chain(&touching[b]), &leaf_of, a, b)
            };
            after < before
        };
        let Some((a, b)) = (1..LEAVES).flat_map(|a| (a + 1..LEAVES).map(move |b| (a, b))).find(|&(a, b)| lowers(a, b)) else {
            break;
        };
        leaf_of.iter_mut().for_each(|l| *l = traded(a, b, *l));
        touching.swap(a, b);
    }
    leaf_of
}

fn main() {
    let mut words = std::env::args().skip(1);
    let times: usize = words.next().map_or(1, |w| w.parse().expect("a number"));
    let whole = words.next().is_some();
    let channels = channels();
    let mut leaf_of = Vec::new();
    for _ in 0..times {
        leaf_of = place(black_box(&channels), whole);
    }
    for leaf in leaf_of {
        println!("{leaf}");
    }
}
