//! How long each implementation takes, on the same words, in turn. Words are prepared outside the time that is taken.

use crate::peers::Peer;
use crate::random::Random;
use crate::scene::{P, Scene, letter, words};
use std::collections::BTreeSet;
use std::time::Instant;

/// The median of times in seconds, in microseconds.
fn median(mut times: Vec<f64>) -> f64 {
    times.sort_by(f64::total_cmp);
    times[times.len() / 2] * 1e6
}

/// The median time of each implementation, by turns: `run` prepares a call, makes it, and returns how long it took.
fn medians(peers: &[Peer], mut run: impl FnMut(&Peer) -> f64) -> Vec<f64> {
    let mut times = vec![Vec::new(); peers.len()];
    let start = Instant::now();
    for round in 0..101 {
        for (peer, times) in peers.iter().zip(&mut times) {
            times.push(run(peer));
        }
        if round >= 6 && start.elapsed().as_secs_f64() > 4.0 {
            break;
        }
    }
    times.into_iter().map(median).collect()
}

fn print_header(title: &str, peers: &[Peer]) {
    println!();
    print!("{title:<44}");
    for peer in peers {
        print!("{:>12}", peer.name);
    }
    for peer in &peers[1..] {
        print!("{:>16}", format!("proved/{}", peer.name));
    }
    println!();
}

fn print_row(title: &str, times: &[f64]) {
    print!("{title:<44}");
    for time in times {
        print!("{time:>12.2}");
    }
    for time in &times[1..] {
        print!("{:>16.2}", times[0] / time);
    }
    println!();
}

/// A reading of m values with d, where so many differ beside so many cards.
fn reading(
    random: &mut Random,
    peers: &[Peer],
    m: u64,
    d: u64,
    differ: usize,
    cards: usize,
) -> Vec<f64> {
    let gone = (differ / 2).min(cards);
    let scenes: Vec<Scene> = (0..9)
        .map(|_| Scene::new(random, m, cards, gone, differ - gone))
        .collect();
    let requests: Vec<(Vec<u64>, Vec<u64>)> = scenes
        .iter()
        .map(|scene| (letter(&scene.there, m), words(&scene.here, 0)))
        .collect();
    let mut turn = 0;
    medians(peers, |peer| {
        // every implementation has the same scene before the next one comes
        let (note, here) = &requests[turn / peers.len() % requests.len()];
        turn += 1;
        let mut out = vec![0; d as usize];
        let start = Instant::now();
        let answer = (peer.read)(note, here, &mut out, d);
        let time = start.elapsed().as_secs_f64();
        assert_eq!(
            (answer >> 16) + (answer & 0xffff),
            differ as u64,
            "{} did not find the difference",
            peer.name
        );
        time
    })
}

/// The letter of a list.
fn making(random: &mut Random, peers: &[Peer], m: u64, cards: usize) -> Vec<f64> {
    let list = words(&random.numbers(cards, P - m, &BTreeSet::new()), 0);
    medians(peers, |peer| {
        let mut out = vec![0; 2 + m as usize];
        let start = Instant::now();
        let answer = (peer.letter)(&list, &mut out, m);
        let time = start.elapsed().as_secs_f64();
        assert_eq!(answer, 2 + m);
        time
    })
}

/// One deed, the mean of 64 in a row: as many numbers come to the list, or go from it again.
fn deeds(random: &mut Random, peers: &[Peer], m: u64, cards: usize, coming: bool) -> Vec<f64> {
    let list = random.numbers(cards, P - m, &BTreeSet::new());
    let new = random.numbers(64, P - m, &list);
    let full: BTreeSet<u64> = list.union(&new).copied().collect();
    let before = if coming { &list } else { &full };
    let (note, list) = (letter(before, m), words(before, 64));
    medians(peers, |peer| {
        let (mut note, mut list) = (note.clone(), list.clone());
        let deed = if coming { peer.comes } else { peer.goes };
        let start = Instant::now();
        let answers = new
            .iter()
            .fold(0, |answers, &n| answers | deed(&mut note, &mut list, n));
        let time = start.elapsed().as_secs_f64() / 64.0;
        assert_eq!(answers, 0);
        time
    })
}

/// All tables.
pub fn measure(random: &mut Random, peers: &[Peer]) {
    print_header("microseconds, medians", peers);
    print_row(
        "read m=64 d=63, 63 differ, 9,000 cards",
        &reading(random, peers, 64, 63, 63, 9000),
    );
    print_row(
        "read m=16 d=15, 10 differ, 9,000 cards",
        &reading(random, peers, 16, 15, 10, 9000),
    );
    print_row(
        "comes, 64 values, 100 cards",
        &deeds(random, peers, 64, 100, true),
    );
    print_row(
        "goes, 64 values, 100 cards",
        &deeds(random, peers, 64, 100, false),
    );
    print_row(
        "comes, 64 values, 9,000 cards",
        &deeds(random, peers, 64, 9000, true),
    );
    print_row(
        "goes, 64 values, 9,000 cards",
        &deeds(random, peers, 64, 9000, false),
    );

    print_header("parts", peers);
    print_row(
        "a list's 64 values: letter, 9,000 cards",
        &making(random, peers, 64, 9000),
    );
    print_row(
        "the rest: read m=64 d=63, 63 differ, 31 cards",
        &reading(random, peers, 64, 63, 63, 31),
    );
    print_row(
        "the rest: read m=16 d=15, 10 differ, 5 cards",
        &reading(random, peers, 16, 15, 10, 5),
    );

    print_header("read m=16 d=15, 10 differ, by cards", peers);
    for cards in [1000, 2000, 5000, 10000, 20000, 40000, 60000] {
        print_row(
            &format!("{cards} cards"),
            &reading(random, peers, 16, 15, 10, cards),
        );
    }

    print_header("read m=64, d differ, 9,000 cards, by d", peers);
    for d in [0, 1, 3, 7, 15, 23, 31, 39, 47, 55, 63] {
        print_row(
            &format!("d={d}"),
            &reading(random, peers, 64, d, d as usize, 9000),
        );
    }
}
