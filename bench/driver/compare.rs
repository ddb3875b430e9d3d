//! The same requests to every implementation: all must answer alike and leave the same words behind, and where the true
//! difference is known, they must tell it.

use crate::peers::Peer;
use crate::random::Random;
use crate::scene::{P, Scene, letter, words};
use std::collections::{BTreeMap, BTreeSet};

const MORE: u64 = (u32::MAX as u64) << 32;

/// A request, with its words.
#[derive(Clone, Debug, PartialEq)]
enum Request {
    Read {
        note: Vec<u64>,
        here: Vec<u64>,
        out: Vec<u64>,
        d: u64,
    },
    Letter {
        list: Vec<u64>,
        out: Vec<u64>,
        m: u64,
    },
    Comes {
        note: Vec<u64>,
        list: Vec<u64>,
        n: u64,
    },
    Goes {
        note: Vec<u64>,
        list: Vec<u64>,
        n: u64,
    },
}

impl Request {
    /// The answer; the words are what the call leaves behind.
    fn put_to(&mut self, peer: &Peer) -> u64 {
        match self {
            Request::Read { note, here, out, d } => (peer.read)(note, here, out, *d),
            Request::Letter { list, out, m } => (peer.letter)(list, out, *m),
            Request::Comes { note, list, n } => (peer.comes)(note, list, *n),
            Request::Goes { note, list, n } => (peer.goes)(note, list, *n),
        }
    }

    fn name(&self) -> &'static str {
        match self {
            Request::Read { .. } => "read",
            Request::Letter { .. } => "letter",
            Request::Comes { .. } => "comes",
            Request::Goes { .. } => "goes",
        }
    }
}

/// A request, and the answer with what the lent row begins with, where they are known beforehand.
struct Case {
    what: &'static str,
    request: Request,
    known: Option<(u64, Vec<u64>)>,
}

fn how_many_cards(random: &mut Random) -> usize {
    match random.below(20) {
        0 => 9000,
        1 => random.below(3) as usize,
        _ => random.below(300) as usize,
    }
}

/// A reading whose true difference is known: few, exactly d, one more, any up to 64, or far away.
fn true_reading(random: &mut Random) -> Case {
    let m = random.below(65);
    let d = if random.below(3) == 0 {
        m
    } else {
        random.below(m + 1)
    };
    let (what, size) = match random.below(6) {
        0 => ("at most d differ", random.below(d + 1)),
        1 => ("exactly d differ", d),
        2 => ("d + 1 differ", d + 1),
        3 => ("far away", 65 + random.below(400)),
        4 => ("the same list", 0),
        _ => ("up to 64 differ", random.below(65)),
    };
    let gone = random.below(size + 1) as usize;
    let cards = how_many_cards(random);
    let scene = Scene::new(random, m, cards, gone, size as usize - gone.min(cards));
    let out: Vec<u64> = (0..d + random.below(4))
        .map(|_| random.below(1000))
        .collect();
    let differ = scene.differences() as u64;
    let known = if differ <= d {
        Some((
            (scene.gone.len() as u64) << 16 | scene.come.len() as u64,
            scene.told(),
        ))
    } else if differ <= 2 * m + 1 - d {
        Some((MORE, Vec::new()))
    } else {
        None
    };
    let room = random.below(3) as usize;
    Case {
        what,
        request: Request::Read {
            note: letter(&scene.there, m),
            here: words(&scene.here, room),
            out,
            d,
        },
        known,
    }
}

/// Multiplies a letter's values by z - n, as if n had come.
fn bring(note: &mut [u64], n: u64) {
    note[1] += 1;
    for (i, value) in (1..).zip(&mut note[2..]) {
        *value = *value * (2 * P - i - n) % P;
    }
}

/// Makes a letter no list's: values at random, one value or the count changed, a number of the list counted twice, or
/// one of the points for a number.
fn falsify(random: &mut Random, note: &mut [u64], here: &[u64]) -> &'static str {
    let m = note[0];
    let any = 2 + random.below(m) as usize;
    match random.below(6) {
        0 => {
            for value in &mut note[2..] {
                *value = random.below(P);
            }
            "values at random"
        }
        1 => {
            note[any] = random.below(P);
            "one value changed"
        }
        2 => {
            note[1] = random.pick(&[0, note[1] + 1, note[1] + 2, note[1].saturating_sub(1), P]);
            "the count changed"
        }
        3 if !here.is_empty() => {
            bring(note, random.pick(here));
            "a number counted twice"
        }
        4 => {
            bring(note, P - 1 - random.below(m));
            "a point that came"
        }
        _ => {
            note[any] = 0;
            "a value that is 0"
        }
    }
}

/// A reading of a letter that is no list's.
fn false_reading(random: &mut Random) -> Case {
    let m = 1 + random.below(64);
    let d = random.below(m + 1);
    let cards = how_many_cards(random);
    let size = random.below(d + 1) as usize;
    let scene = Scene::new(random, m, cards, 0, size);
    let mut note = letter(&scene.there, m);
    let ordered: Vec<u64> = scene.here.iter().copied().collect();
    let what = falsify(random, &mut note, &ordered);
    let out = vec![7; d as usize];
    Case {
        what,
        request: Request::Read {
            note,
            here: words(&scene.here, 0),
            out,
            d,
        },
        known: None,
    }
}

/// Spoils a letter in words.
fn spoil_letter(random: &mut Random, note: &mut Vec<u64>) {
    match random.below(5) {
        0 => note.truncate(random.below(note.len() as u64) as usize),
        1 => note[0] = 65 + random.below(1000),
        2 => note[1] = P + 1 + random.below(5),
        3 => note[0] = u64::MAX - random.below(2),
        _ => {
            let place = random.below(note.len() as u64 - 1) as usize + 1;
            note[place] = P + 1 + random.below(5);
        }
    }
}

/// Spoils a list in words.
fn spoil_list(random: &mut Random, list: &mut Vec<u64>) {
    let place = random.below(list.len() as u64) as usize;
    match random.below(5) {
        0 => list.truncate(place),
        1 => list[0] = list.len() as u64 + random.below(3),
        2 => list[0] = u64::MAX - random.below(2),
        3 if place > 0 => list[place] = P + random.below(9),
        _ if place > 1 => list[place] = list[place - 1] - random.below(2).min(list[place - 1]),
        _ => list.clear(),
    }
}

/// A reading that is mostly refused.
fn refused_reading(random: &mut Random) -> Case {
    let m = random.below(65);
    let d = random.below(m + 1);
    let cards = 1 + random.below(30) as usize;
    let scene = Scene::new(random, m, cards, 1, 1);
    let mut note = letter(&scene.there, m);
    let mut here = words(&scene.here, 0);
    let (mut d, mut room) = (d, d);
    let what = match random.below(4) {
        0 => {
            spoil_letter(random, &mut note);
            "a letter at fault"
        }
        1 => {
            spoil_list(random, &mut here);
            "a list at fault"
        }
        2 => {
            d = m + 1 + random.pick(&[0, 1, 1 << 40]);
            "d above m"
        }
        _ => {
            room = d.saturating_sub(1);
            "a short row"
        }
    };
    Case {
        what,
        request: Request::Read {
            note,
            here,
            out: vec![9; room as usize],
            d,
        },
        known: None,
    }
}

/// A letter made of a list, sometimes refused.
fn making(random: &mut Random) -> Case {
    let m = random.below(72);
    let cards = how_many_cards(random);
    let list = random.numbers(cards, P - m, &BTreeSet::new());
    let mut list_words = words(&list, random.below(2) as usize);
    let mut room = 2 + m + random.below(3);
    let mut known = None;
    let what = match random.below(5) {
        0 => {
            spoil_list(random, &mut list_words);
            "a list at fault"
        }
        1 => {
            room = random.below(2 + m);
            "a short row"
        }
        _ => {
            if m <= 64 {
                known = Some((2 + m, letter(&list, m)));
            }
            "a letter"
        }
    };
    Case {
        what,
        request: Request::Letter {
            list: list_words,
            out: vec![3; room as usize],
            m,
        },
        known,
    }
}

/// A deed, done or refused.
fn deed(random: &mut Random) -> Case {
    let m = random.below(65);
    let cards = match random.below(12) {
        0 => 60000,
        1 => 59999,
        _ => how_many_cards(random),
    };
    let list = random.numbers(cards, P - m, &BTreeSet::new());
    let ordered: Vec<u64> = list.iter().copied().collect();
    let there = if ordered.is_empty() {
        0
    } else {
        random.pick(&ordered)
    };
    let any = *random.numbers(1, P - m, &list).first().expect("one number");
    let unlikely = random.pick(&[P - m - 1, P - m, P, u64::MAX]);
    let coming = random.below(2) == 0;
    let n = match random.below(8) {
        0 => unlikely,
        1 => {
            if coming {
                there
            } else {
                any
            }
        }
        _ => {
            if coming {
                any
            } else {
                there
            }
        }
    };
    let mut note = letter(&list, m);
    let mut list = words(&list, 1 + random.below(3) as usize);
    let what = match random.below(12) {
        0 => {
            spoil_letter(random, &mut note);
            "a letter at fault"
        }
        1 => {
            list.truncate(random.below(1 + cards as u64) as usize);
            "a list cut short"
        }
        2 | 3 => {
            list.truncate(1 + cards);
            "no room"
        }
        4 => {
            note[1] = random.below(P);
            "another count"
        }
        _ => "a deed",
    };
    let request = if coming {
        Request::Comes { note, list, n }
    } else {
        Request::Goes { note, list, n }
    };
    Case {
        what,
        request,
        known: None,
    }
}

/// How an answer is told, for the count of answers.
fn kind(answer: u64) -> String {
    match answer >> 32 {
        0 => "done".to_string(),
        0xffff_ffff => "more".to_string(),
        number => format!("refused {number}"),
    }
}

/// Every answer that each call has; a comparison that misses one of them says too little.
const KINDS: [(&str, &[&str]); 4] = [
    (
        "read",
        &[
            "done",
            "more",
            "refused 1",
            "refused 2",
            "refused 3",
            "refused 4",
        ],
    ),
    ("letter", &["done", "refused 1", "refused 2", "refused 4"]),
    (
        "comes",
        &[
            "done",
            "refused 1",
            "refused 2",
            "refused 4",
            "refused 5",
            "refused 7",
        ],
    ),
    ("goes", &["done", "refused 1", "refused 2", "refused 6"]),
];

fn fail(index: usize, case: &Case, name: &str, answer: u64, why: &str) -> ! {
    eprintln!(
        "case {index} ({}): {name} answers {answer:#x}: {why}",
        case.what
    );
    eprintln!("{:?}", case.request);
    std::process::exit(1);
}

/// Puts one case to all, and returns the answer.
fn hold(index: usize, case: &Case, peers: &[Peer]) -> u64 {
    let mut first = case.request.clone();
    let answer = first.put_to(&peers[0]);
    if let Some((told, row)) = &case.known {
        let (Request::Read { out, .. } | Request::Letter { out, .. }) = &first else {
            unreachable!()
        };
        if answer != *told || !out.starts_with(row) {
            fail(
                index,
                case,
                peers[0].name,
                answer,
                &format!("the answer is {told:#x} with {row:?}"),
            );
        }
    }
    for peer in &peers[1..] {
        let mut other = case.request.clone();
        let theirs = other.put_to(peer);
        if theirs != answer {
            fail(
                index,
                case,
                peer.name,
                theirs,
                &format!("{} answers {answer:#x}", peers[0].name),
            );
        }
        if other != first {
            fail(
                index,
                case,
                peer.name,
                theirs,
                "it leaves other words behind",
            );
        }
    }
    answer
}

/// Compares the answers on so many cases, and counts them.
pub fn compare(random: &mut Random, peers: &[Peer], cases: usize) {
    let mut seen: BTreeMap<(&str, String), usize> = BTreeMap::new();
    for index in 0..cases {
        let case = match random.below(10) {
            0..3 => true_reading(random),
            3..5 => false_reading(random),
            5 => refused_reading(random),
            6 => making(random),
            _ => deed(random),
        };
        let answer = hold(index, &case, peers);
        *seen.entry((case.request.name(), kind(answer))).or_default() += 1;
    }
    let names: Vec<&str> = peers.iter().map(|peer| peer.name).collect();
    println!("{cases} cases, answered alike by {}:", names.join(", "));
    for (call, kinds) in KINDS {
        for &kind in kinds {
            let count = seen
                .get(&(call, kind.to_string()))
                .copied()
                .unwrap_or_default();
            println!("  {call:<8}{kind:<12}{count:>6}");
            if count == 0 {
                eprintln!("no case of this kind: compare on more cases");
                std::process::exit(1);
            }
        }
    }
}
