//! Stepping by the proved library beside the second implementation, item by
//! item, with buffers that are sometimes too small; and from any state at all.

use cockledrift::RECORD_LIMIT as RECORD;
use compare::proved::Reader;
use compare::{hex, seed};
use generate::files::{fixed, round};
use generate::Rng;
use second::{Opened, Step};

/// How many files are stepped through, and from how many states.
const FILES: usize = 200_000;
const STATES: usize = 200_000;

fn files() -> impl Iterator<Item = Vec<u8>> {
    let rounds = (0..).flat_map(|number| round(seed(), number));
    fixed().step_by(11).chain(rounds).map(|(_, file)| file)
}

/// Room for the next record: enough, or sometimes just so much or too little.
fn room(rng: &mut Rng) -> usize {
    match rng.below(8) {
        0 => rng.below(RECORD + 1),
        1 => rng.below(64),
        _ => RECORD,
    }
}

/// The two step alike to the end or a refusal other than 11, which does not
/// advance: the next step, with room enough, answers the record.
fn alike(file: &[u8], rng: &mut Rng) -> Result<(usize, usize), String> {
    let (mut proved, opened) = Reader::open(file);
    let (mut second, due) = second::open(file);
    if opened != due {
        return Err(format!("opened {opened:?} and not {due:?}"));
    }
    let (mut steps, mut small) = (0, 0);
    loop {
        let room = room(rng);
        let (mut out, mut expected) = (vec![0x5a; room], vec![0x5a; room]);
        let before = proved.stand();
        let (step, due) = (proved.step(&mut out), second.step(&mut expected));
        if step != due || out != expected {
            return Err(format!("step {steps} with room {room}: {step:?} and not {due:?}"));
        }
        steps += 1;
        match step {
            Step::Refused { number: 11, place } => {
                small += 1;
                if place <= room || proved.stand() != before {
                    return Err(format!("step {steps} with room {room} advanced"));
                }
            }
            Step::End | Step::Refused { .. } => break,
            Step::Record { .. } | Step::Nothing => {}
        }
    }
    let stand = proved.stand();
    let mut out = [0; RECORD];
    let (again, due) = (proved.step(&mut out), second.step(&mut [0; RECORD]));
    if again != due || proved.stand() != stand {
        return Err(format!("after the end {again:?} and not {due:?}"));
    }
    Ok((steps, small))
}

#[test]
fn readers_step_alike() {
    let mut rng = Rng::new(seed(), 1);
    let (mut steps, mut small) = (0, 0);
    for file in files().take(FILES) {
        match alike(&file, &mut rng) {
            Ok(counts) => {
                steps += counts.0;
                small += counts.1;
            }
            Err(why) => panic!("seed {}: {why}: {}", seed(), hex(&file)),
        }
    }
    assert!(steps > FILES && small > FILES / 10, "{steps} steps, {small} with too little room");
    println!("{FILES} files: {steps} steps, {small} of them with too little room");
}

/// Going on to the next record is stepping until something is answered.
#[test]
fn records_come_alike() {
    let mut rng = Rng::new(seed(), 2);
    for file in files().step_by(7).take(FILES / 10) {
        let (mut one, _) = Reader::open(&file);
        let mut other = one.clone();
        loop {
            let room = room(&mut rng);
            let (mut out, mut due) = (vec![0x5a; room], vec![0x5a; room]);
            let answer = one.next(&mut out);
            let mut expected = other.step(&mut due);
            while expected == Step::Nothing {
                expected = other.step(&mut due);
            }
            assert_eq!((answer, &out), (expected, &due), "seed {}: {}", seed(), hex(&file));
            assert_eq!(one.stand(), other.stand(), "seed {}: {}", seed(), hex(&file));
            if matches!(answer, Step::End | Step::Refused { .. }) && small(answer).is_none() {
                break;
            }
        }
    }
}

/// What 11 needs.
fn small(step: Step) -> Option<usize> {
    match step {
        Step::Refused { number: 11, place } => Some(place),
        _ => None,
    }
}

/// Any numbers and bytes are some stand: a step answers something and is the
/// same from the same, `next` never answers nothing, and a halted reader halts.
#[test]
fn any_state_steps() {
    let mut rng = Rng::new(seed(), 3);
    let some: Vec<Vec<u8>> = files().step_by(13).take(2000).collect();
    let mut answers = [0; 4];
    for _ in 0..STATES {
        let file = &some[rng.below(some.len())];
        let mut state = [0; 14].map(|_: u64| any(&mut rng, file.len()));
        if rng.one_in(2) {
            state[0] = 0;
        }
        let mut label = [0; 4096];
        label.iter_mut().for_each(|byte| *byte = rng.byte() % 3 + b'-');
        let mut reader = Reader::with(file, state, label);
        let mut twin = reader.clone();
        let room = room(&mut rng);
        let (mut out, mut due) = (vec![0x5a; room], vec![0x5a; room]);
        let answer = reader.step(&mut out);
        assert_eq!((answer, &out), (twin.step(&mut due), &due));
        answers[match answer {
            Step::Record { .. } => 0,
            Step::Nothing => 1,
            Step::End => 2,
            Step::Refused { .. } => 3,
        }] += 1;
        assert_ne!(reader.clone().next(&mut vec![0; room]), Step::Nothing);
        if state[0] == 1 {
            assert_eq!(answer, Step::End);
        }
    }
    assert!(answers.iter().all(|count| *count > 0), "{answers:?}");
}

/// A number of any size, more often a small one or a place in the file.
fn any(rng: &mut Rng, length: usize) -> u64 {
    match rng.below(5) {
        0 => rng.next(),
        1 => rng.below(length + 2) as u64,
        2 => u64::MAX - rng.below(3) as u64,
        _ => rng.below(9) as u64,
    }
}

#[test]
fn a_refused_opening_is_answered_again() {
    let (mut reader, opened) = Reader::open(b"Survex 3D Image File\nv9\n");
    assert_eq!(opened, Opened::Refused { number: 2, place: 21 });
    for _ in 0..3 {
        assert_eq!(reader.step(&mut []), Step::Refused { number: 2, place: 21 });
    }
}
