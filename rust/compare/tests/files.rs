//! Reading and converting: at least 300,000 files, each at several buffer lengths.

use compare::{disagree, files_wanted, seed, Difference, Tally};
use generate::files::{fixed, round};
use generate::Kind;
use second::Answer;

/// What is done with each file, on both sides, and its name in a message.
struct Job {
    name: &'static str,
    compare: fn(&[u8]) -> Result<Answer, Difference>,
}

fn try_file(job: &Job, tally: &mut Tally<Kind>, what: &str, kind: Kind, file: &[u8]) {
    match (job.compare)(file) {
        Ok(answer) => {
            let good = matches!(answer, Answer::Done { .. });
            assert!(good || kind != Kind::Valid, "{} {what}, a valid file: {answer:?}", job.name);
            tally.count(kind, answer);
        }
        Err(difference) => disagree(&format!("{} {what} ({kind:?})", job.name), file, &difference),
    }
}

fn all_alike(job: Job) {
    let mut tally = Tally::default();
    for (number, (kind, file)) in fixed().enumerate() {
        try_file(&job, &mut tally, &format!("fixed file {number}"), kind, &file);
    }
    for number in 0.. {
        if tally.total() >= files_wanted() {
            break;
        }
        for (kind, file) in round(seed(), number) {
            try_file(&job, &mut tally, &format!("a file of round {number}"), kind, &file);
        }
    }
    tally.print(job.name);
    tally.must_have_seen(&[0, 1, 2, 3, 4, 5, 6, 7, 8, 9, 10]);
}

#[test]
fn files_read_alike() {
    all_alike(Job { name: "reading", compare: compare::read });
}

/// Every file that is read in a run is converted too.
#[test]
fn files_convert_alike() {
    all_alike(Job { name: "converting", compare: compare::convert });
}
