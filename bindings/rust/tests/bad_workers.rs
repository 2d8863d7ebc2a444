//! Every bit pattern of a worker is answered: those that no call gave, and places that it has not.
//! Where the answer is BAD_CALL, all is as it was.

mod support;

use support::made_up::{
    asked, change_one_field, scan_by_chance, scan_of_ones, Counts, PAGE, WORDS,
};
use support::random::Random;
use tarredlath::raw::{self, number};
use tarredlath::{Construct, Job, Refusal, Waits, Worker};

/// A worker with a page that asks, one that has ended, one that runs, and its event buffer.
fn worker_in_use() -> (raw::Worker, Vec<u32>) {
    let mut events = vec![0; raw::PLACES * WORDS];
    let mut worker = Worker::start(4, events.len()).expect("a start").worker;
    let tag = Job {
        asks: true,
        ..Job::new(Construct::Tag)
    };
    let nothing = Job { start: 1, ..tag };
    let mut admit = |worker: &mut Worker, job: &Job| {
        worker
            .admit(PAGE, 0..PAGE.len(), job)
            .expect("a free place");
        while worker.turn(PAGE, &mut events).expect("a turn").is_some() {}
    };
    admit(&mut worker, &tag);
    admit(&mut worker, &nothing);
    worker
        .admit(PAGE, 0..PAGE.len(), &tag)
        .expect("a free place");
    let waits = |place| worker.view(place).map(|view| view.waits);
    let all = [Waits::Verdict, Waits::Collect, Waits::Turn, Waits::Page];
    assert_eq!([0, 1, 2, 3].map(waits), all.map(Some));
    (*worker.raw(), events)
}

/// Make every call with a worker, of places that it has and of some that it has not.
fn try_worker(worker: raw::Worker, events: &[u32], counts: &mut Counts) {
    let mut lent = events.to_vec();
    let called = raw::worker_turn(worker, PAGE, &mut lent);
    let untouched = called.worker == worker && lent == events;
    counts.add(called.answer.number, untouched);
    let called = raw::worker_admit(worker, PAGE, &asked());
    counts.add(called.answer.number, called.worker == worker);
    for place in [0, 1, 2, 3, 15, 16, usize::MAX] {
        try_place(worker, place, counts);
        try_in_types(Worker::from(worker), place, events);
    }
}

/// Make every call about a place.
fn try_place(worker: raw::Worker, place: usize, counts: &mut Counts) {
    for verdict in [0, 2, 3] {
        let verdict = raw::Verdict {
            verdict,
            number: 65_535,
            offset: 1,
        };
        let called = raw::worker_verdict(worker, place, verdict);
        counts.add(called.answer.number, called.worker == worker);
    }
    let called = raw::worker_collect(worker, place);
    counts.add(called.answer.number, called.worker == worker);
    let mut scratch = [7; 2 * PAGE.len()];
    let body = raw::worker_body(worker, PAGE, place, &mut scratch);
    counts.add(body.number, scratch == [7; 2 * PAGE.len()]);
}

/// The same in types: the crate must not panic on what it is answered.
fn try_in_types(worker: Worker, place: usize, events: &[u32]) {
    let mut scratch = [7; 2 * PAGE.len()];
    if let Err(refusal) = worker.body(PAGE, place, &mut scratch) {
        assert_eq!(refusal, Refusal::BadCall);
    }
    if let Some(view) = worker.view(place) {
        assert!(place < raw::PLACES);
        assert!(view.events_in(events).len() <= view.events);
    }
}

#[test]
fn workers_with_one_changed_number_are_answered() {
    let (worker, events) = worker_in_use();
    let mut counts = Counts::default();
    for tried in [0, 1, 15, 16, 17, 4096, 4097, usize::MAX] {
        let mut changed = [worker; 11];
        changed[0].last = tried;
        changed[1].q = tried;
        changed[2].words = tried;
        for place in 0..4 {
            changed[3 + place].places[place].at = tried;
            changed[7 + place].places[place].taken = tried;
        }
        for worker in changed {
            try_worker(worker, &events, &mut counts);
        }
    }
    counts.say("workers with one changed number");
}

#[test]
fn workers_with_one_changed_number_of_a_place_are_answered() {
    let (worker, events) = worker_in_use();
    let mut counts = Counts::default();
    for place in 0..4 {
        change_one_field(worker.places[place].scan, |scan| {
            let mut changed = worker;
            changed.places[place].scan = scan;
            try_worker(changed, &events, &mut counts);
        });
    }
    counts.say("places with one changed number");
}

#[test]
fn workers_by_chance_are_answered() {
    let (worker, events) = worker_in_use();
    let mut random = Random::new(13);
    let mut counts = Counts::default();
    for _ in 0..400 {
        let mut changed = worker;
        for place in &mut changed.places {
            if random.below(4) == 0 {
                place.scan = scan_by_chance(place.scan, 16, &mut random);
                place.taken = random.below(3);
            }
        }
        try_worker(changed, &events, &mut counts);
    }
    counts.say("workers by chance");
}

#[test]
fn a_worker_of_ones_is_refused() {
    let place = raw::Place {
        scan: scan_of_ones(),
        at: usize::MAX,
        taken: usize::MAX,
    };
    let worker = raw::Worker {
        places: [place; raw::PLACES],
        last: usize::MAX,
        q: usize::MAX,
        words: usize::MAX,
    };
    let called = raw::worker_turn(worker, PAGE, &mut []);
    assert_eq!(
        (called.answer.number, called.worker),
        (number::BAD_CALL, worker)
    );
    let called = raw::worker_collect(worker, 0);
    assert_eq!(
        (called.answer.number, called.worker),
        (number::BAD_CALL, worker)
    );
}
