//! Runs comparisons on two threads, and counts.

use std::collections::BTreeMap;
use std::sync::atomic::{AtomicUsize, Ordering};
use std::sync::{Arc, Mutex};
use std::time::{Duration, Instant};

/// What a comparison found.
#[derive(Default)]
pub struct Tally {
    /// Answers compared.
    pub compared: u64,
    /// Answers that differ.
    pub differing: u64,
    /// The first difference, in words.
    first: Option<String>,
    time: Duration,
}

impl Tally {
    /// Compares one answer. `input` is asked for at a difference only.
    pub fn same<A: PartialEq + std::fmt::Debug>(&mut self, ours: A, original: A, input: impl FnOnce() -> String) {
        self.compared += 1;
        if ours != original {
            self.differing += 1;
            self.first.get_or_insert_with(|| format!("{}: ours {ours:?}, original {original:?}", input()));
        }
    }

    /// Compares two planes by their bits, each sample an answer.
    pub fn same_bits(&mut self, ours: &[f32], original: &[f32], input: impl FnOnce() -> String) {
        assert_eq!(ours.len(), original.len());
        self.compared += ours.len() as u64;
        let differs = |&i: &usize| ours[i].to_bits() != original[i].to_bits();
        let mut places = (0..ours.len()).filter(differs);
        if let Some(i) = places.next() {
            self.differing += 1 + places.count() as u64;
            let told = || format!("{} at place {i}: ours {:e}, original {:e}", input(), ours[i], original[i]);
            self.first.get_or_insert_with(told);
        }
    }

    fn add(&mut self, other: Tally) {
        self.compared += other.compared;
        self.differing += other.differing;
        self.time += other.time;
        self.first = self.first.take().or(other.first);
    }
}

/// A part of a comparison. Parts of one name are counted together.
#[derive(Clone)]
pub struct Job {
    pub name: &'static str,
    run: Arc<dyn Fn(&mut Tally) + Send + Sync>,
}

/// A comparison in one part.
pub fn job(name: &'static str, run: impl Fn(&mut Tally) + Send + Sync + 'static) -> Vec<Job> {
    vec![Job { name, run: Arc::new(run) }]
}

/// A comparison in as many parts, each called with its number.
pub fn parts(name: &'static str, count: u64, run: impl Fn(u64, &mut Tally) + Send + Sync + 'static) -> Vec<Job> {
    let run = Arc::new(run);
    let part = |k: u64| {
        let run = run.clone();
        Job { name, run: Arc::new(move |tally: &mut Tally| run(k, tally)) }
    };
    (0..count).map(part).collect()
}

/// Runs the jobs and prints a line for each name. Answers the exit status: 1 where anything differs.
pub fn run(jobs: Vec<Job>) -> i32 {
    let (start, next) = (Instant::now(), AtomicUsize::new(0));
    let found: Mutex<BTreeMap<usize, Tally>> = Mutex::default();
    let order = |name: &str| jobs.iter().position(|job| job.name == name).unwrap();
    let work = || {
        while let Some(job) = jobs.get(next.fetch_add(1, Ordering::Relaxed)) {
            let (start, mut tally) = (Instant::now(), Tally::default());
            (job.run)(&mut tally);
            tally.time = start.elapsed();
            found.lock().unwrap().entry(order(job.name)).or_default().add(tally);
        }
    };
    std::thread::scope(|scope| {
        scope.spawn(work);
        scope.spawn(work);
    });
    let found = found.into_inner().unwrap();
    println!("compared with the original, bit for bit:");
    for (&place, tally) in &found {
        let Tally { compared, differing, first, time } = tally;
        let name = jobs[place].name;
        println!("  {name:<62} {compared:>13} answers, {differing} differences ({:.1} s)", time.as_secs_f64());
        if let Some(first) = first {
            println!("    first: {first}");
        }
    }
    let sum = |part: fn(&Tally) -> u64| found.values().map(part).sum::<u64>();
    let (compared, differing) = (sum(|tally| tally.compared), sum(|tally| tally.differing));
    println!("  {compared} answers in all, {differing} differences, in {:.0} s on two threads", start.elapsed().as_secs_f64());
    (differing > 0) as i32
}
