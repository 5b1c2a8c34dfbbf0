// Measures the proved engine beside the same rules in plain Rust: rounds of sealing, tracing and querying on a network of 32 formats
// with 256 steps drawn by chance. Both make the same buffers and have to come to the same checksum.
mod plain;

use plain::{FORMATS, Network, Plan, Record, Refusal, Step};
use std::time::Duration;

#[repr(C)]
struct Timespec {
    seconds: i64,
    nanoseconds: i64,
}

const THREAD_CPU_TIME: i32 = 3;

unsafe extern "C" {
    fn hollquman_rounds(kind: u32, rounds: u64, seed: u64) -> u64;
    fn clock_gettime(clock: i32, time: *mut Timespec) -> i32;
}

// The time that this thread has run, whatever else the machine does.
fn cpu_time() -> Duration {
    let mut time = Timespec { seconds: 0, nanoseconds: 0 };
    let status = unsafe { clock_gettime(THREAD_CPU_TIME, &mut time) };
    assert_eq!(status, 0, "there is a clock of the thread");
    Duration::new(time.seconds as u64, time.nanoseconds as u32)
}

#[derive(Clone, Copy)]
enum Kind {
    Seal,
    Trace,
    Query,
}

// The generator of the proved side.
struct Noise(u64);

impl Noise {
    fn next(&mut self) -> u32 {
        self.0 = self.0.wrapping_mul(6364136223846793005).wrapping_add(1442695040888963407);
        (self.0 >> 48) as u32
    }
}

struct Checksum(u64);

impl Checksum {
    fn add(&mut self, number: u64) {
        self.0 = self.0.wrapping_mul(31).wrapping_add(number);
    }

    fn add_all(&mut self, numbers: &[u32]) {
        for number in numbers {
            self.add(u64::from(*number));
        }
    }

    fn add_records(&mut self, records: &[Record]) {
        for r in records {
            self.add_all(&[r.kind, r.left, r.right, r.next]);
        }
    }
}

fn drawn(seed: u64) -> Network {
    let mut noise = Noise(seed);
    let mut steps = Vec::new();
    let mut weights = Vec::new();
    for _ in 0..256 {
        let from = noise.next() % FORMATS as u32;
        let to = noise.next() % FORMATS as u32;
        steps.push(Step { from, to, in_force: true });
        weights.push(noise.next());
    }
    Network {
        steps,
        records: vec![Record { kind: 0, left: 0, right: 0, next: 0 }; 131_072],
        heads: vec![0; 1024],
        row: vec![0; 32],
        weights,
        memo: vec![0; 131_072],
        answers: vec![0; 32],
        plan: Plan::new(),
        count: 0,
    }
}

fn plain_rounds(network: &mut Network, kind: Kind, rounds: u64) -> Result<u64, Refusal> {
    let mut sum = Checksum(1);
    network.seal()?;
    for round in 0..rounds {
        let source = (round % FORMATS as u64) as usize;
        match kind {
            Kind::Seal => {
                network.seal()?;
                sum.add(network.count as u64);
            }
            Kind::Trace => {
                network.trace(source)?;
                sum.add_all(&network.row);
            }
            Kind::Query => {
                network.query(source)?;
                sum.add_all(&network.answers);
            }
        }
    }
    sum.add_records(&network.records[..network.count]);
    Ok(sum.0)
}

// A run of one side that is timed, if it is the shortest so far.
struct Best {
    time: Duration,
    sum: u64,
}

impl Best {
    fn new() -> Best {
        Best { time: Duration::MAX, sum: 0 }
    }

    fn run(&mut self, run: impl FnOnce() -> u64) {
        let start = cpu_time();
        self.sum = run();
        self.time = self.time.min(cpu_time() - start);
    }

    // Microseconds a round.
    fn each(&self, rounds: u64) -> f64 {
        self.time.as_secs_f64() * 1e6 / rounds as f64
    }
}

// Prints a line for one kind, the best of several runs of each side taken in turns, and says whether the checksums agree.
fn measure(name: &str, kind: Kind, rounds: u64, seed: u64, runs: u32) -> bool {
    let mut proved = Best::new();
    let mut plain = Best::new();
    let mut network = drawn(seed);
    for _ in 0..runs {
        proved.run(|| unsafe { hollquman_rounds(kind as u32, rounds, seed) });
        plain.run(|| plain_rounds(&mut network, kind, rounds).expect("plain rounds are not refused"));
    }
    let same = proved.sum == plain.sum;
    println!(
        "  {name}: {:.1} us a round, plain Rust {:.1} us, ratio {:.2}, checksums {}",
        proved.each(rounds),
        plain.each(rounds),
        proved.each(rounds) / plain.each(rounds),
        if same { "agree" } else { "differ" },
    );
    same
}

fn run(runs: u32) -> bool {
    let mut same = true;
    for seed in [1, 2, 3] {
        println!("network of seed {seed}");
        same &= measure("seal", Kind::Seal, 100, seed, runs);
        same &= measure("trace", Kind::Trace, 320, seed, runs);
        same &= measure("query", Kind::Query, 320, seed, runs);
    }
    same
}

// The proved side has its buffers, of two and a half MiB, on the stack.
fn main() {
    let runs = std::env::args().nth(1).and_then(|text| text.parse().ok()).unwrap_or(25);
    let thread = std::thread::Builder::new().stack_size(64 << 20).spawn(move || run(runs)).expect("a thread starts");
    let same = thread.join().expect("the thread ends");
    std::process::exit(if same { 0 } else { 1 });
}
