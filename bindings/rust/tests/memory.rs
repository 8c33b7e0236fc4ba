//! What a search remembers: at most 32 bytes for each situation, and nothing else that grows with the schedules. The
//! program has an allocator of its own, so this is its only test.

use pukzarn::sys::ptrace;
use pukzarn::sys::wait::{WaitStatus, waitpid};
use pukzarn::{Builder, Row, Shares, Sim, Stop, Threads};
use std::alloc::{GlobalAlloc, Layout, System};
use std::sync::atomic::{AtomicUsize, Ordering::SeqCst};

/// The most bytes for a situation that is remembered, also while the table of them grows.
const MOST_BYTES: u64 = 32;

/// The system's allocator, which counts.
struct Counting;

static LIVE: AtomicUsize = AtomicUsize::new(0);
static PEAK: AtomicUsize = AtomicUsize::new(0);

fn grown(bytes: usize) {
    PEAK.fetch_max(LIVE.fetch_add(bytes, SeqCst) + bytes, SeqCst);
}

// SAFETY: each call is handed on to the system's allocator as it came; counting does not allocate.
unsafe impl GlobalAlloc for Counting {
    unsafe fn alloc(&self, layout: Layout) -> *mut u8 {
        grown(layout.size());
        // SAFETY: what the caller promises is what the system's allocator asks for.
        unsafe { System.alloc(layout) }
    }

    unsafe fn dealloc(&self, memory: *mut u8, layout: Layout) {
        LIVE.fetch_sub(layout.size(), SeqCst);
        // SAFETY: as in alloc.
        unsafe { System.dealloc(memory, layout) }
    }

    unsafe fn realloc(&self, memory: *mut u8, layout: Layout, size: usize) -> *mut u8 {
        // The old and the new memory may both be there for a while.
        grown(size);
        LIVE.fetch_sub(layout.size(), SeqCst);
        // SAFETY: as in alloc.
        unsafe { System.realloc(memory, layout, size) }
    }
}

#[global_allocator]
static COUNTING: Counting = Counting;

/// More interleavings than are tried here: two threads of a tracer over two processes of two stops each.
fn two_tracers(sim: &Sim) {
    for tid in [100, 200] {
        sim.tracee(Row::root(tid), |tracee| {
            tracee.stop(Stop::Start)?;
            tracee.stop(Stop::Enter).map(drop)
        });
    }
    for name in ["one", "two"] {
        sim.tracer(name, || {
            while let Ok(status) = waitpid(None, None) {
                if !matches!(status, WaitStatus::Exited(..)) {
                    ptrace::cont(status.pid().expect("a stop is of a tracee"), None).expect("it was claimed");
                }
            }
        });
    }
    sim.run().assert_all_reaped();
}

/// The situations that so many schedules of one search have, and the most bytes that were in use for them.
fn measure(shares: Shares, max_schedules: u64) -> (u64, u64) {
    let before = LIVE.load(SeqCst);
    PEAK.store(before, SeqCst);
    let threads = Threads::Reused;
    let builder = Builder { shares, max_schedules, threads, deviations: Some(6), ..Builder::new() };
    let report = builder.explore(two_tracers).expect("the tracer has no fault");
    (report.situations, (PEAK.load(SeqCst) - before) as u64)
}

#[test]
fn a_situation_takes_at_most_32_bytes() {
    // What one schedule needs is given back after it.
    let (_, of_one) = measure(Shares::Memory, 1);
    let searches = [(Shares::Memory, 3_000), (Shares::Memory, 9_000), (Shares::Memory, 20_000), (Shares::Sync, 9_000)];
    for (shares, schedules) in searches {
        let (situations, bytes) = measure(shares, schedules);
        println!(
            "{shares:?}, {schedules} schedules: {situations} situations, {bytes} bytes; {of_one} for one schedule"
        );
        assert!(situations > 2_000, "there are situations to remember");
        assert!(bytes <= of_one + MOST_BYTES * situations, "{bytes} bytes for {situations} situations");
    }
}
