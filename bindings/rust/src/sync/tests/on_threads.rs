//! The same on the threads of `stress`, and where there is no simulation.

use crate::sync::atomic::{AtomicUsize, Ordering::SeqCst};
use crate::sync::mpsc::{RecvTimeoutError, TrySendError, channel, sync_channel};
use crate::sync::{Arc, Barrier, Condvar, Mutex, OnceLock, RwLock};
use crate::thread;
use std::time::Duration;

/// Four threads that share what each of them changes once; the parts are all that a thread may use.
#[derive(Default)]
struct Shared {
    sum: Mutex<usize>,
    all: Condvar,
    lock: RwLock<usize>,
    atomic: AtomicUsize,
    once: OnceLock<usize>,
}

const THREADS: usize = 4;

impl Shared {
    fn add(&self, number: usize) {
        *self.lock.write().unwrap() += number;
        self.atomic.fetch_update(SeqCst, SeqCst, |sum| Some(sum + number)).unwrap();
        let first = *self.once.get_or_init(|| number);
        assert_eq!(self.once.get(), Some(&first));
        *self.sum.lock().unwrap() += 1;
        self.all.notify_all();
        let guard = self.all.wait_while(self.sum.lock().unwrap(), |sum| *sum < THREADS).unwrap();
        assert_eq!((*guard, *self.lock.read().unwrap(), self.atomic.load(SeqCst)), (THREADS, 10, 10));
    }

    fn run() {
        let shared = Arc::new(Shared::default());
        let threads = (1..=THREADS).map(|number| {
            let shared = Arc::clone(&shared);
            thread::spawn(move || shared.add(number))
        });
        threads.collect::<Vec<_>>().into_iter().for_each(|thread| thread.join().unwrap());
    }
}

fn channels() {
    for bound in [None, Some(0), Some(1), Some(3)] {
        let (receiver, send): (_, Arc<dyn Fn(usize) + Send + Sync>) = match bound {
            None => {
                let (sender, receiver) = channel();
                (receiver, Arc::new(move |value| sender.send(value).unwrap()))
            }
            Some(bound) => {
                let (sender, receiver) = sync_channel(bound);
                (receiver, Arc::new(move |value| sender.send(value).unwrap()))
            }
        };
        for start in [0, 100] {
            let send = Arc::clone(&send);
            thread::spawn(move || (start..start + 20).for_each(|value| send(value)));
        }
        drop(send);
        let mut values: Vec<usize> = receiver.iter().collect();
        values.sort_unstable();
        assert_eq!(values, (0..20).chain(100..120).collect::<Vec<_>>());
    }
}

fn scopes() {
    let (barrier, leaders) = (Barrier::new(3), AtomicUsize::new(0));
    let answer = thread::scope(|scope| {
        for _ in 0..2 {
            scope.spawn(|| leaders.fetch_add(usize::from(barrier.wait().is_leader()), SeqCst));
        }
        scope.spawn(|| leaders.fetch_add(usize::from(barrier.wait().is_leader()), SeqCst) < 2).join().unwrap()
    });
    assert_eq!((answer, leaders.load(SeqCst)), (true, 1));
    let parked = thread::spawn(thread::park);
    parked.thread().unpark();
    parked.join().unwrap();
}

#[test]
fn they_do_what_those_of_std_do() {
    for _ in 0..20 {
        Shared::run();
        channels();
        scopes();
    }
}

#[test]
fn they_do_so_on_the_threads_of_stress() {
    crate::stress(20, |sim| {
        sim.tracer("main", || {
            Shared::run();
            scopes();
        });
        sim.run();
    });
    crate::stress(20, |sim| {
        sim.tracer("main", channels);
        sim.run();
    });
}

#[test]
fn a_lock_is_poisoned_by_a_panic_outside_of_a_simulation() {
    let lock = Arc::new(Mutex::new(1));
    let other = Arc::clone(&lock);
    let panics = move || {
        let _guard = other.lock().unwrap();
        panic!("on purpose");
    };
    assert!(thread::spawn(panics).join().is_err());
    assert!(lock.is_poisoned() && lock.try_lock().is_err());
    assert_eq!(*lock.lock().unwrap_err().into_inner(), 1);
    lock.clear_poison();
    assert!(lock.lock().is_ok());
}

#[test]
fn a_channel_says_why_it_fails() {
    let time = Duration::from_millis(1);
    let (sender, receiver) = sync_channel(0);
    assert_eq!(sender.try_send(1), Err(TrySendError::Full(1)));
    assert_eq!(receiver.recv_timeout(time), Err(RecvTimeoutError::Timeout));
    let waiting = thread::spawn(move || receiver.recv().map(|value| (value, receiver)));
    while sender.try_send(2).is_err() {
        thread::yield_now();
    }
    let (value, receiver) = waiting.join().unwrap().unwrap();
    let waiting = thread::spawn(move || (sender.send(3), sender));
    thread::sleep(time);
    drop(receiver);
    let (answer, sender) = waiting.join().unwrap();
    assert_eq!((value, answer.unwrap_err().0), (2, 3));
    assert_eq!(sender.try_send(4), Err(TrySendError::Disconnected(4)));
}

#[test]
fn values_that_nobody_receives_are_dropped() {
    let value = Arc::new(());
    let (sender, receiver) = sync_channel(2);
    sender.send(Arc::clone(&value)).unwrap();
    sender.send(Arc::clone(&value)).unwrap();
    drop(receiver);
    assert_eq!(Arc::strong_count(&value), 1);
    assert!(sender.send(Arc::clone(&value)).is_err());
}
