//! Channels.

use super::outcomes;
use crate::sync::Arc;
use crate::sync::atomic::{AtomicBool, Ordering::SeqCst};
use crate::sync::mpsc::{RecvTimeoutError, TryRecvError, TrySendError, channel, sync_channel};
use std::collections::BTreeSet;
use std::time::Duration;

#[test]
fn a_channel_keeps_each_senders_order() {
    let received = outcomes(|sim, outcome| {
        let (sender, receiver) = channel();
        let (other, outcome) = (sender.clone(), outcome.clone());
        sim.tracer("first", move || [1, 2].into_iter().for_each(|value| sender.send(value).unwrap()));
        sim.tracer("second", move || other.send(3).unwrap());
        sim.tracer("receives", move || outcome.put(receiver.iter().collect::<Vec<_>>()));
    });
    assert_eq!(received, BTreeSet::from([vec![1, 2, 3], vec![1, 3, 2], vec![3, 1, 2]]));
}

#[test]
fn a_receiver_sees_a_value_nothing_or_the_end() {
    let seen = outcomes(|sim, outcome| {
        let (sender, receiver) = channel();
        let outcome = outcome.clone();
        sim.tracer("sends", move || {
            let _ = sender.send(7);
        });
        sim.tracer("tries", move || {
            let number = |answer: Result<u32, TryRecvError>| match answer {
                Ok(value) => value,
                Err(TryRecvError::Empty) => 0,
                Err(TryRecvError::Disconnected) => 1,
            };
            outcome.put([number(receiver.try_recv()), number(receiver.try_recv())]);
        });
    });
    assert_eq!(seen, BTreeSet::from([[0, 0], [0, 7], [7, 0], [7, 1]]));
}

#[test]
fn what_was_sent_before_the_threads_is_received() {
    for bound in [None, Some(2)] {
        let received = outcomes(|sim, outcome| {
            let outcome = outcome.clone();
            let (send, receiver): (Box<dyn Fn(u32) + Send>, _) = match bound {
                Some(bound) => {
                    let (sender, receiver) = sync_channel(bound);
                    (Box::new(move |value| sender.send(value).unwrap()), receiver)
                }
                None => {
                    let (sender, receiver) = channel();
                    (Box::new(move |value| sender.send(value).unwrap()), receiver)
                }
            };
            send(1);
            sim.tracer("sends", move || [2, 3].into_iter().for_each(send));
            sim.tracer("receives", move || outcome.put(receiver.iter().collect::<Vec<_>>()));
        });
        assert_eq!(received, BTreeSet::from([vec![1, 2, 3]]));
    }
}

#[test]
fn a_receiver_that_goes_is_seen() {
    for bound in [0, 1] {
        let sent = outcomes(|sim, outcome| {
            let (sender, receiver) = sync_channel(bound);
            let outcome = outcome.clone();
            sim.tracer("sends", move || outcome.put((sender.send(1).is_ok(), sender.send(2).is_ok())));
            sim.tracer("receives", move || assert_eq!(receiver.recv(), Ok(1)));
        });
        let both = if bound == 0 { vec![(true, false)] } else { vec![(true, false), (true, true)] };
        assert_eq!(sent, BTreeSet::from_iter(both), "{bound}");
    }
}

#[test]
fn a_receiver_that_goes_is_seen_by_who_waits_for_a_place() {
    let sent = outcomes(|sim, outcome| {
        let (sender, receiver) = sync_channel(1);
        let outcome = outcome.clone();
        sim.tracer("sends", move || outcome.put((sender.send(1).is_ok(), sender.send(2).is_ok())));
        sim.tracer("goes", move || drop(receiver));
    });
    assert_eq!(sent, BTreeSet::from([(false, false), (true, false)]));
}

#[test]
fn a_channel_without_places_hands_over() {
    let order = outcomes(|sim, outcome| {
        let (sender, receiver) = sync_channel(0);
        let received = Arc::new(AtomicBool::new(false));
        let (other, outcome) = (Arc::clone(&received), outcome.clone());
        sim.tracer("sends", move || {
            match sender.try_send(1) {
                Err(TrySendError::Full(value)) => sender.send(value).unwrap(),
                answer => answer.unwrap(),
            }
            outcome.put(received.load(SeqCst));
        });
        sim.tracer("receives", move || {
            assert_eq!(receiver.recv(), Ok(1));
            other.store(true, SeqCst);
            // The sender is answered, also if it comes late.
            assert!(receiver.recv().is_err());
        });
    });
    assert_eq!(order, BTreeSet::from([false, true]));
}

#[test]
fn a_receive_with_a_limit_polls() {
    let polls = outcomes(|sim, outcome| {
        let (sender, receiver) = channel();
        let outcome = outcome.clone();
        sim.tracer("sends", move || sender.send(7).unwrap());
        sim.tracer("polls", move || {
            let mut late = false;
            while receiver.recv_timeout(Duration::from_millis(1)) == Err(RecvTimeoutError::Timeout) {
                late = true;
            }
            outcome.put(late);
        });
    });
    assert_eq!(polls, BTreeSet::from([false, true]));
}
