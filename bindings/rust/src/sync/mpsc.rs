//! Channels of many senders and one receiver, as `std::sync::mpsc` has them.
//!
//! In a model each call is a step, and so is it that a receiver, or the last sender, goes. No time passes there: a
//! receive with a time limit is over where there is no value yet.

use super::queue::Queue;
use crate::context;
use std::cell::Cell;
use std::fmt;
use std::marker::PhantomData;
use std::sync::Arc;
use std::time::{Duration, Instant};

pub use std::sync::mpsc::{RecvError, RecvTimeoutError, SendError, TryRecvError, TrySendError};

/// The sending end of a channel without a bound.
///
/// ```
/// use pukzarn::sync::mpsc::{Sender, channel};
///
/// let (sender, receiver) = channel();
/// let other: Sender<u32> = sender.clone();
/// other.send(7).unwrap();
/// assert_eq!(receiver.recv(), Ok(7));
/// ```
pub struct Sender<T> {
    queue: Arc<Queue<T>>,
}

/// The sending end of a channel with a bound.
///
/// ```
/// use pukzarn::sync::mpsc::{SyncSender, sync_channel};
///
/// let (sender, receiver) = sync_channel(1);
/// let sender: SyncSender<u32> = sender;
/// sender.send(7).unwrap();
/// assert_eq!(receiver.recv(), Ok(7));
/// ```
pub struct SyncSender<T> {
    queue: Arc<Queue<T>>,
}

/// The receiving end of a channel.
///
/// ```
/// use pukzarn::sync::mpsc::{Receiver, channel};
///
/// let (sender, receiver) = channel();
/// let receiver: Receiver<u32> = receiver;
/// drop(sender);
/// assert!(receiver.recv().is_err());
/// ```
pub struct Receiver<T> {
    queue: Arc<Queue<T>>,
    /// One thread receives at a time.
    not_sync: PhantomData<Cell<()>>,
}

/// A channel without a bound.
///
/// ```
/// use pukzarn::sync::mpsc::channel;
///
/// pukzarn::model(|sim| {
///     let (sender, receiver) = channel();
///     sim.tracer("sends", move || sender.send(7).unwrap());
///     sim.tracer("receives", move || assert_eq!(receiver.iter().collect::<Vec<_>>(), [7]));
///     assert!(sim.run().waiting.is_empty());
/// });
/// ```
pub fn channel<T>() -> (Sender<T>, Receiver<T>) {
    let queue = Arc::new(Queue::new(None));
    (Sender { queue: Arc::clone(&queue) }, Receiver { queue, not_sync: PhantomData })
}

/// A channel with places for so many values. With none, a send waits until its value is received.
///
/// ```
/// use pukzarn::sync::mpsc::sync_channel;
///
/// pukzarn::model(|sim| {
///     let (sender, receiver) = sync_channel(0);
///     sim.tracer("sends", move || sender.send(7).unwrap());
///     sim.tracer("receives", move || assert_eq!(receiver.recv(), Ok(7)));
///     assert!(sim.run().waiting.is_empty());
/// });
/// ```
pub fn sync_channel<T>(bound: usize) -> (SyncSender<T>, Receiver<T>) {
    let queue = Arc::new(Queue::new(Some(bound)));
    (SyncSender { queue: Arc::clone(&queue) }, Receiver { queue, not_sync: PhantomData })
}

impl<T> Sender<T> {
    /// Sends a value; an error where the receiver is gone.
    ///
    /// ```
    /// let (sender, receiver) = pukzarn::sync::mpsc::channel();
    /// assert!(sender.send(7).is_ok());
    /// drop(receiver);
    /// assert!(sender.send(8).is_err());
    /// ```
    pub fn send(&self, value: T) -> Result<(), SendError<T>> {
        self.queue.send(value)
    }
}

impl<T> SyncSender<T> {
    /// Sends a value, once there is a place for it; an error where the receiver is gone.
    ///
    /// ```
    /// let (sender, receiver) = pukzarn::sync::mpsc::sync_channel(1);
    /// assert!(sender.send(7).is_ok());
    /// drop(receiver);
    /// assert!(sender.send(8).is_err());
    /// ```
    pub fn send(&self, value: T) -> Result<(), SendError<T>> {
        self.queue.send(value)
    }

    /// Sends a value if there is a place for it.
    ///
    /// ```
    /// let (sender, _receiver) = pukzarn::sync::mpsc::sync_channel(1);
    /// assert!(sender.try_send(7).is_ok());
    /// assert!(sender.try_send(8).is_err());
    /// ```
    pub fn try_send(&self, value: T) -> Result<(), TrySendError<T>> {
        self.queue.try_send(value)
    }
}

impl<T> Receiver<T> {
    /// Receives a value, once there is one; an error where nobody is left to send one.
    ///
    /// ```
    /// let (sender, receiver) = pukzarn::sync::mpsc::channel();
    /// sender.send(7).unwrap();
    /// drop(sender);
    /// assert_eq!(receiver.recv(), Ok(7));
    /// assert!(receiver.recv().is_err());
    /// ```
    pub fn recv(&self) -> Result<T, RecvError> {
        self.queue.receive().ok_or(RecvError)
    }

    /// Receives a value if there is one.
    ///
    /// ```
    /// use pukzarn::sync::mpsc::{TryRecvError, channel};
    ///
    /// let (sender, receiver) = channel::<u32>();
    /// assert_eq!(receiver.try_recv(), Err(TryRecvError::Empty));
    /// drop(sender);
    /// assert_eq!(receiver.try_recv(), Err(TryRecvError::Disconnected));
    /// ```
    pub fn try_recv(&self) -> Result<T, TryRecvError> {
        self.queue.try_receive()
    }

    /// Receives a value, once there is one, or until the time is up.
    ///
    /// ```
    /// use pukzarn::sync::mpsc::{RecvTimeoutError, channel};
    /// use std::time::Duration;
    ///
    /// let (_sender, receiver) = channel::<u32>();
    /// assert_eq!(receiver.recv_timeout(Duration::from_millis(1)), Err(RecvTimeoutError::Timeout));
    /// ```
    pub fn recv_timeout(&self, time: Duration) -> Result<T, RecvTimeoutError> {
        let calls = context::get().filter(|calls| calls.model().is_some());
        let answer = match &calls {
            Some(_) => self.queue.try_receive(),
            None => self.queue.receive_until(Instant::now().checked_add(time)),
        };
        answer.map_err(|error| match error {
            TryRecvError::Disconnected => RecvTimeoutError::Disconnected,
            TryRecvError::Empty => {
                calls.iter().for_each(|calls| calls.pause());
                RecvTimeoutError::Timeout
            }
        })
    }

    /// Receives values until nobody is left to send one.
    ///
    /// ```
    /// let (sender, receiver) = pukzarn::sync::mpsc::channel();
    /// sender.send(7).unwrap();
    /// drop(sender);
    /// assert_eq!(receiver.iter().collect::<Vec<_>>(), [7]);
    /// ```
    pub fn iter(&self) -> Iter<'_, T> {
        Iter { receiver: self }
    }

    /// Receives the values that are there.
    ///
    /// ```
    /// let (sender, receiver) = pukzarn::sync::mpsc::channel();
    /// sender.send(7).unwrap();
    /// assert_eq!(receiver.try_iter().collect::<Vec<_>>(), [7]);
    /// ```
    pub fn try_iter(&self) -> TryIter<'_, T> {
        TryIter { receiver: self }
    }
}

/// The values of a receiver, until nobody is left to send one.
///
/// ```
/// use pukzarn::sync::mpsc::{Iter, channel};
///
/// let (sender, receiver) = channel::<u32>();
/// drop(sender);
/// let mut values: Iter<'_, u32> = receiver.iter();
/// assert_eq!(values.next(), None);
/// ```
#[derive(Debug)]
pub struct Iter<'a, T> {
    receiver: &'a Receiver<T>,
}

/// The values of a receiver that are there.
///
/// ```
/// use pukzarn::sync::mpsc::{TryIter, channel};
///
/// let (_sender, receiver) = channel::<u32>();
/// let mut values: TryIter<'_, u32> = receiver.try_iter();
/// assert_eq!(values.next(), None);
/// ```
#[derive(Debug)]
pub struct TryIter<'a, T> {
    receiver: &'a Receiver<T>,
}

/// The values of a receiver, which it owns, until nobody is left to send one.
///
/// ```
/// use pukzarn::sync::mpsc::{IntoIter, channel};
///
/// let (sender, receiver) = channel::<u32>();
/// drop(sender);
/// let mut values: IntoIter<u32> = receiver.into_iter();
/// assert_eq!(values.next(), None);
/// ```
#[derive(Debug)]
pub struct IntoIter<T> {
    receiver: Receiver<T>,
}

impl<T> Iterator for Iter<'_, T> {
    type Item = T;

    fn next(&mut self) -> Option<T> {
        self.receiver.recv().ok()
    }
}

impl<T> Iterator for TryIter<'_, T> {
    type Item = T;

    fn next(&mut self) -> Option<T> {
        self.receiver.try_recv().ok()
    }
}

impl<T> Iterator for IntoIter<T> {
    type Item = T;

    fn next(&mut self) -> Option<T> {
        self.receiver.recv().ok()
    }
}

impl<T> IntoIterator for Receiver<T> {
    type Item = T;
    type IntoIter = IntoIter<T>;

    fn into_iter(self) -> IntoIter<T> {
        IntoIter { receiver: self }
    }
}

impl<'a, T> IntoIterator for &'a Receiver<T> {
    type Item = T;
    type IntoIter = Iter<'a, T>;

    fn into_iter(self) -> Iter<'a, T> {
        self.iter()
    }
}

impl<T> Drop for Receiver<T> {
    fn drop(&mut self) {
        self.queue.remove_receiver();
    }
}

macro_rules! senders {
    ($($sender:ident)*) => {
        $(
            impl<T> Clone for $sender<T> {
                fn clone(&self) -> $sender<T> {
                    self.queue.add_sender();
                    $sender { queue: Arc::clone(&self.queue) }
                }
            }

            impl<T> Drop for $sender<T> {
                fn drop(&mut self) {
                    self.queue.remove_sender();
                }
            }
        )*
    };
}

senders! { Sender SyncSender }

macro_rules! shown_without_values {
    ($($end:ident)*) => {
        $(
            impl<T> fmt::Debug for $end<T> {
                fn fmt(&self, formatter: &mut fmt::Formatter<'_>) -> fmt::Result {
                    formatter.debug_struct(stringify!($end)).finish_non_exhaustive()
                }
            }
        )*
    };
}

shown_without_values! { Sender SyncSender Receiver }
