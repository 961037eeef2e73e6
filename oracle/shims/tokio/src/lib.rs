//! Stands in for `tokio`: real locks, channels and sockets; a sleep is over at once and noted,
//! a spawned future is parked until the driver ends it. No runtime runs.
pub use real::{net, sync};
pub use task::spawn;

pub mod time {
    use std::cell::RefCell;
    use std::time::Duration;

    thread_local! {
        static SLEPT: RefCell<Vec<Duration>> = const { RefCell::new(Vec::new()) };
    }

    /// Notes the wait and is over: the driver decides before the call whether a wait is over.
    pub async fn sleep(duration: Duration) {
        SLEPT.with(|slept| slept.borrow_mut().push(duration));
    }

    /// The sleeps noted since the last call of this function.
    pub fn take_slept() -> Vec<Duration> {
        SLEPT.with(|slept| std::mem::take(&mut *slept.borrow_mut()))
    }
}

pub mod task {
    use std::cell::RefCell;
    use std::future::Future;
    use std::marker::PhantomData;
    use std::pin::Pin;

    /// A spawned future, not yet polled.
    pub type Parked = Pin<Box<dyn Future<Output = ()> + Send>>;

    thread_local! {
        static PARKED: RefCell<Vec<Parked>> = const { RefCell::new(Vec::new()) };
    }

    /// What `spawn` returns; nothing can be awaited through it.
    pub struct JoinHandle<T>(PhantomData<T>);

    /// Parks the future.
    pub fn spawn<F>(future: F) -> JoinHandle<F::Output>
    where
        F: Future + Send + 'static,
        F::Output: Send + 'static,
    {
        let parked = Box::pin(async move {
            future.await;
        });
        PARKED.with(|row| row.borrow_mut().push(parked));
        JoinHandle(PhantomData)
    }

    /// The futures parked since the last call of this function.
    pub fn take_parked() -> Vec<Parked> {
        PARKED.with(|row| std::mem::take(&mut *row.borrow_mut()))
    }
}
