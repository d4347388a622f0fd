//! Stand-in for `tokio`: the one-shot channel, for one thread that polls.

pub mod sync {
    pub mod oneshot {
        use std::future::Future;
        use std::pin::Pin;
        use std::sync::{Arc, Mutex};
        use std::task::{Context, Poll, Waker};

        struct Shared<T> {
            value: Option<T>,
            sender_gone: bool,
            receiver_gone: bool,
            waker: Option<Waker>,
        }

        pub struct Sender<T>(Arc<Mutex<Shared<T>>>);
        pub struct Receiver<T>(Arc<Mutex<Shared<T>>>);

        /// The sender went away without a value.
        #[derive(Debug, PartialEq, Eq)]
        pub struct RecvError(());

        pub fn channel<T>() -> (Sender<T>, Receiver<T>) {
            let shared = Arc::new(Mutex::new(Shared {
                value: None,
                sender_gone: false,
                receiver_gone: false,
                waker: None,
            }));
            (Sender(Arc::clone(&shared)), Receiver(shared))
        }

        impl<T> Sender<T> {
            pub fn send(self, value: T) -> Result<(), T> {
                let mut shared = self.0.lock().unwrap();
                if shared.receiver_gone {
                    return Err(value);
                }
                shared.value = Some(value);
                Ok(())
            }
        }

        impl<T> Drop for Sender<T> {
            fn drop(&mut self) {
                let mut shared = self.0.lock().unwrap();
                shared.sender_gone = true;
                if let Some(waker) = shared.waker.take() {
                    waker.wake();
                }
            }
        }

        impl<T> Drop for Receiver<T> {
            fn drop(&mut self) {
                self.0.lock().unwrap().receiver_gone = true;
            }
        }

        impl<T> Future for Receiver<T> {
            type Output = Result<T, RecvError>;

            fn poll(self: Pin<&mut Self>, cx: &mut Context<'_>) -> Poll<Self::Output> {
                let mut shared = self.0.lock().unwrap();
                if let Some(value) = shared.value.take() {
                    return Poll::Ready(Ok(value));
                }
                if shared.sender_gone {
                    return Poll::Ready(Err(RecvError(())));
                }
                shared.waker = Some(cx.waker().clone());
                Poll::Pending
            }
        }
    }
}
