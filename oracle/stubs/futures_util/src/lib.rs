//! Stand-in for `futures_util`: both futures, one after the other.

pub mod future {
    use std::future::Future;

    pub async fn join<A: Future, B: Future>(a: A, b: B) -> (A::Output, B::Output) {
        (a.await, b.await)
    }
}
