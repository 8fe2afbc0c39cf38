//! Interrupts fall where the oracle lets them: a critical section has nothing to keep out.

pub struct CriticalSection(());

pub fn with<R>(f: impl FnOnce(CriticalSection) -> R) -> R {
    f(CriticalSection(()))
}
