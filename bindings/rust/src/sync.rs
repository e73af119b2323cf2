//! The words and the condition variables by which threads sleep, and the word of a group's free places. A build with
//! std and `--cfg zaulinte_races` is for tests: a thread may yield before and after each access, at drawn moments, so
//! that threads meet in orders that are rare otherwise.

#[cfg(not(all(feature = "std", zaulinte_races)))]
pub(crate) use core::sync::atomic::{AtomicU32, AtomicU64};
#[cfg(all(feature = "std", not(zaulinte_races)))]
pub(crate) use std::sync::Condvar;

#[cfg(all(feature = "std", zaulinte_races))]
pub(crate) use drawn::{AtomicU32, AtomicU64, Condvar};

#[cfg(all(feature = "std", zaulinte_races))]
mod drawn {
    use core::cell::Cell;
    use core::ops::Deref;
    use core::sync::atomic::{self, Ordering, Ordering::Relaxed};
    use std::sync::{self, LockResult, MutexGuard};
    use std::thread::yield_now;

    static THREADS: atomic::AtomicU32 = atomic::AtomicU32::new(0);
    std::thread_local!(static SEED: Cell<u32> = Cell::new(THREADS.fetch_add(1, Relaxed)));

    // One time in eight it yields, up to three times.
    fn may_yield() {
        let seed = SEED.get().wrapping_mul(1_664_525).wrapping_add(1_013_904_223);
        SEED.set(seed);
        if (seed >> 24) % 8 == 0 {
            (0..(seed >> 16) % 4).for_each(|_| yield_now());
        }
    }

    fn may_yield_around<X>(access: impl FnOnce() -> X) -> X {
        may_yield();
        let result = access();
        may_yield();
        result
    }

    macro_rules! drawn {
        ($name:ident of $number:ty: $($act:ident),*) => {
            pub(crate) struct $name(atomic::$name);

            impl $name {
                pub(crate) fn new(value: $number) -> Self {
                    $name(atomic::$name::new(value))
                }

                pub(crate) fn load(&self, order: Ordering) -> $number {
                    may_yield_around(|| self.0.load(order))
                }

                pub(crate) fn compare_exchange(
                    &self,
                    is: $number,
                    to: $number,
                    yes: Ordering,
                    no: Ordering,
                ) -> Result<$number, $number> {
                    may_yield_around(|| self.0.compare_exchange(is, to, yes, no))
                }
                $(
                    pub(crate) fn $act(&self, operand: $number, order: Ordering) -> $number {
                        may_yield_around(|| self.0.$act(operand, order))
                    }
                )*
            }
        };
    }
    drawn!(AtomicU32 of u32: fetch_add, fetch_sub, swap);
    drawn!(AtomicU64 of u64: fetch_add);

    // for a port
    impl Deref for AtomicU32 {
        type Target = atomic::AtomicU32;
        fn deref(&self) -> &atomic::AtomicU32 {
            &self.0
        }
    }

    #[derive(Debug, Default)]
    pub(crate) struct Condvar(sync::Condvar);

    impl Condvar {
        pub(crate) fn wait<'a, X>(&self, lock: MutexGuard<'a, X>) -> LockResult<MutexGuard<'a, X>> {
            may_yield();
            self.0.wait(lock)
        }

        pub(crate) fn notify_one(&self) {
            may_yield_around(|| self.0.notify_one());
        }
    }
}
