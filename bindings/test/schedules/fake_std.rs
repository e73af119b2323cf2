//! The part of std that the crate uses, over the mutexes and condition variables of the explored world (explore.h).
#![no_std]

extern "C" {
    fn x_lock(lock: *mut u8);
    fn x_unlock(lock: *mut u8);
    fn x_condition_wait(condition: *mut u8, lock: *mut u8);
    fn x_condition_signal(condition: *mut u8);
}

pub mod thread {
    /// Not asked: the explored port has its own.
    pub fn panicking() -> bool {
        false
    }
}

pub mod sync {
    use core::cell::UnsafeCell;
    use core::marker::PhantomData;

    #[derive(Debug)]
    pub struct PoisonError<X>(X);

    pub type LockResult<X> = Result<X, PoisonError<X>>;

    impl<X> PoisonError<X> {
        pub fn new(returned: X) -> Self {
            PoisonError(returned)
        }

        pub fn into_inner(self) -> X {
            self.0
        }
    }

    #[derive(Debug, Default)]
    pub struct Mutex<T>(UnsafeCell<u8>, PhantomData<T>);
    unsafe impl<T> Sync for Mutex<T> {}

    pub struct MutexGuard<'a, T>(&'a Mutex<T>);

    impl<T> Mutex<T> {
        pub fn lock(&self) -> LockResult<MutexGuard<'_, T>> {
            unsafe { super::x_lock(self.0.get()) };
            Ok(MutexGuard(self))
        }
    }

    impl<T> Drop for MutexGuard<'_, T> {
        fn drop(&mut self) {
            unsafe { super::x_unlock(self.0 .0.get()) };
        }
    }

    #[derive(Debug, Default)]
    pub struct Condvar(UnsafeCell<u8>);
    unsafe impl Sync for Condvar {}

    impl Condvar {
        pub fn wait<'a, T>(&self, guard: MutexGuard<'a, T>) -> LockResult<MutexGuard<'a, T>> {
            unsafe { super::x_condition_wait(self.0.get(), guard.0 .0.get()) };
            Ok(guard)
        }

        pub fn notify_one(&self) {
            unsafe { super::x_condition_signal(self.0.get()) };
        }
    }
}
