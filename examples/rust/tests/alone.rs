//! The child of a fork, in which a thread gives back what a call waits for, and ends before the call tries again.
use facing::{Fault, Pool};
use std::sync::atomic::{AtomicBool, Ordering};
use std::sync::Mutex;
use std::thread::JoinHandle;

extern "C" {
    fn fork() -> i32;
    fn waitpid(child: i32, status: *mut i32, options: i32) -> i32;
    fn alarm(seconds: u32) -> u32;
    fn _exit(status: i32) -> !;
}

/// A thread that ends once it is let go, when another one yields for the first time.
static ENDING: Mutex<Option<JoinHandle<()>>> = Mutex::new(None);
static IS_TAKEN: AtomicBool = AtomicBool::new(false);
static IS_LET_GO: AtomicBool = AtomicBool::new(false);

fn threads() -> usize {
    std::fs::read_dir("/proc/self/task").map_or(0, Iterator::count)
}

/// Stands in the place of the system's function, which `std::thread::yield_now` calls.
#[no_mangle]
pub extern "C" fn sched_yield() -> i32 {
    let ending = ENDING.try_lock().ok().and_then(|mut it| it.take());
    if let Some(thread) = ending {
        IS_LET_GO.store(true, Ordering::SeqCst);
        let _ = thread.join();
        while threads() != 1 {
            std::hint::spin_loop();
        }
    }
    0
}

fn add_after_a_thread(pool: &'static Pool) -> Result<u64, Fault> {
    let thread = std::thread::spawn(|| {
        let held: Result<(), Fault> = pool.with(|_| {
            IS_TAKEN.store(true, Ordering::SeqCst);
            while !IS_LET_GO.load(Ordering::SeqCst) {
                std::hint::spin_loop();
            }
            Ok(())
        });
        assert_eq!(held, Ok(()));
    });
    while !IS_TAKEN.load(Ordering::SeqCst) {
        std::hint::spin_loop();
    }
    *ENDING.lock().expect("no thread panicked") = Some(thread);
    pool.with(|client| client.add(1, 7))
}

#[test]
fn a_client_that_is_given_back_is_taken() -> Result<(), Fault> {
    let pool: &'static Pool = Box::leak(Box::new(Pool::open(16, 1)?));
    let mut status = -1;
    unsafe {
        let child = fork();
        if child == 0 {
            alarm(60);
            _exit(i32::from(add_after_a_thread(pool) != Ok(7)));
        }
        assert!(child > 0 && waitpid(child, &raw mut status, 0) == child);
    }
    assert_eq!(status, 0);
    Ok(())
}
