//! Calls that are made where there is no memory for a copy of the value that they return.
use facing::{BytesMap, Fault};
use std::alloc::{GlobalAlloc, Layout, System};
use std::sync::atomic::{AtomicUsize, Ordering};

/// The system's allocator, which refuses requests of this many bytes, if that is not 0.
struct Refusing(AtomicUsize);

unsafe impl GlobalAlloc for Refusing {
    unsafe fn alloc(&self, layout: Layout) -> *mut u8 {
        if layout.size() == self.0.load(Ordering::SeqCst) {
            return std::ptr::null_mut();
        }
        unsafe { System.alloc(layout) }
    }

    unsafe fn dealloc(&self, at: *mut u8, layout: Layout) {
        unsafe { System.dealloc(at, layout) }
    }
}

#[global_allocator]
static HEAP: Refusing = Refusing(AtomicUsize::new(0));

/// No other request of this test has so many bytes.
const LEN: usize = 12_347;

#[test]
fn a_call_that_was_made_returns_the_value_before() -> Result<(), Fault> {
    let mut map = BytesMap::open(16, 1)?;
    let mut client = map.client()?;
    let value = vec![7; LEN];
    client.put(b"a", &value)?;
    client.put(b"b", &value)?;
    HEAP.0.store(LEN, Ordering::SeqCst);
    let before = client.put(b"a", b"new");
    let gone = client.remove(b"b");
    HEAP.0.store(0, Ordering::SeqCst);
    assert_eq!(before?.as_deref(), Some(&value[..]));
    assert_eq!(gone?.as_deref(), Some(&value[..]));
    assert_eq!((client.get(b"a")?, client.get(b"b")?), (Some(b"new".to_vec()), None));
    Ok(())
}
