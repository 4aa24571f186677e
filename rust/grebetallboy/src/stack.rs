//! The stack that a call runs on: its caller's where enough of it is left, else that of a thread made for the call.

/// Kept free beside what a call takes: for this crate's own functions, for a signal's handler, and for making a thread.
const SPARE: usize = 16 << 10;

/// Makes a call with so many bytes of stack; none where the system gives no thread with them.
pub fn with<T: Send>(bytes: usize, call: impl FnOnce() -> T + Send) -> Option<T> {
    let bytes = bytes.saturating_add(SPARE);
    if left().is_some_and(|left| bytes <= left) {
        return Some(call());
    }
    let stack = bytes.saturating_add(SPARE);
    match in_thread(stack, bytes, call)? {
        Ok(answer) => Some(answer),
        Err((missing, call)) => in_thread(stack.saturating_add(missing).saturating_add(SPARE), bytes, call)?.ok(),
    }
}

/// Makes a call in a new thread where that has so many bytes left; else tells how many it lacks, and gives the call back. A thread's stack
/// also holds the program's thread-local data, of which nothing here knows the size.
fn in_thread<T: Send, C: FnOnce() -> T + Send>(stack: usize, bytes: usize, call: C) -> Option<Result<T, (usize, C)>> {
    let run = || match left() {
        Some(left) if left < bytes => Err((bytes - left, call)),
        _ => Ok(call()),
    };
    std::thread::scope(|scope| {
        let thread = std::thread::Builder::new().stack_size(stack).spawn_scoped(scope, run).ok()?;
        Some(thread.join().expect("a call unwinds nowhere"))
    })
}

/// The bytes of stack that this thread has left, where they are known.
fn left() -> Option<usize> {
    thread_local!(static ENDS: Option<(usize, usize)> = ends());
    let local = 0u8;
    let here = std::hint::black_box(&raw const local).addr();
    ENDS.with(|ends| ends.filter(|(low, high)| (low..high).contains(&&here)).map(|(low, _)| here - low))
}

/// Where this thread's stack begins and ends.
#[cfg(target_os = "linux")]
fn ends() -> Option<(usize, usize)> {
    use std::ffi::{c_int, c_ulong, c_void};

    /// Room for a `pthread_attr_t`, which has at most 64 bytes.
    #[repr(C, align(16))]
    struct Attributes([u8; 128]);

    extern "C" {
        fn pthread_self() -> c_ulong;
        fn pthread_getattr_np(thread: c_ulong, attributes: *mut Attributes) -> c_int;
        fn pthread_attr_getstack(attributes: *const Attributes, low: *mut *mut c_void, bytes: *mut usize) -> c_int;
        fn pthread_attr_destroy(attributes: *mut Attributes) -> c_int;
    }

    let mut attributes = Attributes([0; 128]);
    let (mut low, mut bytes) = (std::ptr::null_mut(), 0);
    // SAFETY: the thread is this one; the attributes are initialised where the first call answers 0, and destroyed once.
    let told = unsafe {
        if pthread_getattr_np(pthread_self(), &mut attributes) != 0 {
            return None;
        }
        let told = pthread_attr_getstack(&attributes, &mut low, &mut bytes);
        pthread_attr_destroy(&mut attributes);
        told
    };
    (told == 0).then(|| (low as usize, low as usize + bytes))
}

#[cfg(not(target_os = "linux"))]
fn ends() -> Option<(usize, usize)> {
    None
}
