//! Makes one call a known number of times, to be counted by callgrind:
//! `count IMPLEMENTATION CALL TIMES`. Only what runs inside `measured_call`
//! counts; everything else is put back outside of it. With the feature
//! `bytes` it prints the calls and bytes of memcpy, memmove and memset inside.
//! A call that serves is named as in the section on serving. `count beginnings` prints the calls that are beginnings on different maps.

use bench::beginning::{Again, Beginning};
use bench::column::text_of;
use bench::rows::Port;
use bench::second::Second;
#[cfg(feature = "library")]
use bench::serving::Served;
use bench::store::{Map, Store};

/// The call, looked up by its name before the counting.
#[derive(Clone, Copy, PartialEq)]
enum Call {
    Nothing,
    Step,
    Begin,
    Open,
    Read,
    ReadInSteps,
    Serve,
}

impl Call {
    fn named(name: &str) -> Call {
        match name {
            "nothing" => Call::Nothing,
            "fill" | "fill, a word copied" | "fill, a word at the text's edge" | "commit" => Call::Step,
            "copy a word of a read" | "answer a read" => Call::Step,
            "begin" => Call::Begin,
            "open" => Call::Open,
            "read" => Call::Read,
            "read in steps" => Call::ReadInSteps,
            _ if name.starts_with("serve ") => Call::Serve,
            _ => panic!("no such call"),
        }
    }
}

/// The calls that can be counted.
trait Calls {
    /// Before each call; not counted.
    fn prepare(&mut self);
    fn call(&mut self, call: Call);
}

/// What a store is put back to before each call.
enum Back<S> {
    Nothing,
    All(S),
    Map(Map),
}

/// A store, and the write that is begun in it.
struct Kept<S> {
    store: S,
    back: Back<S>,
    point: usize,
    offset: usize,
    text: Vec<u8>,
    buffer: Vec<u8>,
}

impl<S: Store> Kept<S> {
    fn new(call: &str) -> Kept<S> {
        let make = || match call {
            "fill" => S::begun(),
            "fill, a word copied" => S::over(504),
            "fill, a word at the text's edge" => S::over(4),
            "commit" => {
                let mut store = S::begun();
                store.fill_block(1);
                store
            }
            "copy a word of a read" => S::reading(1),
            "answer a read" => S::reading(128),
            "read" | "read in steps" => {
                let mut store = S::with_entries(0, 64);
                store.turns(0, 1, &text_of(1_024));
                store
            }
            "open" => S::with_entries(1_000, 64),
            _ => S::with_entries(0, 64),
        };
        let back = if [Call::Step, Call::Begin].contains(&Call::named(call)) { Back::All(make()) } else { Back::Nothing };
        Kept { store: make(), back, point: 0, offset: 0, text: text_of(512), buffer: vec![0; 1_024] }
    }

    fn beginning(beginning: &Beginning) -> Kept<S> {
        let Again { store, point, map, offset, text } = Again::of(beginning);
        Kept { store, back: Back::Map(map), point, offset, text, buffer: Vec::new() }
    }
}

impl<S: Store> Calls for Kept<S> {
    fn prepare(&mut self) {
        match &self.back {
            Back::Nothing => {}
            Back::All(kept) => self.store.restore(kept),
            Back::Map(map) => self.store.put_back(self.point, map),
        }
    }

    fn call(&mut self, call: Call) {
        match call {
            Call::Nothing => {}
            Call::Step => self.store.step(0),
            Call::Begin => self.store.begin(self.point, self.offset, &self.text),
            Call::Open => assert_eq!(self.store.open(), 1_000),
            Call::Read => assert_eq!(self.store.read(0, 0, &mut self.buffer), 1_024),
            Call::ReadInSteps => self.store.read_in_steps(0, 0, &mut self.buffer),
            Call::Serve => panic!("a call of lists"),
        }
    }
}

/// Points that are served, and what they are put back to.
#[cfg(feature = "library")]
struct Lists {
    served: Served,
    kept: Served,
}

#[cfg(feature = "library")]
impl Lists {
    fn named(name: &str) -> Lists {
        let (points, size) = bench::serving::named(name).expect("points and bytes of a row");
        Lists { served: Served::once(points, size), kept: Served::once(points, size) }
    }
}

#[cfg(feature = "library")]
impl Calls for Lists {
    fn prepare(&mut self) {
        self.served.restore(&self.kept);
    }

    fn call(&mut self, _call: Call) {
        self.served.serve();
    }
}

/// The plain Rust port, which has the one call.
struct ByValue(Port);
struct ByReference(Port);

impl Calls for ByValue {
    fn prepare(&mut self) {
        self.0.rewind();
    }

    fn call(&mut self, call: Call) {
        if call == Call::Step {
            self.0.step_by_value();
        }
    }
}

impl Calls for ByReference {
    fn prepare(&mut self) {
        self.0.rewind();
    }

    fn call(&mut self, call: Call) {
        if call == Call::Step {
            self.0.step_by_reference();
        }
    }
}

/// A store's calls.
fn calls_of<S: Store + 'static>(beginning: Option<&Beginning>, call: &str) -> Box<dyn Calls> {
    Box::new(beginning.map_or_else(|| Kept::<S>::new(call), Kept::beginning))
}

/// What callgrind counts; `nothing` is the driver's own part.
#[inline(never)]
fn measured_call(calls: &mut dyn Calls, call: Call) {
    calls.call(call);
}

#[cfg(feature = "bytes")]
mod bytes {
    use std::ffi::{c_int, c_void};
    use std::sync::atomic::{AtomicU64, Ordering::Relaxed};

    pub static CALLS: AtomicU64 = AtomicU64::new(0);
    pub static BYTES: AtomicU64 = AtomicU64::new(0);

    extern "C" {
        fn __real_memcpy(to: *mut c_void, from: *const c_void, size: usize) -> *mut c_void;
        fn __real_memmove(to: *mut c_void, from: *const c_void, size: usize) -> *mut c_void;
        fn __real_memset(to: *mut c_void, byte: c_int, size: usize) -> *mut c_void;
    }

    fn note(size: usize) {
        CALLS.fetch_add(1, Relaxed);
        BYTES.fetch_add(size as u64, Relaxed);
    }

    #[no_mangle]
    unsafe extern "C" fn __wrap_memcpy(to: *mut c_void, from: *const c_void, size: usize) -> *mut c_void {
        note(size);
        __real_memcpy(to, from, size)
    }

    #[no_mangle]
    unsafe extern "C" fn __wrap_memmove(to: *mut c_void, from: *const c_void, size: usize) -> *mut c_void {
        note(size);
        __real_memmove(to, from, size)
    }

    #[no_mangle]
    unsafe extern "C" fn __wrap_memset(to: *mut c_void, byte: c_int, size: usize) -> *mut c_void {
        note(size);
        __real_memset(to, byte, size)
    }

    pub fn so_far() -> (u64, u64) {
        (CALLS.load(Relaxed), BYTES.load(Relaxed))
    }
}

#[cfg(not(feature = "bytes"))]
mod bytes {
    pub fn so_far() -> (u64, u64) {
        (0, 0)
    }
}

fn main() {
    let arguments: Vec<String> = std::env::args().skip(1).collect();
    if arguments == ["beginnings"] {
        Beginning::all().iter().for_each(|beginning| println!("{}", beginning.label));
        return;
    }
    let [implementation, call, times] = &arguments[..] else { panic!("count IMPLEMENTATION CALL TIMES") };
    let times: u64 = times.parse().expect("a number");
    let beginning = Beginning::named(call);
    let call = if beginning.is_some() { "begin" } else { call };
    let mut calls: Box<dyn Calls> = match implementation.as_str() {
        #[cfg(feature = "library")]
        "library" if Call::named(call) == Call::Serve => Box::new(Lists::named(call)),
        #[cfg(feature = "library")]
        "library" => calls_of::<bench::library::Library>(beginning.as_ref(), call),
        "second" => calls_of::<Second>(beginning.as_ref(), call),
        "value" => Box::new(ByValue(Port::new())),
        "reference" => Box::new(ByReference(Port::new())),
        _ => panic!("no such implementation"),
    };
    let call = Call::named(call);
    let (mut copies, mut bytes) = (0, 0);
    for _ in 0..times {
        calls.prepare();
        let before = bytes::so_far();
        measured_call(calls.as_mut(), call);
        let after = bytes::so_far();
        copies += after.0 - before.0;
        bytes += after.1 - before.1;
    }
    println!("{} {}", copies / times.max(1), bytes / times.max(1));
}
