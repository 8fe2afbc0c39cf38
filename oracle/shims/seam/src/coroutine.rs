//! A stackful coroutine: Rust text that suspends in the midst of a plain function.

use core::arch::global_asm;
use core::mem::{align_of, size_of};
use std::panic::{catch_unwind, AssertUnwindSafe};

use super::{seam, Ask, Finish, Mapping};

#[cfg(not(all(target_arch = "x86_64", unix)))]
compile_error!("the coroutine's switch is written for x86-64 and the System V ABI");

// seam_switch(save, to): keep the callee-saved registers on this stack and its top in *save, go on at `to`.
// seam_entry: the first return of a new stack; r12 the coroutine, r13 the closure, rbx what calls it, r14 `run`.
global_asm!(
    ".text",
    ".globl seam_switch",
    ".globl seam_entry",
    ".p2align 4",
    "seam_switch:",
    "push rbp",
    "push rbx",
    "push r12",
    "push r13",
    "push r14",
    "push r15",
    "mov [rdi], rsp",
    "mov rsp, rsi",
    "pop r15",
    "pop r14",
    "pop r13",
    "pop r12",
    "pop rbx",
    "pop rbp",
    "ret",
    ".p2align 4",
    "seam_entry:",
    "mov rdi, r12",
    "mov rsi, r13",
    "mov rdx, rbx",
    "call r14",
    "ud2",
);

extern "C" {
    fn seam_switch(save: *mut *mut u8, to: *mut u8);
    fn seam_entry();
}

const STACK: usize = 64 * 1024;

/// What a coroutine came back with.
#[derive(Clone, PartialEq, Eq, Debug)]
pub enum Out {
    Asked(Ask),
    Ended(Finish),
    Panicked,
}

/// At a fixed address (boxed) while started. Dropping or starting it anew abandons what was under way: its
/// frames are forgotten, not unwound.
pub struct Coroutine {
    stack: Mapping,
    own: *mut u8,
    caller: *mut u8,
    value: u32,
    out: Out,
    begin: bool,
    live: bool,
}

impl Coroutine {
    #[allow(clippy::new_without_default)]
    pub fn new() -> Box<Self> {
        Box::new(Self {
            stack: Mapping::new(STACK),
            own: core::ptr::null_mut(),
            caller: core::ptr::null_mut(),
            value: 0,
            out: Out::Panicked,
            begin: false,
            live: false,
        })
    }

    /// Something is suspended here.
    pub fn live(&self) -> bool {
        self.live
    }

    pub fn abandon(&mut self) {
        self.live = false;
    }

    /// Run `text` up to its first suspension or its end. `begin`: the first registration of a waker suspends.
    pub fn start<F: FnOnce() -> Finish>(&mut self, begin: bool, text: F) -> Out {
        // the closure at the top of the stack
        let at = (self.stack.end() as usize - size_of::<F>()) & !(align_of::<F>().max(16) - 1);
        assert!(at > self.stack.ptr() as usize + STACK / 2);
        // SAFETY: inside the stack, which nothing uses: what was under way is abandoned
        unsafe { (at as *mut F).write(text) };
        self.start_at(begin, at, call::<F>)
    }

    fn start_at(&mut self, begin: bool, at: usize, call: unsafe fn(*mut u8) -> Finish) -> Out {
        let words = [
            0,                              // r15
            run as *const () as u64,        // r14
            at as u64,                      // r13
            self as *mut Self as u64,       // r12
            call as *const () as u64,       // rbx
            0,                              // rbp
            seam_entry as *const () as u64, // return address
            0,
        ];
        // SAFETY: below the closure; after the return into seam_entry the top is at - 16, aligned as its call needs it
        unsafe {
            let frame = (at as *mut u64).sub(9);
            core::ptr::copy_nonoverlapping(words.as_ptr(), frame, words.len());
            self.own = frame as *mut u8;
        }
        self.live = true;
        self.begin = begin;
        self.resume(0)
    }

    /// Bring `value` and run on.
    pub fn resume(&mut self, value: u32) -> Out {
        assert!(self.live);
        self.value = value;
        let this: *mut Self = self;
        let s = seam();
        let (current, begin) = (s.current, s.begin);
        s.current = this;
        s.begin = self.begin;
        // SAFETY: `own` is this coroutine's stack as `start` or the last suspension left it
        unsafe {
            seam_switch(&raw mut (*this).caller, (*this).own);
            let s = seam();
            (*this).begin = s.begin;
            s.current = current;
            s.begin = begin;
            if !matches!((*this).out, Out::Asked(_)) {
                (*this).live = false;
            }
            (*this).out.clone()
        }
    }

    /// From inside: hand out `ask`; answers the value brought.
    ///
    /// # Safety
    /// `self` is the running coroutine.
    pub(crate) unsafe fn suspend(&mut self, ask: Ask) -> u32 {
        self.out = Out::Asked(ask);
        let this: *mut Self = self;
        seam_switch(&raw mut (*this).own, (*this).caller);
        core::ptr::read_volatile(&raw const (*this).value)
    }
}

unsafe fn call<F: FnOnce() -> Finish>(text: *mut u8) -> Finish {
    text.cast::<F>().read()()
}

/// `call` is a `call::<F>`, `text` its closure.
unsafe extern "C" fn run(this: *mut Coroutine, text: *mut u8, call: *const ()) -> ! {
    let call: unsafe fn(*mut u8) -> Finish = core::mem::transmute(call);
    let out = match catch_unwind(AssertUnwindSafe(|| call(text))) {
        Ok(finish) => Out::Ended(finish),
        Err(_) => Out::Panicked,
    };
    (*this).out = out;
    seam_switch(&raw mut (*this).own, (*this).caller);
    std::process::abort()
}
