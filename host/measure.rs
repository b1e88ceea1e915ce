//! What the benchmarks share: a clock that leaves waiting out, the median, and
//! a painted stack that tells how much of it a call takes. The test of the
//! relations call's stack has it too.

#![allow(dead_code)]

/// C's time, as Linux has it on machines of 64 bits.
#[repr(C)]
struct Timespec {
    seconds: i64,
    nanoseconds: i64,
}

extern "C" {
    fn clock_gettime(clock: i32, time: *mut Timespec) -> i32;
}

/// Linux's clock of the time that this thread has run.
const THREAD_TIME: i32 = 3;

/// Nanoseconds that this thread has run. Waiting for a processor is left out.
pub fn thread_time() -> u128 {
    let mut time = Timespec { seconds: 0, nanoseconds: 0 };
    let status = unsafe { clock_gettime(THREAD_TIME, &mut time) };
    assert_eq!(status, 0, "no clock of the thread's time");
    time.seconds as u128 * 1_000_000_000 + time.nanoseconds as u128
}

pub fn median(mut figures: Vec<f64>) -> f64 {
    figures.sort_by(|a, b| a.partial_cmp(b).unwrap());
    figures[figures.len() / 2]
}

/// Whether what we aim at is kept, in a word.
pub fn kept(kept: bool) -> &'static str {
    if kept {
        "kept"
    } else {
        "MISSED"
    }
}

const PAINT: u64 = 0xa5c3_96e1_78d2_b4f0;
const WORDS: usize = 262_144;

/// How many bytes of stack a call takes, whose arguments go in registers.
pub fn stack_used(function: usize, words: [usize; 6]) -> usize {
    let [a, b, c, d, e, f] = words;
    stack_and_answer(function, [a, b, c, d, e, f, 0]).0
}

/// How many bytes of stack a call takes, and what it returns. It runs on a
/// painted stack of its own, and takes what it has written to and all above.
/// The return address is counted; the seventh argument, which goes on the
/// stack, is the caller's and is not.
#[cfg(target_arch = "x86_64")]
pub fn stack_and_answer(function: usize, words: [usize; 7]) -> (usize, u64) {
    let mut painted = vec![PAINT; WORDS];
    let top = painted.as_mut_ptr_range().end as usize & !15;
    let answer = unsafe { call_on(top, function, words) };
    let untouched = painted.iter().take_while(|word| **word == PAINT).count();
    (top - SEVENTH - (painted.as_ptr() as usize + 8 * untouched), answer)
}

/// The library is x86-64 code, and so is whatever is linked to it.
#[cfg(not(target_arch = "x86_64"))]
pub fn stack_and_answer(_function: usize, _words: [usize; 7]) -> (usize, u64) {
    panic!("stack is measured on x86-64 only");
}

/// What the seventh argument takes on the stack: 16 divides its address.
const SEVENTH: usize = 16;

#[cfg(target_arch = "x86_64")]
unsafe fn call_on(top: usize, function: usize, words: [usize; 7]) -> u64 {
    let answer: u64;
    std::arch::asm!(
        "mov r12, rsp",
        "mov rsp, r13",
        "sub rsp, 8",
        "push r14",
        "call r15",
        "mov rsp, r12",
        in("rdi") words[0],
        in("rsi") words[1],
        in("rdx") words[2],
        in("rcx") words[3],
        in("r8") words[4],
        in("r9") words[5],
        out("r12") _,
        in("r13") top,
        in("r14") words[6],
        in("r15") function,
        out("rax") answer,
        clobber_abi("C"),
    );
    answer
}
