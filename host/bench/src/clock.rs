//! The thread's processor time, which does not run while other work has the core.
#[repr(C)]
struct Timespec(i64, i64);

unsafe extern "C" {
    fn clock_gettime(clock: i32, time: *mut Timespec) -> i32;
}
const THREAD_PROCESSOR_TIME: i32 = 3;

fn now() -> f64 {
    let mut t = Timespec(0, 0);
    assert_eq!(unsafe { clock_gettime(THREAD_PROCESSOR_TIME, &mut t) }, 0);
    t.0 as f64 * 1e9 + t.1 as f64
}

fn between(work: impl FnOnce()) -> f64 {
    let start = now();
    work();
    now() - start
}

/// ns of the work, less those of the clock itself.
pub fn time(work: impl FnOnce()) -> f64 {
    thread_local!(static OWN: f64 = (0..1000).map(|_| between(|| ())).fold(f64::MAX, f64::min));
    between(work) - OWN.with(|own| *own)
}

/// ns of a cycle, from a chain of multiplications, of which each takes three (Intel and AMD, published).
pub fn cycle() -> f64 {
    let chain = || {
        let mut x = 3u64;
        for _ in 0..10_000 {
            unsafe {
                core::arch::asm!("imul {0}, {0}", "imul {0}, {0}", "imul {0}, {0}", "imul {0}, {0}", inout(reg) x);
            }
        }
        core::hint::black_box(x);
    };
    time(chain) / (10_000.0 * 4.0 * 3.0)
}
