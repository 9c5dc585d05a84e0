// The Rattle loops beside the same loops in unchecked Rust, on the same inputs, in turn. Prints ratios of medians: Rattle's
// time over Rust's, once with raw pointers (as the Rattle code is compiled: nothing says that two slices are apart) and once
// with slices and get_unchecked (where the compiler knows it). bench/loops builds this several times and sums up.
use std::hint::black_box;
use std::time::Instant;

type Axes = [u64; 8];
type Strides = [i64; 8];

// Space before the loops, other in each build, so that they come to lie elsewhere. R: the linker keeps it though nothing
// refers to it.
std::arch::global_asm!(concat!(
    ".pushsection .text.pad, \"axR\", @progbits\n.balign 64\n.skip ",
    env!("LOOPS_PAD", "bench/loops sets LOOPS_PAD to a number of bytes"),
    "\n.popsection"
));

// The archive of runs_c, which bench/loops links after space of its own.
extern "C" {
    fn bench_run_i32(
        add: bool,
        src: *const i32,
        sn: usize,
        dst: *mut i32,
        dn: usize,
        n: u64,
        s: i64,
        d: i64,
        ss: i64,
        ds: i64,
        times: u64,
    ) -> bool;
    fn bench_run_f64(
        add: bool,
        src: *const f64,
        sn: usize,
        dst: *mut f64,
        dn: usize,
        n: u64,
        s: i64,
        d: i64,
        ss: i64,
        ds: i64,
        times: u64,
    ) -> bool;
    fn bench_window_i32(
        add: bool,
        src: *const i32,
        sn: usize,
        dst: *mut i32,
        dn: usize,
        extents: &Axes,
        ss: &Strides,
        ds: &Strides,
        rank: usize,
        s: i64,
        d: i64,
        times: u64,
    ) -> bool;
    fn bench_window_f64(
        add: bool,
        src: *const f64,
        sn: usize,
        dst: *mut f64,
        dn: usize,
        extents: &Axes,
        ss: &Strides,
        ds: &Strides,
        rank: usize,
        s: i64,
        d: i64,
        times: u64,
    ) -> bool;
}

// What is measured: a window of `rank` axes, or a run along one axis (`run`), made `times` times.
struct Job<'a> {
    run: bool,
    extents: &'a Axes,
    ss: &'a Strides,
    ds: &'a Strides,
    rank: usize,
    s: i64,
    d: i64,
    times: u64,
}

trait Element: Copy + PartialEq + 'static {
    const NAME: &'static str;
    fn of(n: usize) -> Self;
    fn plus(self, other: Self) -> Self;
    unsafe fn rattle(add: bool, src: &[Self], dst: &mut [Self], j: &Job) -> bool;
}

impl Element for i32 {
    const NAME: &'static str = "i32";
    fn of(n: usize) -> i32 {
        n as i32
    }
    #[inline(always)]
    fn plus(self, other: i32) -> i32 {
        self.wrapping_add(other)
    }
    unsafe fn rattle(add: bool, src: &[i32], dst: &mut [i32], j: &Job) -> bool {
        let (sp, sn, dp, dn) = (src.as_ptr(), src.len(), dst.as_mut_ptr(), dst.len());
        if j.run {
            bench_run_i32(
                add,
                sp,
                sn,
                dp,
                dn,
                j.extents[0],
                j.s,
                j.d,
                j.ss[0],
                j.ds[0],
                j.times,
            )
        } else {
            bench_window_i32(
                add, sp, sn, dp, dn, j.extents, j.ss, j.ds, j.rank, j.s, j.d, j.times,
            )
        }
    }
}

impl Element for f64 {
    const NAME: &'static str = "f64";
    fn of(n: usize) -> f64 {
        n as f64
    }
    #[inline(always)]
    fn plus(self, other: f64) -> f64 {
        self + other
    }
    unsafe fn rattle(add: bool, src: &[f64], dst: &mut [f64], j: &Job) -> bool {
        let (sp, sn, dp, dn) = (src.as_ptr(), src.len(), dst.as_mut_ptr(), dst.len());
        if j.run {
            bench_run_f64(
                add,
                sp,
                sn,
                dp,
                dn,
                j.extents[0],
                j.s,
                j.d,
                j.ss[0],
                j.ds[0],
                j.times,
            )
        } else {
            bench_window_f64(
                add, sp, sn, dp, dn, j.extents, j.ss, j.ds, j.rank, j.s, j.d, j.times,
            )
        }
    }
}

// ---- the same loops, raw pointers

#[inline(always)]
unsafe fn run_raw<T: Element, const ADD: bool>(
    src: *const T,
    dst: *mut T,
    n: u64,
    s: i64,
    d: i64,
    ss: i64,
    ds: i64,
) {
    if ss == 1 && ds == 1 {
        let (from, to) = (src.offset(s as isize), dst.offset(d as isize));
        for i in 0..n as usize {
            let u = *from.add(i);
            *to.add(i) = if ADD { (*to.add(i)).plus(u) } else { u };
        }
    } else {
        for i in 0..n as i64 {
            let u = *src.offset((s + ss * i) as isize);
            let to = dst.offset((d + ds * i) as isize);
            *to = if ADD { (*to).plus(u) } else { u };
        }
    }
}

#[allow(clippy::too_many_arguments)]
#[inline(never)]
unsafe fn cells_raw<T: Element, const ADD: bool>(
    src: *const T,
    dst: *mut T,
    e: &Axes,
    ss: &Strides,
    ds: &Strides,
    rank: usize,
    s: i64,
    d: i64,
) {
    match rank {
        1 => run_raw::<T, ADD>(src, dst, e[0], s, d, ss[0], ds[0]),
        2 => {
            for j in 0..e[1] as i64 {
                run_raw::<T, ADD>(src, dst, e[0], s + ss[1] * j, d + ds[1] * j, ss[0], ds[0]);
            }
        }
        _ => {
            for k in 0..e[2] as i64 {
                for j in 0..e[1] as i64 {
                    run_raw::<T, ADD>(
                        src,
                        dst,
                        e[0],
                        s + ss[2] * k + ss[1] * j,
                        d + ds[2] * k + ds[1] * j,
                        ss[0],
                        ds[0],
                    );
                }
            }
        }
    }
}

// ---- the same loops, slices

#[inline(always)]
unsafe fn run_slices<T: Element, const ADD: bool>(
    src: &[T],
    dst: &mut [T],
    n: u64,
    s: i64,
    d: i64,
    ss: i64,
    ds: i64,
) {
    if ss == 1 && ds == 1 {
        for i in 0..n as usize {
            let u = *src.get_unchecked(s as usize + i);
            let to = dst.get_unchecked_mut(d as usize + i);
            *to = if ADD { to.plus(u) } else { u };
        }
    } else {
        for i in 0..n as i64 {
            let u = *src.get_unchecked((s + ss * i) as usize);
            let to = dst.get_unchecked_mut((d + ds * i) as usize);
            *to = if ADD { to.plus(u) } else { u };
        }
    }
}

#[allow(clippy::too_many_arguments)]
#[inline(never)]
unsafe fn cells_slices<T: Element, const ADD: bool>(
    src: &[T],
    dst: &mut [T],
    e: &Axes,
    ss: &Strides,
    ds: &Strides,
    rank: usize,
    s: i64,
    d: i64,
) {
    match rank {
        1 => run_slices::<T, ADD>(src, dst, e[0], s, d, ss[0], ds[0]),
        2 => {
            for j in 0..e[1] as i64 {
                run_slices::<T, ADD>(src, dst, e[0], s + ss[1] * j, d + ds[1] * j, ss[0], ds[0]);
            }
        }
        _ => {
            for k in 0..e[2] as i64 {
                for j in 0..e[1] as i64 {
                    run_slices::<T, ADD>(
                        src,
                        dst,
                        e[0],
                        s + ss[2] * k + ss[1] * j,
                        d + ds[2] * k + ds[1] * j,
                        ss[0],
                        ds[0],
                    );
                }
            }
        }
    }
}

fn median(times: &mut [f64]) -> f64 {
    times.sort_by(f64::total_cmp);
    times[times.len() / 2]
}

// Makes a job: 0 by Rattle, 1 by raw pointers, 2 by slices.
fn make<T: Element, const ADD: bool>(which: usize, src: &[T], dst: &mut [T], j: &Job) {
    let (e, ss, ds) = (j.extents, j.ss, j.ds);
    unsafe {
        match which {
            0 => assert!(T::rattle(ADD, black_box(src), dst, black_box(j)), "refused"),
            1 => {
                for _ in 0..j.times {
                    let from = black_box(src.as_ptr());
                    cells_raw::<T, ADD>(
                        from,
                        dst.as_mut_ptr(),
                        black_box(e),
                        ss,
                        ds,
                        j.rank,
                        j.s,
                        j.d,
                    );
                }
            }
            _ => {
                for _ in 0..j.times {
                    cells_slices::<T, ADD>(
                        black_box(src),
                        dst,
                        black_box(e),
                        ss,
                        ds,
                        j.rank,
                        j.s,
                        j.d,
                    );
                }
            }
        }
    }
}

fn measure<T: Element, const ADD: bool>(
    name: &str,
    run: bool,
    extents: &[u64],
    steps: [i64; 2],
    rounds: usize,
) {
    let rank = extents.len();
    let (mut e, mut ss, mut ds): (Axes, Strides, Strides) = ([1; 8], [0; 8], [0; 8]);
    // the source's rows stand apart, the destination's follow each other
    let (mut from, mut to) = (steps[0], steps[1]);
    for (i, n) in extents.iter().enumerate() {
        (e[i], ss[i], ds[i]) = (*n, from, to);
        from *= *n as i64 + 3;
        to *= *n as i64;
    }
    let cells: u64 = extents.iter().product();
    let job = Job {
        run,
        extents: &e,
        ss: &ss,
        ds: &ds,
        rank,
        s: 5,
        d: 9,
        times: (100_000 / cells).max(4),
    };
    let src: Vec<T> = (0..from as usize + 8).map(|i| T::of(i % 1000)).collect();
    let room = to as usize + 16;
    // each way once on a slice of its own: they leave the same
    let left: [Vec<T>; 3] = std::array::from_fn(|which| {
        let mut dst = vec![T::of(0); room];
        make::<T, ADD>(which, &src, &mut dst, &job);
        dst
    });
    assert!(
        left[0] == left[1] && left[0] == left[2],
        "{name}: the loops leave different slices"
    );
    // then in turn on one slice, so that where it lies in memory favours none
    let mut dst = vec![T::of(0); room];
    let mut times: [Vec<f64>; 3] = Default::default();
    for round in 0..rounds {
        for turn in 0..3 {
            let which = (round + turn) % 3;
            let start = Instant::now();
            make::<T, ADD>(which, &src, &mut dst, &job);
            times[which].push(start.elapsed().as_secs_f64());
        }
    }
    let [mut a, mut b, mut c] = times;
    let rattle = median(&mut a);
    println!(
        "{name}, {}/{}\t{} {}\t{:.4}\t{:.4}",
        steps[0],
        steps[1],
        T::NAME,
        if ADD { "add" } else { "copy" },
        rattle / median(&mut b),
        rattle / median(&mut c)
    );
}

fn each<T: Element>(name: &str, run: bool, extents: &[u64], steps: [i64; 2], rounds: usize) {
    measure::<T, false>(name, run, extents, steps, rounds);
    measure::<T, true>(name, run, extents, steps, rounds);
}

fn main() {
    let rounds = std::env::var("BENCH_ROUNDS")
        .ok()
        .and_then(|v| v.parse().ok())
        .filter(|n| *n > 0)
        .expect("BENCH_ROUNDS is no number above 0");
    for n in [64, 1024, 16384] {
        for steps in [[1, 1], [2, 3]] {
            each::<i32>(&format!("run {n}"), true, &[n], steps, rounds);
            each::<f64>(&format!("run {n}"), true, &[n], steps, rounds);
        }
    }
    for (name, extents) in [
        ("4×4", &[4, 4][..]),
        ("4×1024", &[4, 1024]),
        ("64×64", &[64, 64]),
        ("8×8×8", &[8, 8, 8]),
    ] {
        each::<i32>(name, false, extents, [1, 1], rounds);
        each::<f64>(name, false, extents, [1, 1], rounds);
    }
}
