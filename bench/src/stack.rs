//! How much stack the C functions use, and that of judge by the length of the path that it re-matches.
//!
//! The method: a stretch of the stack below the caller is painted, the function is called, and the stretch is read from its far end
//! until something other than the paint is found. It is tested on functions of known use. What a function reserves and never writes
//! is not seen.

use crate::families::{fullest_input, Case, FAMILIES};
use crate::listers::{Assumptions, Bytes, Lister, Proved};
use crate::measure::{deep_checkpoint, BUDGET, START};
use crate::table::{count_text, print_table, row};
use norwythai::raw::{
    norwythai_check, norwythai_deficiency, norwythai_from_dimacs, norwythai_judge, norwythai_list,
    norwythai_page, norwythai_start, norwythai_to_dimacs, norwythai_walk, norwythai_weigh,
};
use norwythai::{to_dimacs, FORMULA_BUFFER, PAGE_SIZE, TEXT_BUFFER};
use norwythai_samples::{encode, longest_path};
use std::hint::black_box;
use std::mem::MaybeUninit;

/// The bytes that are painted.
const PAINTED: usize = 256 * 1024;

/// The byte that they are painted with.
const PAINT: u8 = 0xa5;

/// Models that are listed where the stack of list is measured.
const LISTED: usize = 200;

/// Where the stack stands: the bytes below are free.
#[cfg(target_arch = "x86_64")]
#[inline(always)]
fn stack_pointer() -> usize {
    let pointer: usize;
    // SAFETY: it only reads a register.
    unsafe { std::arch::asm!("mov {}, rsp", out(reg) pointer, options(nomem, nostack)) };
    pointer
}

/// About where the stack stands: within the caller's frame, whose bytes below then count, too.
#[cfg(not(target_arch = "x86_64"))]
#[inline(always)]
fn stack_pointer() -> usize {
    let here = 0_u8;
    black_box(&raw const here) as usize
}

/// Paints the stack below the caller, and gives the lowest address.
#[inline(never)]
fn paint() -> usize {
    let mut area = MaybeUninit::<[u8; PAINTED]>::uninit();
    let bottom: *mut u8 = black_box(area.as_mut_ptr()).cast();
    for at in 0..PAINTED {
        // SAFETY: the address is within `area`.
        unsafe { bottom.add(at).write_volatile(PAINT) };
    }
    bottom as usize
}

/// The lowest address from the bottom on that has lost its paint.
#[inline(never)]
fn lowest_written(bottom: usize) -> usize {
    let mut at = bottom;
    // SAFETY: the addresses belong to this thread's stack, and were painted. The search ends at the latest where this function's own
    // frame stands, which is within the painted stretch.
    while unsafe { (at as *const u8).read_volatile() } == PAINT {
        at += 1;
    }
    at
}

/// The bytes below the stack pointer that a call has written. The call gives the stack pointer at which it begins.
#[inline(never)]
fn stack_of(call: &mut dyn FnMut() -> usize) -> usize {
    let bottom = paint();
    let top = call();
    let written = lowest_written(bottom);
    assert!(written > bottom, "more stack is used than is painted");
    top.saturating_sub(written)
}

fn check_stack(input: &[u8]) -> usize {
    let mut results = [0; 6];
    stack_of(&mut || {
        let top = stack_pointer();
        // SAFETY: the pointers are good for the lengths, and the arrays do not overlap.
        let returned =
            unsafe { norwythai_check(input.as_ptr(), input.len(), 0, results.as_mut_ptr(), 6) };
        assert_eq!(returned, 0);
        top
    })
}

/// A function that reads an input or a text, and writes a buffer and the results.
type Writer = unsafe extern "C" fn(*const u8, usize, *mut u8, usize, *mut u64, usize) -> u32;

/// The stack of such a function, with a buffer of so many bytes.
fn writer_stack(function: Writer, input: &[u8], room: usize) -> usize {
    let mut results = [0; 6];
    let mut buffer = vec![0; room];
    stack_of(&mut || {
        let top = stack_pointer();
        // SAFETY: the pointers are good for the lengths, and the arrays do not overlap.
        let returned = unsafe {
            function(
                input.as_ptr(),
                input.len(),
                buffer.as_mut_ptr(),
                room,
                results.as_mut_ptr(),
                6,
            )
        };
        assert_eq!(returned, 0);
        top
    })
}

fn judge_stack(input: &[u8], assumptions: &[u8]) -> usize {
    let mut results = [0; 6];
    let mut buffer = [0; 96];
    stack_of(&mut || {
        let top = stack_pointer();
        // SAFETY: the pointers are good for the lengths, and the arrays do not overlap.
        let returned = unsafe {
            norwythai_judge(
                input.as_ptr(),
                input.len(),
                assumptions.as_ptr(),
                assumptions.len(),
                buffer.as_mut_ptr(),
                96,
                results.as_mut_ptr(),
                6,
            )
        };
        assert_eq!(returned, 0);
        top
    })
}

/// All clauses are marked.
fn weigh_stack(input: &[u8], assumptions: &[u8]) -> usize {
    let mut results = [0; 6];
    let buffer = [1; 96];
    stack_of(&mut || {
        let top = stack_pointer();
        // SAFETY: the pointers are good for the lengths, and the arrays do not overlap.
        let returned = unsafe {
            norwythai_weigh(
                input.as_ptr(),
                input.len(),
                assumptions.as_ptr(),
                assumptions.len(),
                buffer.as_ptr(),
                96,
                results.as_mut_ptr(),
                6,
            )
        };
        assert_eq!(returned, 0);
        top
    })
}

fn deficiency_stack(input: &[u8]) -> usize {
    let mut results = [0; 6];
    stack_of(&mut || {
        let top = stack_pointer();
        // SAFETY: the pointers are good for the lengths, and the arrays do not overlap.
        let returned =
            unsafe { norwythai_deficiency(input.as_ptr(), input.len(), results.as_mut_ptr(), 6) };
        assert_eq!(returned, 0);
        top
    })
}

/// The formula's own text is read.
fn from_dimacs_stack(input: &[u8]) -> usize {
    let text = to_dimacs(input).expect("a formula");
    writer_stack(norwythai_from_dimacs, text.as_bytes(), FORMULA_BUFFER)
}

fn to_dimacs_stack(input: &[u8]) -> usize {
    writer_stack(norwythai_to_dimacs, input, TEXT_BUFFER)
}

fn start_stack() -> usize {
    let mut checkpoint = [0; 50];
    stack_of(&mut || {
        let top = stack_pointer();
        // SAFETY: the pointer is good for the length.
        let returned = unsafe { norwythai_start(checkpoint.as_mut_ptr(), 50) };
        assert_eq!(returned, 0);
        top
    })
}

/// An accepted formula on which the stack is measured, with assumptions as the functions read them and a checkpoint deep in its walk.
struct Measured {
    input: Vec<u8>,
    assumptions: Vec<u8>,
    deep: Bytes,
}

impl Measured {
    fn of_case(case: &Case) -> Self {
        let assumptions = case.assumptions.proved.iter();
        Measured {
            input: case.input.clone(),
            assumptions: assumptions
                .flat_map(|assumption| [assumption.variable, assumption.value.into()])
                .collect(),
            deep: deep_checkpoint(case),
        }
    }

    fn without_assumptions(input: Vec<u8>) -> Self {
        Measured {
            input,
            assumptions: Vec::new(),
            deep: START,
        }
    }
}

fn walk_stack(measured: &Measured, from: &Bytes) -> usize {
    let Measured {
        input, assumptions, ..
    } = measured;
    let mut results = [0; 6];
    let mut checkpoint = *from;
    stack_of(&mut || {
        let top = stack_pointer();
        // SAFETY: the pointers are good for the lengths, and the arrays do not overlap.
        let returned = unsafe {
            norwythai_walk(
                input.as_ptr(),
                input.len(),
                assumptions.as_ptr(),
                assumptions.len(),
                checkpoint.as_mut_ptr(),
                50,
                BUDGET,
                results.as_mut_ptr(),
                6,
            )
        };
        assert_eq!(returned, 0);
        top
    })
}

fn list_stack(measured: &Measured, from: &Bytes) -> usize {
    let Measured {
        input, assumptions, ..
    } = measured;
    let mut results = [0; 6];
    let mut checkpoint = *from;
    let mut models = vec![0; LISTED];
    stack_of(&mut || {
        let top = stack_pointer();
        // SAFETY: the pointers are good for the lengths, and the arrays do not overlap.
        let returned = unsafe {
            norwythai_list(
                input.as_ptr(),
                input.len(),
                assumptions.as_ptr(),
                assumptions.len(),
                checkpoint.as_mut_ptr(),
                50,
                models.as_mut_ptr(),
                models.len(),
                results.as_mut_ptr(),
                6,
            )
        };
        assert_eq!(returned, 0);
        top
    })
}

fn page_stack(measured: &Measured, from: &Bytes) -> usize {
    let Measured {
        input, assumptions, ..
    } = measured;
    let mut results = [0; 6];
    let mut checkpoint = *from;
    let mut page = vec![0; PAGE_SIZE];
    stack_of(&mut || {
        let top = stack_pointer();
        // SAFETY: the pointers are good for the lengths, and the arrays do not overlap.
        let returned = unsafe {
            norwythai_page(
                input.as_ptr(),
                input.len(),
                assumptions.as_ptr(),
                assumptions.len(),
                checkpoint.as_mut_ptr(),
                50,
                1,
                page.as_mut_ptr(),
                page.len(),
                results.as_mut_ptr(),
                6,
            )
        };
        assert_eq!(returned, 0);
        top
    })
}

/// A function that writes so many bytes of its stack.
#[inline(never)]
extern "C" fn write_stack<const BYTES: usize>() {
    let mut area = MaybeUninit::<[u8; BYTES]>::uninit();
    let bottom: *mut u8 = black_box(area.as_mut_ptr()).cast();
    for at in 0..BYTES {
        // SAFETY: the address is within `area`.
        unsafe { bottom.add(at).write_volatile(0) };
    }
}

/// What the method says of that function.
fn known_stack<const BYTES: usize>() -> usize {
    stack_of(&mut || {
        let top = stack_pointer();
        black_box(write_stack::<BYTES> as extern "C" fn())();
        top
    })
}

/// Tests the method: it must find the bytes that are known, and little more.
fn test_method() {
    for (known, found) in [
        (1_000, known_stack::<1_000>()),
        (10_000, known_stack::<10_000>()),
        (100_000, known_stack::<100_000>()),
    ] {
        assert!(
            (known..known + 200).contains(&found),
            "{found} bytes were found for {known}"
        );
        println!(
            "- a function that writes {} bytes of its stack: {} found",
            count_text(known as u64),
            count_text(found as u64)
        );
    }
}

/// A formula whose last clause has an augmenting path of so many links: all its clauses.
fn path(links: usize) -> Vec<u8> {
    encode(links, &longest_path(links))
}

/// A ring in falling order, (48, not 1) at its end: with variable 1 false, the trial at the root has a path of 47 links.
fn falling_ring() -> Vec<u8> {
    let mut clauses: Vec<Vec<i8>> = (1..48).rev().map(|v| vec![v, -(v + 1)]).collect();
    clauses.push(vec![48, -1]);
    encode(48, &clauses)
}

/// The links of the last clause's path, by the library: the clauses that are matched otherwise than without it, and itself.
fn links_of_last(input: &[u8]) -> usize {
    let judge = |input: &[u8]| {
        let mut buffer = [0; 96];
        let judged = Proved.judge(input, &Assumptions::default(), &mut buffer);
        (judged.expect("an accepted formula").1, buffer)
    };
    let (clauses, buffer) = judge(input);
    let (_, without) = judge(&without_last(input));
    (0..clauses).filter(|i| buffer[*i] != without[*i]).count()
}

/// The encoded formula without its last clause, which has one literal.
fn without_last(input: &[u8]) -> Vec<u8> {
    let mut shorter = input[..input.len() - 4].to_vec();
    shorter.push(5);
    shorter
}

/// The formulas of all families, without assumptions and with half of their variables assumed, and two with long paths.
fn all_measured() -> Vec<Measured> {
    let cases = FAMILIES.iter().flat_map(|family| family.cases());
    let assumed = FAMILIES.iter().flat_map(|family| family.half_assumed().1);
    let mut measured: Vec<Measured> = cases
        .chain(assumed)
        .map(|case| Measured::of_case(&case))
        .collect();
    measured.extend([path(48), falling_ring()].map(Measured::without_assumptions));
    measured
}

fn print_functions() {
    let all = all_measured();
    let largest = |stack: &dyn Fn(&Measured, &Bytes) -> usize| {
        all.iter()
            .flat_map(|measured| [START, measured.deep].map(|from| stack(measured, &from)))
            .max()
            .expect("there are formulas")
    };
    let fullest = fullest_input();
    let with_fullest = |stack: fn(&[u8]) -> usize| {
        let of_others = largest(&|measured, _| stack(&measured.input));
        of_others.max(stack(&fullest))
    };
    let judge = largest(&|measured, _| judge_stack(&measured.input, &measured.assumptions));
    let weigh = largest(&|measured, _| weigh_stack(&measured.input, &measured.assumptions));
    let rows = [
        ("norwythai_check", with_fullest(check_stack)),
        ("norwythai_judge", judge.max(judge_stack(&fullest, &[]))),
        ("norwythai_weigh", weigh.max(weigh_stack(&fullest, &[]))),
        ("norwythai_deficiency", with_fullest(deficiency_stack)),
        ("norwythai_start", start_stack()),
        ("norwythai_walk", largest(&walk_stack)),
        ("norwythai_list", largest(&list_stack)),
        ("norwythai_page", largest(&page_stack)),
        ("norwythai_from_dimacs", with_fullest(from_dimacs_stack)),
        ("norwythai_to_dimacs", with_fullest(to_dimacs_stack)),
    ];
    let mut table = vec![row(&["function", "bytes of stack"])];
    table.extend(rows.map(|(name, bytes)| row(&[name, &count_text(bytes as u64)])));
    print_table(&table);
    println!();
    println!(
        "check reads the shortest formula with {} bytes and the fullest input with {}.",
        count_text(check_stack(&[1, 1, 5]) as u64),
        count_text(check_stack(&fullest) as u64)
    );
}

fn print_paths() {
    let mut table = vec![row(&[
        "clauses",
        "links of the last one's path",
        "bytes of stack of judge",
    ])];
    for clauses in [2, 12, 24, 48] {
        let input = path(clauses);
        table.push(row(&[
            &clauses.to_string(),
            &links_of_last(&input).to_string(),
            &count_text(judge_stack(&input, &[]) as u64),
        ]));
    }
    print_table(&table);
    println!();
    println!(
        "Re-matching is a loop, a turn a link: at most 48, since a path has each variable once."
    );
    let [least, most] = [2, 48].map(|links| judge_stack(&path(links), &[]) as f64);
    let grown = most - least;
    println!("From 2 links to 48 the stack grows by {grown} bytes.");
}

/// Prints the stack of each function, and that of judge by the length of the path.
pub fn print_stack() {
    test_method();
    println!();
    print_functions();
    println!();
    print_paths();
}

#[cfg(test)]
mod tests {
    use super::*;

    #[test]
    fn the_longest_path_has_48_links() {
        assert_eq!(links_of_last(&path(48)), 48);
        assert_eq!(links_of_last(&path(2)), 2);
    }

    #[test]
    fn the_method_finds_what_is_known() {
        test_method();
    }
}
