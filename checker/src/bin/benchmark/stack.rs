// The stack that the proved functions take, measured: the call runs on a stack of its own that was
// painted before, and the lowest byte that has changed tells how deep it went.

use crate::sides::{Proved, ROOM};
use crate::table::{head, row, Bars};
use crate::workloads::Workload;
use checker::random::Random;
use std::arch::asm;

/// The most stack that a call may take, in bytes.
const BAR: f64 = 65_536.0;
/// Bytes of the painted stack, far more than a call may take.
const STACK: usize = 1 << 20;
const PAINT: u8 = 0xA5;

/// A stack for calls, and a marks buffer.
struct PaintedStack {
    memory: Vec<u8>,
    marks: Vec<u8>,
}

impl PaintedStack {
    fn new() -> PaintedStack {
        PaintedStack {
            memory: vec![0; STACK],
            marks: vec![0; ROOM],
        }
    }

    /// How many bytes of stack a call takes, its return address included.
    fn depth(&mut self, function: Proved, sheet: &[u8], room: usize) -> usize {
        self.memory.fill(PAINT);
        let bottom = self.memory.as_mut_ptr() as usize;
        let top = (bottom + STACK) & !15;
        unsafe { call_on(top, function, sheet, &mut self.marks[..room]) };
        let untouched = self.memory.iter().take_while(|&&byte| byte == PAINT);
        top - (bottom + untouched.count())
    }
}

/// Calls the function with the stack pointer at `top`. r12, which the function keeps, holds the
/// caller's meanwhile.
unsafe fn call_on(top: usize, function: Proved, sheet: &[u8], marks: &mut [u8]) {
    asm!(
        "xchg rsp, r12",
        "call r13",
        "mov rsp, r12",
        inout("r12") top => _,
        in("r13") function,
        in("rdi") sheet.as_ptr(),
        in("rsi") sheet.len(),
        in("rdx") marks.as_mut_ptr(),
        in("rcx") marks.len(),
        out("rax") _,
        clobber_abi("C"),
    );
}

/// The most stack that each of the named functions takes over the sheets.
pub fn taken(functions: &[(&str, Proved)], sheets: &[(Vec<u8>, usize)], bars: &mut Bars) {
    let mut painted = PaintedStack::new();
    head("Stack", &["function", "calls", "most bytes", "bar", "met"]);
    for &(name, function) in functions {
        let depths = sheets
            .iter()
            .map(|(sheet, room)| painted.depth(function, sheet, *room));
        let most = depths.max().unwrap_or_default();
        row(&[
            name.into(),
            sheets.len().to_string(),
            most.to_string(),
            format!("{BAR}"),
            bars.hold(name, most as f64, BAR).into(),
        ]);
    }
}

/// Sheets of all kinds, each with a room: answered in full and in part, without answers, with too
/// little room, and damaged.
pub fn sheets(workloads: &[Workload], random: &mut Random) -> Vec<(Vec<u8>, usize)> {
    let mut sheets = Vec::new();
    for workload in workloads {
        let length = workload.sequence.len();
        sheets.push((workload.answered(length), ROOM));
    }
    for workload in workloads.iter().filter(|workload| !workload.hostile) {
        let length = workload.sequence.len();
        sheets.push((workload.sheet(), ROOM));
        sheets.push((workload.answered(length / 2), ROOM));
        sheets.push((workload.answered(length), length));
        for _ in 0..8 {
            sheets.push((damaged(workload.answered(length), random), ROOM));
        }
    }
    sheets
}

/// The sheet cut, or with a byte changed: half of the time near the front, where the machine is.
fn damaged(mut sheet: Vec<u8>, random: &mut Random) -> Vec<u8> {
    let reach = if random.once_in(2) { sheet.len() } else { 200 };
    let place = random.below(reach.min(sheet.len()));
    if random.once_in(4) {
        sheet.truncate(place);
    } else {
        sheet[place] = random.byte();
    }
    sheet
}
