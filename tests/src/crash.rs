//! Says which case was under way when the library touched memory that it wasn't lent.

use crate::harness::under_way;

unsafe extern "C" {
    fn signal(number: i32, handler: extern "C" fn(i32)) -> usize;
    fn _exit(status: i32) -> !;
}

const SIGNALS: [(i32, &str); 4] = [
    (4, "an invalid instruction"),
    (7, "a bus error"),
    (8, "an arithmetic fault"),
    (11, "memory touched that wasn't lent"),
];

pub fn report_crashes() {
    for (number, _) in SIGNALS {
        // SAFETY: the handler ends the process and returns to nothing.
        unsafe { signal(number, stopped) };
    }
}

extern "C" fn stopped(number: i32) {
    let what = SIGNALS.iter().find(|(signal, _)| *signal == number).map_or("a signal", |(_, what)| what);
    match under_way() {
        Some(case) => eprintln!("\n{what}, inside the library, in this case:\n\n{case}"),
        None => eprintln!("\n{what}, outside the library"),
    }
    println!("stopped by a crash");
    // SAFETY: ends the process at once.
    unsafe { _exit(1) }
}
