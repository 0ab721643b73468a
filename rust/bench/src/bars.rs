//! What the benchmark is held to.

/// What was measured, and the most that it may be.
pub struct Bar {
    pub what: String,
    pub measured: f64,
    pub most: f64,
}

/// Prints each bar with what was measured.
pub fn print(bars: &[Bar]) {
    println!("Bars.\n\n| bar | measured | at most | |\n|---|---|---|---|");
    for Bar {
        what,
        measured,
        most,
    } in bars
    {
        let holds = if measured <= most { "holds" } else { "missed" };
        println!("| {what} | {measured:.2} | {most} | {holds} |");
    }
}
