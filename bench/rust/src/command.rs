//! What the programs are told.

use crate::keys::Keys;
use crate::plan::Plan;
use std::process::ExitCode;

/// What a program is asked for.
pub struct Request {
    /// A kind of rows, the name of a row, or `all`.
    pub what: String,
    pub rounds: usize,
    pub sizes: Vec<usize>,
}

/// Reads `WHAT ROUNDS [N ..]`, and does the rows that are asked for at each N.
pub fn run(program: &str, rows: impl Fn(&mut Plan)) -> ExitCode {
    let Some(request) = Request::read() else {
        return refuse(program);
    };
    for size in &request.sizes {
        let keys = Keys::new(*size);
        let mut plan = Plan::new(&request, &keys);
        rows(&mut plan);
        if !plan.has_rows() {
            return refuse(program);
        }
    }
    ExitCode::SUCCESS
}

fn refuse(program: &str) -> ExitCode {
    eprintln!("usage: {program} WHAT ROUNDS [N ..], where WHAT is all, a kind of rows or a row");
    ExitCode::from(2)
}

impl Request {
    fn read() -> Option<Request> {
        let mut words = std::env::args().skip(1);
        let what = words.next()?;
        let rounds = words.next()?.parse().ok()?;
        let sizes: Result<_, _> = words.map(|word| word.parse()).collect();
        Some(Request {
            what,
            rounds,
            sizes: sizes.ok()?,
        })
    }
}
