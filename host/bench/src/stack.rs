//! How much stack a call of the port takes, by valgrind's drd over a run of
//! this program itself.

use std::env;
use std::hint::black_box;
use std::process::Command;
use std::thread;

use bench::Way;
use bench::corpus::{BOOKS, Book, book, worst};
use inputs::Input;
use ospf_strip::exports;

use crate::Load;

/// A call that is measured.
struct Call {
    name: &'static str,
    bytes: usize,
    run: Run,
}

type Run = Box<dyn FnMut() + Send>;

/// Each of the worst inputs, and the most LSAs taken against many rows.
fn calls() -> Vec<Call> {
    let walks = worst().into_iter().map(|worst| Call {
        name: worst.name,
        bytes: worst.input.data.len(),
        run: of_walk(vec![worst.input]),
    });
    let Book {
        mut rows,
        mut updates,
    } = book(BOOKS.len() - 1);
    let data = updates.remove(0);
    let update = Call {
        name: "update of most records against 10,000 rows",
        bytes: data.len(),
        run: Box::new(move || {
            black_box(exports::ospf_book_update(2, &data, u32::MAX, 0, &mut rows));
        }),
    };
    walks.chain([update]).collect()
}

fn of_walk(inputs: Vec<Input>) -> Run {
    let mut load = Load::new(inputs);
    Box::new(move || {
        black_box(load.run(Way::Port));
    })
}

/// The stack of each of these calls.
pub fn print() {
    println!("the port on the worst inputs: bytes of data, bytes of stack");
    let Some(used) = used() else {
        println!("not measured: no valgrind");
        return;
    };
    // The first two threads make no call, and the first one also binds what
    // every thread uses.
    let [_, none, measured @ ..] = used.as_slice() else {
        return;
    };
    for (call, used) in calls().iter().zip(measured) {
        println!("{:50}{:>7}{:>7}", call.name, call.bytes, used - none);
    }
}

/// What drd says that each thread took, in their order.
fn used() -> Option<Vec<u64>> {
    let output = Command::new("valgrind")
        .args(["--tool=drd", "--show-stack-usage=yes"])
        .arg(env::current_exe().ok()?)
        .arg("stack")
        .output()
        .ok()?;
    let text = String::from_utf8_lossy(&output.stderr);
    let threads = text.lines().filter(|line| line.contains("bytes out of"));
    let used = threads.map(|line| {
        let (_, rest) = line.split_once("used ")?;
        rest.split_whitespace().next()?.parse().ok()
    });
    used.collect()
}

/// The run that is measured: two threads that make no call, then one for each
/// call.
pub fn child() {
    let none = || of_walk(Vec::new());
    let calls = calls().into_iter().map(|call| call.run);
    for run in [none(), none()].into_iter().chain(calls) {
        let thread = thread::spawn(move || below(run));
        drop(thread.join().expect("the call returns"));
    }
}

/// Runs the call below more stack than a thread takes to start and end, so that
/// what the call takes shows. What it holds is dropped elsewhere.
fn below(mut run: Run) -> Run {
    let stack = black_box([0_u8; 65_536]);
    run();
    black_box(stack);
    run
}
