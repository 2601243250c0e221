//! Plays forged datagrams against `endpoint::Client`, at servers of all settings:
//!
//! ```text
//! forged SINGLE PAIRS FIRST THREADS
//! ```
//!
//! The servers are those of `endpoint::Server`, and strict ones that answer as coturn does. An
//! attacker who sees each message adds one datagram, of every kind, at every moment of a request,
//! in answer to the current message or to the one before it. One answer of the server may be lost,
//! of two the newer one may arrive first, or each may arrive twice. Then he adds two datagrams, of
//! fewer kinds, and no answer is lost. SINGLE and PAIRS say which share of these cases is played:
//! each n-th from the one with the number FIRST on, so all if n is 1 and FIRST is 0. Before these
//! it plays all cases with two challenges that have the server's nonces of now and of before.
//!
//! It counts the requests that did not succeed, those of them that ended by an unsigned response,
//! the clients whose next request did not succeed, which nobody attacks, and what the server
//! accepted by less than the strongest algorithm of both, or by a name in clear where both can hash
//! it. The status is 1 if one of these is not 0. A client that accepts unsigned responses believes
//! forged ones in answer to its unsigned messages, so it may lose a request by those.

mod cases;
mod forgery;
mod service;
mod settings;
mod strict;
mod tally;
mod world;

use cases::{Cases, services};
use std::process::ExitCode;
use tally::Tally;

/// Which cases are played: each n-th, from this one on.
#[derive(Clone, Copy)]
struct Share {
    each: usize,
    first: usize,
}

/// Plays a share of the cases, on some threads.
fn play(cases: &Cases, share: Share, threads: usize) -> [Tally; 2] {
    let played = |thread: usize| {
        let (services, mut tallies) = (services(), <[Tally; 2]>::default());
        let first = share.first + thread * share.each;
        for number in (first..cases.count()).step_by(share.each * threads) {
            cases.play(&services, number, &mut tallies);
        }
        tallies
    };
    let mut sums = <[Tally; 2]>::default();
    std::thread::scope(|scope| {
        let running: Vec<_> = (0..threads)
            .map(|thread| scope.spawn(move || played(thread)))
            .collect();
        for thread in running {
            for (sum, tally) in sums.iter_mut().zip(thread.join().expect("a thread")) {
                sum.add(tally);
            }
        }
    });
    sums
}

/// Plays the cases, prints what was counted, and returns the faults.
fn faults(title: &str, cases: &Cases, share: Share, threads: usize) -> u64 {
    let (count, Share { each, first }) = (cases.count(), share);
    println!("{title}: {count} cases, of which each {each}. is played, from {first} on");
    let mut faults = 0;
    for (accepts_unsigned, tally) in [false, true].into_iter().zip(play(cases, share, threads)) {
        let which = if accepts_unsigned {
            "signed and unsigned"
        } else {
            "signed"
        };
        println!("  by clients that accept {which} responses:");
        tally.print();
        faults += tally.faults(accepts_unsigned);
    }
    faults
}

fn main() -> ExitCode {
    let words = std::env::args()
        .skip(1)
        .map(|word| word.parse().expect("a number"));
    let [single, pairs, first, threads] = words.collect::<Vec<usize>>()[..] else {
        panic!("usage: forged SINGLE PAIRS FIRST THREADS");
    };
    let services = services();
    let renewals = Cases::pairs(&services, forgery::renewals());
    let one = Cases::single(&services, forgery::all());
    let two = Cases::pairs(&services, forgery::some());
    let share = |each| Share { each, first };
    let all = Share { each: 1, first: 0 };
    let found = faults("two challenges about a renewal", &renewals, all, threads)
        + faults("one forged datagram", &one, share(single), threads)
        + faults("two forged datagrams", &two, share(pairs), threads);
    println!("forged: {found} faults");
    ExitCode::from(u8::from(found > 0))
}
