//! What is counted of attacked requests.

use crate::world::{Outcome, Verdicts};
use std::collections::BTreeMap;
use std::time::Duration;

#[derive(Default)]
pub struct Tally {
    played: u64,
    verdicts: Verdicts,
    /// Requests that did not succeed by a signed response.
    lost: u64,
    /// Requests that ended by a response that no server has signed.
    fooled: u64,
    /// Clients whose next request, which nobody attacks, did not succeed.
    unserved: u64,
    sent: u64,
    most_sent: usize,
    longest: Duration,
    /// How requests ended that did not succeed: how many, and the first case.
    ends: BTreeMap<String, (u64, String)>,
}

impl Tally {
    /// Counts an attacked request, the one after it, and what the server has accepted of both.
    pub fn count(&mut self, attacked: &Outcome, next: &Outcome, verdicts: Verdicts, case: &str) {
        self.played += 1;
        self.verdicts.add(verdicts);
        self.sent += attacked.sent as u64;
        self.most_sent = self.most_sent.max(attacked.sent);
        self.longest = self.longest.max(attacked.took);
        self.fooled += u64::from(attacked.is_fooled());
        if !attacked.is_served() {
            self.lost += 1;
            self.note(attacked.name(), case);
        }
        if !next.is_served() {
            self.unserved += 1;
            self.note(format!("the next request: {}", next.name()), case);
        }
    }

    fn note(&mut self, end: String, case: &str) {
        self.ends
            .entry(end)
            .or_insert_with(|| (0, case.to_string()))
            .0 += 1;
    }

    pub fn add(&mut self, other: Tally) {
        self.played += other.played;
        self.verdicts.add(other.verdicts);
        self.lost += other.lost;
        self.fooled += other.fooled;
        self.unserved += other.unserved;
        self.sent += other.sent;
        self.most_sent = self.most_sent.max(other.most_sent);
        self.longest = self.longest.max(other.longest);
        for (end, (count, case)) in other.ends {
            self.ends.entry(end).or_insert((0, case)).0 += count;
        }
    }

    /// What must be 0, for a client that accepts unsigned responses or does not. One that accepts
    /// them loses a request only by one of them.
    pub fn faults(&self, accepts_unsigned: bool) -> u64 {
        let always = self.verdicts.weaker + self.verdicts.in_clear + self.unserved;
        let by_unsigned = if accepts_unsigned { self.fooled } else { 0 };
        always + self.lost - by_unsigned
    }

    pub fn print(&self) {
        let Tally {
            played,
            lost,
            fooled,
            unserved,
            ..
        } = self;
        let Verdicts {
            accepted,
            weaker,
            in_clear,
        } = self.verdicts;
        println!("    {played} attacked requests, {accepted} requests accepted by the server");
        println!("    {lost} lost, {fooled} of them by unsigned responses");
        println!("    {unserved} clients not served at the next request");
        println!("    {weaker} accepted by a weaker algorithm, {in_clear} named in clear");
        let mean = self.sent as f64 / self.played.max(1) as f64;
        let (most, longest) = (self.most_sent, self.longest);
        println!("    {mean:.2} datagrams sent for each, at most {most}, in at most {longest:?}");
        for (end, (count, case)) in &self.ends {
            println!("    {count} of them: {end}; the first: {case}");
        }
    }
}
