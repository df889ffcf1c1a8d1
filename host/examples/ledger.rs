//! Drives a ledger: two ticks with a gap between them, the request that asks for what is missing,
//! and the resent tick.
use rietknoest_host::{ChannelNumber, Ledger, Passed, Refusal, TickNumber};

fn deliver(passed: Passed) {
    println!("passed {} from {} on", passed.count, passed.first.value());
}

fn main() -> Result<(), Refusal> {
    let channel = ChannelNumber::new(100);
    let mut ledger = Ledger::open(channel)?;
    deliver(ledger.tick(channel, TickNumber::new(1))?);
    deliver(ledger.tick(channel, TickNumber::new(3))?);
    let asked = ledger.request(channel)?;
    println!("ask for {} to {}", asked.first.value(), asked.last.value());
    deliver(ledger.tick(channel, asked.first)?);
    Ok(())
}
