//! Two channels on one line: what each is to be asked for, in turn.
use rietknoest_host::{ChannelNumber, Channels, Refusal, TickNumber};

fn main() -> Result<(), Refusal> {
    let mut channels = Channels::none();
    for (channel, last) in [(100, 3), (101, 5)] {
        channels.open(ChannelNumber::new(channel))?;
        channels.announce(ChannelNumber::new(channel), TickNumber::new(last))?;
    }
    for _ in 0..3 {
        let asked = channels.request()?;
        let (channel, first, last) = (asked.channel, asked.range.first, asked.range.last);
        println!(
            "ask channel {} for {} to {}",
            channel.value(),
            first.value(),
            last.value()
        );
        let _ = channels.reply(channel, first, 1)?;
    }
    Ok(())
}
