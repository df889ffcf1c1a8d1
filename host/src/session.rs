//! The client's side of a line: what to send, when, and under which number.

use crate::numbers::{always, result, Refusal, SessionNumber};
use crate::{raw, types};

/// The client's side of one line to the gateway. It sends nothing itself: each call returns what
/// to send, and the host writes it with [`write`](crate::write), its own CompIDs and SendingTime.
///
/// Times are milliseconds of the host's clock; one before the last counts as the last. Only
/// [`time`](Session::time) sends heartbeats and calls the line dead, so call it often, and after
/// each frame. Do not read its words.
#[derive(Clone, Copy, Debug, PartialEq, Eq)]
#[repr(C)]
pub struct Session {
    words: [u64; 8],
}

/// What to send, and under which MsgSeqNum.
#[derive(Clone, Copy, Debug, PartialEq, Eq)]
#[must_use = "the session counts it as sent: send it"]
pub enum ToSend {
    Nothing,
    /// S001
    Logon(SessionNumber),
    /// S002
    Logout(SessionNumber),
    /// S003
    Heartbeat(SessionNumber),
    /// P002
    Resend(SessionNumber),
}

impl ToSend {
    fn from_row(msg_type: u64, seq: u64) -> ToSend {
        let seq = SessionNumber::new(seq);
        match msg_type as u32 {
            types::S001 => ToSend::Logon(seq),
            types::S002 => ToSend::Logout(seq),
            types::S003 => ToSend::Heartbeat(seq),
            types::P002 => ToSend::Resend(seq),
            _ => ToSend::Nothing,
        }
    }

    /// MsgType and MsgSeqNum for [`write`](crate::write); none if nothing is to be sent.
    pub const fn frame(self) -> Option<(u32, SessionNumber)> {
        match self {
            ToSend::Nothing => None,
            ToSend::Logon(seq) => Some((types::S001, seq)),
            ToSend::Logout(seq) => Some((types::S002, seq)),
            ToSend::Heartbeat(seq) => Some((types::S003, seq)),
            ToSend::Resend(seq) => Some((types::P002, seq)),
        }
    }
}

/// What happens when time passes.
#[derive(Clone, Copy, Debug, PartialEq, Eq)]
#[must_use = "a heartbeat is counted as sent, and a dead line is to be closed"]
pub enum Passing {
    Send(ToSend),
    /// Nothing was taken for more than two intervals: close the line. The session is over.
    Dead,
}

/// A frame that was taken: what to send for it, and its length.
#[derive(Clone, Copy, Debug, PartialEq, Eq)]
#[must_use = "the session counts the answer as sent: send it"]
pub struct Arrival {
    pub send: ToSend,
    pub len: usize,
}

impl Session {
    /// A new session: both counters at 1. Renew what is kept from an earlier one: a table of
    /// channels as a whole ([`Channels::renew`](crate::Channels::renew)), and each ledger that
    /// stands alone ([`Ledger::renew`](crate::Ledger::renew)).
    #[must_use]
    pub fn open() -> Session {
        let mut session = Session { words: [0; 8] };
        let answer = raw::session_open(&mut session);
        always(answer, session)
    }

    fn turn(
        &mut self,
        call: fn(&mut Session, u64, &mut raw::TurnRow) -> u32,
        time: u64,
    ) -> Result<raw::TurnRow, Refusal> {
        let mut row = raw::TurnRow::default();
        let answer = call(self, time, &mut row);
        result(answer, row)
    }

    /// Begins: returns the logon to send. 33 if it was sent before, 32 if the session is over.
    pub fn begin(&mut self, time: u64) -> Result<ToSend, Refusal> {
        let row = self.turn(raw::session_begin, time)?;
        Ok(ToSend::from_row(row.msg_type, row.seq))
    }

    /// Lets time pass. 32 if a heartbeat is due and no number is left for it.
    pub fn time(&mut self, time: u64) -> Result<Passing, Refusal> {
        let row = self.turn(raw::session_time, time)?;
        if row.dead != 0 {
            return Ok(Passing::Dead);
        }
        Ok(Passing::Send(ToSend::from_row(row.msg_type, row.seq)))
    }

    /// Leaves: returns the logout to send. Nothing is to be sent after it.
    pub fn leave(&mut self, time: u64) -> Result<ToSend, Refusal> {
        let row = self.turn(raw::session_leave, time)?;
        Ok(ToSend::from_row(row.msg_type, row.seq))
    }

    /// Asks for a resend: returns the P002 to send. Call [`may_send`](Session::may_send) before
    /// the ledger, or the table of channels, is asked for its request.
    pub fn ask(&mut self, time: u64) -> Result<ToSend, Refusal> {
        let row = self.turn(raw::session_ask, time)?;
        Ok(ToSend::from_row(row.msg_type, row.seq))
    }

    /// The frame at the front has arrived; the bytes after it do not matter. Reading's own
    /// refusals, 1 to 7, come before the session's, 30 to 33; 13 before all.
    pub fn receive(&mut self, time: u64, bytes: &[u8]) -> Result<Arrival, Refusal> {
        let mut row = raw::ArrivalRow::default();
        let answer = raw::session_receive(self, time, bytes, &mut row);
        let send = ToSend::from_row(row.msg_type, row.seq);
        let len = row.len as usize;
        result(answer, Arrival { send, len })
    }

    /// What [`ask`](Session::ask) would be answered now. Nothing changes.
    pub fn may_send(&self, time: u64) -> Result<(), Refusal> {
        result(raw::session_may_send(self, time), ())
    }

    /// The words, to save the session.
    #[must_use]
    pub const fn to_words(self) -> [u64; 8] {
        self.words
    }

    /// The session of saved words. Each call returns 13 if they break the state rules.
    #[must_use]
    pub const fn from_words(words: [u64; 8]) -> Session {
        Session { words }
    }
}
