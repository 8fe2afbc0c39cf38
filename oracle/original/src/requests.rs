//! Requests (begin and poll), takes (open and close) and queues.

use super::*;

impl Rust {
    /// Start `call` on the spare coroutine. A begin that is not refused replaces the request of `on`.
    pub(super) fn begin(&mut self, on: On, call: &Call) -> Answer {
        let out = self.objects.as_mut().unwrap().start(&mut self.spare, call);
        if !matches!(out, Out::Asked(_)) {
            return match (on, out) {
                // an accept that ends silently
                (On::Control, Out::Ended(Finish::Nothing)) => Answer::Refused(9),
                (_, Out::Ended(Finish::Refused(n))) => Answer::Refused(n),
                (_, Out::Panicked) => Answer::Panicked,
                (_, out) => panic!("{call:?} is over at once: {out:?}"),
            };
        }
        let place = match on {
            On::Read(ep) => &mut self.reads[ep as usize],
            On::Write(ep) => &mut self.writes[ep as usize],
            _ => &mut self.control,
        };
        core::mem::swap(&mut self.spare, place);
        self.spare.abandon();
        self.step(on, call, out)
    }

    pub(super) fn begin_control(&mut self, sort: Sort, call: &Call) -> Answer {
        let answer = self.begin(On::Control, call);
        if !matches!(answer, Answer::Refused(_)) {
            self.sort = sort;
        }
        answer
    }

    pub(super) fn polled(&mut self, out: Out) -> Answer {
        match out {
            Out::Asked(Ask::NotYet) => Answer::NotYet,
            Out::Ended(Finish::Length(length)) => {
                Answer::Done { length, bytes: self.objects.as_ref().unwrap().got().to_vec() }
            }
            Out::Ended(Finish::Setup(bytes)) => Answer::Done { length: 8, bytes: bytes.to_vec() },
            Out::Ended(Finish::Refused(n)) => Answer::Refused(n),
            Out::Panicked => Answer::Panicked,
            out => panic!("{out:?} from a poll"),
        }
    }

    pub(super) fn poll_read(&mut self, ep: u8) -> Answer {
        let e = ep as usize;
        if !self.reads[e].live() {
            return Answer::Outside;
        }
        let out = self.reads[e].resume(0);
        let answer = self.polled(out);
        if matches!(answer, Answer::Done { .. }) {
            self.takes[e].abandon();
        }
        answer
    }

    pub(super) fn poll_write(&mut self, ep: u8) -> Answer {
        let e = ep as usize;
        if !self.writes[e].live() {
            return Answer::Outside;
        }
        match self.writes[e].resume(0) {
            Out::Ended(Finish::Length(_)) => Answer::Done { length: 0, bytes: vec![] },
            out => self.polled(out),
        }
    }

    pub(super) fn poll_control(&mut self, sort: Sort) -> Answer {
        if !self.control.live() || self.sort != sort {
            return Answer::Outside;
        }
        let out = self.control.resume(0);
        match out {
            Out::Ended(Finish::Length(_)) if sort == Sort::DataIn => Answer::Done { length: 0, bytes: vec![] },
            out => self.polled(out),
        }
    }

    pub(super) fn poll_accept(&mut self) -> Answer {
        if !self.control.live() || !matches!(self.sort, Sort::Accept | Sort::AcceptSetAddress) {
            return Answer::Outside;
        }
        let ready = probe::in0_ready();
        match self.control.resume(0) {
            Out::Ended(Finish::Nothing) if ready => Answer::Done { length: 0, bytes: vec![] },
            Out::Ended(Finish::Nothing) => Answer::Refused(9),
            out @ Out::Asked(Ask::Write { .. }) => self.step(On::Control, &Call::PollAccept, out),
            out => self.polled(out),
        }
    }

    pub(super) fn open(&mut self, ep: u8) -> Answer {
        let out = self.objects.as_mut().unwrap().start(&mut self.spare, &Call::Open(ep));
        match out {
            Out::Asked(Ask::Shown(address, length)) => {
                // a second open shows the packet again; the first take goes on
                if !self.takes[ep as usize].live() {
                    core::mem::swap(&mut self.spare, &mut self.takes[ep as usize]);
                }
                self.spare.abandon();
                Answer::Shown { offset: self.offset(address), length }
            }
            _ => Answer::Refused(if probe::out_iso(ep as usize) { 12 } else { 11 }),
        }
    }

    pub(super) fn close(&mut self, ep: u8) -> Answer {
        let take = &mut self.takes[ep as usize];
        if !take.live() {
            return Answer::Refused(14);
        }
        let out = take.resume(0);
        assert!(out == Out::Ended(Finish::Value(0)));
        Answer::End { result: 0, wakes: vec![] }
    }

    /// The Rust says only no: the number is by the rows' order.
    pub(super) fn queue(&mut self, ep: u8, data: &[u8]) -> Answer {
        let e = ep as usize;
        let enabled = usbhs::endpoint_enabled(e, Dir::In);
        if usbhs::iso_in_prime(e, data) {
            return Answer::End { result: 0, wakes: vec![] };
        }
        Answer::Refused(match () {
            () if !enabled => 9,
            () if data.len() > self.size as usize => 10,
            () if !probe::in_iso(e) => 11,
            () => 13,
        })
    }
}
