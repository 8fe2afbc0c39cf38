//! A device without embassy: every call of the safe API against a chip that is a table of words.

use usbhs_port::{Access, Answer, BusTime, Direction, Event, Port, Refusal, Register, Slots, State, Task, Transfer};

const SIZE: usize = 64;
const COUNT: usize = 22;

/// What was written, what is read, who was woken.
struct Chip {
    written: [[u32; 16]; 19],
    read: [[u32; 16]; 19],
    woken: Vec<Task>,
    waits: usize,
    callbacks: usize,
}

impl Access for Chip {
    fn read(&mut self, register: Register, endpoint: u8) -> u32 {
        self.read[register as usize][endpoint as usize]
    }
    fn write(&mut self, register: Register, endpoint: u8, value: u32) {
        self.written[register as usize][endpoint as usize] = value;
        if matches!(register, Register::EpRxCtrl | Register::EpTxCtrl) {
            self.read[register as usize][endpoint as usize] = value;
        }
    }
    fn wait(&mut self, _microseconds: u8) {
        self.waits += 1;
    }
    fn callback(&mut self) {
        self.callbacks += 1;
    }
    fn wake(&mut self, task: Task) {
        self.woken.push(task);
    }
}

struct Device<'a> {
    port: Port<'a>,
    chip: Chip,
}

impl Device<'_> {
    fn run(&mut self, call: impl FnOnce(&mut Port<'_>) -> Answer) -> Result<u16, Refusal> {
        self.port.run(&mut self.chip, call).ended()
    }

    fn ok(&mut self, call: impl FnOnce(&mut Port<'_>) -> Answer) -> u16 {
        self.run(call).unwrap()
    }

    fn set(&mut self, register: Register, value: u32) {
        self.chip.read[register as usize][0] = value;
    }

    /// An interrupt with these flags; the tasks that it wakes.
    fn interrupt(&mut self, flags: u32) -> Vec<Task> {
        self.set(Register::IntFg, flags);
        self.chip.woken.clear();
        self.ok(|p| p.begin_interrupt());
        self.chip.woken.clone()
    }

    /// The same, its readings that follow each other brought by one call.
    fn interrupt_together(&mut self, flags: u32) -> Vec<Task> {
        self.set(Register::IntFg, flags);
        self.chip.woken.clear();
        let reading = |r: Register| self.chip.read[r as usize][0];
        let (frame, mis, st, len) =
            (reading(Register::FrameNo), reading(Register::MisSt), reading(Register::IntSt), reading(Register::RxLen));
        self.ok(|p| match p.interrupt(frame, flags) {
            Answer::Read { register: Register::MisSt, .. } => p.go_on_transfer(mis, st, len),
            other => other,
        });
        self.chip.woken.clone()
    }

    /// A transfer's: status as packed by the header, and how much was received.
    fn transfer(&mut self, status: u32, received: usize) -> Vec<Task> {
        self.set(Register::IntSt, status);
        self.set(Register::RxLen, received as u32);
        self.interrupt_together(2)
    }

    /// What the chip stores where it was told to.
    fn store(&mut self, register: Register, endpoint: usize, bytes: &[u8]) {
        let at = self.chip.written[register as usize][endpoint] as usize;
        self.port.slots()[at..at + bytes.len()].copy_from_slice(bytes);
    }
}

/// A bulk OUT 1 and IN 2, an isochronous OUT 3 and IN 4, enabled after a bus reset.
fn device(test: impl FnOnce(Device<'_>)) {
    let (mut state, mut time, mut slots) = (State::new(), BusTime::new(), Slots([0; SIZE * COUNT]));
    let mut chip = Chip { written: [[0; 16]; 19], read: [[0; 16]; 19], woken: vec![], waits: 0, callbacks: 0 };
    chip.read[Register::MisSt as usize][0] = 1;
    let mut d = Device { port: Port::lent(&mut state, &mut slots.0, &mut time, 0), chip };
    assert_eq!(d.run(|p| p.begin_bus_poll()), Err(Refusal::Stage));
    assert_eq!(d.run(|p| p.start_up(65, 1, true)), Err(Refusal::SlotsLength));
    d.ok(|p| p.start_up(SIZE as u32, COUNT as u32, true));
    assert!(d.chip.waits > 0);
    let (bulk, iso) = (Transfer::Bulk, Transfer::Isochronous);
    assert_eq!(d.ok(|p| p.allocate(bulk, Some(0x01), 64, 0, Direction::Out)), 1);
    assert_eq!(d.ok(|p| p.allocate(bulk, Some(0x82), 64, 0, Direction::In)), 2);
    assert_eq!(d.ok(|p| p.allocate(iso, Some(0x03), 64, 1, Direction::Out)), 3);
    assert_eq!(d.ok(|p| p.allocate(iso, Some(0x84), 48, 1, Direction::In)), 4);
    assert_eq!(d.run(|p| p.allocate(bulk, Some(0x84), 48, 1, Direction::In)), Err(Refusal::Address));
    assert_eq!(d.run(|p| p.start(32)), Err(Refusal::Ep0Maximum));
    d.ok(|p| p.start(64));
    assert_eq!(Event::of(d.ok(|p| p.begin_bus_poll())), Some(Event::Power));
    d.ok(|p| p.begin_bus_enable());
    assert_eq!(d.interrupt(1), [Task::Bus]);
    assert_eq!(Event::of(d.ok(|p| p.begin_bus_poll())), Some(Event::Reset));
    d.set(Register::IntFg, 0);
    assert_eq!(Event::of(d.ok(|p| p.begin_bus_poll())), None);
    for (endpoint, direction) in [(1, Direction::Out), (2, Direction::In), (3, Direction::Out), (4, Direction::In)] {
        d.ok(|p| p.begin_set_enabled(endpoint, direction, true));
        assert!(d.port.enabled(endpoint, direction));
    }
    assert_eq!(d.port.bus_time().in_use(), 64 + 38 + 48 + 38);
    test(d);
}

#[test]
fn control() {
    device(|mut d| {
        let (mut packet, mut data) = ([0; 8], [0; 64]);
        // a setup packet with data to the host, which closes with an empty OUT
        d.ok(|p| p.begin_setup());
        assert_eq!(d.port.poll_setup(&mut packet), Answer::NotYet);
        d.store(Register::Ep0Dma, 0, &[0x80, 6, 0, 1, 0, 0, 3, 0]);
        assert!(d.interrupt(0x20).contains(&Task::Out(0)));
        assert_eq!(d.port.poll_setup(&mut packet), Answer::Done(8));
        assert_eq!(packet, [0x80, 6, 0, 1, 0, 0, 3, 0]);
        d.ok(|p| p.begin_data_in(&[1, 2, 3], true, true));
        assert_eq!(d.port.poll_data_in(), Answer::NotYet);
        assert_eq!(d.chip.written[Register::EpTLen as usize][0], 3);
        d.transfer(0x60, 0);
        d.transfer(0x40, 0);
        assert_eq!(d.port.poll_data_in(), Answer::Done(0));
        // data from the host
        d.ok(|p| p.begin_setup());
        d.interrupt(0x20);
        assert_eq!(d.port.poll_setup(&mut packet), Answer::Done(8));
        d.ok(|p| p.begin_data_out(64, true));
        assert_eq!(d.port.poll_data_out(&mut data), Answer::NotYet);
        d.store(Register::Ep0Dma, 0, &[9; 20]);
        d.transfer(0x40, 20);
        assert_eq!(d.port.poll_data_out(&mut data), Answer::Done(20));
        assert_eq!(data[..20], [9; 20]);
        d.ok(|p| p.begin_accept());
        assert_eq!(d.port.poll_accept(), Answer::NotYet);
        d.transfer(0x60, 0);
        assert_eq!(d.port.poll_accept(), Answer::Done(0));
        // a new address
        d.ok(|p| p.begin_setup());
        d.interrupt(0x20);
        assert_eq!(d.port.poll_setup(&mut packet), Answer::Done(8));
        d.ok(|p| p.begin_accept_set_address(9));
        d.transfer(0x60, 0);
        d.ok(|p| p.poll_accept());
        assert_eq!(d.chip.written[Register::DevAd as usize][0], 9);
        d.ok(|p| p.begin_reject());
    });
}

#[test]
fn bulk() {
    device(|mut d| {
        let mut slice = [0; 64];
        assert_eq!(d.run(|p| p.begin_read(1, 63)), Err(Refusal::Length));
        d.ok(|p| p.begin_read(1, 64));
        assert_eq!(d.port.poll_read(1, &mut slice), Answer::NotYet);
        assert_eq!(d.port.poll_read(9, &mut slice), Answer::Refused(Refusal::NoEndpoint));
        d.store(Register::EpRxDma, 1, &[5; 30]);
        // the chip flips the toggle of a packet that it takes
        d.chip.read[Register::EpRxCtrl as usize][1] ^= 4;
        // first who waits for the isochronous IN of a new microframe, then the read
        assert_eq!(d.transfer(0x41, 30), [Task::In(4), Task::Out(1)]);
        assert_eq!(d.port.poll_read(1, &mut slice), Answer::Done(30));
        assert_eq!(slice[..30], [5; 30]);
        d.ok(|p| p.begin_write(2, &[6; 40]));
        let polled = d.port.poll_write(2, &[6; 40]);
        assert!(matches!(polled, Answer::NotYet | Answer::Done(_)), "{polled:?}");
        assert_eq!(d.chip.written[Register::EpTLen as usize][2], 40);
        d.ok(|p| p.begin_set_stalled(1, Direction::Out, true));
        assert_eq!(d.ok(|p| p.begin_is_stalled(1, Direction::Out)), 1);
        d.ok(|p| p.begin_set_stalled(1, Direction::Out, false));
        assert_eq!(d.ok(|p| p.begin_is_stalled(1, Direction::Out)), 0);
        d.ok(|p| p.begin_bus_disable());
    });
}

#[test]
fn isochronous() {
    device(|mut d| {
        assert_eq!(d.port.open(3), Err(Refusal::NoPacket));
        assert_eq!(d.port.open(1), Err(Refusal::NotIsochronous));
        d.set(Register::FrameNo, 5 | 3 << 13);
        d.store(Register::EpRxDma, 3, &[8; 12]);
        d.transfer(0x43, 12);
        let packet = d.port.open(3).unwrap();
        assert_eq!((packet.length, packet.stamp), (12, 5 * 8 + 3));
        assert_eq!(d.port.packet(packet), [8; 12]);
        assert_eq!(d.port.close(3).ended(), Ok(0));
        assert_eq!(d.port.close(3), Answer::Refused(Refusal::NotOpen));
        assert_eq!(d.port.overruns(3), 0);
        assert_eq!(d.ok(|p| p.begin_microframe()), 5 * 8 + 3);
        // the IN is paced by advances: one loads, the next completes
        d.ok(|p| p.set_paced(4, true));
        assert_eq!(d.port.queue(4, &[1; 48]).ended(), Ok(0));
        assert_eq!(d.port.queue(4, &[2; 48]).ended(), Ok(0));
        assert_eq!(d.port.queue(4, &[3; 48]), Answer::Refused(Refusal::Full));
        for microframe in [4, 5] {
            d.set(Register::FrameNo, 5 | microframe << 13);
            d.ok(|p| p.begin_advance(4));
        }
        assert_eq!(d.port.pending(4), 1);
        let before = d.chip.callbacks;
        d.transfer(0x10, 0);
        assert_eq!(d.chip.callbacks, before + 1);
        // while an operation is under way only questions answer
        assert!(matches!(d.port.begin_bus_enable(), Answer::Read { .. } | Answer::Write { .. }));
        assert_eq!(d.port.open(3), Err(Refusal::UnderWay));
        assert_eq!(d.port.pending(4), 1);
    });
}

/// Requests Three and Four.
#[test]
fn descriptor() {
    let bytes = [9, 2, 25, 0, 1, 1, 0, 0x80, 50, 9, 4, 0, 0, 1, 0xFF, 0, 0, 0, 7, 5, 0x81, 2, 64, 0, 0];
    let (mut state, mut time, mut slots) = (State::new(), BusTime::new(), Slots([0; 2 * SIZE]));
    let chip = Chip { written: [[0; 16]; 19], read: [[0; 16]; 19], woken: vec![], waits: 0, callbacks: 0 };
    let mut d = Device { port: Port::lent(&mut state, &mut slots.0, &mut time, 0), chip };
    d.ok(|p| p.start_up(SIZE as u32, 2, false));
    let preview = d.port.preview(&bytes).unwrap();
    assert_eq!((preview.given, preview.numbers[0], preview.buffers, preview.refusal), (1, 1, 1, None));
    assert_eq!(d.port.preview(&bytes[..24]), Err(Refusal::Descriptor));
    assert_eq!(d.ok(|p| p.allocate_all(&bytes)), 1);
    assert_eq!(d.port.preview(&bytes).unwrap().refusal, Some(Refusal::Address));
}

/// State and slots lie on word boundaries: the state by its type, slots that do not are refused and stay as they are.
#[test]
fn misaligned() {
    assert_eq!(std::mem::align_of::<State>() % 4, 0);
    let (mut state, mut time, mut room) = (State::new(), BusTime::new(), Slots([7; 2 * SIZE + 4]));
    for odd in 1..4 {
        let mut port = Port::lent(&mut state, &mut room.0[odd..odd + 2 * SIZE], &mut time, 0);
        assert_eq!(port.start_up(SIZE as u32, 2, false), Answer::Refused(Refusal::Misaligned));
    }
    assert!(room.0.iter().all(|b| *b == 7) && state == State::new());
}
