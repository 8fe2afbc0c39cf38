//! lists [--seed N] [--runs N]: random boards. The port allocates a board's configuration descriptor as one operation (request Three), the Rust the
//! board's endpoints one by one, in the order that the request says, up to the first refusal. The port must hand out all that the Rust hands out, or
//! refuse as the Rust does and change nothing; its preview (request Four) must say the same before. Ends with 1 at the first difference.

use compare::exported::{length, usbhs_allocate_all, usbhs_preview, NUMBERS_LEN};
use compare::lent::Lent;
use oracle::number;
use oracle::{Answer, Call, Dir, Driver, Kind, Rng};

const KINDS: [Kind; 4] = [Kind::Control, Kind::Isochronous, Kind::Bulk, Kind::Interrupt];

#[derive(Clone, Copy, Debug)]
struct Endpoint {
    address: u8,
    kind: u8,
    maximum: u16,
    interval: u8,
}

impl Endpoint {
    fn dir(&self) -> Dir {
        if self.address & 0x80 == 0 {
            Dir::Out
        } else {
            Dir::In
        }
    }

    fn buffers(&self) -> u32 {
        match (self.kind, self.dir()) {
            (1, Dir::Out) => 16,
            (1, Dir::In) => 2,
            _ => 1,
        }
    }
}

/// Settings of interfaces, each with its endpoints, and the descriptor's bytes.
struct Board {
    settings: Vec<(u8, Vec<Endpoint>)>,
    bytes: Vec<u8>,
}

impl Board {
    fn random(rng: &mut Rng, size: u32) -> Self {
        let clash = rng.chance(5);
        let kinds: Vec<u8> = (0..256).map(|_| rng.pick(&[0, 1, 1, 2, 2, 3])).collect();
        let mut settings = vec![];
        for _ in 0..rng.range(1, 4) {
            let endpoint = |rng: &mut Rng| {
                let number = if rng.chance(3) { 0 } else { rng.range(1, 15) as u8 };
                let address = number | if rng.chance(50) { 0x80 } else { 0 };
                let kind = if clash && rng.chance(30) { rng.below(4) as u8 } else { kinds[address as usize] };
                let most = if rng.chance(3) { 2047 } else { size };
                Endpoint { address, kind, maximum: rng.range(0, most.min(2047)) as u16, interval: rng.below(5) as u8 }
            };
            let endpoints: Vec<Endpoint> = (0..rng.below(4)).map(|_| endpoint(rng)).collect();
            settings.push((rng.pick(&[0, 0, 1, 2]), endpoints));
        }
        let mut bytes = vec![9, 2, 0, 0, 1, 1, 0, 0x80, 50];
        for (setting, endpoints) in &settings {
            bytes.extend([9, 4, rng.below(3) as u8, *setting, endpoints.len() as u8, 0xFF, 0, 0, 0]);
            for e in endpoints {
                if rng.chance(20) {
                    let extra = rng.range(2, 12) as u8; // a class's own kind
                    bytes.extend([extra, 0x24]);
                    bytes.extend(rng.bytes(extra as usize - 2));
                }
                let longer = rng.chance(20) as u8 * 2; // an audio endpoint's has 9 bytes
                let [low, high] = (e.maximum | (rng.below(4) as u16) << 11).to_le_bytes();
                bytes.extend([7 + longer, 5, e.address, e.kind | (rng.below(16) as u8) << 2, low, high, e.interval]);
                bytes.extend(rng.bytes(longer as usize));
            }
        }
        let total = bytes.len() as u16;
        bytes[2..4].copy_from_slice(&total.to_le_bytes());
        Self { settings, bytes }
    }

    /// The endpoints of setting 0, then the others, each address once; none where one has two types.
    fn list(&self) -> Option<Vec<Endpoint>> {
        let mut list: Vec<Endpoint> = vec![];
        for zeroth in [true, false] {
            for (_, endpoints) in self.settings.iter().filter(|(s, _)| (*s == 0) == zeroth) {
                for e in endpoints {
                    match list.iter_mut().find(|x| x.address == e.address) {
                        Some(x) if x.kind != e.kind => return None,
                        Some(x) => {
                            x.maximum = x.maximum.max(e.maximum);
                            x.interval = x.interval.min(e.interval);
                        }
                        None => list.push(*e),
                    }
                }
            }
        }
        Some(list)
    }
}

/// The accesses from an answer on, and what ends them.
fn to_end(mut answer: Answer, mut go_on: impl FnMut() -> Answer) -> (Vec<Answer>, Answer) {
    let mut accesses = vec![];
    while matches!(answer, Answer::Read { .. } | Answer::Write { .. } | Answer::Wait(_)) {
        accesses.push(answer);
        answer = go_on();
    }
    (accesses, answer)
}

/// An answer that is the end of an allocation wakes no task.
fn decode(word: u64) -> Answer {
    number::decode(word, |n| {
        assert_eq!(n, 0);
        vec![]
    })
}

struct Port(Lent);

impl Port {
    fn start_up(size: u32, count: u32) -> Self {
        let mut port = Self(Lent::new((size * count) as usize));
        port.run(&Call::StartUp { size, count, callback: false });
        port
    }

    fn run(&mut self, call: &Call) -> (Vec<Answer>, Answer) {
        let begun = self.0.plain(call);
        self.go_on(begun)
    }

    fn go_on(&mut self, begun: u64) -> (Vec<Answer>, Answer) {
        to_end(decode(begun), || decode(self.0.plain(&Call::Continue(0))))
    }

    fn allocate_all(&mut self, bytes: &[u8]) -> (Vec<Answer>, Answer) {
        // SAFETY: the state is lent, the bytes with their length
        let begun = unsafe { usbhs_allocate_all(self.0.state.as_mut_ptr(), bytes.as_ptr(), length(bytes)) };
        self.go_on(begun)
    }

    /// The numbers given, the buffers that they take, the refusal.
    fn preview(&self, bytes: &[u8]) -> Result<(Vec<u8>, u32, u32), Answer> {
        let (mut numbers, mut buffers, mut refusal) = ([0; NUMBERS_LEN], 0, 0);
        let (state, n) = (self.0.state.as_ptr(), length(bytes));
        // SAFETY: as above; the rooms are as long as the call says
        let word = unsafe { usbhs_preview(state, bytes.as_ptr(), n, numbers.as_mut_ptr(), &mut buffers, &mut refusal) };
        match decode(word) {
            Answer::End { result, .. } => Ok((numbers[..result as usize].to_vec(), buffers, refusal)),
            answer => Err(answer),
        }
    }
}

/// What the Rust does: one allocation after the other.
#[derive(Default)]
struct OneByOne {
    accesses: Vec<Answer>,
    numbers: Vec<u8>,
    buffers: u32,
    refusal: u32,
}

fn run(rust: &mut dyn Driver, call: Call) -> (Vec<Answer>, Answer) {
    to_end(rust.call(&call), || rust.call(&Call::Continue(0)))
}

fn one_by_one(rust: &mut dyn Driver, size: u32, list: &[Endpoint]) -> OneByOne {
    let mut done = OneByOne::default();
    for e in list {
        if u32::from(e.maximum) > size {
            done.refusal = 6; // the Rust panics
            return done;
        }
        let (maximum, interval, dir) = (e.maximum, e.interval, e.dir());
        let (accesses, end) = run(
            rust,
            Call::Allocate { kind: KINDS[e.kind as usize], address: Some(e.address), maximum, interval, dir },
        );
        match end {
            Answer::End { result, .. } => {
                done.accesses.extend(accesses);
                done.numbers.push(result as u8);
                done.buffers += e.buffers();
            }
            Answer::Refused(n) => {
                done.refusal = n.into();
                return done;
            }
            other => panic!("the Rust answers {other:?}"),
        }
    }
    done
}

fn main() {
    let (mut seed, mut runs) = (1, 10_000);
    let mut args = std::env::args().skip(1);
    while let Some(a) = args.next() {
        let number = args.next().and_then(|n| n.parse().ok()).expect("a number");
        match a.as_str() {
            "--seed" => seed = number,
            "--runs" => runs = number,
            _ => panic!("{a}?"),
        }
    }
    let mut rust = original::Rust::new();
    let (mut given, mut refused, mut errors, mut accesses) = (0, [0; 9], [0; 2], 0);
    for seed in seed..seed + runs {
        let mut rng = Rng::new(seed);
        let size = rng.pick(&[8, 16, 32, 64, 512]);
        let count = rng.range(1, 64);
        let board = Board::random(&mut rng, size);
        let mut port = Port::start_up(size, count);
        let before = port.0.state.clone();

        let short = &board.bytes[..board.bytes.len() - 1];
        assert_eq!(port.allocate_all(short), (vec![], Answer::Refused(17)), "seed {seed}");
        assert_eq!(port.preview(short), Err(Answer::Refused(17)), "seed {seed}");
        errors[0] += 1;
        let Some(list) = board.list() else {
            assert_eq!(port.allocate_all(&board.bytes), (vec![], Answer::Refused(18)), "seed {seed}");
            assert_eq!(port.preview(&board.bytes), Err(Answer::Refused(18)), "seed {seed}");
            assert!(port.0.state == before, "seed {seed}");
            errors[1] += 1;
            continue;
        };

        rust.fresh();
        run(&mut rust, Call::StartUp { size, count, callback: false });
        let wanted = one_by_one(&mut rust, size, &list);
        let said = (wanted.numbers.clone(), wanted.buffers, wanted.refusal);
        assert_eq!(port.preview(&board.bytes), Ok(said), "seed {seed}: {list:?}");
        assert!(port.0.state == before, "seed {seed}");
        let (own, end) = port.allocate_all(&board.bytes);
        if wanted.refusal != 0 {
            assert_eq!((own, end), (vec![], Answer::Refused(wanted.refusal as u8)), "seed {seed}: {list:?}");
            assert!(port.0.state == before, "seed {seed}");
            refused[wanted.refusal as usize] += 1;
            continue;
        }
        assert_eq!(own, wanted.accesses, "seed {seed}: {list:?}");
        assert_eq!(end, Answer::End { result: list.len() as u32, wakes: vec![] }, "seed {seed}");
        // the states are alike: one more allocation answers alike
        let more = Call::Allocate { kind: Kind::Bulk, address: None, maximum: 8, interval: 0, dir: Dir::In };
        assert_eq!(port.run(&more), run(&mut rust, more), "seed {seed}: {list:?}");
        given += 1;
        accesses += own.len();
    }
    println!("{runs} boards: {given} allocated, {accesses} accesses compared; refused with 6, 7, 8: {:?}; with 17, 18: {errors:?}: no difference", &refused[6..]);
}
