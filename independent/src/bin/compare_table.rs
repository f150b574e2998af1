//! A table of readers: runs the proved code and the independent version on the same histories of calls, by two technicians and by strangers, and
//! compares all that they give back: compare_table [TIMES [SEED]]. Shows the first difference and exits 1, if there is one.

use fluturenc::bus::raw as reader;
use fluturenc::table::{self as typed, raw, Technician};
use independent::check::{arguments, same, Counted, BEYOND};
use independent::layout::{Profile, LONGEST};
use independent::random::Random;
use independent::streams::{self, line_buffer, run_length, SORTS};
use independent::table::Table;
use independent::told;

/// A call of a technician, or of a stranger.
#[derive(Clone, Debug)]
enum Call {
    Open(u8),
    Feed(usize, Vec<u8>, Vec<u8>),
    Finish(usize),
    Close(usize),
}

/// What a call gives back: its number, how many nibbles it took, and the line buffer.
type Told = (u64, usize, Vec<u8>);

fn told(number: u64) -> Told {
    (number, 0, vec![])
}

fn call(bytes: &mut [u8], who: u8, call: &Call) -> Told {
    match call {
        Call::Open(profile) => told(raw::open(bytes, who, *profile).into()),
        Call::Feed(place, nibbles, line) => {
            let mut line = line.clone();
            let (number, taken) = raw::feed(bytes, who, *place, nibbles, &mut line);
            (number, taken, line)
        }
        Call::Finish(place) => told(raw::finish(bytes, who, *place)),
        Call::Close(place) => told(raw::close(bytes, who, *place).into()),
    }
}

/// The same by readers of one's own: each place is its owner's byte, 0 where it is free, and the state of such a reader.
fn call_apart(bytes: &mut [u8], who: u8, call: &Call) -> Told {
    let length = 1 + reader::state_length();
    let line = match call {
        Call::Feed(_, _, line) => line.clone(),
        _ => vec![],
    };
    if bytes.len() < 8 * length {
        return (11, 0, line);
    }
    if who != 1 && who != 2 {
        return (32, 0, line);
    }
    let mut places: Vec<&mut [u8]> = bytes.chunks_exact_mut(length).take(8).collect();
    if let Call::Open(profile) = call {
        if *profile > 1 {
            return told(11);
        }
        let Some(i) = places.iter().position(|p| p[0] == 0) else {
            return told(33);
        };
        places[i][0] = who;
        same("the opening of one's own", call, reader::open(*profile, &mut places[i][1..]), 0);
        return told(i as u64);
    }
    let (Call::Feed(place, ..) | Call::Finish(place) | Call::Close(place)) = call else {
        unreachable!("openings are told above");
    };
    let Some(held) = places.get_mut(*place).filter(|p| p[0] == who) else {
        return (34, 0, line);
    };
    match call {
        Call::Feed(_, nibbles, _) => {
            let mut line = line;
            let (number, taken) = reader::feed(&mut held[1..], nibbles, &mut line);
            (number, taken, line)
        }
        Call::Finish(_) => told(reader::finish(&mut held[1..])),
        _ => {
            held[0] = 0;
            told(0)
        }
    }
}

/// How an answer is counted: a refusal by its number, and all else as 0.
fn refusal(number: u64) -> u8 {
    if (1..=36).contains(&number) {
        return number as u8;
    }
    0
}

fn count(counted: &mut Counted, call: &Call, number: u64) {
    match call {
        Call::Open(_) => counted.count("table_open", if number < 8 { 0 } else { number as u8 }),
        Call::Feed(..) => counted.count("table_feed", refusal(number)),
        Call::Finish(_) => counted.count("table_finish", refusal(number)),
        Call::Close(_) => counted.count("table_close", refusal(number)),
    }
}

/// The proved table, whose bytes stand before others, and again with types; readers of one's own; and the plain table.
struct Tables {
    proved: Vec<u8>,
    apart: Vec<u8>,
    typed: typed::Table,
    plain: Table,
}

fn technician(who: u8) -> Option<Technician> {
    [Technician::First, Technician::Second].into_iter().find(|t| *t as u8 == who)
}

impl Tables {
    fn new(random: &mut Random) -> Tables {
        let mut proved: Vec<u8> = (0..raw::table_length()).map(|_| random.byte()).collect();
        proved.extend(BEYOND);
        let mut apart = proved.clone();
        (0..8).for_each(|i| apart[i * (1 + reader::state_length())] = 0);
        same("a new table", &(), (raw::new(&mut proved), &proved), (0, &apart));
        Tables { proved, apart, typed: typed::Table::new(), plain: Table::default() }
    }

    fn call(&mut self, who: u8, asked: &Call, counted: &mut Counted) -> Told {
        let context = &(who, asked, self.plain.owners());
        let ours = call(&mut self.proved, who, asked);
        same("a call of a place, and of a reader of one's own", context, &ours, &call_apart(&mut self.apart, who, asked));
        if self.proved != self.apart {
            let place = self.proved.iter().zip(&self.apart).position(|(a, b)| a != b);
            same("the bytes of the table", context, place, None);
        }
        match asked {
            Call::Open(profile) => {
                let theirs = self.plain.open(who, *profile);
                same("opening", context, ours.0, theirs.map_or_else(u64::from, |place| place as u64));
                if let (Some(t), Some(p)) = (technician(who), Profile::from_number(*profile)) {
                    let typed = self.typed.open(t, told::profile(p));
                    same("opening with types", context, typed.map_err(|why| why.number()), theirs);
                }
            }
            Call::Feed(place, nibbles, line) => {
                let (mut typed, mut theirs) = (line.clone(), line.clone());
                let wanted = self.plain.feed(who, *place, nibbles, &mut theirs);
                same("feeding", context, &(told::answer(reader::answer(ours.0)), ours.1), &wanted);
                same("the line buffer", context, &ours.2, &theirs);
                if let Some(t) = technician(who) {
                    let fed = self.typed.feed(t, *place, nibbles, &mut typed);
                    same("feeding with types", context, (told::answer(fed.answer), fed.taken, typed), (wanted.0, wanted.1, theirs));
                }
            }
            Call::Finish(place) => {
                let wanted = self.plain.finish(who, *place);
                same("finish", context, &told::answer(reader::answer(ours.0)), &wanted);
                if let Some(t) = technician(who) {
                    same("finish with types", context, told::answer(self.typed.finish(t, *place)), wanted);
                }
            }
            Call::Close(place) => {
                let wanted = self.plain.close(who, *place);
                same("closing", context, ours.0, u64::from(wanted.err().unwrap_or(0)));
                if let Some(t) = technician(who) {
                    same("closing with types", context, self.typed.close(t, *place).map_err(|why| why.number()), wanted);
                }
            }
        }
        let owners: Vec<u8> = self.proved.chunks_exact(1 + reader::state_length()).map(|p| p[0]).collect();
        same("whose the places are", context, &owners[..], &self.plain.owners()[..]);
        count(counted, asked, ours.0);
        ours
    }
}

fn any_place(random: &mut Random) -> usize {
    if random.once_in(12) {
        return random.pick(&[8, 9, 255, 256, usize::MAX, usize::MAX / 371, usize::MAX / 371 + 1, 1 << 63]);
    }
    random.below(8)
}

fn any_technician(random: &mut Random) -> u8 {
    if random.once_in(20) {
        return random.pick(&[0, 3, 4, 128, 255]);
    }
    random.pick(&[1, 2])
}

fn any_profile(random: &mut Random) -> u8 {
    if random.once_in(8) {
        return random.pick(&[2, 3, 255]);
    }
    random.pick(&[0, 1])
}

/// One history: every place has a capture, which whoever holds it goes on with.
fn compare_history(random: &mut Random, calls: usize, counted: &mut Counted) {
    let mut tables = Tables::new(random);
    let mut captures: [(Vec<u8>, usize); 8] = Default::default();
    let closing = random.pick(&[12, 40, 400]);
    for _ in 0..calls {
        let place = any_place(random);
        let owner = tables.plain.owners().get(place).copied().unwrap_or(0);
        let who = if random.once_in(2) { any_technician(random) } else { owner.max(1) };
        let asked = match random.below(16) {
            0 | 1 => Call::Open(any_profile(random)),
            2 => Call::Finish(place),
            _ if random.once_in(closing) => Call::Close(place),
            _ => {
                let profile = tables.plain.held(owner, place).map_or(Profile::VV5404, |reader| reader.profile);
                let (capture, at) = &mut captures[place % 8];
                if *at >= capture.len() {
                    let sort = random.pick(&SORTS);
                    (*capture, *at) = (streams::stream(random, sort, profile), 0);
                }
                let length = run_length(random, capture.len() - *at);
                Call::Feed(place, capture[*at..*at + length].to_vec(), line_buffer(random, profile))
            }
        };
        let (number, taken, _) = tables.call(who, &asked, counted);
        if let Call::Feed(..) = asked {
            captures[place % 8].1 += if number == 10 { taken + 1 } else { taken };
        }
    }
}

/// Tables that no calls left: any owners, and states that are damaged or are not there.
fn compare_any_bytes(random: &mut Random, times: usize, counted: &mut Counted) {
    let length = 1 + reader::state_length();
    for _ in 0..times {
        let mut bytes: Vec<u8> = (0..raw::table_length()).map(|_| random.byte()).collect();
        bytes.extend(BEYOND);
        for place in bytes.chunks_exact_mut(length) {
            place[0] = random.pick(&[0, 1, 1, 2, 2, 3, 255]);
            if random.once_in(4) {
                continue;
            }
            reader::open(random.pick(&[0, 1]), &mut place[1..]);
            reader::feed(&mut place[1..], &streams::biased_noise(random, 40), &mut [0; LONGEST]);
            for _ in 0..random.below(3) {
                place[1 + random.below(14)] = random.pick(&[0, 1, 2, 3, 6, 7, 255, 0x9D, 0x80]);
            }
        }
        for _ in 0..8 {
            let (who, place) = (any_technician(random), any_place(random));
            let asked = match random.below(6) {
                0 => Call::Open(any_profile(random)),
                1 => Call::Finish(place),
                2 => Call::Close(place),
                _ => Call::Feed(place, streams::biased_noise(random, 400), line_buffer(random, Profile::VV5404)),
            };
            let before = bytes.clone();
            let mut apart = bytes.clone();
            let ours = call(&mut bytes, who, &asked);
            same("a call of any bytes", &(who, &asked), &ours, &call_apart(&mut apart, who, &asked));
            same("any bytes after it", &(who, &asked, &before), &bytes, &apart);
            count(counted, &asked, ours.0);
        }
    }
}

/// Too few bytes for a table.
fn compare_short(counted: &mut Counted) {
    for room in 0..raw::table_length() {
        let before = vec![1; room];
        let mut bytes = before.clone();
        same("a new table, room", &room, raw::new(&mut bytes), 12);
        counted.count("table_new", 12);
        for asked in [Call::Open(0), Call::Feed(0, vec![1, 2, 3], vec![4; LONGEST]), Call::Finish(0), Call::Close(0)] {
            let ours = call(&mut bytes, 1 + (room % 3) as u8, &asked);
            same("a call of a short table", &(room, &asked), &ours, &call_apart(&mut before.clone(), 1, &asked));
            count(counted, &asked, ours.0);
        }
        same("a short table after them", &room, &bytes, &before);
    }
}

fn main() {
    let (times, mut random) = arguments();
    let mut counted = Counted::default();
    compare_short(&mut counted);
    for _ in 0..100 * times {
        counted.count("table_new", 0);
        compare_history(&mut random, 1000, &mut counted);
    }
    compare_any_bytes(&mut random, 2000 * times, &mut counted);
    counted.tell(&[
        ("table_new", &[0, 12]),
        ("table_open", &[0, 11, 32, 33]),
        ("table_feed", &[0, 1, 2, 4, 5, 6, 7, 8, 9, 10, 11, 12, 32, 34]),
        ("table_finish", &[0, 1, 2, 3, 8, 9, 11, 32, 34]),
        ("table_close", &[0, 11, 32, 34]),
    ]);
}
