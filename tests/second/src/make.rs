//! A maker of sheets: from a seed, good ones, damaged ones and nonsense.

use crate::chain;
use crate::plan::{admit, all, has, set_of, Label, Plan, Set};
use crate::prng::Prng;
use crate::session::{play, Adversary, Keepers};
use crate::sheet::{write, Sheet, Slot, LONGEST};
use crate::width::{Value, Width, CURRENT};
use std::collections::BTreeMap;

/// The seed of made sheet number `place`, of a whole that has a seed too.
pub fn own_seed(seed: u64, place: u64) -> u64 {
    Prng::new(seed ^ place << 32).draw()
}

/// The sheet of a seed.
pub fn sheet(seed: u64) -> Vec<u8> {
    sheet_at(CURRENT, seed)
}

/// The same at a width.
pub fn sheet_at(width: Width, seed: u64) -> Vec<u8> {
    let mut rng = Prng::new(seed);
    match rng.below(1000) {
        0..=2 => oversized(width, &mut rng),
        3..=5 => vec![],
        6..=9 => nonsense(&mut rng),
        10..=79 => bad_head(width, &mut rng),
        80..=279 => damaged(width, &mut rng),
        280..=479 => chain::sheet(width, &mut rng).write(),
        _ => good(width, &mut rng).write(),
    }
}

/// A sheet that is accepted.
pub fn good(width: Width, rng: &mut Prng) -> Sheet {
    let plan = plan(width, rng);
    let faulty = faulty(&plan, rng);
    lied_to(width, plan, faulty, rng)
}

/// A sheet with frames of the faulty boards for this plan.
pub fn lied_to(width: Width, plan: Plan, faulty: Set, rng: &mut Prng) -> Sheet {
    let value = likely(width, plan.span, rng);
    let mut liar = Liar::new(width, &plan, faulty, rng);
    play(width, &plan, value, faulty, &mut liar, None);
    let frames = liar.frames;
    Sheet {
        width,
        plan,
        value,
        faulty,
        frames,
    }
}

// Plans

/// An accepted plan.
pub fn plan(width: Width, rng: &mut Prng) -> Plan {
    let n = rng.pick(&[
        1, 2, 3, 3, 4, 4, 4, 5, 5, 5, 5, 6, 6, 6, 6, 6, 6, 7, 7, 7, 7,
    ]);
    let sets = sets(n, rng);
    plan_of(width, n, sets, rng)
}

/// An accepted plan with the longest frames, of 120 values: seven boards, and a set of six that holds the dealer.
pub fn deepest_plan(width: Width, rng: &mut Prng) -> Plan {
    let outside = rng.below(7) as u8;
    let mut plan = plan_of(width, 7, vec![all(7) & !set_of([outside])], rng);
    plan.dealer = (outside + 1 + rng.below(6) as u8) % 7;
    plan.depth = rng.pick(&[0, 7]);
    plan
}

/// An accepted plan with these sets.
fn plan_of(width: Width, n: u8, sets: Vec<Set>, rng: &mut Prng) -> Plan {
    let largest = width.blank();
    let span = match rng.below(8) {
        0 => largest,
        1 => 2 + rng.below(largest as usize - 1) as Value,
        2 | 3 => 2,
        4 if width == Width::Two => rng.pick(&[16, 255, 256, 257]),
        4 => 16,
        _ => 2 + rng.below(4) as Value,
    };
    let default = match rng.below(6) {
        0..=2 => 0,
        3 => span - 1,
        _ => likely(width, span, rng),
    };
    let dealer = rng.below(n as usize) as u8;
    let depth = rng.pick(&[0, 4, 4, 4, 5, 6, 7]);
    Plan {
        n,
        sets,
        dealer,
        span,
        default,
        depth,
    }
}

/// A list of sets of which no three cover all boards, at times empty.
fn sets(n: u8, rng: &mut Prng) -> Vec<Set> {
    let mut sets = match rng.below(8) {
        0 | 1 => threshold(n),
        2 => vec![all(n) & !set_of([rng.below(n as usize) as u8])],
        3..=5 => two_sided(n, rng),
        _ => vec![],
    };
    if admit(n, &sets).is_err() {
        sets.clear();
    }
    let wanted = if rng.chance(1, 20) {
        32
    } else {
        sets.len() + rng.below(6)
    };
    for _ in 0..60 {
        let mut set = rng.byte() & all(n);
        if rng.chance(1, 2) {
            set &= rng.byte();
        }
        let mut longer = sets.clone();
        longer.insert(rng.below(sets.len() + 1), set);
        if longer.len() <= wanted && admit(n, &longer).is_ok() {
            sets = longer;
        }
    }
    stretch(&mut sets, rng);
    sets
}

/// At times adds repeats and parts of listed sets, up to 32, and at times puts larger sets later: sets get other
/// places, and the same sets are tolerated.
fn stretch(sets: &mut Vec<Set>, rng: &mut Prng) {
    if sets.is_empty() || rng.chance(1, 2) {
        return;
    }
    let (more, parts) = (rng.pick(&[0, 1, 2, 4, 32]), rng.pick(&[1, 3]));
    for _ in 0..more.min(32 - sets.len()) {
        let mut set = rng.pick(sets);
        if rng.chance(parts, 3) {
            set &= rng.byte();
        }
        sets.insert(rng.below(sets.len() + 1), set);
    }
    if rng.chance(1, 2) {
        sets.sort_by_key(|s| s.count_ones());
    }
}

/// All sets of fewer than a third of the boards.
fn threshold(n: u8) -> Vec<Set> {
    let size = (n as u32 - 1) / 3;
    (0..=all(n)).filter(|s| s.count_ones() == size).collect()
}

/// A large set, and sets around one board outside it: the shape that splits roots.
fn two_sided(n: u8, rng: &mut Prng) -> Vec<Set> {
    let (outside, never) = (rng.below(n as usize) as u8, rng.below(n as usize) as u8);
    let large = all(n) & !set_of([outside, never]);
    let mut sets = vec![large];
    for _ in 0..rng.below(4) {
        sets.push(rng.byte() & rng.byte() & large | set_of([outside]));
    }
    sets
}

/// A tolerated set of faulty boards: often a whole listed set, at times without the dealer, empty if none is listed.
fn faulty(plan: &Plan, rng: &mut Prng) -> Set {
    let sets = &plan.sets;
    if sets.is_empty() {
        return 0;
    }
    let holding: Vec<Set> = sets
        .iter()
        .copied()
        .filter(|s| has(*s, plan.dealer))
        .collect();
    let set = if !holding.is_empty() && rng.chance(1, 2) {
        draw(&holding, rng)
    } else {
        draw(sets, rng)
    };
    match rng.below(6) {
        0 => set & rng.byte(),
        1 => set & !set_of([plan.dealer]),
        _ => set,
    }
}

/// One of these sets, at times a large one.
fn draw(sets: &[Set], rng: &mut Prng) -> Set {
    let tries = rng.pick(&[1, 1, 30]);
    let drawn = (0..tries).map(|_| rng.pick(sets));
    drawn.max_by_key(|s| s.count_ones()).unwrap()
}

// Lies

/// Makes the frames of the faulty boards as they are asked for, and keeps them.
struct Liar<'a> {
    rng: &'a mut Prng,
    width: Width,
    plan: Plan,
    faulty: Set,
    frames: BTreeMap<Slot, Vec<u8>>,
    /// Lies, out of 16 values, at nodes within F and elsewhere.
    inside: usize,
    outside: usize,
    /// Out of 16 frames: missing, of another length, lies only to some receivers.
    missing: usize,
    misfit: usize,
    /// Out of 16 lies: a value of m or more.
    beyond: usize,
    /// Receivers that are lied to, and the two values most lies use.
    fooled: Set,
    common: [Value; 2],
    /// From this run on all is the truth.
    until: u8,
}

impl<'a> Liar<'a> {
    fn new(width: Width, plan: &Plan, faulty: Set, rng: &'a mut Prng) -> Liar<'a> {
        let common = common(width, plan.span, rng);
        Liar {
            width,
            plan: plan.clone(),
            faulty,
            frames: BTreeMap::new(),
            inside: rng.pick(&[1, 4, 8, 8, 12, 16]),
            outside: rng.pick(&[0, 0, 0, 0, 1, 4, 8]),
            missing: rng.pick(&[0, 0, 0, 1, 4]),
            misfit: rng.pick(&[0, 0, 0, 1, 4]),
            beyond: rng.pick(&[0, 0, 1, 4]),
            fooled: if rng.chance(1, 2) { !0 } else { rng.byte() },
            common: if rng.chance(1, 2) { [0, 1] } else { common },
            until: rng.pick(&[1, 2, 9, 9, 9]),
            rng,
        }
    }

    fn lie(&mut self) -> Value {
        let (span, width) = (self.plan.span, self.width);
        if self.rng.chance(self.beyond, 16) && beyond(width, span) {
            return not_below(width, span, self.rng);
        }
        if self.rng.chance(15, 16) {
            self.rng.pick(&self.common)
        } else {
            self.rng.value(width) % span
        }
    }

    /// One value of a frame: the truth, as a healthy board has it, or a lie.
    fn value(&mut self, slot: Slot, label: &[u8], keepers: &Keepers) -> Value {
        let within = label.iter().all(|b| has(self.faulty, *b));
        let rate = if within { self.inside } else { self.outside };
        let fooled = has(self.fooled, slot.receiver) && slot.run <= self.until;
        if label.is_empty() || fooled && self.rng.chance(rate, 16) {
            return self.lie();
        }
        let witness = if within {
            slot.receiver
        } else {
            *keepers.keys().next().unwrap()
        };
        keepers[&witness].cells[label]
    }

    /// Makes a frame too short or too long, by any number of bytes, at times by 256 bytes or by 256 values.
    fn bend(&mut self, frame: &mut Vec<u8>) {
        match self.rng.below(16) {
            0..=7 => frame.truncate(self.rng.below(frame.len())),
            8..=14 => {
                for _ in 0..1 + self.rng.below(3) {
                    frame.push(self.rng.byte());
                }
            }
            _ => {
                let values = self.width == Width::Two && self.rng.chance(1, 2);
                let more = if values { 512 } else { 256 };
                frame.resize(frame.len() + more, 0);
            }
        }
    }
}

/// Whether numbers of m or more are made: at one byte not for the largest span, which leaves one.
fn beyond(width: Width, span: Value) -> bool {
    width == Width::Two || span < width.blank()
}

/// A number of m or more; of two bytes at times m, the one after it or FFFF.
fn not_below(width: Width, span: Value, rng: &mut Prng) -> Value {
    let largest = width.blank();
    let near = width == Width::Two && rng.chance(1, 2);
    if near {
        return rng.pick(&[span, width.raise(span, 1), largest]);
    }
    span + rng.below((largest - span) as usize + 1) as Value
}

/// A value; of two bytes at times m - 1, or one that fills its low byte or comes after.
fn likely(width: Width, span: Value, rng: &mut Prng) -> Value {
    let near = width == Width::Two && rng.chance(1, 3);
    if near {
        return rng.pick(&[span - 1, 255, 256]).min(span - 1);
    }
    rng.below(span as usize) as Value
}

/// Two values that most lies use; of two bytes at times they differ in one byte alone.
pub fn common(width: Width, span: Value, rng: &mut Prng) -> [Value; 2] {
    let [first, second] = [0, 1].map(|_| likely(width, span, rng));
    if width == Width::Two && rng.chance(1, 2) {
        let other = first ^ rng.pick(&[0x0001, 0x0080, 0x0100, 0x8000]);
        return [first, if other < span { other } else { second }];
    }
    [first, second]
}

/// Any number; of two bytes at times one about m, FFFF, or one that a single byte has.
pub fn any_number(width: Width, span: Value, rng: &mut Prng) -> Value {
    match width {
        Width::One => rng.byte().into(),
        Width::Two => match rng.below(4) {
            0 => rng.pick(&[span - 1, span, width.raise(span, 1), width.blank()]),
            1 => rng.byte().into(),
            _ => rng.value(width),
        },
    }
}

impl Adversary for Liar<'_> {
    fn frame(&mut self, slot: Slot, nodes: &[Label], keepers: &Keepers) -> Option<Vec<u8>> {
        if self.rng.chance(self.missing, 16) {
            return None;
        }
        let values = nodes.iter().map(|l| self.value(slot, l, keepers));
        let values: Vec<Value> = values.collect();
        let mut frame = self.width.encode(&values);
        if self.rng.chance(self.misfit, 16) {
            self.bend(&mut frame);
        }
        self.frames.insert(slot, frame.clone());
        Some(frame)
    }
}

// Damage

/// A sheet with another head: it meets one of 22, 1, 3 to 7, 26, 8, 18 and 23, or more than one, or has no sets.
fn bad_head(width: Width, rng: &mut Prng) -> Vec<u8> {
    let sheet = good(width, rng);
    let mut lines = sheet.lines();
    for _ in 0..rng.pick(&[1, 1, 1, 2, 3]) {
        hurt_head(width, &mut lines[0], &sheet.plan, rng);
    }
    let mut text = write(&lines);
    if rng.chance(1, 8) {
        hurt_text(&mut text, rng);
    }
    text
}

fn hurt_head(width: Width, head: &mut Vec<u8>, plan: &Plan, rng: &mut Prng) {
    let (at, last) = (width.head(), head.len() - 1);
    match rng.below(18) {
        0 => head[0] = rng.pick(&[0, 8, 9, 255]),
        1 if last >= at.default => width.put_number(head, at.span, rng.pick(&[0, 1])),
        2 if last >= at.dealer => raise_default(width, head, rng),
        3 if last > at.dealer => head[at.dealer] = plan.n + rng.below(3) as u8,
        4 if last > at.depth => head[at.depth] = rng.pick(&BAD_DEPTHS),
        5 if last >= at.count => raise_value(width, head, rng.below(3) as Value),
        6 => {
            swap_sets(width, head, &[]);
            if rng.chance(1, 2) {
                *head.last_mut().unwrap() = 0;
            }
        }
        7 => swap_sets(width, head, &vec![0; 33 + rng.below(3)]),
        8 => swap_sets(width, head, &vec![rng.byte(); 1 + rng.below(3)]),
        9 => swap_sets(width, head, &covering(plan.n, rng)),
        10 => head[last] = rng.byte() & all(plan.n),
        11 => head[last] = rng.byte(),
        12 => head.truncate(rng.below(head.len() + 1).max(1)),
        13 if last >= at.count => {
            raise_value(width, head, 0);
            head[last] = rng.byte();
        }
        14 if last >= at.dealer => {
            width.put_number(head, at.span, rng.pick(&[0, 1]));
            raise_default(width, head, rng);
        }
        15 if last > at.depth => {
            raise_default(width, head, rng);
            head[at.depth] = rng.pick(&BAD_DEPTHS);
        }
        16 if last > 0 => drop(head.remove(rng.below(head.len()))),
        _ => head.push(rng.byte()),
    }
}

/// Depths that meet number 8.
pub const BAD_DEPTHS: [u8; 8] = [1, 2, 3, 8, 9, 128, 132, 255];

/// Gives a head a default that is not below its span.
fn raise_default(width: Width, head: &mut [u8], rng: &mut Prng) {
    let (at, by) = (width.head(), rng.pick(&[0, 0, 1, 2, width.blank()]));
    let span = width.number_at(head, at.span);
    width.put_number(head, at.default, width.raise(span, by));
}

/// Gives a head a dealer's value that is so much above its span.
fn raise_value(width: Width, head: &mut [u8], by: Value) {
    let at = width.head();
    let span = width.number_at(head, at.span);
    width.put_number(head, at.value, width.raise(span, by));
}

/// One to three sets that cover all boards, at times with others.
fn covering(n: u8, rng: &mut Prng) -> Vec<Set> {
    let count = 1 + rng.below(3);
    let mut sets = vec![0; count];
    (0..n).for_each(|board| sets[rng.below(count)] |= set_of([board]));
    for _ in 0..rng.pick(&[0, 0, 1, 3]) {
        let place = rng.below(sets.len() + 1);
        sets.insert(place, rng.byte() & rng.byte() & all(n));
    }
    sets
}

/// Gives a head other sets.
fn swap_sets(width: Width, head: &mut Vec<u8>, sets: &[Set]) {
    if head.len() >= width.head_length(0) {
        let faulty = head[head.len() - 1];
        head.truncate(width.head().count);
        head.push(sets.len() as u8);
        head.extend(sets);
        head.push(faulty);
    }
}

/// A good sheet with damaged frame lines or text.
fn damaged(width: Width, rng: &mut Prng) -> Vec<u8> {
    let sheet = good(width, rng);
    let mut lines = sheet.lines();
    for _ in 0..rng.pick(&[0, 1, 1, 1, 2]) {
        hurt_lines(&mut lines, rng);
    }
    let mut text = write(&lines);
    if rng.chance(1, 3) {
        hurt_text(&mut text, rng);
    }
    text
}

fn hurt_lines(lines: &mut Vec<Vec<u8>>, rng: &mut Prng) {
    let place = 1 + rng.below(lines.len());
    if place >= lines.len() {
        lines.push((0..rng.below(7)).map(|_| rng.below(5) as u8).collect());
        return;
    }
    let byte = rng.below(4);
    match rng.below(8) {
        0 => lines[place].truncate(rng.below(5)),
        1 => lines.insert(place, lines[place].clone()),
        2 => lines.swap(place, 1),
        3 => lines.insert(place, vec![]),
        4 => drop(lines.remove(place)),
        5 if lines[place].len() > 3 => lines[place][byte] = rng.byte(),
        _ if lines[place].len() > 3 => lines[place][byte] = rng.below(8) as u8,
        _ => lines[place].push(rng.byte()),
    }
}

/// Damages the text itself: characters, digits, newlines.
fn hurt_text(text: &mut Vec<u8>, rng: &mut Prng) {
    let place = rng.below(text.len());
    match rng.below(9) {
        0 => drop(text.pop()),
        1 => text.push(b'\n'),
        2 => drop(text.remove(place)),
        3 => text.insert(place, rng.pick(b"0123456789ABCDEF")),
        4 => text[place] = rng.pick(b"gG/:@`af \t\r\0\xFF"),
        5 => text.insert(place, b'\n'),
        6 => text.make_ascii_lowercase(),
        7 => {
            *text = String::from_utf8_lossy(text)
                .replace('\n', "\r\n")
                .into_bytes()
        }
        _ => text.truncate(place),
    }
}

fn nonsense(rng: &mut Prng) -> Vec<u8> {
    let length = rng.below(40);
    (0..length)
        .map(|_| rng.pick(b"0000111123456789ABCDEF\n\n\n"))
        .collect()
}

/// A sheet of about the greatest length, filled up by an overlong frame or by newlines.
fn oversized(width: Width, rng: &mut Prng) -> Vec<u8> {
    let mut text = good(width, rng).write();
    let wanted = LONGEST - 2 + rng.below(5);
    let ending = text.pop();
    while text.len() + 1 < wanted {
        text.push(if rng.chance(1, 100_000) { b'\n' } else { b'0' });
    }
    text.extend(ending);
    text
}
