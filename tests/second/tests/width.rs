//! Values in one byte and in two: how they are written, and sessions that are widened.

use second::board::State;
use second::keeper::Keeper;
use second::plan::{has, Tree};
use second::script::{Act, Step};
use second::scripts::Script;
use second::sheet::{read_at, CELLS, LONGEST};
use second::width::Head;
use second::{
    chain, corpus, make, play_at, play_lent, print, session, wide, widen, Mistake, Outcome,
    Refusal, Sheet, Value, Width,
};
use std::collections::{BTreeMap, BTreeSet};
use Width::{One, Two};

fn printed(width: Width, sheet: &str, mistake: Option<Mistake>) -> String {
    let printed = print(&play_at(width, sheet.as_bytes(), mistake));
    String::from_utf8(printed).unwrap()
}

fn widened(sheet: &str) -> String {
    String::from_utf8(widen::sheet(sheet.as_bytes())).unwrap()
}

// Bytes

#[test]
fn high_byte_comes_first() {
    assert_eq!(Two.encode(&[0x0102, 0xFE]), [1, 2, 0, 0xFE]);
    assert_eq!(Two.decode(&[1, 2, 0, 0xFE]), [0x0102, 0xFE]);
    assert_eq!(Two.number_at(&[9, 1, 2, 9], 1), 0x0102);
    let mut bytes = [9; 4];
    Two.put_number(&mut bytes, 1, 0x0304);
    assert_eq!(bytes, [9, 3, 4, 9]);
    assert_eq!(One.encode(&[1, 0xFE]), [1, 0xFE]);
    assert_eq!(One.decode(&[1, 0xFE]), [1, 0xFE]);
    assert_eq!(One.number_at(&[9, 1, 2, 9], 1), 1);
}

#[test]
fn bytes_lead_back() {
    for width in Width::BOTH {
        let values: Vec<Value> = (0..=width.blank()).collect();
        assert_eq!(width.decode(&width.encode(&values)), values);
        let bytes: Vec<u8> = (0..=255).rev().collect();
        assert_eq!(width.encode(&width.decode(&bytes)), bytes);
    }
}

#[test]
fn odd_bytes_have_no_values() {
    for length in 0..9 {
        let bytes = vec![7; length];
        assert_eq!(One.decode(&bytes).len(), length);
        let values = if length % 2 == 0 { length / 2 } else { 0 };
        assert_eq!(Two.decode(&bytes).len(), values);
    }
}

#[test]
fn heads_and_lines() {
    let head = |span, default, dealer, depth, value, count, sets| Head {
        span,
        default,
        dealer,
        depth,
        value,
        count,
        sets,
    };
    assert_eq!(One.head(), head(1, 2, 3, 4, 5, 6, 7));
    assert_eq!(Two.head(), head(1, 3, 5, 6, 7, 9, 10));
    let lengths = |width: Width| (width.head_length(0), width.head_length(32));
    assert_eq!((lengths(One), lengths(Two)), ((8, 40), (11, 43)));
    assert_eq!((One.line_length(), One.output_needed()), (9, 63));
    assert_eq!((Two.line_length(), Two.output_needed()), (11, 77));
    assert_eq!(Width::BOTH.map(Width::blank), [0xFF, 0xFFFF]);
    assert_eq!((One.raise(250, 9), Two.raise(250, 9)), (255, 259));
    assert_eq!(Two.raise(0xFFFE, 9), 0xFFFF);
}

// Sheets in two bytes

/// Case 7, widened, and the same with other values and spans.
#[test]
fn cases_in_two_bytes() {
    let sheet = |span: &str, values: [&str; 3]| {
        let line = |i: usize| format!("010100{:02X}{}\n", i + 1, values[i]);
        let lines: String = (0..3).map(line).collect();
        format!("04{span}000700000005040102040801\n{lines}")
    };
    let all = |decision: &str| [1, 2, 3].map(|i| format!("0{i}{decision}0000\n")).concat();
    let prints = |span: &str, values: [&str; 3], decision: &str| {
        assert_eq!(printed(Two, &sheet(span, values), None), all(decision));
    };
    prints("0010", ["0005", "0005", "0007"], "0005");
    prints("0010", ["000F"; 3], "000F");
    prints("0010", ["0010"; 3], "0007");
    prints("0010", ["0F00"; 3], "0007");
    prints("0100", ["00FF"; 3], "00FF");
    prints("0100", ["0100"; 3], "0007");
    prints("0101", ["0100", "0100", "0001"], "0100");
    prints("FFFF", ["FFFE"; 3], "FFFE");
    // FFFF, the mark, is below no span.
    prints("FFFF", ["FFFF"; 3], "0007");
    // Misfits: no value, an odd number of bytes, two values.
    for misfit in ["", "00", "05", "000500", "00050005"] {
        prints("0010", [misfit; 3], "0007");
        prints("0010", ["0005", "0005", misfit], "0005");
    }
}

#[test]
fn refusals_in_two_bytes() {
    let refused = |sheet: &str, number: &str| {
        assert_eq!(
            printed(Two, sheet, None),
            format!("FF{number}\n"),
            "{sheet}"
        );
    };
    let rest = "040102040801\n";
    // A head of one-byte values, and one with a byte more before s.
    refused(&format!("041000000005{rest}"), "160001");
    refused(&format!("04001000000000000500{rest}"), "160001");
    refused("0400100000000000050000", "150001");
    refused("04001000000000000500\n", "160001");
    refused(&format!("040001000000000000{rest}"), "070001");
    refused(&format!("040010001000000005{rest}"), "1A0001");
    refused(&format!("04FFFFFFFF00000005{rest}"), "1A0001");
    refused(&format!("040010000F00030005{rest}"), "080001");
    refused(&format!("040010000000000010{rest}"), "120001");
    refused(&format!("04FFFF00000000FFFF{rest}"), "120001");
    let head = format!("040010000000000005{rest}");
    refused(&format!("{head}010100010\n"), "150002");
    refused(&format!("{head}010100\n"), "180002");
    // An odd number of value bytes is a misfit, and no ground to turn a sheet down.
    let silent = printed(Two, &head, None);
    assert_eq!(printed(Two, &format!("{head}0101000100\n"), None), silent);
}

// Widening

#[test]
fn texts_are_widened() {
    let sheet = "0410000000050401020408FF\n01010001050G\n0101000\n\n0101000x0";
    let wider = "0400100000000000050401020408FF\n010100010005000G\n0101000\n\n0101000x0";
    assert_eq!(widened(sheet), wider);
    assert_eq!(widened("04100000051\n"), "040010000000051\n");
    assert_eq!(widened("\n01010001051\n"), "\n0101000100051\n");
    for short in ["", "\n", "0", "04", "041"] {
        assert_eq!(widened(short), short);
    }
    assert_eq!(widened("0410\n"), "040010\n");
    let lines = widen::printed(b"00050000\n01FF0803\n");
    assert_eq!(lines, b"0000050000\n0100FF0803\n");
    assert_eq!(widen::printed(b"FF180003\n"), b"FF180003\n");
}

/// A sheet and its widened form: the same numbers, or 20; else the same session, and lines with 00 before the decision.
fn plays_widened(text: &[u8], name: &str) -> Option<u8> {
    let wider = widen::sheet(text);
    let (one, two) = (play_at(One, text, None), play_at(Two, &wider, None));
    if wider.len() > LONGEST {
        let (number, line) = (20, 0);
        assert_eq!(two.err(), Some(Refusal { number, line }), "{name}");
        return None;
    }
    assert_eq!(widen::printed(&print(&one)), print(&two), "{name}");
    match (one, two) {
        (Ok(one), Ok(two)) => {
            let cells: Vec<Value> = bench_cells(&one).into_iter().map(widen::cell).collect();
            assert_eq!(cells, bench_cells(&two), "{name}");
            let sheet = |width, text: &[u8]| read_at(width, text, None).unwrap();
            same_values(&sheet(One, text), &sheet(Two, &wider), name);
            let doubled = one.misfits.iter().map(|by| 2 * by).collect();
            let expected = Outcome {
                width: Two,
                misfits: doubled,
                ..one
            };
            assert_eq!(expected, two, "{name}");
            None
        }
        (one, two) => {
            let number = one.as_ref().err().map(|refusal| refusal.number);
            assert_eq!(one.err(), two.err(), "{name}");
            number
        }
    }
}

/// The cells of the bench, whose other parts held 7: of a board that keeps cells the decision, and no value elsewhere.
fn bench_cells(outcome: &Outcome) -> Vec<Value> {
    let plan = &outcome.plan;
    let count = second::board::cell_count(plan.n);
    let mut cells = vec![7; CELLS];
    for line in outcome.lines.iter().filter(|l| l.board != plan.dealer) {
        let part = &mut cells[line.board as usize * count..][..count];
        part.fill(outcome.width.blank());
        part[0] = line.decision;
    }
    cells
}

fn same_values(one: &Sheet, two: &Sheet, name: &str) {
    assert_eq!((&one.plan, one.value), (&two.plan, two.value), "{name}");
    let values = |sheet: &Sheet| -> Vec<_> {
        let frames = sheet.frames.iter();
        frames
            .map(|(slot, frame)| (*slot, sheet.width.decode(frame)))
            .collect()
    };
    assert_eq!(values(one), values(two), "{name}");
}

/// Some made sheets are too long only when they are widened.
#[test]
fn made_sheets_are_widened() {
    let (mut numbers, mut too_long) = (BTreeSet::new(), 0);
    for seed in 0..3000 {
        let text = make::sheet_at(One, seed);
        numbers.extend(plays_widened(&text, &format!("seed {seed}")));
        let longer = widen::sheet(&text).len() > LONGEST;
        too_long += usize::from(text.len() <= LONGEST && longer);
    }
    assert!(too_long > 0);
    let met = [1, 3, 4, 5, 6, 7, 8, 18, 21, 22, 23, 24, 26];
    assert_eq!(Vec::from_iter(numbers), met);
}

/// With the span 255 the number FF is m, and at one byte the mark too; widened, 00FF is m and no mark. Made sheets tell
/// no FF then; here each value that they tell becomes FF in turn.
#[test]
fn mark_of_one_byte_is_widened() {
    let sheet = |values: [&str; 3]| {
        let line = |i: usize| format!("010100{:02X}{}\n", i + 1, values[i]);
        let lines: String = (0..3).map(line).collect();
        format!("04FF07000005040102040801\n{lines}")
    };
    for (values, decision) in [
        (["FE", "FE", "FF"], "FE"),
        (["FF", "FF", "FE"], "07"),
        (["FF", "FF", "FF"], "07"),
    ] {
        let text = sheet(values);
        let lines = [1, 2, 3].map(|i| format!("0{i}{decision}0000\n"));
        assert_eq!(printed(One, &text, None), lines.concat());
        plays_widened(text.as_bytes(), &text);
    }
    let mut played = 0;
    for seed in 0..2000 {
        let text = make::sheet_at(One, seed);
        let sheet = read_at(One, &text, None);
        let Some(sheet) = sheet.ok().filter(|sheet| sheet.plan.span == 255) else {
            continue;
        };
        for value in session::play_sheet(&sheet, None).counted {
            let mut other = sheet.clone();
            other.change_values(|v| if v == value { 0xFF } else { v });
            assert_eq!(plays_widened(&other.write(), &format!("seed {seed}")), None);
            played += 1;
        }
    }
    assert!(played > 100, "{played}");
}

/// The sheet of one-byte values of which this is the widened form, if there is one.
fn narrowed(text: &[u8]) -> Option<Vec<u8>> {
    let head = Two.head();
    let mut narrow = vec![];
    for (number, line) in text.split(|c| *c == b'\n').enumerate() {
        if number > 0 {
            narrow.push(b'\n');
        }
        let high = |place: usize| match number {
            0 => [head.span, head.default, head.value].contains(&place),
            _ => place >= 4 && place % 2 == 0,
        };
        let pairs = line.chunks(2).enumerate();
        let low = pairs.filter(|(place, pair)| !high(*place) || pair.len() < 2);
        low.for_each(|(_, pair)| narrow.extend(pair));
    }
    (widen::sheet(&narrow) == text).then_some(narrow)
}

/// Kept sheets that have a one-byte form give the same at both widths, and tell the same mistakes, but for the one that
/// counts bytes.
#[test]
fn kept_sheets_are_widened() {
    let mut numbers = BTreeSet::new();
    let (mut count, mut told) = (0, BTreeSet::new());
    for (name, text) in corpus::load() {
        let Some(narrow) = narrowed(&text) else {
            continue;
        };
        numbers.extend(plays_widened(&narrow, &name));
        let counted = |m: &Mistake| *m == Mistake::LengthInAByte || m.needs_two();
        let [one, two] = [(One, &narrow), (Two, &text)].map(|(width, text)| {
            let mut told = Mistake::told_by_at(width, text);
            told.retain(|mistake| !counted(mistake));
            told
        });
        assert_eq!(one, two, "{name}");
        told.extend(one);
        count += 1;
    }
    assert!(count > 100, "{count}");
    let met = [1, 3, 4, 5, 6, 7, 8, 18, 21, 22, 23, 24, 26];
    assert_eq!(Vec::from_iter(numbers), met);
    let mut all = Mistake::at(One);
    all.retain(|m| !m.hidden() && *m != Mistake::LengthInAByte);
    assert_eq!(Vec::from_iter(told), all);
}

/// A sheet of one-byte values that is accepted, and whose widened form has the greatest length: case 7 with a set 00,
/// and an overlong frame for board 3.
fn longest_when_widened() -> String {
    let lines = "04100000000505020001040801\n0101000105\n0101000205\n";
    let text = format!("{lines}01010003{}\n", "07".repeat(16_367));
    assert_eq!(widened(&text).len(), LONGEST);
    text
}

/// At the limits 20 comes first, then 17, by each width's own lengths, then 11; with enough of each a sheet and its
/// widened form give the same number and line, or lines with 00 before the decision.
#[test]
fn limits_are_widened() {
    let longest = longest_when_widened();
    let unended = longest.strip_suffix('\n').unwrap();
    // What each meets at one byte and, widened, at two; 0 if it is accepted.
    let sheets = [
        (longest.clone(), [0, 0]),
        (unended.into(), [21, 21]),
        (format!("{longest}\n"), [24, 20]),
        (format!("{longest}0"), [21, 20]),
        ("0".repeat(LONGEST), [21, 20]),
        ("0".repeat(LONGEST + 1), [20, 20]),
        ("0410000000050000\n".into(), [0, 0]),
        ("041000000005000\n".into(), [21, 21]),
        ("".into(), [22, 22]),
    ];
    for (text, expected) in sheets {
        let wider = widened(&text);
        let rooms = [0, 62, 63, 64, 76, 77, 78];
        for (output, cells) in rooms.iter().flat_map(|o| [(*o, 13_698), (*o, 13_699)]) {
            let play = |width, text: &str| play_lent(width, text.as_bytes(), output, cells);
            let [one, two] = expected;
            for (width, text, number, needed) in [(One, &text, one, 63), (Two, &wider, two, 77)] {
                let first = match number {
                    20 => 20,
                    _ if output < needed => 17,
                    _ if cells < 13_699 => 11,
                    number => number,
                };
                let met = play(width, text).err();
                assert_eq!(met.map_or(0, |r| r.number), first, "{output} {cells}");
                let no_line = met.is_some_and(|r| r.line == 0);
                assert_eq!(no_line, [20, 17, 11].contains(&first));
            }
            let enough = output >= 77 && wider.len() <= LONGEST;
            if enough {
                let printed = [play(One, &text), play(Two, &wider)].map(|result| print(&result));
                assert_eq!(widen::printed(&printed[0]), printed[1], "{output} {cells}");
            }
        }
        plays_widened(text.as_bytes(), "at a limit");
    }
}

/// The call of a script in two-byte values: frames, cells and output are wider.
fn wider_step(step: &Step) -> Step {
    let mut step = step.clone();
    step.room *= 2;
    match &mut step.act {
        Act::Start(cell, _) => *cell = widen::cell(*cell),
        Act::Receive(_, frame) => *frame = widen::frame(frame),
        Act::ChangeCells(_, cells) => cells.iter_mut().for_each(|c| *c = widen::cell(*c)),
        _ => (),
    }
    step
}

/// One board's calls, on any records and cells: number and record are the same, every cell is the widened one, and a
/// frame that is written has 00 before each value.
#[test]
fn scripts_are_widened() {
    for place in 0..400 {
        let script = Script::at(One, make::own_seed(5, place));
        let (mut one, mut two) = (State::new(One, None), State::new(Two, None));
        for (step, told) in &script.steps {
            let said = one.make(step);
            assert_eq!(one.told(&said, step), *told);
            let wider = two.make(&wider_step(step));
            assert_eq!(said.number, wider.number, "{step:?}");
            assert_eq!(one.record, two.record, "{step:?}");
            let cells: Vec<Value> = one.cells.iter().copied().map(widen::cell).collect();
            assert_eq!(cells, two.cells, "{step:?}");
            let beside = match &step.act {
                Act::Send => {
                    let length = said.beside.first().copied().unwrap_or(0) as usize;
                    let frame = widen::frame(&one.out[..length]);
                    assert_eq!(frame, two.out[..2 * length], "{step:?}");
                    said.beside.iter().map(|length| 2 * length).collect()
                }
                Act::Decide | Act::Deal(_) if said.number == 0 => widen::frame(&said.beside),
                _ => said.beside,
            };
            assert_eq!(beside, wider.beside, "{step:?}");
        }
    }
}

// Made sheets and scripts of two bytes

/// Made sheets agree at both widths. Those of two bytes are of every kind in `wide`, ten times or more, and tell every
/// mistake about two bytes that a sheet can show.
#[test]
fn made_sheets_of_both_widths() {
    let mut met: BTreeMap<&str, usize> = BTreeMap::new();
    let mut untold = Mistake::at(Two);
    untold.retain(|mistake| mistake.needs_two() && !mistake.hidden());
    assert_eq!(untold.len(), 10);
    for (seed, width) in (0..3000).flat_map(|seed| Width::BOTH.map(|width| (seed, width))) {
        let text = make::sheet_at(width, seed);
        let result = play_at(width, &text, None);
        let right = print(&result);
        if width == Two {
            untold.retain(|m| print(&play_at(Two, &text, Some(*m))) == right);
        }
        let Ok(outcome) = result else {
            continue;
        };
        let sheet = read_at(width, &text, None).unwrap();
        assert_eq!(sheet.write(), text, "seed {seed}");
        let kinds = wide::kinds(width).iter();
        for (kind, _) in kinds.filter(|(_, shows)| shows(&outcome)) {
            *met.entry(kind).or_default() += 1;
        }
        let first = outcome.lines[0].decision;
        for line in &outcome.lines {
            assert!(!has(line.list, line.board), "seed {seed}");
            assert_eq!(line.decision, first, "seed {seed}");
        }
        assert!(second::roots::CLAIMS
            .iter()
            .all(|(_, holds)| holds(&outcome)));
    }
    assert_eq!(untold, []);
    assert_eq!(met.len(), wide::kinds(Two).len(), "{met:?}");
    assert!(met.values().all(|count| *count >= 10), "{met:?}");
}

/// A kind about spans and values is met by frames that count: not by a sheet without frames, nor by frames of another
/// length or from a listed board.
#[test]
fn kinds_are_met_by_frames_that_count() {
    let played = |sheet: &str| play_at(Two, sheet.as_bytes(), None).unwrap();
    let met = |sheet: &str| -> Vec<&str> {
        let outcome = played(sheet);
        let asked = |kind: &str| kind.starts_with("span") || kind.starts_with("value");
        let kinds = wide::kinds(Two).iter();
        let met = kinds.filter(|(kind, shows)| asked(kind) && shows(&outcome));
        met.map(|(kind, _)| *kind).collect()
    };
    // Case 7 with another span and other values; then without frames, with a byte more and with a value more in each.
    let tells = |span: &str, values: [&str; 3]| {
        let sheet = |more: &str| {
            let line = |i: usize| format!("010100{:02X}{}{more}\n", i + 1, values[i]);
            let lines: String = (0..3).map(line).collect();
            format!("04{span}000000000000040102040801\n{lines}")
        };
        let whole = sheet("");
        let head = whole.split_inclusive('\n').next().unwrap();
        for none in [head, &sheet("00"), &sheet(values[0])] {
            assert_eq!(met(none), [""; 0], "{none}");
        }
        met(&whole)
    };
    let [last, m, after] = [
        "value of m - 1, m above 255",
        "value of m, above 255",
        "value of m + 1, m above 255",
    ];
    let [below, largest, mark] = [
        "value of FFFF, span below it",
        "value of FFFE, span 65,535",
        "value of FFFF, span 65,535",
    ];
    let [high, low] = [
        "values that differ in the high byte alone",
        "values above 255 that differ in the low byte alone",
    ];
    assert_eq!(tells("0002", ["0000"; 3]), ["span 2"]);
    assert_eq!(tells("00FF", ["00FE"; 3]), ["span 255"]);
    assert_eq!(tells("0100", ["00FF"; 3]), ["span 256", last]);
    let about = ["0100", "0101", "0102"];
    assert_eq!(tells("0101", about), ["span 257", last, m, after]);
    let about = ["FFFE", "FFFF", "0000"];
    let span = "span 65,535";
    assert_eq!(tells("FFFF", about), [span, last, m, largest, mark]);
    assert_eq!(tells("FFFE", about), [m, after, below]);
    assert_eq!(tells("0200", ["0105", "0005", "0106"]), [high, low]);
    // Only values below m are compared.
    assert_eq!(tells("0105", ["0106", "0006", "0107"]), [after]);
    // Nobody is listed in round 1; board 0 is, by both boards, before run 4.
    let kept = String::from_utf8(corpus::kept("default-listed")).unwrap();
    let first = |value: &str| kept.replace("010103020001", &format!("01010302{value}"));
    let later = |value: &str| format!("{kept}04020002{value}\n");
    assert_eq!(met(&first("FFFF")), [below]);
    assert_eq!(met(&later("FFFF")), [""; 0]);
    assert_eq!(played(&first("FF")).misfits, BTreeSet::from([-1]));
    assert_eq!(played(&later("FF")).misfits, BTreeSet::new());
    // One board keeps no cells.
    let alone = played("01FFFF0000000001050000\n");
    assert_eq!(alone.lines[0].decision, 0x0105);
    assert!(!wide::kinds(Two).iter().any(|(_, shows)| shows(&alone)));
}

/// A span above 255 is not tried value by value, and gives what a smaller one gives if all values are below both.
#[test]
fn few_values_are_enough() {
    let mut played = 0;
    for seed in 0..2000 {
        let text = make::sheet_at(One, seed);
        let Ok(mut sheet) = read_at(One, &text, None) else {
            continue;
        };
        let span = sheet.plan.span;
        let beyond = |frame: &Vec<u8>| frame.iter().any(|v| Value::from(*v) >= span);
        if sheet.frames.values().any(beyond) {
            continue;
        }
        let few = session::play_sheet(&sheet, None);
        sheet.plan.span = 256;
        let many = session::play_sheet(&sheet, None);
        assert_eq!(
            (few.lines, few.roots),
            (many.lines, many.roots),
            "seed {seed}"
        );
        played += 1;
    }
    assert!(played > 500, "{played}");
}

/// Sheets of the spans 257 and 65,535, those of the larger on up to four boards, give the same if every value below m
/// is tried. Some of them list boards, and some decide m - 1.
#[test]
fn all_values_give_the_same() {
    for (span, boards) in [(257, 7), (Value::MAX, 4)] {
        tries(span);
        let (mut played, mut listed, mut last) = (0, 0, 0);
        for seed in 0..3000 {
            let text = make::sheet_at(Two, seed);
            let sheet = read_at(Two, &text, None).ok();
            let Some(sheet) = sheet.filter(|s| s.plan.span == span && s.plan.n <= boards) else {
                continue;
            };
            let few = session::play_sheet(&sheet, None);
            if few.counted.is_empty() {
                continue;
            }
            assert_eq!(session::play_sheet_trying_all(&sheet), few, "seed {seed}");
            played += 1;
            listed += usize::from(few.lines.iter().any(|line| line.list != 0));
            last += usize::from(few.lines[0].decision == span - 1);
        }
        let counts = [played, listed, last];
        assert!(counts.iter().all(|count| *count >= 4), "{counts:?}");
    }
}

/// Of the children's values and others a board tries few, or all below the span.
fn tries(span: Value) {
    let head = format!("04{span:04X}000000000000040102040801\n");
    let plan = read_at(Two, head.as_bytes(), None).unwrap().plan;
    let (tree, keeper) = (Tree::new(&plan), Keeper::new(Two, 1, None));
    let children = vec![(1, Some(span - 1)), (2, None), (3, Some(0))];
    assert!(keeper.tried(&tree, &children).eq([0, 1, span - 1]));
    assert!(keeper.trying_all().tried(&tree, &children).eq(0..span));
}

/// Kept sheets of 0 and 1 with two other values in their stead, which may differ in one byte alone: the decision and
/// the roots are renamed, and all else is the same.
#[test]
fn values_are_renamed() {
    let mut renamed = 0;
    for (name, text) in corpus::load() {
        let Ok(outcome) = play_at(Two, &text, None) else {
            continue;
        };
        if outcome.plan.span != 2 || outcome.told.iter().any(|value| *value > 1) {
            continue;
        }
        for (span, zero, one) in [(257, 256, 0), (0xFFFF, 0x0105, 0x0205), (0x8001, 1, 0x8000)] {
            let mut sheet = read_at(Two, &text, None).unwrap();
            chain::rename(&mut sheet, span, zero, one);
            let other = session::play_sheet(&sheet, None);
            let (mut lines, mut roots) = (outcome.lines.clone(), outcome.roots.clone());
            let decisions = lines.iter_mut().map(|line| &mut line.decision);
            let all = decisions.chain(roots.iter_mut().flatten());
            all.for_each(|value| *value = if *value == 0 { zero } else { one });
            assert_eq!((lines, roots), (other.lines, other.roots), "{name}");
            assert_eq!(outcome.lists, other.lists, "{name}");
            renamed += 1;
        }
    }
    assert!(renamed > 100, "{renamed}");
}

/// Scripts of two bytes tell every mistake about them.
#[test]
fn scripts_of_two_bytes() {
    use Mistake::*;
    let mut untold = Mistake::at(Two);
    untold.retain(|mistake| mistake.needs_two());
    // Heads and printed lines are no part of calls, and no block has room for 256 values more than are due.
    untold.retain(|m| !matches!(m, HeadLowByteFirst | DecisionLowByteFirst | CountInAByte));
    assert_eq!(untold.len(), 8);
    for place in 0..600 {
        let script = Script::at(Two, make::own_seed(3, place));
        untold.retain(|mistake| !script.tells(*mistake));
    }
    assert_eq!(untold, []);
}

/// The form of a block and of what is told, at both widths.
#[test]
fn blocks_and_what_is_told() {
    let step = |act: Act| Step {
        act,
        lent: 0x0102,
        shown: 3,
        room: 9,
    };
    let start = |width, act: Act| step(act).block(width)[..20].to_vec();
    let plan = Act::Plan([4, 1, 0x10, 0x0F, 5], vec![3, 5]);
    assert_eq!(
        start(One, plan.clone()),
        [1, 4, 1, 0x10, 0x0F, 5, 1, 2, 0, 3, 9, 0, 2, 0, 0, 0, 3, 5, 0, 0]
    );
    assert_eq!(
        start(Two, plan),
        [1, 4, 1, 0, 0x10, 0, 0x0F, 5, 1, 2, 0, 3, 9, 0, 2, 0, 3, 5, 0, 0]
    );
    let change = Act::ChangeRecord(130, 0x0203);
    assert_eq!(start(Two, change)[..5], [9, 130, 2, 3, 0]);
    assert_eq!(start(Two, Act::Deal(0x0203))[..4], [8, 2, 3, 0]);
    assert_eq!(start(Two, Act::Start(0x0203, 4))[..4], [0, 2, 3, 4]);
    let cells = Act::ChangeCells(6, vec![0x0203, 4]);
    assert_eq!(
        start(Two, cells),
        [11, 0, 0, 0, 0, 0, 0, 0, 0, 6, 0, 3, 9, 0, 4, 0, 2, 3, 0, 4]
    );
    for (width, length) in [(One, 78 + 128 + 3), (Two, 81 + 248 + 6)] {
        let mut state = State::new(width, None);
        let shown = step(Act::Start(1, 2));
        let said = state.make(&shown);
        assert_eq!(state.told(&said, &shown).len(), length);
    }
}
