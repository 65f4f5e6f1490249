//! Cases 1 to 10 of the paper, as sheets where they are sheets. Sheets stand here in one-byte values; each is played
//! so, and widened.

use second::plan::{admit, first_cover, Plan, Tree};
use second::{bench, play_at, print, widen, Width};

fn plan(n: u8, sets: &[u8], dealer: u8, depth: u8) -> Plan {
    Plan {
        n,
        sets: sets.to_vec(),
        dealer,
        span: 16,
        default: 0,
        depth,
    }
}

/// At one byte, and widened at two.
fn prints(sheet: &str, printed: &str) {
    let (sheet, printed) = (sheet.as_bytes(), printed.as_bytes());
    let played = |width, sheet: &[u8]| print(&play_at(width, sheet, None));
    same(&played(Width::One, sheet), printed, sheet);
    let wider = widen::sheet(sheet);
    same(&played(Width::Two, &wider), &widen::printed(printed), sheet);
}

fn same(met: &[u8], expected: &[u8], sheet: &[u8]) {
    let text = |bytes: &[u8]| String::from_utf8_lossy(bytes).into_owned();
    assert_eq!(text(met), text(expected), "{}", text(sheet));
}

#[test]
fn case_1_three_sets_cover() {
    assert_eq!(admit(3, &[1, 2, 4]), Err(5));
    assert_eq!(first_cover(3, &[1, 2, 4]), Some((0, 1, 2)));
    prints("0310000000050301020400\n", "FF050001\n");
}

#[test]
fn case_2_admitted() {
    assert_eq!(admit(4, &[1, 2, 4, 8]), Ok(()));
}

#[test]
fn case_3_example_of_the_source() {
    let sets = [0x07, 0x09, 0x12, 0x22, 0x0C];
    assert_eq!(admit(6, &sets), Ok(()));
    let tree = Tree::new(&plan(6, &sets, 0, 0));
    assert_eq!((tree.plan.height(), tree.nodes()), (4, 24));
    assert_eq!(plan(6, &sets, 4, 0).height(), 3);
}

#[test]
fn case_4_one_board() {
    assert_eq!(admit(1, &[0]), Ok(()));
    assert_eq!(
        (admit(1, &[1]), first_cover(1, &[1])),
        (Err(5), Some((0, 0, 0)))
    );
    prints("011000000005010000\n", "00050000\n");
    prints("011000000005010100\n", "FF050001\n");
}

#[test]
fn case_5_runs_and_rounds() {
    let counts = |depth| {
        let plan = plan(7, &[0x3F], 0, depth);
        let later = (plan.runs() - 1) * (plan.rounds() - 1);
        (plan.height(), plan.runs(), plan.rounds() + later)
    };
    assert_eq!(counts(4), (7, 5, 16));
    assert_eq!(counts(5), (7, 3, 13));
    assert_eq!((counts(0), counts(7)), ((7, 1, 7), (7, 1, 7)));
    assert_eq!(plan(7, &[0x3F], 0, 3).refusal(), Some(8));
    prints("071000000305013F00\n", "FF080001\n");
}

#[test]
fn case_6_root_is_a_leaf() {
    let plan = plan(7, &[0x3F], 6, 0);
    assert_eq!((plan.height(), plan.runs(), plan.rounds()), (1, 1, 1));
    prints("071000060005013F3F\n", "06050000\n");
    prints("071000060005013F3F\n0102000605\n", "FF180002\n");
}

#[test]
fn case_7_faulty_dealer() {
    let sheet = "041000000005040102040801\n0101000105\n0101000205\n0101000307\n";
    prints(sheet, "01050000\n02050000\n03050000\n");
}

#[test]
fn case_8_dealer_is_listed() {
    let sheet = "041000000005040102040801\n0101000105\n0101000207\n0101000309\n";
    prints(sheet, "01000100\n02000100\n03000100\n");
}

#[test]
fn case_9_faulty_board() {
    prints(
        "041000000005040102040808\n0102030109\n",
        "00050000\n01050000\n02050000\n",
    );
}

#[test]
fn case_10_span() {
    let sheet = |value: &str| {
        let lines = [1, 2, 3].map(|i| format!("010100{i:02X}{value}\n"));
        format!("041000000005040102040801\n{}", lines.concat())
    };
    prints(&sheet("0F"), "010F0000\n020F0000\n030F0000\n");
    prints(&sheet("10"), "01000000\n02000000\n03000000\n");
}

#[test]
fn no_sets() {
    assert_eq!((admit(4, &[]), first_cover(4, &[])), (Ok(()), None));
    let plan = plan(7, &[], 0, 4);
    assert_eq!((plan.height(), plan.runs(), plan.rounds()), (1, 1, 1));
    let tolerated: Vec<u8> = (0..=255).filter(|s| plan.tolerated(*s)).collect();
    assert_eq!(tolerated, [0]);
    assert_eq!(plan.place(0), Some(0));
    prints(
        "0410000000050000\n",
        "00050000\n01050000\n02050000\n03050000\n",
    );
    prints("0110000000050000\n", "00050000\n");
    prints("0010000000050000\n", "FF010001\n");
    prints("0410000400050000\n", "FF060001\n");
    prints("04100000000500\n", "FF160001\n");
    prints("041000000005000000\n", "FF160001\n");
    prints("0410000000050001\n", "FF170001\n");
    prints("0410000000050010\n", "FF170001\n");
    prints("0410000000050000\n0101000105\n", "FF180002\n");
}

#[test]
fn first_set_that_holds() {
    let places = |sets: &[u8]| [0, 1, 2, 3, 4, 8].map(|set| plan(4, sets, 0, 0).place(set));
    let no = None;
    assert_eq!(places(&[]), [Some(0), no, no, no, no, no]);
    assert_eq!(places(&[0]), [Some(0), no, no, no, no, no]);
    assert_eq!(
        places(&[4, 0, 2, 3, 1, 2]),
        [Some(0), Some(3), Some(2), Some(3), Some(0), no]
    );
    assert_eq!(
        plan(4, &[[2; 31].as_slice(), &[1]].concat(), 0, 0).place(1),
        Some(31)
    );
}

/// Case 8 with other lists of sets: all list the dealer, at the place of the first set that holds it.
#[test]
fn place_is_printed() {
    let sheet = |sets: &str| {
        let count = sets.len() / 2;
        format!("041000000005{count:02X}{sets}01\n0101000105\n0101000207\n0101000309\n")
    };
    let placed = |place: &str| format!("010001{place}\n020001{place}\n030001{place}\n");
    prints(&sheet("01020408"), &placed("00"));
    prints(&sheet("08040201"), &placed("03"));
    prints(&sheet("0202010104010801"), &placed("02"));
    prints(&sheet("00000001020408"), &placed("03"));
    prints(&sheet(&("02".repeat(31) + "01")), &placed("1F"));
}

/// Board 1 tells three values and is listed; the dealer is healthy and lists nobody.
#[test]
fn healthy_dealer_has_place_0() {
    let sheet =
        |sets: &str| format!("05100000000504{sets}02\n0102010207\n0102010308\n0102010409\n");
    let placed = |place: &str| {
        let lines = [2, 3, 4].map(|board| format!("0{board}0502{place}\n"));
        format!("00050000\n{}", lines.concat())
    };
    prints(&sheet("03040802"), &placed("00"));
    prints(&sheet("04030802"), &placed("01"));
    prints(&sheet("04020803"), &placed("01"));
    prints(&sheet("04080302"), &placed("02"));
    prints(&sheet("04080003"), &placed("03"));
}

/// The sheets of tests/cases print what stands there.
#[test]
fn kept_cases() {
    let folder = concat!(env!("CARGO_MANIFEST_DIR"), "/../cases");
    for entry in std::fs::read_dir(folder).unwrap() {
        let path = entry.unwrap().path();
        if path.extension().is_some_and(|e| e == "sheet") {
            let text = |extension| std::fs::read(path.with_extension(extension));
            let sheet = text("sheet").unwrap();
            same(&bench(&sheet), &text("out").unwrap(), &sheet);
        }
    }
}

/// Case 7 with the default 7: the dealer is silent, sends misfits, sends 16, sends three values.
#[test]
fn default_is_decided() {
    let sheet = |values: [&str; 3]| {
        let line = |i: usize| format!("010100{:02X}{}\n", i + 1, values[i]);
        let lines: String = (0..3).map(line).collect();
        format!("041007000005040102040801\n{lines}")
    };
    prints(
        "041007000005040102040801\n",
        "01070000\n02070000\n03070000\n",
    );
    prints(&sheet([""; 3]), "01070000\n02070000\n03070000\n");
    prints(&sheet(["0505"; 3]), "01070000\n02070000\n03070000\n");
    prints(&sheet(["10"; 3]), "01070000\n02070000\n03070000\n");
    prints(&sheet(["05", "06", "09"]), "01070100\n02070100\n03070100\n");
    prints(
        &sheet(["05", "05", "0505"]),
        "01050000\n02050000\n03050000\n",
    );
}

#[test]
fn default_below_the_span() {
    let head = |span, default, depth, value| {
        format!("04{span:02X}{default:02X}00{depth:02X}{value:02X}040102040801\n")
    };
    let decided = "010F0000\n020F0000\n030F0000\n";
    prints(&head(16, 15, 0, 5), decided);
    prints(&head(16, 16, 0, 5), "FF1A0001\n");
    prints(&head(16, 255, 0, 5), "FF1A0001\n");
    prints(&head(255, 254, 0, 5), &decided.replace("0F", "FE"));
    prints(&head(255, 255, 0, 5), "FF1A0001\n");
    prints(&head(1, 0, 0, 0), "FF070001\n");
    prints(&head(1, 1, 0, 0), "FF070001\n");
    prints(&head(0, 0, 0, 0), "FF070001\n");
    prints(&head(16, 16, 3, 5), "FF1A0001\n");
    prints(&head(16, 15, 3, 5), "FF080001\n");
    prints(&head(16, 16, 0, 16), "FF1A0001\n");
    prints("041010040005040102040801\n", "FF060001\n");
    prints("041010000005040102040810\n", "FF1A0001\n");
}

#[test]
fn refusals_and_lines() {
    let head = "041000000005040102040801\n";
    let with = |rest: &str| format!("{head}{rest}");
    prints("", "FF160001\n");
    prints("\n", "FF160001\n");
    prints("0", "FF150001\n");
    prints(&with("\n"), "FF180002\n");
    prints(&with("0101000105"), "FF150002\n");
    prints(&with("0101000105\n0101000105\n"), "FF180003\n");
    prints(&with("01010001\n"), "01000000\n02000000\n03000000\n");
    prints(&with("0201000105\n"), "FF180002\n");
    prints(&with("0101010205\n"), "FF180002\n");
    prints(&with("0101000005\n"), "FF180002\n");
    prints("001000000005040102040801\n0\n", "FF010001\n");
    prints("001000000005050102040801\n", "FF160001\n");
    prints("0410000005040102040801\n", "FF160001\n");
    prints("041000000010040102040810\n", "FF120001\n");
    prints("041000000005040102040803\n", "FF170001\n");
    for width in Width::BOTH {
        let printed = |length| print(&play_at(width, &vec![b'0'; length], None));
        assert_eq!(printed(65_537), b"FF140000\n");
        assert_eq!(printed(65_536), b"FF150001\n");
    }
}
