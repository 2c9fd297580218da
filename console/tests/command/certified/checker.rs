//! The stranger's checker: it passes what `certify` writes, and nothing else.

use super::{all, shop};
use crate::folder::{layout_record, Done, Folder};
use dezghuri::{Plan, Verdict};
use reference::random::Random;
use std::process::Command;
use std::sync::OnceLock;

const CHECKER: &str = concat!(env!("CARGO_MANIFEST_DIR"), "/../checker/certificate.py");

/// The program that `python3` is: asked for once, since the name may be that of a script that looks for it.
fn python() -> &'static str {
    static PYTHON: OnceLock<String> = OnceLock::new();
    PYTHON.get_or_init(|| {
        let mut python = Command::new("python3");
        let found = python.args(["-c", "import sys; print(sys.executable)"]);
        let found = found.output().expect("python3 is there").stdout;
        String::from_utf8(found).expect("a path").trim().into()
    })
}

/// What the checker says of the four files. It has the standard library and nothing else.
pub fn check(folder: &Folder, text: &str, old: &str, new: &str, prices: &str) -> Done {
    let mut python = Command::new(python());
    python.current_dir(folder.path("."));
    python.args(["-I", "-S", CHECKER, text, old, new, prices]);
    python.output().expect("python3 is there").into()
}

/// What it says of `next` with these prices.
fn check_prices(folder: &Folder, old: &str, prices: &str) -> Done {
    folder.write("other", prices);
    check(folder, "next.txt", old, "next", "other")
}

/// The file of prices that `certify` writes for `next`.
pub fn prices_of(folder: &Folder, former: &str) -> String {
    let done = folder.call(&format!("certify next.txt {former} next --out prices"));
    assert_eq!(done.status, 0, "{}", done.err);
    assert!(done.out.contains("\nWritten to prices.\n"), "{}", done.out);
    String::from_utf8(folder.read("prices")).expect("text")
}

/// The name by which the checker is told of the former layout.
fn old_of(former: &str) -> &str {
    former.split(' ').nth(1).unwrap_or("-")
}

/// The prices with one of their lines in another form.
fn with_line(prices: &str, line: &str, other: &str) -> String {
    let lines = prices.lines().map(|this| match this == line {
        true => other,
        false => this,
    });
    lines.map(|line| format!("{line}\n")).collect()
}

/// It comes to the same sums, and no price of them can be one less.
#[test]
fn what_was_worked_out_by_hand_holds() {
    let sums = [
        "870 - 672 = 198",
        "359 - 100 = 259",
        "2 - 0 = 2",
        "2 - 1 = 1",
        "1 - 0 = 1",
        "0 - 0 = 0",
        "6 - 0 = 6",
    ];
    for ((folder, former), sum) in all("checked").into_iter().zip(sums) {
        let prices = prices_of(&folder, former);
        let done = check(&folder, "next.txt", old_of(former), "next", "prices");
        assert_eq!((done.status, done.err.as_str()), (0, ""));
        assert!(done.out.starts_with("holds: "), "{}", done.out);
        assert!(done.out.contains(sum), "{}", done.out);
        for line in prices.lines().filter(|line| line.starts_with("price")) {
            let (box_, price) = line.rsplit_once(' ').expect("a price");
            if let Some(less) = price.parse::<u32>().expect("a number").checked_sub(1) {
                let less = with_line(&prices, line, &format!("{box_} {less}"));
                shows_too_little(&folder, old_of(former), &less);
            }
        }
    }
}

/// The prices are the least, so that one less shows too little. Of the shop one more does so too, though one more
/// for all boxes does not: these are all full, and what each row costs more the rooms take away again.
#[test]
fn false_prices_do_not_hold() {
    let folder = shop("checker-prices");
    let prices = prices_of(&folder, "--former last");
    let known = "size 19531\nsent 198\nprice 1 1\nprice 2 1\nprice 3 1\nprice 4 2\nprice 6 0\n";
    assert_eq!(prices, known);
    for (line, others) in [
        ("price 1 1", ["price 1 0", "price 1 2"]),
        ("price 2 1", ["price 2 0", "price 2 2"]),
        ("price 3 1", ["price 3 0", "price 3 2"]),
        ("price 4 2", ["price 4 1", "price 4 3"]),
        ("price 6 0", ["price 6 1", "price 6 9"]),
    ] {
        for other in others {
            shows_too_little(&folder, "last", &with_line(&prices, line, other));
        }
    }
    let more = "size 19531\nsent 198\nprice 1 2\nprice 2 2\nprice 3 2\nprice 4 3\nprice 6 1\n";
    let done = check_prices(&folder, "last", more);
    assert!(done.out.contains("1638 - 1440 = 198"), "{}", done.err);
}

fn shows_too_little(folder: &Folder, old: &str, prices: &str) {
    let done = check_prices(folder, old, prices);
    assert_eq!((done.status, done.out.as_str()), (1, ""), "{prices}");
    let told = "does not hold: the prices show ";
    assert!(done.err.starts_with(told), "{prices}: {}", done.err);
}

#[test]
fn other_numbers_do_not_hold() {
    let folder = shop("checker-numbers");
    let prices = prices_of(&folder, "--former last");
    for (line, other, told) in [
        (
            "size 19531",
            "size 19530",
            "the layout is one of 19531 MB, and not of 19530",
        ),
        (
            "size 19531",
            "size 19532",
            "the layout is one of 19531 MB, and not of 19532",
        ),
        (
            "sent 198",
            "sent 197",
            "the layout sends 198 copies, and not 197",
        ),
        (
            "sent 198",
            "sent 199",
            "the layout sends 198 copies, and not 199",
        ),
        (
            "price 6 0",
            "price 5 0",
            "there is not one price for each box",
        ),
    ] {
        let done = check_prices(&folder, "last", &with_line(&prices, line, other));
        let told = format!("does not hold: {told}\n");
        assert_eq!((done.status, done.err), (1, told), "{other}");
    }
    let done = check_prices(&folder, "last", &prices.replace("price 6 0\n", ""));
    let told = "does not hold: there is not one price for each box\n";
    assert_eq!((done.status, done.err.as_str()), (1, told));
    for bad in [
        prices.replace("sent 198\n", ""),
        prices.replace("price 6 0\n", "price 6 -1\n"),
        prices.replace("price 6 0\n", "price 6 0.5\n"),
        prices.replace("price 6 0\n", "price 4 2\n"),
        prices.clone() + "price 7\n",
        String::new(),
    ] {
        let done = check_prices(&folder, "last", &bad);
        assert_eq!((done.status, done.out.as_str()), (2, ""), "{bad}");
        assert!(
            done.err.starts_with("cannot be read: other: "),
            "{}",
            done.err
        );
    }
}

/// A layout that is valid and not the best, and one that is not valid, each with the prices of the best one.
#[test]
fn other_layouts_do_not_hold() {
    let folder = shop("checker-layouts");
    let prices = prices_of(&folder, "--former last");
    let done = folder.call("plan next.txt --former last --out stopped --allowance 1");
    assert_eq!(done.status, 0, "{}", done.err);
    let sent = plan_of(&folder, "stopped").sent;
    assert!(sent > 198);
    let refused = |prices: String, told: String| {
        folder.write("other", prices);
        let done = check(&folder, "next.txt", "last", "stopped", "other");
        assert_eq!(
            (done.status, done.err),
            (1, format!("does not hold: {told}\n"))
        );
    };
    let told = format!("the layout sends {sent} copies, and not 198");
    refused(prices.clone(), told);
    let honest = prices.replace("sent 198", &format!("sent {sent}"));
    let told = format!("the prices show 198 copies, and the layout sends {sent}");
    refused(honest, told);

    // Box 1 is full, so that one copy more is too many.
    let mut plan = plan_of(&folder, "next");
    assert_eq!(plan.layout.row(255), [3, 4, 6]);
    plan.layout.set_row(255, &[1, 4, 6]);
    folder.write("moved", plan.to_record().expect("a layout"));
    let done = check(&folder, "next.txt", "last", "moved", "prices");
    let told = "does not hold: box 1 has 193 copies, and room for 192\n";
    assert_eq!((done.status, done.err.as_str()), (1, told));
}

fn plan_of(folder: &Folder, name: &str) -> Plan {
    Plan::from_record(&folder.read(name)).expect("a layout")
}

/// From another layout before, the same one sends other copies.
#[test]
fn another_former_layout_does_not_hold() {
    let folder = shop("checker-former");
    prices_of(&folder, "--former last");
    folder.write("foreign", layout_record(8, 1, &[&[2, 3, 4][..]; 256]));
    for old in ["foreign", "next", "-"] {
        let done = check(&folder, "next.txt", old, "next", "prices");
        let told = "does not hold: the layout sends ";
        assert_eq!(done.status, 1, "{old}");
        assert!(done.err.starts_with(told), "{}", done.err);
    }
    folder.write("small", layout_record(0, 1, &[&[1, 2, 3]]));
    let done = check(&folder, "next.txt", "small", "next", "prices");
    let told = "does not hold: the layouts have 1 and 256 partitions\n";
    assert_eq!((done.status, done.err.as_str()), (1, told));
}

/// A cluster of some boxes in a few zones, as its owner would write it, with as many copies as it wants.
fn some_text(r: &mut Random, most_boxes: u64) -> (String, u64, u64) {
    let copies = r.between(1, 4);
    let (zones, bits) = (r.between(1, copies), r.below(7));
    let boxes = r.between(copies, most_boxes);
    let mut text = format!("copies {copies}\nzones {zones}\nbits {bits}\n");
    for id in 1..=boxes {
        let zone = ["home", "shop", "attic", "shed", "7"][r.below(5) as usize];
        let capacity = r.between(1, 9) * [1, 50, 1000][r.below(3) as usize];
        text += &format!("box {id} {zone} {capacity}G\n");
        if r.chance(20) {
            text += &format!("ceiling {id} {}\n", r.below(65));
        }
    }
    (text, bits, copies)
}

/// A layout of these boxes, and of one that is gone, with rows that came about somehow.
fn some_former(r: &mut Random, bits: u64, copies: u64, boxes: u64) -> Vec<u8> {
    let mut row = || {
        let mut ids: Vec<u32> = (1..=boxes as u32 + 1).collect();
        while ids.len() as u64 > copies {
            ids.remove(r.below(ids.len() as u64) as usize);
        }
        ids
    };
    let rows: Vec<Vec<u32>> = (0..1 << bits).map(|_| row()).collect();
    let rows: Vec<&[u32]> = rows.iter().map(Vec::as_slice).collect();
    layout_record(bits as u8, 1, &rows)
}

/// The checker passes what the command certifies, with its prices, and refuses a stopped plan.
#[test]
fn command_and_checker_agree() {
    let mut r = Random::new(43);
    let (mut held, mut stopped) = (0, 0);
    for case in 0..40 {
        let folder = Folder::new("checker-random");
        let (text, bits, copies) = some_text(&mut r, [6, 12, 32][case % 3]);
        folder.write("next.txt", &text);
        let boxes = text.matches("\nbox ").count() as u64;
        folder.write("last", some_former(&mut r, bits, copies, boxes));
        let done = folder.call("plan next.txt --former last --out next");
        if done.status == 1 {
            continue;
        }
        held += 1;
        let prices = prices_of(&folder, "--former last");
        let done = check(&folder, "next.txt", "last", "next", "prices");
        assert_eq!((done.status, done.err.as_str()), (0, ""), "{text}");
        let early = "plan next.txt --former last --out next --replace --allowance 0";
        assert_eq!(folder.call(early).status, 0);
        let plan = plan_of(&folder, "next");
        if plan.verdict == Verdict::Finished {
            continue;
        }
        stopped += 1;
        let done = folder.call("certify next.txt --former last next");
        assert_eq!(done.status, 1, "{text}");
        let (_, rest) = prices.split_once("\nprice").expect("a price");
        let honest = format!("size {}\nsent {}\nprice{rest}", plan.size, plan.sent);
        shows_too_little(&folder, "last", &honest);
    }
    assert!(held > 25 && stopped > 15, "{held} {stopped}");
}
