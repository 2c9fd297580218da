//! Boxes that may hold a few copies only.

use crate::folder::{layout_record, Done, Folder};
use crate::page::{self, Element};
use crate::read_json::{read, Value};
use crate::{row_groups, HOME, THREE};

/// Of 100 and 40 MB 94 and 38 may be filled. Box 1 takes 2 of the 4 partitions at most, so box 2 has to
/// take all, and box 3 takes 2: at 19 MB, and at 20 MB one.
const LIMITED: &str =
    "copies 2\nzones 1\nbits 2\nceiling 1 2 # a thin line\nbox 1 home 100 study\n\
                       box 2 shop 100\nbox 3 shop 40\n";

fn limited(name: &str, text: &str) -> Folder {
    let folder = Folder::new(&format!("ceilings-{name}"));
    folder.write("home.txt", text);
    folder
}

/// A call that does what it is asked for, without a word of warning; what it prints.
fn done(folder: &Folder, line: &str) -> String {
    let Done {
        status, out, err, ..
    } = folder.call(line);
    assert_eq!((status, err.as_str()), (0, ""), "{line}");
    out
}

/// All numbers are known, since the boxes take eight copies at most at 19 MB. The first row has box 1,
/// and then the second, and box 2 is in each. So boxes 1 and 2 are all that two partitions have, and boxes
/// 2 and 3, which are the shop, all that the other two have.
#[test]
fn a_plan_keeps_to_the_ceiling() {
    let folder = limited("plan", LIMITED);
    let planned = done(&folder, "plan home.txt --out last");
    assert_eq!(planned, include_str!("ceilings-plan.txt"));
    let rows = [(vec![1, 2], 2), (vec![2, 3], 4)];
    assert_eq!(row_groups(&folder.read("last")), rows);
    let shown = done(&folder, "show home.txt last");
    assert_eq!(shown, include_str!("ceilings-show.txt"));
    let valid = "last is valid for home.txt, each partition up to 19 MB.\n";
    assert_eq!(done(&folder, "check home.txt last"), valid);
    let one = "Box 1 (study, home) holds 2 of 4 partitions, and is at its ceiling:\n\n    0    1\n";
    assert_eq!(done(&folder, "show home.txt last --box 1"), one);
    let two = "Box 2 (shop) holds 4 of 4 partitions:\n\n    0    1    2    3\n";
    assert_eq!(done(&folder, "show home.txt last --box 2"), two);
    folder.write("home.txt", LIMITED.replace("ceiling 1 2", "ceiling 1 3"));
    let one = "Box 1 (study, home) holds 2 of 4 partitions, and its ceiling is 3:\n\n    0    1\n";
    assert_eq!(done(&folder, "show home.txt last --box 1"), one);
    let told = "Ceiling: the most copies that a box may hold; no box is at its ceiling.\n";
    let shown = done(&folder, "show home.txt last");
    assert!(shown.contains(told), "{shown}");
}

/// With the highest ceilings, and with none, all is printed as before there were any.
#[test]
fn without_a_ceiling_nothing_is_said_of_them() {
    let folder = limited("none", HOME);
    done(&folder, "plan home.txt --out last");
    let ceilings: String = (1..=5).map(|id| format!("ceiling {id} 256\n")).collect();
    folder.write("high.txt", HOME.to_owned() + &ceilings);
    let high = done(&folder, "plan high.txt --out high");
    let expected = include_str!("first.txt").replace("home.txt", "high.txt");
    let expected = expected.replace("to last", "to high");
    assert_eq!(high, expected.replace("high.txt last", "high.txt high"));
    assert_eq!(folder.read("last"), folder.read("high"));
    for line in [
        "show {}.txt last",
        "show {}.txt last --box 1",
        "diff {}.txt last last",
        "plan {}.txt --former last --json",
        "report {}.txt --out page",
    ] {
        let [home, high] = ["home", "high"].map(|file| {
            let out = done(&folder, &line.replace("{}", file));
            let page = folder.path("page").exists().then(|| folder.read("page"));
            let page = page.map(|page| String::from_utf8(page).unwrap());
            (out + &page.unwrap_or_default()).replace("high.txt", "home.txt")
        });
        let kept = home.replace("The report page before it is kept as page.old.\n", "");
        assert_eq!(
            kept,
            high.replace("The report page before it is kept as page.old.\n", "")
        );
        assert!(
            !home.contains("eiling") || line.ends_with("--json"),
            "{home}"
        );
    }
}

/// What is not the ceiling's doing is not said to be.
#[test]
fn what_binds_is_named() {
    let planned = |text: &str| done(&limited("binds", text), "plan home.txt");
    let high = planned(&LIMITED.replace("ceiling 1 2", "ceiling 1 4"));
    let why =
        "Why not more: at 24 MB a partition the disks together have room for 7 copies, and 8 \
               are wanted.\nUnused: box 3 (shop)";
    assert!(high.contains(why), "{high}");
    assert!(high.contains("grow to 23 MB"), "{high}");
    // At 20 MB box 2 may hold 3 of the 4 copies that it has room for, and box 3 has room for none.
    let zones =
        "copies 2\nzones 2\nbits 2\nbox 1 home 100\nbox 2 shop 100\nbox 3 shop 20\nceiling 2 3\n";
    let why =
        "Why not more: each partition lies in at least 2 zones, and besides home the other zone, \
               shop, has no room for 1 more copy of each above 19 MB.\n\
               The ceiling of box 2 (at most 3 copies) keeps copies off a disk that has room for them.\n\
               More disk in home would not help.\n";
    let told = planned(zones);
    assert!(told.contains(why), "{told}");
    // Boxes 1 and 2 may hold one copy of each of 3 partitions, box 3 then 2, and at 20 MB one.
    let two = LIMITED.replace("ceiling 1 2", "ceiling 2 3\nceiling 1 3");
    let why = "at 20 MB a partition the boxes have room for 7 copies, and 8 are wanted.\n\
               The ceilings of boxes 1 (study, at most 3 copies) and 2 (at most 3 copies) keep copies off disks that \
               have room for them.\n\
               Larger disks in boxes 1 (study) and 2 would not help.\n";
    let told = planned(&two);
    assert!(told.contains(why), "{told}");
    let tried = done(&limited("tried", &two), "what-if home.txt --resize 1=9T");
    let line = "  resize box 1 (study, home) to 9T       19        0";
    assert!(tried.contains(line), "{tried}");
}

/// A box of ceiling 0 is meant to hold nothing; that its disk is small is not said.
#[test]
fn a_box_of_ceiling_0_holds_nothing() {
    let folder = limited(
        "zero",
        "copies 1\nzones 1\nbits 0\nbox 1 a 9\nbox 2 a 90\nceiling 2 0\n",
    );
    let planned = done(&folder, "plan home.txt");
    assert!(!planned.contains("Unused"), "{planned}");
    let why =
        "Why not more: at 10 MB a partition the boxes have room for 0 copies, and 1 is wanted.\n\
               The ceiling of box 2 (at most 0 copies) keeps copies off a disk that has room for them.\n\
               A larger disk in box 2 would not help.\n";
    assert!(planned.contains(why), "{planned}");
    let object = read(&done(&folder, "plan home.txt --json"));
    assert_eq!(object.get("unused").line(), r#"[{"id":2,"why":"ceiling"}]"#);
}

#[test]
fn no_layout_is_told_by_ceilings() {
    let refused = |text: &str, why: &str| {
        let done = limited("no-layout", text).call("plan home.txt");
        let told = format!("there is no layout: {why} (refused 9)\n");
        assert_eq!((done.status, done.err, done.out.as_str()), (1, told, ""));
    };
    let sum = "the ceilings are too low: the boxes may hold 7 copies together, and 8 are wanted";
    refused(&(LIMITED.to_owned() + "ceiling 2 3\nceiling 3 2\n"), sum);
    let zones = LIMITED.replace("zones 1", "zones 2");
    let by_zones =
        "the ceilings are too low for 2 zones: with each partition once in a zone the boxes \
                    may hold 6 copies, and 8 are wanted";
    refused(&zones, by_zones);
    let boxes = "2 copies need 2 boxes with disk space and a ceiling above 0, and 1 has both";
    refused(&(LIMITED.to_owned() + "ceiling 2 0\nceiling 3 0\n"), boxes);
    let houses = "2 zones are wanted, and the boxes with disk space and a ceiling above 0 lie in 1";
    refused(&zones.replace("ceiling 1 2", "ceiling 1 0"), houses);
    // Without a ceiling there would be none either.
    let small = THREE.replace("box 3 home 50", "box 3 home 1") + "ceiling 1 1\n";
    let disks = "the disks, a sixteenth of each kept free, are too small for 2 partitions of a \
                 megabyte each";
    refused(&small, disks);
}

/// A layout of before box 1 had its ceiling leads to one with it, and two copies are sent.
#[test]
fn a_ceiling_that_is_passed_is_told() {
    let folder = limited("passed", LIMITED);
    let rows: [&[u32]; 4] = [&[1, 2], &[1, 2], &[1, 2], &[1, 2]];
    folder.write("last", layout_record(2, 19, &rows));
    let not_valid = |why: &str| {
        let done = folder.call("check home.txt last");
        assert_eq!(
            (done.status, done.err),
            (1, format!("not valid: {why} (refused 12)\n"))
        );
        let shown = folder.call("show home.txt last").out;
        let heading = format!("Not valid for home.txt as it is now: {why} (refused 12).\n");
        assert!(shown.contains(&heading), "{shown}");
    };
    not_valid(
        "box 1 (study) is to hold 4 copies, and its ceiling is 2: plan again, with this layout as --former",
    );
    let planned = done(&folder, "plan home.txt --former last --out last");
    let sent = "Transfers: 2 copies are to be sent, 2 copies are to be dropped.\n";
    assert!(planned.contains(sent), "{planned}");
    done(&folder, "check home.txt last");
    folder.forget_layouts_of("home.txt");
    folder.write("last", layout_record(2, 30, &rows));
    let disk =
        "box 1 (study) is to hold 4 copies of 30 MB, 120 MB together, and may hold 94 MB of its 100 MB, \
                since a sixteenth stays free";
    not_valid(&format!("{disk}, and its ceiling is 2"));
    folder.write("home.txt", LIMITED.replace("ceiling 1 2", "ceiling 1 4"));
    not_valid(disk);
}

#[test]
fn layouts_are_compared_beside_the_ceilings() {
    let folder = limited("diff", LIMITED);
    done(&folder, "plan home.txt --out last");
    folder.forget_layouts_of("home.txt");
    let old: [&[u32]; 4] = [&[1, 2], &[1, 2], &[1, 2], &[1, 9]];
    folder.write("old", layout_record(2, 19, &old));
    let compared = done(&folder, "diff home.txt old last");
    assert!(
        compared.starts_with(include_str!("ceilings-diff.txt")),
        "{compared}"
    );
}

fn ceilings(object: &Value) -> Vec<String> {
    let boxes = object.get("boxes").list().iter();
    let boxes = boxes.filter(|line| line.get("present") == &Value::Bool(true));
    boxes.map(|line| line.get("ceiling").line()).collect()
}

#[test]
fn objects_have_the_ceilings() {
    let folder = limited("objects", LIMITED);
    let planned = done(&folder, "plan home.txt --out last --json");
    assert_eq!(ceilings(&read(&planned)), ["2", "null", "null"]);
    let first = r#"{"id": 1, "name": "study", "zone": "home", "present": true, "capacity_mb": 100, "ceiling": 2, "usable_mb": 94, "copies": 2, "used_mb": 38, "received": 2, "dropped": 0}"#;
    assert!(planned.contains(first), "{planned}");
    let shown = read(&done(&folder, "show home.txt last --json"));
    assert_eq!(ceilings(&shown), ["2", "null", "null"]);
    folder.write("home.txt", LIMITED.replace("box 3", "box 4"));
    let shown = read(&done(&folder, "show home.txt last --json"));
    assert_eq!(ceilings(&shown), ["2", "null", "null"]);
    let gone = r#"{"capacity_mb":null,"copies":2,"id":3,"name":"","present":false,"usable_mb":null,"used_mb":38,"zone":null}"#;
    assert_eq!(shown.get("boxes").list()[2].line(), gone);
}

#[test]
fn a_record_has_the_ceilings() {
    let folder = limited("record", LIMITED);
    let record = folder.call("record home.txt").bytes;
    assert_eq!(
        record[12..27],
        [4, 0, 12, 0, 0, 0, 1, 0, 0, 0, 0, 0, 100, 0, 2]
    );
    assert_eq!(record[40..42], [1, 0]);
    assert_eq!(record.len(), 57);
}

#[test]
fn each_slip_is_told_by_its_line() {
    let lines =
        "ceiling 9 2\nceiling 1 3\nceiling 2 257\nceiling 3\nceiling 3 few\nceiling 3 2 1\n";
    let folder = limited("slips", &(LIMITED.to_owned() + lines));
    let done = folder.call("plan home.txt --out next");
    let words = "a ceiling has the id of a box and the most copies that it may hold: ceiling 1 40";
    let told = [
        "home.txt, line 8: there is no box 9 in this file\n",
        "home.txt, line 9: the ceiling of box 1 is on line 4 already\n",
        "home.txt, line 10: a ceiling is a number from 0 to 256, and not '257'\n",
        &format!("home.txt, line 11: {words}\n"),
        "home.txt, line 12: a ceiling is a number from 0 to 256, and not 'few'\n",
        &format!("home.txt, line 13: {words}\n"),
    ];
    assert_eq!(
        (done.status, done.err, done.out.as_str()),
        (2, told.concat(), "")
    );
    assert_eq!(folder.names(), ["home.txt"]);
}

fn page_of(folder: &Folder, call: &str) -> Element {
    folder.call(&format!("report {call} --out page"));
    page::read(std::str::from_utf8(&folder.read("page")).expect("text"))
}

fn texts(elements: Vec<&Element>) -> Vec<String> {
    elements.into_iter().map(Element::text).collect()
}

/// The titles of the bars, and where lines for ceilings stand across them.
fn bars(page: &Element) -> (Vec<String>, Vec<Vec<&str>>) {
    let (mut titles, mut lines) = (Vec::new(), Vec::new());
    for bar in page.of_class("bar") {
        titles.push(bar.named("title")[0].text());
        let across = bar.of_class("ceiling").into_iter();
        lines.push(across.map(|line| line.get("x1")).collect());
    }
    (titles, lines)
}

/// Two copies of 19 MB end at 38 of 100 MB, where the line stands.
#[test]
fn the_page_shows_ceilings() {
    let page = page_of(&limited("page", LIMITED), "home.txt");
    let (titles, lines) = bars(&page);
    let known = [
        "Box 1 (study), at its ceiling of 2 copies: disk 100 MB, held 38 MB, unused 56 MB, free 6 MB",
        "Box 2: disk 100 MB, held 76 MB, unused 18 MB, free 6 MB",
        "Box 3: disk 40 MB, held 38 MB, unused 0 MB, free 2 MB",
    ];
    assert_eq!(titles, known);
    assert_eq!(lines, [vec!["38%"], vec![], vec![]]);
    let limits = texts(page.of_class("limit"));
    assert_eq!(limits, ["at its ceiling of 2 copies"]);
    let cells = texts(page.with_id("box-1").named("td"));
    assert_eq!(cells, ["study", "home", "100", "2", "2", "38", "38.0 %"]);
    let why = page.with_id("why").text();
    for told in [
        "The ceiling of box 1 (study, at most 2 copies) keeps copies off a disk that has room for them.",
        "Upper bound: with nothing lost to rounding, zones and ceilings it would be 28 MB a partition.",
    ] {
        assert!(why.contains(told), "{why}");
    }
}

/// Three copies of 19 MB would end at 57 MB, and five beyond what may be filled.
#[test]
fn the_page_shows_ceilings_that_are_not_reached() {
    let folder = limited("page-below", LIMITED);
    done(&folder, "plan home.txt --out last");
    for (ceiling, lines) in [(3, vec!["57%"]), (5, vec![])] {
        let text = LIMITED.replace("ceiling 1 2", &format!("ceiling 1 {ceiling}"));
        folder.write("home.txt", text);
        let page = page_of(&folder, "home.txt last");
        let (titles, found) = bars(&page);
        let first = format!("Box 1 (study), at most {ceiling} copies: disk 100 MB, ");
        assert!(titles[0].starts_with(&first), "{titles:?}");
        assert_eq!(found[0], lines);
        let lead = page.of_class("lead")[0].text();
        let more = "The disks and ceilings allow ";
        assert!(lead.contains(more), "{lead}");
    }
}

#[test]
fn the_page_without_a_layout_shows_ceilings_too() {
    let folder = limited("page-none", &LIMITED.replace("zones 1", "zones 2"));
    let page = page_of(&folder, "home.txt");
    let (titles, lines) = bars(&page);
    let first = "Box 1 (study), at most 2 copies: disk 100 MB, free 6 MB";
    assert_eq!((titles[0].as_str(), lines[0].len()), (first, 0));
    let cells = texts(page.with_id("box-1").named("td"));
    assert_eq!(cells, ["study", "home", "100", "2"]);
    let lead = page.of_class("refused")[0].text();
    assert!(lead.starts_with("There is no layout: the ceilings are too low for 2 zones"));
}
