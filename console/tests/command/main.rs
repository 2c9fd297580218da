//! The command as its owner calls it: whole outputs, exit status, and what is in the folder after.

mod at_once;
mod ceilings;
mod certified;
mod compared;
mod cut_short;
mod documents;
mod folder;
mod history;
mod loss;
mod lost;
mod manual;
mod moved;
mod objects;
mod page;
mod printed;
mod read_json;
mod record_lines;
mod replaced;
mod report;
mod schema;
mod sent;
mod shown;
mod staged;
mod terminal;
mod told;
mod tried;
mod why;

use folder::{layout_record, Folder};

/// The sample that `make plan` plans, and the same cluster after box 5 was replaced.
const HOME: &str = include_str!("../../../samples/home.txt");
const HOME_NEXT: &str = include_str!("../../../samples/home-next.txt");

/// Example A of the paper: every row must name all three boxes.
const THREE: &str =
    "copies 3\nzones 2\nbits 1\nbox 1 shop 100\nbox 2 shop 70 tower\nbox 3 home 50\n";

/// One box with one partition, which may grow to fifteen sixteenths of the capacity: clusters of
/// different sizes have different layouts.
fn one_box(capacity: u32) -> String {
    format!("copies 1\nzones 1\nbits 0\nbox 1 home {capacity}\n")
}

/// The size that a layout record tells.
fn size_of(record: &[u8]) -> u32 {
    dezghuri::Plan::from_record(record).expect("a layout").size
}

/// A folder with the sample and its first layout.
fn planned_home(name: &str) -> Folder {
    let folder = Folder::new(name);
    folder.write("home.txt", HOME);
    folder.write("next.txt", HOME_NEXT);
    let done = folder.call("plan home.txt --out last");
    assert_eq!(done.status, 0, "{}", done.err);
    folder
}

/// Of 4, 2 and 3 TB 3,750, 1,875 and 2,812.5 GB may be filled. At 18,262 MB they take 205 + 102 + 205 +
/// 102 + 154 = 768 copies, all that there are; at 18,263 MB box 5 takes one less. So size and copies
/// can be no others.
#[test]
fn the_first_plan_of_the_sample() {
    let folder = Folder::new("first");
    folder.write("home.txt", HOME);
    let done = folder.call("plan home.txt --out last");
    assert_eq!((done.status, done.err.as_str()), (0, ""));
    assert_eq!(done.out, include_str!("first.txt"));
    assert_eq!(folder.names(), ["home.txt", "home.txt.history", "last"]);
    assert_eq!(folder.read("last").len(), 29 + 256 * (5 + 4 * 3));
}

/// The rows of a layout that was written: each followed by the number of the first partition after those
/// that have it.
fn row_groups(record: &[u8]) -> Vec<(Vec<u32>, usize)> {
    let layout = dezghuri::Plan::from_record(record)
        .expect("a layout")
        .layout;
    let mut groups: Vec<(Vec<u32>, usize)> = Vec::new();
    for ((_, row), end) in layout.rows().zip(1..) {
        match groups.last_mut() {
            Some(last) if last.0 == row => last.1 = end,
            _ => groups.push((row.to_vec(), end)),
        }
    }
    groups
}

/// Any three boxes are in two zones or more, so all that counts is how many copies each still takes: no
/// more than there are rows left, and one that takes as many is in all of them. Boxes 1 to 5 take 205,
/// 102, 205, 102 and 154. Rows 1 2 3 can be had 102 times: then box 2 is full, and box 5 takes as many as
/// there are rows left, 154. Rows 1 3 5 can be had until box 4 takes as many as are left: it takes 102,
/// so 52 times. Boxes 1 and 3 then take 51 each, and box 1 comes first.
#[test]
fn the_first_plan_of_the_sample_has_the_first_rows() {
    let rows = row_groups(&planned_home("first-rows").read("last"));
    let known = [
        (vec![1, 2, 3], 102),
        (vec![1, 3, 5], 154),
        (vec![1, 4, 5], 205),
        (vec![3, 4, 5], 256),
    ];
    assert_eq!(rows, known);
}

/// At 19,531 MB the disks take 192 + 96 + 192 + 96 + 192 = 768 copies, 3,749,952 of 3,750,000 MB at
/// boxes 1, 3 and 6. All 192 of box 6 are new to it. The 154 rows that box 5 was in have two copies
/// left; 102 of them have one in box 4, which may hold 96, so six of these get two copies: 160 in all.
/// Box 6 gets at most one in each of the 154, so 38 or more in the other rows: no plan sends fewer than
/// 198.
#[test]
fn a_plan_after_a_box_was_replaced() {
    let folder = planned_home("next");
    let done = folder.call("plan next.txt --former last --out next");
    assert_eq!((done.status, done.err.as_str()), (0, ""));
    assert_eq!(done.out, include_str!("next.txt"));
    let shown = folder.call("show next.txt next");
    assert_eq!((shown.status, shown.err.as_str()), (0, ""));
    assert_eq!(shown.out, include_str!("show.txt"));
}

/// A plan that sends 198 copies leaves the rows as they were but for these: box 6 is in all that box 5 was
/// in, in six of those box 4 gives way to another box, and in 38 of the rows 1 2 3 one box gives way to
/// box 6. In the first such plan these are the last 38. Boxes 1, 2 and 3 hold 13, 6 and 13 more than they
/// may, and one more for each copy that they get for box 4. Since 1 2 6 comes before 1 3 6, and that before
/// 2 3 6, box 3 gives up most: it gets all six, and gives up 19. It gets them in the first rows that were
/// 1 4 5, since 1 3 6 comes before 1 4 6.
#[test]
fn the_plan_after_a_box_was_replaced_has_the_first_rows() {
    let folder = planned_home("next-rows");
    let done = folder.call("plan next.txt --former last --out next");
    assert_eq!((done.status, done.err.as_str()), (0, ""));
    let known = [
        (vec![1, 2, 3], 102 - 38),
        (vec![1, 2, 6], 102 - 38 + 19),
        (vec![1, 3, 6], 102 - 38 + 19 + 6),
        (vec![2, 3, 6], 102),
        (vec![1, 3, 6], 154 + 6),
        (vec![1, 4, 6], 205),
        (vec![3, 4, 6], 256),
    ];
    assert_eq!(row_groups(&folder.read("next")), known);
}

/// The former layout is called as it will be kept; what is staged counts as it did for the plan.
#[test]
fn the_call_that_shows_why_has_the_names_of_the_files() {
    let folder = planned_home("certified");
    let planned = |line: &str| folder.call(line).out;
    let told = "transfers.\n`dezghuri certify next.txt --former last.old last` shows why.\nWritten to last.\n";
    let out = planned("plan next.txt --former last --out last");
    assert!(out.contains(told), "{out}");
    folder.call("stage home.txt resize 5 4T");
    let told = "\n`dezghuri certify home.txt --staged --former last.old x` shows why.\n";
    let out = planned("plan home.txt --staged --former last.old --out x");
    assert!(out.contains(told), "{out}");
    assert!(!planned("plan next.txt --former last").contains("certify"));
}

#[test]
fn nothing_moves_where_nothing_changed() {
    let folder = planned_home("same");
    let before = folder.read("last");
    let done = folder.call("plan home.txt --former last --out last");
    assert_eq!(done.status, 0, "{}", done.err);
    let told = "Transfers: 0 copies are to be sent, 0 copies are to be dropped.\n";
    assert!(done.out.contains(told), "{}", done.out);
    let rows = |record: &[u8]| record[29..].to_vec();
    assert_eq!(rows(&folder.read("last")), rows(&before));
}

#[test]
fn a_stopped_plan_says_what_that_means() {
    let folder = planned_home("stopped");
    let done = folder.call("plan next.txt --former last --out next --allowance 1");
    assert_eq!((done.status, done.err.as_str()), (0, ""));
    let told =
        "Stopped after 1 improvement: the layout is valid, but another one of this size needs \
                fewer\ntransfers. A larger allowance comes nearer to it.\nWritten to next.\n";
    assert!(done.out.ends_with(told), "{}", done.out);
    assert_eq!(folder.call("check next.txt next").status, 0);
    let shown = folder.call("show next.txt next");
    let told = "Planned: stopped after 1 improvement, another layout of this size needed fewer \
                transfers.\n";
    assert!(shown.out.ends_with(told), "{}", shown.out);
}

#[test]
fn a_layout_is_checked() {
    let folder = planned_home("check");
    let checked = |file: &str, text: &str| {
        folder.write(file, text);
        let done = folder.call(&format!("check {file} last"));
        (done.status, done.out + &done.err)
    };
    let edited = |from: &str, to: &str| {
        assert!(HOME.contains(from));
        HOME.replace(from, to)
    };
    assert_eq!(
        checked("same.txt", HOME),
        (
            0,
            "last is valid for same.txt, each partition up to 18,262 MB.\n".into()
        )
    );
    assert_eq!(
        checked("smaller.txt", &edited("archive   3T", "archive   2T")),
        (
            1,
            "not valid: box 5 is to hold 154 copies of 18,262 MB, 2,812,348 MB together, and may hold \
             1,875,000 MB of its 2,000,000 MB, since a sixteenth stays free (refused 12)\n"
                .into()
        )
    );
    assert_eq!(
        checked("fewer.txt", &edited("copies 3", "copies 2")),
        (
            1,
            "not valid: it has 3 copies of each partition, 2 are wanted (refused 10)\n".into()
        )
    );
    assert_eq!(
        checked("bits.txt", &edited("copies 3", "bits 7\ncopies 3")),
        (
            1,
            "not valid: it has bits 8, 7 are wanted (refused 10)\n".into()
        )
    );
    let (status, told) = checked("gone.txt", &edited("box 5 ", "box 6 "));
    assert_eq!(status, 1);
    assert!(told.starts_with("not valid: partition "), "{told}");
    assert!(
        told.ends_with(" lies on box 5, which is not there (refused 10)\n"),
        "{told}"
    );
}

/// At 25 MB, the size of example A when disks were filled to the brim, box 3 takes all of its 50 MB.
/// What refuses it says what to do, and that leads to a valid layout without a transfer.
#[test]
fn a_layout_from_before_a_sixteenth_was_free_is_planned_again() {
    let folder = Folder::new("brim");
    folder.write("home.txt", THREE);
    folder.write("last", layout_record(1, 25, &[&[1, 2, 3], &[1, 2, 3]]));
    let why =
        "box 3 is to hold 2 copies of 25 MB, 50 MB together, and may hold 47 MB of its 50 MB, \
               since a sixteenth stays free: plan again, with this layout as --former (refused 12)";
    let done = folder.call("check home.txt last");
    assert_eq!((done.status, done.err), (1, format!("not valid: {why}\n")));
    let shown = folder.call("show home.txt last");
    let heading = format!("Not valid for home.txt as it is now: {why}.\n");
    assert!(shown.out.contains(&heading), "{}", shown.out);
    let page = folder.call("report home.txt last --out page.html");
    let told = format!("last is not valid for home.txt as it is now: {why}.\n");
    assert_eq!(page.status, 1);
    assert!(page.out.starts_with(&told), "{}", page.out);

    let done = folder.call("plan home.txt --former last --out last");
    assert_eq!((done.status, done.err.as_str()), (0, ""));
    for told in [
        "Size: each partition may grow to 23 MB",
        "Transfers: 0 copies are to be sent, 0 copies are to be dropped.\n",
    ] {
        assert!(done.out.contains(told), "{}", done.out);
    }
    assert_eq!(folder.call("check home.txt last").status, 0);
}

#[test]
fn zones_are_checked_by_name() {
    let folder = Folder::new("zones");
    folder.write("home.txt", THREE);
    assert_eq!(folder.call("plan home.txt --out last").status, 0);
    folder.write("one.txt", THREE.replace("home", "shop"));
    let done = folder.call("check one.txt last");
    let told = "not valid: partition 0 lies in 1 zone (shop), 2 are wanted (refused 11)\n";
    assert_eq!((done.status, done.err.as_str()), (1, told));
}

#[test]
fn one_partition_is_shown() {
    let folder = Folder::new("row");
    folder.write("home.txt", THREE);
    assert_eq!(folder.call("plan home.txt --out last").status, 0);
    let shown = folder.call("show home.txt last 1");
    let row =
        "Partition 1 lies on\n\n  box  name   zone\n    1         shop\n    2  tower  shop\n    \
               3         home\n";
    assert_eq!((shown.status, shown.out.as_str()), (0, row));
    let beyond = folder.call("show home.txt last 2");
    let told = "last has 2 partitions, numbered from 0\n";
    assert_eq!((beyond.status, beyond.err.as_str()), (2, told));
}

#[test]
fn a_cluster_record_is_written() {
    let folder = Folder::new("record");
    folder.write("home.txt", THREE);
    let expected = [
        &[1, 0, 1, 1, 2, 0, 1, 3, 3, 0, 1, 2][..],
        &[4, 0, 12, 0, 0, 0, 1, 0, 0, 0, 0, 0, 100, 1, 0],
        &[4, 0, 12, 0, 0, 0, 2, 0, 0, 0, 0, 0, 70, 1, 0],
        &[4, 0, 12, 0, 0, 0, 3, 0, 1, 0, 0, 0, 50, 1, 0],
    ]
    .concat();
    let done = folder.call("record home.txt");
    assert_eq!((done.status, done.bytes), (0, expected.clone()));
    let done = folder.call("record home.txt --out record");
    let told = "home.txt makes a cluster record of 57 bytes.\nWritten to record.\n";
    assert_eq!((done.status, done.out.as_str()), (0, told));
    assert_eq!(folder.read("record"), expected);

    assert_eq!(folder.call("plan home.txt --out last").status, 0);
    let row = |p| [5, 0, 14, 0, p, 0, 0, 0, 1, 0, 0, 0, 2, 0, 0, 0, 3];
    let with_rows = [expected, row(0).to_vec(), row(1).to_vec()].concat();
    assert_eq!(
        folder.call("record home.txt --former last").bytes,
        with_rows
    );
}

#[test]
fn no_layout_is_told_with_its_reason_and_nothing_is_written() {
    let refused = |text: &str, why: &str| {
        let folder = Folder::new("none");
        folder.write("home.txt", text);
        folder.write("next", "kept");
        let done = folder.call("plan home.txt --out next");
        let told = format!("there is no layout: {why} (refused 9)\n");
        assert_eq!((done.status, done.err, done.out), (1, told, String::new()));
        assert_eq!(folder.read("next"), b"kept");
        assert_eq!(folder.names(), ["home.txt", "next"]);
    };
    let zones = THREE.replace("zones 2", "zones 3");
    refused(
        &zones,
        "3 zones are wanted, and the boxes with disk space lie in 2",
    );
    let copies = THREE.replace("box 3 home 50", "box 3 home 0");
    refused(
        &copies,
        "3 copies need 3 boxes with disk space, and 2 have any",
    );
    let small = THREE.replace("box 3 home 50", "box 3 home 1");
    let why = "the disks, a sixteenth of each kept free, are too small for 2 partitions of a \
               megabyte each";
    refused(&small, why);
    let none_free = "copies 1\nzones 1\nbits 4\nbox 1 home 15\n";
    let why = "the disks are too small for 16 partitions of a megabyte each";
    refused(none_free, why);
}

#[test]
fn a_bad_file_is_told_by_line_and_nothing_is_written() {
    let folder = Folder::new("bad");
    folder.write("home.txt", include_str!("bad.txt"));
    folder.write("next", "kept");
    let done = folder.call("plan home.txt --out next");
    assert_eq!((done.status, done.out.as_str()), (2, ""));
    assert_eq!(done.err, include_str!("bad-told.txt"));
    assert_eq!(folder.read("next"), b"kept");
    assert_eq!(folder.names(), ["home.txt", "next"]);
    for line in [
        "check home.txt next",
        "show home.txt next",
        "record home.txt",
    ] {
        let done = folder.call(line);
        assert_eq!(
            (done.status, done.err.as_str()),
            (2, include_str!("bad-told.txt"))
        );
    }
}

#[test]
fn a_damaged_layout_is_refused_and_nothing_is_written() {
    let folder = planned_home("damaged");
    let record = folder.read("last");
    folder.write("next", "kept");
    let damaged = [
        (
            record[..record.len() - 1].to_vec(),
            "one or two bytes left, or a field's body cut short, at byte 4364 (refused 1)",
        ),
        (
            record[..29].to_vec(),
            "the record ends before a field or row that it must have, at byte 29 (refused 7)",
        ),
        (
            [&record[..], &[10, 0, 14]].concat(),
            "a tag that is not allowed next, at byte 4381 (refused 2)",
        ),
        (
            vec![],
            "the record ends before a field or row that it must have, at byte 0 (refused 7)",
        ),
    ];
    for (bytes, why) in damaged {
        folder.write("last", &bytes);
        let told = format!("last: this is not a whole layout record: {why}\n");
        for line in [
            "plan next.txt --former last --out next",
            "check home.txt last",
            "show home.txt last",
            "show home.txt last 0",
        ] {
            let done = folder.call(line);
            assert_eq!(
                (done.status, &done.err, &done.out[..]),
                (2, &told, ""),
                "{line}"
            );
        }
        assert_eq!(folder.read("next"), b"kept");
    }
}

#[test]
fn a_former_layout_of_other_partitions_is_refused() {
    let folder = planned_home("bits");
    folder.write("next.txt", HOME_NEXT.replace("zones 2", "zones 2\nbits 7"));
    let done = folder.call("plan next.txt --former last --out next");
    let told = "last was planned with bits 8, next.txt has bits 7: they cannot change\n";
    assert_eq!((done.status, done.err.as_str()), (2, told));
    let names = ["home.txt", "home.txt.history", "last", "next.txt"];
    assert_eq!(folder.names(), names);
}

#[test]
fn files_that_are_not_there_are_told() {
    let folder = planned_home("missing");
    for (line, file) in [
        ("plan other.txt --out next", "other.txt"),
        ("plan home.txt --former other --out next", "other"),
        ("check home.txt other", "other"),
    ] {
        let done = folder.call(line);
        let told = format!("{file}: No such file or directory (os error 2)\n");
        assert_eq!((done.status, done.err), (2, told), "{line}");
    }
    let names = ["home.txt", "home.txt.history", "last", "next.txt"];
    assert_eq!(folder.names(), names);
}

#[test]
fn only_a_file_is_replaced() {
    let folder = planned_home("place");
    std::fs::create_dir(folder.path("folder")).unwrap();
    let done = folder.call("plan home.txt --out folder");
    let told = "folder: not written: there is something there that is not a file\n";
    assert_eq!((done.status, done.err.as_str()), (2, told));
    let done = folder.call("plan home.txt --out nowhere/next");
    let told = "nowhere/next: not written: No such file or directory (os error 2)\n";
    assert_eq!((done.status, done.err.as_str()), (2, told));
    assert_eq!(done.out, "", "it is known before anything is printed");
    let names = ["folder", "home.txt", "home.txt.history", "last", "next.txt"];
    assert_eq!(folder.names(), names);
}

#[test]
fn the_description_is_never_replaced() {
    let folder = planned_home("itself");
    for line in [
        "plan home.txt --out ./home.txt",
        "record home.txt --out home.txt",
    ] {
        let done = folder.call(line);
        assert_eq!(done.status, 2, "{}", done.err);
        assert!(
            done.err.contains("would replace the description"),
            "{}",
            done.err
        );
        assert_eq!(folder.read("home.txt"), HOME.as_bytes());
    }
}

#[test]
fn faulty_calls_end_with_status_2() {
    let folder = Folder::new("usage");
    let done = folder.call("plan --speed 7 home.txt");
    let told = "dezghuri: --speed is not an option here\n`dezghuri help` says how it is called\n";
    assert_eq!((done.status, done.err.as_str()), (2, told));
    assert_eq!(folder.call("").status, 2);
}

/// A file may have a name that looks like an option.
#[test]
fn words_after_two_dashes_are_names() {
    let folder = Folder::new("dashes");
    folder.write("--json", THREE);
    let done = folder.call("plan --out=-x -- --json");
    assert_eq!((done.status, done.err.as_str()), (0, ""));
    assert!(done.out.starts_with("--json: 3 copies"), "{}", done.out);
    let done = folder.call("check -- --json -x");
    let valid = "-x is valid for --json, each partition up to 23 MB.\n";
    assert_eq!((done.status, done.out.as_str()), (0, valid));
    let done = folder.call("check -- -x --json");
    assert_eq!((done.status, done.out.as_str()), (2, ""));
    assert!(folder.call("check --json -- -x -x").out.starts_with('{'));
}

#[test]
fn help_and_version_are_printed() {
    let folder = Folder::new("help");
    let (all, moves) = (include_str!("help.txt"), include_str!("help-moves.txt"));
    for (line, told) in [
        ("help", all),
        ("--help", all),
        ("-h", all),
        ("help help", all),
        ("help moves", moves),
        ("moves --help", moves),
        ("moves home.txt -h --speed", moves),
    ] {
        let help = folder.call(line);
        assert_eq!((help.status, help.err.as_str()), (0, ""), "{line}");
        assert_eq!(help.out, told, "{line}");
    }
    for line in ["--version", "-V", "version"] {
        let version = folder.call(line);
        assert_eq!((version.status, version.err.as_str()), (0, ""), "{line}");
        assert_eq!(version.out, "dezghuri 0.9.0\n", "{line}");
    }
}
