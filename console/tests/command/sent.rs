//! The copies to be sent are one number, wherever they are told.

use crate::folder::{layout_record, Folder};
use crate::planned_home;
use crate::read_json::read;
use dezghuri::Plan;

/// The column "to receive" of a report: a number for each box, and one for all.
fn to_receive(report: &str) -> Vec<u64> {
    let from_head = report
        .lines()
        .skip_while(|line| !line.ends_with("to receive  to drop"));
    let lines = from_head.skip(1).take_while(|line| !line.is_empty());
    let number = |line: &str| line.split_whitespace().nth_back(1)?.parse().ok();
    lines.map(|line| number(line).expect("a number")).collect()
}

/// Plans next.txt from the layout `last`, and looks the number up in each place.
fn is_told_alike(folder: &Folder, sent: u16) {
    let done = folder.call("plan next.txt --former last --out next");
    assert_eq!((done.status, done.err.as_str()), (0, ""));
    let told = format!("Transfers: {sent} copies are to be sent, ");
    assert!(done.out.contains(&told), "{}", done.out);
    let mut column = to_receive(&done.out);
    assert_eq!(column.pop(), Some(sent.into()), "{}", done.out);
    assert_eq!(column.iter().sum::<u64>(), sent.into(), "{}", done.out);

    let record = folder.read("next");
    assert_eq!(record[15..18], [7, 0, 2], "field 7");
    assert_eq!(record[18..20], sent.to_be_bytes());
    let plan = Plan::from_record(&record).expect("a layout record");
    assert_eq!(plan.sent, sent.into());

    assert_eq!(
        folder
            .call("record next.txt --former last --out record")
            .status,
        0
    );
    let lines = folder.call("plan --record record").out;
    let told = format!("sent {sent}");
    assert_eq!(lines.lines().nth(1), Some(told.as_str()));

    let object = read(&folder.call("plan next.txt --former last --json").out);
    assert_eq!(object.get("sent").line(), sent.to_string());
    let tried = read(
        &folder
            .call("what-if next.txt --former last --remove 1 --json")
            .out,
    );
    let as_it_is = &tried.get("lines").list()[0];
    assert_eq!(as_it_is.get("sent").line(), sent.to_string());
}

/// Box 5 is gone, and box 6 takes 192 copies, all of them new to it; six that box 4 has to give up go to
/// another box.
#[test]
fn it_is_one_number_where_a_box_was_replaced() {
    is_told_alike(&planned_home("sent"), 198);
}

/// Box 2 is gone, box 4 is new, and each of the three boxes is to hold both partitions, of which boxes
/// 1 and 3 have one each. Two copies are gone, and none is dropped: half of the distance would be 3.
#[test]
fn it_is_one_number_where_a_copy_more_is_wanted() {
    let folder = Folder::new("sent-more");
    folder.write(
        "next.txt",
        "copies 3\nzones 1\nbits 1\nbox 1 a 10\nbox 3 b 10\nbox 4 c 10\n",
    );
    folder.write("last", layout_record(1, 5, &[&[1, 2], &[2, 3]]));
    is_told_alike(&folder, 4);
}
