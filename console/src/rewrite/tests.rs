//! Texts before and after changes, worked out by hand, and random ones.

use super::*;
use reference::random::Random;

const HOME: &str = "\
# Five boxes.

copies 3
zones 2

#   id  zone      capacity  name
box 1   workshop  4T        big tower
box 2   workshop  2T        old tower  # noisy
box 3   home      4T        study
box 4   home      2T        cellar
box 5   archive   3T
";

fn read(text: &str) -> Description {
    text.parse()
        .unwrap_or_else(|faults| panic!("{text:?}: {faults}"))
}

fn remove(described: &mut Description, id: u32) {
    let mut nodes = described.cluster.nodes.iter();
    let place = nodes.position(|node| node.id == id).expect("it is there");
    described.cluster.nodes.remove(place);
    described.labels.remove(place);
}

/// Adds a box, with the number of its zone if others stand in it, and else a new one.
fn add(described: &mut Description, id: u32, zone: &str, capacity: u32, name: &str) {
    let boxes = described.cluster.nodes.iter().zip(&described.labels);
    let mut known = boxes.filter(|(_, label)| label.zone == zone);
    let highest = described.cluster.nodes.iter().map(|node| node.zone).max();
    let number = match known.next() {
        Some((node, _)) => node.zone,
        None => highest.map_or(0, |zone| zone + 1),
    };
    described.cluster.nodes.push(Node {
        id,
        zone: number,
        capacity,
        ceiling: Node::NO_CEILING,
    });
    described.labels.push(Label {
        name: name.into(),
        zone: zone.into(),
    });
}

fn resize(described: &mut Description, id: u32, capacity: u32) {
    let mut nodes = described.cluster.nodes.iter_mut();
    let node = nodes.find(|node| node.id == id).expect("it is there");
    node.capacity = capacity;
}

/// Gives a box another ceiling.
fn limit(described: &mut Description, id: u32, ceiling: u16) {
    let mut nodes = described.cluster.nodes.iter_mut();
    let node = nodes.find(|node| node.id == id).expect("it is there");
    node.ceiling = ceiling;
}

fn replace(described: &mut Description, id: u32, zone: &str, capacity: u32, name: &str) {
    remove(described, id);
    add(described, id, zone, capacity, name);
}

/// The text after changes of its boxes.
fn after(text: &str, change: impl FnOnce(&mut Description)) -> String {
    let mut after = read(text);
    change(&mut after);
    let rewritten = after.rewritten(text.as_bytes()).expect("it can be written");
    String::from_utf8(rewritten).expect("it is text")
}

/// The same of lines below copies and zones.
fn boxes_after(boxes: &str, change: impl FnOnce(&mut Description)) -> String {
    let head = "copies 1\nzones 1\n";
    let rewritten = after(&format!("{head}{boxes}"), change);
    rewritten.strip_prefix(head).expect("the head stays").into()
}

#[test]
fn without_a_change_the_text_stays() {
    let odd = "\u{feff}#x\r\n\r\n\tbox  007 07 2000G  a  b\t# c\r\ncopies 1 # d\nzones 1\n \t";
    for text in [HOME, odd] {
        assert_eq!(after(text, |_| ()), text);
    }
}

#[test]
fn another_capacity_replaces_its_word_and_keeps_the_columns() {
    let rewritten = after(HOME, |d| {
        resize(d, 2, 1_500_000);
        resize(d, 5, 7);
    });
    let expected = HOME
        .replace("2T        old", "1500G     old")
        .replace("3T\n", "7M\n");
    assert_eq!(rewritten, expected);
    let no_room = after(HOME, |d| resize(d, 2, 123_456_789));
    let expected = HOME.replace("2T        old tower  #", "123456789M old tower #");
    assert_eq!(no_room, expected);
}

#[test]
fn single_spaces_stay_single_unless_they_lead_to_columns() {
    let shrink = |d: &mut Description| resize(d, 1, 4_000_000);
    let ragged = "box 1 home 500G study # x\nbox 20 home 8T the cellar # y\n";
    assert_eq!(boxes_after(ragged, shrink), ragged.replace("500G", "4T"));
    let widest = "box 1 home 1500G study # x\nbox 2 shop 8T    attic # y\n";
    assert_eq!(
        boxes_after(widest, shrink),
        widest.replace("1500G", "4T   ")
    );
    let equal = "box 1 home 500G study\nbox 2 shop 800G cellar\n";
    assert_eq!(boxes_after(equal, shrink), equal.replace("500G", "4T  "));
    let elsewhere = "box 1 home 500G study\nbox 2 shop 8T      cellar\n";
    assert_eq!(
        boxes_after(elsewhere, shrink),
        elsewhere.replace("500G", "4T")
    );
    let touching = "box 1 home 500G# x\nbox 2 shop 800G# y\n";
    assert_eq!(
        boxes_after(touching, shrink),
        touching.replace("500G", "4T")
    );
    let alone = "box 1 home 500G study   # x\n";
    assert_eq!(boxes_after(alone, shrink), "box 1 home 4T study     # x\n");
}

#[test]
fn tabs_stay_tabs() {
    let text = "box\t1\thome\t2T\tstudy\t# x\nbox\t2\tshop\t4T\n";
    let rewritten = boxes_after(text, |d| {
        resize(d, 1, 1_234_567);
        add(d, 3, "attic", 500_000, "new box");
    });
    let expected = text.replace("2T", "1234567M") + "box\t3\tattic\t500G\tnew box\n";
    assert_eq!(rewritten, expected);
    let one_indented = "\tbox 1 home 2T\nbox 2 home 2T     x\n";
    let rewritten = boxes_after(one_indented, |d| replace(d, 1, "home", 2_000_000, "y"));
    assert_eq!(rewritten, "\tbox 1 home 2T y\nbox 2 home 2T     x\n");
    let nameless = "box\t2\tshop\t4T\n";
    let rewritten = boxes_after(nameless, |d| add(d, 3, "shop", 1, "x"));
    assert_eq!(rewritten, nameless.to_string() + "box\t3\tshop\t1M\tx\n");
}

#[test]
fn the_remark_of_a_removed_box_stays() {
    let rewritten = after(HOME, |d| {
        remove(d, 2);
        remove(d, 3);
    });
    let expected = HOME
        .replace("box 2   workshop  2T        old tower  # noisy", "# noisy")
        .replace("box 3   home      4T        study\n", "");
    assert_eq!(rewritten, expected);
    let touching = "box 1 a 5 rack#4 # x\r\nbox 2 a 5\r\n";
    let rewritten = boxes_after(touching, |d| remove(d, 1));
    assert_eq!(rewritten, "#4 # x\r\nbox 2 a 5\r\n");
}

#[test]
fn a_last_line_without_a_newline_may_go() {
    let text = "box 1 a 5\nbox 2 a 5";
    assert_eq!(boxes_after(text, |d| remove(d, 2)), "box 1 a 5\n");
    let text = "box 1 a 5\nbox 2 a 5 # x";
    assert_eq!(boxes_after(text, |d| remove(d, 2)), "box 1 a 5\n# x");
}

#[test]
fn a_box_that_was_replaced_keeps_its_line() {
    let rewritten = after(HOME, |d| replace(d, 2, "home", 500_000, "tower"));
    let line = "box 2   home      500G      tower      # noisy";
    let old = "box 2   workshop  2T        old tower  # noisy";
    assert_eq!(rewritten, HOME.replace(old, line));
    let rewritten = after(HOME, |d| replace(d, 2, "workshop", 2_000_000, ""));
    let line = "box 2   workshop  2T                   # noisy";
    assert_eq!(rewritten, HOME.replace(old, line));
    let rewritten = after(HOME, |d| replace(d, 5, "cellar-of-mine", 3_000_000, "x y"));
    let line = "box 5   cellar-of-mine 3T   x y\n";
    assert_eq!(rewritten, HOME.replace("box 5   archive   3T\n", line));
}

#[test]
fn names_come_and_go_beside_remarks() {
    let ragged = "box 1 home 2T study # x\nbox 20 home 8T# y\nbox 3 shop 1T rack#4\n";
    let rewritten = boxes_after(ragged, |d| {
        replace(d, 1, "home", 2_000_000, "");
        replace(d, 20, "home", 8_000_000, "new");
        replace(d, 3, "shop", 1_000_000, "");
    });
    assert_eq!(
        rewritten,
        "box 1 home 2T # x\nbox 20 home 8T new # y\nbox 3 shop 1T #4\n"
    );
    let ends = "box 1 home 2T   study  \r\nbox 2 home 2T \t\r\n";
    let rewritten = boxes_after(ends, |d| {
        replace(d, 1, "home", 2_000_000, "");
        replace(d, 2, "home", 2_000_000, "x");
    });
    assert_eq!(rewritten, "box 1 home 2T  \r\nbox 2 home 2T   x \t\r\n");
}

#[test]
fn words_that_say_the_same_stay_as_they_are_written() {
    let text = "box 007 07 2000G  a  b\nbox 8 7 .5T\n";
    let rewritten = boxes_after(text, |d| {
        replace(d, 7, "7", 1_000, "a b");
        replace(d, 8, "8", 500_000, "");
    });
    assert_eq!(rewritten, "box 007 07 1G     a  b\nbox 8 8 .5T\n");
}

#[test]
fn a_new_box_follows_the_last_one_below_it() {
    let rewritten = after(HOME, |d| {
        remove(d, 5);
        add(d, 6, "archive", 4_000_000, "new box");
        add(d, 7, "far-away-house", 1_500_000, "");
    });
    let expected = HOME.replace(
        "box 5   archive   3T\n",
        "box 6   archive   4T        new box\nbox 7   far-away-house 1500G\n",
    );
    assert_eq!(rewritten, expected);
    let rewritten = after(HOME, |d| add(d, 66, "attic", 5_000, "new"));
    let line = "box 66  attic     5G        new\n";
    assert_eq!(rewritten, HOME.to_string() + line);
}

#[test]
fn the_order_of_the_lines_is_the_owners() {
    let text = "# a\n  box 9 x 5\n\n  box 3 x 5 # b\n# c\n  box 4 x 5\n# d\n";
    let rewritten = boxes_after(text, |d| {
        for id in [1, 2, 5, 10, 3_000] {
            add(d, id, "x", 5, "");
        }
        remove(d, 4);
    });
    let expected = "# a\n  box 1 x 5M\n  box 2 x 5M\n  box 9 x 5\n\n  box 3 x 5 # b\n  \
                    box 5 x 5M\n  box 10 x 5M\n  box 3000 x 5M\n# c\n# d\n";
    assert_eq!(rewritten, expected);
}

#[test]
fn without_an_old_box_new_ones_stand_at_the_end() {
    let text = "  box 9 x 5 # a\n\n# b\n";
    let change = |d: &mut Description| {
        remove(d, 9);
        add(d, 4, "x", 6, "");
        add(d, 12, "x", 7, "y");
    };
    let expected = "# a\n\n# b\n  box 4 x 6M\n  box 12 x 7M y\n";
    assert_eq!(boxes_after(text, change), expected);
}

#[test]
fn ends_of_lines_are_those_of_the_file() {
    let text = "\u{feff}box 2 x 5\r\ncopies 1\r\nzones 1\r\nbox 3 x 5";
    let rewritten = after(text, |d| {
        for id in [1, 4, 5] {
            add(d, id, "x", 5, "");
        }
    });
    let expected = "\u{feff}box 1 x 5M\r\nbox 2 x 5\r\ncopies 1\r\nzones 1\r\nbox 3 x 5\r\n\
                    box 4 x 5M\r\nbox 5 x 5M";
    assert_eq!(rewritten, expected);
    let text = "copies 1\r\nzones 1\r\nbox 3 x 5\r";
    let rewritten = after(text, |d| add(d, 4, "x", 5, ""));
    assert_eq!(
        rewritten,
        "copies 1\r\nzones 1\r\nbox 3 x 5\r\nbox 4 x 5M\r"
    );
}

#[test]
fn the_ceiling_of_a_removed_box_goes_and_its_remark_stays() {
    let text = "ceiling 1 40 # thin line\nbox 1 a 5 # old\nbox 2 a 5\n ceiling 2 30\nbox 3 a 5\n";
    let rewritten = boxes_after(text, |d| remove(d, 1));
    assert_eq!(
        rewritten,
        "# thin line\n# old\nbox 2 a 5\n ceiling 2 30\nbox 3 a 5\n"
    );
    let rewritten = boxes_after(text, |d| remove(d, 2));
    assert_eq!(
        rewritten,
        "ceiling 1 40 # thin line\nbox 1 a 5 # old\nbox 3 a 5\n"
    );
    let last = "box 1 a 5\nbox 2 a 5\nceiling 2 7#x";
    assert_eq!(boxes_after(last, |d| remove(d, 2)), "box 1 a 5\n#x");
    let last = "box 1 a 5\nbox 2 a 5\nceiling 2 7";
    assert_eq!(boxes_after(last, |d| remove(d, 2)), "box 1 a 5\n");
}

#[test]
fn another_disk_leaves_the_ceiling() {
    let text = "  ceiling\t1   040  # thin\nbox 1 a 5\n";
    let rewritten = boxes_after(text, |d| resize(d, 1, 7));
    assert_eq!(rewritten, text.replace("a 5", "a 7M"));
}

#[test]
fn the_ceiling_of_a_new_box_follows_it() {
    let text = "box 1 a 5\nceiling 1 40\nbox 5 a 5\n# end";
    let add_limited = |d: &mut Description, id, ceiling| {
        add(d, id, "a", 6, "");
        limit(d, id, ceiling);
    };
    let rewritten = boxes_after(text, |d| {
        add_limited(d, 3, 0);
        add_limited(d, 4, 256);
        add_limited(d, 7, 255);
    });
    let expected = "box 1 a 5\nceiling 1 40\nbox 3 a 6M\nceiling 3 0\nbox 4 a 6M\nbox 5 a 5\n\
                    box 7 a 6M\nceiling 7 255\n# end";
    assert_eq!(rewritten, expected);
    let tabs = "\tbox\t1\ta\t5\r";
    let rewritten = boxes_after(tabs, |d| add_limited(d, 3, 20));
    assert_eq!(
        rewritten,
        "\tbox\t1\ta\t5\n\tbox\t3\ta\t6M\n\tceiling\t3\t20\r"
    );
    let rewritten = boxes_after("  box  1 a 5", |d| {
        remove(d, 1);
        add_limited(d, 3, 20);
    });
    assert_eq!(rewritten, "  box  3 a 6M\n  ceiling 3 20\n");
}

/// A box that was removed and added anew may have another ceiling, or none.
#[test]
fn a_box_that_was_replaced_keeps_the_line_of_its_ceiling() {
    let text = "box 1 a 5\nbox 2 a 5 # x\n\nceiling  1 40 # y\n";
    let with = |ceiling: u16| boxes_after(text, |d| limit(d, 1, ceiling));
    assert_eq!(with(40), text);
    assert_eq!(with(7), text.replace("40", "7"));
    assert_eq!(with(256), text.replace("ceiling  1 40 ", ""));
    let rewritten = boxes_after(text, |d| {
        limit(d, 2, 9);
        add(d, 3, "a", 5, "");
    });
    let expected = "box 1 a 5\nbox 2 a 5 # x\nceiling 2 9\nbox 3 a 5M\n\nceiling  1 40 # y\n";
    assert_eq!(rewritten, expected);
    let high = "box 1 a 5\nceiling 1 256 # z\n";
    assert_eq!(
        boxes_after(high, |d| limit(d, 1, 3)),
        high.replace("256", "3")
    );
    let rewritten = boxes_after(high, |d| add(d, 2, "a", 5, ""));
    assert_eq!(rewritten, high.to_string() + "box 2 a 5M\n");
    let dropped = "box 1 a 5\nceiling 1 2 # z\n";
    let rewritten = boxes_after(dropped, |d| {
        limit(d, 1, 256);
        add(d, 2, "a", 5, "");
    });
    assert_eq!(rewritten, "box 1 a 5\nbox 2 a 5M\n# z\n");
}

/// The first lines number the zones; box by box the words are the same.
#[test]
fn zones_are_those_of_the_words_though_their_numbers_shift() {
    let text = "copies 1\nzones 1\nbox 1 home 5\nbox 2 shop 5\nbox 3 1 5\n";
    let mut after = read(text);
    remove(&mut after, 1);
    let rewritten = after.rewritten(text.as_bytes()).unwrap();
    let read = Description::parse(&rewritten).unwrap();
    assert!(after.agrees_with(&read));
    assert_eq!(
        (after.cluster.nodes[0].zone, read.cluster.nodes[0].zone),
        (2, 0)
    );
}

#[test]
fn what_cannot_be_written_is_not() {
    let refused = |text: &str, change: fn(&mut Description)| {
        let mut after = read(HOME);
        change(&mut after);
        assert_eq!(after.rewritten(text.as_bytes()), None);
    };
    refused("copies 3\n", |_| ());
    refused("\u{fffd}", |_| ());
    refused(HOME, |d| (1..=5).for_each(|id| remove(d, id)));
    refused(HOME, |d| d.cluster.bits = 7);
    refused(HOME, |d| d.cluster.replication = 4);
    refused(HOME, |d| d.cluster.redundancy = 1);
    refused(HOME, |d| add(d, 6, "home", 5, "tower #2"));
    refused(HOME, |d| add(d, 6, "home", 5, "two  spaces"));
    refused(HOME, |d| add(d, 6, "home", 5, "GB"));
    refused(HOME, |d| add(d, 6, "Home", 5, ""));
    refused(HOME, |d| add(d, 6, "my house", 5, ""));
    refused(HOME, |d| add(d, 6, "a\nbox 7 b", 5, ""));
    refused(HOME, |d| add(d, 6, "", 5, ""));
    refused(HOME, |d| add(d, 6, "007", 5, ""));
    refused(HOME, |d| add(d, 0, "home", 5, ""));
    refused(HOME, |d| add(d, 5, "home", 5, ""));
    refused(HOME, |d| (6..=33).for_each(|id| add(d, id, "home", 5, "")));
    refused(HOME, |d| d.cluster.nodes[0].zone = 2);
    refused(HOME, |d| d.labels.truncate(4));
    refused(HOME, |d| limit(d, 3, 257));
}

mod random;
