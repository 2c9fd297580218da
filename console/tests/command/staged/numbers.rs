//! Zones keep their meaning whatever the text becomes.

use super::{done, fails, shop, FILE};
use crate::folder::Folder;
use crate::read_json::read;

/// The zones of a plan with what is staged, each with the number of its boxes.
fn zones(folder: &Folder) -> Vec<(String, String)> {
    let planned = folder.call("plan shop.txt --staged --json");
    assert_eq!(planned.status, 0, "{}", planned.err);
    let object = read(&planned.out);
    let zones = object.get("zones").list().iter();
    zones
        .map(|zone| (zone.get("zone").line(), zone.get("boxes").line()))
        .collect()
}

fn zone(name: &str, boxes: &str) -> (String, String) {
    (format!("\"{name}\""), boxes.into())
}

/// Home and shop have 0 and 1, so attic is staged as 2. Then the text has a cellar before them, which
/// has 0 there: attic is another zone than shop still, and one with the attic that the text gets.
#[test]
fn a_zone_is_known_by_its_name() {
    let folder = shop("zones");
    done(&folder, "stage shop.txt add 7 attic 4T");
    done(&folder, "stage shop.txt add 8 shop 4T");
    let at = |bytes: &[u8], place: usize| u16::from_be_bytes([bytes[place], bytes[place + 1]]);
    let bytes = folder.read("shop.txt.staged");
    assert_eq!((at(&bytes, 8 + 7), at(&bytes, 23 + 7 + 7)), (2, 1));
    let zones_before = [zone("home", "2"), zone("shop", "2"), zone("attic", "1")];
    assert_eq!(zones(&folder), zones_before);
    folder.write("shop.txt", format!("box 6 cellar 4T\n{FILE}"));
    let expected = [
        zone("home", "2"),
        zone("shop", "2"),
        zone("cellar", "1"),
        zone("attic", "1"),
    ];
    assert_eq!(zones(&folder), expected);
    folder.write("shop.txt", format!("box 6 attic 4T\n{FILE}"));
    let expected = [zone("home", "2"), zone("shop", "2"), zone("attic", "2")];
    assert_eq!(zones(&folder), expected);
    done(&folder, "apply shop.txt");
    let planned = folder.call("plan shop.txt --json");
    let object = read(&planned.out);
    assert_eq!(object.get("zones").list().len(), 3);
}

/// A zone of a number means that number, whatever names had it before.
#[test]
fn a_number_is_another_zone_than_a_name() {
    let folder = Folder::new("staged-zone-numbers");
    let text = "copies 2\nzones 2\nbits 1\nbox 1 home 4T\nbox 2 home 4T\n";
    folder.write("shop.txt", text);
    assert_eq!(folder.call("plan shop.txt").status, 1);
    done(&folder, "stage shop.txt add 7 0 4T");
    done(&folder, "stage shop.txt add 8 1 4T");
    done(&folder, "stage shop.txt add 9 attic 4T");
    let expected = [
        zone("home", "2"),
        zone("0", "1"),
        zone("1", "1"),
        zone("attic", "1"),
    ];
    assert_eq!(zones(&folder), expected);
    done(&folder, "apply shop.txt");
    let text = text.to_owned() + "box 7 0    4T\nbox 8 1    4T\nbox 9 attic 4T\n";
    assert_eq!(folder.read("shop.txt"), text.as_bytes());
}

/// The text and what is staged write a zone in two ways: no text can say both.
#[test]
fn a_zone_in_two_ways_is_not_applied() {
    let folder = shop("two-ways");
    done(&folder, "stage shop.txt add 7 attic 4T");
    let text = FILE.to_owned() + "box 8 Attic 4T\n";
    folder.write("shop.txt", &text);
    let told = "shop.txt: not written: no text would describe the staged boxes: is a zone written \
                in two ways?";
    fails(&folder, "apply shop.txt", 2, told);
    let told =
        "what is staged is at fault with the text: zone 'Attic' is written 'attic' at box 7: \
                write it one way";
    fails(&folder, "stage shop.txt add 9 home 4T", 2, told);
    done(&folder, "undo shop.txt");
    done(&folder, "stage shop.txt add 9 home 4T");
}
