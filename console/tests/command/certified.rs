//! The sheet that shows why no layout is better, and the program of a stranger that counts it again.

mod checker;
mod on_page;
mod read;
mod refused;
mod wide;

use crate::folder::{layout_record, Folder};
use crate::{planned_home, HOME_NEXT, THREE};

/// A folder with a cluster, its former layout and its plan: `next.txt`, `last` and `next`.
fn planned(folder: Folder, text: &str) -> Folder {
    folder.write("next.txt", text);
    let done = folder.call("plan next.txt --former last --out next");
    assert_eq!((done.status, done.err.as_str()), (0, ""));
    folder.forget_layouts_of("next.txt");
    folder
}

/// The same of an example of the paper's table.
fn example(name: &str, text: &str, bits: u8, former: &[&[u32]]) -> Folder {
    let folder = Folder::new(name);
    folder.write("last", layout_record(bits, 1, former));
    planned(folder, text)
}

/// README's shop after box 5 was replaced.
fn shop(name: &str) -> Folder {
    planned(planned_home(name), HOME_NEXT)
}

/// The same where box 3 may hold a hundred copies: its disk has room for 223.
fn shop_with_a_ceiling(name: &str) -> Folder {
    let text = format!("{HOME_NEXT}ceiling 3 100\n");
    planned(planned_home(name), &text)
}

/// Both partitions lie on box 2, which has no room for one of 5 MB: a box without room may have a price.
fn example_e(name: &str) -> Folder {
    let text = "copies 1\nzones 1\nbits 1\nbox 1 a 10 big\nbox 2 a 4\n";
    example(name, text, 1, &[&[2], &[2]])
}

/// Both partitions lie on box 1, and each box takes one.
fn example_f(name: &str) -> Folder {
    let text = "copies 1\nzones 1\nbits 1\nbox 1 a 10\nbox 2 a 10\n";
    example(name, text, 1, &[&[1], &[1]])
}

/// The zones bind: there are two, and the second has one box of 1 MB.
fn example_k(name: &str) -> Folder {
    let text = "copies 3\nzones 2\nbits 0\nbox 1 1 9\nbox 2 1 9\nbox 3 1 9\nbox 4 2 1\n";
    example(name, text, 0, &[&[1, 2, 3]])
}

/// Both boxes have the partition, and one copy is wanted.
fn example_i(name: &str) -> Folder {
    let text = "copies 1\nzones 1\nbits 0\nbox 1 a 5\nbox 2 a 5\n";
    example(name, text, 0, &[&[1, 2]])
}

/// Example A, which had no layout before.
fn example_a(name: &str) -> Folder {
    let folder = Folder::new(name);
    folder.write("next.txt", THREE);
    assert_eq!(folder.call("plan next.txt --out next").status, 0);
    folder
}

/// All of them, each in a folder that begins with this name, and the words for its former layout.
fn all(name: &str) -> Vec<(Folder, &'static str)> {
    let former = "--former last";
    let of = |example: &str| format!("{name}-{example}");
    vec![
        (shop(&of("shop")), former),
        (shop_with_a_ceiling(&of("ceiling")), former),
        (example_e(&of("e")), former),
        (example_f(&of("f")), former),
        (example_k(&of("k")), former),
        (example_i(&of("i")), former),
        (example_a(&of("a")), ""),
    ]
}

/// The numbers were worked out by hand, of all seven: what is usable, over the size and over one more; rooms and
/// their sums; what the cheapest row costs for the boxes that held a partition; what all cost, less prices times
/// rooms. The words are the command's own, and of rows that cost the same it shows the layout's.
#[test]
fn sheets_with_numbers_worked_out_by_hand() {
    let stored = [
        include_str!("certified/shop.txt"),
        include_str!("certified/ceiling.txt"),
        include_str!("certified/e.txt"),
        include_str!("certified/f.txt"),
        include_str!("certified/k.txt"),
        include_str!("certified/i.txt"),
        include_str!("certified/a.txt"),
    ];
    for ((folder, former), stored) in all("sheet").into_iter().zip(stored) {
        let done = folder.call(&format!("certify next.txt {former} next"));
        assert_eq!((done.status, done.err.as_str()), (0, ""));
        assert_eq!(done.out, stored);
    }
}

/// What `plan` says of certificates can be called as it stands, also where the former layout got another name.
#[test]
fn the_call_that_plan_names_shows_why() {
    let folder = planned_home("certify-named");
    for plan in [
        "home.txt --former last --out last",
        "next.txt --former last --out next",
    ] {
        let done = folder.call(&format!("plan {plan}"));
        assert_eq!(done.status, 0, "{}", done.err);
        let (_, line) = done.out.split_once("`dezghuri ").expect("it is named");
        let (call, _) = line.split_once('`').expect("it ends");
        let shown = folder.call(call);
        assert_eq!((shown.status, shown.err.as_str()), (0, ""), "{call}");
        assert!(shown.out.contains("\nNo fewer copies sent\n"), "{call}");
    }
}
