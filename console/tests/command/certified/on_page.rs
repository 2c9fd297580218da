//! The sheet at the end of a page, where the layout is the best one.

use super::wide::{barn, scattered, terabytes};
use super::{example_k, shop, shop_with_a_ceiling};
use crate::folder::Folder;
use crate::page::{self, Element};
use crate::read_json::read;

/// The page of `next` from `last`.
fn page_of(folder: &Folder, words: &str) -> Element {
    let done = folder.call(&format!("report next.txt {words} --out page.html"));
    assert_eq!((done.status, done.err.as_str()), (0, ""));
    page::read(std::str::from_utf8(&folder.read("page.html")).expect("text"))
}

/// The lines of the sheets' tables in a part of the page, their cells with a bar between them.
fn lines(page: &Element, part: &str) -> Vec<String> {
    let tables = page.with_id(part).of_class("sheet").into_iter();
    let lines = tables.flat_map(|table| table.named("tr"));
    let line = |line: &Element| {
        let cells = line.all().into_iter();
        let cells = cells.filter(|cell| cell.name == "th" || cell.name == "td");
        cells.map(|cell| cell.text()).collect::<Vec<_>>().join("|")
    };
    lines.map(line).collect()
}

/// The same numbers as on the stored sheets.
#[test]
fn the_page_of_the_shop_has_its_sheet() {
    let page = page_of(&shop("page-sheet"), "next --former last");
    let why = [
        "box|usable MB|/ 19,532|room",
        "1|3,750,000|191|191",
        "2|1,875,000|95|95",
        "3|3,750,000|191|191",
        "4|1,875,000|95|95",
        "6|3,750,000|191|191",
        "all|||763",
    ];
    assert_eq!(lines(&page, "why"), why);
    let fewest = [
        "box|/ 19,531|room|price|price \u{d7} room",
        "1|192|192|1|192",
        "2|96|96|1|96",
        "3|192|192|1|192",
        "4|96|96|2|192",
        "6|192|192|0|0",
        "all||||672",
        "held by|partitions|cheapest boxes|their cost|together",
        "1 2 3|102|1 2 3|1 + 1 + 1 = 3|306",
        "1 3|52|1 3 6|1 + 1 + 1 = 3|156",
        "1 4|51|1 3 6|1 + 2 + 1 = 4|204",
        "3 4|51|3 4 6|1 + 2 + 1 = 4|204",
        "all|256|||870",
    ];
    assert_eq!(lines(&page, "fewest"), fewest);
    let new: Vec<String> = page
        .with_id("fewest")
        .named("b")
        .iter()
        .map(|b| b.text())
        .collect();
    assert_eq!(new, ["6", "3", "6", "6"], "those that are sent have a mark");
    let words = page.with_id("fewest").text();
    assert!(words.contains("870 \u{2212} 672 = 198 or more"), "{words}");
}

#[test]
fn ceilings_and_zones_have_their_columns_and_lines() {
    let page = page_of(&shop_with_a_ceiling("page-ceiling"), "next --former last");
    let why = lines(&page, "why");
    assert_eq!(why[0], "box|usable MB|/ 16,817|ceiling|room");
    assert_eq!(why[3], "3|3,750,000|222|100|100");
    assert_eq!(lines(&page, "fewest")[3], "3|223|100|1|100");
    let page = page_of(&example_k("page-zones"), "next --former last");
    let zones = [
        "zone|its boxes|their room|partitions",
        "1|1 2 3|3|1",
        "2|4|0|0",
        "all|||1",
    ];
    assert_eq!(lines(&page, "why")[6..], zones);
}

/// There is no sheet where nobody knows what was there before, and none of a layout that is not the best.
#[test]
fn a_page_without_a_certificate_has_no_sheet() {
    let folder = shop("page-no-sheet");
    let page = page_of(&folder, "--former last");
    assert_eq!(
        page.of_class("sheet").len(),
        3,
        "what a plan comes to is the best"
    );
    let line = "plan next.txt --former last --out next --replace --allowance 1";
    assert_eq!(folder.call(line).status, 0);
    for words in ["next", "next --former last"] {
        let page = page_of(&folder, words);
        assert!(page.of_class("sheet").is_empty(), "{words}");
        assert!(
            page.all().iter().all(|part| part.get("id") != "fewest"),
            "{words}"
        );
    }
}

/// Long lists of boxes are printed by the command alone.
#[test]
fn a_sheet_of_many_lines_is_left_to_the_command() {
    let folder = barn("page-many-lines");
    let object = folder.call("certify next.txt --former last next --json");
    let many = read(&object.out).get("lines").list().len();
    assert!(many > 40, "{many}");
    let page = page_of(&folder, "next --former last");
    let sheet = page.with_id("fewest");
    assert_eq!(sheet.of_class("sheet").len(), 1, "the prices");
    let told = format!("These are {many} lines: dezghuri certify prints them.");
    assert!(sheet.text().contains(&told), "{}", sheet.text());
}

/// The most boxes with the longest ids, rows, names and zones, each with a ceiling.
#[test]
fn a_page_with_a_sheet_is_not_too_long() {
    let first = 4_294_967_231;
    let boxes = (first..first + 32).map(|id| {
        let (zone, name) = ("\"".repeat(100), "\"".repeat(200));
        format!(
            "box {id} {}-{zone} {}T {name}\nceiling {id} 255\n",
            id % 8,
            terabytes(id)
        )
    });
    let text = format!("copies 8\nzones 4\n{}", boxes.collect::<String>());
    let folder = scattered("page-long-sheet", first, 8, &text);
    let page = page_of(&folder, "next --former last");
    assert_eq!(page.of_class("sheet").len(), 3);
    let bytes = folder.read("page.html").len();
    assert!(bytes < 500_000, "{bytes}");
    assert!(
        lines(&page, "fewest").len() > 40,
        "boxes, heads, sums and lines"
    );
    page_of(&folder, "next --former last");
    assert!(
        folder.names().contains(&"page.html.old".into()),
        "it is known as a page"
    );
}
