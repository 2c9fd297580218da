//! What the boxes have room for: too little at the next size, and at this one what bounds the prices.

use super::{Part, Sheet, ALL};
use crate::labels;
use crate::table::{Column, Side};
use crate::units::thousands;

/// Why no layout has a larger size.
pub fn larger(sheet: &Sheet) -> Vec<Part> {
    let (cluster, next) = (sheet.cluster(), &sheet.certificate.next);
    let partitions = cluster.partitions();
    let ceiling = match labels::has_ceilings(cluster) {
        true => ", and for no more than its ceiling",
        false => "",
    };
    let mut parts = vec![
        Part::Words(format!(
            "Of each disk a sixteenth, rounded down, stays free; the rest is usable. A box has room for as \
             many copies as go into that, for {partitions} at most, one of each partition{ceiling}. At {} \
             MB, one more than the size:",
            thousands(next.size)
        )),
        Part::Table(room_table(sheet)),
    ];
    if next.lack_room() {
        let copies = if next.wanted == 1 {
            "copy is"
        } else {
            "copies are"
        };
        let wanted = format!("{} {copies}", sheet.of_each(cluster.replication));
        parts.push(Part::Words(too_little(&wanted, next.room)));
        return parts;
    }
    parts.push(Part::Words(format!(
        "That is enough for the {} copies that are wanted. But each partition has to lie in at least {} \
         zones, and in each of them it counts once, however many copies of it are there. So a zone has room \
         for as many partitions as its boxes have for copies, and for {partitions} at most:",
        sheet.of_each(cluster.replication),
        cluster.redundancy
    )));
    parts.push(Part::Table(zone_table(sheet)));
    let wanted = format!("{} are", sheet.of_each(cluster.redundancy));
    parts.push(Part::Words(too_little(&wanted, next.zone_room)));
    parts
}

/// That the room is less than what is wanted, and at all larger sizes too.
fn too_little(wanted: &str, room: u64) -> String {
    format!(
        "{wanted} wanted, and {} is less. A larger size leaves no more room: no layout has one.",
        thousands(room)
    )
}

/// What each box has room for at the next size.
fn room_table(sheet: &Sheet) -> Vec<Column> {
    let (nodes, next) = (&sheet.cluster().nodes, &sheet.certificate.next);
    let usable = nodes.iter().map(|node| thousands(node.usable().into()));
    let ceilings = nodes.iter().map(labels::ceiling);
    let ceilings =
        ceilings.map(|ceiling| ceiling.map_or_else(String::new, |most| most.to_string()));
    let mut columns = vec![
        ids(sheet),
        names(sheet),
        zones(sheet),
        without_sum("usable MB", usable),
        fits(sheet, next.size),
        without_sum("ceiling", ceilings),
        with_sum("room", &next.rooms),
    ];
    columns.retain(|column| !column.is_blank());
    columns
}

/// What each zone has room for at the next size.
fn zone_table(sheet: &Sheet) -> Vec<Column> {
    let (described, next) = (sheet.described, &sheet.certificate.next);
    let (nodes, labels) = (&described.cluster.nodes, &described.labels);
    let (mut names, mut ids, mut rooms) = (Vec::new(), Vec::new(), Vec::new());
    for (zone, _) in &next.zone_rooms {
        let boxes = (0..nodes.len()).filter(|b| nodes[*b].zone == *zone);
        let boxes: Vec<usize> = boxes.collect();
        names.push(labels[boxes[0]].zone.clone());
        let its: Vec<String> = boxes.iter().map(|b| nodes[*b].id.to_string()).collect();
        ids.push(its.join(" "));
        rooms.push(boxes.iter().map(|b| next.rooms[*b]).sum());
    }
    let partitions: Vec<u64> = next.zone_rooms.iter().map(|(_, room)| *room).collect();
    vec![
        Column::new(Side::Left, "zone", names.into_iter().chain([ALL.into()])),
        Column::new(
            Side::Left,
            "its boxes",
            ids.into_iter().chain([String::new()]),
        ),
        without_sum("their room", rooms.into_iter().map(thousands)),
        with_sum("partitions", &partitions),
    ]
}

/// What the prices of all copies of a layout come to at most.
pub fn takings(sheet: &Sheet) -> Vec<Part> {
    let certificate = sheet.certificate;
    let prices = certificate.prices.iter().map(|price| u64::from(*price));
    let prices: Vec<u64> = prices.collect();
    let taken = prices.iter().zip(&certificate.rooms);
    let taken: Vec<u64> = taken.map(|(price, room)| price * room).collect();
    let rooms = certificate.rooms.iter().copied().map(thousands);
    let mut columns = vec![
        ids(sheet),
        zones(sheet),
        fits(sheet, certificate.size.into()),
        without_sum("room", rooms),
        without_sum("price", prices.into_iter().map(thousands)),
        with_sum("price x room", &taken),
    ];
    columns.retain(|column| !column.is_blank());
    vec![
        Part::Words(
            "Each box has a price, a small number that was found with the layout. Nobody has to trust it: \
             with any other prices the sums below would be as true, and show no more. Let a copy cost the \
             price of its box, and 1 more where it has to be sent, since its box did not hold it before."
                .into(),
        ),
        Part::Words(format!(
            "No box holds more copies than it has room for, now at {} MB. So the prices of all copies of a \
             layout come to {} at most:",
            thousands(certificate.size.into()),
            thousands(certificate.takings())
        )),
        Part::Table(columns),
    ]
}

fn ids(sheet: &Sheet) -> Column {
    let ids = sheet.cluster().nodes.iter().map(|node| node.id.to_string());
    Column::new(Side::Right, "box", ids.chain([ALL.into()]))
}

/// Names of the boxes; blank where they do not belong here.
fn names(sheet: &Sheet) -> Column {
    let labels = sheet.described.labels.iter();
    let names = labels.map(|label| label.name.clone());
    words("name", names.filter(|_| sheet.has_names))
}

/// The zones of the boxes; blank where they do not belong here.
fn zones(sheet: &Sheet) -> Column {
    let labels = sheet.described.labels.iter();
    let zones = labels.map(|label| label.zone.clone());
    words("zone", zones.filter(|_| sheet.has_names))
}

fn words(head: &str, cells: impl Iterator<Item = String>) -> Column {
    Column::new(Side::Left, head, cells.chain([String::new()]))
}

/// How many copies of this size go into what is usable of each disk.
fn fits(sheet: &Sheet, size: u64) -> Column {
    let nodes = sheet.cluster().nodes.iter();
    let fits = nodes.map(|node| thousands(u64::from(node.usable()) / size));
    without_sum(&format!("/ {}", thousands(size)), fits)
}

fn without_sum(head: &str, cells: impl Iterator<Item = String>) -> Column {
    Column::new(Side::Right, head, cells.chain([String::new()]))
}

fn with_sum(head: &str, numbers: &[u64]) -> Column {
    let sum = numbers.iter().sum();
    let cells = numbers.iter().copied().chain([sum]).map(thousands);
    Column::new(Side::Right, head, cells)
}
