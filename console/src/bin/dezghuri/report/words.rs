//! The sentences with which the page begins.

use super::facts::{Best, Facts, Judged, Laid};
use crate::labels;
use crate::losses;
use crate::overview::upper_bound_in_words;
use crate::units::{count, thousands};

/// What the command says of the page: the same sentences in plain text.
pub fn plain(facts: &Facts) -> String {
    let mut lines = facts.losses.clone();
    lines.push(sentence(facts));
    lines.join("\n") + "\n"
}

/// The layout in a few short sentences, or why there is none.
pub fn sentence(facts: &Facts) -> String {
    match &facts.laid {
        Err(why) if why.starts_with("there is") => with_capital(why) + ".",
        Err(why) => format!("{why}."),
        Ok(laid) => match &laid.judged {
            Err(why) => format!("{why}."),
            Ok(judged) => of_layout(facts, laid, judged),
        },
    }
}

/// What of a layout that is not valid is drawn, and which boxes and partitions are at fault.
pub fn not_valid(facts: &Facts, laid: &Laid) -> String {
    let cluster = facts.cluster();
    let mut sentences =
        vec![format!(
        "{} of everything, in at least {}, {} wanted. The layout is drawn as it was planned, for \
         partitions of {} MB; what is at fault is red.",
        count(cluster.replication.into(), "copy", "copies"),
        count(cluster.redundancy.into(), "zone", "zones"),
        if cluster.replication == 1 { "is" } else { "are" },
        thousands(laid.size),
    )];
    let places = 0..cluster.nodes.len();
    let is_full = |b: &usize| facts.too_much(laid, *b) > 0 || facts.is_above_ceiling(laid, *b);
    let full: Vec<u32> = places
        .filter(is_full)
        .map(|b| cluster.nodes[b].id)
        .collect();
    if !full.is_empty() {
        sentences.push(format!(
            "Too full: {}.",
            labels::boxes(facts.described, &full)
        ));
    }
    let partitions = (0..=u8::MAX).take(1 << cluster.bits);
    let faulty: Vec<u8> = partitions
        .filter(|partition| facts.fault_of_row(laid, *partition).is_some())
        .collect();
    if !faulty.is_empty() {
        sentences.push(format!(
            "{} at fault: {}.",
            count(faulty.len() as u64, "partition is", "partitions are"),
            losses::first_few(&faulty)
        ));
    }
    sentences.join(" ")
}

fn of_layout(facts: &Facts, laid: &Laid, judged: &Judged) -> String {
    let (cluster, unit) = (facts.cluster(), facts.unit());
    let mut sentences = vec![
        format!(
            "{} of everything, in at least {}.",
            count(cluster.replication.into(), "copy", "copies"),
            count(cluster.redundancy.into(), "zone", "zones")
        ),
        format!(
            "Each partition may grow to {} MB: {} {} in all.",
            thousands(laid.size),
            unit.of(laid.size << cluster.bits),
            unit.name
        ),
    ];
    if facts.has_former() {
        sentences.push(moves(facts, laid));
        sentences.extend(facts.missing.lines().map(String::from));
    }
    sentences.extend(best(facts, judged));
    sentences.join(" ")
}

fn moves(facts: &Facts, laid: &Laid) -> String {
    let unit = facts.unit();
    let dropped = match laid.dropped() {
        0 => "none dropped".into(),
        dropped => format!("{} dropped", thousands(dropped)),
    };
    match laid.sent() {
        0 => format!("No copy has to be sent, {dropped}."),
        sent => format!(
            "{} (up to {} {}) {} to be sent, {dropped}.",
            count(sent, "copy", "copies"),
            unit.of(sent * laid.size),
            unit.name,
            if sent == 1 { "has" } else { "have" }
        ),
    }
}

fn best(facts: &Facts, judged: &Judged) -> Option<String> {
    match judged.best {
        Best::Larger(size) => Some(format!(
            "The {} allow {} MB a partition: a new plan has more.",
            match facts.has_ceilings() {
                true => "disks and ceilings",
                false => "disks",
            },
            thousands(size)
        )),
        _ if !facts.has_former() => None,
        Best::Fewest => Some("Optimal: no layout of this size needs fewer transfers.".into()),
        Best::FewerBy(more) => Some(format!(
            "Another layout of this size needs {} fewer.",
            thousands(more)
        )),
    }
}

/// What is shown: which files, and how they were taken.
pub fn source(facts: &Facts) -> String {
    let names = &facts.names;
    let shown = match (&names.layout, &facts.laid) {
        (_, Err(_)) => format!("The boxes of {}.", names.file),
        (Some(layout), Ok(_)) => format!("The layout {layout} on the boxes of {}.", names.file),
        (None, Ok(_)) => format!("The layout that a plan of {} comes to.", names.file),
    };
    match (&names.former, &facts.laid) {
        (_, Err(_)) => shown,
        (Some(former), Ok(_)) => {
            format!("{shown} What moves is told from the former layout {former}.")
        }
        (None, Ok(_)) => format!(
            "{shown} No former layout was given, so nothing is said of what has to be sent."
        ),
    }
}

/// What keeps the size from being larger, in sentences.
pub fn why_not_more(facts: &Facts, laid: &Laid) -> Vec<String> {
    let Ok(judged) = &laid.judged else {
        return Vec::new();
    };
    let sentence = |why: &String| with_capital(&why.replace('\n', " "));
    let mut sentences: Vec<String> = judged.why.iter().map(sentence).collect();
    if judged.upper_bound > laid.size {
        let has_ceilings = facts.has_ceilings();
        sentences.push(upper_bound_in_words(judged.upper_bound, has_ceilings));
    }
    sentences
}

fn with_capital(text: &str) -> String {
    let mut letters = text.chars();
    let first = letters.next().into_iter().flat_map(char::to_uppercase);
    first.chain(letters).collect()
}
