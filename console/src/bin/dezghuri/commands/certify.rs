//! `certify`: why no layout has a larger size, and none of the size sends fewer copies.

use super::{describe, heading, output, wanted, Answer, Known};
use crate::args;
use crate::explain;
use crate::failure::{Failure, REFUSED};
use crate::files;
use crate::history::tell_layouts;
use crate::json::Json;
use crate::labels;
use crate::output::Kind;
use crate::sheet::{self, Sheet};
use crate::terminal::shown;
use crate::units::{count, thousands};
use crate::why;
use dezghuri::{Certificate, Description, Group, Line, Plan, Refused};
use std::path::Path;

pub fn run(call: &args::Certify, warnings: &mut Vec<String>) -> Result<Answer, Failure> {
    let known = describe(&call.source, call.former.as_deref(), warnings)?;
    let cluster = &known.described.cluster;
    let plan = files::read_plan(&call.layout)?;
    let former = call.former.as_deref().zip(known.former.as_ref());
    let given = Some((call.layout.as_path(), &plan));
    tell_layouts(&call.source.file, &known.described, former, given, warnings);
    let certificate = match cluster.certify(&plan.layout, plan.size) {
        Ok(certificate) => certificate,
        Err(refused) => return Ok(not_certified(call, &known, &plan, refused)),
    };
    let mut members = first_members(call, &known, &plan);
    members.extend([
        ("certified", true.into()),
        ("refusal", Json::Null),
        ("why", Json::Null),
    ]);
    members.extend(numbers(&known.described, &certificate));
    let report = text(call, &known, &certificate);
    let Some(out) = &call.out else {
        members.push(("out", Json::Null));
        return Ok(Answer::with_json(report, members));
    };
    let prices = sheet::text_of(cluster, &certificate).into_bytes();
    let output = output(Kind::Certificate, prices, &call.source.file, out)?;
    members.push(("out", output.json()));
    Ok(Answer::with_json(report, members).writing(output))
}

/// The answer to a layout that is not valid, or not the best.
fn not_certified(call: &args::Certify, known: &Known, plan: &Plan, refused: Refused) -> Answer {
    let why = explain::not_certified(&known.described, plan, refused);
    let mut members = first_members(call, known, plan);
    members.extend([
        ("certified", false.into()),
        ("refusal", refused.refusal.number().into()),
        ("why", why.as_str().into()),
    ]);
    let none = [
        "sent",
        "boxes",
        "binds",
        "lines",
        "least_cost",
        "most_prices",
        "out",
    ];
    members.extend(none.map(|name| (name, Json::Null)));
    Answer {
        told: vec![why],
        status: REFUSED,
        ..Answer::with_json(String::new(), members)
    }
}

/// The files of the call, and what they ask for.
fn first_members(call: &args::Certify, known: &Known, plan: &Plan) -> Vec<(&'static str, Json)> {
    vec![
        ("command", "certify".into()),
        ("file", call.source.file.as_path().into()),
        ("staged", known.staged.into()),
        ("former", call.former.as_deref().into()),
        ("layout", call.layout.as_path().into()),
        ("wanted", wanted(&known.described.cluster)),
        ("size_mb", plan.size.into()),
    ]
}

/// The numbers of the sheet.
fn numbers(described: &Description, certificate: &Certificate) -> Vec<(&'static str, Json)> {
    let nodes = described.cluster.nodes.iter().enumerate();
    let boxes = nodes.map(|(b, node)| {
        let told = labels::json(described, node.id);
        told.with("usable_mb", node.usable())
            .with("ceiling", labels::ceiling(node))
            .with("next_room", certificate.next.rooms[b])
            .with("room", certificate.rooms[b])
            .with("price", certificate.prices[b])
    });
    vec![
        ("sent", certificate.sent.into()),
        ("boxes", Json::list(boxes)),
        ("binds", why::binds(described, certificate.size)),
        ("lines", Json::list(certificate.sheet().iter().map(line))),
        ("least_cost", certificate.low().into()),
        ("most_prices", certificate.takings().into()),
    ]
}

fn line(line: &Line) -> Json {
    let list = |ids: &Vec<u32>| Json::list(ids.clone());
    let (held_by, held_prices, row) = match &line.group {
        Group::Nodes { held, row } => (list(held), Json::Null, list(row)),
        Group::Prices { held } => (Json::Null, list(held), Json::Null),
    };
    Json::Object(vec![
        ("held_by", held_by),
        ("held_prices", held_prices),
        ("partitions", line.partitions.into()),
        ("row", row),
        ("costs", Json::list(line.costs.clone())),
        ("together", line.together().into()),
    ])
}

/// The sheet, with what it shows and what it does not.
fn text(call: &args::Certify, known: &Known, certificate: &Certificate) -> String {
    let described = &known.described;
    let sheet = Sheet {
        described,
        certificate,
        has_names: true,
    };
    let parts = [
        heading(&known.name, described),
        sheet::wrapped(&told(call, certificate)),
        "\nNo larger size\n\n".into(),
        sheet::text(&sheet.larger()),
        "\nNo fewer copies sent\n\n".into(),
        sheet::text(&sheet.fewer()),
        "\nNot on this sheet\n\n".into(),
        sheet::wrapped(&not_told(call, certificate)),
        "\n".into(),
        counted_again(call),
    ];
    parts.concat()
}

/// What the sheet shows.
fn told(call: &args::Certify, certificate: &Certificate) -> String {
    let (layout, size) = (shown(&call.layout), thousands(certificate.size.into()));
    let sent = count(certificate.sent, "copy", "copies");
    let sends = match &call.former {
        Some(former) => format!(
            "From {} it sends {sent}, and none of this size sends fewer.",
            shown(former)
        ),
        None => format!("It sends {sent}, as all of this size do."),
    };
    format!(
        "{layout} has partitions of {size} MB, and no layout of these boxes has larger ones. {sends} Anybody \
         can check that here, with sums alone."
    )
}

/// What the sheet takes as it is, and where the rest can be counted.
fn not_told(call: &args::Certify, certificate: &Certificate) -> String {
    let (file, layout) = (shown(&call.source.file), shown(&call.layout));
    let sent = count(certificate.sent, "copy", "copies");
    let (taken, them) = match &call.former {
        Some(former) => (
            format!(
                "{file} and {0} are taken as they are: whether the disks are so large, and whether the boxes \
                 held what {0} says, no sum can tell.",
                shown(former)
            ),
            format!(", and those of {}", shown(former)),
        ),
        None => (
            format!("{file} is taken as it is: whether the disks are so large no sum can tell."),
            String::new(),
        ),
    };
    format!(
        "{taken} That {layout} keeps to rooms and zones and sends {sent} can be counted in its rows{them}: \
         `dezghuri show {file} {layout} --all` prints them."
    )
}

/// How a program of somebody else counts all of it again.
fn counted_again(call: &args::Certify) -> String {
    let name = |path: &Path| shown(path);
    let (file, layout) = (name(&call.source.file), name(&call.layout));
    let former = call.former.as_deref().map_or("-".into(), name);
    let out = call.out.as_deref().map_or("CERT".into(), name);
    let first = match call.out {
        Some(_) => "",
        None => "With --out CERT the prices are written to a file. ",
    };
    let staged = match call.source.staged {
        true => format!(" It takes {file} as it is: what is staged has to be applied first."),
        false => String::new(),
    };
    let words = format!(
        "{first}The program certificate.py has nothing in common with this one, is short enough to be read, \
         and counts all of it again.{staged}"
    );
    format!(
        "{}\n  python3 certificate.py {file} {former} {layout} {out}\n",
        sheet::wrapped(&words)
    )
}
