//! What `--json` prints is held to `docs/dezghuri.schema.json`, each object of each test.
//!
//! A command that prints a new object needs a definition under `$defs` there, which lists all members
//! and begins with `format` and `version`, a line for it in the `oneOf` at the top, and its name among
//! the commands of `error`. Here nothing is added: every call of a folder looks at what it prints.

use crate::read_json::{read, Value};
use std::collections::{BTreeMap, BTreeSet};
use std::sync::OnceLock;

const TEXT: &str = include_str!("../../../docs/dezghuri.schema.json");

/// Whether a value at a place is what a keyword asks for; if not, what is wrong.
type Verdict = Result<(), String>;

/// The schema of all objects.
pub fn schema() -> &'static Value {
    static SCHEMA: OnceLock<Value> = OnceLock::new();
    SCHEMA.get_or_init(|| read(TEXT))
}

/// Panics where the text is no object of the schema.
pub fn hold(object: &str) {
    if let Err(fault) = look(schema(), &read(object), "object") {
        panic!("{fault}\n{object}");
    }
}

fn members(value: &Value) -> &BTreeMap<String, Value> {
    match value {
        Value::Object(members) => members,
        other => panic!("{other:?} is no object"),
    }
}

fn text(value: &Value) -> &str {
    match value {
        Value::Text(text) => text,
        other => panic!("{other:?} is no text"),
    }
}

/// The first thing that is wrong with the value.
fn look(schema: &Value, value: &Value, place: &str) -> Verdict {
    for (keyword, wanted) in members(schema) {
        match keyword.as_str() {
            "$schema" | "$defs" | "title" | "description" => Ok(()),
            "$ref" => look(definition(text(wanted)), value, place),
            "type" => either(wanted, place, value, |name| is_of_type(text(name), value)),
            "enum" => either(wanted, place, value, |one| one == value),
            "const" => either(wanted, place, value, |one| one == value),
            "minimum" => bound(value, wanted, place, |number, least| number >= least),
            "maximum" => bound(value, wanted, place, |number, most| number <= most),
            "anyOf" => branches(wanted, value, place).map(drop),
            "oneOf" => match branches(wanted, value, place)? {
                1 => Ok(()),
                more => Err(format!("{place} is of {more} kinds")),
            },
            "items" => items(wanted, value, place),
            "properties" => properties(wanted, value, place),
            "required" => required(wanted, value, place),
            "additionalProperties" => nothing_else(schema, value, place),
            other => panic!("the schema has a keyword that is not known: {other}"),
        }?;
    }
    Ok(())
}

/// The definition of a name in this file.
fn definition(reference: &str) -> &'static Value {
    let name = reference.strip_prefix("#/$defs/");
    schema().get("$defs").get(name.expect("a definition"))
}

/// The wanted value serves, or one of several.
fn either(wanted: &Value, place: &str, value: &Value, serves: impl Fn(&Value) -> bool) -> Verdict {
    let found = match wanted {
        Value::List(several) => several.iter().any(serves),
        one => serves(one),
    };
    match found {
        true => Ok(()),
        false => Err(format!(
            "{place} is {}, and not {}",
            value.line(),
            wanted.line()
        )),
    }
}

fn is_of_type(name: &str, value: &Value) -> bool {
    match (name, value) {
        ("null", Value::Null) | ("boolean", Value::Bool(_)) | ("string", Value::Text(_)) => true,
        ("array", Value::List(_)) | ("object", Value::Object(_)) => true,
        ("integer", Value::Number(number)) => number.fract() == 0.0,
        ("null" | "boolean" | "string" | "array" | "object" | "integer", _) => false,
        _ => panic!("the schema has a type that is not known: {name}"),
    }
}

/// A bound is for numbers; what is none has its type to answer for.
fn bound(value: &Value, bound: &Value, place: &str, keeps: fn(f64, f64) -> bool) -> Verdict {
    match (value, bound) {
        (Value::Number(number), Value::Number(bound)) if !keeps(*number, *bound) => {
            Err(format!("{place} is {number}, beyond {bound}"))
        }
        _ => Ok(()),
    }
}

/// How many of the schemas the value keeps to; where it is none, what is wrong by each that is of its
/// format, or by all.
fn branches(schemas: &Value, value: &Value, place: &str) -> Result<usize, String> {
    let schemas = schemas.list();
    let kept = schemas.iter().filter(|one| look(one, value, place).is_ok());
    let kept = kept.count();
    if kept > 0 {
        return Ok(kept);
    }
    let (near, far): (Vec<&Value>, Vec<&Value>) =
        schemas.iter().partition(|one| is_of_format(one, value));
    let asked = if near.is_empty() { far } else { near };
    let faults = asked.iter().filter_map(|one| look(one, value, place).err());
    Err(faults.collect::<Vec<String>>().join("; "))
}

fn is_of_format(schema: &Value, value: &Value) -> bool {
    let member = |of: &'static Value, name| members(of).get(name);
    let definition = members(schema)
        .get("$ref")
        .map(|name| definition(text(name)));
    let properties = definition.and_then(|of| member(of, "properties"));
    let format = properties.and_then(|of| member(of, "format"));
    let wanted = format.and_then(|of| member(of, "const"));
    matches!(value, Value::Object(members) if wanted.is_some() && members.get("format") == wanted)
}

fn items(schema: &Value, value: &Value, place: &str) -> Verdict {
    let Value::List(items) = value else {
        return Ok(());
    };
    let mut items = items.iter().enumerate();
    items.try_for_each(|(n, item)| look(schema, item, &format!("{place}[{n}]")))
}

fn properties(schemas: &Value, value: &Value, place: &str) -> Verdict {
    let Value::Object(members) = value else {
        return Ok(());
    };
    for (name, schema) in self::members(schemas) {
        if let Some(member) = members.get(name) {
            look(schema, member, &format!("{place}.{name}"))?;
        }
    }
    Ok(())
}

fn required(names: &Value, value: &Value, place: &str) -> Verdict {
    let Value::Object(members) = value else {
        return Ok(());
    };
    let mut names = names.list().iter().map(text);
    match names.find(|name| !members.contains_key(*name)) {
        Some(name) => Err(format!("{place}.{name} is missing")),
        None => Ok(()),
    }
}

fn nothing_else(schema: &Value, value: &Value, place: &str) -> Verdict {
    let Value::Object(members) = value else {
        return Ok(());
    };
    let known = self::members(schema.get("properties"));
    match members.keys().find(|name| !known.contains_key(*name)) {
        Some(name) => Err(format!("{place}.{name} is not known")),
        None => Ok(()),
    }
}

/// The schema and all schemas in it.
fn all_within(schema: &Value) -> Vec<&Value> {
    let mut all = vec![schema];
    for (keyword, wanted) in members(schema) {
        let within: Vec<&Value> = match keyword.as_str() {
            "$defs" | "properties" => members(wanted).values().collect(),
            "anyOf" | "oneOf" => wanted.list().iter().collect(),
            "items" => vec![wanted],
            _ => Vec::new(),
        };
        all.extend(within.into_iter().flat_map(all_within));
    }
    all
}

/// The names of all members of all objects.
pub fn names() -> BTreeSet<&'static str> {
    let objects = all_within(schema()).into_iter();
    let objects = objects.filter_map(|schema| members(schema).get("properties"));
    objects
        .flat_map(|o| members(o).keys())
        .map(String::as_str)
        .collect()
}

/// Each object has all its members and no others, and each object of a call says what it is.
#[test]
fn the_schema_is_strict() {
    for schema in all_within(schema()) {
        let of = |keyword: &str| members(schema).get(keyword);
        if let Some(reference) = of("$ref") {
            definition(text(reference));
        }
        if let Some(properties) = of("properties") {
            let required = of("required").expect("each").list().iter().map(text);
            assert!(required
                .collect::<BTreeSet<_>>()
                .iter()
                .eq(members(properties).keys()));
            assert_eq!(of("additionalProperties"), Some(&Value::Bool(false)));
        }
    }
    for object in schema().get("oneOf").list() {
        let object = definition(text(object.get("$ref"))).get("properties");
        let format = text(object.get("format").get("const"));
        assert!(format.starts_with("dezghuri "), "{format}");
        assert_eq!(object.get("version").line(), r#"{"const":1}"#);
    }
}

/// Changes of the stored object, each with what is wrong then.
const ALTERED: [[&str; 3]; 12] = [
    [r#""size_mb": 3,"#, "", "size_mb is missing"],
    [r#""size_mb""#, r#""size""#, "size is not known"],
    [": 3,", ": -3,", "size_mb is -3, beyond 0"],
    [": 3,", r#": "3","#, r#"size_mb is "3", and not "integer""#],
    [": 3,", ": [3],", r#"size_mb is [3], and not "integer""#],
    [": 12", ": 99", "refusal is 99, beyond 20"],
    ["false", "0", r#"valid is 0, and not "boolean""#],
    [r#"s": 1,"#, r#"s": 9,"#, "wanted.copies is 9, beyond 8"],
    ["bits", "bit", "wanted.bit is not known"],
    ["[]", r#"["a", 7]"#, r#"warnings[1] is 7, and not "string""#],
    [r#"n": 1"#, r#"n": 2"#, "version is 2, and not 1"],
    [
        r#": "check""#,
        ": null",
        r#"command is null, and not "check""#,
    ],
];

/// An object that is altered in any one place is none any more.
#[test]
fn other_objects_are_refused() {
    let stored = include_str!("check-not.json");
    let fault = |from: &str, to: &str| {
        assert!(stored.contains(from), "{from}");
        let altered = stored.replacen(from, to, 1);
        look(schema(), &read(&altered), "object").unwrap_err()
    };
    assert_eq!(look(schema(), &read(stored), "object"), Ok(()));
    for [from, to, told] in ALTERED {
        assert_eq!(fault(from, to), format!("object.{told}"));
    }
    let told = fault("dezghuri check", "dezghuri chess");
    assert!(told.contains("object.format is \"dezghuri chess\", and not \"dezghuri check\""));
    assert!(look(schema(), &Value::List(Vec::new()), "object").is_err());
}
