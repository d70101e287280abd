//! The numbers, names and texts that stand in the crate and in `include/laea.h` are the same.

use laea::{Refusal, Set};
use std::fs;
use std::path::Path;

fn header() -> String {
    let path = Path::new(env!("CARGO_MANIFEST_DIR")).join("../../include/laea.h");
    fs::read_to_string(&path).unwrap_or_else(|error| panic!("{}: {error}", path.display()))
}

/// The text between two others, the first time that these stand in it.
fn between<'a>(text: &'a str, before: &str, after: &str) -> &'a str {
    let rest = text.split_once(before).map(|(_, rest)| rest);
    rest.and_then(|rest| rest.split_once(after))
        .map(|(found, _)| found.trim())
        .unwrap_or_else(|| panic!("the header has no {before:?} with {after:?} after it"))
}

fn defined(header: &str, name: &str) -> u32 {
    let value = between(header, &format!("#define {name} "), "\n");
    value
        .parse()
        .unwrap_or_else(|_| panic!("{name} is {value}"))
}

/// The header's name of a refusal: `BadLat0` becomes `LAEA_BAD_LAT0`.
fn name(refusal: Refusal) -> String {
    let mut name = String::from("LAEA");
    for letter in format!("{refusal:?}").chars() {
        if letter.is_uppercase() {
            name.push('_');
        }
        name.push(letter.to_ascii_uppercase());
    }
    name
}

#[test]
fn refusals() {
    let header = header();
    assert_eq!(defined(&header, "LAEA_OK"), 0);
    let known: Vec<Refusal> = (1..=u8::MAX)
        .filter_map(Refusal::from_number)
        .filter(|refusal| !matches!(refusal, Refusal::Unknown(_)))
        .collect();
    for refusal in &known {
        let name = name(*refusal);
        assert_eq!(defined(&header, &name), refusal.number().into(), "{name}");
        let case = between(&header, &format!("case {name}:"), ";");
        assert_eq!(case, format!("return \"{}\"", refusal.text()), "{name}");
    }
    // One text for each refusal, one for LAEA_OK, and none that the crate does not know.
    assert_eq!(header.matches("case LAEA_").count(), known.len() + 1);
    let unknown = between(&header, "default:", ";");
    assert_eq!(
        unknown,
        format!("return \"{}\"", Refusal::Unknown(99).text())
    );
}

#[test]
fn numbers() {
    let header = header();
    assert_eq!(defined(&header, "LAEA_VERSION"), laea::VERSION);
    assert_eq!(defined(&header, "LAEA_LIST_MOST") as usize, laea::LIST_MOST);
    assert_eq!(defined(&header, "LAEA_CODE_MOST") as usize, laea::CODE_MOST);
    let slots = defined(&header, "LAEA_SLOT_COUNT") as usize;
    assert_eq!(slots, laea::SLOT_COUNT);
    let sure = defined(&header, "LAEA_SURE_SLOTS") as usize;
    assert_eq!(sure, laea::SURE_SLOTS);
    let shared = defined(&header, "LAEA_SHARED_SLOTS") as usize;
    assert_eq!(shared, laea::SHARED_SLOTS);
    let readings = u64::from(defined(&header, "LAEA_READINGS_MOST"));
    assert_eq!(readings, laea::READINGS_MOST);
}

#[test]
fn named_sets() {
    let header = header();
    for (name, set) in [
        ("LAEA_ETRS_LAEA", Set::ETRS_LAEA),
        ("LAEA_SPHERE", Set::SPHERE),
    ] {
        let fields: Vec<String> = between(&header, &format!("laea_set {name} = {{"), "};")
            .split(',')
            .map(|field| {
                field
                    .replace("INT64_C", "")
                    .replace(['(', ')', ' ', '\n'], "")
            })
            .collect();
        let expected = [
            ("a", set.a),
            ("e2", set.e2),
            ("lat0", set.lat0),
            ("lon0", set.lon0),
            ("false_easting", set.false_easting),
            ("false_northing", set.false_northing),
        ]
        .map(|(field, value)| format!("LAEA_FIELD{field}{value}"));
        assert_eq!(fields, expected, "{name}");
    }
}
