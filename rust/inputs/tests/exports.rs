//! What C and Rust call is what is proved: each export of crate grebetallboy_c has the parameters and the clauses of the function of
//! grebetallboy that it calls, none of them a requirement, and the header declares it.

use inputs::top;

/// A function's name, and its parameters and clauses, words apart.
type Function = (String, Vec<String>);

/// The public functions of a crate, cut before their bodies.
fn functions(name: &str, head: &str) -> Vec<Function> {
    let code = std::fs::read_to_string(top().join("crates").join(name).join("src/lib.rt")).unwrap();
    let cut = |text: &str| {
        let (name, rest) = text.split_once('(').unwrap();
        let (said, body) = rest.split_once("\n{\n").unwrap();
        assert!(!said.contains("requires"), "{name} asks for something");
        let spaced = said.replace(",\n)", ")").replace(")", " ) ");
        (name.to_string(), spaced.split_whitespace().map(str::to_string).collect::<Vec<_>>(), body.split("\n}\n").next().unwrap().to_string())
    };
    let cuts = code.split(head).skip(1).map(cut);
    let checked = cuts.map(|(function, said, body)| {
        if head.contains("extern") {
            assert!(body.trim_start().starts_with(&format!("grebetallboy::{function}(")) && body.lines().count() == 1, "{function}: {body}");
        }
        (function, said)
    });
    checked.collect()
}

#[test]
fn exports() {
    let exported = functions("grebetallboy_c", "\n#[unsafe(no_mangle)]\npub extern \"C\" fn ");
    assert_eq!(exported, functions("grebetallboy", "\npub fn "));
    assert_eq!(exported.len(), 6);
    let header = std::fs::read_to_string(top().join("include/grebetallboy.h")).unwrap();
    for (name, _) in exported {
        assert!(header.contains(&format!("\nuint32_t {name}(")), "{name}");
    }
}
