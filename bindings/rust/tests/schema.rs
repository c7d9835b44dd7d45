use std::thread;
use vorxindak::{Dialect, Error, Location, OpenError, Options, Schema};

const SDL: &str = "type Query { greeting(name: String!): String }";

fn unknown(name: &str) -> Error {
    let message = format!("Unknown field \"{name}\" on type \"Query\"");
    Error {
        message,
        locations: vec![Location { line: 1, column: 3 }],
        path: None,
    }
}

#[test]
fn errors() {
    let mut schema = Schema::open(SDL).unwrap();
    assert_eq!(schema.validate("{ greeting(name: \"Ada\") }").unwrap(), []);
    assert_eq!(schema.validate("{ nam }").unwrap(), [unknown("nam")]);
}

#[test]
fn syntax_errors() {
    let mut schema = Schema::open(SDL).unwrap();
    let errors = schema.validate("{ greeting(").unwrap();
    assert_eq!(
        errors[0].locations,
        [Location {
            line: 1,
            column: 12
        }]
    );
    let errors = schema.validate(b"{ a }\n# \xff").unwrap();
    assert_eq!(errors[0].locations, [Location { line: 2, column: 3 }]);
    assert_eq!(schema.validate("").unwrap().len(), 1);
}

#[test]
fn options_and_variables() {
    let mut schema = Schema::open(SDL).unwrap();
    let query = "{ __schema { queryType { name } } }";
    assert_eq!(schema.validate(query).unwrap(), []);
    let closed = Options {
        introspection: false,
        ..Options::default()
    };
    assert_eq!(schema.validate_with(query, closed).unwrap().len(), 1);
    let few = Options {
        max_errors: 2,
        ..Options::default()
    };
    assert_eq!(schema.validate_with("{ a b c }", few).unwrap().len(), 2);
    let query = "query($name: String!) { greeting(name: $name) }";
    let mut faults = |values: &str| {
        schema
            .validate_variables(query, values, Options::default())
            .unwrap()
            .len()
    };
    assert_eq!(
        [faults("{\"name\": \"Ada\"}"), faults("{}"), faults("[]")],
        [0, 1, 1]
    );
}

#[test]
fn messages() {
    let mut key: String = ('\u{0}'..' ').collect();
    key += "\"\\/é\u{2028}😀\u{7f}";
    let escaped = |it: char| match it {
        '"' | '\\' => format!("\\{it}"),
        it if it < ' ' => format!("\\u{:04x}", u32::from(it)),
        it => it.to_string(),
    };
    let spelled: String = key.chars().map(escaped).collect();
    let sdl = "type Query { find(by: Filter): Int } input Filter { name: Int }";
    let errors = Schema::open(sdl).unwrap().validate_variables(
        "query($by: Filter) { find(by: $by) }",
        format!("{{\"by\": {{\"{spelled}\": 1}}}}"),
        Options::default(),
    );
    let wanted = Error {
        message: format!("Variable \"$by\" got invalid value. In field \"{key}\": Unknown field."),
        locations: vec![Location { line: 1, column: 7 }],
        path: None,
    };
    assert_eq!(errors.unwrap(), [wanted]);
}

#[test]
fn locations() {
    let query = "query A { greeting(name: \"Ada\") }";
    let mut schema = Schema::open(SDL).unwrap();
    let wanted = Error {
        message: "There can only be one operation named A".to_owned(),
        locations: vec![
            Location { line: 1, column: 1 },
            Location { line: 2, column: 3 },
        ],
        path: None,
    };
    assert_eq!(
        schema.validate(format!("{query}\n  {query}")).unwrap(),
        [wanted]
    );
}

#[test]
fn schemas() {
    let faulty = ["type Query { a: Int }", "type A { b: B }"];
    let Err(OpenError::Faults(faults)) = Schema::open_all(&faulty, Dialect::October2021) else {
        panic!("a type is unknown");
    };
    assert_eq!(faults[0].path.as_deref(), Some("1"));
    assert!(Schema::open("").is_err());
    let texts = ["type Query { a: A }", "type A { b: Int }"];
    let mut schema = Schema::open_all(&texts, Dialect::October2021).unwrap();
    assert_eq!(schema.validate("{ a { b } }").unwrap(), []);
}

#[test]
fn dialects() {
    let count = |dialect| {
        let mut schema = Schema::open_all(
            &["type Query { a: Int } type Subscription { a: Int b: Int }"],
            dialect,
        )
        .unwrap();
        schema.validate("subscription { a b }").unwrap().len()
    };
    assert_eq!(
        [count(Dialect::October2021), count(Dialect::Juniper)],
        [1, 0]
    );
}

#[test]
fn long_reports() {
    let mut schema = Schema::open(SDL).unwrap();
    let names: Vec<String> = (0..1000).map(|number| format!("field{number}")).collect();
    let errors = schema
        .validate(format!("{{ {} }}", names.join(" ")))
        .unwrap();
    let found: Vec<&str> = errors.iter().map(|error| error.message.as_str()).collect();
    let wanted: Vec<String> = names.iter().map(|name| unknown(name).message).collect();
    assert_eq!(found, wanted);
}

#[test]
fn threads() {
    let mut schema = Schema::open(SDL).unwrap();
    let threads: Vec<_> = (0..8)
        .map(|number| {
            let mut own = schema.share().unwrap();
            thread::spawn(move || {
                let name = format!("field{number}");
                for _ in 0..200 {
                    assert_eq!(
                        own.validate(format!("{{ {name} }}")).unwrap(),
                        [unknown(&name)]
                    );
                }
            })
        })
        .collect();
    drop(schema);
    for it in threads {
        it.join().unwrap();
    }
}
