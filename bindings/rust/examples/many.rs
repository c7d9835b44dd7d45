//! many COUNT [FORM]: validates so many documents, all of one form if it is given, and prints how many errors they have.
fn document(number: usize, form: usize) -> String {
    match form {
        0 => format!("query q{number}($name: String!) {{ greeting(name: $name) }}"),
        1 => format!("{{ greeting(nam: \"{number}\") {{ length }} }}"),
        2 => format!("{{ field{number} }}"),
        _ => format!("{{ greeting{number}("),
    }
}

fn main() -> Result<(), vorxindak::OpenError> {
    let given = |at| std::env::args().nth(at).and_then(|it| it.parse().ok());
    let (count, form) = (given(1).unwrap_or(1), given(2));
    let mut schema = vorxindak::Schema::open("type Query { greeting(name: String!): String }")?;
    let mut errors = 0;
    for number in 0..count {
        errors += schema.validate(document(number, form.unwrap_or(number % 4)))?.len();
    }
    println!("{errors}");
    Ok(())
}
