//! The first place in which two texts of `replay` differ.

use super::differences::Difference;

/// The fields of a call's line.
const FIELDS: [&str; 5] = ["function", "answer", "value", "control block", "buffer"];

/// Lines are numbered from 0, so that the line of a call has the call's number.
pub fn first_difference(got: &str, model: &str) -> Option<Difference> {
    if got == model {
        return None;
    }
    let mut got_lines = got.split('\n');
    let mut model_lines = model.split('\n');
    let mut number = 0;
    loop {
        let (got, model) = (got_lines.next(), model_lines.next());
        if got != model {
            let details = vec![format!("it has {}", shown(got)), format!("model  {}", shown(model))];
            return Some(Difference { what: line_differs(number, got, model), details });
        }
        number += 1;
    }
}

fn shown(line: Option<&str>) -> &str {
    line.unwrap_or("no line, nor a line feed before it")
}

fn line_differs(number: usize, got: Option<&str>, model: Option<&str>) -> String {
    let got_fields: Vec<&str> = got.unwrap_or("").split(' ').collect();
    let model_fields: Vec<&str> = model.unwrap_or("").split(' ').collect();
    let same_kind = got_fields.len() == model_fields.len() && got_fields[0] == model_fields[0];
    let different = got_fields.iter().zip(&model_fields).position(|(got, model)| got != model);
    match different {
        Some(field) if same_kind && model_fields.len() == FIELDS.len() => {
            let what = field_differs(FIELDS[field], got_fields[field], model_fields[field]);
            format!("call {} (function {}): {}", number, model_fields[0], what)
        }
        Some(2) if same_kind && model_fields[0] == "RECORD" => {
            let what = digits_differ("record", got_fields[2], model_fields[2]);
            format!("RECORD {}: {}", model_fields[1], what)
        }
        _ => format!("line {}: {}, by the model {}", number, cut(shown(got)), cut(shown(model))),
    }
}

fn field_differs(name: &str, got: &str, model: &str) -> String {
    match (got.strip_prefix('='), model.strip_prefix('=')) {
        (Some(got), Some(model)) => digits_differ(name, got, model),
        _ => format!("the {} is {}, by the model {}", name, cut(got), cut(model)),
    }
}

/// Two hex digits stand for a byte.
fn digits_differ(name: &str, got: &str, model: &str) -> String {
    if got.len() != model.len() {
        return format!("the {} has {} digits, by the model {}", name, got.len(), model.len());
    }
    let pairs = |text: &str| -> Vec<String> {
        text.as_bytes().chunks(2).map(|pair| String::from_utf8_lossy(pair).into_owned()).collect()
    };
    let (got, model) = (pairs(got), pairs(model));
    let byte = got.iter().zip(&model).take_while(|(got, model)| got == model).count();
    format!("byte {} of the {} is {}, by the model {}", byte, name, got[byte], model[byte])
}

/// The beginning of a long text.
fn cut(text: &str) -> String {
    let start: String = text.chars().take(60).collect();
    if start.len() < text.len() {
        format!("'{}..' ({} characters)", start, text.len())
    } else {
        format!("'{}'", text)
    }
}
