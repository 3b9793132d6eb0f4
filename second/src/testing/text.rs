//! Drawings as text, one line for each object and constraint; `#` starts a comment:
//!
//! ```text
//! KIND NAME [WEIGHT]           an object; constraints call it by its name
//! KIND NAME NAME [WEIGHT]      a constraint between two objects
//! ```
use crate::reader::{Constraint, Drawing, Object};

const OBJECTS: [&str; 5] = ["point", "line", "given-circle", "free-circle", "cluster"];
const CONSTRAINTS: [&str; 7] =
    ["distance", "angle", "coincidence", "incidence", "tangency", "shared-point", "same-centre"];

/// The drawing that the text says, or what is wrong with it. It may still break the rules of a drawing.
pub fn parse(text: &str) -> Result<Drawing, String> {
    let mut drawing = Drawing::default();
    let mut names: Vec<&str> = Vec::new();
    for line in text.lines() {
        let words: Vec<&str> = line.split('#').next().unwrap_or("").split_whitespace().collect();
        let Some((&kind, words)) = words.split_first() else { continue };
        if let Some(kind) = number(&OBJECTS, kind) {
            let [name, weight @ ..] = words else { return Err(format!("no name: {line}")) };
            names.push(name);
            drawing.objects.push(Object { kind, stated: stated(weight, line)? });
        } else if let Some(kind) = number(&CONSTRAINTS, kind) {
            let [first, second, weight @ ..] = words else { return Err(format!("two ends are wanted: {line}")) };
            let ends = [end(&names, first)?, end(&names, second)?];
            drawing.constraints.push(Constraint { ends, kind, stated: stated(weight, line)? });
        } else {
            return Err(format!("unknown kind: {line}"));
        }
    }
    Ok(drawing)
}

fn number(kinds: &[&str], kind: &str) -> Option<u8> {
    kinds.iter().position(|&k| k == kind).map(|i| i as u8 + 1)
}

fn end(names: &[&str], name: &str) -> Result<u16, String> {
    names.iter().position(|&n| n == name).map(|i| i as u16).ok_or(format!("no object: {name}"))
}

fn stated(words: &[&str], line: &str) -> Result<u8, String> {
    match words {
        [] => Ok(0),
        [weight] => weight.parse().map_err(|_| format!("no weight: {line}")),
        _ => Err(format!("too many words: {line}")),
    }
}
