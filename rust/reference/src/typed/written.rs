//! The text of a rule: "brackets stand round each "and" and each "some" (of one name
//! each) and round no other node, one space stands after `exist` and on each side of a
//! relation's sign, none elsewhere".

use crate::formula::{Formula, Variable};
use crate::label::capitals;

pub fn text_of(rule: &Formula) -> Vec<u8> {
    let mut text = Vec::new();
    write(rule, &mut Vec::new(), &mut text);
    text
}

/// Adds the text of a formula; `bound` are the variables of the "some" nodes around it,
/// outermost first.
fn write(formula: &Formula, bound: &mut Vec<Variable>, text: &mut Vec<u8>) {
    // "naming variables A to D by level": the level of the "some" that binds the use.
    let name = |variable: &Variable| {
        let level = bound.iter().rposition(|other| other == variable).expect("a bound variable");
        char::from(b'A' + level as u8)
    };
    let relation = |a, sign, b| format!("{} {sign} {}", name(a), name(b));
    match formula {
        Formula::And(first, second) => {
            text.push(b'(');
            write(first, bound, text);
            text.push(b'&');
            write(second, bound, text);
            text.push(b')');
        }
        Formula::Not(child) => {
            text.push(b'!');
            write(child, bound, text);
        }
        Formula::Some(variable, child) => {
            bound.push(*variable);
            let name = char::from(b'A' + bound.len() as u8 - 1);
            text.extend(format!("(exist {name}.").bytes());
            write(child, bound, text);
            text.push(b')');
            bound.pop();
        }
        Formula::HasLabel(variable, label) => {
            text.extend(format!("{}('", name(variable)).bytes());
            text.extend(capitals(label));
            text.extend(b"')");
        }
        Formula::Before(a, b) => text.extend(relation(a, '<', b).bytes()),
        Formula::Overlaps(a, b) => text.extend(relation(a, 'o', b).bytes()),
        Formula::Includes(a, b) => text.extend(relation(a, 'i', b).bytes()),
        Formula::Same(a, b) => text.extend(format!("same({},{})", name(a), name(b)).bytes()),
    }
}
