//! Rules typed by hand: from a text to a rule file (25, 4, 5, 9, 10), and from a rule
//! file to its text.
//!
//! A text is read in three steps: it is cut into signs; the signs are grouped to a
//! tree; the tree's nodes are numbered.

mod signs;
mod tree;
mod written;

use crate::label::{capitals, is_label, place_in};
use crate::rule::{read_rule, Rule, MAX_NESTED, MAX_NODES, MAX_RULE_LABELS};
use crate::Refusal;
use signs::{signs_of, Sign};
use tree::Tree;

/// "25 for text outside the grammar or above 4,096 bytes".
pub const LONGEST_TEXT: usize = 4096;

/// The rule file of a text. "Limits and numbers 4, 5, 9 and 10 carry over, met in that
/// order after the grammar."
pub fn rule_file(text: &[u8]) -> Result<Vec<u8>, Refusal> {
    if text.len() > LONGEST_TEXT {
        return Err(25);
    }
    let signs = signs_of(text).ok_or(25)?;
    let tree = Tree::of(&signs).ok_or(25)?;
    let labels = labels_of(&signs);
    if tree.node_count() > MAX_NODES || labels.len() > MAX_RULE_LABELS {
        return Err(4);
    }
    if !labels.iter().all(|label| is_label(label)) {
        return Err(5);
    }
    let nodes = tree.nodes(&labels).ok_or(9)?;
    if tree.nested() > MAX_NESTED {
        return Err(10);
    }
    // "all rules written out keep the capital form"
    let labels = labels.into_iter().map(capitals).collect();
    Ok(Rule { labels, nodes }.to_bytes())
}

/// The different labels in the order of their first appearance, bad ones among them, as they
/// are written there; of more than a rule can have, only the first that is too many. Two that
/// differ only in case: "in a typed rule those are one label".
fn labels_of<'a>(signs: &[Sign<'a>]) -> Vec<&'a [u8]> {
    let mut labels = Vec::new();
    for sign in signs {
        match sign {
            Sign::Label(label) if place_in(&labels, label).is_none() => labels.push(*label),
            _ => {}
        }
        if labels.len() > MAX_RULE_LABELS {
            break;
        }
    }
    labels
}

/// The text of a rule file: "A writer gives each rule table one text".
pub fn rule_text(rule: &[u8]) -> Result<Vec<u8>, Refusal> {
    Ok(written::text_of(&read_rule(rule)?.formula()))
}
