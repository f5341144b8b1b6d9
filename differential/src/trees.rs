//! Matcher trees as text: `Kind`, `Kind(kid, kid)`, `StarlarkTypeIdMatcher(5)`,
//! `Custom(0)`. The order of a union's kids tells nothing, except that `IsNone`
//! stands first in a union of two that has it.

#[derive(Debug, PartialEq, Eq)]
struct Tree {
    head: String,
    kids: Vec<Tree>,
}

fn read(text: &str) -> Option<(Tree, &str)> {
    let text = text.trim_start();
    let long = text
        .bytes()
        .take_while(|b| b.is_ascii_alphanumeric() || *b == b'.' || *b == b'_')
        .count();
    let (head, mut rest) = text.split_at(long);
    if head.is_empty() {
        return None;
    }
    let mut kids = Vec::new();
    if let Some(inside) = rest.strip_prefix('(') {
        rest = inside;
        loop {
            let (kid, after) = read(rest)?;
            kids.push(kid);
            let after = after.trim_start();
            if let Some(next) = after.strip_prefix(',') {
                rest = next;
            } else {
                rest = after.strip_prefix(')')?;
                break;
            }
        }
    }
    let head = head.to_owned();
    Some((Tree { head, kids }, rest))
}

fn show(tree: &Tree) -> String {
    if tree.kids.is_empty() {
        return tree.head.clone();
    }
    let mut kids: Vec<String> = tree.kids.iter().map(show).collect();
    let fixed = kids.iter().any(|k| k == "IsNone");
    match tree.head.as_str() {
        "IsAnyOf" => kids.sort(),
        "IsAnyOfTwo" if !fixed => kids.sort(),
        _ => {}
    }
    format!("{}({})", tree.head, kids.join(", "))
}

/// The tree with the kids of its unions sorted; a text that is no tree is left.
pub fn canonical(text: &str) -> String {
    match read(text) {
        Some((tree, rest)) if rest.trim().is_empty() => show(&tree),
        _ => text.to_owned(),
    }
}
