//! What a compiled node accepts.

use super::members::World;
use super::nodes::entry;
use super::nodes::Store;

pub fn run(store: &Store, node: usize, world: &World, v: usize) -> bool {
    let cell = &world.cells[v];
    let n = &store.nodes[node];
    let kid = |i: usize, v: usize| run(store, n.kids[i], world, v);
    let all = |number: u16| cell.number == number && cell.parts.iter().all(|p| kid(0, *p as usize));
    let each = || {
        let mut places = cell.parts.iter().enumerate();
        cell.number == 8
            && cell.parts.len() == n.kids.len()
            && places.all(|(i, p)| kid(i, *p as usize))
    };
    match n.kind {
        "IsAny" => true,
        "IsNever" => false,
        "IsInt" => cell.number == 1,
        "IsBool" => cell.number == 2,
        "IsNone" => cell.number == 3,
        "IsStr" => cell.number == 4,
        "IsList" => cell.number == 5,
        "IsDict" => cell.number == 6,
        "IsSet" => cell.number == 7,
        "StarlarkTypeIdMatcher" => cell.number == n.number,
        "Custom" => entry(world.customs, n.number).says(cell.number, cell.flags, cell.mark),
        "IsCallable" => cell.flags & 1 != 0,
        "IsIterable" => cell.flags & 2 != 0,
        "IsType" => cell.flags & 4 != 0,
        "IsListOf" => all(5),
        "IsSetOf" => all(7),
        "IsTupleOf" => all(8),
        "IsTupleElems0" | "IsTupleElems1" | "IsTupleElems2" | "IsTupleElems" => each(),
        "IsDictOf" => {
            let mut pairs = cell.parts.chunks(2);
            cell.number == 6 && pairs.all(|p| kid(0, p[0] as usize) && kid(1, p[1] as usize))
        }
        "IsAnyOfTwo" | "IsAnyOf" => (0..n.kids.len()).any(|i| kid(i, v)),
        other => unreachable!("no kind {other}"),
    }
}
