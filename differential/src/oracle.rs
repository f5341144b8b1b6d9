//! The crate's own answers: annotation texts are turned into its `Ty` by its own
//! calls, compiled by its own factory and asked by its own matchers.

use std::cell::RefCell;
use std::collections::HashMap;

use crate::rules::job::Read;
use crate::rules::nodes::entry;
use crate::rules::text::Alternative;
use crate::rules::text::Args;
use crate::rules::text::Name;
use crate::rules::text::Text;
use crate::rules::types::joined;
use crate::rules::types::plain_name;
use crate::typing::custom::Entry;
use crate::typing::custom::HostCustom;
use crate::typing::starlark_value::TyStarlarkValue;
use crate::typing::tuple::TyTuple;
use crate::typing::Ty;
use crate::typing::TyBasic;
use crate::values::heap::Arena;
use crate::values::heap::TypeCompiled;
use crate::values::kinds::FrozenDict;
use crate::values::kinds::FrozenList;
use crate::values::kinds::FrozenSet;
use crate::values::typing::type_compiled::factory::TypeCompiledFactory;
use crate::values::Heap;
use crate::values::Value;

/// How host types are named; the crate sorts plain types by name.
#[derive(Clone, Copy, PartialEq, Eq)]
pub enum Names {
    /// Each number has a name of its own.
    Own,
    /// An even number and the next one share a name.
    Shared,
}

thread_local! {
    static HOSTS: RefCell<HashMap<(u16, bool), TyStarlarkValue>> = RefCell::new(HashMap::new());
}

fn plain(number: u16, names: Names) -> TyStarlarkValue {
    match number {
        1 => TyStarlarkValue::int(),
        2 => TyStarlarkValue::new::<crate::values::kinds::StarlarkBool>(),
        3 => TyStarlarkValue::new::<crate::values::kinds::NoneType>(),
        4 => TyStarlarkValue::new::<crate::values::kinds::StarlarkStr>(),
        5 => TyStarlarkValue::new::<FrozenList>(),
        6 => TyStarlarkValue::new::<FrozenDict>(),
        7 => TyStarlarkValue::new::<FrozenSet>(),
        8 => TyStarlarkValue::tuple(),
        n => HOSTS.with(|hosts| {
            *hosts
                .borrow_mut()
                .entry((n, names == Names::Shared))
                .or_insert_with(|| {
                    let name = match names {
                        Names::Own => format!("host.{n}"),
                        Names::Shared => format!("hosts.{}", n & !1),
                    };
                    TyStarlarkValue::of_number(n, Box::leak(name.into_boxed_str()))
                })
        }),
    }
}

/// The crate's type of a text; unions by `Ty::union2` from left to right.
pub fn ty(text: &Text, customs: &[Entry], names: Names) -> Ty {
    let mut alternatives = text.0.iter().map(|a| alternative(a, customs, names));
    let first = alternatives.next().expect("a text has an alternative");
    alternatives.fold(first, Ty::union2)
}

fn alternative(a: &Alternative, customs: &[Entry], names: Names) -> Ty {
    let mut args: Vec<Ty> = match &a.args {
        Args::Bare => vec![],
        Args::Many(t) => vec![ty(t, customs, names)],
        Args::Texts(ts) => ts.iter().map(|t| ty(t, customs, names)).collect(),
    };
    let bare = matches!(a.args, Args::Bare);
    match a.name {
        Name::Int => Ty::int(),
        Name::Bool => Ty::bool(),
        Name::Str => Ty::string(),
        Name::None => Ty::none(),
        Name::Any => Ty::any(),
        Name::Never => Ty::never(),
        Name::Type => Ty::basic(TyBasic::Type),
        Name::Callable => Ty::any_callable(),
        Name::Host(n) => Ty::basic(TyBasic::StarlarkValue(plain(n, names))),
        Name::Custom(n) => Ty::custom(HostCustom {
            number: n,
            entry: entry(customs, n),
        }),
        Name::Iterable if bare => Ty::iter(Ty::any()),
        Name::List if bare => Ty::any_list(),
        Name::Set if bare => Ty::any_set(),
        Name::Dict if bare => Ty::any_dict(),
        Name::Tuple if bare => Ty::any_tuple(),
        Name::Iterable => Ty::iter(args.remove(0)),
        Name::List => Ty::list(args.remove(0)),
        Name::Set => Ty::set(args.remove(0)),
        Name::Dict => {
            let key = args.remove(0);
            Ty::dict(key, args.remove(0))
        }
        Name::Tuple => match a.args {
            Args::Many(_) => Ty::tuple_of(args.remove(0)),
            _ => Ty::tuple(args),
        },
    }
}

/// The crate's type as text; alternatives sorted by their texts.
pub fn show(ty: &Ty) -> String {
    shown(ty, false)
}

/// The same with each alternative once.
pub fn show_once(ty: &Ty) -> String {
    shown(ty, true)
}

fn shown(ty: &Ty, once: bool) -> String {
    let show = |ty: &Ty| shown(ty, once);
    let one = |basic: &TyBasic| match basic {
        TyBasic::Any => "typing.Any".to_owned(),
        TyBasic::StarlarkValue(x) => plain_name(x.starlark_type_id().0),
        TyBasic::Iter(t) => format!("typing.Iterable[{}]", show(t)),
        TyBasic::Callable(_) => "typing.Callable".to_owned(),
        TyBasic::Type => "type".to_owned(),
        TyBasic::List(t) => format!("list[{}]", show(t)),
        TyBasic::Set(t) => format!("set[{}]", show(t)),
        TyBasic::Dict(k, v) => format!("dict[{}, {}]", show(k), show(v)),
        TyBasic::Tuple(TyTuple::Of(t)) => format!("tuple[{}, ...]", show(t)),
        TyBasic::Tuple(TyTuple::Elems(ts)) => {
            let each: Vec<String> = ts.iter().map(show).collect();
            format!("tuple[{}]", each.join(", "))
        }
        TyBasic::Custom(c) => format!("custom.{}", c.number()),
    };
    let mut each: Vec<String> = ty.iter_union().iter().map(one).collect();
    if once {
        each.sort();
        each.dedup();
    }
    joined(each)
}

pub fn compile<'v>(ty: &Ty, heap: Heap<'v>) -> TypeCompiled<Value<'v>> {
    TypeCompiledFactory::alloc_ty(ty, heap)
}

/// The crate's matcher as text, from its derived `Debug`: boxes are left out, a
/// `StarlarkTypeIdMatcher` shows its type number.
pub fn tree(compiled: &TypeCompiled<Value<'_>>) -> String {
    let debug = format!("{:?}", compiled.matcher());
    let numbered = debug
        .replace(
            "StarlarkTypeIdMatcher { ty: TyStarlarkValue { type_name: \"",
            "\u{1}",
        )
        .replace("\", .. } }", "\u{2}")
        .replace(['[', ']'], "");
    let mut shown = String::new();
    let mut rest = numbered.as_str();
    while let Some((before, after)) = rest.split_once('\u{1}') {
        let (name, after) = after.split_once('\u{2}').expect("the end of a type name");
        shown.push_str(before);
        shown.push_str(&format!("StarlarkTypeIdMatcher({})", type_number(name)));
        rest = after;
    }
    shown.push_str(rest);
    unboxed(&shown)
}

fn type_number(name: &str) -> String {
    let known = [
        "int", "bool", "NoneType", "string", "list", "dict", "set", "tuple",
    ];
    match known.iter().position(|k| *k == name) {
        Some(i) => (i + 1).to_string(),
        None => name.strip_prefix("host.").unwrap_or(name).to_owned(),
    }
}

/// Leaves out `TypeMatcherBox(` and the bracket that closes it.
fn unboxed(debug: &str) -> String {
    let mut shown = String::new();
    let mut open = Vec::new();
    let mut rest = debug;
    while let Some(c) = rest.chars().next() {
        if let Some(inner) = rest.strip_prefix("TypeMatcherBox(") {
            open.push(false);
            rest = inner;
            continue;
        }
        match c {
            '(' => open.push(true),
            ')' if open.pop() == Some(false) => {
                rest = &rest[1..];
                continue;
            }
            _ => {}
        }
        shown.push(c);
        rest = &rest[c.len_utf8()..];
    }
    shown
}

/// What the crate says of a job.
pub struct Answers {
    /// Of each text: its union, its matcher.
    pub texts: Vec<(String, String)>,
    pub lines: Vec<String>,
}

pub fn answers(read: &Read, names: Names) -> Answers {
    let arena = Arena::new(&read.cells);
    let compiled: Vec<(String, TypeCompiled<Value<'_>>)> = read
        .annotations
        .iter()
        .map(|a| {
            let ty = ty(&a.text, &read.customs, names);
            (show(&ty), compile(&ty, arena.heap()))
        })
        .collect();
    let lines = read.lines(|a, v| compiled[a].1.matches(arena.value(v).expect("a cell")));
    let texts = compiled
        .iter()
        .map(|(ty, c)| (ty.clone(), tree(c)))
        .collect();
    Answers { texts, lines }
}
