//! Which packages are held along the walk, and what each call finds there.

use std::collections::HashMap;

use purple_garden_frontend::ast::{Ast, ExternFn, Node, NodeId};
use purple_garden_ir::Fn;
use purple_garden_runtime::Pkg;

/// What a visited node does with packages and functions.
pub enum Event<'r> {
    /// one path of an Import
    Import {
        held: bool,
        in_library: usize,
    },
    Extern {
        over_held: bool,
    },
    Call {
        finds: Found,
        args: &'r [NodeId],
    },
}

pub enum Found {
    /// through the field of a value
    Value,
    /// a function of the script, defined or not
    Own,
    Nothing,
    /// a function without slots that is alone in its group
    Alone,
    /// a group of several
    Several,
    Slotted(&'static Fn<'static>),
}

enum Held<'r> {
    Library(&'static Pkg),
    Extern(&'r [ExternFn<'static, 'static>]),
}

/// The events of the visited nodes, in order.
pub fn events<'r>(
    ast: &'r Ast<'static, 'static>,
    pkgs: &'static [Pkg],
    visited: &[NodeId],
) -> Vec<Event<'r>> {
    let mut held: HashMap<&str, Held<'r>> = HashMap::new();
    let mut events = Vec::new();
    for &number in visited {
        match ast.node(number) {
            Node::Import { pkgs: paths, .. } => {
                for name in paths.iter().map(|p| p.t.as_str()) {
                    events.push(Event::Import {
                        held: held.contains_key(name),
                        in_library: pkgs.iter().filter(|p| p.name == name).count(),
                    });
                    if let Some(pkg) = pkgs.iter().find(|p| p.name == name) {
                        held.entry(name).or_insert(Held::Library(pkg));
                    }
                }
            }
            Node::Extern { name, fns, .. } => {
                let before = held.insert(name.t.as_str(), Held::Extern(fns));
                let over_held = before.is_some();
                events.push(Event::Extern { over_held });
            }
            Node::Call { target, args, .. } => {
                let finds = found(ast, *target, &held);
                events.push(Event::Call { finds, args });
            }
            _ => {}
        }
    }
    events
}

fn found(ast: &Ast<'static, 'static>, target: NodeId, held: &HashMap<&str, Held<'_>>) -> Found {
    let Node::Field { target, name, .. } = ast.node(target) else {
        return Found::Own;
    };
    let Node::Ident { name: pkg, .. } = ast.node(*target) else {
        return Found::Value;
    };
    let name = name.t.as_str();
    let group: Vec<Option<&'static Fn<'static>>> = match held.get(pkg.t.as_str()) {
        None => Vec::new(),
        Some(Held::Library(pkg)) => pkg
            .fns
            .iter()
            .filter(|f| f.group_name() == name)
            .map(Some)
            .collect(),
        Some(Held::Extern(fns)) => fns
            .iter()
            .filter(|f| f.name.t.as_str() == name)
            .map(|_| None)
            .collect(),
    };
    match group[..] {
        [] => Found::Nothing,
        [Some(f)] if f.with_slots => Found::Slotted(f),
        [_] => Found::Alone,
        _ => Found::Several,
    }
}
