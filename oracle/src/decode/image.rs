//! The image of document 01 as the Rust's nodes and type expressions.

use purple_garden_allocators::bump::{Arena, Bump};
use purple_garden_frontend::{
    ast::{Ast, ExternFn, Node, NodeId, TypeExpr, TypeExprId},
    lex::{self, Token},
};

use super::{Bad, Got, MOST_TEXT, MOST_WORDS, Words, kind, need, payload, tokens::Reader};

pub struct Image {
    pub ast: Ast<'static, 'static>,
    /// Why the image is outside the domain of equality, as far as its tokens say.
    pub outside: Option<&'static str>,
}

pub fn image(words: &[u32], text: &'static [u8], arena: &'static Bump) -> Got<Image> {
    need(words.len() <= MOST_WORDS && text.len() <= MOST_TEXT)?;
    let mut r = Words::new(words);
    let (nodes, types, roots, slots) = (r.num()?, r.num()?, r.num()?, r.num()?);
    need(nodes <= 2048 && types <= 512 && roots <= 512 && slots <= 4096)?;
    let mut rd = Reader {
        text,
        arena,
        outside: None,
    };

    let mut root_ids = Vec::new();
    for _ in 0..roots {
        root_ids.push(node_id(&mut r, nodes)?);
    }

    let mut node_list: Vec<Node<'static, 'static>> = Vec::new();
    for number in 0..nodes {
        let first = r.word()?;
        let len = payload(first) as usize;
        let mut rec = r.take(len.checked_sub(1).ok_or(Bad)?)?;
        let node = node(&mut rd, &mut rec, kind(first), number, types, slots)?;
        need(rec.left() == 0)?;
        if let Node::Call { target, .. } = &node {
            need(matches!(
                node_list[target.0],
                Node::Ident { .. } | Node::Field { .. }
            ))?;
        }
        node_list.push(node);
    }

    let mut type_list = Vec::new();
    for number in 0..types {
        let first = r.word()?;
        let len = payload(first) as usize;
        let mut rec = r.take(len.checked_sub(1).ok_or(Bad)?)?;
        type_list.push(type_record(&mut rd, &mut rec, kind(first), number)?);
        need(rec.left() == 0)?;
    }
    need(r.left() == 0)?;
    tree(&root_ids, &node_list, slots)?;

    Ok(Image {
        ast: Ast {
            roots: arena.alloc_slice(root_ids),
            nodes: arena.alloc_slice(node_list),
            types: arena.alloc_slice(type_list),
            values: slots,
        },
        outside: rd.outside,
    })
}

/// No node claimed twice as part or root, no slot owned twice, no depth past 64.
fn tree(roots: &[NodeId], nodes: &[Node<'static, 'static>], slots: usize) -> Got<()> {
    let mut claimed = vec![false; nodes.len()];
    let mut owned = vec![false; slots];
    let mut depth = vec![1; nodes.len()];
    for (number, node) in nodes.iter().enumerate() {
        let (parts, own) = parts(node);
        for part in parts {
            need(!std::mem::replace(&mut claimed[part.0], true))?;
            depth[number] = depth[number].max(depth[part.0] + 1);
        }
        need(depth[number] <= 64)?;
        for slot in own {
            need(!std::mem::replace(&mut owned[slot], true))?;
        }
    }
    for root in roots {
        need(!std::mem::replace(&mut claimed[root.0], true))?;
    }
    Ok(())
}

fn parts(node: &Node<'_, '_>) -> (Vec<NodeId>, std::ops::Range<usize>) {
    let mut more = 0;
    let (id, parts) = match node {
        Node::Atom { id, .. }
        | Node::Ident { id, .. }
        | Node::Import { id, .. }
        | Node::Extern { id, .. } => (id, vec![]),
        Node::Bin { id, lhs, rhs, .. } => (id, vec![*lhs, *rhs]),
        Node::Unary { id, rhs, .. } | Node::Let { id, rhs, .. } => (id, vec![*rhs]),
        Node::Fn { id, args, body, .. } => {
            more = args.len();
            (id, body.to_vec())
        }
        Node::Match { id, cases, default } => {
            let mut all = Vec::new();
            for ((_, condition), body) in *cases {
                all.push(*condition);
                all.extend_from_slice(body);
            }
            all.extend_from_slice(default.1);
            (id, all)
        }
        Node::Call { id, target, args } => {
            let mut all = vec![*target];
            all.extend_from_slice(args);
            (id, all)
        }
        Node::Field { id, target, .. } => (id, vec![*target]),
        Node::Cast { id, lhs, .. } => (id, vec![*lhs]),
        Node::Record { id, fields, .. } => (id, fields.iter().map(|(_, v)| *v).collect()),
        Node::Array { id, members, .. } => (id, members.to_vec()),
    };
    (parts, *id..*id + 1 + more)
}

fn node_id(r: &mut Words<'_>, below: usize) -> Got<NodeId> {
    let n = r.num()?;
    need(n < below)?;
    Ok(NodeId(n))
}

fn type_id(r: &mut Words<'_>, below: usize) -> Got<TypeExprId> {
    let n = r.num()?;
    need(n < below)?;
    Ok(TypeExprId(n))
}

fn node_ids(r: &mut Words<'_>, count: usize, below: usize) -> Got<Vec<NodeId>> {
    (0..count).map(|_| node_id(r, below)).collect()
}

type Args = &'static [(Token<'static>, TypeExprId)];

fn arg_pairs(rd: &Reader, r: &mut Words<'_>, types: usize) -> Got<Args> {
    let count = r.num()?;
    let mut args = Vec::new();
    for _ in 0..count {
        args.push((rd.ident(r.word()?)?, type_id(r, types)?));
    }
    Ok(rd.arena.alloc_slice(args))
}

fn node(
    rd: &mut Reader,
    r: &mut Words<'_>,
    kind: u32,
    number: usize,
    types: usize,
    slots: usize,
) -> Got<Node<'static, 'static>> {
    let arena = rd.arena;
    let id = r.num()?;
    need(id < slots)?;
    Ok(match kind {
        0 => Node::Atom {
            id,
            raw: {
                let token = r.word()?;
                rd.atom(token, r.word()?)?
            },
        },
        1 => Node::Ident {
            id,
            name: rd.ident(r.word()?)?,
        },
        2 => {
            let token = r.word()?;
            Node::Bin {
                id,
                op: rd.operator(token, r.word()?)?,
                lhs: node_id(r, number)?,
                rhs: node_id(r, number)?,
            }
        }
        3 => {
            let token = r.word()?;
            Node::Unary {
                id,
                op: rd.operator(token, r.word()?)?,
                rhs: node_id(r, number)?,
            }
        }
        4 => Node::Let {
            id,
            docs: &[],
            name: rd.ident(r.word()?)?,
            rhs: node_id(r, number)?,
        },
        5 => {
            let name = rd.ident(r.word()?)?;
            let return_type = type_id(r, types)?;
            let args = arg_pairs(rd, r, types)?;
            need(id + args.len() < slots)?;
            Node::Fn {
                id,
                docs: &[],
                name,
                args,
                return_type,
                body: arena.alloc_slice(node_ids(r, r.left(), number)?),
            }
        }
        6 => {
            let count = r.num()?;
            let mut cases: Vec<((Token<'static>, NodeId), &'static [NodeId])> = Vec::new();
            for _ in 0..count {
                let token = rd.mark(r.word()?)?;
                let condition = node_id(r, number)?;
                let len = r.num()?;
                need(len <= r.left())?;
                let body: &'static [NodeId] = arena.alloc_slice(node_ids(r, len, number)?);
                cases.push(((token, condition), body));
            }
            let token = rd.mark(r.word()?)?;
            let body: &'static [NodeId] = arena.alloc_slice(node_ids(r, r.left(), number)?);
            Node::Match {
                id,
                cases: arena.alloc_slice(cases),
                default: (token, body),
            }
        }
        7 => Node::Call {
            id,
            target: node_id(r, number)?,
            args: arena.alloc_slice(node_ids(r, r.left(), number)?),
        },
        8 => Node::Field {
            id,
            target: node_id(r, number)?,
            name: rd.ident(r.word()?)?,
        },
        9 => Node::Cast {
            id,
            src: rd.mark_of(r.word()?, lex::Type::As)?,
            lhs: node_id(r, number)?,
            rhs: type_id(r, types)?,
        },
        10 => {
            let src = rd.mark_of(r.word()?, lex::Type::Import)?;
            let mut pkgs = Vec::new();
            while r.left() > 0 {
                pkgs.push(rd.string(r.word()?)?);
            }
            Node::Import {
                id,
                src,
                pkgs: arena.alloc_slice(pkgs),
            }
        }
        11 => {
            let src = rd.mark_of(r.word()?, lex::Type::Extern)?;
            let name = rd.string(r.word()?)?;
            let count = r.num()?;
            let mut fns = Vec::new();
            for _ in 0..count {
                let name = rd.ident(r.word()?)?;
                let return_type = type_id(r, types)?;
                fns.push(ExternFn {
                    docs: &[],
                    name,
                    args: arg_pairs(rd, r, types)?,
                    return_type,
                });
            }
            Node::Extern {
                id,
                src,
                docs: &[],
                name,
                fns: arena.alloc_slice(fns),
            }
        }
        12 => {
            let src = rd.mark_of(r.word()?, lex::Type::CurlyLeft)?;
            let mut fields = Vec::new();
            while r.left() > 0 {
                fields.push((rd.ident(r.word()?)?, node_id(r, number)?));
            }
            Node::Record {
                id,
                src,
                fields: arena.alloc_slice(fields),
            }
        }
        13 => Node::Array {
            id,
            src: rd.mark_of(r.word()?, lex::Type::BraketLeft)?,
            members: arena.alloc_slice(node_ids(r, r.left(), number)?),
        },
        _ => return Err(Bad),
    })
}

fn type_record(
    rd: &mut Reader,
    r: &mut Words<'_>,
    kind: u32,
    number: usize,
) -> Got<TypeExpr<'static, 'static>> {
    Ok(match kind {
        0 => {
            let token = r.word()?;
            TypeExpr::Atom(rd.type_atom(token, r.word()?)?)
        }
        1 => TypeExpr::Foreign(rd.ident(r.word()?)?),
        2 => TypeExpr::Option(type_id(r, number)?),
        3 => TypeExpr::Array(type_id(r, number)?),
        4 => {
            let src = rd.mark(r.word()?)?;
            let mut fields = Vec::new();
            while r.left() > 0 {
                fields.push((rd.ident(r.word()?)?, type_id(r, number)?));
            }
            TypeExpr::Record {
                src,
                fields: rd.arena.alloc_slice(fields),
            }
        }
        _ => return Err(Bad),
    })
}
