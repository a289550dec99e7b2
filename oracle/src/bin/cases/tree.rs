//! The script of a case as a tree of document 01's nodes, before it has a text and numbers.

use crate::ty::Ty;

#[derive(Clone, Debug)]
pub enum Node {
    /// the bytes of its token and its type kind, 2 to 5
    Atom(String, u32),
    Ident(String),
    /// operator number, left, right
    Bin(u32, Box<Node>, Box<Node>),
    Unary(u32, Box<Node>),
    Let(String, Box<Node>),
    /// signature and body
    Fn(Sig, Vec<Node>),
    /// condition and body of each case, then the default's body
    Match(Vec<(Node, Vec<Node>)>, Vec<Node>),
    Call(Box<Node>, Vec<Node>),
    Field(Box<Node>, String),
    Cast(Box<Node>, Ty),
    Import(Vec<String>),
    Extern(String, Vec<Sig>),
    Record(Vec<(String, Node)>),
    Array(Vec<Node>),
}

/// A function: an Fn's, an Extern's, or a library's.
#[derive(Clone, Debug)]
pub struct Sig {
    pub name: String,
    pub args: Vec<(String, Ty)>,
    pub ret: Ty,
    /// document 01's flag 1, in a library only
    pub slotted: bool,
}

pub const OPERATORS: [&str; 9] = ["+", "-", "*", "/", "%", "==", "!=", "<", ">"];

pub const BOOL: u32 = 2;
pub const INT: u32 = 3;
pub const STR: u32 = 5;

impl Node {
    pub fn int() -> Node {
        Node::Atom("1".to_owned(), INT)
    }

    pub fn ident(name: &str) -> Node {
        Node::Ident(name.to_owned())
    }

    pub fn bin(op: u32, left: Node, right: Node) -> Node {
        Node::Bin(op, Box::new(left), Box::new(right))
    }

    pub fn unary(op: u32, right: Node) -> Node {
        Node::Unary(op, Box::new(right))
    }

    pub fn bind(name: String, right: Node) -> Node {
        Node::Let(name, Box::new(right))
    }

    pub fn cast(left: Node, ty: Ty) -> Node {
        Node::Cast(Box::new(left), ty)
    }

    pub fn field(target: Node, name: &str) -> Node {
        Node::Field(Box::new(target), name.to_owned())
    }

    /// A call of a function of the script.
    pub fn call(name: &str, args: Vec<Node>) -> Node {
        Node::Call(Box::new(Node::ident(name)), args)
    }

    /// A call of a package's function.
    pub fn pkg_call(pkg: &str, name: &str, args: Vec<Node>) -> Node {
        Node::Call(Box::new(Node::field(Node::ident(pkg), name)), args)
    }

    /// Several statements as one expression: a match that has only its default.
    pub fn block(body: Vec<Node>) -> Node {
        Node::Match(Vec::new(), body)
    }
}
