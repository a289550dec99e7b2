//! Statements and blocks.

use super::Maker;
use crate::{
    library::{self, Package},
    tree::{Node, Sig},
    ty::Ty,
};

impl Maker<'_> {
    /// The roots: statements of about `size` nodes, and every fault that is still wanted.
    pub fn roots(&mut self, size: usize) -> Vec<Node> {
        let mut roots = self.statements(size);
        while let Some(code) = self.faults.pop() {
            let want = self.any_type();
            if let Some(fault) = self.clean(|m| m.fault(code, &want, 6)) {
                roots.push(self.with_fault(fault));
            }
        }
        roots
    }

    pub fn statements(&mut self, mut size: usize) -> Vec<Node> {
        let mut nodes = Vec::new();
        while size > 0 {
            let part = self.rng.between(1, size.min(12));
            nodes.push(self.statement(part));
            size -= part;
        }
        nodes
    }

    fn statement(&mut self, size: usize) -> Node {
        let want = self.any_type();
        if let Some(fault) = self.due_fault(18, &want, size) {
            return self.with_fault(fault);
        }
        match self.rng.weighted(&[40, 25, 16, 9, 5]) {
            0 => self.binding(size),
            1 => self.expr(&want, size),
            2 => self.function(&want, size),
            3 => self.import(),
            _ => self.external(),
        }
    }

    /// A statement with a fault in it.
    fn with_fault(&mut self, fault: Node) -> Node {
        match self.rng.below(10) {
            0..3 => fault,
            3 => {
                let name = self.names.any(self.rng);
                self.scope.bind(&name, None);
                Node::bind(name, fault)
            }
            _ => self.clean(|m| m.in_context(fault)),
        }
    }

    fn binding(&mut self, size: usize) -> Node {
        let ty = self.value_type();
        let right = self.expr(&ty, size.saturating_sub(1));
        let name = self.names.any(self.rng);
        self.scope.bind(&name, Some(ty));
        Node::bind(name, right)
    }

    /// The body of a function or a match: statements in a frame of their own, the last of type
    /// `end`. Without any it is Void.
    pub fn block(&mut self, end: &Ty, size: usize) -> Vec<Node> {
        if *end == Ty::Void && self.rng.chance(30) {
            return Vec::new();
        }
        self.scope.enter();
        let before = if size > 3 {
            self.rng.below(size - 1)
        } else {
            0
        };
        let mut nodes = self.statements(before);
        nodes.push(self.expr(end, size - before));
        self.scope.leave();
        nodes
    }

    pub fn new_function_name(&mut self) -> String {
        let scope = &self.scope;
        self.names
            .other_than(self.rng, |n| scope.function(n).is_some())
    }

    pub fn random_arguments(&mut self) -> Vec<(String, Ty)> {
        let count = self.rng.weighted(&[25, 35, 25, 10, 5]);
        let types = (0..count).map(|_| self.any_type()).collect();
        library::arguments(self.rng, self.names, types)
    }

    /// A new function that returns `ret`.
    pub fn function(&mut self, ret: &Ty, size: usize) -> Node {
        let sig = Sig {
            name: self.new_function_name(),
            args: self.random_arguments(),
            ret: ret.clone(),
            slotted: false,
        };
        self.function_of(sig, ret, size)
    }

    /// The function `sig` with a body of type `end`.
    pub fn function_of(&mut self, sig: Sig, end: &Ty, size: usize) -> Node {
        self.scope.functions.push(sig.clone());
        self.scope.enter_function(&sig.args);
        let body = self.block(end, size.saturating_sub(1));
        self.scope.leave_function();
        Node::Fn(sig, body)
    }

    /// An import of packages that are held or found.
    pub fn import(&mut self) -> Node {
        let mut names: Vec<String> = self.lib.packages.iter().map(|p| p.name.clone()).collect();
        names.extend(self.scope.held.iter().map(|p| p.name.clone()));
        if names.is_empty() {
            return self.external();
        }
        let mut paths = Vec::new();
        for _ in 0..self.rng.weighted(&[0, 70, 20, 10]) {
            let path = self.rng.pick(&names).clone();
            self.take_in(&path);
            paths.push(path);
        }
        Node::Import(paths)
    }

    /// An import of one already held does nothing.
    pub fn take_in(&mut self, path: &str) {
        if self.scope.package(path).is_none()
            && let Some(pkg) = self.lib.package(path)
        {
            self.scope.hold(pkg.clone());
        }
    }

    /// An extern, now and then of a name that is held or in the library. A package that is just
    /// being called is not replaced.
    pub fn external(&mut self) -> Node {
        let known = self.scope.held.iter().chain(&self.lib.packages);
        let known: Vec<String> = known
            .map(|p| p.name.clone())
            .filter(|n| self.calling == 0 || self.scope.package(n).is_none())
            .collect();
        let name = if !known.is_empty() && self.rng.chance(40) {
            self.rng.pick(&known).clone()
        } else {
            let scope = &self.scope;
            self.names
                .other_than(self.rng, |n| scope.package(n).is_some())
        };
        let mut fns = Vec::new();
        for _ in 0..self.rng.below(4) {
            fns.push(Sig {
                name: self.names.any(self.rng),
                args: self.random_arguments(),
                ret: self.any_type(),
                slotted: false,
            });
        }
        if self.rng.chance(35) {
            let group = self.names.any(self.rng);
            fns.extend(library::group(self.rng, self.names, &group));
        }
        let pkg = Package {
            name: name.clone(),
            fns: fns.clone(),
        };
        self.scope.hold(pkg);
        Node::Extern(name, fns)
    }
}
