//! The verifier of the plain implementation: phases 3 to 12, and the search for a certificate.

use std::cmp::Ordering;
use std::collections::{BTreeSet, HashMap};

use super::{distinct, need, plain, refer, Base, Cannot, Function, Module, Op, Phase, Reader, Try, Type, COPY, DROP, KEY, STORE};

// Phases 3 to 7 and 12, and the limits of phase 13.

impl Module {
    fn in_bounds(&self) -> bool {
        let (names, signatures) = (self.names.len() as u16, self.signatures.len());
        let module = |index: u16| (index as usize) < self.module_handles.len();
        let name = |index: u16| index < names;
        let signature = |index: u16| (index as usize) < signatures;
        let known = |kind: &Type| !matches!(kind.base, Base::Struct(handle) if handle as usize >= self.struct_handles.len());
        module(self.own)
            && self.module_handles.iter().all(|&(address, own)| (address as usize) < self.addresses.len() && name(own))
            && self.struct_handles.iter().all(|handle| module(handle.module) && name(handle.name))
            && self.function_handles.iter().all(|h| module(h.module) && name(h.name) && signature(h.takes) && signature(h.gives))
            && self.signatures.iter().flatten().chain(self.constants.iter().map(|(kind, _)| kind)).all(known)
            && self.structs.iter().all(|s| {
                (s.handle as usize) < self.struct_handles.len() && s.fields.iter().all(|(own, kind)| name(*own) && known(kind))
            })
            && self.field_handles.iter().all(|&(of, at)| {
                (of as usize) < self.structs.len() && (at as usize) < self.fields(of).len()
            })
            && self.functions.iter().all(|f| {
                (f.handle as usize) < self.function_handles.len() && signature(f.locals) && self.is_code_in_bounds(f)
            })
    }
    fn is_code_in_bounds(&self, f: &Function) -> bool {
        let locals = self.takes(f).len() + self.signatures[f.locals as usize].len();
        let structs = self.structs.len();
        f.acquires.iter().all(|&index| (index as usize) < structs) && f.code.iter().all(|op| match *op {
            Op::CopyLoc(l) | Op::MoveLoc(l) | Op::StLoc(l) | Op::BorrowLoc(_, l) => (l as usize) < locals,
            Op::Branch(target) | Op::BranchIf(target) => (target as usize) < f.code.len(),
            Op::BorrowField(_, index) => (index as usize) < self.field_handles.len(),
            Op::Pack(s) | Op::Unpack(s) | Op::Exists(s) | Op::BorrowGlobal(_, s) | Op::MoveFrom(s) | Op::MoveTo(s) => {
                (s as usize) < structs
            }
            _ => true,
        })
    }
    fn are_definitions_right(&self) -> bool {
        let own = |module: u16| module == self.own;
        distinct(self.module_handles.iter()) && distinct(self.signatures.iter()) && distinct(self.constants.iter())
            && distinct(self.names.iter()) && distinct(self.addresses.iter()) && distinct(self.field_handles.iter())
            && distinct(self.struct_handles.iter().map(|handle| (handle.module, handle.name)))
            && distinct(self.function_handles.iter().map(|handle| (handle.module, handle.name)))
            && distinct(self.structs.iter().map(|s| s.handle)) && distinct(self.functions.iter().map(|f| f.handle))
            && self.structs.iter().all(|s| own(self.struct_handles[s.handle as usize].module))
            && self.functions.iter().all(|f| own(self.function_handles[f.handle as usize].module))
            && self.struct_handles.iter().filter(|handle| own(handle.module)).count() == self.structs.len()
            && self.function_handles.iter().filter(|handle| own(handle.module)).count() == self.functions.len()
            && self.structs.iter().all(|s| !s.fields.is_empty() && distinct(s.fields.iter().map(|field| field.0)))
    }
    /// For each struct how deep it nests and how many leaves it has, or nothing where one contains itself.
    fn sizes(&self) -> Option<Vec<(u32, u64)>> {
        let by_handle: HashMap<u16, usize> = self.structs.iter().enumerate().map(|(index, s)| (s.handle, index)).collect();
        let mut found: Vec<Option<(u32, u64)>> = vec![None; self.structs.len()];
        for _ in 0..=self.structs.len() {
            let mut changed = false;
            for (index, s) in self.structs.iter().enumerate().filter(|(index, _)| found[*index].is_none()).collect::<Vec<_>>() {
                let sizes: Option<Vec<_>> = s.fields.iter().map(|(_, kind)| match kind.base {
                    Base::Struct(handle) => by_handle.get(&handle).map_or(Some((0, 1)), |&of| found[of]),
                    _ => Some((0, 1)),
                }).collect();
                if let Some(sizes) = sizes {
                    let leaves = sizes.iter().fold(0u64, |sum, size| sum.saturating_add(size.1));
                    found[index] = Some((1 + sizes.iter().map(|size| size.0).max().unwrap_or(0), leaves));
                    changed = true;
                }
            }
            if !changed {
                break;
            }
        }
        found.into_iter().collect()
    }
    fn are_signatures_right(&self) -> bool {
        self.structs.iter().flat_map(|s| &s.fields).all(|(_, kind)| kind.reference.is_none() && kind.base != Base::Signer)
            && self.function_handles.iter().all(|handle| {
                self.signatures[handle.takes as usize].len() <= 16 && self.signatures[handle.gives as usize].len() <= 8
            })
            && self.constants.iter().all(|(kind, bytes)| {
                kind.reference.is_none() && kind.base.is_leaf() && bytes.len() == kind.base.bytes()
                    && (kind.base != Base::Bool || bytes[0] < 2)
            })
            && self.functions.iter().all(|f| {
                let takes = self.takes(f);
                let is_leaf = |kind: &Type| kind.reference.is_none() && kind.base.is_leaf();
                let leaves = &takes[usize::from(takes.first() == Some(&plain(Base::Signer)))..];
                takes.len() + self.signatures[f.locals as usize].len() <= 64
                    && (!f.entry || self.gives(f).is_empty() && leaves.iter().all(is_leaf))
            })
    }
    fn are_abilities_right(&self) -> bool {
        self.structs.iter().all(|s| {
            let has = self.struct_handles[s.handle as usize].abilities;
            let asked = has & (COPY | DROP | STORE) | if has & KEY != 0 { STORE } else { 0 };
            s.fields.iter().all(|(_, kind)| self.abilities(*kind) & asked == asked)
        })
    }
    fn are_acquires_right(&self, f: &Function) -> bool {
        let reached: BTreeSet<u16> = f.code.iter().filter_map(|op| match *op {
            Op::MoveFrom(index) | Op::BorrowGlobal(_, index) => Some(index),
            _ => None,
        }).collect();
        let stated: BTreeSet<u16> = f.acquires.iter().copied().collect();
        stated.len() == f.acquires.len() && stated == reached && stated.iter().all(|&index| self.has_key(index))
    }
}

// Blocks, and what is known where they begin.

/// The instructions from `first` up to `end`, where control goes on after them, and whether it comes here at all.
struct Block { first: usize, end: usize, next: Vec<usize>, is_reached: bool }

/// The blocks of a function, whose last instruction doesn't go on behind it.
fn blocks(code: &[Op]) -> Vec<Block> {
    let mut starts = vec![0];
    for (at, op) in code.iter().enumerate() {
        match *op {
            Op::Branch(target) | Op::BranchIf(target) => starts.extend([target as usize, at + 1]),
            Op::Ret | Op::Abort => starts.push(at + 1),
            _ => {}
        }
    }
    starts.sort();
    starts.dedup();
    let block_at = |at: usize| starts.binary_search(&at).unwrap();
    let mut blocks: Vec<_> = starts.windows(2).map(|two| {
        let (first, end) = (two[0], two[1]);
        let mut next = match code[end - 1] {
            Op::Branch(target) => vec![block_at(target as usize)],
            Op::BranchIf(target) => vec![block_at(target as usize), block_at(end)],
            Op::Ret | Op::Abort => Vec::new(),
            _ => vec![block_at(end)],
        };
        next.dedup();
        Block { first, end, next, is_reached: false }
    }).collect();
    let mut found = vec![0];
    while let Some(at) = found.pop() {
        if !blocks[at].is_reached {
            blocks[at].is_reached = true;
            found.extend(&blocks[at].next);
        }
    }
    blocks
}

#[derive(Clone, Copy, PartialEq, Eq)]
enum Held { Nothing, Value, Maybe }

#[derive(Clone, Copy, PartialEq, Eq, PartialOrd, Ord)]
enum Node { Slot(u16), Own(u16), Global(u16), Temp(u16) }

/// An edge, of which no label is open.
#[derive(Clone, PartialEq, Eq, PartialOrd, Ord)]
struct Edge { from: Node, to: Node, label: Vec<u8> }

/// What each local holds, and the edges, which ascend where a block begins.
#[derive(Clone, Default)]
struct State { held: Vec<Held>, edges: Vec<Edge> }

impl State {
    fn at_start(takes: usize, locals: usize) -> State {
        let held = (0..locals).map(|l| if l < takes { Held::Value } else { Held::Nothing }).collect();
        State { held, edges: Vec::new() }
    }
    fn is_held_below(&self, other: &State) -> bool {
        self.held.iter().zip(&other.held).all(|(&held, &other)| held == other || other == Held::Maybe)
    }
    fn are_edges_below(&self, other: &State) -> bool {
        let mut others = other.edges.iter();
        self.edges.iter().all(|edge| others.any(|other| other == edge))
    }
    /// Adds what another state has, and answers whether it was more.
    fn join(&mut self, other: &State) -> bool {
        let is_held_below = other.is_held_below(self);
        for (held, &other) in self.held.iter_mut().zip(&other.held) {
            *held = if *held == other { other } else { Held::Maybe };
        }
        let are_edges_below = other.are_edges_below(self);
        if !are_edges_below {
            self.edges = union(&self.edges, &other.edges);
        }
        !is_held_below || !are_edges_below
    }
    /// Whether it may be stated.
    fn is_small(&self) -> bool { self.edges.len() <= 1_024 && self.edges.iter().all(|edge| edge.label.len() <= 8) }

    fn read(r: &mut Reader, m: &Module, locals: &[Type]) -> Try<State> {
        let held = locals.iter().map(|_| match r.byte()? {
            0 => Ok(Held::Nothing), 1 => Ok(Held::Value), 2 => Ok(Held::Maybe), _ => Err(Phase(9)),
        }).collect::<Try<_>>()?;
        let edges = (0..r.number(1_024)?).map(|_| Edge::read(r, m, locals)).collect::<Try<Vec<_>>>()?;
        need(edges.windows(2).all(|two| two[0] < two[1]), 9)?;
        Ok(State { held, edges })
    }
    fn write(&self, out: &mut Vec<u8>) {
        out.extend(self.held.iter().map(|&held| held as u8));
        write_number(self.edges.len(), out);
        for Edge { from, to, label } in &self.edges {
            from.write(out);
            to.write(out);
            write_number(label.len(), out);
            out.extend(label);
            out.push(0);
        }
    }
}

/// The edges of both, which ascend.
fn union(left: &[Edge], right: &[Edge]) -> Vec<Edge> {
    let mut both = Vec::with_capacity(left.len() + right.len());
    let (mut left, mut right) = (left.iter().peekable(), right.iter().peekable());
    while let (Some(one), Some(other)) = (left.peek(), right.peek()) {
        match one.cmp(other) {
            Ordering::Less => both.extend(left.next().cloned()),
            Ordering::Greater => both.extend(right.next().cloned()),
            Ordering::Equal => {
                both.extend(left.next().cloned());
                right.next();
            }
        }
    }
    both.extend(left.chain(right).cloned());
    both
}

impl Edge {
    fn read(r: &mut Reader, m: &Module, locals: &[Type]) -> Try<Edge> {
        let (from, to) = (Node::read(r)?, Node::read(r)?);
        let reference = |l: u16| locals.get(l as usize).map(|kind| kind.reference);
        let begins = match from {
            Node::Slot(l) => reference(l) == Some(Some(true)),
            Node::Own(l) => reference(l) == Some(None),
            Node::Global(index) => (index as usize) < m.structs.len(),
            Node::Temp(_) => false,
        };
        need(begins && from != to && matches!(to, Node::Slot(l) if reference(l).flatten().is_some()), 9)?;
        let count = r.number(8)? as usize;
        let label = r.take(count)?.to_vec();
        need(label.iter().all(|&at| at < 32), 9)?;
        match r.byte()? { 0 => Ok(Edge { from, to, label }), 1 => Err(Cannot("an open label")), _ => Err(Phase(9)) }
    }
}

impl Node {
    fn read(r: &mut Reader) -> Try<Node> {
        Ok(match r.byte()? {
            0 => Node::Slot(r.index()?), 1 => Node::Own(r.index()?), 2 => Node::Global(r.index()?), _ => return Err(Phase(9)),
        })
    }
    fn write(self, out: &mut Vec<u8>) {
        let (kind, index) = match self {
            Node::Slot(l) => (0, l), Node::Own(l) => (1, l), Node::Global(index) => (2, index), Node::Temp(_) => unreachable!(),
        };
        out.push(kind);
        write_number(index as usize, out);
    }
}

fn write_number(mut n: usize, out: &mut Vec<u8>) {
    while n > 127 {
        out.push(n as u8 | 128);
        n >>= 7;
    }
    out.push(n as u8);
}

// Phases 8, 10 and 11 of a block in one pass. There are no calls, so no label is open.

struct Pass<'a> { m: &'a Module, f: &'a Function, locals: Vec<Type>, state: State, stack: Vec<Type>, worst: Option<u8> }

impl Pass<'_> {
    /// Notes that a phase behind the 8th fails; the least of them is answered.
    fn ask(&mut self, holds: bool, phase: u8) {
        if !holds {
            self.worst = Some(self.worst.map_or(phase, |worst| worst.min(phase)));
        }
    }
    fn push(&mut self, kind: Type) -> Try<()> {
        self.stack.push(kind);
        need(self.stack.len() <= 128, 8)
    }
    fn pop(&mut self) -> Try<Type> { self.stack.pop().ok_or(Phase(8)) }
    fn expect(&mut self, kind: Type) -> Try<()> { need(self.pop()? == kind, 8) }
    fn has(&self, kind: Type, ability: u8) -> bool { self.m.abilities(kind) & ability != 0 }
    fn is_mutable(&self, node: Node) -> bool {
        let kind = match node {
            Node::Slot(l) => self.locals[l as usize],
            Node::Temp(place) => self.stack[place as usize],
            Node::Own(_) | Node::Global(_) => return false,
        };
        kind.reference == Some(true)
    }
    /// Whether an edge leads from a node; where it is asked for readers alone, one to a mutable node.
    fn none_from(&self, from: Node, readers: bool, field: Option<u8>) -> bool {
        !self.state.edges.iter().any(|edge| {
            let agrees = field.is_none() || edge.label.is_empty() || edge.label.first() == field.as_ref();
            edge.from == from && agrees && (!readers || self.is_mutable(edge.to))
        })
    }
    fn release(&mut self, node: Node) { self.state.edges.retain(|edge| edge.from != node && edge.to != node); }
    fn rename(&mut self, node: Node, other: Node) {
        for edge in &mut self.state.edges {
            edge.from = if edge.from == node { other } else { edge.from };
            edge.to = if edge.to == node { other } else { edge.to };
        }
    }
    /// The operand that is so far below the next one.
    fn temp(&self, below: usize) -> Node { Node::Temp((self.stack.len() - below) as u16) }
    fn borrow(&mut self, from: Node, mutable: bool, base: Base) -> Try<()> {
        let free = self.none_from(from, !mutable, None);
        self.ask(free, 11);
        self.state.edges.push(Edge { from, to: self.temp(0), label: Vec::new() });
        self.push(refer(mutable, base))
    }
    /// Takes the topmost operand; of a reference the edges go, none of which leads to what is asked.
    fn release_top(&mut self, readers: Option<bool>) -> Try<Type> {
        let kind = *self.stack.last().ok_or(Phase(8))?;
        let node = self.temp(1);
        if kind.reference.is_some() {
            let free = readers.is_none_or(|readers| self.none_from(node, readers, None));
            self.ask(free, 11);
            self.release(node);
        }
        self.pop()
    }

    fn local(&mut self, op: Op, l: u16) -> Try<()> {
        let (kind, place, new) = (self.locals[l as usize], l as usize, self.temp(0));
        let node = if kind.reference.is_some() { Node::Slot(l) } else { Node::Own(l) };
        if !matches!(op, Op::StLoc(_)) {
            self.ask(self.state.held[place] == Held::Value, 10);
        }
        match op {
            Op::CopyLoc(_) => {
                need(self.has(kind, COPY), 8)?;
                let free = kind.reference == Some(false) || self.none_from(node, kind.reference.is_none(), None);
                self.ask(free, 11);
                let into = self.state.edges.iter().filter(|edge| edge.to == node);
                let copies: Vec<_> = into.map(|edge| Edge { from: edge.from, to: new, label: edge.label.clone() }).collect();
                self.state.edges.extend(copies);
                if kind.reference == Some(true) {
                    self.state.edges.push(Edge { from: node, to: new, label: Vec::new() });
                }
                self.push(kind)
            }
            Op::MoveLoc(_) => {
                self.state.held[place] = Held::Nothing;
                if kind.reference.is_some() {
                    self.rename(node, new);
                } else {
                    let free = self.none_from(node, false, None);
                    self.ask(free, 11);
                }
                self.push(kind)
            }
            Op::StLoc(_) => {
                self.expect(kind)?;
                let holds = self.state.held[place] == Held::Nothing || self.has(kind, DROP);
                self.ask(holds, 10);
                self.state.held[place] = Held::Value;
                if kind.reference.is_some() {
                    self.release(node);
                    self.rename(self.temp(0), node);
                } else {
                    let free = self.none_from(node, false, None);
                    self.ask(free, 11);
                }
                Ok(())
            }
            Op::BorrowLoc(mutable, _) => {
                need(kind.reference.is_none(), 8)?;
                self.borrow(node, mutable, kind.base)
            }
            _ => unreachable!(),
        }
    }

    fn field(&mut self, wanted: bool, index: u16) -> Try<()> {
        let kind = *self.stack.last().ok_or(Phase(8))?;
        let node = self.temp(1);
        let (of, at) = self.m.field_handles[index as usize];
        need(kind.base == self.m.base_of(of) && (kind.reference == Some(true) || kind.reference == Some(false) && !wanted), 8)?;
        let free = self.none_from(node, !wanted, Some(at as u8));
        self.ask(free, 11);
        self.state.edges.retain(|edge| edge.from != node);
        for edge in self.state.edges.iter_mut().filter(|edge| edge.to == node) {
            edge.label.push(at as u8);
        }
        self.pop()?;
        self.push(refer(wanted, self.m.fields(of)[at as usize].1.base))
    }
    fn reference(&mut self, op: Op) -> Try<()> {
        let kind = *self.stack.last().ok_or(Phase(8))?;
        let (mutable, value) = (kind.reference.ok_or(Phase(8))?, plain(kind.base));
        match op {
            Op::ReadRef => {
                need(self.has(value, COPY), 8)?;
                self.release_top(Some(true))?;
                self.push(value)
            }
            Op::WriteRef => {
                need(mutable && self.has(value, DROP), 8)?;
                self.release_top(Some(false))?;
                self.expect(value)
            }
            _ => {
                need(mutable, 8)?;
                let node = self.temp(1);
                let free = self.none_from(node, true, None);
                self.ask(free, 11);
                self.state.edges.retain(|edge| edge.from != node);
                self.pop()?;
                self.push(refer(false, kind.base))
            }
        }
    }

    fn ret(&mut self) -> Try<()> {
        need(self.stack == self.m.gives(self.f), 8)?;
        let left = (0..self.locals.len()).all(|l| self.state.held[l] == Held::Nothing || self.has(self.locals[l], DROP));
        self.ask(left, 10);
        let free = self.state.edges.iter().all(|edge| match (edge.from, edge.to) {
            (from @ Node::Temp(_), Node::Temp(_)) => !self.is_mutable(from),
            (Node::Own(_) | Node::Global(_), Node::Temp(_)) => false,
            _ => true,
        });
        self.ask(free, 11);
        self.stack.clear();
        Ok(())
    }

    fn step(&mut self, op: Op) -> Try<()> {
        let (flag, address) = (plain(Base::Bool), plain(Base::Address));
        match op {
            Op::Nop | Op::Branch(_) => Ok(()),
            Op::BranchIf(_) => self.expect(flag),
            Op::Ret => self.ret(),
            Op::Abort => self.expect(plain(Base::U64)),
            Op::Pop => {
                let kind = self.release_top(None)?;
                need(self.has(kind, DROP), 8)
            }
            Op::Load(base, _) => self.push(plain(base)),
            Op::Add | Op::Sub => {
                let kind = self.pop()?;
                need(kind.reference.is_none() && kind.base.is_number(), 8)?;
                self.expect(kind)?;
                self.push(kind)
            }
            Op::CopyLoc(l) | Op::MoveLoc(l) | Op::StLoc(l) | Op::BorrowLoc(_, l) => self.local(op, l),
            Op::ReadRef | Op::WriteRef | Op::FreezeRef => self.reference(op),
            Op::BorrowField(mutable, index) => self.field(mutable, index),
            Op::Pack(index) => {
                for &(_, kind) in self.m.fields(index).iter().rev() {
                    self.expect(kind)?;
                }
                self.push(plain(self.m.base_of(index)))
            }
            Op::Unpack(index) => {
                self.expect(plain(self.m.base_of(index)))?;
                self.m.fields(index).iter().try_for_each(|&(_, kind)| self.push(kind))
            }
            Op::Exists(index) => {
                need(self.m.has_key(index), 8)?;
                self.expect(address)?;
                self.push(flag)
            }
            Op::BorrowGlobal(mutable, index) => {
                need(self.m.has_key(index), 8)?;
                self.expect(address)?;
                self.borrow(Node::Global(index), mutable, self.m.base_of(index))
            }
            Op::MoveFrom(index) => {
                need(self.m.has_key(index), 8)?;
                self.expect(address)?;
                let free = self.none_from(Node::Global(index), false, None);
                self.ask(free, 11);
                self.push(plain(self.m.base_of(index)))
            }
            Op::MoveTo(index) => {
                need(self.m.has_key(index), 8)?;
                self.expect(plain(self.m.base_of(index)))?;
                need(self.release_top(None)? == refer(false, Base::Signer), 8)
            }
        }
    }
}

// Certificates.

/// What is stated of each block, or nothing of one that isn't reached.
type Stated = Vec<Option<State>>;

impl<'a> Pass<'a> {
    fn new(m: &'a Module, f: &'a Function, worst: Option<u8>) -> Pass<'a> {
        Pass { m, f, locals: m.locals(f), state: State::default(), stack: Vec::new(), worst }
    }
    fn start(&self) -> State { State::at_start(self.m.takes(self.f).len(), self.locals.len()) }
    /// Carries a state through a block.
    fn block(&mut self, block: &Block, state: State) -> Try<State> {
        self.state = state;
        for op in &self.f.code[block.first..block.end] {
            self.step(*op)?;
        }
        need(self.stack.is_empty(), 8)?;
        self.state.edges.sort();
        Ok(std::mem::take(&mut self.state))
    }
    /// Phase 8 alone of some blocks.
    fn types<'b>(&mut self, blocks: impl Iterator<Item = &'b Block>) -> Try<()> {
        let worst = self.worst;
        for block in blocks {
            self.block(block, self.start())?;
        }
        self.worst = worst;
        Ok(())
    }
    fn flows_into(&mut self, state: &State, stated: &Option<State>) {
        let stated = stated.as_ref().unwrap();
        self.ask(state.is_held_below(stated), 10);
        self.ask(state.are_edges_below(stated), 11);
    }
    /// Whether the stated states are a closed flow.
    fn check(&mut self, blocks: &[Block], stated: &Stated) -> Try<()> {
        self.types(blocks.iter().filter(|block| !block.is_reached))?;
        self.flows_into(&self.start(), &stated[0]);
        for (block, state) in blocks.iter().zip(stated) {
            let Some(state) = state else { continue };
            let out = self.block(block, state.clone())?;
            for &next in &block.next {
                self.flows_into(&out, &stated[next]);
            }
        }
        Ok(())
    }
    /// The least states that are a closed flow.
    fn search(&mut self, blocks: &[Block]) -> Try<Stated> {
        self.types(blocks.iter().filter(|block| !block.is_reached))?;
        let mut stated: Stated = vec![None; blocks.len()];
        stated[0] = Some(self.start());
        let (mut waiting, mut visits) = (BTreeSet::from([0]), vec![0; blocks.len()]);
        while let Some(at) = waiting.pop_first() {
            visits[at] += 1;
            let state = stated[at].clone().unwrap();
            if visits[at] > 256 || !state.is_small() {
                return Err(Cannot("a function that is too complex"));
            }
            let out = self.block(&blocks[at], state)?;
            for &next in &blocks[at].next {
                let rises = match &mut stated[next] {
                    Some(state) => state.join(&out),
                    none => none.replace(out.clone()).is_none(),
                };
                if rises {
                    waiting.insert(next);
                }
            }
        }
        Ok(stated)
    }
}

/// Phases 3 to 7, and the sizes of the structs.
fn check_tables(m: &Module) -> Try<Vec<(u32, u64)>> {
    need(m.in_bounds(), 3)?;
    need(m.are_definitions_right(), 4)?;
    let sizes = m.sizes().ok_or(Phase(4))?;
    need(m.are_signatures_right(), 5)?;
    need(m.are_abilities_right(), 6)?;
    for f in &m.functions {
        need(matches!(f.code.last(), Some(Op::Ret | Op::Abort | Op::Branch(_))), 7)?;
    }
    Ok(sizes)
}

/// What is left of phases 9 to 12.
fn end(m: &Module, worst: Option<u8>) -> Try<()> {
    worst.map_or(Ok(()), |phase| Err(Phase(phase)))?;
    need(m.functions.iter().all(|f| m.are_acquires_right(f)), 12)?;
    if m.module_handles.len() > 1 { Err(Cannot("a module that names another one")) } else { Ok(()) }
}

/// What a certificate states of the blocks of each function.
fn read(m: &Module, flows: &[Vec<Block>], certificate: &[u8]) -> Try<Vec<Stated>> {
    let mut r = Reader { bytes: certificate, phase: 9 };
    let mut all = Vec::new();
    for (f, blocks) in m.functions.iter().zip(flows) {
        let locals = m.locals(f);
        let stated = blocks.iter().map(|block| {
            need(r.byte()? == u8::from(block.is_reached), 9)?;
            if block.is_reached { State::read(&mut r, m, &locals).map(Some) } else { Ok(None) }
        });
        all.push(stated.collect::<Try<_>>()?);
    }
    r.end()?;
    Ok(all)
}

/// Phases 3 to 12, and the sizes of the structs.
pub fn verify(m: &Module, certificate: &[u8]) -> Try<Vec<(u32, u64)>> {
    let sizes = check_tables(m)?;
    let flows: Vec<_> = m.functions.iter().map(|f| blocks(&f.code)).collect();
    let stated = read(m, &flows, certificate);
    let mut worst = None;
    for (at, (f, blocks)) in m.functions.iter().zip(&flows).enumerate() {
        let mut pass = Pass::new(m, f, worst);
        match &stated {
            Ok(stated) => pass.check(blocks, &stated[at])?,
            Err(_) => pass.types(blocks.iter())?,
        }
        worst = pass.worst;
    }
    stated?;
    end(m, worst)?;
    Ok(sizes)
}

/// The certificate of the least states that hold.
pub fn prove(m: &Module) -> Try<Vec<u8>> {
    check_tables(m)?;
    let (mut worst, mut certificate) = (None, Vec::new());
    for f in &m.functions {
        let mut pass = Pass::new(m, f, worst);
        for state in pass.search(&blocks(&f.code))? {
            certificate.push(u8::from(state.is_some()));
            if let Some(state) = state {
                state.write(&mut certificate);
            }
        }
        worst = pass.worst;
    }
    end(m, worst)?;
    Ok(certificate)
}
