//! The original as a judge: one engine with an empty rule registry and a
//! timeout that never runs out, and one builder.

use std::time::Duration;

use judge::{Counts, Judge, Node, Record};

use crate::counts;
use crate::dag::builder::DagBuilder;
use crate::dag::metadata::NodeFlags;
use crate::dag::node::{DagNode, DagNodeId};
use crate::dag::symbol::{CtrlKind, FnId, OpKind, SymbolKind};
use crate::heuristic::engine::{self, HeuristicEngine};
use crate::heuristic::knobs::HeuristicConfig;
use crate::heuristic::simplifier;
use crate::heuristic::strategy::SearchStrategy;

const OPERATORS: [OpKind; 7] =
    [OpKind::Add, OpKind::Sub, OpKind::Mul, OpKind::Div, OpKind::Pow, OpKind::Mod, OpKind::Neg];
/// The flags that the constructors of Add and Mul give.
const COMMUTATIVE_ASSOCIATIVE: u8 = 3;

/// The kind codes that 01 lists.
const VARIABLE_CODE: u8 = 0;
const CONSTANT_CODE: u8 = 1;
const FIRST_OPERATOR_CODE: u8 = 2;
const FUNCTION_CODE: u8 = 16;
const CONTROL_CODE: u8 = 32;

pub struct Machine {
    builder: DagBuilder,
    engine: HeuristicEngine,
}

impl Machine {
    pub fn new() -> Machine {
        let config = HeuristicConfig::new().timeout(Duration::MAX);
        Machine { builder: DagBuilder::new(), engine: HeuristicEngine::new(config, SearchStrategy) }
    }

    /// Builds with the operator's own constructor where it gives these flags.
    fn operator(&mut self, operator: OpKind, flags: u8, operands: &[DagNodeId]) -> DagNodeId {
        let builder = &mut self.builder;
        match (operator, flags, operands) {
            (OpKind::Add, COMMUTATIVE_ASSOCIATIVE, &[left, right]) => builder.add(left, right),
            (OpKind::Mul, COMMUTATIVE_ASSOCIATIVE, &[left, right]) => builder.mul(left, right),
            (OpKind::Sub, 0, &[left, right]) => builder.sub(left, right),
            (OpKind::Div, 0, &[left, right]) => builder.div(left, right),
            (OpKind::Pow, 0, &[left, right]) => builder.pow(left, right),
            (OpKind::Mod, 0, &[left, right]) => builder.modulo(left, right),
            (OpKind::Neg, 0, &[operand]) => builder.neg(operand),
            _ => builder.operator(SymbolKind::Operator(operator), operands, NodeFlags::from_bits(flags)),
        }
    }

    fn control(&mut self, control: u8, operands: &[DagNodeId]) -> DagNodeId {
        match (control, operands) {
            (0, &[condition, first, second]) => self.builder.select(condition, first, second),
            (1, &[condition, first, second]) => self.builder.if_else(condition, first, second),
            (2, &[start, limit, step, body]) => self.builder.for_loop(start, limit, step, body),
            _ => unreachable!("a control record inside the domain"),
        }
    }

    /// The number that the sheet gave, which is the whole name.
    fn payload(&self, kind: SymbolKind) -> u64 {
        let number = |name: Option<&str>| name.and_then(|name| name.parse().ok()).expect("every name is a number");
        match kind {
            SymbolKind::Variable(symbol) => number(self.builder.registry().name(symbol)),
            SymbolKind::Constant(value) => value.to_bits(),
            SymbolKind::Operator(_) => 0,
            SymbolKind::Function(function) => number(self.builder.function_name(function)),
            SymbolKind::ControlFlow(CtrlKind::Select) => 0,
            SymbolKind::ControlFlow(CtrlKind::IfElse) => 1,
            SymbolKind::ControlFlow(CtrlKind::ForLoop) => 2,
        }
    }

    fn node(&self, node: &DagNode) -> Node {
        Node {
            kind: kind_code(node.kind),
            payload: self.payload(node.kind),
            coefficient_bits: node.meta.coefficient.to_bits(),
            flags: node.meta.flags.bits(),
            children: node.children.iter().map(DagNodeId::value).collect(),
        }
    }
}

impl Judge for Machine {
    fn perform(&mut self, record: &Record) -> u32 {
        let id = match record {
            Record::Variable { symbol } => self.builder.variable(&symbol.to_string()),
            Record::Constant { bits } => self.builder.constant(f64::from_bits(*bits)),
            Record::Operator { operator, flags, operands } => {
                self.operator(OPERATORS[usize::from(*operator)], *flags, &ids(operands))
            }
            Record::Function { number, operands } => {
                let function: FnId = self.builder.intern_function(&number.to_string());
                self.builder.function_call(function, &ids(operands))
            }
            Record::Control { control, operands } => self.control(*control, &ids(operands)),
            Record::Simplify { root, depth_limit } => {
                self.engine.config.max_depth = usize::from(*depth_limit);
                engine::access::rewrite(&mut self.engine, &mut self.builder, DagNodeId::new(*root))
            }
            Record::Prune { root, threshold } => {
                simplifier::access::prune(&mut self.builder, DagNodeId::new(*root), *threshold)
            }
        };
        id.value()
    }

    fn take_counts(&mut self) -> Counts {
        counts::take()
    }

    fn nodes(&self) -> Vec<Node> {
        let mut nodes = Vec::with_capacity(self.builder.node_count());
        self.builder.for_each_node(|_, node| nodes.push(self.node(node)));
        nodes
    }
}

fn ids(operands: &[u32]) -> Vec<DagNodeId> {
    operands.iter().map(|&id| DagNodeId::new(id)).collect()
}

fn kind_code(kind: SymbolKind) -> u8 {
    match kind {
        SymbolKind::Variable(_) => VARIABLE_CODE,
        SymbolKind::Constant(_) => CONSTANT_CODE,
        SymbolKind::Operator(operator) => FIRST_OPERATOR_CODE + operator as u8,
        SymbolKind::Function(_) => FUNCTION_CODE,
        SymbolKind::ControlFlow(_) => CONTROL_CODE,
    }
}
