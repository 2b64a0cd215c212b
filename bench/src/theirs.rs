//! The Rust original, as a module for each of its copies: unchanged, over 01's hash, without the walk's clock read, and with
//! counters.

macro_rules! original {
    ($module:ident, $library:ident) => {
        /// Each copy is asked for a part of this only.
        #[allow(dead_code)]
        pub mod $module {
            use std::time::Duration;

            use $library::dag::builder::DagBuilder;
            use $library::dag::metadata::NodeFlags;
            use $library::dag::node::DagNodeId;
            use $library::dag::symbol::{OpKind, SymbolKind};
            use $library::heuristic::engine::{self, HeuristicEngine};
            use $library::heuristic::knobs::HeuristicConfig;
            use $library::heuristic::simplifier;
            use $library::heuristic::strategy::SearchStrategy;

            use crate::inputs::{Formula, Request, variables};
            use crate::sheets::Rewriter;
            use crate::store::{Node, Store};
            use crate::timing::timed;

            const OPERATORS: [OpKind; 7] =
                [OpKind::Add, OpKind::Sub, OpKind::Mul, OpKind::Div, OpKind::Pow, OpKind::Mod, OpKind::Neg];
            const CONSTANT: u64 = 1;

            pub struct Theirs {
                builder: DagBuilder,
            }

            /// A request in the original's own types, made before the time is taken.
            pub enum Prepared {
                Constant(f64),
                Operator { kind: SymbolKind, children: [DagNodeId; 2], many: usize, flags: NodeFlags },
            }

            pub fn prepare(request: &Request) -> Prepared {
                if request.kind == CONSTANT {
                    return Prepared::Constant(f64::from_bits(request.payload));
                }
                let mut children = [DagNodeId::NONE; 2];
                for (place, &id) in request.operands().iter().enumerate() {
                    children[place] = DagNodeId::new(id);
                }
                Prepared::Operator {
                    kind: SymbolKind::Operator(OPERATORS[request.kind as usize - 2]),
                    children,
                    many: request.operands().len(),
                    flags: NodeFlags::from_bits(request.flags as u8),
                }
            }

            /// The time of all requests on a fresh store, and how many nodes it has then. The ids are left in the list.
            pub fn time_requests(requests: &[Prepared], ids: &mut Vec<u32>) -> (f64, usize) {
                let mut theirs = Theirs::new();
                variables(&mut theirs);
                ids.clear();
                let time = timed(|| ids.extend(requests.iter().map(|request| theirs.request(request)))).0;
                (time, theirs.nodes().len())
            }

            /// The time of a walk, whose root and answer are known.
            pub fn time_walk(formula: &impl Formula, root: u32, answer: u32) -> f64 {
                let (mut theirs, mut engine) = (Theirs::new(), Theirs::engine());
                assert_eq!(root, formula.build(&mut theirs));
                let (time, id) = timed(|| theirs.simplify(&mut engine, root));
                assert_eq!(id, answer);
                time
            }

            /// The time of a prune after so many earlier ones, whose root and answer are known.
            pub fn time_prune(chain: &impl Formula, threshold: f64, earlier: usize, root: u32, answer: u32) -> f64 {
                let mut theirs = Theirs::new();
                assert_eq!(root, chain.build(&mut theirs));
                (0..earlier).for_each(|_| assert_eq!(theirs.prune(root, threshold), answer));
                let (time, id) = timed(|| theirs.prune(root, threshold));
                assert_eq!(id, answer);
                time
            }

            impl Theirs {
                pub fn new() -> Self {
                    Self { builder: DagBuilder::new() }
                }

                #[inline]
                pub fn request(&mut self, prepared: &Prepared) -> u32 {
                    match prepared {
                        Prepared::Constant(value) => self.builder.constant(*value).value(),
                        Prepared::Operator { kind, children, many, flags } => {
                            self.builder.operator(*kind, &children[..*many], *flags).value()
                        }
                    }
                }

                /// An engine for one walk: an empty rule registry, and a timeout that never runs out.
                pub fn engine() -> HeuristicEngine {
                    let mut engine = HeuristicEngine::new(HeuristicConfig::new().timeout(Duration::MAX), SearchStrategy);
                    engine.config.max_depth = 255;
                    engine
                }

                pub fn simplify(&mut self, engine: &mut HeuristicEngine, root: u32) -> u32 {
                    engine::access::rewrite(engine, &mut self.builder, DagNodeId::new(root)).value()
                }

                pub fn prune(&mut self, root: u32, threshold: f64) -> u32 {
                    simplifier::access::prune(&mut self.builder, DagNodeId::new(root), threshold).value()
                }
            }

            impl Rewriter for Theirs {
                fn simplify(&mut self, root: u32) -> u32 {
                    self.simplify(&mut Self::engine(), root)
                }

                fn prune(&mut self, root: u32, threshold: f64) -> u32 {
                    self.prune(root, threshold)
                }
            }

            impl Store for Theirs {
                fn variable(&mut self, number: u32) -> u32 {
                    self.builder.variable(&number.to_string()).value()
                }

                fn constant(&mut self, value: f64) -> u32 {
                    self.builder.constant(value).value()
                }

                fn operator(&mut self, code: u8, flags: u8, operands: &[u32]) -> u32 {
                    let children: Vec<DagNodeId> = operands.iter().map(|&id| DagNodeId::new(id)).collect();
                    let kind = SymbolKind::Operator(OPERATORS[usize::from(code)]);
                    self.builder.operator(kind, &children, NodeFlags::from_bits(flags)).value()
                }

                fn nodes(&self) -> Vec<Node> {
                    let mut nodes = Vec::new();
                    self.builder.for_each_node(|_, node| {
                        let (kind, payload) = match node.kind {
                            SymbolKind::Variable(symbol) => {
                                let name = self.builder.registry().name(symbol).expect("a name");
                                (0, name.parse().expect("every name is a number"))
                            }
                            SymbolKind::Constant(value) => (1, value.to_bits()),
                            SymbolKind::Operator(operator) => (2 + operator as u8, 0),
                            _ => unreachable!("the inputs have no functions or controls"),
                        };
                        let children = node.children.iter().map(|id| id.value()).collect();
                        nodes.push(Node { kind, payload, flags: node.meta.flags.bits(), children });
                    });
                    nodes
                }
            }
        }
    };
}

original!(unchanged, original);
original!(with_hash, hashed);
original!(without_clock, clockless);
original!(with_counters, counted);
