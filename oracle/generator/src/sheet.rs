//! Writes sheets record by record (01, "sheets and the listing").

pub const ADD: u8 = 0;
pub const SUB: u8 = 1;
pub const MUL: u8 = 2;
pub const DIV: u8 = 3;
pub const POW: u8 = 4;
pub const MOD: u8 = 5;
pub const NEG: u8 = 6;

const SHEET_FIRST_BYTE: u8 = 1;
const SIMPLIFY: u8 = 6;
const SIMPLIFY_STRICTLY: u8 = 8;
/// Where the budget stands in the body of a simplify record.
const BUDGET_PLACE: usize = 4;

/// The bodies of the records so far.
#[derive(Clone, Default)]
pub struct Sheet {
    bodies: Vec<Vec<u8>>,
}

impl Sheet {
    /// The number of records, which is the next one's index.
    pub fn len(&self) -> usize {
        self.bodies.len()
    }

    pub fn bytes(&self) -> Vec<u8> {
        let mut bytes = vec![SHEET_FIRST_BYTE];
        for body in &self.bodies {
            bytes.extend((body.len() as u16).to_be_bytes());
            bytes.extend(body);
        }
        bytes
    }

    /// Adds a record with any body and answers its index.
    pub fn record(&mut self, body: Vec<u8>) -> u16 {
        self.bodies.push(body);
        (self.bodies.len() - 1) as u16
    }

    pub fn bodies_mut(&mut self) -> &mut Vec<Vec<u8>> {
        &mut self.bodies
    }

    fn record_with(&mut self, mut body: Vec<u8>, operands: &[u16]) -> u16 {
        for operand in operands {
            body.extend(operand.to_be_bytes());
        }
        self.record(body)
    }

    pub fn variable(&mut self, symbol: u32) -> u16 {
        let mut body = vec![1];
        body.extend(symbol.to_be_bytes());
        self.record(body)
    }

    pub fn constant_bits(&mut self, bits: u64) -> u16 {
        let mut body = vec![2];
        body.extend(bits.to_be_bytes());
        self.record(body)
    }

    pub fn constant(&mut self, number: f64) -> u16 {
        self.constant_bits(number.to_bits())
    }

    pub fn operator(&mut self, operator: u8, flags: u8, operands: &[u16]) -> u16 {
        self.record_with(vec![3, operator, flags], operands)
    }

    /// With the flags that the constructor of a two-operand node gives.
    pub fn constructed(&mut self, operator: u8, left: u16, right: u16) -> u16 {
        let flags = if matches!(operator, ADD | MUL) { 3 } else { 0 };
        self.operator(operator, flags, &[left, right])
    }

    pub fn function(&mut self, number: u32, operands: &[u16]) -> u16 {
        let mut body = vec![4];
        body.extend(number.to_be_bytes());
        self.record_with(body, operands)
    }

    pub fn control(&mut self, control: u8, operands: &[u16]) -> u16 {
        self.record_with(vec![5, control], operands)
    }

    pub fn simplify(&mut self, operand: u16, depth_limit: u8, budget: u32) -> u16 {
        let mut body = vec![SIMPLIFY];
        body.extend(operand.to_be_bytes());
        body.push(depth_limit);
        body.extend(budget.to_be_bytes());
        self.record(body)
    }

    pub fn prune(&mut self, operand: u16, threshold: f64) -> u16 {
        let mut body = vec![7];
        body.extend(operand.to_be_bytes());
        body.extend(threshold.to_bits().to_be_bytes());
        self.record(body)
    }

    /// Makes simplify records strict, as many as are picked, with budgets up to
    /// a bound: without marks a tower of shared nodes takes exponentially many
    /// steps.
    pub fn make_strict(&mut self, budget_maximum: u32, mut picked: impl FnMut() -> bool) {
        for body in &mut self.bodies {
            if body[0] == SIMPLIFY && picked() {
                body[0] = SIMPLIFY_STRICTLY;
                let budget = u32::from_be_bytes(body[BUDGET_PLACE..].try_into().expect("4 bytes"));
                body[BUDGET_PLACE..].copy_from_slice(&budget.min(budget_maximum).to_be_bytes());
            }
        }
    }

    /// Changes the budget of a simplify record.
    pub fn set_budget(&mut self, index: usize, budget: u32) {
        let body = &mut self.bodies[index];
        assert_eq!(body[0], SIMPLIFY);
        body[BUDGET_PLACE..].copy_from_slice(&budget.to_be_bytes());
    }
}
