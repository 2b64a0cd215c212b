//! The scripts of crates/call_tests, run on the checker: it must write what the port writes. What the checker has no part for
//! (`apply`, `replay`, `read` and `write`) is passed over, with what follows up to the next `fresh`.

use std::fmt::Write;
use std::fs::read_to_string;

use checker::{Call, CallAnswer, LentNames, LentStore, Mode, NAME_BYTES, Refusal, WORDS_PER_NODE, call, fnv_1a, sound};

const FOLDER: &str = concat!(env!("CARGO_MANIFEST_DIR"), "/../../crates/call_tests");
const WORDS: usize = 196_608;
const SLOTS: usize = 16_384;
const BYTES: usize = 4_096;
const ENTRY_BYTES: usize = NAME_BYTES + 1;

/// The memory of a script, how much of it is lent, and the counts that are handed on.
#[derive(Clone, PartialEq)]
struct Memory {
    words: Vec<u64>,
    slots: Vec<u32>,
    bytes: Vec<u8>,
    lent: [usize; 3],
    counts: [u64; 3],
    turns: u64,
    is_known: bool,
}

/// A number at a turn: `5`, `x5`, `5+3` or `5+3%64`.
fn number(word: &str, turn: u64) -> u64 {
    let plain = |text: &str| match text.strip_prefix('x') {
        Some(digits) => u64::from_str_radix(digits, 16).unwrap(),
        None => text.parse().unwrap(),
    };
    let Some((start, rest)) = word.split_once('+') else { return plain(word) };
    match rest.split_once('%') {
        Some((step, modulus)) => plain(start).wrapping_add(plain(step) * turn) % plain(modulus),
        None => plain(start).wrapping_add(plain(rest) * turn),
    }
}

fn operator(operator: u64, flags: u8, operands: &[u32]) -> Call {
    Call::Operator { operator, flags, operands: operands.to_vec() }
}

fn simplify(mode: Mode, given: &[u64]) -> Call {
    Call::Simplify { mode, root: given[0] as u32, depth_limit: given[1], budget: given[2] as u32 }
}

/// The call of a command, but for those on names.
fn call_of(command: &str, given: &[u64]) -> Option<Call> {
    let ids: Vec<u32> = given.iter().map(|&id| id as u32).collect();
    Some(match command {
        "variable" => Call::Variable { symbol: ids[0] },
        "constant" => Call::Constant { bits: given[0] },
        "add" => operator(0, 3, &ids),
        "sub" => operator(1, 0, &ids),
        "mul" => operator(2, 3, &ids),
        "div" => operator(3, 0, &ids),
        "pow" => operator(4, 0, &ids),
        "modulo" => operator(5, 0, &ids),
        "neg" => operator(6, 0, &ids),
        "operator" => operator(given[0], given[1] as u8, &ids[2..]),
        "function" => Call::Function { number: ids[0], operands: ids[1..].to_vec() },
        "select" => Call::Control { control: 0, operands: ids },
        "if_else" => Call::Control { control: 1, operands: ids },
        "for_loop" => Call::Control { control: 2, operands: ids },
        "control" => Call::Control { control: given[0], operands: ids[1..].to_vec() },
        "simplify" => simplify(Mode::Standard, given),
        "simplify_strictly" => simplify(Mode::Strict, given),
        "prune" => Call::Prune { root: ids[0], threshold: f64::from_bits(given[1]) },
        "prune_by_setting" => Call::PruneBySetting { root: ids[0], setting: given[1] },
        _ => return None,
    })
}

fn shown(answer: Result<CallAnswer, Refusal>) -> String {
    match answer {
        Ok(CallAnswer::Built { id }) => format!(" {id}"),
        Ok(CallAnswer::Walked(walked)) => {
            format!("{} {} in steps {}", if walked.spent { " spent" } else { "" }, walked.id, walked.steps)
        }
        Ok(CallAnswer::Pruned(pruned)) => {
            format!(" {} kept {} dropped {}", pruned.id, pruned.kept, pruned.dropped)
        }
        Err(refusal) => format!(" refused {}", refusal.number()),
    }
}

impl Memory {
    fn new() -> Memory {
        Memory {
            words: vec![0; WORDS],
            slots: vec![0; SLOTS],
            bytes: vec![0; BYTES],
            lent: [0; 3],
            counts: [0; 3],
            turns: 1,
            is_known: true,
        }
    }

    fn store(&self) -> LentStore {
        LentStore {
            words: self.words[..self.lent[0]].to_vec(),
            slots: self.slots[..self.lent[1]].to_vec(),
            node_count: self.counts[0],
            table_size: self.counts[1],
        }
    }

    fn take_back(&mut self, store: &LentStore) {
        self.words[..store.words.len()].copy_from_slice(&store.words);
        self.slots[..store.slots.len()].copy_from_slice(&store.slots);
        self.counts[..2].copy_from_slice(&[store.node_count, store.table_size]);
    }

    fn names(&self) -> LentNames {
        let entries = self.bytes[..self.lent[2]].chunks_exact(ENTRY_BYTES).map(|entry| entry.try_into().unwrap());
        LentNames { entries: entries.collect(), count: self.counts[2] }
    }

    fn name_call(&mut self, command: &str, text: &str) -> String {
        let mut names = self.names();
        let intern = |names: &mut LentNames| names.intern(text.as_bytes());
        let answer = match command {
            "intern" => intern(&mut names).map(|number| number.to_string()),
            "lookup" => match intern(&mut names.clone()) {
                Ok(number) if u64::from(number) < names.count => Ok(number.to_string()),
                Ok(_) | Err(Refusal::NoNamePlace) => Ok("unknown".to_string()),
                Err(refusal) => Err(refusal),
            },
            _ if !names.sound() => Err(Refusal::NotSound),
            _ => Ok(match names.entries[..names.count as usize].get(number(text, 0) as usize) {
                Some(entry) => String::from_utf8(entry[1..][..usize::from(entry[0])].to_vec()).unwrap(),
                None => "unknown".to_string(),
            }),
        };
        for (bytes, entry) in self.bytes.chunks_exact_mut(ENTRY_BYTES).zip(&names.entries) {
            bytes.copy_from_slice(entry);
        }
        self.counts[2] = names.count;
        answer.map_or_else(|refusal| format!(" refused {}", refusal.number()), |text| format!(" {text}"))
    }

    /// A call, as often as asked for, with the counts after it and whether the memory is as it was.
    fn call(&mut self, command: &str, rest: &str) -> String {
        let before = self.clone();
        let mut answer = String::new();
        for turn in 0..self.turns {
            answer = if ["intern", "lookup", "name_of"].contains(&command) {
                self.name_call(command, rest)
            } else {
                let given: Vec<u64> = rest.split_whitespace().map(|word| number(word, turn)).collect();
                let mut store = self.store();
                let answer = call(&mut store, &call_of(command, &given).unwrap());
                self.take_back(&store);
                shown(answer)
            };
        }
        self.turns = 1;
        let [nodes, slots, names] = self.counts;
        write!(answer, "; nodes {nodes} slots {slots} names {names}").unwrap();
        if (&self.words, &self.slots, &self.bytes) == (&before.words, &before.slots, &before.bytes) {
            answer += " unchanged";
        }
        answer
    }

    fn fresh(&mut self) -> String {
        self.is_known = true;
        let store = self.store();
        self.counts = [0; 3];
        match LentStore::fresh(store.words, store.slots) {
            Ok(store) => {
                self.take_back(&store);
                format!(" slots {}", store.table_size)
            }
            Err(refusal) => format!(" refused {}", refusal.number()),
        }
    }

    fn list(&self, from: u64, end: u64) -> String {
        let store = self.store();
        let end = if end == 0 { store.node_count } else { end };
        let mut text = String::new();
        for id in from..end {
            write!(text, "\n    {id}").unwrap();
            if !sound(&store) {
                text += " refused 20";
            } else if store.node_count <= id {
                text += " refused 4";
            } else {
                let w = store.node_words(id as usize);
                let children: String = w[6..][..w[5] as usize].iter().map(|child| format!(" {child}")).collect();
                write!(text, " {} {:016x} {} {}:{children}", w[0], w[1], w[4], w[5]).unwrap();
            }
        }
        text
    }

    /// The hash words of the first nodes, by their other words.
    fn rehash(&mut self, count: usize) {
        for words in self.words.chunks_exact_mut(WORDS_PER_NODE).take(count) {
            let children = &words[6..6 + (words[5] as usize).min(WORDS_PER_NODE - 6)];
            let mut bytes = vec![words[0] as u8];
            bytes.extend(words[1].to_be_bytes());
            bytes.extend(children.iter().flat_map(|&child| (child as u32).to_be_bytes()));
            words[2] = fnv_1a(bytes);
        }
    }

    /// A table with the slots of the first nodes, by the hashes in their words.
    fn refill(&mut self, size: usize, count: usize) {
        self.slots[..self.lent[1]].fill(0);
        if self.lent[1] < size {
            return;
        }
        for id in 0..count {
            let mut place = (self.words[id * WORDS_PER_NODE + 2] % size as u64) as usize;
            while self.slots[place] != 0 {
                place = (place + 1) % size;
            }
            self.slots[place] = id as u32 + 1;
        }
    }

    fn fill(&mut self, value: u64) {
        let [words, slots, bytes] = self.lent;
        self.words[..words].fill(value);
        self.slots[..slots].fill(value as u32);
        self.bytes[..bytes].fill(value as u8);
    }

    /// What a command writes behind itself.
    fn command(&mut self, command: &str, rest: &str) -> String {
        let numbers = || -> [u64; 3] {
            let mut given = rest.split_whitespace().map(|word| number(word, 0)).chain([0; 3]);
            std::array::from_fn(|_| given.next().unwrap())
        };
        let places = || numbers().map(|n| n as usize);
        match command {
            "fresh" => return self.fresh(),
            "list" => return self.list(numbers()[0], numbers()[1]),
            "word" => return format!(" {}", self.words[places()[0]]),
            "slot" => {
                let [from, end, _] = places();
                return self.slots[from..end.max(from + 1)].iter().map(|slot| format!(" {slot}")).collect();
            }
            "repeat" => self.turns = numbers()[0],
            "lend" => self.lent = places(),
            "counts" => self.counts = numbers(),
            "fill" => self.fill(numbers()[0]),
            "set_word" => self.words[places()[0]] = numbers()[1],
            "set_slot" => self.slots[places()[0]] = numbers()[1] as u32,
            "set_byte" => self.bytes[places()[0]] = numbers()[1] as u8,
            "rehash" => self.rehash(places()[0]),
            "refill" => self.refill(places()[0], places()[1]),
            "apply" | "replay" | "read" | "write" => self.is_known = false,
            _ => return self.call(command, rest),
        }
        String::new()
    }
}

#[test]
fn the_port_writes_what_the_checker_does() {
    let expected = read_to_string(format!("{FOLDER}/stdout")).unwrap();
    let mut expected = expected.lines().peekable();
    let (mut compared, mut passed) = (0, 0);
    for name in read_to_string(format!("{FOLDER}/args")).unwrap().lines() {
        let mut memory = Memory::new();
        for line in read_to_string(format!("{FOLDER}/data/{name}")).unwrap().lines() {
            let mut written = line.to_string();
            if let Some(text) = line.strip_prefix(' ') {
                let (command, rest) = text.split_once(' ').unwrap_or((text, ""));
                if memory.is_known || command == "fresh" || command == "lend" {
                    written = format!("{line} ->{}", memory.command(command, rest));
                }
            }
            let mut found = expected.next().unwrap().to_string();
            while expected.peek().is_some_and(|next| next.starts_with("    ")) {
                found = format!("{found}\n{}", expected.next().unwrap());
            }
            if memory.is_known {
                assert_eq!(written, found, "{name}");
                compared += 1;
            } else {
                assert!(found.starts_with(line), "{name}: {found}");
                passed += 1;
            }
        }
    }
    assert_eq!(expected.next(), None);
    println!("{compared} lines compared, {passed} passed over");
}
