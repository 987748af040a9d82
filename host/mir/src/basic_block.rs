//! Stands for the crate's `basic_block.rs`: a block is its instructions and its terminator.

use std::ops::Range;

use crate::{BasicBlockId, Instruction, PrettyPrint, Terminator};

/// A basic block, with the fields and functions that the published files use.
#[derive(Debug, Clone, PartialEq, Eq)]
pub struct BasicBlock {
    pub name: Option<String>,
    pub instructions: Vec<Instruction>,
    pub terminator: Terminator,
    pub preds: Vec<BasicBlockId>,
    pub sealed: bool,
}

impl BasicBlock {
    pub const fn new() -> Self {
        Self {
            name: None,
            instructions: Vec::new(),
            terminator: Terminator::Unreachable,
            preds: Vec::new(),
            sealed: false,
        }
    }

    pub fn with_name(name: String) -> Self {
        Self { name: Some(name), ..Self::new() }
    }

    /// The leading phis ("`phi_range` is the leading phis").
    pub fn phi_range(&self) -> Range<usize> {
        let end = self.instructions.iter().position(|i| !i.is_phi());
        0..end.unwrap_or(self.instructions.len())
    }

    pub fn phi_instructions(&self) -> impl Iterator<Item = &Instruction> {
        self.instructions[self.phi_range()].iter()
    }

    pub fn non_phi_instructions(&self) -> impl Iterator<Item = &Instruction> {
        self.instructions[self.phi_range().end..].iter()
    }

    pub fn push_instruction(&mut self, instruction: Instruction) {
        self.instructions.push(instruction);
    }

    pub fn push_phi_front(&mut self, instruction: Instruction) {
        self.instructions.insert(0, instruction);
    }

    pub fn set_terminator(&mut self, terminator: Terminator) {
        self.terminator = terminator;
    }

    pub fn add_pred(&mut self, pred: BasicBlockId) {
        if !self.preds.contains(&pred) {
            self.preds.push(pred);
        }
    }

    pub fn remove_pred(&mut self, pred: BasicBlockId) {
        self.preds.retain(|p| *p != pred);
    }

    pub fn validate(&self) -> Result<(), String> {
        self.instructions.iter().try_for_each(Instruction::validate)?;
        self.terminator.validate()
    }
}

impl Default for BasicBlock {
    fn default() -> Self {
        Self::new()
    }
}

impl PrettyPrint for BasicBlock {
    fn pretty_print(&self, indent: usize) -> String {
        let lead = crate::indent_str(indent);
        let lines = self.instructions.iter().map(|i| i.pretty_print(0));
        let lines = lines.chain([self.terminator.pretty_print(0)]);
        lines.map(|line| format!("{lead}{line}\n")).collect()
    }
}
