//! Blocks and edges as Graphviz: a box for each block, a frame around each function.
use std::io::{self, Write};

use pitchsleet::{Block, Function, Unit};

use crate::listing;

pub fn write(out: &mut impl Write, unit: &Unit<'_, '_>) -> io::Result<()> {
    writeln!(out, "digraph {{")?;
    for thing in ["graph [", "node [shape=box, ", "edge ["] {
        writeln!(out, "  {thing}fontname=monospace];")?;
    }
    for (index, function) in unit.functions().enumerate() {
        writeln!(out, "  subgraph cluster_{index} {{")?;
        writeln!(out, "    label=\"{}\";", listing::header(unit, &function))?;
        blocks(out, unit, index, &function)?;
        writeln!(out, "  }}")?;
    }
    writeln!(out, "}}")
}

fn blocks(out: &mut impl Write, unit: &Unit<'_, '_>, index: usize, function: &Function<'_, '_>) -> io::Result<()> {
    for block in function.blocks() {
        let style = if block.is_dead() { ", style=dashed, color=gray, fontcolor=gray" } else { "" };
        writeln!(out, "    f{index}b{} [label=\"{}\"{style}];", block.number(), lines(unit, &block))?;
    }
    for block in function.blocks() {
        let successors = block.successors();
        for (way, to) in successors.iter().enumerate() {
            let ways = edge(&block, successors.len(), way);
            writeln!(out, "    f{index}b{} -> f{index}b{to}{ways};", block.number())?;
        }
    }
    Ok(())
}

/// Of two ways, the first is taken where the condition is true. They differ in colour and in the arrow's head, so that two
/// edges to one block are told apart, also without colours.
fn edge(block: &Block<'_, '_>, ways: usize, way: usize) -> &'static str {
    match (block.is_dead(), ways, way) {
        (false, 2, 0) => " [label=true, color=darkgreen, fontcolor=darkgreen]",
        (false, 2, _) => " [label=false, color=firebrick, fontcolor=firebrick, arrowhead=empty]",
        (true, 2, 0) => " [label=true, color=gray, fontcolor=gray]",
        (true, 2, _) => " [label=false, color=gray, fontcolor=gray, arrowhead=empty]",
        (true, ..) => " [color=gray]",
        (false, ..) => "",
    }
}

/// What stands in a block's box, each line moved to the left by `\l`. Nothing in it is special to Graphviz: names have
/// letters, digits, `_`, `@` and `.`.
fn lines(unit: &Unit<'_, '_>, block: &Block<'_, '_>) -> String {
    listing::block_lines(unit, block).map(|line| line + "\\l").collect()
}
