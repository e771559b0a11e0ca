//! Answers as one page for a browser: each text with its refusal or its warnings in place, and a picture of each function's
//! blocks and edges.
use pitchsleet::{Block, Function, Refusal, RefusalKind, Unit, Warning, WarningKind};

use crate::human::{self, summary};
use crate::listing;
use crate::notes::Note;
use crate::page::{FilePage, Mark, Section, Severity, Verdict};
use crate::picture::{self, Picture, PictureBox, PictureEdge, Way};
use crate::source::{Source, Span, fit};

/// The part of the page for an accepted text.
pub fn accepted(source: &Source<'_>, unit: &Unit<'_, '_>, warnings: &[Warning<'_>]) -> FilePage {
    let marks = warnings.iter().map(|warning| {
        let span = Span { place: warning.place, length: warning.spelling.len() };
        mark(source, span, Severity::Warning, warning.to_string())
    });
    let marks: Vec<Mark> = marks.collect();
    FilePage {
        name: source.name.clone(),
        verdict: Verdict::Accepted { summary: summary(unit) },
        lines: lines(source, &marks),
        sections: unit.functions().map(|function| section(source, unit, &function, warnings)).collect(),
        marks,
    }
}

/// The part of the page for a refused text.
pub fn refused(source: &Source<'_>, refusal: &Refusal, notes: &[Note]) -> FilePage {
    let message = human::message(refusal).to_string();
    let first = format!("refused {}: {message}", refusal.number());
    // The first byte isn't the one that is above 127: the note at that one tells.
    let has_line = refusal.kind().has_place() && refusal.kind() != RefusalKind::NotAscii;
    let there = has_line.then(|| mark(source, Span::byte(refusal.place()), Severity::Refusal, message));
    let located = notes.iter().filter_map(|note| note.span.map(|span| (span, note.words.clone())));
    let located = located.map(|(span, words)| mark(source, span, Severity::Note, words));
    let marks: Vec<Mark> = there.into_iter().chain(located).collect();
    let notes = notes.iter().filter(|note| note.span.is_none()).map(|note| note.words.clone()).collect();
    FilePage {
        name: source.name.clone(),
        verdict: Verdict::Refused { message: first, notes },
        // Of a text that is too long no more is known than its beginning.
        lines: if refusal.kind() == RefusalKind::TooManyBytes { Vec::new() } else { lines(source, &marks) },
        sections: Vec::new(),
        marks,
    }
}

/// The text's lines as they are shown. What stands behind a last newline is no line, unless something is said of it.
fn lines(source: &Source<'_>, marks: &[Mark]) -> Vec<String> {
    let count = source.lines.count();
    let mut lines: Vec<String> = (1..=count).filter_map(|line| source.lines.get(line)).map(fit).collect();
    if count > 1 && source.text.ends_with(b"\n") && marks.iter().all(|mark| mark.line < count) {
        lines.pop();
    }
    lines
}

fn mark(source: &Source<'_>, span: Span, severity: Severity, message: String) -> Mark {
    let shown = source.whole_line(span);
    let line = source.lines.position(span.place).line;
    Mark { line, column: shown.left + 1, length: shown.width, severity, message }
}

fn section(source: &Source<'_>, unit: &Unit<'_, '_>, function: &Function<'_, '_>, warnings: &[Warning<'_>]) -> Section {
    let line = |place: usize| source.lines.position(place).line;
    Section {
        header: listing::header(unit, function),
        first_line: line(function.place()),
        last_line: line(function.end_place()),
        svg: picture::svg(&picture(unit, function, warnings)),
    }
}

fn picture(unit: &Unit<'_, '_>, function: &Function<'_, '_>, warnings: &[Warning<'_>]) -> Picture {
    let starts: Vec<usize> = function.blocks().map(|block| start(unit, function, &block)).collect();
    let ends = starts.iter().copied().skip(1).chain([function.end_place()]);
    let boxes = function.blocks().zip(starts.iter().zip(ends)).map(|(block, (start, end))| PictureBox {
        lines: listing::block_lines(unit, &block).collect(),
        is_dead: block.is_dead(),
        has_warning: warnings.iter().any(|warning| match warning.kind {
            // It stands at the label of the next block, and is of the one before.
            WarningKind::NoFallThrough => warning.place == end,
            _ => (*start..end).contains(&warning.place),
        }),
    });
    Picture { boxes: boxes.collect(), edges: function.blocks().flat_map(|block| edges(&block)).collect() }
}

/// Where a block begins in the text: at its label, the first at the function's name.
fn start(unit: &Unit<'_, '_>, function: &Function<'_, '_>, block: &Block<'_, '_>) -> usize {
    let label = if block.number() == 0 { None } else { block.labels().next() };
    let token = label.and_then(|label| unit.tokens().get(label.token));
    token.map_or(function.place(), |token| token.place)
}

/// Of two ways, the first is taken where the condition is true.
fn edges(block: &Block<'_, '_>) -> Vec<PictureEdge> {
    let ways: &[Way] = match block.successors().len() {
        2 => &[Way::True, Way::False],
        _ => &[Way::Only],
    };
    let ends = block.successors().iter().zip(ways);
    ends.map(|(to, way)| PictureEdge { from: block.number(), to, way: *way }).collect()
}
