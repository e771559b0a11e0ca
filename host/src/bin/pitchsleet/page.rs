//! Texts, what was found in them, and their functions' pictures, as one page for a browser that needs nothing else.
use std::collections::BTreeMap;
use std::io::{self, Write};
use std::ops::Range;
use std::slice;

use crate::human::counted;
use crate::markup::Escaped;
use crate::picture;

pub struct Page {
    pub files: Vec<FilePage>,
}

pub struct FilePage {
    pub name: String,
    pub verdict: Verdict,
    /// The lines as they are shown, in printable ASCII.
    pub lines: Vec<String>,
    pub sections: Vec<Section>,
    pub marks: Vec<Mark>,
}

pub enum Verdict {
    Accepted { summary: String },
    Refused { message: String, notes: Vec<String> },
}

/// A function: its header, its first and its last line, counted from 1, and its picture.
pub struct Section {
    pub header: String,
    pub first_line: usize,
    pub last_line: usize,
    pub svg: String,
}

/// A place in the text and what is said of it. Lines and columns count from 1, columns in the line as it is shown.
pub struct Mark {
    pub line: usize,
    pub column: usize,
    /// In characters. A mark has at least one, even if the line ends before it.
    pub length: usize,
    pub severity: Severity,
    pub message: String,
}

/// The worst is the least.
#[derive(Clone, Copy, Debug, PartialEq, Eq, PartialOrd, Ord)]
pub enum Severity {
    Refusal,
    Warning,
    Note,
}

impl Severity {
    fn word(self) -> &'static str {
        match self {
            Self::Refusal => "refused",
            Self::Warning => "warning",
            Self::Note => "note",
        }
    }
}

const STYLE: &str = include_str!("page.css");

/// The same page gives the same bytes.
pub fn write(out: &mut impl Write, page: &Page) -> io::Result<()> {
    let title = title(page);
    writeln!(out, "<!DOCTYPE html>\n<html lang=\"en\">\n<head>\n<meta charset=\"utf-8\">")?;
    writeln!(out, "<meta name=\"viewport\" content=\"width=device-width, initial-scale=1\">")?;
    writeln!(out, "<title>{}</title>", Escaped(&title))?;
    writeln!(out, "<style>\n{STYLE}{}</style>\n</head>\n<body>", picture::STYLE)?;
    let is_alone = page.files.len() == 1;
    if !is_alone {
        writeln!(out, "<header>\n<h1>{}</h1>", Escaped(&title))?;
        contents(out, page)?;
        legend(out, &page.files)?;
        writeln!(out, "</header>")?;
    }
    writeln!(out, "<main>")?;
    for (index, file) in page.files.iter().enumerate() {
        Part { file, number: index + 1, level: if is_alone { 1 } else { 2 }, marks: by_line(file) }.write(out)?;
    }
    writeln!(out, "</main>\n</body>\n</html>")
}

/// What the pictures mean, if there is one.
fn legend(out: &mut impl Write, files: &[FilePage]) -> io::Result<()> {
    match files.iter().any(|file| !file.sections.is_empty()) {
        true => write!(out, "{}", picture::LEGEND),
        false => Ok(()),
    }
}

fn title(page: &Page) -> String {
    if let [file] = &page.files[..] {
        return format!("{}: {}", file.name, word(&file.verdict));
    }
    let refused = page.files.iter().filter(|file| matches!(file.verdict, Verdict::Refused { .. })).count();
    format!("{} files: {} accepted, {refused} refused", page.files.len(), page.files.len() - refused)
}

fn word(verdict: &Verdict) -> &'static str {
    match verdict {
        Verdict::Accepted { .. } => "accepted",
        Verdict::Refused { .. } => "refused",
    }
}

/// The files, each with a link to its part of the page.
fn contents(out: &mut impl Write, page: &Page) -> io::Result<()> {
    writeln!(out, "<nav aria-label=\"Files\">\n<ul class=\"files\">")?;
    for (index, file) in page.files.iter().enumerate() {
        let said = match (&file.verdict, warnings(file)) {
            (Verdict::Refused { message, .. }, _) => message.clone(),
            (Verdict::Accepted { summary }, 0) => summary.clone(),
            (Verdict::Accepted { summary }, count) => format!("{summary}; {}", counted(count, "warning")),
        };
        let (number, word) = (index + 1, word(&file.verdict));
        write!(out, "<li><a href=\"#file-{number}\">{}</a> ", Escaped(&file.name))?;
        writeln!(out, "<span class=\"verdict {word}\">{word}</span> {}</li>", Escaped(&said))?;
    }
    writeln!(out, "</ul>\n</nav>")
}

fn warnings(file: &FilePage) -> usize {
    file.marks.iter().filter(|mark| mark.severity == Severity::Warning).count()
}

/// The marks of each line, from left to right.
fn by_line(file: &FilePage) -> BTreeMap<usize, Vec<&Mark>> {
    let mut marks: BTreeMap<usize, Vec<&Mark>> = BTreeMap::new();
    for mark in &file.marks {
        marks.entry(mark.line).or_default().push(mark);
    }
    marks.values_mut().for_each(|marks| marks.sort_by_key(|mark| (mark.column, mark.severity)));
    marks
}

/// Some lines with functions, and the lines before them that belong to none. Lines are counted from 0 here.
struct Stretch<'a> {
    before: Range<usize>,
    lines: Range<usize>,
    /// More than one where a line is shared.
    sections: Vec<(usize, &'a Section)>,
}

/// All lines of a file in their order, each once. The last stretch has no function.
fn stretches<'a>(file: &'a FilePage) -> Vec<Stretch<'a>> {
    let mut sections: Vec<(usize, &Section)> = file.sections.iter().enumerate().collect();
    sections.sort_by_key(|(_, section)| section.first_line);
    let count = file.lines.len();
    let mut stretches: Vec<Stretch<'_>> = Vec::new();
    for (index, section) in sections {
        let first = section.first_line.saturating_sub(1).min(count);
        let end = section.last_line.min(count).max(first);
        match stretches.last_mut() {
            Some(last) if first < last.lines.end => {
                last.lines.end = last.lines.end.max(end);
                last.sections.push((index, section));
            }
            last => {
                let before = last.map_or(0, |last| last.take_blank(&file.lines, first))..first;
                stretches.push(Stretch { before, lines: first..end, sections: vec![(index, section)] });
            }
        }
    }
    let next = stretches.last_mut().map_or(0, |last| last.take_blank(&file.lines, count));
    stretches.push(Stretch { before: next..count, lines: count..count, sections: Vec::new() });
    stretches
}

impl Stretch<'_> {
    /// Takes in the blank lines that follow, which aren't worth a place of their own, and says where the others begin.
    fn take_blank(&mut self, lines: &[String], end: usize) -> usize {
        let behind = &lines[self.lines.end..end];
        self.lines.end += behind.iter().take_while(|line| line.trim().is_empty()).count();
        self.lines.end
    }
}

/// A file's part of the page.
struct Part<'a> {
    file: &'a FilePage,
    /// From 1, in the order of the files.
    number: usize,
    /// Of the heading.
    level: usize,
    marks: BTreeMap<usize, Vec<&'a Mark>>,
}

impl Part<'_> {
    fn write(&self, out: &mut impl Write) -> io::Result<()> {
        let (level, word) = (self.level, word(&self.file.verdict));
        writeln!(out, "<section class=\"file\" id=\"file-{}\">", self.number)?;
        write!(out, "<h{level}>{} <span class=\"verdict {word}\">{word}</span>", Escaped(&self.file.name))?;
        writeln!(out, "</h{level}>")?;
        match &self.file.verdict {
            Verdict::Accepted { summary } => writeln!(out, "<p class=\"summary\">{}</p>", Escaped(summary))?,
            Verdict::Refused { message, notes } => self.refusal(out, message, notes)?,
        }
        self.found(out)?;
        self.functions(out)?;
        if self.level == 1 {
            legend(out, slice::from_ref(self.file))?;
        }
        for stretch in stretches(self.file) {
            self.stretch(out, &stretch)?;
        }
        writeln!(out, "</section>")
    }

    fn refusal(&self, out: &mut impl Write, message: &str, notes: &[String]) -> io::Result<()> {
        writeln!(out, "<div class=\"said refusal\">")?;
        writeln!(out, "<p><strong>{}</strong></p>", Escaped(message))?;
        for note in notes {
            writeln!(out, "<p><em>note:</em> {}</p>", Escaped(note))?;
        }
        for (line, _) in self.all_marks().filter(|(_, mark)| mark.severity == Severity::Refusal) {
            writeln!(out, "<p><a href=\"#file-{}-line-{line}\">Go to line {line}</a></p>", self.number)?;
        }
        writeln!(out, "</div>")
    }

    fn all_marks(&self) -> impl Iterator<Item = (usize, &Mark)> {
        self.marks.iter().flat_map(|(&line, marks)| marks.iter().map(move |&mark| (line, mark)))
    }

    /// What is said below, but for a refusal, each with a link to its line.
    fn found(&self, out: &mut impl Write) -> io::Result<()> {
        let mut found = self.all_marks().filter(|(_, mark)| mark.severity != Severity::Refusal).peekable();
        if found.peek().is_none() {
            return Ok(());
        }
        writeln!(out, "<ul class=\"found\">")?;
        for (line, mark) in found {
            let (word, said) = (mark.severity.word(), Escaped(&mark.message));
            write!(out, "<li><a href=\"#file-{}-line-{line}\">line {line}</a>: ", self.number)?;
            writeln!(out, "<span class=\"{word}\">{word}</span>: {said}</li>")?;
        }
        writeln!(out, "</ul>")
    }

    fn functions(&self, out: &mut impl Write) -> io::Result<()> {
        if self.file.sections.len() < 2 {
            return Ok(());
        }
        writeln!(out, "<nav aria-label=\"Functions\">\n<ul class=\"functions\">")?;
        for (index, section) in self.file.sections.iter().enumerate() {
            let header = Escaped(&section.header);
            writeln!(out, "<li><a href=\"#{}\"><code>{header}</code></a></li>", self.anchor(index))?;
        }
        writeln!(out, "</ul>\n</nav>")
    }

    fn anchor(&self, section: usize) -> String {
        format!("file-{}-function-{}", self.number, section + 1)
    }

    fn stretch(&self, out: &mut impl Write, stretch: &Stretch<'_>) -> io::Result<()> {
        let level = self.level + 1;
        for (index, section) in &stretch.sections {
            let (anchor, header) = (self.anchor(*index), Escaped(&section.header));
            writeln!(out, "<h{level} id=\"{anchor}\"><a href=\"#{anchor}\"><code>{header}</code></a></h{level}>")?;
        }
        if !stretch.before.is_empty() {
            self.source(out, stretch.before.clone())?;
        }
        if stretch.sections.is_empty() {
            return Ok(());
        }
        writeln!(out, "<div class=\"beside\">")?;
        self.source(out, stretch.lines.clone())?;
        writeln!(out, "<div class=\"pictures\">")?;
        for (_, section) in &stretch.sections {
            writeln!(out, "{}", section.svg)?;
        }
        writeln!(out, "</div>\n</div>")
    }

    /// Some lines, each with what is said of it below it.
    fn source(&self, out: &mut impl Write, lines: Range<usize>) -> io::Result<()> {
        writeln!(out, "<div class=\"source\"><div class=\"lines\">")?;
        for index in lines {
            self.line(out, index + 1, &self.file.lines[index])?;
        }
        writeln!(out, "</div></div>")
    }

    fn line(&self, out: &mut impl Write, number: usize, text: &str) -> io::Result<()> {
        let marks = self.marks.get(&number).map_or(&[][..], Vec::as_slice);
        let spots: Vec<Spot<'_>> = marks.iter().map(|mark| Spot::new(mark, text)).collect();
        let is_comment = ["#", "//"].iter().any(|sign| text.trim_start().starts_with(sign));
        let comment = if is_comment { " comment" } else { "" };
        let marked = if spots.is_empty() { "" } else { " marked" };
        write!(out, "<div class=\"line{comment}{marked}\" id=\"file-{}-line-{number}\">", self.number)?;
        writeln!(out, "<span class=\"number\">{number}</span><span class=\"text\">{}</span></div>", lit(text, &spots))?;
        if spots.is_empty() {
            return Ok(());
        }
        let carets = lit(&carets(&spots), &spots);
        write!(out, "<div class=\"line place\" aria-hidden=\"true\"><span class=\"number\"></span>")?;
        writeln!(out, "<span class=\"text\">{carets}</span></div>")?;
        for spot in &spots {
            let (word, said) = (spot.mark.severity.word(), Escaped(&spot.mark.message));
            // Of several on a line, each says which part it is about.
            let part: String = text.chars().skip(spot.place.start).take(spot.place.len()).collect();
            let part = if spots.len() > 1 { format!("<code>{}</code>: ", Escaped(&part)) } else { String::new() };
            writeln!(out, "<div class=\"said {word}\"><strong>{word}:</strong> {part}{said}</div>")?;
        }
        Ok(())
    }
}

/// A mark, and the characters of its line that it stands at.
struct Spot<'a> {
    mark: &'a Mark,
    place: Range<usize>,
}

impl<'a> Spot<'a> {
    /// A mark behind the line's end stands right behind it, and one that runs past the end is shortened.
    fn new(mark: &'a Mark, text: &str) -> Self {
        let start = (mark.column - 1).min(text.len());
        let end = (start + mark.length).min(text.len()).max(start + 1);
        Self { mark, place: start..end }
    }
}

/// What stands under a line: a caret under each character that is marked.
fn carets(spots: &[Spot<'_>]) -> String {
    let end = spots.iter().map(|spot| spot.place.end).max().unwrap_or(0);
    let is_marked = |at: usize| spots.iter().any(|spot| spot.place.contains(&at));
    (0..end).map(|at| if is_marked(at) { '^' } else { ' ' }).collect()
}

/// A line with its marked parts lit, each by the worst of its marks.
fn lit(text: &str, spots: &[Spot<'_>]) -> String {
    let ends = spots.iter().map(|spot| spot.place.end).max().unwrap_or(0);
    let mut characters: Vec<char> = text.chars().collect();
    characters.resize(characters.len().max(ends), ' ');
    let worst = |at: usize| spots.iter().filter(|spot| spot.place.contains(&at)).map(|spot| spot.mark.severity).min();
    let mut lit = String::new();
    let mut at = 0;
    while at < characters.len() {
        let severity = worst(at);
        let end = (at..characters.len()).find(|&end| worst(end) != severity).unwrap_or(characters.len());
        let part: String = characters[at..end].iter().collect();
        let part = Escaped(&part);
        lit += &match severity {
            None => part.to_string(),
            Some(severity) => format!("<mark class=\"{}\">{part}</mark>", severity.word()),
        };
        at = end;
    }
    lit
}

#[cfg(test)]
mod tests {
    use super::*;

    fn mark(line: usize, column: usize, length: usize, severity: Severity, message: &str) -> Mark {
        Mark { line, column, length, severity, message: message.to_owned() }
    }

    fn section(header: &str, first_line: usize, last_line: usize) -> Section {
        Section { header: header.to_owned(), first_line, last_line, svg: format!("<svg>{header}</svg>") }
    }

    fn file(lines: &[String], sections: Vec<Section>, marks: Vec<Mark>) -> FilePage {
        let verdict = Verdict::Accepted { summary: "2 functions".to_owned() };
        FilePage { name: "a.bril".to_owned(), verdict, lines: lines.to_vec(), sections, marks }
    }

    fn lines(text: &[&str]) -> Vec<String> {
        text.iter().map(|&line| line.to_owned()).collect()
    }

    fn page(files: Vec<FilePage>) -> String {
        let mut out = Vec::new();
        write(&mut out, &Page { files }).expect("a Vec takes all");
        String::from_utf8(out).expect("all of it is text")
    }

    /// Where each of the words stands, one behind the other.
    fn in_order(page: &str, words: &[&str]) -> bool {
        let mut rest = page;
        words.iter().all(|&word| match rest.split_once(word) {
            Some((_, behind)) => {
                rest = behind;
                true
            }
            None => false,
        })
    }

    #[test]
    fn a_message_stands_under_its_line() {
        let lines = lines(&["@main {", "  x: int = const 1;", "}"]);
        let marks = vec![mark(2, 3, 1, Severity::Warning, "x is never read")];
        let page = page(vec![file(&lines, vec![section("@main", 1, 3)], marks)]);
        let words = [
            "id=\"file-1-line-2\"",
            ">2</span><span class=\"text\">  <mark class=\"warning\">x</mark>: int = const 1;</span>",
            "<span class=\"text\">  <mark class=\"warning\">^</mark></span>",
            "<strong>warning:</strong> x is never read",
            "id=\"file-1-line-3\"",
            "<svg>@main</svg>",
        ];
        assert!(in_order(&page, &words), "{page}");
        assert!(page.contains("<a href=\"#file-1-line-2\">line 2</a>"));
    }

    #[test]
    fn every_line_is_shown_once() {
        let is_blank = |line: usize| [1, 6, 7, 10, 12].contains(&line);
        let line = |line: usize| if is_blank(line) { String::new() } else { format!("text{line};") };
        let text: Vec<String> = (1..=12).map(line).collect();
        let shown = |sections: Vec<Section>| {
            let page = page(vec![file(&text, sections, Vec::new())]);
            let words = (1..=12).map(|number| format!(">{number}</span><span class=\"text\">{}</span>", line(number)));
            let words: Vec<String> = words.collect();
            let words: Vec<&str> = words.iter().map(String::as_str).collect();
            assert!(in_order(&page, &words) && words.iter().all(|word| page.matches(word).count() == 1), "{page}");
            page
        };
        shown(Vec::new());
        shown(vec![section("@a", 1, 12)]);
        shown(vec![section("@b", 7, 9), section("@a", 2, 5)]);
        // Two functions on a line.
        let page = shown(vec![section("@a", 3, 5), section("@b", 5, 7), section("@c", 8, 12)]);
        for name in ["@a", "@b", "@c"] {
            assert_eq!(page.matches(&format!("<svg>{name}</svg>")).count(), 1);
        }
    }

    #[test]
    fn a_refusal_is_shown_in_place() {
        let lines = lines(&["@main {", "  print x;", ""]);
        let marks = vec![mark(3, 1, 1, Severity::Refusal, "the text ends in a function")];
        let message = "a.bril:3:1: refused 9: it ends".to_owned();
        let verdict = Verdict::Refused { message, notes: vec!["a note".to_owned()] };
        let page = page(vec![FilePage { verdict, ..file(&lines, Vec::new(), marks) }]);
        let words = [
            "<title>a.bril: refused</title>", ">refused</span></h1>", "a.bril:3:1: refused 9: it ends", "a note",
            "<a href=\"#file-1-line-3\">Go to line 3</a>", "  print x;", "id=\"file-1-line-3\"",
            "<mark class=\"refused\"> </mark>", "<strong>refused:</strong> the text ends in a function",
        ];
        assert!(in_order(&page, &words), "{page}");
        assert!(!page.contains("<svg"));
    }

    #[test]
    fn a_text_without_lines_has_a_page() {
        let page = page(vec![file(&[], Vec::new(), Vec::new())]);
        assert!(in_order(&page, &["2 functions", "</html>"]) && !page.contains("class=\"source\""));
    }

    #[test]
    fn text_stays_text() {
        let hostile = "<script>alert('x' && \"y\")</script>";
        let lines = lines(&[hostile]);
        let sections = vec![section("@main", 1, 1)];
        let marks = vec![mark(1, 3, 5, Severity::Note, hostile), mark(1, 5, 50, Severity::Warning, hostile)];
        let verdict = Verdict::Refused { message: hostile.to_owned(), notes: vec![hostile.to_owned()] };
        let refused = FilePage { name: hostile.to_owned(), verdict, ..file(&lines, Vec::new(), Vec::new()) };
        let accepted = FilePage { name: hostile.to_owned(), ..file(&lines, sections, marks) };
        let page = page(vec![refused, accepted]);
        assert!(!page.contains("<script") && !page.contains("</script") && !page.contains("&& "));
        assert!(page.contains("&lt;script&gt;alert(&#39;x&#39; &amp;&amp; &quot;y&quot;)&lt;/script&gt;"));
    }

    #[test]
    fn marks_fit_their_line() {
        let place = |column, length, text: &str| Spot::new(&mark(1, column, length, Severity::Note, ""), text).place;
        assert_eq!(place(1, 2, "abc"), 0..2);
        assert_eq!(place(3, 9, "abc"), 2..3);
        assert_eq!(place(4, 1, "abc"), 3..4);
        assert_eq!(place(1, 1, ""), 0..1);
    }

    #[test]
    fn the_worst_mark_lights_a_part() {
        let (warning, note) = (mark(1, 2, 3, Severity::Warning, "w"), mark(1, 1, 9, Severity::Note, "n"));
        let spots = [Spot::new(&note, "abcdef"), Spot::new(&warning, "abcdef")];
        let shown = "<mark class=\"note\">a</mark><mark class=\"warning\">bcd</mark><mark class=\"note\">ef</mark>";
        assert_eq!(lit("abcdef", &spots), shown);
        assert_eq!(carets(&spots[1..]), " ^^^");
    }

    #[test]
    fn several_files_have_links() {
        let lines = lines(&["@main {", "}"]);
        let one = || file(&lines, vec![section("@main", 1, 2), section("@other", 2, 2)], Vec::new());
        let page = page(vec![one(), one()]);
        assert!(page.contains("<title>2 files: 2 accepted, 0 refused</title>"));
        for anchor in ["file-1", "file-2", "file-1-function-1", "file-2-function-2"] {
            assert_eq!(page.matches(&format!(" id=\"{anchor}\"")).count(), 1);
            assert!(page.contains(&format!(" href=\"#{anchor}\"")));
        }
        assert_eq!(page.matches("class=\"legend\"").count(), 1);
    }

    #[test]
    fn a_page_needs_nothing_else() {
        let lines = lines(&["@main {", "}"]);
        let page = page(vec![file(&lines, vec![section("@main", 1, 2)], Vec::new())]);
        assert!(page.starts_with("<!DOCTYPE html>\n<html lang=\"en\">") && page.contains("<meta charset=\"utf-8\">"));
        for word in ["src=", "@import", "url(", "<script", "<link", "https:"] {
            assert!(!page.contains(word), "{word}");
        }
    }
}
