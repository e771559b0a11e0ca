//! The page of `check --html`: what it shows, that it needs nothing else, and that a browser loads it.
mod tool;

use std::fs;
use std::io::{self, Write};
use std::path::Path;
use std::process::Command;

use pitchsleet::Reader;
use tool::{Scratch, TOOL, answer, err, out, run, status};

const ROOT: &str = concat!(env!("CARGO_MANIFEST_DIR"), "/..");

/// The page of some of the examples.
fn page_of(examples: &[&str], expected_status: i32) -> String {
    let files: Vec<String> = examples.iter().map(|example| format!("examples/{example}.bril")).collect();
    let output =
        Command::new(TOOL).args(["check", "--html"]).args(files).current_dir(ROOT).output().expect("the tool runs");
    assert_eq!((status(&output), err(&output)), (expected_status, ""));
    out(&output).to_owned()
}

/// What a person reads of it: without tags, and with the characters that stand for themselves again.
fn read_of(page: &str) -> String {
    let (_, body) = page.split_once("<body").expect("a page has a body");
    let pieces = body.split('<').map(|piece| piece.split_once('>').map_or(piece, |(_, text)| text));
    let text = pieces.collect::<Vec<_>>().concat();
    let signs = [("&lt;", "<"), ("&gt;", ">"), ("&quot;", "\""), ("&#39;", "'"), ("&amp;", "&")];
    signs.iter().fold(text, |text, (written, sign)| text.replace(written, sign))
}

#[test]
fn a_picture_for_each_function_and_all_of_the_text() {
    let page = page_of(&["frost"], 0);
    assert!(page.starts_with("<!DOCTYPE html>"), "{}", &page[..80]);
    assert_eq!(pictures(&page), 4);
    let read = read_of(&page);
    let text = fs::read_to_string(Path::new(ROOT).join("examples/frost.bril")).expect("the example");
    for line in text.lines() {
        assert!(read.contains(line), "the page lacks: {line}");
    }
    let mut reader = Reader::new();
    let unit = reader.check(text.as_bytes()).expect("accepted");
    for block in unit.functions().flat_map(|function| function.blocks()) {
        assert!(read.contains(&format!("block {}", block.number())));
    }
    assert!(read.contains("4 functions, 10 blocks, 34 operations"));
    assert!(read.contains("hour:int = add hour:int one:int"), "operations have their types");
}

/// How many functions are drawn; the small ones that tell what an arrow means have no role.
fn pictures(page: &str) -> usize {
    page.matches("role=\"img\"").count()
}

#[test]
fn refusals_and_warnings_in_their_places() {
    let page = page_of(&["frost-refused"], 1);
    let read = read_of(&page);
    let line = read.find("  start: int = le least limit;").expect("the line");
    let message = read[line..].find("[line 41] Error at 'le': 'bool' type expected; 'int' found").expect("the message");
    assert!(message < 200, "the message stands under its line");
    assert!(read.contains("the message's line 41 is line 47 of the file"));
    assert_eq!(pictures(&page), 0, "there are no blocks");

    let read = read_of(&page_of(&["frost-warned"], 0));
    let line = read.find("  br forst .pumps .report;").expect("the line");
    let warning = read[line..].find("no operation of @watch sets the condition 'forst'").expect("the warning");
    assert!(warning < 200, "the warning stands under its line");
    let output = run(&["check", "--html", "--deny-warnings", "-"], b"@f { print x; }");
    assert_eq!((status(&output), err(&output)), (1, ""));

    // What has no place stands in front; a note has its own.
    let too_long = read_of(&answer(&["check", "--html", "-"], &b"nop;".repeat(10_000), 1));
    assert!(too_long.contains("too many bytes.") && !too_long.contains("nop;"), "a part isn't shown for the whole");
    let read = read_of(&answer(&["check", "--html", "-"], "x\n# é".as_bytes(), 1));
    assert!(read.contains("this is the first byte above 127"), "{read}");
}

#[test]
fn several_files_are_one_page() {
    let page = page_of(&["frost", "frost-refused", "frost-warned"], 1);
    assert_eq!((page.matches("<html").count(), page.matches("</html>").count()), (1, 1));
    for name in ["examples/frost.bril", "examples/frost-refused.bril", "examples/frost-warned.bril"] {
        assert!(read_of(&page).contains(name), "{name}");
    }
    assert_eq!(page, page_of(&["frost", "frost-refused", "frost-warned"], 1), "the same bytes again");
    let output = run(&["check", "--html", "-", "no/such/file"], b"@f { nop; }");
    assert_eq!(status(&output), 2);
    assert!(out(&output).ends_with("</html>\n"), "the others are shown");
    let output = run(&["check", "--html", "no/such/file"], b"");
    assert_eq!((status(&output), out(&output)), (2, ""), "there is nothing to show");
}

/// A warning marks the block that it is of: one without `jmp`, `br` or `ret`, and not the next, at whose label it stands.
#[test]
fn the_block_that_is_warned_of_is_marked() {
    let warned = |text: &[u8]| {
        let page = answer(&["check", "--html", "-"], text, 0);
        let marked = page.split(" warned\">").skip(1);
        marked
            .map(|rest| read_of(&format!("<body>{}", rest.split("</g>").next().expect("a box"))).trim().to_owned())
            .collect()
    };
    let one: Vec<String> = warned(b"@f(c: bool) { br c .a .b; .a: nop; .b: ret; }");
    assert!(matches!(&one[..], [only] if only.contains("block 1 .a")), "{one:?}");
    let two: Vec<String> = warned(b"@f(c: bool) { br d .a .a; .a: ret; .b: print c; ret; }");
    assert!(
        matches!(&two[..], [first, second] if first.contains("block 0") && second.contains("block 2 .b")),
        "{two:?}"
    );
}

/// It names no other file and no other machine, runs nothing, and takes no byte of a text for its own.
#[test]
fn it_is_whole_by_itself() {
    let hostile =
        Scratch::new("hostile&<b>.bril", b"# </pre><script>alert('1')</script> \" &amp; <!--\n@f { print x; }\n");
    let page = answer(&["check", "--html", hostile.name(), "-"], b"<img src=x>\x01\x80", 1);
    for page in [page, page_of(&["frost", "frost-warned"], 0)] {
        for word in ["<script", "<img", "<link", "<iframe", "src=\"", "url(http", "@import", "javascript:"] {
            assert!(!page.contains(word), "{word}");
        }
        let outside = page.matches("http").count() - page.matches("http://www.w3.org/2000/svg").count();
        assert_eq!(outside, 0);
    }
}

/// A browser without a window loads it, finds all pictures and has nothing to complain of.
#[test]
fn a_browser_loads_it() {
    let browsers = ["chromium", "chromium-browser", "google-chrome"];
    let is_there = |name: &&&str| Command::new(name).arg("--version").output().is_ok_and(|said| said.status.success());
    let Some(browser) = browsers.iter().find(is_there) else {
        // Not by `println!`, whose output a passing test keeps to itself.
        writeln!(io::stderr(), "page: there is no chromium: that a browser loads it is passed over")
            .expect("standard error");
        return;
    };
    let folder = Path::new(env!("CARGO_TARGET_TMPDIR")).join("browser");
    let _ = fs::remove_dir_all(&folder);
    fs::create_dir_all(&folder).expect("a folder");
    let file = folder.join("page.html");
    let page = page_of(&["frost", "frost-refused", "frost-warned"], 1);
    fs::write(&file, &page).expect("a page");
    let output = Command::new(browser)
        .args(["--headless", "--no-sandbox", "--disable-gpu", "--enable-logging=stderr", "--dump-dom"])
        .arg(format!("--user-data-dir={}", folder.join("profile").display()))
        .arg(format!("file://{}", file.display()))
        .output()
        .expect("the browser runs");
    let (loaded, said) = (out(&output), String::from_utf8_lossy(&output.stderr));
    assert!(output.status.success(), "{said}");
    assert!(!said.contains("CONSOLE"), "{said}");
    assert_eq!((pictures(loaded), pictures(&page)), (6, 6));
    assert_eq!(loaded.matches("<rect").count(), page.matches("<rect").count());
    for name in ["@pumps(noon: int, limit: int): bool", "@watch(least: int, limit: int)", "'bool' type expected"] {
        assert!(read_of(loaded).contains(name), "{name}");
    }
}
