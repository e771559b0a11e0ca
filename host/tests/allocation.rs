//! No call of a reader allocates, but for a refusal's message; and none of the C functions allocates anything.
mod support;

use std::alloc::{GlobalAlloc, Layout, System};
use std::cell::Cell;
use std::hint::black_box;

use pitchsleet::{Reader, Refusal, Unit, raw};
use support::lent_cells::LentCells;
use support::records::SIZES;

/// The system's allocator, with a count of what each thread asks of it.
struct Counting;

thread_local! {
    static ASKED: Cell<usize> = const { Cell::new(0) };
}

// SAFETY: everything is handed on to the system's allocator as it came.
unsafe impl GlobalAlloc for Counting {
    unsafe fn alloc(&self, layout: Layout) -> *mut u8 {
        ASKED.set(ASKED.get() + 1);
        // SAFETY: the caller keeps what `alloc` asks for.
        unsafe { System.alloc(layout) }
    }

    unsafe fn dealloc(&self, pointer: *mut u8, layout: Layout) {
        // SAFETY: the pointer came from `alloc` above, and so from the system's.
        unsafe { System.dealloc(pointer, layout) }
    }
}

#[global_allocator]
static ALLOCATOR: Counting = Counting;

/// Texts that are accepted, and that are refused by reading, by typing, for a byte above 127 and for their length.
const TEXTS: [&[u8]; 7] = [b"@f { x: int = const 5; }", PROGRAM, b"@f { ret x; }", b"$", b"\x80", b"", &[b' '; 20_000]];
const PROGRAM: &[u8] = b"@f(a: int): int { .l: b: int = call @f a; br c .l .m; .m: ret b; }";

#[test]
fn no_allocation_but_a_refusal_s_message() {
    let before_the_buffers = ASKED.get();
    let mut reader = Reader::new();
    let headers = reader.check(b"@f(a: int): int { ret a; }").expect("accepted").headers();
    let before = ASKED.get();
    assert!(before_the_buffers < before, "the count works");
    let mut refused = 0;
    for text in TEXTS {
        match reader.read(text) {
            Ok(tokens) => {
                black_box(tokens.iter().map(|token| token.spelling.len()).sum::<usize>());
                black_box(tokens.names().map(|name| name.spelling.len()).sum::<usize>());
                black_box(tokens.at_place(0));
            }
            Err(refusal) => {
                black_box((refusal.message(), refusal.kind()));
                refused += 1;
            }
        }
        refused += look_at(reader.check(text));
        for number in [0, 1, usize::MAX] {
            refused += look_at(reader.recheck(&headers, number, text));
        }
    }
    assert!(reader.recheck(&headers, 0, PROGRAM).is_ok());
    black_box((headers.names().map(str::len).sum::<usize>(), headers.position("@f"), headers.line(0)));
    black_box((headers.table(), headers.table_cells()));
    assert!(refused > TEXTS.len(), "{refused}");
    assert_eq!(ASKED.get(), before + refused, "each refusal has its message, and nothing else is asked for");
}

#[test]
fn no_allocation_in_the_c_functions() {
    let old = b"@f(a: int): int { ret a; }";
    let headers = Reader::new().check(old).expect("accepted").headers();
    let (table, table_cells) = (headers.table(), headers.table_cells());
    let (mut out, mut message) = (vec![0; raw::CHECK_OUT_BYTES], vec![0; raw::MESSAGE_BYTES]);
    let mut cells = LentCells::new(SIZES, raw::MESSAGE_BYTES);
    let before = ASKED.get();
    for text in TEXTS {
        black_box(raw::read(text, &mut out, &mut message));
        black_box(raw::check(text, &mut out, &mut message));
        black_box(raw::recheck(old, &table, 0, text, &mut out, &mut message));
        black_box(raw::recheck(old, &table, 1, text, &mut out, &mut message));
        black_box(cells.read(text));
        black_box(cells.check(text));
        black_box(cells.recheck(old, table_cells, 0, text));
        black_box(cells.recheck(old, table_cells, 1, text));
    }
    assert_eq!(ASKED.get(), before);
}

/// Looks at all of an answer; 1 where it is a refusal.
fn look_at(answer: Result<Unit<'_, '_>, Refusal>) -> usize {
    match answer {
        Ok(unit) => {
            let blocks = unit.functions().flat_map(|function| function.blocks());
            black_box(blocks.clone().map(|block| block.successors().len() + block.labels().count()).sum::<usize>());
            black_box(blocks.flat_map(|b| b.operations()).map(|o| o.operands().count()).sum::<usize>());
            black_box(unit.functions().map(|function| function.span().len()).sum::<usize>());
            0
        }
        Err(refusal) => {
            black_box((refusal.message(), refusal.kind()));
            1
        }
    }
}
