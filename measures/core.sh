#!/bin/sh
# Times the core alone: 1,000 and 10,000 tasks, side by side and in a chain, with windows of 1,000 and of 10,000.
# It tries the crate of worked examples of the core in a scratch copy of the repository, with one test a form, and prints
# the time of each run. It is no check of the gate, since it prints times. Usage: sh measures/core.sh
top=$(cd "$(dirname "$0")/.." && pwd)
copy=$(mktemp -d)
trap 'rm -rf "$copy"' EXIT
cp "$top/crates.txt" "$top/HANDLES" "$copy"
(cd "$top" && tar cf - --exclude=out crates) | (cd "$copy" && tar xf -)
cd "$copy/crates/gs_rows_core" || exit 1
for gone in orders rows serial shown waits; do
    rm -rf "src/$gone.rt" "proofs/$gone"
    sed -i -e "/^mod $gone;/d" src/lib.rt
done
sed -i -e '/^#\[cfg(test)\]$/d' -e 's/^mod /#[cfg(test)]\nmod /' src/lib.rt
cat > src/cost.rt <<'END'
// Times.
use crate::case::{Case, File, over};
use crate::desk::Desk;
use crate::play::run;
use gs_core::Verdict;
use std::test::Fail;
use std::time::Instant;

const SIDE: &[u8] = b"main() { int i; char *s; GS_On();
    for (i = 0; i < 1000; i++) { sprintf(s, \"n%d\", i); join(\"A\", \"A\", s); } GS_Off(0); }";

const LONG_SIDE: &[u8] = b"main() { int i; char *s; GS_On();
    for (i = 0; i < 10000; i++) { sprintf(s, \"n%d\", i); join(\"A\", \"A\", s); } GS_Off(0); }";

const CHAIN: &[u8] = b"main() { int i; GS_On();
    for (i = 0; i < 1000; i++) join(\"A\", \"E\", \"A\"); GS_Off(0); }";

const LONG_CHAIN: &[u8] = b"main() { int i; GS_On();
    for (i = 0; i < 10000; i++) join(\"A\", \"E\", \"A\"); GS_Off(0); }";

const FILES: [File<'static>; 2] = [(b"A", b"a"), (b"E", b"")];

fn timed(rt: &HostRuntime, cases: &[(&[u8], u32)]) -> Result<(), Fail> {
    for (text, window) in cases {
        let begun = Instant::now(rt)?;
        let mut desk = Desk::new(rt.alloc(), &FILES);
        let mut case: Case<'_> = over(&FILES, text);
        case.list = b"a 8 p *\nb 8 p *\n";
        case.window = *window;
        let (verdict, _left) = run(rt.alloc(), &case, &mut desk, &[])?;
        let taken = begun.elapsed(rt)?.as_millis();
        let tasks = desk.done.len();
        let went = verdict == Verdict::Ended;
        println!(rt; "{tasks} tasks, window {window}: {taken} ms, {went}")?;
    }
    Ok(())
}

#[test]
fn side_by_side(rt: HostRuntime) -> Result<(), Fail> {
    timed(&rt, &[(SIDE, 1_000), (LONG_SIDE, 1_000), (LONG_SIDE, 10_000)])
}

#[test]
fn in_a_chain(rt: HostRuntime) -> Result<(), Fail> {
    timed(&rt, &[(CHAIN, 1_000), (LONG_CHAIN, 1_000), (LONG_CHAIN, 10_000)])
}
END
rt try --test
