#!/bin/sh
# Times starts: tasks that are all listed at once are picked, started and finished one after the other, for 1,000 and for
# 10,000 tasks, of few kinds (an operation and a length) and, last, with a chain of tasks below many listed ones of its
# kind. It builds a small program over the queue in a scratch copy of the repository. It is no check of the gate, since it
# prints times. Usage: sh measures/starts.sh
top=$(cd "$(dirname "$0")/.." && pwd)
copy=$(mktemp -d)
trap 'rm -rf "$copy"' EXIT
cp -r "$top/crates" "$top/crates.txt" "$top/HANDLES" "$copy"
mkdir -p "$copy/crates/gs_probe/src" "$copy/crates/gs_probe/proofs/fill"
echo 'gs_probe: gs_queue gs_broker gs_policy gs_idl gs_types' >> "$copy/crates.txt"
cat > "$copy/crates/gs_probe/proofs/fill/Invariants.antt" <<'END'
use Rattle.std.proofs.Common.{◌≡◌, ◌≤◌, ◌+◌, ℕ, Some}
use Rattle.gs_broker.specs.declared.choice.Ready.{Ready}
use Rattle.gs_queue.specs.Queue.{tasks_of}
use Rattle.gs_probe.proofs.fill.Given as goal

abbrev pub invariant-loop-n : goal.invariant-loop-n
invariant-loop-n l = tasks_of l.queue ≡ l.n
END
cat > "$copy/crates/gs_probe/src/main.rt" <<'END'
//! Times of starts.
#![tactic(auto)]

ghost use Rattle.std.specs.Prelude.{◌≡◌, ◌<◌, ◌≤◌, ◌+◌, ◌^◌, ℕ, None, IfSome};
ghost use Rattle.gs_policy.specs.Facts.{AreFacts, IsCallable, Answers};
ghost use Rattle.gs_broker.specs.Choice.{IsTaskInRange};
ghost use Rattle.gs_queue.specs.Queue.{tasks_of};

use gs_broker::{Broker, Ready, Workers};
use gs_policy::{CostLaw, Flat, Policy, Prices};
use gs_queue::Queue;
use std::alloc::Global;
use std::process::ExitCode;
use std::time::Instant;

const IDL: &[u8] = b"interface K { void join(in File a); }";

const LIST: &[u8] = b"a 1 p *\nb 1 p *\nc 1 p *\nd 1 p *\n";

// Kinds side by side.
fn task(n: u32, kinds: u32) -> Ready
    requires { 0 < kinds }
    ensures range { IsTaskInRange result }
    ensures number { result.n ≡ n }
{
    Ready {
        n,
        op: 0,
        bytes: u64::from(n % kinds % 1_000_000),
    }
}

// So many tasks, and each from the first listed one on is listed.
fn fill(queue: &mut Queue, tasks: u32, first: u32, kinds: u32) -> bool
    requires none { tasks_of queue.old ≡ 0 }
    requires kinds { 0 < kinds }
{
    for n in 0..tasks {
        if queue.grow().is_err() {
            return false;
        }
        if n >= first {
            queue.list(task(n + 1, kinds));
        }
    }
    true
}

// Starts and finishes what is listed, at most so many times.
fn finish<F: Prices, C: CostLaw>(p: &Policy<F, C>, queue: &mut Queue, times: u32) -> u32 {
    for i in 0..times {
        let Some((n, w)) = queue.pick(p) else {
            return i;
        };
        queue.started(n, w);
        queue.finished(n);
    }
    times
}

// A chain of so many tasks: each is listed when the one before has finished.
fn follow<F: Prices, C: CostLaw>(p: &Policy<F, C>, queue: &mut Queue, length: u32) -> u32 {
    for i in 0..length {
        let n = i + 1;
        if n > queue.count() || queue.is_listed(n) || queue.job(n).is_some() {
            return i;
        }
        queue.list(task(n, 1));
        let Some((m, w)) = queue.pick(p) else {
            return i;
        };
        queue.started(m, w);
        queue.finished(m);
    }
    length
}

fn all<F: Prices + Drop, C: CostLaw>(f: F, law: &C, queue: &mut Queue, length: u32) -> bool
    requires facts { AreFacts (F.may f) }
    requires callable { IsCallable (F.may f) }
    requires answers { Answers (F.gives f) (C.cost law.now) }
{
    let policy = Policy::new(f, law);
    let followed = follow(&policy, queue, length);
    let rest = queue.count().saturating_sub(length);
    followed == length && finish(&policy, queue, rest) == rest
}

fn made(alloc: Global) -> Option<Queue>
    ensures { IfSome result (λ q. tasks_of q ≡ 0) }
{
    let idl = gs_idl::read(alloc, IDL).ok()?;
    let workers = Workers::read(alloc, LIST, &idl).ok()?;
    let broker = Broker::new(alloc, workers, 3).ok()?;
    Some(Queue::new(alloc, broker))
}

fn once(alloc: Global, tasks: u32, chain: u32, kinds: u32) -> Option<bool>
    requires { 0 < kinds }
{
    let mut queue = made(alloc)?;
    if !fill(&mut queue, tasks, chain, kinds) {
        return None;
    }
    Some(all(
        |_op: u32, _worker: u32, _bytes: u64| -> u64
            ensures { result ≡ 0 }
        { 0 },
        &Flat,
        &mut queue,
        chain,
    ))
}

fn timed(rt: &HostRuntime, tasks: u32, chain: u32, kinds: u32, times: u32) -> Option<()>
    requires { 0 < kinds }
{
    let begun = Instant::now(rt).ok()?;
    let mut went = true;
    for _ in 0..times {
        let one = once(rt.alloc(), tasks, chain, kinds)?;
        went = went && one;
    }
    let taken = begun.elapsed(rt).ok()?.as_micros();
    println!(rt; "{tasks} tasks, {chain} in a chain, {kinds} kinds, {times} times: {taken} us, {went}").ok()?;
    Some(())
}

fn main(rt: HostRuntime) -> ExitCode {
    for kinds in [1u32, 4, 16, 64] {
        let _ = timed(&rt, 1_000, 0, kinds, 100);
        let _ = timed(&rt, 10_000, 0, kinds, 10);
    }
    let _ = timed(&rt, 1_000, 500, 1, 100);
    let _ = timed(&rt, 10_000, 5_000, 1, 10);
    ExitCode::from(0)
}
END
cd "$copy/crates/gs_probe" || exit 1
rt run > "$copy/log" 2>&1 || { cat "$copy/log"; exit 1; }
# Freed memory is kept, so that the times are not those of the system's fresh pages.
MALLOC_MMAP_THRESHOLD_=1000000000 MALLOC_TRIM_THRESHOLD_=1000000000 MALLOC_TOP_PAD_=100000000 out/gs_probe
