#!/bin/sh
# Counts by strace what the entry that a task is done, with one file that the task gave, costs over a real folder: two
# syncs of the log, one of the file, and at most one of the folder. It builds a small program over the store in a scratch
# copy of the repository. It is no check of the gate, since it needs strace. Usage: sh measures/syncs.sh
top=$(cd "$(dirname "$0")/.." && pwd)
command -v strace > /dev/null || { echo "no strace here"; exit 2; }
copy=$(mktemp -d)
trap 'rm -rf "$copy"' EXIT
cp -r "$top/crates" "$top/crates.txt" "$top/HANDLES" "$copy"
mkdir -p "$copy/crates/gs_probe/src"
echo 'gs_probe: gs_store gs_entries gs_folder gs_disk gs_types' >> "$copy/crates.txt"
cat > "$copy/crates/gs_probe/src/main.rt" <<'END'
//! A record of one task with one file, in the current directory.
#![tactic(auto)]

use gs_entries::{Entry, decode};
use gs_folder::Folder;
use gs_store::Store;
use gs_types::{Note, OutNote};
use std::process::ExitCode;

const HEADER: &[u8] = b"\x01\x01\x01\0\0\0i\x02\0\0\0ab\x01\0\0\0p\0\0\0\0";

fn main(rt: HostRuntime) -> ExitCode {
    let alloc = rt.alloc();
    let mut disk = Folder::here(&rt, alloc);
    let Ok(mut store) = Store::load(alloc, &mut disk) else {
        return ExitCode::from(1);
    };
    let Ok(Entry::Header { t }) = decode(alloc, HEADER) else {
        return ExitCode::from(2);
    };
    if store.begin(alloc, &mut disk, &t).is_err() {
        return ExitCode::from(3);
    }
    let mut outs = Vec::new(alloc);
    let out = OutNote {
        place: 1,
        v: Note::File { len: 3 },
    };
    if outs.push(out).is_err() {
        return ExitCode::from(4);
    }
    if store.put_out(&mut disk, 1, 1, b"abc").is_err() {
        return ExitCode::from(5);
    }
    if store.done(alloc, &mut disk, 1, 0, outs).is_err() {
        return ExitCode::from(6);
    }
    ExitCode::from(0)
}
END
cd "$copy/crates/gs_probe" || exit 2
strace -f -y -e trace=fsync,fdatasync,openat -o "$copy/trace" rt try > "$copy/said" 2>&1
status=$?
# what comes from the making of the file on
sed -n '/openat.*\.gs\.o\.1\.1/,$p' "$copy/trace" | grep -E '(fsync|fdatasync)\(' > "$copy/syncs"
log=$(grep -c '/\.gs\.log>' "$copy/syncs")
file=$(grep -c '/\.gs\.o\.1\.1>' "$copy/syncs")
all=$(wc -l < "$copy/syncs")
folder=$((all - log - file))
echo "syncs of a done entry with one file: log $log, file $file, folder $folder"
[ "$status" -eq 0 ] && [ "$log" -eq 2 ] && [ "$file" -eq 1 ] && [ "$folder" -le 1 ] && exit 0
tail -5 "$copy/said"
cat "$copy/syncs"
exit 1
