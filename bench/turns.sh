#!/bin/sh
# Measures turns at the turnstile, alone and in threads: a program over the counters of its tests, made in a folder of its own.
cd "$(dirname -- "$0")/.." || exit 1
work=$(mktemp -d) || exit 1
trap 'rm -rf "$work"' EXIT
trap 'exit 1' HUP INT TERM
git init -q "$work" || exit 1
mkdir -p "$work/crates/turn_bench/src" "$work/crates/executive_tests/src" "$work/crates/executive_tests/proofs"
cp -r crates/turnstile "$work/crates/" && cp HANDLES "$work/" || exit 1
rm -rf "$work/crates/turnstile/out" "$work/crates/turnstile/must-fail"
printf 'turnstile: atomic_table crossbeam_utils\nexecutive_tests: turnstile\nturn_bench: turnstile executive_tests\n' >"$work/crates.txt"

# The counters of the tests become a library.
tests=$work/crates/executive_tests
cp -r crates/executive_tests/src/turns crates/executive_tests/src/turns.rt "$tests/src/" || exit 1
cp -r crates/executive_tests/proofs/turns "$tests/proofs/" && cp -r crates/executive_tests/specs "$tests/" || exit 1
printf '//! The counters of the tests.\n#![tactic(auto)]\n\npub mod turns;\n' >"$tests/src/lib.rt"
sed -i 's/^mod \(counters\|rounds\);/pub mod \1;/; /^use rounds/,$d' "$tests/src/turns.rt"
cat >"$work/crates/turn_bench/src/main.rt" <<'END'
//! Measures turns.
#![tactic(auto)]

use executive_tests::turns::rounds::counted;
use std::io;
use std::time::Instant;

fn main(rt: HostRuntime) -> io::Result<()> {
    for (threads, each) in [(1u32, 10_000_000u32), (2, 1_000_000), (4, 100_000)] {
        for _ in 0..5u32 {
            let start = Instant::now(&rt)?;
            let counters = counted(&rt, rt.alloc(), threads, each).counters;
            let time = start.elapsed(&rt)?.as_micros();
            let made = counters.len();
            println!(rt; "{made} threads of {each} turns: {time} us")?;
        }
    }
    Ok(())
}
END
(cd "$work/crates/turn_bench" && rt run) | awk '/ us$/ { printf "%s, %.2f million turns a second\n", $0, $1 * $4 / $6 }'
