#!/bin/sh
# Runs `plan` on input that comes in pieces, and on input after which more would follow: it must print at once, without waiting for the end.
# The gate does not run it: a program there has one file for its input, and no pipe on which to wait.
set -eu
cd "$(dirname "$0")/.."
plan=crates/plan/out/plan
job=crates/plan/stdin
(head -c 3 $job; sleep 0.2; tail -c +4 $job | head -c 10; sleep 0.2; tail -c +14 $job) | $plan | cmp - crates/plan/stdout
mkfifo "${TMPDIR:-/tmp}/plan.$$"
trap 'rm -f "${TMPDIR:-/tmp}/plan.$$"' EXIT
(head -c 1329 /dev/zero; sleep 5) > "${TMPDIR:-/tmp}/plan.$$" &
timeout 2 $plan < "${TMPDIR:-/tmp}/plan.$$" | grep -qx "refused 10 0"
echo "in pieces: the same; more to follow: not waited for"
