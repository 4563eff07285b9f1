#!/bin/sh
# Proves the crate export_c and the printer's numbers and makes static libraries of both, builds the benchmark over them, and runs it.
# bench/run.sh [--before COMMIT] [REQUESTS]: a commit's libraries are made too, and timed beside the others; the number is that of the requests
# to compare.
set -eu
cd "$(dirname "$0")/.."
out=target/bench
mkdir -p $out
set -- "$@" ''

# printer TREE NAME: the printer's number as NAME_number. No crate exports it: a tree that is a copy gets a static library `printer` over its crate
# writing, whose text is laid out as C does.
printer() {
    mkdir -p "$1/crates/printer/src"
    if [ -e "$1/crates/writing/src/text.rt" ]; then
        cp bench/printer.rt.txt "$1/crates/printer/src/lib.rt"
        sed -i 's/^pub struct Text /#[repr(C)]\n&/' "$1/crates/writing/src/text.rt"
    else
        cp bench/printer_before.rt.txt "$1/crates/printer/src/lib.rt"
    fi
    echo 'printer staticlib: diagram writing' >>"$1/crates.txt"
    (cd "$1/crates/printer" && rt lib >/dev/null)
    objcopy --redefine-sym put_number="$2_number" "$1/crates/printer/out/libprinter.a" "$out/lib$2_printer.a"
}

# placed ARCHIVE NAME ARRAY: the library four times, as NAME0 to NAME3, each 16 bytes further in a line of 64, since a time hangs on where a loop stands in
# it. Each has functions of its own names, and a module with them, which stand in ARRAY.
placed() {
    archive=$(realpath "$1")
    for i in 0 1 2 3; do
        rm -rf "$out/$2$i" && mkdir "$out/$2$i"
        (
            cd "$out/$2$i"
            ar x "$archive"
            printf '.section .text.pad,"axR"\n.p2align 6\n.skip %d\n.section .note.GNU-stack,""\n' $((64 + 16 * i)) | as -o pad.o
            ld -r -o ../"$2$i.o" pad.o $(ar t "$archive")
        )
        objcopy $(for f in read score sweep filter search; do echo "--redefine-sym jigbalo_$f=$2${i}_$f --keep-global-symbol=$2${i}_$f"; done) "$out/$2$i.o"
        rm -f "$out/lib$2$i.a" && ar rc "$out/lib$2$i.a" "$out/$2$i.o"
        sed "s/jigbalo_/$2${i}_/" examples/jigbalo.rs >"$out/$2$i.rs"
        printf '#[allow(dead_code)]\n#[path = "%s.rs"]\nmod %s;\n' "$2$i" "$2$i" >>$out/placed.rs
        flags="${flags-} -l static=$2$i"
    done
    printf 'pub static %s: [Placed; 4] = [placed!(%s), placed!(%s), placed!(%s), placed!(%s)];\n' "$3" "${2}0" "${2}1" "${2}2" "${2}3" >>$out/placed.rs
}

cat >$out/placed.rs <<'R'
use crate::jigbalo::{Finding, Refusal};
use crate::timing::Placed;
macro_rules! placed {
    ($library:ident) => {
        Placed {
            read: |file| $library::read(file).is_ok(),
            sweep: |file, plan, drops| $library::sweep(file, plan, drops).is_ok(),
            search: |file, plan, kits, percent, out| {
                let found = $library::search(file, plan, kits, percent, out);
                let found = found.map(|f| Finding { score: f.score, visits: f.visits });
                found.map_err(|r| Refusal { number: r.number, place: r.place })
            },
        }
    };
}
R
if [ "$1" = --before ]; then
    rm -rf $out/before && mkdir $out/before
    git archive "$2" | tar -x -C $out/before
    (cd $out/before/crates/export_c && rt lib >/dev/null)
    placed $out/before/crates/export_c/out/libexport_c.a before BEFORE
    printer $out/before before
    flags="$flags --cfg before -l static=before_printer"
    shift 2
else
    echo 'pub static BEFORE: [Placed; 0] = [];' >>$out/placed.rs
fi
(cd crates/export_c && rt lib >/dev/null)
cp crates/export_c/out/libexport_c.a $out/libexport.a
placed $out/libexport.a library LIBRARY
rm -rf $out/copy && mkdir $out/copy
tar -c --exclude=out crates crates.txt | tar -x -C $out/copy
printer $out/copy library
rm -rf $out/copy
rustc --edition 2024 -C opt-level=3 -C codegen-units=1 --check-cfg 'cfg(before)' $flags -o $out/bench -L $out -l static=library_printer -l static=export bench/main.rs
$out/bench ${1:-200000}
