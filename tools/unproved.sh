#!/bin/bash
# tools/unproved.sh DIR: compiles the crate export with all that it stands on, unproved, to DIR/libexport.a, so that the benchmark can be built over code
# before it is proved:
#     rustc --edition 2024 -C opt-level=3 -C codegen-units=1 -o DIR/bench -L DIR -l static=export bench/main.rs
# `rt try` compiles a program that calls the exported functions; its module is taken at -O3, its functions are made visible, and a wrapper in C has
# their names. What it makes is for timing alone.
set -eu
cd "$(dirname "$0")/.."
mkdir -p "$1"
out=$(cd "$1" && pwd)
work=$(mktemp -d)
trap 'rm -rf "$work"' EXIT
kit=$(dirname "$(dirname "$(readlink -f "$(command -v rt)")")")
tools=$kit/on/$(uname -m)/toolchain

cp -r crates crates.txt "$work"
mkdir -p "$work/crates/lib0/src"
cat >"$work/crates/lib0/src/main.rt" <<'M'
fn main() {
    let mut input = [0u8; 1329];
    let n = io::read_full(libc::STDIN_FILENO, &mut input);
    let mut out = [0u8; 20];
    let mut drops = [0u64; 20];
    let plan = [0u8; 20];
    let mut a = 0u64;
    let mut b = 0u64;
    let mut c = 0u64;
    let mut d = 0u64;
    let mut e = 0u64;
    let r = export::jigbalo_read(&input[..n], &mut a, &mut b, &mut c, &mut d, &mut e);
    let s = export::jigbalo_score(&input[..n], &plan[..], &mut a, &mut b);
    let t = export::jigbalo_sweep(&input[..n], &plan[..], &mut drops[..], &mut a, &mut b);
    let u = export::jigbalo_filter(&input[..n], &plan[..], 0, &mut out[..], &mut a, &mut b);
    let v = export::jigbalo_search(&input[..n], &plan[..], 3, 0, &mut out[..], &mut a, &mut b, &mut c);
}
M
sed -n 's/^export:\(.*\)/lib0:\1 export io libc/p' crates.txt >>"$work/crates.txt"

# a toolchain whose clang keeps the module that it compiles at -O3
cp -rs "$tools" "$work/tools"
rm "$work/tools/bin/clang"
printf '#!/bin/sh\ncase "$*" in *-O3*) cp module.bc %s/module.bc ;; esac\nexec %s/bin/clang "$@"\n' "$work" "$tools" >"$work/tools/bin/clang"
chmod +x "$work/tools/bin/clang"
sed "s,^tools=.*,tools=$work/tools," "$kit/bin/rt" >"$work/rt"
(cd "$work" && RATTLE_HOME=$kit sh "$work/rt" try lib0) >"$work/say" 2>&1 || cat "$work/say"

cd "$work"
clang="$tools/bin/clang --target=x86_64-unknown-linux-gnu"
$clang -S -emit-llvm -x ir module.bc -o m.ll -Wno-everything
sed -i -E 's/^define (internal|private|hidden)([^@]*@"?([^"( ]*)?jigbalo_)/define \2/; s/@main\(/@lib0_main(/g' m.ll
$clang -march=x86-64 -ffunction-sections -fdata-sections -mllvm -trap-unreachable -mllvm -no-trap-after-noreturn -c -x ir m.ll -o m.o -fPIE -O3 -Xclang -fmerge-functions -mllvm -mergefunc-use-aliases -Wno-everything
for f in read score sweep filter search; do objcopy --redefine-sym export::jigbalo_$f=x_$f m.o; done
cat >shim.c <<'C'
typedef unsigned long u64; typedef unsigned u32; typedef struct { void *p; u64 n; } S;
u64 x_read(S*,u64*,u64*,u64*,u64*,u64*); u64 x_score(S*,S*,u64*,u64*); u64 x_sweep(S*,S*,S*,u64*,u64*);
u64 x_filter(S*,S*,u32,S*,u64*,u64*); u64 x_search(S*,S*,u32,u32,S*,u64*,u64*,u64*);
u64 jigbalo_read(void*a,u64 n,u64*b,u64*c,u64*d,u64*e,u64*f){S s={a,n};return x_read(&s,b,c,d,e,f);}
u64 jigbalo_score(void*a,u64 n,void*b,u64 m,u64*c,u64*d){S s={a,n},p={b,m};return x_score(&s,&p,c,d);}
u64 jigbalo_sweep(void*a,u64 n,void*b,u64 m,void*c,u64 l,u64*d,u64*e){S s={a,n},p={b,m},o={c,l};return x_sweep(&s,&p,&o,d,e);}
u64 jigbalo_filter(void*a,u64 n,void*b,u64 m,u32 q,void*c,u64 l,u64*d,u64*e){S s={a,n},p={b,m},o={c,l};return x_filter(&s,&p,q,&o,d,e);}
u64 jigbalo_search(void*a,u64 n,void*b,u64 m,u32 k,u32 q,void*c,u64 l,u64*d,u64*e,u64*f){S s={a,n},p={b,m},o={c,l};return x_search(&s,&p,k,q,&o,d,e,f);}
C
gcc -O2 -c shim.c -o shim.o
rm -f "$out/libexport.a"
ar rc "$out/libexport.a" m.o shim.o
