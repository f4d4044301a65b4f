#!/bin/sh
# Proves the library and keeps the LLVM module that its code is, as text that names no processor:
#
#   target/targets/module.ll    for a processor with room
#   target/targets/small.ll     the same, to be compiled for size, but for the crates that run at each event of a trace
#
# The toolchain hands the module to its own clang, once the proof is done. So it runs here over a folder of links to it in
# which clang is a script that keeps the module aside and goes on as the real one. `make -C targets` runs this.
set -eu

cd "$(dirname "$0")/.."
work=$PWD/target/targets

fail() {
    echo "targets: $*" >&2
    exit 1
}

# An archive stands only beside sources that are proved: what was built of others goes.
rm -rf "$work" target/panel target/web
mkdir -p "$work"

command -v rt > /dev/null || fail "rt not found: install the Rattle toolchain, no archive is built without a proof"
kit=$(dirname "$(rt doc)")
real=$kit/toolchain/bin/clang
test -x "$real" || fail "the toolchain of rt has no clang at toolchain/bin"

# Fills a folder with links to all that stands in another, but for the entries that are named.
links() {
    from=$1 to=$2
    shift 2
    mkdir -p "$to"
    for each in "$from"/*; do
        case " $* " in *" ${each##*/} "*) ;; *) ln -s "$each" "$to/" ;; esac
    done
}

# rt takes the kit where it stands itself, so its two scripts are files here.
links "$kit" "$work/rattle" bin toolchain
links "$kit/bin" "$work/rattle/bin" rt rtlib.py
cp "$kit/bin/rt" "$kit/bin/rtlib.py" "$work/rattle/bin/"
links "$kit/toolchain" "$work/rattle/toolchain" bin
links "$kit/toolchain/bin" "$work/rattle/toolchain/bin" clang
cat > "$work/rattle/toolchain/bin/clang" << END
#!/bin/sh
for word; do
    case \$word in *.bc) cp "\$word" "$work/module.bc" ;; esac
done
exec "$real" "\$@"
END
chmod +x "$work/rattle/toolchain/bin/clang"

echo "rt lib in crates/crepulanter_c: proving and building, some minutes"
if ! (cd crates/crepulanter_c && "$work/rattle/bin/rt" lib --cpu=x86-64) > "$work/rt.log" 2>&1; then
    unproved=$(sed -n 's/^fn \(.*\): no proof:.*$/\1/p' "$work/rt.log" | head -n 1)
    fail "${unproved:-crepulanter_c} is not proved and no archive is built: target/targets/rt.log says why"
fi
test -s "$work/module.bc" || fail "rt handed no module to clang: target/targets/rt.log has what it said"

# clang answers to the names of its own tools.
for name in clang llvm-ar wasm-ld; do
    ln -s "$real" "$work/$name"
done

# What names x86-64 goes: triple, layout, processor, and the probes of a stack that a system lets grow. A call of C returns
# its byte in a whole register, which on x86-64 the caller widens and on the others the callee has to. And an optional pointer
# is stored as a byte with the pointer 8 bytes behind it, but taken out as a pair of the two, which would stand closer where a
# pointer is 4 bytes: the pair gets the 7 bytes between. An address is taken as a number of 64 bits by a word that wants the
# pointer's own size; the older word widens it.
"$work/clang" --target=x86_64-unknown-linux-gnu -S -emit-llvm -x ir "$work/module.bc" -o "$work/x86-64.ll"
sed -e '/^target /d' -e 's/ "target-cpu"="x86-64"//' -e 's/ "probe-stack"="[^"]*" "stack-probe-size"="[^"]*"//' \
    -e 's/^define noundef i8 @crep_/define noundef zeroext i8 @crep_/' \
    -e 's/= ptrtoaddr ptr /= ptrtoint ptr /' -e 's/\(extractvalue { i8, ptr } %[^,]*, \)1/\12/' -e 's/{ i8, ptr }/{ i8, [7 x i8], ptr }/g' "$work/x86-64.ll" > "$work/module.new"
sed -e '/^define .*@"\(chip\|trace\)::/! s/^\(define .*\) #0 {$/\1 optsize #0 {/' "$work/module.new" > "$work/small.ll"

# Nothing of x86-64 is left, every C call has its word, memory is named by bytes, a pointer in the room of 64 bits, and the
# structs are those whose places are the same on every processor: so no processor's layout is in it. Functions are for size or not.
known() {
    ! grep -q -e x86 -e ptrtoaddr "$work/module.new" \
        && ! grep '^define .*@crep_' "$work/module.new" | grep -q -v ' zeroext i8 @' \
        && ! grep getelementptr "$work/module.new" | grep -q -v -E 'getelementptr (inbounds |nuw )*i8,' \
        && ! grep -o '{ [^{}]*[,0-9r] [^{}]*}' "$work/module.new" \
            | grep -q -v -E '^\{ (i8, (i8|i16|i32|i64|\[7 x i8\], ptr)|ptr, i64) \}$' \
        && grep -q '^define .*@crep_.* optsize #0 {$' "$work/small.ll" \
        && grep -q '^define .*@"trace::.*) #0 {$' "$work/small.ll"
}
known || fail "the module is not of the form that module.sh knows: look at target/targets/x86-64.ll"
mv "$work/module.new" "$work/module.ll"
