#!/bin/sh
# What bin/gbus says in a tree of four crates, where scripts stand for the kit's commands: nothing
# built, a build that fails and is begun again, the program, sources that change, and the libraries.

folder=$(mktemp -d) || exit 1
trap 'rm -rf "$folder"' EXIT
tree="$folder/a tree"
mkdir -p "$tree/tools" "$tree/docs" "$folder/bin"
cp -r bin "$tree"
printf '%s\n' 'words run | a report' 'words run --hex | the same' 'words dump | a dump' \
    'words drive N | a summary' 'form boot' >"$tree/tools/forms.txt"
for crate in gb_low gb_other gbus gbus_c; do
    mkdir -p "$tree/crates/$crate/src" "$tree/crates/$crate/specs"
    : >"$tree/crates/$crate/src/lib.rt"
    : >"$tree/crates/$crate/specs/Lib.antt"
done
printf '%s\n' 'gb_low: hex' 'gb_other: gb_low' 'gb_apart: gb_low' 'gbus: gb_low gb_other' \
    'gbus_c staticlib: core gb_low' >"$tree/crates.txt"
printf '%s\n' '| Crate | Lines | Proof | Tests |' '|---|---|---|---|' \
    '| gb_low | 2,244 | 600 |  |' \
    '| gbus | 10 | 1,140 | 5 |' >"$tree/docs/ARCHITECTURE.md"
find "$tree" -exec touch -t 200001010000 {} +

cat >"$folder/bin/rt" <<'END'
#!/bin/sh
crate=${PWD##*/}
case $1 in
    try)
        shift 2
        if [ "$1" = dump ]; then
            echo 'checked: no-answer: the program wrote more than 1048576 bytes to it' >&2
            exit 6
        fi
        echo "unproved $*: $(cat)"
        printf '%s\n' 'input too long' 'checked: ended status=3' 'run=ended status=3 proved=no' >&2
        exit 3
        ;;
    lib)
        [ "$crate" != gb_low ] || echo "rt: waiting for another rt to finish in $PWD" >&2
        printf '%s\n' 'a: proved' "error: $crate isn't proved"
        [ "$crate" != "$REFUSED" ] || exit 1
        [ "$crate" != gbus_c ] || { mkdir -p out && echo calls >out/libgbus_c.a; }
        ;;
    doc)
        echo "${0%/bin/rt}/kit/START-HERE.md"
        ;;
    run)
        printf '%s\n' '#!/bin/sh' 'echo "proved $*: $(cat)"' >out/gbus
        chmod +x out/gbus
        ;;
esac
END
mkdir -p "$folder/kit/c" "$folder/kit/toolchain/bin"
echo heap >"$folder/kit/c/liblibc_c.a"
cat >"$folder/kit/toolchain/bin/llvm-ar" <<'END'
#!/bin/sh
read -r _ name
sed -n 's/^addlib //p' | xargs cat >"$name"
END
cat >"$folder/kit/toolchain/bin/ld.lld" <<'END'
#!/bin/sh
[ -z "$UNLINKED" ] || exit 1
while [ "$1" != -o ]; do shift; done
cat libgbus.a >"$2"
END
chmod +x "$folder/bin/rt" "$folder/kit/toolchain/bin"/*
PATH=$folder/bin:$PATH
export PATH

# runs WORD..: what the script writes and says, and its status.
runs() {
    echo "\$ gbus $*"
    echo 'the input' | "$tree/bin/gbus" "$@" >"$folder/written" 2>&1
    echo "status $?" >>"$folder/written"
    sed -e "s|$folder|FOLDER|" -e 's/build\.[0-9]*\.log/build.N.log/' \
        -e 's/built in [0-9]* min/built in N min/' "$folder/written"
}

# later FILE..: the files were changed after the program was built.
later() {
    touch -t 203801010000 "$@"
}

runs
runs --help
runs rum
runs drive 01
runs run --hex
runs dump
REFUSED=gb_other runs build
runs build
runs build
runs run
later "$tree/crates/gb_low/src/lib.rt"
runs run
touch -t 200001010000 "$tree/crates/gb_low/src/lib.rt"
runs run
rm "$tree/crates/gb_other/specs/Lib.antt"
later "$tree/crates/gb_other/specs"
runs run
rm -r "$tree/crates/gb_other/specs"
runs run
REFUSED=gbus_c runs lib
runs lib
runs lib
cat "$tree/crates/gbus_c/out/libgbus.so"
UNLINKED=1 runs lib
ls "$tree/crates/gbus_c/out"
later "$tree/crates/gb_low/src/lib.rt"
runs lib
