# Sourced by run and compare, from the repository's root: how the program is built that times our tables beside the Rust's.

# the_rust SOURCES OUT: the Rust's files as prepared for the tests, compiled twice into the folder OUT: once with the machine's functions behind the methods,
# once with ours. It exits with 3 where they are not there.
the_rust() {
    local sources=$1 out=$2 crate over
    if [ ! -d "$sources/crates/eunoia/src" ]; then
        echo "not run: the Rust's sources are not in $sources"
        exit 3
    fi
    local externs=()
    for crate in basin rand i_overlay; do
        rustc --edition 2021 -O --crate-type rlib --crate-name $crate -o "$out/lib$crate.rlib" "tests/differential/stubs/$crate.rs"
        externs+=(--extern "$crate=$out/lib$crate.rlib")
    done
    for over in libm ours; do
        mkdir "$out/$over"
        python3 tests/differential/prepare.py "$sources" "$out/$over"
        cp -r tests/differential/stubs tests/differential/modules.rs bench/table/rust.rs "$out/$over"
        case $over in
        libm) cp bench/table/libm.rs "$out/libm/ours.rs" ;;
        ours) cp tests/tables/ours.rs "$out/ours/ours.rs" ;;
        esac
        rustc --edition 2021 -C opt-level=3 -C codegen-units=1 --crate-type rlib --crate-name "over_$over" "${externs[@]}" -L "$out" \
            -o "$out/libover_$over.rlib" "$out/$over/rust.rs"
    done
}

# program OUT LIBRARY PROGRAM [FLAG..]: over what the_rust left in OUT and over the folder of a libwatered.a.
program() {
    local out=$1 library=$2 to=$3
    shift 3
    rustc --edition 2021 -C opt-level=3 --crate-name table --extern "over_libm=$out/libover_libm.rlib" --extern "over_ours=$out/libover_ours.rlib" \
        -L "$out" -o "$to" bench/table/main.rs -L "$library" -l static=watered -l m "$@"
}
