# Sourced by search.sh, here and in ../bench, with `root` set to the folder of the project: which writings of the search are at hand, and
# programs that ask them.
# RUST=0 leaves the Rust out, and so does a source that is not at hand (BLAISE, as in oracle/build.sh). OURS=0 leaves ours out. RAYON=1 takes
# the real rayon as Debian's librust-rayon-dev has it, RAYON=FOLDER from a folder of crates, RAYON=0 leaves it out.
[ -z "${BLAISE:-}" ] || { BLAISE=$(cd "$BLAISE" && pwd); export BLAISE; }
case ${RAYON:-1} in                     # the folder that holds the real rayon and the crates it needs, or nothing
0) crates='' ;;
1) crates=$(dpkg -L librust-rayon-dev 2>/dev/null | sed -n 's|/rayon-[0-9.]*/Cargo.toml$||p') ;;
*) crates=$(cd "$RAYON" && pwd) ;;
esac
built=$root/target/compare rust=1
mkdir -p "$built"
if [ "${RUST:-1}" = 0 ]; then
    rust=0
elif [ -n "${BLAISE:-}" ] || [ -d "$root/../shared/docs/src" ]; then
    "$root/oracle/build.sh"
else
    echo "the Rust's source is not at hand (BLAISE): it is left out"
    rust=0
fi
[ "${OURS:-1}" = 0 ] || "$root/compare/native.sh" kiosk_c "$root/target/native/kiosk_c.o"

has_rayon() {
    [ $rust = 1 ] && ls -d "$crates"/rayon* > /dev/null 2>&1 && return
    echo "the real rayon is not at hand (RAYON): the Rust is not asked over it"
    false
}

# build OUT PROFILE KIND SOURCE..: the program of these sources and of those that all have, with the Rust in this profile; KIND is `threads`
# for the Rust over the real rayon too, `counting` for one that counts its heap bytes, or `plain`.
build() {
    out=$1 profile=$2 kind=$3 folder=rust library=rust_search with='' options=''
    shift 3
    case $kind in
    threads) folder=rust/threads library=rust_threads with=-DTHREADS options="source.given.directory='$crates'" ;;
    counting) with=-DCOUNTING ;;
    esac
    if [ $rust = 1 ]; then
        (
            set -- --config "$root/compare/rust/profiles.toml" --profile "$profile" --target-dir "$built/$library"
            [ -z "$options" ] || set -- "$@" --config "source.crates-io.replace-with='given'" --config "$options"
            [ "$kind" != counting ] || set -- "$@" --features counting
            cd "$root/compare/$folder" && cargo rustc --quiet --offline --crate-type staticlib "$@"
        )
        with="$with -DRUST $built/$library/$profile/lib$library.a"
    else
        with=''
    fi
    [ "${OURS:-1}" = 0 ] || with="$with -DOURS $root/target/native/kiosk_c.o"
    for f in absent writings drawn journeys lines city dice network face; do set -- "$@" "$root/compare/$f.c"; done
    cc -O3 -o "$out" "$@" "$root/plain/search.c" "$root/plain/check.c" "$root/plain/judge.c" $with -lm -lpthread -ldl
}
