#!/bin/sh
# Holds tools/staticlib to when it builds and to what it says, with a stand-in for rt over a small repository of its own; then looks that the
# library of this repository, which is built before, is not built again. Prints a line for each case that failed and then the count; fails if
# any did.
set -u
cd "$(dirname "$0")/.." || exit 2
root=$PWD
work=$(mktemp -d) || exit 2
trap 'rm -rf "$work"' EXIT
unset MAKEFLAGS MAKELEVEL
cargo=$(command -v cargo) || { echo "staticlib.sh: this needs cargo, which is not on the PATH." >&2; exit 2; }
passed=0
failed=0

# holds NAME COMMAND [WORD..]: COMMAND ends with status 0
holds() {
    name=$1
    shift
    if "$@"; then
        passed=$((passed + 1))
    else
        failed=$((failed + 1))
        echo "failed: $name; $(cat "$work/calls") builds so far, and tools/staticlib said:"
        cat "$work/said"
    fi
}

# ---- a small repository, and a stand-in for rt that builds what $work/build says and counts

mkdir -p "$work/bin" "$work/repository/tools" "$work/repository/rust/target/release"
cat >"$work/bin/rt" <<END
#!/bin/sh
case \$1 in
    version) cat "$work/version" ;;
    lib)
        [ "\${PWD##*/}" = perchmellow_c ] || exit 9
        echo \$((\$(cat "$work/calls") + 1)) >"$work/calls"
        mkdir -p out
        . "$work/build"
        ;;
    *) exit 9 ;;
esac
END
printf '#!/bin/sh\necho "cargo $*" >&2\n' >"$work/bin/cargo"
chmod +x "$work/bin/rt" "$work/bin/cargo"
echo kit one >"$work/version"
echo 0 >"$work/calls"
: >"$work/said"

cp "$root/tools/staticlib" "$work/repository/tools/"
cp "$root/Makefile" "$work/repository/"
ln -s /bin/true "$work/repository/rust/target/release/bench"
cd "$work/repository" || exit 2
printf '# crates\nlists:\ntables:\ncard: lists tables io\nperchmellow_c staticlib: card lists\naside: lists\n' >crates.txt
for crate in lists tables card perchmellow_c aside; do
    mkdir -p "crates/$crate/src" "crates/$crate/must-fail"
    echo "$crate" >"crates/$crate/src/lib.rt"
    echo "$crate" >"crates/$crate/must-fail/one.edit"
done
library=target/staticlib/libperchmellow.a

# what rt says of crates that it proves; of tables, which has not changed, it says nothing
cat >"$work/whole" <<'END'
echo "rt: lists: begins with what a check kept in /elsewhere"
echo "fn lists::first: proved"
echo "crate lists: modules loaded=0 checked=34"
echo "logic=proved functions=1 incremental=trusted"
echo "rt: chose --jobs 2 for card"
echo "library lists: modules loaded=0 checked=0"
echo "crate card: modules loaded=52 checked=0"
echo "logic=proved functions=7 incremental=trusted"
echo "fn perchmellow_c::perchmellow_start: proved"
echo "crate perchmellow_c: modules loaded=0 checked=34"
echo "axioms std: none reached of the 2 declared"
echo "logic=proved functions=10 target=x86_64-unknown-linux-gnu"
echo '!<arch>' >out/libperchmellow_c.a
END
cat >"$work/right" <<'END'
proving the library (some minutes from nothing) ...
proved: lists
proved: card
proved: perchmellow_c
END
cp "$work/whole" "$work/build"

calls() { cat "$work/calls"; }
run() { PATH="$work/bin:$PATH" tools/staticlib >"$work/said" 2>&1; }

# builds: a run builds, and says which crates were proved
builds() {
    before=$(calls)
    run && [ "$(calls)" -eq $((before + 1)) ] && cmp -s "$work/said" "$work/right"
}

# rests: a run neither calls rt to build nor touches the library nor says anything
rests() {
    before=$(calls) file=$(stat -c '%i %y' "$library")
    run && [ "$(calls)" -eq "$before" ] && [ "$(stat -c '%i %y' "$library")" = "$file" ] && [ ! -s "$work/said" ]
}

# again NAME: one run builds, and the next does not
again() {
    holds "$1" builds
    holds "$1, and the second run" rests
}

# ---- when it builds

again "from nothing"
find . -exec touch {} +
holds "files with other times" rests
echo more >>crates/lists/src/lib.rt
again "a source changed"
mkdir crates/card/specs
echo new >crates/card/specs/New.antt
again "a file more"
rm crates/card/specs/New.antt
again "a file less"
mv crates/card/src/lib.rt crates/card/src/main.rt
again "a file of another name"
echo more >>crates/aside/src/lib.rt
echo more >>crates/card/must-fail/one.edit
mkdir -p crates/lists/out
echo more >>crates/lists/out/lists.rlib
holds "files that the library is not made from" rests
echo '# more' >>crates.txt
again "crates.txt changed"
echo '# more' >>tools/staticlib
again "tools/staticlib changed"
echo kit two >"$work/version"
again "another kit"
echo other >"$library"
again "another library"
rm "$library"
again "no library"
echo other >target/staticlib/libperchmellow.stamp
again "another stamp"

# ---- builds that fail

# fails STATUS TEXT..: a run ends with that status and shows each TEXT, and the next run builds
fails() {
    run
    [ $? -eq "$1" ] || return
    shift
    for text in "$@"; do
        grep -qxF "$text" "$work/said" || return
    done
    cp "$work/whole" "$work/build"
    builds
}

# breaks: the source changes, and rt does what standard input says
breaks() {
    echo more >>crates/lists/src/lib.rt
    cat >"$work/build"
}

breaks <<'END'
echo "fn lists::first: no proof: expected answers in ./proofs/first/Answers.antt"
echo "crate lists: modules loaded=0 checked=0"
echo "logic=not-proved"
echo "rt: the library lists did not build, so nothing above it was checked" >&2
exit 1
END
holds "a crate that is not proved" fails 1 'fn lists::first: no proof: expected answers in ./proofs/first/Answers.antt' 'logic=not-proved' 'rt: the library lists did not build, so nothing above it was checked'
breaks <<'END'
echo "crate card: modules loaded=0 checked=0"
echo "logic=proved functions=1"
echo "perchmellow_c.rt:3: error: not so"
exit 3
END
holds "the last crate is not proved" fails 3 'proved: card' 'perchmellow_c.rt:3: error: not so'
breaks <<'END'
echo half >out/libperchmellow_c.a
exit 1
END
holds "half a library" fails 1 'perchmellow: rt did not prove and build the library; what it said stands above.'

# cut: tools/staticlib is killed in the middle of a build, and the next run builds
cut() {
    (
        PATH="$work/bin:$PATH" sh -c 'echo $$ >"$1"; exec tools/staticlib' sh "$work/pid"
        [ $? -eq 137 ]
    ) >"$work/said" 2>&1 || return
    # what was left of the run keeps the lock until it has ended
    ! command -v flock >/dev/null 2>&1 || flock target/staticlib/lock true
    cp "$work/whole" "$work/build"
    builds
}
breaks <<'END'
exit 0
END
holds "no library although rt says that all is well" fails 2
breaks <<END
echo half >out/libperchmellow_c.a
kill -KILL \$(cat "$work/pid")
END
holds "a build that is cut off" cut
holds "a build that is cut off, and the third run" rests

# changes: a source changes while it is proved and then is as before; the library may be of either, so the next run builds
changes() {
    cp crates/card/src/main.rt "$work/kept"
    run && grep -q 'changed while it was proved' "$work/said" || return
    cp "$work/kept" crates/card/src/main.rt
    cp "$work/whole" "$work/build"
    builds
}
breaks <<END
echo more >>../card/src/main.rt
. "$work/whole"
END
holds "a source that changes during the build" changes
holds "a source that changes during the build, and the third run" rests

# ---- two runs at once

# at_once: of two runs that begin together one builds, and the other waits for it
at_once() {
    before=$(calls)
    PATH="$work/bin:$PATH" tools/staticlib >"$work/other" 2>&1 &
    run
    status=$?
    wait $! && [ "$status" -eq 0 ] && [ "$(calls)" -eq $((before + 1)) ] &&
        cat "$work/said" "$work/other" | grep -q 'another run is proving the library' && cat "$work/said" "$work/other" | grep -q 'proved: perchmellow_c'
}
if command -v flock >/dev/null 2>&1; then
    breaks <<END
tries=0
until grep -q 'another run' "$work/said" "$work/other" || [ \$tries -eq 100 ]; do
    sleep 0.1
    tries=\$((tries + 1))
done
. "$work/whole"
END
    holds "two runs at once" at_once
    cp "$work/whole" "$work/build"
fi

# ---- make says what is proved before cargo runs, and nothing when nothing is

made() { PATH="$work/bin:$PATH" make -s "$1" TOOL=: >/dev/null 2>"$work/said"; }

# tells TARGET: what is proved, then cargo's own; and the second time cargo's alone
tells() {
    made "$1" && head -n 4 "$work/said" | cmp -s - "$work/right" && sed -n 5p "$work/said" | grep -q '^cargo ' &&
        made "$1" && head -n 1 "$work/said" | grep -q '^cargo '
}
for target in demo tool rust-test bench; do
    rm "$library"
    holds "make $target" tells "$target"
done

# ---- cargo builds it once for all its target folders, and links what was built last

mkdir -p rust/perchmellow/src
sed 's/^members = .*/members = ["perchmellow"]/' "$root/rust/Cargo.toml" >rust/Cargo.toml
cp "$root/rust/perchmellow/Cargo.toml" "$root/rust/perchmellow/build.rs" rust/perchmellow/
: >rust/perchmellow/src/lib.rs

# in_folder FOLDER: cargo builds the wrapper to that target folder
in_folder() { (cd rust && PATH="$work/bin:$PATH" CARGO_TARGET_DIR="$work/$1" "$cargo" build --quiet --offline) >"$work/said" 2>&1; }

two_folders() {
    rm "$library"
    before=$(calls)
    in_folder one && in_folder two && [ "$(calls)" -eq $((before + 1)) ]
}

# linked: cargo's own copy of the library
linked() { find "$work/two" -name libperchmellow.a; }

linked_anew() {
    rm "$(linked)" || return
    echo kit three >"$work/version"
    builds && in_folder two && [ -n "$(linked)" ]
}
holds "cargo with two target folders" two_folders
holds "cargo after another build" linked_anew

# ---- this repository's own library

real=$(command -v rt)
cat >"$work/bin/rt" <<END
#!/bin/sh
[ "\$1" != lib ] || exit 1
exec "$real" "\$@"
END
cd "$root" || exit 2
holds "the library of this repository" rests

echo "staticlib: $passed passed, $failed failed"
[ "$failed" -eq 0 ]
