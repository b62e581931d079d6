#!/bin/sh
# test.sh UPSTREAM: builds and tests the crates over upstream's sources, which this repository hasn't. `make -C c
# test-cargo` calls it.
#
# UPSTREAM is a checkout of regalloc2 at v0.15.2, or a crate with its sources, whose .cargo/config.toml counts.
# Without Ion in it, a stand-in takes Ion's place. REGALLOC2_C names the folder of libregalloc2_c.a, RA2 the program
# ra2, CARGO_TARGET_DIR where builds are kept.
set -u
[ $# -eq 1 ] && [ -f "$1/Cargo.toml" ] || { echo "usage: test.sh UPSTREAM, the folder of a crate with the sources of regalloc2 0.15.2"; exit 2; }
here=$(cd "$(dirname "$0")" && pwd)
made=$(mktemp -d)
trap 'rm -rf "$made"' EXIT
target=${CARGO_TARGET_DIR:-$made/target}
mkdir -p "$target" && target=$(cd "$target" && pwd) || exit 2
unset CARGO_TARGET_DIR
REGALLOC2_C=$(cd "${REGALLOC2_C:-$here/../crates/regalloc2_c/out}" && pwd) || exit 2
export REGALLOC2_C
python3 "$here/conform/upstream.py" "$1" "$made/regalloc2" >"$made/upstream" || exit 2
upstream=$(head -n 1 "$made/upstream")
features=$(sed -n 's/^stand-in$/--features regalloc2-conform\/stand-in/p' "$made/upstream")
patched="patch.crates-io.regalloc2.path=\"$upstream\""
failed=0

# step WHAT COMMAND..: runs a command, and says how it ended.
step() {
    what=$1
    shift
    if "$@" >"$made/log" 2>&1; then
        echo "ok      $what"
        sed -n -E 's/^[.]*([0-9]+ (outputs|functions)|accepted|Fastalloc:|upstream.s checker)/        \1/p' "$made/log"
    else
        cat "$made/log"
        echo "FAILED  $what"
        failed=1
    fi
}

# backend NAME ARGUMENTS..: runs the back end, and keeps what it prints.
backend() {
    name=$1
    shift
    cargo run --quiet --manifest-path "$made/backend/Cargo.toml" --target-dir "$target/$name" "$@" >"$made/$name.txt"
}

# The back end unchanged, over the drop-in by a patch. Upstream comes from git, as cargo/patch says, which here is a
# copy.
by_patch() {
    cp -r "$upstream" "$made/git" && cd "$made/git" && git init --quiet && git add --all &&
        git -c user.name=test -c user.email=test@localhost commit --quiet -m test && git tag v0.15.2 || return 1
    cd "$upstream" || return 1
    GIT_CONFIG_COUNT=1 GIT_CONFIG_KEY_0="url.file://$made/git.insteadOf" GIT_CONFIG_VALUE_0=https://github.com/bytecodealliance/regalloc2
    CARGO_NET_GIT_FETCH_WITH_CLI=true CARGO_HOME="$made/home"
    export GIT_CONFIG_COUNT GIT_CONFIG_KEY_0 GIT_CONFIG_VALUE_0 CARGO_NET_GIT_FETCH_WITH_CLI CARGO_HOME
    set -- --config net.offline=false --config "patch.crates-io.regalloc2.path=\"$here/patch\""
    backend patched "$@" && cargo tree --manifest-path "$made/backend/Cargo.toml" "$@" -i regalloc2@0.15.200
}

cp -r "$here/conform/backend" "$made/backend" || exit 2
cd "$upstream" || exit 2
[ -n "${RA2:-}" ] || echo "RA2 names no program: no verdict is compared with that of ra2"
# shellcheck disable=SC2086
step "the tests of the crates" cargo test --quiet --workspace $features --manifest-path "$here/Cargo.toml" --target-dir "$target" \
    --config "$patched" -- --nocapture
step "the documentation" env RUSTDOCFLAGS="-D warnings" cargo doc --quiet --no-deps --manifest-path "$here/Cargo.toml" --target-dir "$target" \
    --config "$patched" -p regalloc2-proved-sys -p regalloc2-judge -p regalloc2-proved
step "a back end over upstream" backend plain --config "$patched"
sed -i "s|^regalloc2 = .*|regalloc2 = { package = \"regalloc2-proved\", path = \"$here/regalloc2-proved\" }|" "$made/backend/Cargo.toml"
step "the same over the drop-in, with another dependency" backend renamed --config "$patched"
step "its code runs the same" cmp "$made/plain.txt" "$made/renamed.txt"
cp "$here/conform/backend/Cargo.toml" "$made/backend/Cargo.toml"
rm -f "$made/backend/Cargo.lock"
step "the same over the drop-in, by a patch" by_patch
step "its code runs the same" cmp "$made/plain.txt" "$made/patched.txt"
exit $failed
