# Sourced by the harness's commands: gets the crates to compare with, builds the library, builds the harness.
#
# Leaves the programs in $programs, and exports TBAUNARITH_LIB and, where a wasm-tools was found, TBAUNARITH_WASM_TOOLS.
#   TBAUNARITH_ORACLE  folder whose `build` and `peers` get the crates where cargo reaches no registry
#                      (default: shared/oracle beside the repository)
#   TBAUNARITH_LIB     folder of a libcabi.a to take as it is (default: tools/staticlib makes one)
set -euo pipefail
harness=$(cd "$(dirname "${BASH_SOURCE[0]}")" && pwd)
repository=$(dirname "$harness")
oracle=${TBAUNARITH_ORACLE:-$repository/../shared/oracle}
obtained=$harness/target/obtained
programs=$harness/target/release

# Runs a command whose output is of interest only when it fails: quietly WHAT COMMAND...
quietly() {
  local what=$1 log=$harness/target/$1.log
  shift
  "$@" >"$log" 2>&1 || { tail -n 30 "$log" >&2; echo "$what failed" >&2; return 1; }
}

# The static library, proved and built, unless it is newer than everything that it is made of.
build_library() {
  local library=$repository/target/staticlib/libcabi.a
  if [ -n "${TBAUNARITH_LIB:-}" ]; then
    echo "library: the one in TBAUNARITH_LIB, as it is"
  else
    TBAUNARITH_LIB=$(dirname "$library")
    if [ -f "$library" ] && [ -z "$(find "$repository/crates" "$repository/crates.txt" -name out -prune -o -newer "$library" -type f -print -quit)" ]; then
      echo "library: as tools/staticlib made it; no crate is newer"
    else
      echo "library: tools/staticlib"
      (cd "$repository" && quietly staticlib tools/staticlib)
    fi
  fi
  TBAUNARITH_LIB=$(cd "$TBAUNARITH_LIB" && pwd)
  export TBAUNARITH_LIB
}

# Whether cargo gets the published crates. One try, without waiting long: most machines that have no registry have no network.
registry_serves() {
  rm -f "$harness/Cargo.lock"
  (cd "$harness" && CARGO_NET_RETRY=0 CARGO_HTTP_TIMEOUT=10 timeout 60 cargo fetch) >"$harness/target/registry.log" 2>&1
}

# The crates made of Debian's packages and the given text, and the config file that puts them in the registry's place.
make_comparison_crates() {
  [ -x "$oracle/build" ] || { echo "no crate registry, and TBAUNARITH_ORACLE names no folder with build and peers" >&2; return 1; }
  quietly crate "$oracle/build" "$obtained/crate"
  quietly peers "$oracle/peers" "$obtained/peers"
  rm -f "$harness/Cargo.lock"
  cat >"$obtained/config.toml" <<CONFIG
[source.crates-io]
replace-with = "peers"

[source.peers]
directory = "$obtained/peers/registry"

[patch.crates-io]
wasm-encoder = { path = "$obtained/crate/wasm-encoder" }
CONFIG
}

# wasm-encoder and wasmparser, from the registry or made; kept, so that a second run finds them.
obtain_crates() {
  mkdir -p "$obtained"
  if [ ! -f "$obtained/which" ]; then
    if registry_serves; then
      : >"$obtained/config.toml"
      echo "wasm-encoder 0.262.0 and wasmparser 0.239.0 from the crate registry" >"$obtained/which.new"
    else
      make_comparison_crates
      echo "comparison crate of wasm-encoder 0.262.0 (its component part; core parts of 0.239.0), wasmparser 0.239.0 of Debian" >"$obtained/which.new"
    fi
    mv "$obtained/which.new" "$obtained/which"
  fi
  echo "crates:  $(cat "$obtained/which")"
}

# The peers' wasm-tools on the loader and the libc that came with it, whatever the processor: its own command names x86-64's.
peers_wasm_tools() {
  local root=$obtained/peers/root loader
  loader=$(find "$root/usr/lib" -type f -name 'ld-linux-*.so.*' 2>/dev/null | head -n 1)
  [ -n "$loader" ] && [ -x "$root/usr/bin/wasm-tools" ] || return 1
  cat >"$obtained/wasm-tools" <<COMMAND
#!/bin/sh
exec "$loader" --library-path "$(dirname "$loader")" "$root/usr/bin/wasm-tools" "\$@"
COMMAND
  chmod +x "$obtained/wasm-tools"
  "$obtained/wasm-tools" --version >/dev/null 2>&1
}

# A wasm-tools: the peers' one, got now where the registry served; else the one on the PATH; else none.
find_wasm_tools() {
  local tools=$obtained/wasm-tools
  if [ ! -d "$obtained/peers/root" ] && [ -x "$oracle/peers" ]; then
    quietly peers "$oracle/peers" "$obtained/peers" || true
  fi
  peers_wasm_tools || tools=$(command -v wasm-tools || true)
  if [ -n "$tools" ]; then
    export TBAUNARITH_WASM_TOOLS=$tools
    echo "tools:   $("$tools" --version)"
  else
    echo "tools:   no wasm-tools found"
  fi
}

# Everything, in order.
build_all() {
  obtain_crates
  find_wasm_tools
  build_library
  (cd "$harness" && cargo build --quiet --release --offline --config "$obtained/config.toml")
}
