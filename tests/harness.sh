# Sourced by what needs reference/: builds all of it once, tests too, with the proved portal linked, and sees that the proved programs are there.
# After it: $REPLAY, $HISTORY, $ROUNDS, $CLEAN, $ARRANGE, $PORTAL_LIB_DIR and $harness, the folder of the programs. What is built stays for the next test.
cd "$(dirname "${BASH_SOURCE[0]}")/.."
export REPLAY=$PWD/target/bin/replay HISTORY=$PWD/target/bin/history ROUNDS=$PWD/target/bin/rounds CLEAN=$PWD/target/bin/clean ARRANGE=$PWD/target/bin/arrange
export PORTAL_LIB_DIR=$PWD/include

# A file that is missing or older than a source. (What rt keeps in crates/*/out is none, nor is an edit.)
stale() { [ ! -e "$1" ] || [ -n "$(find crates crates.txt '(' -name out -o -name edits -o -name must-fail ')' -prune -o -type f -newer "$1" -print -quit)" ]; }

if stale "$PORTAL_LIB_DIR/libportal.a"; then make --silent lib; fi
programs=(target/bin/board target/bin/inspect target/bin/summary "$REPLAY" "$HISTORY" "$ROUNDS" "$CLEAN" "$ARRANGE")
for file in "${programs[@]}"; do
  if stale "$file"; then make --silent programs; break; fi
done
for file in "$PORTAL_LIB_DIR/libportal.a" "${programs[@]}"; do
  [ -e "$file" ] || { echo "$file is missing" >&2; exit 1; }
done
cargo build --manifest-path reference/Cargo.toml --workspace --release --offline --quiet
harness=reference/target/release
