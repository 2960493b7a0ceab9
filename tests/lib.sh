# What the tests of the programs share. Jobs are written in hexadecimal, as in the paper: spaces and line ends are left out.

work=$(mktemp -d)
trap 'rm -rf "$work"' EXIT
checked=0

# The path of a program, which is built where it is missing.
program() {
  [ -x "target/bin/$1" ] || bash tools/build "$1" >&2
  echo "$PWD/target/bin/$1"
}

# Bytes from hexadecimal.
bytes() { printf '%s' "$*" | xxd -r -p; }

# So many times the same text.
times() { local i out=; for ((i = 0; i < $1; i++)); do out+=$2; done; printf '%s' "$out"; }

# The parts of a job: two variables, public 0 and house 7; a root of value 10 and a child of value 3, all levels 0.
two='00000000 00000000 01000000 07000000'
root='ffff 00 00 00 000000 0a000000'
child='0000 00 00 00 000000 03000000'

# Fails with what was expected and what came, where two files differ.
same() { # WHAT EXPECTED GOT
  if ! cmp -s "$2" "$3"; then
    echo "FAILED: $1" >&2
    echo '--- expected' >&2
    head -c 2000 "$2" >&2
    echo '--- got' >&2
    head -c 2000 "$3" >&2
    exit 1
  fi
  checked=$((checked + 1))
}

# Runs a program on a file, and compares both streams and the exit status.
streams() { # WHAT PROGRAM INPUT STDOUT STDERR
  local status=0
  "$2" < "$3" > "$work/out" 2> "$work/err" || status=$?
  printf '%s' "$4" > "$work/want-out"
  printf '%s' "$5" > "$work/want-err"
  same "$1: standard output" "$work/want-out" "$work/out"
  same "$1: standard error" "$work/want-err" "$work/err"
  if [ "$status" != 0 ]; then
    echo "FAILED: $1: exit status $status" >&2
    exit 1
  fi
}
