#!/usr/bin/env bash
# Builds the library for C and tries it from C, C++, Rust and Python. It stands outside of the gate.
#
#     tools/bindings.sh
#
# The last line is `N passed, M failed`.
set -uo pipefail
cd "$(dirname "$0")/.."
top=$PWD
missing=()
for word in gcc g++ valgrind cargo python3 pkg-config; do command -v "$word" > /dev/null || missing+=("$word"); done
if [ ${#missing[@]} -gt 0 ]; then
  apt-get install -y -q "${missing[@]}" > /dev/null || { echo "wanted: ${missing[*]}"; exit 1; }
fi
prefix=$(mktemp -d)
trap 'rm -r "$prefix"' EXIT
passed=0 failed=0

# Runs a command, and says whether it passed.
tried() {
  local name=$1
  shift
  if "$@" > "$prefix/log" 2>&1; then
    passed=$((passed + 1))
    echo "ok: $name: $(tail -n 1 "$prefix/log")"
  else
    failed=$((failed + 1))
    echo "FAILED: $name"
    tail -n 20 "$prefix/log"
  fi
}

tools/install.sh "$prefix" || { echo "0 passed, 1 failed"; exit 1; }
flags=(-Wall -Wextra -Wpedantic -Werror -Ibindings/c/tests $(PKG_CONFIG_PATH=$prefix/lib/pkgconfig pkg-config --cflags aat))
library=$prefix/lib/libaat.a
data=crates/aat/data

# Builds a test of C over the static library.
built() { gcc -std=c99 -D_POSIX_C_SOURCE=200809L -O1 -g "${flags[@]}" "bindings/c/tests/$1.c" -o "$prefix/$1" "${@:2}"; }

checked=(valgrind -q --error-exitcode=9 --leak-check=full)
tried "the header in C99" bash -c 'echo "#include \"aat.h\"" | gcc -x c -std=c99 -fsyntax-only "$@" -' - "${flags[@]}"
tried "the header in C++17" bash -c 'echo "#include \"aat.h\"" | g++ -x c++ -std=c++17 -fsyntax-only "$@" -' - "${flags[@]}"
built calls "$library" && tried "each call" "${checked[@]}" "$prefix/calls" $data/sample.ttf
built memory crates/aat_c/out/libaat_c.a && tried "each request for memory refused" "${checked[@]}" "$prefix/memory" $data/sample.ttf
built threads "$library" -pthread && tried "four threads" valgrind -q --tool=helgrind --error-exitcode=9 "$prefix/threads" $data/sample.ttf
built broken "$library" && tried "2,000 broken fonts" "$prefix/broken" $data/{sample,chains,acts,anchors,coverage,contextual}.ttf
built answers "$library" && tried "answers in C" python3 tools/bound_answers.py "$prefix/answers"
tried "the shared library in C" bash -c 'gcc -std=c99 "${@:4}" "$1/calls.c" -o "$2/shared" -L"$2/lib" -laat -Wl,-rpath,"$2/lib" && "$2/shared" "$3"' - \
  bindings/c/tests "$prefix" $data/sample.ttf "${flags[@]}"
export AAT_LIB=$prefix/lib CARGO_TARGET_DIR=$prefix/target
tried "tests in Rust" cargo test --offline --quiet --manifest-path bindings/rust/Cargo.toml
tried "examples in Rust" cargo build --offline --quiet --release --examples --manifest-path bindings/rust/Cargo.toml
tried "answers in Rust" python3 tools/bound_answers.py "$prefix/target/release/examples/answers"
AAT_LIBRARY=$prefix/lib/libaat.so.1 PYTHONPATH=bindings/python tried "a word in Python" python3 -c '
import aat
font = aat.Font("crates/aat/data/sample.ttf")
assert [glyph.glyph_id for glyph in aat.shape(font, "fila")] == [7, 6, 3] and font.units_per_em == 1000
assert len(aat.shape(font, "fila", ["-liga"])) == 4
print("ok")'
echo "$passed passed, $failed failed"
[ "$failed" -eq 0 ]
