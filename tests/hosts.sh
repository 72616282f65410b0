#!/usr/bin/env bash
# Builds the hosts of examples/ over the library for C, runs them, and compares what they print.
#
# usage: tests/hosts.sh [LIBRARY]
#
# LIBRARY is librhai_c.a, by default the one that `rt lib` in crates/rhai_c builds. KIT is the kit's folder, by default
# that of `rt`, and PROGRAM the rhai-ast that random scripts are compared with, by default the one that was built last.
# It needs cc and python3. What needs rustc, valgrind or PROGRAM is left out where they are not there, and a line says
# so. The last line counts the comparisons; the status is 1 if any failed.
set -u
root=$(cd "$(dirname "$0")/.." && pwd)
library=${1:-}
kit=${KIT:-$(dirname "$(rt doc)")}
program=${PROGRAM:-$root/crates/rhai_ast/out/rhai_ast}
heap=$kit/c/liblibc_c.a
work=$(mktemp -d)
trap 'rm -rf "$work"' EXIT
passed=0
failed=0
if [ -z "$library" ]; then
    library=$root/crates/rhai_c/out/librhai_c.a
    (cd "$root/crates/rhai_c" && rt lib > "$work/lib" 2>&1) || { tail -n 20 "$work/lib"; exit 1; }
fi

# Whether a program is there; a line says what is left out without it.
has() {
    command -v "$1" > /dev/null || { echo "left out, without $1: $2"; false; }
}

# Compares two files.
same() {
    if cmp -s "$2" "$3"; then
        passed=$((passed + 1))
    else
        failed=$((failed + 1))
        echo "failed: $1"
        diff "$2" "$3" | head -5
    fi
}

# Runs a program. What it prints and its status go to a file.
run() {
    local to=$1
    shift
    "$@" > "$to" 2>&1
    echo "status $?" >> "$to"
}

strict=(-std=c99 -Wall -Wextra -Werror -I"$root/include")
cc "${strict[@]}" "$root/examples/host.c" "$library" "$heap" -o "$work/host" || exit 1
cc "${strict[@]}" -Wl,--wrap=malloc,--wrap=realloc "$root/tests/hosts/calls.c" "$library" "$heap" \
    -o "$work/calls" || exit 1
cc "${strict[@]}" -shared -fPIC "$root/include/rhai_parser.c" -Wl,--whole-archive "$library" -Wl,--no-whole-archive \
    "$heap" -o "$work/librhai_c.so" || exit 1
if has rustc "the host in Rust"; then
    rustc --edition 2024 -o "$work/host_rs" "$root/examples/host.rs" -C link-arg="$library" -C link-arg="$heap" ||
        exit 1
fi
memory=()
if has valgrind "whether memory is used wrongly, or not freed"; then
    memory=(valgrind -q --error-exitcode=9 --leak-check=full --show-leak-kinds=all --errors-for-leak-kinds=all)
fi

# What the hosts say of the examples, with memory watched.
for script in "$root"/examples/*.rhai; do
    name=$(basename "$script")
    run "$work/c" "$work/host" parse "$script"
    for what in parse names tokens; do
        run "$work/plain" "$work/host" "$what" "$script"
        run "$work/watched" "${memory[@]}" "$work/host" "$what" "$script"
        same "$name, $what, memory watched" "$work/plain" "$work/watched"
    done
    if [ -x "$work/host_rs" ]; then
        run "$work/rs" "$work/host_rs" "$script"
        same "$name, C and Rust" "$work/c" "$work/rs"
    fi
done

# What a person says of one of them.
for script in shop weather; do
    run "$work/got" python3 "$root/examples/host.py" "$work/librhai_c.so" "$root/examples/$script.rhai"
    same "the variables of $script.rhai, Python" "$root/tests/hosts/$script.txt" "$work/got"
done

# Odd arguments, and each allocation refused.
run "$work/got" "${memory[@]}" "$work/calls" arguments
same "odd arguments" "$root/tests/hosts/arguments.txt" "$work/got"
for script in shop refused; do
    run "$work/got" "${memory[@]}" "$work/calls" refuse "$root/examples/$script.rhai"
    tail -n 2 "$work/got" > "$work/end"
    printf '0 wrong\nstatus 0\n' > "$work/wanted"
    same "$script.rhai, each allocation refused" "$work/wanted" "$work/end"
done

# Random scripts, as the program reads them.
if [ -x "$program" ]; then
    run "$work/got" python3 "$root/tests/hosts_random.py" "$work/librhai_c.so" "$program" 300
    printf '300 passed, 0 failed\nstatus 0\n' > "$work/wanted"
    same "random scripts" "$work/wanted" "$work/got"
else
    echo "left out, without $program: random scripts"
fi

echo "$passed passed, $failed failed"
[ "$failed" -eq 0 ]
