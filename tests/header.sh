#!/bin/sh
# Compiles tests/header.c and tests/stack.c against include/perchmellow.h and the static library, with every warning an error, and runs them;
# and tests/header.c and README.md's example as C99 and as C++11 by each compiler that is there, and the header alone.
set -eu
cd "$(dirname "$0")/.."
mkdir -p target/tests
cc -std=c99 -Wall -Wextra -Wpedantic -Werror -O2 -Iinclude tests/header.c target/staticlib/libperchmellow.a -o target/tests/header
target/tests/header
# bound at once: binding memcpy at its first call would take stack of its own
cc -std=gnu99 -Wall -Wextra -Werror -O2 -Wl,-z,now -Iinclude tests/stack.c target/staticlib/libperchmellow.a -o target/tests/stack
target/tests/stack

compile() { $language -Wall -Wextra -Wpedantic -Werror -O2 -Iinclude "$@"; }

# nothing but the header, and for C++ as a header of C is often taken in
alone() { printf '#ifdef __cplusplus\nextern "C" {\n#endif\n#include <perchmellow.h>\n#ifdef __cplusplus\n}\n#endif\n'; }

# README.md's example in C, in a program around it
example() {
    echo '#include <stdio.h>'
    awk '/^```c$/ { on = 1; next } /^```$/ { on = 0 } on && /^#/' README.md
    echo 'int main(void) { uint8_t seed[PERCHMELLOW_VALUE] = {7};'
    awk '/^```c$/ { on = 1; next } /^```$/ { on = 0 } on && !/^#/' README.md
    echo 'return 0; }'
}

for language in "cc -x c -std=c99" "clang -x c -std=c99" "g++ -x c++ -std=c++11" "clang++ -x c++ -std=c++11"; do
    command -v "${language%% *}" >/dev/null 2>&1 || continue
    alone | compile -c - -o target/tests/alone.o
    compile tests/header.c -x none target/staticlib/libperchmellow.a -o target/tests/header
    target/tests/header >target/tests/header.said
    example | compile - -x none target/staticlib/libperchmellow.a -o target/tests/example
    if [ "$(target/tests/example)" != "tick 65535" ]; then
        echo "header.sh: $language: README.md's example does not say 'tick 65535'" >&2
        exit 1
    fi
    echo "$language: good"
done
