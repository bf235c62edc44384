# The Rattle kit, for the scripts of this repository: seeing that it is the pinned one, proving and building with it, and what is
# made for x86-64 with its tools. A script sets 'me', the name that its messages begin with, and 'top', the repository's top, and
# reads this file.

kit=

tell() { echo "$me: $*" >&2; }

# Ends the script where a command is not on this machine.
need() { # COMMAND, what cannot be had without it
    command -v "$1" >/dev/null 2>&1 && return
    tell "$2: there is no command '$1' on this machine"
    exit 2
}

# Finds the kit and its tools.
find_tools() {
    [ -z "$kit" ] || return 0
    need rt "the Rattle kit is not installed"
    kit=$(dirname "$(rt doc)")
    tools=$kit/toolchain
    lib=$tools/lib
    loader=$lib/ld-linux-x86-64.so.2
}

# Sees that the kit is a pinned one: of a logic that KIT-VERSION has, since the logic is what a proof stands on.
see_kit() {
    find_tools
    have=$(rt version) || exit 2
    if ! grep -qF " ${have#* }" "$top/KIT-VERSION"; then
        tell "this repository is proved with '$(head -n 1 "$top/KIT-VERSION")', and the kit here is '$have': another logic."
        tell "install that kit, or, to move to this one, put its line into KIT-VERSION and see the gate pass."
        exit 2
    fi
    grep -qxF "$have" "$top/KIT-VERSION" || tell "note: the kit here is '$have', of the same logic as one that is pinned"
}

# Runs a command, with all that it says going through a filter to standard output; gives the command's status.
through() { # FILTER COMMAND [ARGUMENT..]
    filter=$1
    shift
    { status=$({ { "$@" 2>&1 3>&- 4>&-; echo $? >&3; } | $filter >&4 3>&- 4>&-; } 3>&1); } 4>&1
    return "${status:-2}"
}

# Prints the crates that NAME stands on, itself last, by crates.txt.
stands_on() { # NAME
    awk -v name="$1" '
        function visit(n,    all, k, most) {
            if (!(n in names) || n in seen) return
            seen[n] = 1
            most = split(names[n], all, " ")
            for (k = 1; k <= most; k++) visit(all[k])
            print n
        }
        { sub(/#.*/, "") }
        split($0, line, ":") == 2 { split(line[1], word, " "); names[word[1]] = line[2] }
        END { visit(name) }' "$top/crates.txt"
}

# Prints how many crates NAME stands on, itself counted, and about how many minutes their first proof takes: two for each 1,000
# lines of code.
size_of() { # NAME
    stands_on "$1" | while read -r crate; do echo "crate"; cat "$top/crates/$crate"/src/*.rt 2>/dev/null; done |
        awk '$0 == "crate" { count++; next } { lines++ } END { print count + 0, int((lines + 499) / 500) }'
}

# A sum of all that is proved and built: the kit, crates.txt and the texts of every crate.
sum_of_texts() (
    cd "$top/crates" || exit
    { echo "$have"; find ../crates.txt ./*/src ./*/specs ./*/proofs -type f 2>/dev/null | LC_ALL=C sort | xargs sha256sum; } | sha256sum
)

# What is written beside a program or a library that was made of proved texts, to know it again: the sum of those, and its own.
mark_of() { # FILE SUM
    echo "$2 $(sha256sum <"$1")"
}

# Whether a file was made of the texts as they stand.
is_made() { # FILE
    [ -f "$1" ] && [ -f "$1.made" ] && [ "$(cat "$1.made")" = "$(mark_of "$1" "$(sum_of_texts)")" ]
}

# Of what rt says: a line for each crate that it proved, and what went wrong; all of it goes to the log.
progress() {
    : >"$log"
    while IFS= read -r line || [ -n "$line" ]; do
        printf '%s\n' "$line" >>"$log"
        case $line in
            "crate "*": "*) crate=${line#crate } crate=${crate%%:*} ;;
            "logic=proved "*) tell "proved $crate" 2>&1 ;;
            "rt: chose "* | "rt: running "* | "rt: nothing has changed"* | "rt: "*": begins with "*) ;;
            "rt: "*) printf '%s\n' "$line" ;;
        esac
    done
}

in_crate() ( # NAME COMMAND [ARGUMENT..]
    cd "$top/crates/$1" && shift && "$@"
)

# Proves a crate and all that it stands on, where something changed since that was done, and makes its product, by a command of
# rt's. A proof that takes a while is announced; this and a line for each crate go to standard error, and what the prover says to
# target/prove.log. It is proved if the log has the line that rt ends with, or, where that line is empty, by rt's status.
build() { # NAME FILE LINE COMMAND [ARGUMENT..]
    name=$1 file=$2 line=$3
    shift 3
    texts=$(sum_of_texts)
    is_made "$file" && return
    log=$top/target/prove.log
    mkdir -p "$top/target" || exit 2
    read -r crates minutes <<END
$(size_of "$name")
END
    (sleep 3 >/dev/null 2>&1 && kill -0 $$ 2>/dev/null &&
        tell "proving $name first, with what it stands on: $crates crates, about $minutes min if nothing is proved yet; the prover's own lines go to target/prove.log") &
    watch=$!
    through progress in_crate "$name" "$@" >&2
    proved=$?
    kill "$watch" 2>/dev/null
    wait "$watch" 2>/dev/null
    [ -z "$line" ] || { proved=1; ! grep -q "^$line" "$log" || proved=0; }
    if [ "$proved" -ne 0 ]; then
        tell "$name is not proved: target/prove.log says why"
        exit 2
    fi
    [ "$(sum_of_texts)" != "$texts" ] || mark_of "$file" "$texts" >"$file.made"
}

# Proves and builds a program, crates/NAME/out/NAME. rt builds one only to run it, in its own folder: so it is run once with no
# arguments and no input, which changes nothing.
prove() { # NAME
    build "$1" "$top/crates/$1/out/$1" "rt: running out/$1;" rt run </dev/null
}

# Writes the static library for C, of what is proved, and lays it where its callers look for it, under the name that they know.
# The crate lleuadrys_c has the calls from C alone, and stands on lleuadrys, which other crates use: rt makes a crate either a
# library of Rattle or one of C.
static_library() {
    library=$top/target/staticlib/liblleuadrys.a
    is_made "$library" && return
    build lleuadrys_c "$top/crates/lleuadrys_c/out/liblleuadrys_c.a" "" rt lib
    lay_library "$texts" || exit 2
}

lay_library() { # the sum of the texts
    library=$top/target/staticlib/liblleuadrys.a
    mkdir -p "$top/target/staticlib" && cp "$top/crates/lleuadrys_c/out/liblleuadrys_c.a" "$library" && mark_of "$library" "$1" >"$library.made"
}

# The same over the libraries that 'rt ci' has just proved and left in out/. It proves a static library and writes none, and
# 'rt lib' would prove all of them again. Those that rt has put back, as they were before that run, are older than the file.
library_over_ci() { # the sum of the texts, a file that was made before
    for crate in $(stands_on lleuadrys); do
        [ -n "$(find "$top/crates/$crate/out/rlib/$crate.rlib" -maxdepth 0 -newer "$2" 2>/dev/null)" ] || return
    done
    set -- "$1" --crate-name lleuadrys_c src/lib.rt --crate-type staticlib --links lleuadrys_c= --jobs 2 --extern "std=$kit/rlibs/std.rlib"
    direct=$(sed -n 's/#.*//; s/^lleuadrys_c .*://p' "$top/crates.txt")
    for crate in $direct; do set -- "$@" --extern "$crate=$top/crates/$crate/out/rlib/$crate.rlib"; done
    for crate in $(stands_on lleuadrys); do set -- "$@" -L "dependency=$top/crates/$crate/out/rlib"; done
    texts=$1
    shift
    mkdir -p "$top/crates/lleuadrys_c/out" || return
    in_crate lleuadrys_c "$kit/bin/rattle" build "$@" -L "dependency=$kit/rlibs" --antt-project "$kit/rattle/logic/antt-project.json" \
        --logic-built "$kit/logic_built" --toolchain "$tools" --backend llvm -o out/liblleuadrys_c.a >"$room/library" 2>&1 || return
    lay_library "$texts"
}

# C for x86-64: compiled with the kit's clang, which comes without headers (bench/include has a few), ..
x86_compile() { # ARGUMENT..
    x86_clang -std=c11 "$@"
}

# .. C++ too, as far as it needs no library of its own, ..
x86_compile_cpp() { # ARGUMENT..
    x86_clang -x c++ -std=c++17 -fno-exceptions -fno-rtti "$@"
}

x86_clang() { # ARGUMENT..
    find_tools
    "$tools/bin/clang" --target=x86_64-unknown-linux-gnu -nostdinc -O2 -fPIE -Wall -Wextra "$@"
}

# .. linked with its C library, ..
x86_link() { # PROGRAM OBJECT..
    find_tools
    "$tools/bin/ld.lld" -pie -z now --dynamic-linker="$loader" "$lib/Scrt1.o" "$lib/crti.o" "$lib/crtbeginS.o" \
        -o "$@" "$lib/libc.so.6" "$lib/libc_nonshared.a" "$lib/libgcc.a" "$lib/crtendS.o" "$lib/crtn.o"
}

# .. and run.
x86_run() { # PROGRAM [ARGUMENT..]
    find_tools
    "$loader" --library-path "$lib" "$@"
}
