# shellcheck shell=bash
# For ./jallumere: the compiler and the emulator that this machine needs, and the host programs built by them.

flags=(-std=c11 -Wall -Wextra)
emulator=()

# The kit's folder, from where the command rt stands.
kit_home() { printf '%s' "${RATTLE_HOME:-$(dirname "$(readlink -f "$(command -v rt)")")/..}"; }

on_x86() { [ "$(uname -m)" = x86_64 ]; }

find_emulator() {
    local found=''
    if has qemu-x86_64; then
        found=qemu-x86_64
    elif has rt; then
        found=$(find -L "$(kit_home)/on/$(uname -m)" -maxdepth 4 -name qemu-x86_64 -type f -perm -u+x 2>/dev/null | head -n 1)
    fi
    emulator=(${found:+"$found"})
    [ -n "$found" ]
}

# The compiler finds its C library: the shared one, or the archive where programs are linked statically.
has_c_library() {
    local file=libc.so
    on_x86 || file=libc.a
    has "$compiler" && [[ $("$compiler" -print-file-name="$file") = */* ]]
}

# The core is code for x86-64. Elsewhere it takes a cross compiler and an emulator, and is linked statically, so that the
# emulator needs no libraries. All that is missing is told at once, and first the command rt, without which the rest is in vain.
find_tools() {
    local packages=() wanted=gcc library=libc6-dev missing=no
    compiler=gcc
    if ! on_x86; then
        compiler=x86_64-linux-gnu-gcc wanted=gcc-x86-64-linux-gnu library=libc6-dev-amd64-cross
        flags+=(-static)
    fi
    has "$compiler" || packages+=("$wanted")
    has_c_library || packages+=("$library")
    on_x86 || find_emulator || packages+=(qemu-user)
    if [ -z "${JALLUMERE_CORE:-}" ]; then has_rt || missing=yes; fi
    if [ ${#packages[@]} -gt 0 ]; then
        missing=yes
        say "missing on this machine ($(uname -m)), to build and run the programs:"
        printf '    apt-get install %s\n' "${packages[*]}" >&2
    fi
    [ "$missing" = no ] || exit 2
}

has_rt() {
    has rt && return
    say "missing: the command 'rt' of the Rattle kit ($(cat "$tree/KIT")) is not on the PATH, and nothing can be proved without it;" \
        "JALLUMERE_CORE=model runs the C model in its place"
    return 1
}

digest=sha256sum
has "$digest" || digest=cksum

digests_of() { # PARTS OF THE TREE
    (cd "$tree" && find "$@" -type f -exec "$digest" {} + | LC_ALL=C sort)
}

# All that a program is made of: the compiler and its words, its sources, and the core.
contents_of() { # NAME CORE FLAG
    printf '%s\n' "$("$compiler" --version | head -n 1)" "${flags[*]}" "$3" "$2"
    [ "$2" = model ] || "$digest" <"$2"
    digests_of "hosts/$1" hosts/common hosts/model include
}

# A wrong compiler, library or emulator is told by the smallest program, in the first second.
try_tools() {
    local said
    printf '#include <stdio.h>\nint main(void)\n{\n    return puts("it runs") < 0;\n}\n' >"$built/trial.c"
    said=$("$compiler" "${flags[@]}" -o "$built/trial" "$built/trial.c" 2>&1) ||
        stop "$compiler cannot build the smallest program: $said"
    said=$(${emulator[@]+"${emulator[@]}"} "$built/trial" 2>&1 </dev/null)
    [ "$said" = "it runs" ] || stop "the smallest program that $compiler builds does not run here${emulator[0]:+ by ${emulator[0]}}: $said"
}

# build NAME CORE FLAG PROGRAM: compiles and links a host program over a core, an archive or 'model', unless it was made of the same.
build() {
    local name=$1 core=$2 flag=$3 program=$4 contents sources
    contents=$(contents_of "$name" "$core" "$flag" | "$digest")
    if [ -x "$program" ] && [ "$(cat "$program.made-of" 2>/dev/null)" = "$contents" ]; then return; fi
    try_tools
    if [ "$name" = simulate ]; then # the page's lines as two C strings
        sed -e 's/\\/\\\\/g' -e 's/"/\\"/g' -e 's/.*/"&\\n"/' -e '1s/^/static const char page_head[] =\n/' -e '$s/$/;/' \
            -e 's/^"@DATA@.*/;\nstatic const char page_tail[] =/' "$tree/hosts/simulate/page.html" >"$built/page.h" || stop "no page.html"
    fi
    mapfile -t sources < <(find "$tree/hosts/$name" "$tree/hosts/common" -name '*.c' | LC_ALL=C sort)
    if [ "$core" = model ]; then core=$tree/hosts/model/core.c; fi
    rm -f "$program.made-of"
    start "$compiler" "${flags[@]}" "$flag" -I "$tree/include" -I "$tree/hosts/common" -I "$tree/hosts/model" -I "$built" \
        -o "$program.new" "${sources[@]}" "$tree/hosts/model/model.c" "$core" >"$built/$name.log" 2>&1
    finished || {
        head -n 40 "$built/$name.log" >&2
        stop "$name was not built; all that the compiler said is in $built/$name.log"
    }
    cat "$built/$name.log" >&2
    mv "$program.new" "$program" && printf '%s\n' "$contents" >"$program.made-of"
}

# Leaves the command that runs the program NAME over the core in 'command', once both are built.
prepare_host() { # NAME WORDS...
    local name=$1 core=${JALLUMERE_CORE:-}
    shift
    [ -z "$core" ] || [ "$core" = model ] || [ -r "$core" ] || stop "JALLUMERE_CORE names '$core', which cannot be read"
    find_tools
    open_place
    if [ -z "$core" ]; then
        have_core "$name" "$@"
        core=$archive
    else
        say "the core is '$core', by JALLUMERE_CORE: nothing tells that it is proved"
    fi
    build "$name" "$core" -O3 "$built/$name"
    command=(${emulator[@]+"${emulator[@]}"} "$built/$name" "$@")
    [ "$name" != bench ] || on_x86 || command+=(--ratios)
}

run_host() { # NAME WORDS...
    prepare_host "$@"
    release_lock
    exec "${command[@]}"
}
