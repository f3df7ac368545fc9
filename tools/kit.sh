# Sets $kit to the folder of the Rattle kit and $parts to its compiler and loader. To be read by a script.
command -v rt >/dev/null || { echo "$0: needs the Rattle kit, and rt is not on the PATH" >&2; exit 1; }
kit=$(cd "$(dirname "$(readlink -f "$(command -v rt)")")/.." && pwd -P)
parts=$kit/toolchain

# A folder of links to another's entries, save those named.
links() { # FROM TO EXCEPT
    mkdir -p "$2"
    for entry in "$1"/*; do
        case " $3 " in *" ${entry##*/} "*) ;; *) ln -sfn "$(readlink -f "$entry")" "$2/${entry##*/}" ;; esac
    done
}

# A kit of links, for its own bin/rt, whose clang is the shell script on standard input: so what rt try makes on its way can be kept. Of rattle, rt try has
# hints alone, and there is none here.
shadow_kit() { # FOLDER
    links "$kit" "$1" "bin toolchain"
    links "$kit/bin" "$1/bin" "rt rtlib.py rattle"
    ln -sfn "$(command -v true)" "$1/bin/rattle"
    cp "$kit/bin/rt" "$kit/bin/rtlib.py" "$1/bin"
    links "$parts" "$1/toolchain" bin
    links "$parts/bin" "$1/toolchain/bin" clang
    cat >"$1/toolchain/bin/clang"
    chmod +x "$1/toolchain/bin/clang"
}

# Compiles the program of a crate, unproved: rt try does so with checks and a sanitizer, and the same module is compiled once more, without the sanitizer
# and at -O3. What the compiler said is printed where it refuses the program, and the status is then 1.
compile() ( # FOLDER CRATE PROGRAM: the repository's folder, and where the program is put
    room=$(mktemp -d)
    trap 'rm -rf "$room"' EXIT
    shadow_kit "$room/kit" <<END
#!/bin/sh
case " \$* " in *" -fsanitize=address "*) "$parts/bin/clang" "\$@" -O3 -fno-sanitize=address -o "$room/made.o" || exit ;; esac
exec "$parts/bin/clang" "\$@"
END
    if ! {
        (cd "$1/crates/$2" && "$room/kit/bin/rt" try --steps 1) &&
            "$kit/bin/rattle-link" --target x86_64-unknown-linux-gnu --toolchain "$parts" -o "$room/made" "$room/made.o" "$kit"/c/lib*_c.a
    } </dev/null >"$room/log" 2>&1; then
        cat "$room/log" >&2
        exit 1
    fi
    # as old as the sources that were read, so that an edit made meanwhile is not missed
    touch -r "$room/kit" "$room/made"
    mkdir -p "$(dirname "$3")"
    mv "$room/made" "$3.$BASHPID"
    mv "$3.$BASHPID" "$3"
)
