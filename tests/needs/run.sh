#!/bin/sh
# What make says where rt or a C compiler is lacking, or rt is of another version: before it proves anything, and what is needed.
set -eu
cd "$(dirname "$0")/../.."
folder=$(mktemp -d)
trap 'rm -rf "$folder"' EXIT
bad=0

# A PATH with what make and its scripts use, and neither rt nor a compiler.
for tool in sh make uname sed find grep ls wc cat; do ln -s "$(command -v $tool)" "$folder/$tool"; done

# want TEXT WORDS..: make ends with a failure and says the text; -B has it do all anew, so it stops where things are asked for
want() {
    text=$1
    shift
    if out=$(PATH=$folder make -B TARGET="$(uname -m)" "$@" 2>&1); then
        echo "needs: 'make $*' did not fail: $out"
        bad=1
    fi
    case $out in
    *"$text"*) ;;
    *)
        echo "needs: 'make $*' printed '$out', wanted '$text'"
        bad=1
        ;;
    esac
}

want "rt is lacking"
want "a C compiler is lacking: there is no cc" CC=cc
want "there is no no-such-compiler" CC='no-such-compiler -O2'
want "rt is lacking" library
case $out in *compiler*) echo "needs: 'make library' asks for a compiler"; bad=1 ;; esac

# An rt of another version is warned of and not refused; one that does not work is.
printf '#!/bin/sh\necho another-kit\n' > "$folder/rt"
chmod +x "$folder/rt"
out=$(PATH=$folder sh scripts/needs rt)
case $out in *another-kit*Warning*) ;; *) echo "needs: no warning of another version: $out"; bad=1 ;; esac
printf '#!/bin/sh\necho no toolchain\nexit 2\n' > "$folder/rt"
want "does not work: no toolchain" library

[ "$bad" -eq 0 ] && echo "needs: what is lacking is told"
exit $bad
