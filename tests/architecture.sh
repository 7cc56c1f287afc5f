#!/bin/sh
# docs/ARCHITECTURE.md, its picture and crates.txt are held to the repository by scripts/architecture. And that it can fail: a copy of them
# with one fault each, which must be told.
# The backticks are those of the page.
# shellcheck disable=SC2016
set -u
cd "$(dirname "$0")/.." || exit 1
root=$PWD
folder=$(mktemp -d) || exit 1
trap 'rm -rf "$folder"' EXIT
bad=0

sh scripts/architecture check || bad=1
if command -v python3 > /dev/null; then python3 tools/edits.py || bad=1; fi

# fault TEXT FILE EDIT: where an edit is made in a file of the copy, the check fails and says the text
fault() {
    rm -rf "$folder/copy"
    mkdir -p "$folder/copy/docs" "$folder/copy/scripts"
    for part in crates tests bench c examples; do ln -s "$root/$part" "$folder/copy/$part"; done
    cp crates.txt "$folder/copy"
    cp docs/ARCHITECTURE.md docs/PROOF.md docs/architecture.svg "$folder/copy/docs"
    cp scripts/architecture "$folder/copy/scripts"
    sed "$3" "$2" > "$folder/copy/$2"
    if cmp -s "$2" "$folder/copy/$2"; then
        echo "architecture: the edit '$3' changes nothing"
        bad=1
    elif out=$(sh "$folder/copy/scripts/architecture" check 2>&1); then
        echo "architecture: the edit '$3' of $2 is not seen"
        bad=1
    else
        case $out in
        *"$1"*) ;;
        *)
            echo "architecture: with the edit '$3' of $2 it says '$out', wanted '$1'"
            bad=1
            ;;
        esac
    fi
}

page=docs/ARCHITECTURE.md
fault "crates/model/specs/Rules.antt has no r9" $page 's/`r6`, `loose`/`r9`, `loose`/'
fault "crates/theory_nodes/specs/Judge.antt has no r6_ties" $page 's/`r6_tied`/`r6_ties`/'
fault "crates/sound_links/src/lib.rt has no function rule_9" $page 's/`sound_links::rule_6`/`sound_links::rule_9`/'
fault "crates/chip_store/src/lib.rt has no program_pages" $page 's/`program_page`, `copy`/`program_pages`, `copy`/'
fault "there is no crate nothing with code" $page 's/`tree_path::change`/`nothing::change`/'
fault "there is no file tests/independent/rooms.c" $page 's,tests/independent/room.c,tests/independent/rooms.c,'
fault "there is no edit sound_verdict/must-fail/skips_r9" $page 's,sound_verdict/must-fail/skips_r6,sound_verdict/must-fail/skips_r9,'
fault "r6 has no file before it" $page 's,`model/specs/Rules.antt` `r6`,`r6`,'
fault "an empty cell" $page 's/| `sound_links::rule_6`, `sound_links::is_loose` |/| |/'
fault "a row of 4 cells in a table of 5" $page 's/| `sound_links::rule_6`, `sound_links::is_loose` |/|/'
fault "only 0 rows" $page '/^|/d'
fault "the must-fail edit model/key_not_lowered is not listed" docs/PROOF.md '/model.key_not_lowered/d'
fault "there is no must-fail edit model/no_such_edit" docs/PROOF.md 's,model/key_not_lowered,model/no_such_edit,'
fault "the must-fail edit call_list/odd_length is not listed" docs/PROOF.md '/call_list.odd_length/d'
ends="docs/ARCHITECTURE.md does not end with what"
fault "$ends" $page '/^- `sound_links`/d'
fault "$ends" $page 's/^- `sound_links`:.*/- `sound_links`/'
fault "$ends" $page 's/^- `sound_nodes`:/- `nothing`:/'
fault "$ends" $page 's/^### Judging$/### Library/'
fault "crates.txt: sound_links has no purpose before it" crates.txt '/^# R6 by the table/d'
fault "$ends" crates.txt 's/^# R6 by the table/# R7 by the table/'
fault "geometry depends on sound_verdict, which is in a later group" crates.txt 's/^geometry:/geometry: sound_verdict/'
fault "geometry is in no group" crates.txt '/^## /d'
fault "docs/architecture.svg is not what" docs/architecture.svg 's/theory_service/theory_servant/'

[ "$bad" -eq 0 ] && echo "architecture: the map fits the repository"
exit $bad
