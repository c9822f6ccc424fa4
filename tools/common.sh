# What the tools in shell have in common; they source it and speak under the name in `tool`. `top` is the top of the clone.
top=$(cd "$(dirname "${BASH_SOURCE[0]}")/.." && pwd)

# say WORDS..: one line on standard error
say() { printf '%s: %s\n' "$tool" "$*" >&2; }

# refuse WORDS..: says what is wrong with the words of a command, and ends it
refuse() { say "$*"; exit 2; }

# one_of WORD WORDS..: whether the first is one of the others
one_of() { local word=$1 other; shift; for other; do [[ $other != "$word" ]] || return 0; done; return 1; }

# usage: prints the comment at the top of the tool
usage() { awk 'NR > 1 { if (!/^#/) exit; sub(/^# ?/, ""); print }' "$0"; }

# help_if_asked WORDS..: if the first is --help or -h, prints the usage and ends
help_if_asked() { case ${1:-} in --help | -h) usage; exit 0 ;; esac; }

# no_words WORDS..: the same, and any other word is refused
no_words() { help_if_asked "$@"; [[ $# -eq 0 ]] || refuse 'it takes no words but --help'; }

# has_kit: whether there is an rt that runs here; its folder is then in `kit`, and what it compiles and links by in `chain`
has_kit() {
    [[ $(uname -sm) == 'Linux x86_64' ]] || { say "this needs Linux on x86-64, and here is $(uname -sm)"; return 1; }
    command -v rt >/dev/null || { say 'the Rattle kit is not installed: no command rt'; return 1; }
    kit=$(cd "$(dirname "$(readlink -f "$(command -v rt)")")/.." && pwd -P) chain=$kit/toolchain
}

# name_kits: names both kits if rt is not of the one in kit.txt; every proof is checked anew by whichever it is
name_kits() {
    local made here
    made=$(<"$top/kit.txt") here=$(rt version 2>&1 | head -n 1)
    [[ $here == "$made" ]] || say "this is made for $made, and rt here is $here"
}

# has_python: whether there is a python3, of the least version that our files need
has_python() {
    command -v python3 >/dev/null || { say 'there is no python3'; return 1; }
    python3 -c 'import sys; sys.exit(sys.version_info < (3, 9))' && return
    say "Python 3.9 or newer is needed, and python3 here is $(python3 --version 2>&1)"
    return 1
}

# install_packages PACKAGE..: says that it installs them, and does
install_packages() {
    say "installs by apt-get: $*"
    { apt-get update && apt-get install -y "$@"; } >&2 || { say "cannot install $*"; return 1; }
}

# listed [NAME]: the crates of crates.txt; with a name, those that this one stands on
listed() {
    awk -F: -v name="${1:-}" '
        { sub(/#.*/, "") }
        NF == 2 { split($1, word, " "); all[++n] = word[1]; on[word[1]] = " " $2 " " }
        END { for (k = 1; k <= n; k++) if (name == "" || index(on[name], " " all[k] " ")) print all[k] }' "$top/crates.txt"
}

# is_newer FILE: whether it is there, and newer than every file of the crates
is_newer() {
    [[ -f $1 && ! $top/crates.txt -nt $1 ]] || return
    [[ -z $(find "$top"/crates/*/ -mindepth 1 -name out -prune -o -newer "$1" -print -quit) ]]
}

# proved ROOM CRATE: copies a crate and those that it stands on into the new folder ROOM, without the edits that must be
# refused, and has `rt ci` prove and build them there, from nothing or from what it has kept of the same files. Of each
# crate that it proves it says so, and how many are left; if not all passes it shows all that was printed.
proved() {
    local room=$1 crates=($(listed "$2") "$2") said='' left name part line
    mkdir -p "$room/crates" "$room/.git" || return
    for name in "${crates[@]}"; do
        mkdir "$room/crates/$name" && grep -E "^$name( .*)?:" "$top/crates.txt" >>"$room/crates.txt" || return
        for part in "$top/crates/$name"/*; do
            one_of "${part##*/}" out must-fail || cp -r "$part" "$room/crates/$name" || return
        done
    done
    [[ ! -f $top/HANDLES ]] || cp "$top/HANDLES" "$room" || return
    left=${#crates[@]}
    while IFS= read -r line; do
        said+=$line$'\n'
        [[ $line =~ ^rt:\ ([^ ]+)\ (proved$|is\ kept:) ]] && one_of "${BASH_REMATCH[1]}" "${crates[@]}" || continue
        left=$((left - 1))
        [[ ${BASH_REMATCH[2]} != proved ]] || say "${BASH_REMATCH[1]} proved, $left left"
    done < <(cd "$room" && rt ci </dev/null 2>&1)
    wait $! || { printf '%s' "$said" >&2; return 1; }
}
