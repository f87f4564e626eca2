# What scripts begin with that build on the library for C: their name $me, their folder $here and the repository $top.
here=$(cd "$(dirname "$0")" && pwd)
top=$(cd "$(dirname "${BASH_SOURCE[0]}")/.." && pwd)
me=${here#"$top/"}/${0##*/}
source "$top/include/library.sh"

stop() {
  echo "$me: $1" >&2
  exit 2
}

# require NEED=PACKAGE..: names the Debian packages that are missing. A need is a command, or the path of a header.
require() {
  local need packages=()
  for need in "$@"; do
    [[ $need == *.h* && -e ${need%=*} ]] || command -v "${need%=*}" >/dev/null || packages+=("${need##*=}")
  done
  [ "${#packages[@]}" -eq 0 ] || stop "install what is missing: apt-get install ${packages[*]}"
}

# Makes the temporary folder $work. It ends with the script.
new_folder() {
  work=$(mktemp -d)
  trap 'rm -rf "$work"' EXIT
}
