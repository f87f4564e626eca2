# The steps that test, install, faults and bench share. They name themselves in $me, and work in a temporary folder $work.
here=$(cd "$(dirname "${BASH_SOURCE[0]}")" && pwd)
top=$(dirname "$(dirname "$here")")
version=${PG_VERSION:-15}
server=/usr/lib/postgresql/$version
pg_config=${PG_CONFIG:-$server/bin/pg_config} # names the folder of the headers, and those that install writes to

stop() {
  echo "$me: $1" >&2
  exit 2
}

# Names the Debian packages that are missing. A need is 'COMMAND=PACKAGE' or 'PATH=PACKAGE'.
require() {
  local need headers packages=()
  headers=$("$pg_config" --includedir-server 2>/dev/null) || headers=/usr/include/postgresql/$version/server
  for need in "$server/bin/postgres=postgresql-$version" "$headers/postgres.h=postgresql-server-dev-$version" cc=gcc make=make "$@"; do
    case $need in
      /*) [ -e "${need%=*}" ] || packages+=("${need##*=}") ;;
      *) command -v "${need%=*}" >/dev/null || packages+=("${need##*=}") ;;
    esac
  done
  [ "${#packages[@]}" -eq 0 ] || stop "install what is missing: apt-get install ${packages[*]}"
}

new_folder() {
  work=$(mktemp -d)
  trap 'rm -rf "$work"' EXIT
  chmod 755 "$work"
  # The compiler's temporary files and the socket of pg_regress go there.
  mkdir -m 1777 "$work/tmp"
  export TMPDIR=$work/tmp
}

# Which library to build on. Where this folder is alone, LIBRATIO must name one.
if [ -e "$top/include/library.sh" ]; then
  source "$top/include/library.sh"
else
  choose_library() {
    library=$(realpath -e "${LIBRATIO:-/set/LIBRATIO}") || stop "LIBRATIO names no file"
  }
fi

# Builds the extension in $work/build, and copies it into the folders of the pg_config.
build_extension() {
  local pg_config=$1 options
  shift
  options=(-s -C "$work/build" PG_CONFIG="$pg_config" LIBRATIO="$library" RATIO_H="$(realpath "${RATIO_H:-$top/include}")" "$@")
  mkdir -p "$work/build"
  cp -a "$here"/{Makefile,META.json,ratio.control,server.conf,loads.csv,*.sql,*.c,*.h,sql,expected,servers} "$work/build/"
  make "${options[@]}" all >"$work/made" 2>&1 || { cat "$work/made" >&2; stop "the extension was not built"; }
  make "${options[@]}" install >"$work/made" 2>&1 \
    || { cat "$work/made" >&2; stop "the extension was built, but not copied into PostgreSQL's folders: run this as root, or as a user who may write there"; }
}

# Copies the files of the server, and builds the extension into the copy, whose programs are in $bin.
build_private_server() {
  bin=$work/usr/lib/postgresql/$version/bin
  mkdir -p "$work/usr/lib/postgresql" "$work/usr/share/postgresql" "$work/usr/include"
  cp -a "$server" "$work/usr/lib/postgresql/"
  cp -a "/usr/share/postgresql/$version" "$work/usr/share/postgresql/"
  ln -s /usr/include/postgresql "$work/usr/include/postgresql"
  build_extension "$bin/pg_config" "$@"
}

# Runs a command in $work/build as a user who is not root, as a server requires.
as_user() {
  local user
  cd "$work/build"
  if [ "$(id -u)" = 0 ]; then
    user=$(id -un postgres 2>/dev/null || echo nobody)
    chown -R "$user" "$work/build"
    runuser -u "$user" -- env PATH="$bin:$PATH" LC_ALL=C "$@"
  else
    PATH="$bin:$PATH" LC_ALL=C "$@"
  fi
}

# Starts a server with the files of $bin. It ends with the script.
start_server() {
  trap 'stop_server; rm -rf "$work"' EXIT
  as_user initdb -D data --no-locale -E UTF8 -A trust -U postgres >"$work/said" || { cat "$work/said" >&2; stop "initdb failed"; }
  cat "$here/server.conf" "$@" >>data/postgresql.conf
  printf "listen_addresses = ''\nunix_socket_directories = '%s'\n" "$work/build" >>data/postgresql.conf
  as_user pg_ctl -w -D data -l log start >"$work/said" || { cat log >&2; stop "the server did not start"; }
}

stop_server() {
  as_user pg_ctl -D data -m immediate stop >/dev/null || true
}

# Runs psql there.
ask() {
  "$bin/psql" -h "$work/build" -U postgres -X -q "$@" postgres
}
