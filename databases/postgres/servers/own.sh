# Servers of a test's own, each in a folder of its name in the folder of the tests, with its socket in NAME.socket. They end with the script.
unset PGHOST PGPORT PGDATABASE
export PGUSER=postgres
declare -A servers
trap 'for name in "${!servers[@]}"; do kill -QUIT "${servers[$name]}" 2>/dev/null; done; wait; rm -rf "${!servers[@]}" ./*.socket' EXIT

# new_server NAME COMMAND..: the command makes its folder.
new_server() {
  local name=$1
  shift
  "$@" >"$name.log" 2>&1 || cat "$name.log"
  mkdir "$name.socket"
  cat server.conf - >>"$name/postgresql.conf" <<<"listen_addresses = ''
unix_socket_directories = '$PWD/$name.socket'"
  start "$name"
}

start() {
  until_so "$1 takes connections" is_up "$1"
}

# Starts it again if it has ended: what is left of a killed server may not be gone yet.
is_up() {
  if ! kill -0 "${servers[$1]:-none}" 2>/dev/null; then
    postgres -D "$1" >>"$1.log" 2>&1 &
    servers[$1]=$!
  fi
  pg_isready -q -h "$PWD/$1.socket"
}

# Kills it with all of its processes. It is stopped first, so that it starts no other one meanwhile.
kill_server() {
  local process=${servers[$1]}
  kill -STOP "$process"
  { kill -9 "$process" $(<"/proc/$process/task/$process/children"); wait; } 2>/dev/null || true
}

# ask NAME ARGUMENTS..: psql there.
ask() {
  psql -h "$PWD/$1.socket" -X -q -At -v ON_ERROR_STOP=1 "${@:2}" postgres
}

# until_so WHAT COMMAND..: waits until a command succeeds, a minute at most.
until_so() {
  local end=$((SECONDS + 60))
  until "${@:2}"; do
    [ "$SECONDS" -lt "$end" ] || { echo "not so after a minute: $1"; exit 1; }
    sleep 0.05
  done
}
