# Words that the scripts share. It is sourced and never run; a script stands at the top of the repository when it uses them.

# What every script says and how it ends where the toolchain is missing.
need_rt() {
  if ! command -v rt >/dev/null 2>&1; then
    echo "$(basename "$0"): the Rattle toolchain is missing: its command rt proves, builds and tests everything here (see README.md)" >&2
    exit 127
  fi
}

# Builds a program from the sources as they stand, and leaves where it is in $program. The former program goes first, so that none
# runs that isn't of these sources; where the build fails the script ends with its log. Under ./test the gate has just built every
# program from these sources, and nothing is built again.
build() { # NAME
  program=$PWD/crates/$1/out/$1
  if [ -n "${built_by_the_gate:-}" ] && [ -x "$program" ]; then return 0; fi
  local log
  log=$(mktemp)
  rm -f "$program"
  # A program that was built also runs, with whatever status: what counts is that it is there.
  (cd "crates/$1" && rt run </dev/null) >"$log" 2>&1 || true
  if [ ! -x "$program" ]; then
    cat "$log" >&2
    echo "$(basename "$0"): $1 wasn't built; what rt printed stands above" >&2
    rm -f "$log"
    exit 1
  fi
  rm -f "$log"
}

# Random bytes that come again with the same seed.
random_bytes() { # SEED COUNT
  perl -e 'srand(shift); print pack("C*", map { int(rand(256)) } 1 .. shift)' "$1" "$2"
}

# Counts a row of a table: prints only what differs.
passed=0
failed=0
expect() { # WHAT WANTED GOT
  if [ "$2" = "$3" ]; then
    passed=$((passed + 1))
  else
    failed=$((failed + 1))
    echo "$1: wanted $2, got $3"
  fi
}

# The last line of a script, and how it ends.
finish() {
  echo "$passed passed, $failed failed"
  [ "$failed" -eq 0 ]
}

# Debian's packages for a command that is missing, where we may install them.
need_packages() { # COMMAND PACKAGE..
  local command=$1
  shift
  if ! command -v "$command" >/dev/null 2>&1 && [ "$(id -u)" = 0 ]; then
    echo "installing Debian's packages: $*"
    { apt-get update && apt-get install -y "$@"; } >/dev/null 2>&1 || true
  fi
  if ! command -v "$command" >/dev/null 2>&1; then
    echo "skipped: no $command (Debian: $*)"
    exit 0
  fi
}

# ---- a release server

# Whether something listens on this port of this machine. Nobody is asked, so that no connection is spent.
listens() { # PORT
  grep -q ": [0-9A-F]*:$(printf %04X "$1") 00000000:0000 0A " /proc/net/tcp
}

# Starts the release server in $release_server on a port that is free; it listens at $at as the process $server.
serve() { # DATABASE [CONNECTIONS]
  local port
  for _ in 1 2 3 4 5; do
    port=$((20000 + RANDOM % 12000))
    if listens "$port"; then continue; fi
    "$release_server" "127.0.0.1:$port" "$1" --connections "${2:-1000000}" &
    server=$!
    at=127.0.0.1:$port
    for _ in $(seq 400); do
      if listens "$port"; then return 0; fi
      if ! kill -0 "$server" 2>/dev/null; then break; fi
      sleep 0.01
    done
    kill -9 "$server" 2>/dev/null
    wait "$server" 2>/dev/null
  done
  echo "$(basename "$0"): the release server didn't start" >&2
  exit 1
}

# Ends the server as a power cut would.
kill_server() {
  # Under set -e a script must not end with the status of what it killed.
  kill -9 "$server" 2>/dev/null || true
  wait "$server" 2>/dev/null || true
}

# ---- bytes of our formats (docs/FORMATS.md)

# Numbers of one, two and four bytes, the low byte first.
u8() { printf "\\$(printf %o "$1")"; }
u16() { u8 $(($1 % 256)); u8 $(($1 / 256)); }
u32() { u16 $(($1 % 65536)); u16 $(($1 / 65536)); }
# Bytes from hexadecimal digits, with spaces between as one likes.
hex() { local digits="$*"; digits=${digits// /}; printf "$(sed 's/../\\x&/g' <<<"$digits")"; }

# A package: its parts, exports and relocations in hexadecimal.
package() { # COMPONENT VERSION CODE EXPORTS RELOCATIONS
  local code=${3// /} exports=${4// /} relocs=${5// /}
  printf FCP1
  u16 "$1"; u16 "$2"; u16 $((${#code} / 2)); u16 0; u16 0; u16 $((${#exports} / 12)); u16 $((${#relocs} / 16))
  head -c 14 /dev/zero
  hex "$code"; hex "$exports"; hex "$relocs"
}

# A manifest of package files.
manifest() { # RELEASE FILE..
  u32 "$1"
  shift
  u8 $#
  local file
  for file in "$@"; do
    head -c 8 "$file" | tail -c 4
    u16 "$(wc -c <"$file")"
    hex "$(sha256sum "$file" | cut -c 1-64)"
  done
}

# A frame with the payload that comes on standard input.
frame() { # TYPE
  local payload
  payload=$(mktemp)
  cat >"$payload"
  u8 "$1"; u16 "$(wc -c <"$payload")"; cat "$payload"
  rm -f "$payload"
}
# The pieces of one package, by rising page.
pieces() { # ORDINAL FILE
  local size page
  size=$(wc -c <"$2")
  for ((page = 0; 256 * page < size; page++)); do
    { u8 "$1"; u8 "$page"; tail -c +$((256 * page + 1)) "$2" | head -c 256; } | frame 2
  done
}
# LINK, COMMIT, BOOT, STATUS, ABORT, END have no payload.
link() { hex 03 00 00; }
commit() { hex 04 00 00; }
boot() { hex 05 00 00; }
status() { hex 06 00 00; }
abort() { hex 07 00 00; }
end() { hex 08 00 00; }
