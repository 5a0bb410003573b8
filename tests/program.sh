# For the tests of built programs, which source it with the program's name in `name` and the bytes that it reads at most in `most`. Each run of the program is
# held to what it prints, to what it leaves unread, to status 0 and to nothing on standard error.
program=target/bin/program_$name
[ -x "$program" ] || { echo "${name}_vectors: $program is not built; tools/build program_$name builds it"; exit 1; }
made=$(mktemp -d) || exit 1
trap 'rm -rf "$made"' EXIT
compared=0 wrong=0
fault() { # INPUT WORDS, ten times at most
  echo "${name}_vectors: for $1 the program $2"
  wrong=$((wrong + 1))
  [ "$wrong" -lt 10 ] || exit 1
}

# What a run of the program has come to, with its output and errors in $made.
ran() { # INPUT STATUS TEXT
  compared=$((compared + 1))
  [ "$2" -eq 0 ] || fault "$1" "ends with status $2"
  cmp -s "$made/out" "$3" || fault "$1" "does not print ${3##*/}"
  [ ! -s "$made/err" ] || fault "$1" "writes on standard error"
}

prints() { # FILE TEXT
  local size taken
  size=$(wc -c <"$1")
  exec 3<"$1"
  "$program" <&3 >"$made/out" 2>"$made/err"
  ran "${1##*/}" $? "$2"
  taken=$((size - $(wc -c <&3)))
  exec 3<&-
  [ "$taken" -eq $((size < most ? size : most)) ] || fault "${1##*/}" "reads $taken bytes of $size"
}

# A file's first three and last two bytes one by one.
in_parts() { # FILE
  sleep 0.2
  for k in 1 2 3; do head -c $k "$1" | tail -c 1; sleep 0.03; done
  tail -c +4 "$1" | head -c -2
  for k in 2 1; do sleep 0.03; tail -c $k "$1" | head -c 1; done
}

prints_in_parts() { # FILE TEXT
  in_parts "$1" | "$program" >"$made/out" 2>"$made/err"
  ran "${1##*/} in parts" $? "$2"
}

prints_without_input() { # TEXT
  "$program" <&- >"$made/out" 2>"$made/err"
  ran "an input that is closed" $? "$1"
  "$program" </ >"$made/out" 2>"$made/err"
  ran "an input that cannot be read" $? "$1"
}

# With more in it than is read.
prints_of_open_input() { # FILE TEXT
  local unread
  mkfifo "$made/open" && exec 4<>"$made/open"
  head -c 30000 "$1" >&4
  timeout 5 "$program" <"$made/open" 4>&- >"$made/out" 2>"$made/err"
  ran "an input that stays open" $? "$2"
  unread=$(dd bs=65536 count=1 iflag=nonblock <&4 2>/dev/null | wc -c)
  [ "$unread" -eq $((30000 - most)) ] || fault "an input that stays open" "leaves $unread bytes of 30000"
  exec 4>&-
}

# And, of an error that the system gives, that for its number.
calls_read_and_write() {
  local said=target/log/program_$name.say called others
  called=$(sed -n 's/^axioms libc: \(.*\) (.*/\1/p' "$said")
  [ "$called" = "libc::read, libc::write" ] ||
    { echo "${name}_vectors: the program calls the C functions '$called', not read and write alone"; exit 1; }
  others=$(grep '^axioms ' "$said" | grep -v '^axioms libc: ' |
    grep -vxE 'axioms os: os::c::rattle_errno \(1 of the [0-9]+ declared\)|axioms [a-z_]+: none reached of the [0-9]+ declared')
  [ -z "$others" ] || { echo "${name}_vectors: the program rests on the contracts of other C functions too: $others"; exit 1; }
}

# The sheet of a plane. Lines are so many pixels apart; from line to line the plane rises by one step along x and falls by two along y, from 0 at the first
# lines, so that nodes have whole steps and slopes are whole grains. `given` says it to awk.
plane_sheet() { # NAME COLUMNS ROWS FIRST-X FIRST-Y GAP-X GAP-Y
  given=(-v columns="$2" -v rows="$3" -v x="$4" -v y="$5" -v gap_x="$6" -v gap_y="$7")
  printf "$(awk "${given[@]}" '
    function word(n) { n = (n + 65536) % 65536; printf "\\x%02x\\x%02x", n % 256, int(n / 256) }
    BEGIN {
      printf "LVS\\1\\0\\x%02x\\x%02x\\0", columns, rows
      for (i = 0; i < columns; i++) word(x + i * gap_x)
      for (j = 0; j < rows; j++) word(y + j * gap_y)
      for (j = 0; j < rows; j++) for (i = 0; i < columns; i++) { word(i - 2 * j); word(64 / gap_x); word(-128 / gap_y) }
    }')" >"$made/$1"
}
