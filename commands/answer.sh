# What ./certify and ./explain share: an input handed to a proved program, its answer printed, and a status that tells it.
# The program itself has no status, so the first line of its answer gives it.

readonly ACCEPTED=0 REFUSED=1 NO_ANSWER=2

folder=$(dirname "$(readlink -f "${BASH_SOURCE[0]}")")/..
. "$folder/commands/sources.sh"

usage_of() {
  cat <<EOF
usage: ./$1 [FILE]

FILE has data, plan and multipliers as docs/FORMAT.md says. Without FILE, or with -, standard input is read.

$2

status: 0 the plan is accepted, 1 it is refused, 2 there is no answer

the one-plant station, as an example: ./$1 examples/station.txt
EOF
}

# Ends the command without an answer, and says why.
no_answer() {
  echo "$1: $2" >&2
  exit "$NO_ANSWER"
}

# Why the program cannot be used as it is: it is missing, or a source is newer. Nothing where it can.
reason_to_build() {
  local shown=${1#"$folder/"} newer
  cd "$folder" || return
  [ -x "$shown" ] || { echo "$shown is missing"; return; }
  newer=$(newer_source "$shown") || return
  [ -z "$newer" ] || echo "$newer is newer than $shown"
}

# Ends the command after a build that failed: the program is made older than every source, so that it does not answer the next call.
build_failed() {
  local name=$1 program=$2
  [ ! -e "$program" ] || touch -d @0 "$program"
  no_answer "$name" "the program could not be built"
}

# The program, proved and built where it is missing or older than a source: an old program does not answer for a new source.
# The input is not lent to the toolchain: the program is to read it.
build() {
  local name=$1 program=$2 reason began
  reason=$(reason_to_build "$program") || no_answer "$name" "the source of the program cannot be read"
  [ -n "$reason" ] || return 0
  command -v rt > /dev/null || no_answer "$name" "$reason, and rt is missing: the Rattle toolchain, which proves the program and builds it. README.md, \"What you need\", says what to do"
  echo "$name: $reason: the program is proved and built first, which can take some minutes" >&2
  began=$EPOCHREALTIME
  "$folder/commands/build" "$name" < /dev/null >&2 || build_failed "$name" "$program"
  # The start of the build is the time to set: what was edited since is newer.
  touch -d "@$began" "$program"
}

# Prints an answer line by line as it comes; the status is the first line's.
print_answer() {
  local line status=$NO_ANSWER
  if IFS= read -r line; then
    case $line in
      "A "*) status=$ACCEPTED ;;
      "R "*) status=$REFUSED ;;
    esac
    printf '%s\n' "$line" && cat || status=$NO_ANSWER
  fi
  return "$status"
}

# answer NAME WHAT_IT_PRINTS [ARGUMENT..]: the command NAME.
answer() {
  local name=$1 prints=$2 program=$folder/target/bin/$1 file statuses
  shift 2
  if [ $# -gt 1 ] || { [ $# -eq 0 ] && [ -t 0 ]; }; then
    usage_of "$name" "$prints" >&2
    exit "$NO_ANSWER"
  fi
  file=${1--}
  case $file in
    --help)
      usage_of "$name" "$prints"
      exit "$NO_ANSWER"
      ;;
    -) { exec 3<&0; } 2> /dev/null || no_answer "$name" "standard input is closed" ;;
    *)
      [ -e "$file" ] || no_answer "$name" "there is no file '$file'"
      [ ! -d "$file" ] || no_answer "$name" "'$file' is a folder"
      { exec 3< "$file"; } 2> /dev/null || no_answer "$name" "'$file' cannot be read"
      ;;
  esac
  build "$name" "$program"
  "$program" <&3 | print_answer
  statuses=("${PIPESTATUS[@]}")
  [ "${statuses[0]}" -eq 0 ] || no_answer "$name" "the program ended before its answer was read whole"
  exit "${statuses[1]}"
}
