# shellcheck shell=bash
# What ./study, ./load, ./dist, ./bench, scripts/build-calls and the gate's scripts share; each reads it with '.', and has $me, what its messages begin with.

# The clone's top folder.
root=$(cd "$(dirname "${BASH_SOURCE[0]}")/.." && pwd)
# The crate whose static library has the calls of include/ltd_study.h, and this library.
library=c_abi
# shellcheck disable=SC2034 # for the scripts
archive=${LTD_LIB_DIR:-$root/target/staticlib}/lib$library.a

fail() {
  echo "${me:-$0}: $1" >&2
  exit 2
}

# A folder that is gone when the script ends, in $work.
work_folder() {
  work=$(mktemp -d) || fail "no temporary folder"
  trap 'rm -rf "$work"' EXIT
}

# needed TOOL WHY
needed() {
  command -v "$1" >/dev/null || fail "there is no '$1' on the path: $2. Install it, or take a release, which needs Python alone (docs/USING.md)"
}

# ---- building ----

# What rt proves and builds stays in each crate's out/, and goes with it where rt puts that aside. What the scripts run and link is copied from there to
# target/bin and target/staticlib, here alone.

# crate_kind NAME: program, static or library.
crate_kind() {
  if [ -f "$root/crates/$1/src/main.rt" ]; then
    echo program
  elif grep -qE "^$1 +staticlib *:" "$root/crates.txt"; then
    echo static
  else
    echo library
  fi
}

# crate_seconds NAME..: the crates named and all they rest on, lowest first, each with the seconds that it took last, here or (scripts/crate-seconds) elsewhere.
crate_seconds() {
  local kept=$root/target/crate-seconds
  [ -f "$kept" ] || kept=/dev/null
  awk -v wanted="$*" '
    /^#/ { next }
    /:/ { name = $1; sub(":", "", name); line[++lines] = name; below[name] = substr($0, index($0, ":") + 1); next }
    { seconds[$1] = $2 }
    END {
      n = split(wanted, due, " ")
      for (i = 1; i <= n; i++) {
        if (!(due[i] in below) || due[i] in seen) continue
        seen[due[i]] = 1
        m = split(below[due[i]], more, " ")
        for (j = 1; j <= m; j++) due[++n] = more[j]
      }
      for (i = 1; i <= lines; i++) if (line[i] in seen) print line[i], (line[i] in seconds) ? seconds[line[i]] : 10
    }' "$root/scripts/crate-seconds" "$kept" "$root/crates.txt"
}

# about SECONDS
about() {
  if [ "$1" -lt 90 ]; then echo "about $1 s"; else echo "about $((($1 + 30) / 60)) min"; fi
}

# take FILE FOLDER: copies what rt built to target/FOLDER, unless the same stands there.
take() {
  local to=$root/target/$2 name=${1##*/}
  [ -f "$1" ] || { echo "rt built no '$PWD/$1'"; return 1; }
  mkdir -p "$to" || return
  cmp -s "$1" "$to/$name" || { cp "$1" "$to/.$name.$$" && mv "$to/.$name.$$" "$to/$name"; }
}

# built NAME: proves and builds a crate by rt, which says how; a program is also run, with no input, since that is how rt builds one.
built() {
  cd "$root/crates/$1" || return
  case $(crate_kind "$1") in
    program) rt run </dev/null 2>&1 >/dev/null && take "out/$1" bin ;;
    static) rt lib </dev/null 2>&1 && take "out/lib$1.a" staticlib ;;
    library) rt lib </dev/null 2>&1 ;;
  esac
}

# build NAME..: these crates and all they rest on, lowest first, with a line for each when it is proved, and what is left of the time. What one took that was
# proved from nothing is kept for the next estimate.
build() {
  local name took since count=0 proved=0 left=0 names=()
  local -A seconds
  needed rt "the engine is proved and built with it"
  while read -r name took; do
    names+=("$name") seconds[$name]=$took left=$((left + took)) count=$((count + 1))
  done < <(crate_seconds "$@")
  echo "$me: building; $count crates are proved first, where they aren't yet, which takes $(about "$left")" >&2
  for name in "${names[@]}"; do
    since=$SECONDS
    if ! (built "$name") >"$work/log"; then
      tail -n 20 "$work/log" >&2
      fail "the build failed"
    fi
    took="$((SECONDS - since)) s"
    if grep -q "^crate $name: modules loaded=0 " "$work/log"; then
      mkdir -p "$root/target" && echo "$name ${took% s}" >>"$root/target/crate-seconds"
    elif ! grep -q "^crate $name: .* checked=[1-9]" "$work/log"; then
      took="unchanged since it was last proved"
    fi
    left=$((left - seconds[$name])) proved=$((proved + 1))
    echo "$me: $proved of $count, $name: proved ($took), $(about "$left") left" >&2
  done
}

# build_program NAME: the program NAME, in $program, built if it isn't there.
build_program() {
  program=$root/target/bin/$1
  [ -x "$program" ] || build "$1"
}

# build_all NAME..: these programs and the static library.
build_all() { build "$@" "$library"; }

# The commit, with a mark where files differ from it.
commit_name() {
  local commit
  commit=$(git -C "$root" rev-parse HEAD 2>/dev/null) || { echo unknown; return; }
  [ -z "$(git -C "$root" status --porcelain 2>/dev/null)" ] || commit="$commit with changes"
  echo "$commit"
}

# ---- the gate's scripts ----

passed=0
failed=0
# result NAME WHY: counts a check; WHY is empty if it passed.
result() {
  if [ -z "$2" ]; then
    passed=$((passed + 1))
    echo "$1: ok"
  else
    failed=$((failed + 1))
    echo "$1: FAILED, ${2# }"
  fi
}

# check NAME STATUS OUT ERR COMMAND..: exit status, standard output (a file) and a line of standard error (a pattern; '' if it must say nothing). Nothing is
# left in the folder $watched, where that is set.
check() {
  local name=$1 status=$2 out=$3 err=$4 got why=""
  shift 4
  "$@" >"$work/out" 2>"$work/err" </dev/null
  got=$?
  [ "$got" = "$status" ] || why="$why status $got for $status;"
  cmp "$work/out" "$out" >"$work/cmp" 2>&1 || why="$why $(cat "$work/cmp"; head -c 1000 "$work/out" | tr -d '\0');"
  if [ -n "$err" ]; then
    grep -q -- "$err" "$work/err" || why="$why no '$err' in: $(cat "$work/err");"
  elif [ -s "$work/err" ]; then
    why="$why it said: $(cat "$work/err");"
  fi
  [ -z "${watched-}" ] || [ -z "$(ls -A "$watched")" ] || why="$why a temporary folder is left;"
  result "$name" "$why"
}

# The last line of a stage.
closing() {
  echo "$passed passed, $failed failed"
  [ "$failed" -eq 0 ]
}

# cargo_second WORDS..: cargo on the second implementation, for release.
cargo_second() {
  local verb=$1
  shift
  cargo "$verb" --quiet --release --offline --manifest-path "$root/tests/second/Cargo.toml" --target-dir "$root/target/second" "$@"
}

# A clone in $copy that isn't built yet, and a folder $work/path for its rt.
unbuilt_copy() {
  copy=$work/copy
  mkdir -p "$copy/scripts" "$work/path"
  cp "$root/scripts/shared.sh" "$root/scripts/crate-seconds" "$copy/scripts/"
  cp "$root/crates.txt" "$copy/"
  (cd "$root" && find crates -path 'crates/*/src/*' \( -name lib.rt -o -name main.rt \) -exec cp --parents {} "$copy/" \;)
}

# rt_that LINES: $work/path has an rt of these shell lines, and nothing is built in the copy.
rt_that() {
  printf '#!/usr/bin/env bash\n%s\n' "$1" >"$work/path/rt"
  chmod +x "$work/path/rt"
  rm -rf "$copy"/target "$copy"/crates/*/out "$work/seen"
}

# rt_builds CRATE PROGRAM: an rt that proves nothing. It says of some crates that they are proved, each where it is asked to build it, and of basics nothing, as
# if that were unchanged; the program CRATE is a copy of PROGRAM. It goes on after month_starts when the line of that was seen, and fails if it wasn't in ten
# seconds.
rt_builds() {
  rt_that "name=\${PWD##*/}
echo 'fn calendar::month: proved'
case \$name in
  basics) ;;
  month_starts) echo \"crate \$name: modules loaded=0 checked=9\" ;;
  calendar)
    for i in {1..100}; do [ ! -e '$work/seen' ] || break; sleep 0.1; done
    [ -e '$work/seen' ] || exit 1
    echo \"crate \$name: modules loaded=0 checked=66\" ;;
  $1) [ \"\$*\" = run ] && mkdir -p out && cp '$2' out/ && echo a line of the program ;;
  *) [ \"\$*\" = lib ] && echo \"crate \$name: modules loaded=5 checked=1\" ;;
esac"
}

# first_time COMMAND WORDS..: the copy's command with the rt of $work/path. Its line of month_starts is marked as seen when it is there.
first_time() {
  local status
  PATH=$work/path:$PATH "$copy/$1" "${@:2}" 2>&1 >"$work/first" | while IFS= read -r line; do
    echo "$line" >&2
    case $line in *"month_starts: proved ("*" s), "*) : >"$work/seen" ;; esac
  done
  status=${PIPESTATUS[0]}
  cat "$work/first"
  return "$status"
}

quiet() { ! first_time "$@" 2>&1 | grep -a '^fn \|^crate \|^a line'; }
no_rt() { PATH=$work/tools "$copy/$1" "${@:2}"; }

# check_first_time OUT COMMAND WORDS..: what ./study and ./load say and do where their program isn't built.
check_first_time() {
  local out=$1 builds=("$crate" "$engine")
  shift
  rt_builds "${builds[@]}"
  check "the first time: says what it does, and how long it takes" 0 "$out" "^$1: building; [0-9]* crates are proved first, where they aren't yet, which takes about [0-9]* min$" first_time "$@"
  result "the first time: the seconds of a crate that is proved from nothing are kept" "$(diff <(printf '%s s\n' month_starts calendar) <(sed 's/ [0-9]*$/ s/' "$copy/target/crate-seconds") 2>&1)"
  check "the second time: says nothing" 0 "$out" '' first_time "$@"
  rt_builds "${builds[@]}"
  check "the first time: a line for each crate at once" 0 "$out" "^$1: 3 of [0-9]*, calendar: proved ([0-9]* s), about [0-9]* \(s\|min\) left$" first_time "$@"
  rt_builds "${builds[@]}"
  check "the first time: what is proved already" 0 "$out" "^$1: 1 of [0-9]*, basics: proved (unchanged since it was last proved), " first_time "$@"
  rt_builds "${builds[@]}"
  check "the first time: nothing else that rt prints" 0 /dev/null '' quiet "$@"
  rt_that "echo 'fn calendar::month: refused'; exit 1"
  check "a build that fails" 2 /dev/null "^$1: the build failed$" first_time "$@"
  check "a build that fails: why" 2 /dev/null "^fn calendar::month: refused$" first_time "$@"
  rt_that "exit 0"
  check "a build without a program" 2 /dev/null "^rt built no '.*/crates/$crate/out/$crate'$" first_time "$@"
  without_rt "$work/tools"
  check "no rt: says so, and what would do" 2 /dev/null "^$1: there is no 'rt' on the path: .* take a release, which needs Python alone" no_rt "$@"
}

# without_rt FOLDER: the usual tools in a folder, for a path that has no rt and no compiler.
without_rt() {
  local tool
  mkdir -p "$1"
  for tool in awk bash basename cat chmod cmp cp cut dirname env grep head ln ls mkdir mktemp od pwd readlink rm sed sh sha256sum sort tail tar gzip tee tr uname wc; do
    ln -sf "$(command -v "$tool")" "$1/$tool"
  done
}

# program_that LINES: the copy's program is these shell lines.
program_that() {
  mkdir -p "$copy/target/bin"
  printf '#!/usr/bin/env bash\n%s\n' "$1" >"$copy/target/bin/$crate"
  chmod +x "$copy/target/bin/$crate"
}
