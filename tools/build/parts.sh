# How ./test and tools/tests/test_machine count: functions that run parts, tests whose last line is 'N passed, M failed', and add these up. Each part
# leaves a line in `clock`: its name, its seconds of processor time, and those of the clock on the wall.
clock=''
TIMEFORMAT='%U %S %R'

# Adds the last line of a part. One that says nothing, passes nothing, or ends badly without naming a failure, is one failure.
passed=0 failed=0
count() {
  local name=$1 line=$2 status=$3
  echo "$name: $line"
  if [[ $line =~ ^([0-9]+)\ passed,\ ([0-9]+)\ failed$ ]]; then
    local good=${BASH_REMATCH[1]} bad=${BASH_REMATCH[2]}
    passed=$(( passed + good )) failed=$(( failed + bad ))
    if [ "$bad" = 0 ] && { [ "$good" = 0 ] || [ "$status" != 0 ]; }; then failed=$(( failed + 1 )); fi
  else
    failed=$(( failed + 1 ))
  fi
}

# Tells of a part that ended: NAME SAID STATUS. The name goes before the last line that it said.
told() {
  echo "$2" | sed '$d'
  count "$1" "$(echo "$2" | tail -n 1)" "$3"
  return "$3"
}

# Notes what a part took, which `time` wrote after what the part itself said there: NAME FILE
took() { clock+=$(tail -n 1 "$2" | awk -v name="$1" '{ printf "%-60s %7.0f %7.0f", name, $1 + $2, $3 }')$'\n'; }

# Runs a command, and gives what it said as `said` and its status as `status`: NAME COMMAND..
timed() {
  local seconds
  seconds=$(mktemp)
  said=$({ time "${@:2}" 2>&1; } 2> "$seconds")
  status=$?
  took "$1" "$seconds"
  rm -f "$seconds"
}

# Runs a part: NAME COMMAND..
part() {
  local said status
  timed "$@"
  told "$1" "$said" "$status"
}

# Tries one program by scripts that run side by side, as many as there are processors: NAME SCRIPTS [SETTING..]
try() {
  local room script
  room=$(mktemp -d)
  for script in $2; do
    while [ "$(jobs -pr | wc -l)" -ge "$(nproc)" ]; do wait -n; done
    { { time env "${@:3}" "tools/tests/test_$script" > "$room/$script" 2>&1; } 2> "$room/$script.took"; echo $? > "$room/$script.ended"; } &
  done
  wait
  for script in $2; do
    took "tools/tests/test_$script, $1" "$room/$script.took"
    told "tools/tests/test_$script, $1" "$(cat "$room/$script")" "$(cat "$room/$script.ended")"
  done
  rm -rf "$room"
}
