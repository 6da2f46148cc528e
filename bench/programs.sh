# To be sourced after start.sh, with the name of a plain program if there is one. Builds that, and uses `flight_bench` as the gate built
# it, or builds it if it is older than a source. The programs' paths are then $plain and $proved.
plain=$work/plain
proved=$PWD/crates/flight_bench/out/flight_bench
if (($#)); then rustc -O --edition 2021 -o "$plain" "bench/$1.rs"; fi
if [ ! -x "$proved" ] || [ -n "$(find crates -name '*.rt' -newer "$proved" -print -quit)" ]; then
  if ! (cd crates/flight_bench && rt run -- decode-data 0 /dev/null) </dev/null >"$work/log" 2>&1; then
    cat "$work/log" >&2
    exit 1
  fi
fi

# Checks that both programs print the same for these words.
agree() {
  "$plain" "$@" >"$work/plain.printed"
  "$proved" "$@" >"$work/proved.printed"
  cmp "$work/plain.printed" "$work/proved.printed"
}

# Checks that both write the file's message unchanged, and report the same fault if it is cut short.
agree_on_message() {
  agree "$1" 1 "$2"
  cmp "$2" "$work/proved.printed"
  head -c -1 "$2" >"$2.cut"
  if "$plain" "$1" 1 "$2.cut" 2>"$work/plain.fault" || "$proved" "$1" 1 "$2.cut" 2>"$work/proved.fault"; then
    echo "$1: no fault for a message that is cut short" >&2
    exit 1
  fi
  cmp "$work/plain.fault" <(sed 's/^flight_bench: //' "$work/proved.fault")
}
