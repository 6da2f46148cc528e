# To be sourced first by each bench that is a shell script. Prints the comment at the head of the bench and ends if the first argument is
# --help. Else it changes to the top of the repository, and makes an empty folder, $work, for as long as the bench runs.
set -euo pipefail
if [[ ${1-} == --help || ${1-} == -h ]]; then
  awk 'NR > 1 { if (!/^#/) exit; sub(/^# ?/, ""); print }' "$0"
  exit
fi
cd "$(dirname "${BASH_SOURCE[0]}")/.."
work=$(mktemp -d)
trap 'rm -rf "$work"' EXIT

# Builds the program if it is older than a source, as ./flightd does. With the smallest counts it is used as it is.
build_flightd() {
  if [ -z "${SMALLEST-}" ]; then ./flightd --version >"$work/version"; fi
}

# The first of two counts, or the second if the smallest are wanted (SMALLEST, which bench/run sets).
count_of() {
  if [ -n "${SMALLEST-}" ]; then echo "$2"; else echo "$1"; fi
}

# All of some counts, or the first if the smallest are wanted.
counts_of() {
  if [ -n "${SMALLEST-}" ]; then echo "$1"; else echo "$@"; fi
}
