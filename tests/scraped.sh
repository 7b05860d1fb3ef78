# Sourced by the scripts that read the metrics of a running `dnsd serve`: finds the program and the commands in `needed`, each as COMMAND:PACKAGE of Debian, and gives
# what tests/asking.sh does; $web is where metrics are served. The script has set `port` and `needed`.
# shellcheck shell=bash
program=${DNSD:-$PWD/crates/dnsd/out/dnsd}
name=$(basename "$0" .sh)
[ -x "$program" ] || { echo "$name: no program at $program: run make dnsd first" >&2; exit 2; }
for each in "${needed[@]}"; do
    command -v "${each%:*}" >/dev/null || { echo "$name: no ${each%:*}: it needs Debian's ${each#*:}" >&2; exit 2; }
done
. tests/asking.sh
web=127.0.0.1:$((port + 1))
