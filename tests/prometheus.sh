#!/usr/bin/env bash
# Has Debian's Prometheus scrape a running `dnsd serve --metrics` for a minute, each second: what `promtool check` says of the metrics, of
# contrib/prometheus.yml and of contrib/prometheus-rules.yml, each of which must be nothing but success; that no scrape failed; that each
# query of contrib/grafana-dashboard.json and each rule is one; that counters follow what dig and nsupdate send; and the page in headless
# Chromium. It prints a line a check and a count, and its status is 1 where one failed. It listens on 127.0.0.1 alone, and ends what it
# starts.
# Usage: [DNSD=PROGRAM] tests/prometheus.sh [--port N] [--seconds N] [--picture FILE]
#   --port N        dnsd listens on N (by default 15473), for HTTP on the one after it, and Prometheus on the one after that
#   --seconds N     Prometheus scrapes for N seconds (by default 60)
#   --picture FILE  Chromium's picture of the page is kept there
# It needs Debian's packages prometheus (with promtool), chromium, bind9-dnsutils, curl and python3, and the program that `make dnsd` builds.
set -euo pipefail
cd "$(dirname "$0")/.."
port=15473 seconds=60 picture=
while [ $# -gt 0 ]; do
    case $1 in
        --port) port=$2; shift 2 ;;
        --seconds) seconds=$2; shift 2 ;;
        --picture) picture=$2; shift 2 ;;
        *) echo "prometheus: no option $1" >&2; exit 2 ;;
    esac
done
needed=(prometheus:prometheus promtool:prometheus chromium:chromium dig:bind9-dnsutils nsupdate:bind9-dnsutils curl:curl python3:python3)
. tests/scraped.sh
own=127.0.0.1:$((port + 2))

mkdir "$work/store"
serve zones/example.test.zone --metrics "$web" --store "$work/store" --notify "127.0.0.1:$((port + 3))"

# What promtool says: of the page nothing, of the files that they are right.
curl -fsS "http://$web/metrics" >"$work/metrics"
check 'promtool check metrics says nothing' '0 ' "$(said=$(promtool check metrics <"$work/metrics" 2>&1) && status=0 || status=$?; echo "$status $said")"
check 'promtool check rules finds no fault' 0 "$(promtool check rules contrib/prometheus-rules.yml >"$work/said" 2>&1 && echo 0 || cat "$work/said")"
check 'promtool check config finds no fault' 0 "$(promtool check config contrib/prometheus.yml >"$work/said" 2>&1 && echo 0 || cat "$work/said")"

# Of secondaries one is behind and one has never answered; one of another server is a second behind at each moment, and no rule holds of it.
cat >"$work/rules_test.yml" <<P
rule_files: [$PWD/contrib/prometheus-rules.yml]
evaluation_interval: 15s
tests:
  - interval: 15s
    input_series:
      - {series: 'dnsd_zone_serial{instance="a",zone="x."}', values: 1x60}
      - {series: 'dnsd_notify_serial{instance="a",secondary="current"}', values: 1x60}
      - {series: 'dnsd_notify_serial{instance="a",secondary="behind"}', values: 4294967295x60}
      - {series: 'dnsd_notify_total{instance="a",secondary="behind",result="sent"}', values: 2x60}
      - {series: 'dnsd_notify_total{instance="a",secondary="behind",result="answered"}', values: 1x60}
      - {series: 'dnsd_notify_total{instance="a",secondary="silent",result="sent"}', values: 2x60}
      - {series: 'dnsd_notify_total{instance="a",secondary="silent",result="answered"}', values: 0x60}
      - {series: 'dnsd_zone_serial{instance="b",zone="x."}', values: 10+1x60}
      - {series: 'dnsd_notify_serial{instance="b",secondary="current"}', values: 9+1x60}
    alert_rule_test:
      - {eval_time: 4m, alertname: DnsdSecondaryBehind, exp_alerts: []}
      - eval_time: 14m
        alertname: DnsdSecondaryBehind
        exp_alerts:
          - exp_labels: {instance: a, secondary: behind}
            exp_annotations: {summary: the secondary behind has not answered for the last serial}
      - eval_time: 14m
        alertname: DnsdSecondarySilent
        exp_alerts:
          - exp_labels: {instance: a, secondary: silent, result: sent}
            exp_annotations: {summary: the secondary silent has answered no NOTIFY since the server was started}
P
check 'the rules of secondaries' 0 "$(promtool test rules "$work/rules_test.yml" >"$work/said" 2>&1 && echo 0 || cat "$work/said")"

# Prometheus with the files of contrib, but for the address and how often it asks.
sed "s/127.0.0.1:9153/$web/; s/scrape_interval: .*/scrape_interval: 1s/" contrib/prometheus.yml >"$work/prometheus.yml"
cp contrib/prometheus-rules.yml "$work/"
prometheus --config.file="$work/prometheus.yml" --storage.tsdb.path="$work/tsdb" --web.listen-address="$own" >"$work/prometheus.log" 2>&1 &
started+=("$!")
for _ in $(seq 100); do
    ! curl -fsS "http://$own/-/ready" >/dev/null 2>&1 || break
    sleep 0.1
done

update() {
    printf 'server 127.0.0.1 %s\nzone example.test\n%s\nsend\n' "$port" "$1" | nsupdate
}

# Requests while it scrapes.
end=$((SECONDS + seconds))
asked=0
updated=0
while [ "$SECONDS" -lt "$end" ]; do
    dig +tries=1 +time=3 @127.0.0.1 -p "$port" web.example.test A >/dev/null && asked=$((asked + 1))
    update "update add n$updated.example.test 300 A 192.0.2.77" && updated=$((updated + 1))
    sleep 0.2
done
sleep 3

# The number that an expression has now.
number() {
    curl -fsS -G "http://$own/api/v1/query" --data-urlencode "query=$1" |
        python3 -c 'import json, sys; r = json.load(sys.stdin)["data"]["result"]; print(r[0]["value"][1] if r else "none")'
}
check 'it scraped' yes "$([ "$(number "count_over_time(up{job=\"dnsd\"}[${seconds}s])")" -ge $((seconds * 9 / 10)) ] && echo yes)"
check 'no scrape failed' 1 "$(number "min_over_time(up{job=\"dnsd\"}[${seconds}s])")"
check 'queries' "$asked" "$(number 'sum(dnsd_query_types_total{type="A"})')"
check 'updates that changed the zone' "$updated" "$(number dnsd_updates_changed_total)"
check 'times of updates' "$updated" "$(number dnsd_update_seconds_count)"
check 'updates in batches' "$updated" "$(number dnsd_store_batch_updates_total)"
fell=
for name in $(sed -n 's/^# TYPE \([^ ]*\) counter/\1/p' "$work/metrics"); do
    [ "$(number "sum(resets($name[5m]))")" = 0 ] || fell+="$name "
done
check 'no counter fell' '' "$fell"
check 'the system knows the process' yes "$([ "$(number process_resident_memory_bytes)" -gt 1000000 ] && echo yes)"

# Each rule is evaluated, and each query of the dashboard is one.
curl -fsS "http://$own/api/v1/rules" >"$work/rules"
check 'rules without a fault' '' "$(python3 -c '
import json, sys
for group in json.load(open(sys.argv[1]))["data"]["groups"]:
    for rule in group["rules"]:
        if rule["health"] not in ("ok", "unknown"): print(rule["name"], rule.get("lastError"))' "$work/rules")"
python3 - >"$work/queries" <<'P'
import json
for panel in json.load(open("contrib/grafana-dashboard.json"))["panels"]:
    for target in panel["targets"]:
        print(target["expr"].replace("$instance", ".*").replace("$__rate_interval", "30s"))
P
while read -r query; do
    check "a query of the dashboard: $query" success "$(curl -sS -G "http://$own/api/v1/query" --data-urlencode "query=$query" |
        python3 -c 'import json, sys; r = json.load(sys.stdin); print(r["status"] + r.get("error", ""))')"
done <"$work/queries"

# Each metric that rules and dashboard name is one that the server has.
curl -fsS "http://$web/metrics" | sed -n 's/^# TYPE \([^ ]*\) .*/\1/p' >"$work/families"
check 'rules and dashboard name metrics that there are' '' "$(grep -ho '\bdnsd_[a-z_]*\|\bprocess_[a-z_]*' contrib/prometheus-rules.yml contrib/grafana-dashboard.json |
    sed 's/_bucket$//' | sort -u | grep -vxFf "$work/families" || true)"

# The page.
chromium --headless --no-sandbox --disable-gpu --hide-scrollbars --window-size=1000,1200 --user-data-dir="$work/chromium" \
    --screenshot="$work/page.png" "http://$web/" >"$work/said" 2>&1 || true
check 'Chromium has a picture of the page' yes "$([ "$(stat -c %s "$work/page.png" 2>/dev/null || echo 0)" -gt 5000 ] && echo yes)"
[ -z "$picture" ] || cp "$work/page.png" "$picture"

echo "$passed checks passed, $failed failed"
[ "$failed" -eq 0 ]
