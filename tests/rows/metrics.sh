# Metrics, from the outside: `dnsd serve --metrics` where the address isn't one or can't be listened on, and which threads it takes.
zone=$room/metrics.zone
cat >"$zone" <<'end'
example. 3600 IN SOA ns.example. host.example. 6 1 1 1 1
example. 3600 IN NS ns.example.
end
input=

# words
row 2 "--metrics: '127.0.0.1' is not an address and port" serve --listen 127.0.0.1:0 --workers 1 --metrics 127.0.0.1 "$zone"
row 2 "--metrics: '' is not an address and port" serve --listen 127.0.0.1:0 --workers 1 --metrics '' "$zone"

# an address of no interface, before a store is begun
tries serve --listen 127.0.0.1:0 --workers 1 --count 0 --store "$room/metrics.store" --metrics 192.0.2.1:9153 "$zone"
[[ $got == 3 && $told == *"error: --metrics: cannot listen on 192.0.2.1:9153: "* ]] || differs "status 3" serve --metrics 192.0.2.1:9153
[ ! -e "$room/metrics.store/store" ] || fails 'a store was begun'

# a server that ends says how many requests it had for metrics
tries serve --listen 127.0.0.1:0 --workers 1 --count 0 --metrics 127.0.0.1:0 "$zone"
[[ $got == 0 && $told == *'metrics thread exited: 0 requests served'* ]] || differs "status 0" serve --metrics 127.0.0.1:0

# with 62 threads there is none left for metrics
row 2 '--workers 31 with 1 addresses needs more than 62 threads' serve --listen 127.0.0.1:0 --workers 31 --metrics 127.0.0.1:0 "$zone"
