# Sourced by the scripts here that run the program: where it is (DNSD names another one), a folder of the run's own, which goes at its end,
# and the zone that queries are asked of.
program=${DNSD:-$PWD/crates/dnsd/out/dnsd}
[ -x "$program" ] || { echo "bench: no program at $program: run make dnsd first" >&2; exit 1; }
work=$(mktemp -d)
trap 'rm -rf "$work"' EXIT

# A zone of so many records: an SOA, an NS, and then hosts of which each tenth is an alias of the one before it.
zone() {
    awk -v n="$1" 'BEGIN {
        print "example.test. 3600 IN SOA ns1.example.test. admin.example.test. 1 7200 900 1209600 300"
        print "example.test. 3600 IN NS ns1.example.test."
        for (i = 0; i + 2 < n; i++) {
            if (i % 10 == 9) printf "h%d.example.test. 3600 IN CNAME h%d.example.test.\n", i, i - 1
            else printf "h%d.example.test. 3600 IN A 192.0.2.%d\n", i, i % 256
        }
    }'
}
