#!/usr/bin/env bash
# Has certbot, by its plugin dns_rfc2136, and lego get certificates from an ACME server of this machine, Pebble: to show that a name is theirs they
# put a TXT record at `_acme-challenge` below it (RFC 8555, 8.4) into the zone of a running `dnsd serve --keys`, by updates that are signed
# (RFC 8945), which Pebble asks for there. Each has a key of hmac-sha256 and one of hmac-sha512, whose rule gives it that owner and TXT alone. Then
# what they report where the key isn't known, the secret is another, the clock is ten minutes fast, the algorithm is certbot's default, and the
# name is another than the rule's. It prints a line a check and a count, and its status is 1 where one failed. It listens on 127.0.0.1
# alone, and ends what it starts.
# Usage: [DNSD=PROGRAM] tests/acme.sh [--port N]
#   --port N    dnsd listens on N (by default 15413), Pebble on the two after it
# It needs Debian's packages bind9-dnsutils, certbot, python3-certbot-dns-rfc2136, lego, pebble, openssl and faketime, and the program that `make dnsd`
# builds. external-dns, which Debian hasn't, makes its updates by the library of lego, miekg/dns.
set -euo pipefail
cd "$(dirname "$0")/.."
program=${DNSD:-$PWD/crates/dnsd/out/dnsd}
port=15413
while [ $# -gt 0 ]; do
    case $1 in
        --port) port=$2; shift 2 ;;
        *) echo "acme: no option $1" >&2; exit 2 ;;
    esac
done
. tests/asking.sh
. tests/contrib.sh
need "bind9-dnsutils, certbot, lego, pebble, openssl and faketime" dig certbot lego pebble openssl faketime
[ -n "$(certbot plugins --config-dir "$work/c" --work-dir "$work/w" --logs-dir "$work/l" 2>/dev/null | grep dns-rfc2136)" ] || {
    echo "acme.sh: no plugin dns_rfc2136: it needs Debian's python3-certbot-dns-rfc2136" >&2
    exit 2
}

acme=$((port + 1))
s1=AAECAwQFBgcICQoLDA0ODxAREhMUFRYXGBkaGxwdHh8=
s2=AAECAwQFBgcICQoLDA0ODxAREhMUFRYXGBkaGxwdHh8gISIjJCUmJygpKissLS4vMDEyMzQ1Njc4OTo7PD0+Pw==
s3=ZGlmZmVyZW50IHNlY3JldCBvZiBvY3RldHM=

# Pebble, with a certificate of its own, which validates at once and by dnsd alone.
start_pebble() {
    openssl req -x509 -newkey rsa:2048 -nodes -keyout "$work/acme.key" -out "$work/acme.pem" -days 2 -subj /CN=acme \
        -addext subjectAltName=IP:127.0.0.1 2>/dev/null
    cat >"$work/pebble.json" <<end
{ "pebble": { "listenAddress": "127.0.0.1:$acme", "managementListenAddress": "127.0.0.1:$((acme + 1))", "httpPort": 5002, "tlsPort": 5001,
  "certificate": "$work/acme.pem", "privateKey": "$work/acme.key", "ocspResponderURL": "", "externalAccountBindingRequired": false } }
end
    PEBBLE_VA_NOSLEEP=1 PEBBLE_WFE_NONCEREJECT=0 pebble -config "$work/pebble.json" -dnsserver "127.0.0.1:$port" >"$work/pebble.log" 2>&1 &
    started+=($!)
    for _ in $(seq 100); do
        ! grep -q 'directory available' "$work/pebble.log" || return 0
        sleep 0.1
    done
    cat "$work/pebble.log" >&2
    echo "acme.sh: pebble doesn't start" >&2
    exit 2
}

# Asks for the certificate of a name by certbot: NAME KEY SECRET [ALGORITHM [COMMAND ..]], where a command such as faketime stands before it.
by_certbot() {
    local name=$1 ini=$work/ini
    printf 'dns_rfc2136_%s\n' 'server = 127.0.0.1' "port = $port" "name = $2" "secret = $3" ${4:+"algorithm = $4"} >"$ini"
    chmod 600 "$ini"
    REQUESTS_CA_BUNDLE=$work/acme.pem "${@:5}" certbot certonly --server "https://127.0.0.1:$acme/dir" --non-interactive --agree-tos \
        --register-unsafely-without-email --config-dir "$work/certbot" --work-dir "$work/certbot" --logs-dir "$work/certbot" \
        --dns-rfc2136 --dns-rfc2136-credentials "$ini" --dns-rfc2136-propagation-seconds 0 -d "$name" >"$work/told" 2>&1 || true
    cert=$work/certbot/live/$name/cert.pem
}

# By lego, likewise.
by_lego() {
    RFC2136_NAMESERVER=127.0.0.1:$port RFC2136_TSIG_KEY=$2 RFC2136_TSIG_SECRET=$3 RFC2136_TSIG_ALGORITHM=${4,,}. RFC2136_POLLING_INTERVAL=1 \
        RFC2136_PROPAGATION_TIMEOUT=10 LEGO_CA_CERTIFICATES=$work/acme.pem lego --accept-tos --email admin@example.test \
        --server "https://127.0.0.1:$acme/dir" --path "$work/lego" --dns rfc2136 --dns.resolvers "127.0.0.1:$port" --dns.disable-cp \
        --domains "$1" run >"$work/told" 2>&1 || true
    cert=$work/lego/certificates/$1.crt
}

# The names of the certificate that was got, and how many updates changed the zone since the log was so long: LINES
got() {
    echo "$(openssl x509 -in "$cert" -noout -ext subjectAltName 2>/dev/null | sed -n 's/^ *DNS://p')," \
        "$(tail -n "+$(($1 + 1))" "$work/dnsd.log" | grep -cE '^update from .*: NOERROR, serial [0-9]+ to') updates"
}

# A certificate by an update that puts the record and one that takes it away: TOOL NAME KEY SECRET ALGORITHM
gets() {
    local lines
    lines=$(wc -l <"$work/dnsd.log")
    "by_$1" "${@:2}"
    check "$1, $5" "$2, 2 updates" "$(got "$lines")"
    check "$1, $5, then no record is left" "" "$(dig @127.0.0.1 -p "$port" +short "_acme-challenge.$2" TXT)"
}

# What the log says of refusals after so many lines, which it does at most once a second: LINES WANTED
logged() {
    local said
    for _ in $(seq 30); do
        said=$(tail -n "+$(($1 + 1))" "$work/dnsd.log" |
            sed -nE 's/^request from .* signed with (key [^ ]+)\.,.*\((BAD[A-Z]+)\).*/\1 \2/p; s/^update from [^ ]+ refused: .*/update refused/p')
        ! grep -Fxq "$2" <<<"$said" || { echo "$2"; return; }
        sleep 0.1
    done
    echo "$said"
}

# None, as the tool reports, and as dnsd logs: WHAT TOOL REPORT LOG NAME KEY SECRET [ALGORITHM ..]
fails() {
    local lines
    lines=$(wc -l <"$work/dnsd.log")
    "by_$2" "${@:5}"
    check "$2, $1" ", 0 updates" "$(got "$lines")"
    check "$2, $1, its report" "$3" "$(grep -oE "$3" "$work/told" | head -1)"
    check "$2, $1, the log" "$4" "$(logged "$lines" "$4")"
}

printf '%s\n' "hmac-sha256:acme1.key:$s1" "hmac-sha512:acme2.key:$s2" "hmac-sha256:acme3.key:$s1" "hmac-sha512:acme4.key:$s2" >"$work/keys"
chmod 600 "$work/keys"
names=(web mail ns1 www)
rules=()
for at in 1 2 3 4; do rules+=(--may "key acme$at.key: update exact _acme-challenge.${names[at - 1]}.$d TXT"); done
serve zones/example.test.zone --allow '' --keys "$work/keys" "${rules[@]}"
start_pebble

gets certbot web.example.test acme1.key $s1 HMAC-SHA256
gets certbot mail.example.test acme2.key $s2 HMAC-SHA512
gets lego ns1.example.test acme3.key $s1 HMAC-SHA256
gets lego www.example.test acme4.key $s2 HMAC-SHA512

fails "an unknown key" certbot "didn't know the key" 'key other.key BADKEY' new1.example.test other.key $s1 HMAC-SHA256
fails "another secret" certbot "didn't like the signature" 'key acme1.key BADSIG' new2.example.test acme1.key $s3 HMAC-SHA256
fails "its default algorithm" certbot "didn't know the key" 'key acme1.key BADKEY' new3.example.test acme1.key $s1 ''
fails "ten minutes fast" certbot "didn't like the time" 'key acme1.key BADTIME' new4.example.test acme1.key $s1 HMAC-SHA256 faketime -f +600s
fails "another name than the rule's" certbot 'server: REFUSED' 'update refused' new5.example.test acme1.key $s1 HMAC-SHA256
fails "an unknown key" lego "bad authentication" 'key other.key BADKEY' new1.example.test other.key $s1 HMAC-SHA256
fails "another secret" lego "bad authentication" 'key acme4.key BADSIG' new2.example.test acme4.key $s3 HMAC-SHA512
fails "another name than the rule's" lego REFUSED 'update refused' new5.example.test acme4.key $s2 HMAC-SHA512
echo "$passed checks passed, $failed failed"
[ "$failed" = 0 ]
