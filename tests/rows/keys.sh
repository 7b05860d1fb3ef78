# What dnsd says at its start of a key file (RFC 8945), and of rules and secondaries that name a key: which files are refused, by which line, and with no
# word of them. Each run ends before its first request: its worker may answer none.
zone=zones/example.test.zone
once=(serve --listen 127.0.0.1:0 --workers 1 --count 0)
secret=AAECAwQFBgcICQoLDA0ODxAREhMUFRYXGBkaGxwdHh8=

# keys MODE TEXT: a file of keys with this mode and text
keys() {
    printf '%s\n' "$2" >"$room/keys"
    chmod "$1" "$room/keys"
}

# has_fault LINE FAULT TEXT: the file is refused at a line, and nothing of its secret is printed
has_fault() {
    keys 600 "$3"
    row 3 "is refused: line $1: $2" "${once[@]}" --keys "$room/keys" "$zone"
    [[ $said$told != *AAECAw* ]] || fails "a secret is printed: $told"
}

# the forms that are taken
for text in "key \"a.b\" { algorithm hmac-sha256; secret \"$secret\"; };" "key a.b. { secret $secret; algorithm \"HMAC-SHA384.\"; }" "hmac-sha512:a.b:$secret" \
    "# hmac-md5:x:y"$'\n'"/* of
two lines */ hmac-sha256:a.b:$secret; // the end"; do
    keys 600 "$text"
    row 0 'listening on' "${once[@]}" --keys "$room/keys" --allow '' "$zone"
done
keys 600 ''
row 0 'listening on' "${once[@]}" --keys "$room/keys" --allow '' "$zone"
keys 600 hmac-sha256:a.b:AAECAw==
row 0 'warning: the secret of key a.b. in' "${once[@]}" --keys "$room/keys" --allow '' "$zone"

# those that aren't
has_fault 1 'hmac-md5 and hmac-sha1 are too weak' "hmac-md5:a.b:$secret"
has_fault 1 'hmac-md5 and hmac-sha1 are too weak' "hmac-sha1:a.b:$secret"
has_fault 1 'the algorithm is not hmac-sha256' "hmac-sha224:a.b:$secret"
has_fault 1 'the algorithm is not hmac-sha256' "$secret:a.b:hmac-sha256"
has_fault 1 'neither a key statement nor ALGORITHM:NAME:SECRET' "hmac-sha256:$secret"
has_fault 1 'neither a key statement nor ALGORITHM:NAME:SECRET' "$secret"
has_fault 2 'the secret is not base64' $'\n'"hmac-sha256:a.b:$secret=="
has_fault 1 'the secret has no octet' 'hmac-sha256:a.b:'
has_fault 1 "the key's name is not a domain name" "hmac-sha256:a..b:$secret"
has_fault 1 "the key's name is longer than 128 octets" "hmac-sha256:$(printf 'a%.0s' {1..63}).$(printf 'a%.0s' {1..63}).a:$secret"
has_fault 2 'a key before has this name' "hmac-sha256:a.b:$secret"$'\n'"hmac-sha512:A.b.:$secret"
has_fault 1 "'{' is missing" "key a.b algorithm hmac-sha256; secret \"$secret\"; };"
has_fault 1 'a key has algorithm and secret, each once' "key a.b { secret $secret; secret $secret; };"
has_fault 2 'the file ends within a key' "key a.b {"$'\n'" secret $secret; "
has_fault 1 'a comment or a quoted word is not closed' "key a.b { secret \"$secret"
has_fault 2 'a comment or a quoted word is not closed' $'\n/* '"$secret"

# who has a right to it
keys 640 "hmac-sha256:a.b:$secret"
row 3 'has the mode 0640' "${once[@]}" --keys "$room/keys" "$zone"
keys 604 "hmac-sha256:a.b:$secret"
row 3 'has the mode 0604' "${once[@]}" --keys "$room/keys" "$zone"
rm "$room/keys"
row 3 "can't be read" "${once[@]}" --keys "$room/keys" "$zone"

# rules and secondaries that name a key
keys 600 "hmac-sha256:a.b:$secret"
row 0 'listening on' "${once[@]}" --keys "$room/keys" --may 'key A.b: update, transfer' --may 'key a.b. 192.0.2.0/24: transfer' "$zone"
row 2 "there is no key 'c.d.' in the file of --keys" "${once[@]}" --keys "$room/keys" --may 'key c.d: update' "$zone"
row 2 "there is no key 'a.b.' in the file of --keys" "${once[@]}" --may 'key a.b: update' "$zone"
row 2 "'a..b' is not a name" "${once[@]}" --keys "$room/keys" --may 'key a..b: update' "$zone"
row 2 'the name is outside of the zone' "${once[@]}" --keys "$room/keys" --may 'key a.b: update exact www.example.com' "$zone"
row 3 "there is no key 'c.d.' in the file of --keys" "${once[@]}" --keys "$room/keys" --notify '127.0.0.1:9 key c.d' "$zone"
row 2 "--notify: '127.0.0.1:9 kay a.b' is not an address" "${once[@]}" --keys "$room/keys" --notify '127.0.0.1:9 kay a.b' "$zone"

# what dnsd may says of a request that is signed by a key
transfer=123400000001000000000000076578616d706c6504746573740000fc0001
row 1 'example.test. AXFR: no rule' may --may 'key a.b: transfer' 192.0.2.1 $transfer
prints $'permitted\nexample.test. AXFR: key a.b.: transfer' may --may '192.0.2.9: transfer' --may 'key a.b: transfer' --key A.B 192.0.2.1 $transfer
prints $'permitted\nexample.test. AXFR: key a.b. 192.0.2.0/24: transfer' may --may 'key a.b 192.0.2.0/24: transfer' --key a.b 192.0.2.1 $transfer
row 1 'example.test. AXFR: no rule' may --may 'key a.b 192.0.2.0/24: transfer' --key a.b 192.0.3.1 $transfer
row 1 'example.test. AXFR: no rule' may --may '192.0.2.1: transfer' --key a.b 192.0.2.1 $transfer
