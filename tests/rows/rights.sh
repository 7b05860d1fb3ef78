# What an update and a request for a transfer get from rules, and by which rule: dnsd may. Statuses are 0 where it is permitted, 1 where it is
# not, and 2 where a rule or the request is refused.

# update RECORD..: an update of example.test. with these records, whose owners point to the zone's name at 0c
update() { printf '%s' "0001280000010000000${#}0000076578616d706c6504746573740000060001"; printf '%s' "$@" | tr -d ' '; }
input=
# www A 192.0.2.1 comes, all TXT of www go, all of www goes, an NS of the apex comes
www=03777777c00c
a="$www 0001 0001 00000e10 0004 c0000201"
txt="$www 0010 00ff 00000000 0000"
all="$www 00ff 00ff 00000000 0000"
ns="c00c 0002 0001 00000e10 0003 01 61 00"
transfer=123400000001000000000000076578616d706c6504746573740000fc0001
query=12340100000100000000000003777777076578616d706c6504746573740000010001

# with no rule nothing is permitted but queries
row 1 $'REFUSED\nwww.example.test. A: no rule' may 192.0.2.1 "$(update "$a")"
row 1 $'REFUSED\nexample.test. AXFR: no rule' may 192.0.2.1 $transfer
prints permitted may 192.0.2.1 $query
row 1 REFUSED may 192.0.2.1 "$(update)"

# each record with the first rule that covers it
one='192.0.2.0/28: update at-or-below www.example.test. A'
other='192.0.2.1: update exact www.example.test. TXT, transfer'
whole='192.0.2.2: update tcp'
rules=(--may "$one" --may "$other" --may "$whole")
prints $'permitted\nwww.example.test. A: '"$one"$'\nwww.example.test. TXT: '"$other" may "${rules[@]}" 192.0.2.1 "$(update "$a" "$txt")"
row 1 $'REFUSED\nwww.example.test. A: '"$one"$'\nwww.example.test. TXT: no rule' may "${rules[@]}" 192.0.2.3 "$(update "$a" "$txt")"
row 1 $'REFUSED\nwww.example.test. ANY: no rule' may "${rules[@]}" 192.0.2.1 "$(update "$all")"
row 1 'example.test. NS: no rule' may "${rules[@]}" 192.0.2.2 "$(update "$ns")"
prints $'permitted\nexample.test. NS: '"$whole" may "${rules[@]}" --tcp 192.0.2.2 "$(update "$ns")"
prints $'permitted\nexample.test. AXFR: '"$other" may "${rules[@]}" 192.0.2.1 $transfer
prints $'permitted\nexample.test. AXFR: '"$other" may "${rules[@]}" ::ffff:192.0.2.1 $transfer
row 1 'example.test. AXFR: no rule' may "${rules[@]}" 192.0.2.2 $transfer
prints permitted may "${rules[@]}" 192.0.2.1 "$(update)"

# what is refused at the start
row 2 "--may 'host: update': 'host' is not an address or a prefix" may --may 'host: update' 192.0.2.1 $query
row 2 "--may '192.0.2.1/24: update': '192.0.2.1/24' has bits set after its length" may --may '192.0.2.1/24: update' 192.0.2.1 $query
row 2 "--may '192.0.2.1: update exact www.example.com.': the name is outside of the update's zone" may --may '192.0.2.1: update exact www.example.com' 192.0.2.1 "$(update "$a")"
row 2 "'192.0.2.1:53' is not an address" may 192.0.2.1:53 $query
row 2 'the request is not written in hexadecimal' may 192.0.2.1 xyz
row 2 'the request is neither an update nor a query' may 192.0.2.1 00
row 2 REQUEST may 192.0.2.1

# what serve takes: --allow takes prefixes too, and each name in a rule is in the zone
zone=zones/example.test.zone
row 2 "--may 'host: update': 'host' is not an address or a prefix" serve --listen 127.0.0.1:0 --may 'host: update' "$zone"
row 2 "--may '192.0.2.1: update, update': 'update' is given twice" serve --listen 127.0.0.1:0 --may '192.0.2.1: update, update' "$zone"
row 2 "--allow: '192.0.2.1/24' has bits set after its length" serve --listen 127.0.0.1:0 --allow 192.0.2.1/24 "$zone"
row 2 "--allow: the length of '192.0.2.0/33' is not a number up to 32" serve --listen 127.0.0.1:0 --allow '::1, 192.0.2.0/33' "$zone"
row 2 "--may '192.0.2.1: update exact www.example.com.': the name is outside of the zone example.test." serve --listen 127.0.0.1:0 --may '127.0.0.1: transfer' --may '192.0.2.1: update exact www.example.com' "$zone"
row 3 "the store 'no/such/store' can't be read or written" serve --listen 127.0.0.1:0 --store no/such/store --may '192.0.2.0/28: update at-or-below dyn.example.test. A, transfer' "$zone"
