# The command line: which words are a command, what each option takes, and the status and the sentence where one is refused.
zone=zones/example.test.zone
# www.example.test., type A, and a transfer of the whole zone
question=12340100000100000000000003777777076578616d706c6504746573740000010001
transfer=123401000001000000000000076578616d706c6504746573740000fc0001
# a zone that begins with a name under its origin
relative='x 300 SOA ns admin 1 7200 900 1209600 300'$'\n''x 300 NS ns'$'\n'
# which words are a command
input=$(cat "$zone")$'\n'
written='www.example.test. 3600 IN CNAME web.example.test.'
row 0 "$written" check -
row 0 "$written" check --origin example.test "$zone"
row 2 "'--tcp'" check --tcp -
row 2 ZONE check
row 2 "'--tcp'" steps --tcp -
row 2 ZONE steps
row 2 ZONE answer
row 2 ZONE apply
row 2 "'1'" answer --tcp=1 -
row 2 "'--other'" answer --other -
row 2 other other
row 2 Usage
row 0 Usage --help
row 0 'dnsd 0.1.0' --version
row 2 ZONE serve --listen 127.0.0.1:0
row 2 --listen serve "$zone"

# a question is answered by either transport, a transfer of the whole zone over TCP alone, in 14 records, wherever the option stands, and
# over UDP it is FORMERR
answered='123485000001000200000000037777770765'
input=$(cat "$zone")$'\n%\n'$question$'\n'
row 0 "$answered" answer -
row 0 "$answered" answer --tcp -
input=$question$'\n'
row 0 "$answered" answer --origin example.test "$zone"
input=$(cat "$zone")$'\n%\n'$transfer$'\n'
row 0 123481010000000000000000 answer -
row 0 123485000001000e answer --tcp -
row 0 123485000001000e answer - --tcp

# versions that are kept and entries of the window: from 0 to 8, from 0 to 16
input=$(cat "$zone")$'\n%\nload a\n'
row 0 '' steps -
row 0 '' steps --origin example.test -
for number in 0 8; do row 0 '' steps --keep $number -; done
for number in 0 3 16; do row 0 '' steps --window $number -; done
for word in 9 x ''; do row 2 "--keep: '$word' is not a number from 0 to 8" steps --keep "$word" -; done
row 2 "--window: '17' is not a number from 0 to 16" steps --window 17 -

# the origin is the root unless one is given; one without a final dot is relative to the root
input=$relative
row 0 'x. 300 IN NS ns.' check -
row 0 'x.x.test. 300 IN NS ns.x.test.' check --origin X.test -
row 0 'x.x.test. 300 IN NS ns.x.test.' check --origin x.test. -
row 2 "--origin: 'a..b' is not a name: " answer --origin a..b -

# a zone at the root for which no origin is given: check and answer print a warning on standard error, after what they print else, and end as
# ever; where the root is given, where the apex is another, where the zone is refused, and of the other commands there is none
warning="warning: the zone's apex is the root: names without a final dot are below it; --origin NAME gives another origin"
input=$'@ 300 SOA ns admin 1 7200 900 1209600 300\n@ 300 NS ns\n'
written=$'. 300 IN SOA ns. admin. 1 7200 900 1209600 300\n. 300 IN NS ns.'
row 0 "$written"$'\n'"$warning"$'\n' check -
prints "$written" check --origin . -
printf '%s' "$input" >"$room/zone"
input=
row 0 "$warning" answer "$room/zone"
prints '' answer --origin . "$room/zone"
prints '' steps "$room/zone"
row 0 "$warning" serve --listen 127.0.0.1:0 --workers 1 --count 0 "$room/zone"
tries serve --listen 127.0.0.1:0 --workers 1 --count 0 --origin . "$room/zone"
[[ $got == 0 && $told != *"$warning"* ]] || differs 'no warning of a zone at the root' serve --origin .
input=$'@ 300 SOA ns admin 1 7200 900 1209600 300\n'
says 1 $'line 0: M11 Apex\nthe zone has no SOA, or no NS at the owner of its SOA' check -

# a zone with a set of more than 100 records, or an owner of more than 100 types, which a stock BIND refuses as a secondary: check prints a warning on
# standard error, and serve logs one; of 100 there is none
limits="BIND as a secondary takes the zone only with 'max-records-per-type 256; max-types-per-name 0;'"
large_zone() {
    printf '%s\n' 'x. 300 IN SOA ns. admin. 1 7200 900 1209600 300' 'x. 300 IN NS ns.'
    for ((i = 1; i <= $1; i++)); do echo "a.x. 300 IN A 10.0.$((i / 256)).$((i % 256))"; done
    for ((i = 1; i <= $2; i++)); do echo "b.x. 300 IN TYPE$((i + $3)) \\# 0"; done
}
for sizes in '101 100 65279' '256 1 999' '1 101 65279' '100 101 299' '1 200 999'; do
    read -r records types from <<<"$sizes"
    large_zone "$records" "$types" "$from" >"$room/zone"
    much='a.x. has a set of more than 100 records'
    ((records > 100)) || much='b.x. has more than 100 types'
    tries check "$room/zone"
    [[ $got == 0 && $told == "warning: $much: $limits"$'\n' ]] || differs "a warning of $sizes" check "$room/zone"
    row 0 "warning: $much: $limits" serve --listen 127.0.0.1:0 --workers 1 --count 0 "$room/zone"
done
large_zone 100 100 299 >"$room/zone"
for words in "check $room/zone" "serve --listen 127.0.0.1:0 --workers 1 --count 0 $room/zone"; do
    tries $words
    [[ $got == 0 && $told != *'BIND as a secondary'* ]] || differs 'no warning of 100' $words
done
large_zone 101 101 299 >"$room/zone"
input=
for words in "answer $room/zone" "steps $room/zone"; do
    tries $words
    [[ $got == 0 && $told != *'BIND as a secondary'* ]] || differs 'no warning of another command' $words
done

# what serve takes
input=
row 2 "--listen: 'localhost' is not an address and port, such as 127.0.0.1:5353 or [::1]:5353" serve --listen localhost "$zone"
row 2 "--workers: '0' is not a number from 1 to 31" serve --listen 127.0.0.1:0 --workers 0 "$zone"
row 2 "--workers: '32' is not a number from 1 to 31" serve --listen 127.0.0.1:0 --workers 32 "$zone"
row 2 "--keep: '9' is not a number from 0 to 8" serve --listen 127.0.0.1:0 --keep 9 "$zone"
row 2 "--count: '-' is not a number from 0 to 18446744073709551615" serve --listen 127.0.0.1:0 --count - "$zone"
row 2 "--allow: 'x' is not an address or a prefix; separate them by commas, such as 127.0.0.1,192.0.2.0/24" serve --listen 127.0.0.1:0 --allow 127.0.0.1,x "$zone"
for list in '127.0.0.1 ::1' ' ' '::1, 127.0.0.1 x'; do
    word=${list##*, }
    row 2 "--allow: '${word# }' is not an address" serve --listen 127.0.0.1:0 --allow "$list" "$zone"
done
row 2 "--allow: '' is not an address" serve --listen 127.0.0.1:0 --allow '127.0.0.1, ' "$zone"
for option in idle message reply; do
    for word in 0 0s 3601 3601s 61m 2h 18446744073709551615h 18446744073709551616 1d 5M 1.5m -1 s ''; do
        row 2 "--$option: '$word' is not a time from 1 to 3600 seconds, such as 30, 30s or 5m" serve --listen 127.0.0.1:0 "--$option=$word" "$zone"
    done
done
# what is taken is shown by a store that isn't there
for list in '127.0.0.1, ::1' ' 127.0.0.1 ,  192.0.2.7 ' '127.0.0.1,::1' '' '10.0.0.0/8, 2001:db8::/32'; do
    row 3 "the store 'no/such/store' can't be read or written" serve --listen 127.0.0.1:0 --store no/such/store --allow "$list" "$zone"
done
for word in 1 3600 1s 3600s 5m 60m 1h 001m; do
    row 3 "the store 'no/such/store' can't be read or written" serve --listen 127.0.0.1:0 --store no/such/store --idle "$word" --message "$word" --reply "$word" "$zone"
done

# a file that isn't there is a device's fault; a refused zone is told by its line
row 3 "the zone's file 'no/such/zone' can't be read" check no/such/zone
row 2 "--take: 'both' is neither store nor zone" serve --listen 127.0.0.1:0 --store no/such/store --take both "$zone"
for word in 4095 3K 1025G 18446744073709551616 1T K M1 64MB -1 1.5M ''; do
    row 2 "--journal: '$word' is not a size from 4K to 1024G, such as 100000, 500K or 64M" serve --listen 127.0.0.1:0 --store no/such/store "--journal=$word" "$zone"
done
for word in 4096 100000 4K 4k 64M 64m 1024G 1099511627776; do
    row 3 "the store 'no/such/store' can't be read or written" serve --listen 127.0.0.1:0 --store no/such/store --journal "$word" "$zone"
done
row 2 "--journal needs --store" serve --listen 127.0.0.1:0 --journal 64M "$zone"
for word in 4095 2G 1025M 1T ''; do
    row 2 "--udp-buffer: '$word' is not a size from 4K to 1G, such as 500K or 4M" serve --listen 127.0.0.1:0 "--udp-buffer=$word" "$zone"
done
for word in 4096 4K 4m 1G; do
    row 3 "the store 'no/such/store' can't be read or written" serve --listen 127.0.0.1:0 --store no/such/store --udp-buffer "$word" "$zone"
done
for word in 65535 63K 2G 1025M 1T K -1 ''; do
    row 2 "--update-queue: '$word' is not a size from 64K to 1G, such as 500K or 16M" serve --listen 127.0.0.1:0 "--update-queue=$word" "$zone"
done
for word in 65536 64K 16m 1G; do
    row 3 "the store 'no/such/store' can't be read or written" serve --listen 127.0.0.1:0 --store no/such/store --update-queue "$word" "$zone"
done
for word in 2G 1025M 1T K '' -1 1.5M; do
    row 2 "--transfer-rate: '$word' is not a size from 0 to 1G, such as 16K or 1M" serve --listen 127.0.0.1:0 "--transfer-rate=$word" "$zone"
done
for word in 0 1 16K 1m 1G; do
    row 3 "the store 'no/such/store' can't be read or written" serve --listen 127.0.0.1:0 --store no/such/store --transfer-rate "$word" "$zone"
done
row 2 "--take needs --store" serve --listen 127.0.0.1:0 --take zone "$zone"
row 3 "the store 'no/such/store' can't be read or written" serve --listen 127.0.0.1:0 --store no/such/store "$zone"
row 3 "the zone's file 'no/such/zone' can't be read" serve --listen 127.0.0.1:0 no/such/zone
input=$'x 300 SOA ns admin 1 7200 900 1209600 300\n'
row 1 'line 0: ' check -

# deploy: its two words, an address with a port, and what it says before a server is reached
row 2 ADDR:PORT deploy
row 2 ZONE deploy 127.0.0.1:1
says 2 "error: 'localhost:53' is not an address and port, such as 192.0.2.1:53 or [2001:db8::1]:53" deploy localhost:53 "$zone"
row 2 "'127.0.0.1' is not an address and port" deploy 127.0.0.1 "$zone"
row 2 "'[::1]:65536' is not an address and port" deploy '[::1]:65536' "$zone"
row 2 "--origin: 'a..b' is not a name: " deploy --origin a..b 127.0.0.1:1 "$zone"
row 2 "'--hex'" deploy --hex 127.0.0.1:1 "$zone"
row 2 FILE deploy 127.0.0.1:1 "$zone" --key
for word in --key --dry-run --origin ADDR:PORT ZONE; do row 0 "$word" deploy --help; done
row 0 'brings the zone that a server serves to ZONE, by one update' --help
row 3 "the zone's file '/none/zone' can't be read" deploy 127.0.0.1:1 /none/zone
row 3 "the key file '/none/key' can't be read" deploy --key /none/key 127.0.0.1:1 "$zone"
input=$'@ 300 SOA ns admin 1 7200 900 1209600 300\n'
row 1 "M11 Apex" deploy --dry-run 127.0.0.1:1 -
