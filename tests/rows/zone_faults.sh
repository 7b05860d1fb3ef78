# Zones that are refused: the first line of what is told, and what that means. Entries are judged in order, and the words of each from left to
# right (RFC 1035, 5); the codes are our own.

# each fault as it is printed, here of a third line
zone_text=
faults --origin test. <<'end'
␊␊$INCLUDE x => line 3: M1 Directive
␊␊a..b 1 A 1.1.1.1 => line 3: M2 BadName
␊␊$TTL x => line 3: M3 Number
␊␊a 1 CH A 1.1.1.1 => line 3: M4 BadClass
␊␊a 1 HINFO b c => line 3: M5 UnknownType
␊␊a 1 A 1.1.1 => line 3: M6 BadData
␊␊a 1 A 1.1.1.1 ) => line 3: M7 Unclosed
␊␊a A 1.1.1.1 => line 3: M8 NoTtl
␊␊ 1 A 1.1.1.1 => line 3: M9 NoOwner
@ 9 SOA a b 1 2 3 4 5␊@ 9 NS a␊x. 9 A 1.1.1.1 => line 3: M10 Outside
@ 9 SOA a b 1 2 3 4 5␊@ 9 NS a␊@ 9 SOA a b 2 2 3 4 5 => line 3: M11 Apex
@ 9 SOA a b 1 2 3 4 5␊@ 9 NS a␊* 9 NS a => line 3: M12 Conflict
end
input=$'\n\na 1 TXT'$(repeat 2049 ' c')
refuses 1 'line 3: M13 Limit' check --origin test. -

# texts under the root
faults <<'end'
 => line 0: M11 Apex
a.test. IN A 192.0.2.1␊ => line 1: M8 NoTtl
$ttl 5␊ => line 1: M1 Directive
␊$INCLUDE a␊ => line 2: M1 Directive
$ORIGIN␊ => line 1: M1 Directive
$TTL 5 6␊ => line 1: M6 BadData
$TTL 1h␊ => line 1: M3 Number
a..b. 3600 IN A 192.0.2.1␊ => line 1: M2 BadName
"a." 3600 IN A 192.0.2.1␊ => line 1: M2 BadName
"@" 3600 IN A 192.0.2.1␊ => line 1: M2 BadName
$ORIGIN "a."␊ => line 1: M2 BadName
a. 3600 IN NS b..c.␊ => line 1: M2 BadName
a. 2147483648 IN A 192.0.2.1␊ => line 1: M3 Number
a. 3600 IN MX 65536 b.␊ => line 1: M3 Number
a. 3600 IN MX ten b.␊ => line 1: M3 Number
a. 3600 IN MX \049 b.␊ => line 1: M3 Number
a. 3600 IN MX "1" b.␊ => line 1: M3 Number
a. 3600 IN SOA b. c. 1 2 3 4 4294967296␊ => line 1: M3 Number
a. 3600 IN SRV 0 0 65536 b.␊ => line 1: M3 Number
a. 3600 CH A 192.0.2.1␊ => line 1: M4 BadClass
a. hs 3600 A 192.0.2.1␊ => line 1: M4 BadClass
a. 3600 IN HINFO b c␊ => line 1: M5 UnknownType
a. 1h IN A 192.0.2.1␊ => line 1: M5 UnknownType
a. 5 5 IN A 192.0.2.1␊ => line 1: M5 UnknownType
a. 5 IN IN A 192.0.2.1␊ => line 1: M5 UnknownType
a. 5 IN "A" 192.0.2.1␊ => line 1: M5 UnknownType
a. 5 IN \065 192.0.2.1␊ => line 1: M5 UnknownType
a. 5 NS b.␊ $TTL 5␊ => line 2: M5 UnknownType
a. 3600 IN␊ => line 1: M6 BadData
a. 3600 IN A␊ => line 1: M6 BadData
a. 3600 IN A 192.0.2.256␊ => line 1: M6 BadData
a. 3600 IN A 192.0.2.01␊ => line 1: M6 BadData
a. 3600 IN A 192.0.2.1 b␊ => line 1: M6 BadData
a. 3600 IN AAAA 1::2::3␊ => line 1: M6 BadData
a. 3600 IN AAAA 12345::␊ => line 1: M6 BadData
a. 3600 IN AAAA fe80::1%1␊ => line 1: M6 BadData
a. 3600 IN TXT␊ => line 1: M6 BadData
a. 3600 IN TXT \300␊ => line 1: M6 BadData
a. 3600 IN TXT "b␊"␊ => line 1: M7 Unclosed
a. 5 (␊IN A 192.0.2.1␊ => line 1: M7 Unclosed
a. 5 IN A (␊( 192.0.2.1 ) )␊ => line 2: M7 Unclosed
a. 5 IN A 192.0.2.1 )␊ => line 1: M7 Unclosed
a..b. 5 IN A 192.0.2.1 )␊ => line 1: M2 BadName
 5 IN A 192.0.2.1␊ => line 1: M9 NoOwner
a. 1 IN NS b.␊ => line 0: M11 Apex
a. 1 IN SOA b. c. 1 2 3 4 5␊ => line 0: M11 Apex
end

# what an entry may have wrong, under the origin test.
faults --origin test. <<'end'
$INCLUDE x => line 1: M1 Directive
␊$ttl 5 => line 2: M1 Directive
$ORIGIN => line 1: M1 Directive
$TTL ; 5 => line 1: M1 Directive
$x ) => line 1: M1 Directive
"a" 1 A 1.1.1.1 => line 1: M2 BadName
$ORIGIN "@" => line 1: M2 BadName
$ORIGIN .. x => line 1: M2 BadName
a..b A x => line 1: M2 BadName
(␊a 1 NS ..) => line 1: M2 BadName
$TTL x y => line 1: M3 Number
$TTL 2147483648 => line 1: M3 Number
$TTL "5" => line 1: M3 Number
a 2147483648 CH => line 1: M3 Number
a 1 MX x => line 1: M3 Number
a 1 ch A => line 1: M4 BadClass
a HS => line 1: M4 BadClass
a 1 2 A 1.1.1.1 => line 1: M5 UnknownType
a IN in A 1.1.1.1 => line 1: M5 UnknownType
a IN CH A 1.1.1.1 => line 1: M5 UnknownType
a 1 "A" 1.1.1.1 => line 1: M5 UnknownType
a 1h A 1.1.1.1 => line 1: M5 UnknownType
a 1 \065 1.1.1.1 => line 1: M5 UnknownType
a x => line 1: M5 UnknownType
a 1 CLASS01 A 1.1.1.1 => line 1: M4 BadClass
a 1 CLASS3 A 1.1.1.1 => line 1: M4 BadClass
a 1 class255 A 1.1.1.1 => line 1: M4 BadClass
a 1 CLASS99999 A 1.1.1.1 => line 1: M4 BadClass
a 1 CLASS A 1.1.1.1 => line 1: M5 UnknownType
a 1 CLASSA A 1.1.1.1 => line 1: M5 UnknownType
a 1 "CLASS1" A 1.1.1.1 => line 1: M5 UnknownType
a 1 CLASS1 CLASS1 A 1.1.1.1 => line 1: M5 UnknownType
a 1 ANY A 1.1.1.1 => line 1: M5 UnknownType
a 1 CAA 0 issue ca => line 1: M5 UnknownType
a => line 1: M6 BadData
a 1 IN => line 1: M6 BadData
$ORIGIN a b => line 1: M6 BadData
$TTL 5 6 ) => line 1: M6 BadData
a 1 A => line 1: M6 BadData
a 1 A 1.1.1.1 x ) => line 1: M6 BadData
a 1 A 1.1.1 (␊( => line 1: M6 BadData
a 1 TXT => line 1: M6 BadData
"a => line 1: M7 Unclosed
a ) => line 1: M7 Unclosed
a 1 IN ) => line 1: M7 Unclosed
a 1 A "1.1.1.1 => line 1: M7 Unclosed
a 1 A 1.1.1.1 ) => line 1: M7 Unclosed
a 1 A 1.1.1.1 (␊␊( => line 3: M7 Unclosed
a 1 A (␊1.1.1.1 "x␊) => line 2: M7 Unclosed
a 1 A (x␊1.1.1.1 => line 1: M7 Unclosed
a 1 TXT b" => line 1: M7 Unclosed
$TTL ( => line 1: M7 Unclosed
$ORIGIN a ) => line 1: M7 Unclosed
a A 1.1.1.1 => line 1: M8 NoTtl
a IN A ) => line 1: M8 NoTtl
 1 A 1.1.1.1 => line 1: M9 NoOwner
␊␉"a => line 2: M9 NoOwner
a 1 A 1.1.1.1␊ $TTL 5␊$x => line 2: M5 UnknownType
 => line 0: M11 Apex
end

# no SOA, or no NS
faults --origin test. <<'end'
$TTL 60␊@ NS a␊ => line 0: M11 Apex
$TTL 60␊@ SOA a b 1 2 3 4 5␊ => line 0: M11 Apex
end

# behind a zone
zone_text=$'$TTL 60\n@ SOA a b 1 2 3 4 5\n@ NS a\n'
faults --origin test. <<'end'
@ SOA a b 2 2 3 4 5␊ => line 4: M11 Apex
w A 1.2.3.4␊x. A 1.2.3.4␊ => line 5: M10 Outside
w A 1.2.3.4␊w CNAME a␊ => line 5: M12 Conflict
w CNAME a␊w CNAME a␊w CNAME b␊ => line 6: M12 Conflict
* NS a␊ => line 4: M12 Conflict
w CNAME a␊w A 1.2.3.4␊? X␊ => line 6: M5 UnknownType
end

# the line of a record is that on which its entry begins, behind owners and TTLs that are left out, directives, parentheses and escapes
faults --origin test. <<'end'
w 5 IN A 1.1.1.1␊  IN 6 A 2.2.2.2␊␉A 3.3.3.3␊x. A 4.4.4.4␊ => line 7: M10 Outside
w 5 A 1.1.1.1␊ A 2.2.2.2␊$TTL 0␊x. A 3.3.3.3␊ => line 7: M10 Outside
$ORIGIN w␊@ 1 NS a␊$ORIGIN Y.w␊ NS @␊$ORIGIN z.␊a NS a.␊ => line 9: M10 Outside
x. (1␊IN␊) A ( 1.1.1.1 ) ; c␊( v 2 A 2.2.2.2␊)␊ => line 4: M10 Outside
w (1␊IN␊) A ( 1.1.1.1 ) ; c␊( x. 2 A 2.2.2.2␊)␊ => line 7: M10 Outside
w (1␊IN␊) A ( 1.1.1.1 ) ; c␊( v 2 CNAME a␊)␊ A 3.3.3.3 => line 9: M12 Conflict
\$TTL 1 A 1.1.1.1␊1 2 A 2.2.2.2␊IN 3 in a 3.3.3.3␊\@. A 4.4.4.4␊ => line 7: M10 Outside
end

# Which words an entry has in front of a quote or a parenthesis that has no other one, and on which line that is told: of a parenthesis within
# parentheses on its own, behind the words in front of it, if the outer one has an end, else behind those in front of the outer one. A line's end
# closes no quote, and a backslash in front of it joins no lines. A word is told before what is behind it: b is no type.
zone_text=$'a 5 A 1.1.1.1\n'
faults --origin test. <<'end'
 (b(␊ => line 2: M7 Unclosed
b "c␊d␊ => line 2: M7 Unclosed
"c\"␊ => line 2: M7 Unclosed
"c\␊" => line 2: M7 Unclosed
" => line 2: M7 Unclosed
␊ 5 ) c␊d␊ => line 3: M7 Unclosed
) => line 2: M7 Unclosed
a (5␊IN (d␊e) f␊ => line 3: M7 Unclosed
a (b␊c (d␊e) f␊ => line 2: M5 UnknownType
a (b␊c (d␊e f␊ => line 3: M7 Unclosed
c (d␊e f␊ => line 2: M7 Unclosed
a (5␊IN "d␊)␊ => line 3: M7 Unclosed
a (b␊c "d␊)␊ => line 2: M5 UnknownType
a (b␊c "d␊ => line 2: M7 Unclosed
a (b \) ;)␊ ")"␊ => line 2: M7 Unclosed
b 5 TXT a\␊c 5 TXT x␊ => line 2: M6 BadData
b 5 TXT a\␍␊c 5 TXT x␊ => line 2: M6 BadData
b 5 TXT a\ => line 2: M6 BadData
end

# records that the zone of the examples may not have
takes_zone <zones/example.test.zone
faults --origin example.test <<'end'
host.example.net. 3600 IN A 192.0.2.1␊ => line 14: M10 Outside
host.example.net. 3600 IN SRV 0 0 0 web␊ => line 14: M10 Outside
a.example.test. 3600 IN SOA b. c. 1 2 3 4 5␊ => line 14: M11 Apex
example.test. 3600 IN SOA b. c. 1 2 3 4 5␊ => line 14: M11 Apex
www.example.test. 3600 IN A 192.0.2.1␊ => line 14: M12 Conflict
www.example.test. 3600 IN AAAA 2001:db8::1␊ => line 14: M12 Conflict
web.example.test. 3600 IN CNAME www␊ => line 14: M12 Conflict
www.example.test. 3600 IN CNAME www␊ => line 14: M12 Conflict
*.a.example.test. 3600 IN NS www␊ => line 14: M12 Conflict
end

# all that is told: below the first line what the fault means, with the word or the owner at fault, where it is known, and the line
while IFS= read -r line && IFS= read -r reason; do
    spell "${line% => *}"
    input=$spelt
    says 1 "${line##* => }"$'\n'"$reason" check -
done <<'end'
a.test. IN A 192.0.2.1␊ => line 1: M8 NoTtl
no TTL is in force; write $TTL before the first record: `a.test. IN A 192.0.2.1`
$INCLUDE more.zone␊ => line 1: M1 Directive
a directive is due, $ORIGIN or $TTL with its argument: `$INCLUDE`, in `$INCLUDE more.zone`
a. 5 NS (␊ b..c. )␊ => line 1: M2 BadName
a name is due, and this is none: `b..c.`, in `a. 5 NS (`
a. 2147483648 NS a.␊ => line 1: M3 Number
a number is due, and this is none, or too great for its field: `2147483648`, in `a. 2147483648 NS a.`
a. 5 MX 65536 a.␊ => line 1: M3 Number
a number is due, and this is none, or too great for its field: `a. 5 MX 65536 a.`
a. 5 ch A 192.0.2.1␊ => line 1: M4 BadClass
the class isn't IN: `ch`, in `a. 5 ch A 192.0.2.1`
␊␊a.test. 5 IN WKS x␍␊ => line 3: M5 UnknownType
a type is due, by a name that is known here or by its number (CAA is written TYPE257 \# ..): `WKS`, in `a.test. 5 IN WKS x`
a. 5 A 192.0.2.1␊ 5 WKS x␊ => line 2: M5 UnknownType
a type is due, by a name that is known here or by its number (CAA is written TYPE257 \# ..): `WKS`, in ` 5 WKS x`
a. 5 IN W␛S␊ => line 1: M5 UnknownType
a type is due, by a name that is known here or by its number (CAA is written TYPE257 \# ..): `W\027S`, in `a. 5 IN W\027S`
www 3600 IN A 192.0.2.256␊ => line 1: M6 BadData
the data isn't of its type's form, or a word is missing or too many: `www 3600 IN A 192.0.2.256`
a. 5 TXT (␊ "x␊ )␊ => line 2: M7 Unclosed
a quote or a parenthesis has no other one, or stands within parentheses: ` "x`
 5 A 192.0.2.1␊ => line 1: M9 NoOwner
an owner is due, and no record before this one has one: ` 5 A 192.0.2.1`
$TTL 5␊a. SOA a. a. 1 2 3 4 5␊a. NS a.␊b. A 192.0.2.1␊ A 192.0.2.2␊ => line 4: M10 Outside
the owner is neither the apex nor below it: `b.`, in `b. A 192.0.2.1`
$TTL 5␊a. SOA a. a. 1 2 3 4 5␊ NS a.␊ SOA a. a. 2 2 3 4 5␊ => line 4: M11 Apex
the zone has an SOA already, and this is another: `a.`, in ` SOA a. a. 2 2 3 4 5`
; nothing␊ => line 0: M11 Apex
the zone has no SOA, or no NS at the owner of its SOA
$TTL 5␊a. SOA a. a. 1 2 3 4 5␊ NS a.␊w.a. CNAME a.␊ A 192.0.2.1␊ => line 5: M12 Conflict
a CNAME stands beside other data or another CNAME, or an NS at a wildcard: `w.a.`, in ` A 192.0.2.1`
a. 5 TXT ␉␊ => line 1: M6 BadData
the STRING is missing (TXT STRING): `a. 5 TXT  `
a.␉5␉IN␉A␉192.0.2␊ => line 1: M6 BadData
the data isn't of its type's form, or a word is missing or too many: `a. 5 IN A 192.0.2`
a. 5 TXT "b␉c" \300␊ => line 1: M6 BadData
the data isn't of its type's form, or a word is missing or too many: `a. 5 TXT "b c" \300`
end

# a time with units where seconds are due: s, m, h, d and w of 1, 60, 3600, 86400 and 604800 seconds, in either case, one after another; more
# than 2^31 - 1 seconds, another letter and a last number without a unit are none
while IFS= read -r line && IFS= read -r reason; do
    spell "${line% => *}"
    input=$spelt
    says 1 "${line##* => }"$'\n'"$reason" check --origin test. -
done <<'end'
a 1h IN A 192.0.2.1␊ => line 1: M5 UnknownType
TTLs are in seconds here: 3600 for 1h: `1h`, in `a 1h IN A 192.0.2.1`
a IN 5M A 192.0.2.1␊ => line 1: M5 UnknownType
TTLs are in seconds here: 300 for 5M: `5M`, in `a IN 5M A 192.0.2.1`
a 1 A 192.0.2.1␊␉1w2d3h4m5s A 192.0.2.2␊ => line 2: M5 UnknownType
TTLs are in seconds here: 788645 for 1w2d3h4m5s: `1w2d3h4m5s`, in ` 1w2d3h4m5s A 192.0.2.2`
$TTL 1D␊ => line 1: M3 Number
TTLs are in seconds here: 86400 for 1D: `$TTL 1D`
a 3550w4d IN A 192.0.2.1␊ => line 1: M5 UnknownType
TTLs are in seconds here: 2147385600 for 3550w4d: `3550w4d`, in `a 3550w4d IN A 192.0.2.1`
a 3551w IN A 192.0.2.1␊ => line 1: M5 UnknownType
a type is due, by a name that is known here or by its number (CAA is written TYPE257 \# ..): `3551w`, in `a 3551w IN A 192.0.2.1`
a 99999999999999999999w A 192.0.2.1␊ => line 1: M5 UnknownType
a type is due, by a name that is known here or by its number (CAA is written TYPE257 \# ..): `99999999999999999999w`, in `a 99999999999999999999w A 192.0.2.1`
a 1y A 192.0.2.1␊ => line 1: M5 UnknownType
a type is due, by a name that is known here or by its number (CAA is written TYPE257 \# ..): `1y`, in `a 1y A 192.0.2.1`
a 1h30 A 192.0.2.1␊ => line 1: M5 UnknownType
a type is due, by a name that is known here or by its number (CAA is written TYPE257 \# ..): `1h30`, in `a 1h30 A 192.0.2.1`
$TTL x␊ => line 1: M3 Number
a number is due, and this is none, or too great for its field: `$TTL x`
@ 5 SOA 1d a (␊ 1 2h 15m 1w 5m )␊ => line 1: M3 Number
times are in seconds here: 7200 for 2h: `@ 5 SOA 1d a (`
1d 5 MX 65536 1d␊ => line 1: M3 Number
a number is due, and this is none, or too great for its field: `1d 5 MX 65536 1d`
end

# a type that other servers know by name, in any case: its number (IANA, DNS parameters)
while read -r word number; do
    input="a. 5 IN $word x"$'\n'
    says 1 $'line 1: M5 UnknownType\n'"${word^^} is TYPE$number here, and its data \# LENGTH HEX (RFC 3597, 5); contrib/convert converts a file (named-compilezone | ldns-read-zone): \`$word\`, in \`a. 5 IN $word x\`" check -
done <<'end'
HINFO 13
RP 17
AFSDB 18
LOC 29
NAPTR 35
KX 36
CERT 37
DNAME 39
APL 42
DS 43
SSHFP 44
DNSKEY 48
DHCID 49
tlsa 52
SMIMEA 53
CDS 59
CDNSKEY 60
OPENPGPKEY 61
CSYNC 62
ZONEMD 63
SVCB 64
Https 65
URI 256
CAA 257
end

# which word is missing: the type, the first number in whose place another word stands, or the one after the last; of no type whose data is
# written as RFC 3597 has it, and of none that has as many words as are due
while IFS= read -r line && IFS= read -r reason; do
    input=${line% => *}$'\n'
    says 1 "${line##* => }"$'\n'"$reason: \`${line% => *}\`" check -
done <<'end'
a. 5 MX mail => line 1: M3 Number
the PREFERENCE is missing (MX PREFERENCE NAME)
a. 5 IN MX 10 => line 1: M6 BadData
the NAME is missing (MX PREFERENCE NAME)
a. 5 MX => line 1: M6 BadData
the PREFERENCE is missing (MX PREFERENCE NAME)
a. 5 MX ten mail => line 1: M3 Number
a number is due, and this is none, or too great for its field
a. 5 MX 65536 => line 1: M3 Number
a number is due, and this is none, or too great for its field
a. 5 SRV 0 5060 sip. => line 1: M3 Number
the PORT is missing (SRV PRIORITY WEIGHT PORT NAME)
a. 5 SRV 0 0 5060 => line 1: M6 BadData
the NAME is missing (SRV PRIORITY WEIGHT PORT NAME)
a. 5 SOA a. b. 1 2 3 4 => line 1: M6 BadData
the MINIMUM is missing (SOA SERVER MAILBOX SERIAL REFRESH RETRY EXPIRE MINIMUM)
a. 5 A => line 1: M6 BadData
the ADDRESS is missing (A ADDRESS)
a. 5 AAAA => line 1: M6 BadData
the ADDRESS is missing (AAAA ADDRESS)
a. 5 NS => line 1: M6 BadData
the NAME is missing (NS NAME)
a. 5 CNAME => line 1: M6 BadData
the NAME is missing (CNAME NAME)
a. 5 PTR => line 1: M6 BadData
the NAME is missing (PTR NAME)
a. 5 TXT => line 1: M6 BadData
the STRING is missing (TXT STRING)
a. 5 IN => line 1: M6 BadData
the type is missing
a. => line 1: M6 BadData
the type is missing
a. 5 A 192.0.2.1 b => line 1: M6 BadData
the data isn't of its type's form, or a word is missing or too many
a. 5 SOA \# 1 00 => line 1: M6 BadData
the data isn't of its type's form, or a word is missing or too many
a. 5 TYPE52 => line 1: M6 BadData
the data isn't of its type's form, or a word is missing or too many
$TTL 5 6 => line 1: M6 BadData
the data isn't of its type's form, or a word is missing or too many
end

# a string of 256 octets, and one of 255 that are written as four each, before an escape that is none (RFC 1035, 3.3 and 5.1)
input="a. 5 TXT b $(repeat 256 c)"$'\n'
says 1 $'line 1: M6 BadData\na string has at most 255 octets; a longer text is written as several strings: `'"${input%$'\n'}\`" check -
input="a. 5 TXT \"$(repeat 255 'c ')cd\""$'\n'
says 1 $'line 1: M6 BadData\na string has at most 255 octets; a longer text is written as several strings: `'"${input:0:400}\`..." check -
input="a. 5 TXT $(repeat 255 '\\099') \300"$'\n'
says 1 $'line 1: M6 BadData\nthe data isn\'t of its type\'s form, or a word is missing or too many: `'"${input:0:400}\`..." check -

# a byte order mark at the start of the text, which is read as a part of its first word: of a directive, a comment, an owner
input=$'\xef\xbb\xbf$TTL 60\n@ SOA a b 1 2 3 4 5\n@ NS a\n'
says 1 $'line 1: M6 BadData\nthe file begins with a byte order mark: `\\239\\187\\191$TTL 60`' check -
input=$'\xef\xbb\xbf; a zone\n$TTL 60\n@ SOA a b 1 2 3 4 5\n@ NS a\n'
says 1 $'line 1: M6 BadData\nthe file begins with a byte order mark: `\\239\\187\\191; a zone`' check -
input=$'\xef\xbb\xbf@ 60 SOA a b 1 2 3 4 5\n@ NS a\n'
says 1 $'line 0: M11 Apex\nthe file begins with a byte order mark' check -
input=$'\xef\xbb\xbfa 60 SOA a b 1 2 3 4 5\n NS a\na NS a\n'
says 1 $'line 3: M10 Outside\nthe file begins with a byte order mark: `a`, in `a NS a`' check -
input=$'\xef\xbb\xbfa 60 SOA a b 1 2 3 4 5\n NS a\n NS a..b\n'
says 1 $'line 3: M2 BadName\na name is due, and this is none: `a..b`, in ` NS a..b`' check -

# of a file the second line begins with its path, and the number of the line where there is one
input=
printf 'a. 5 NS b.\na. 5 A 192.0.2.256\n' >"$room/zone"
for word in check answer apply steps; do
    says 1 $'line 2: M6 BadData\n'"$room/zone:2: the data isn't of its type's form, or a word is missing or too many: \`a. 5 A 192.0.2.256\`" "$word" "$room/zone"
done
printf 'a. 5 NS b.\n' >"$room/zone"
says 1 $'line 0: M11 Apex\n'"$room/zone: the zone has no SOA, or no NS at the owner of its SOA" check "$room/zone"

# of two faults of an entry the first from left to right is told: a name, a number, a type, data, a parenthesis, a limit, in each order that
# an entry can have, for a type that has a form, and behind it for one that has none (RFC 3597, 5)
zone_text=
faults --origin test. <<'end'
a..b 2147483648 A 1.1.1.1 => line 1: M2 BadName
a..b 2147483648 TYPE65280 \# 0 => line 1: M2 BadName
a 1 MX ten b..c => line 1: M3 Number
a..b 1h A 1.1.1.1 => line 1: M2 BadName
a..b 1h TYPE65280 \# 0 => line 1: M2 BadName
a 1h NS b..c => line 1: M5 UnknownType
a..b 1 A 1.1.1 => line 1: M2 BadName
a 1 NS b..c d => line 1: M2 BadName
a..b 1 TYPE65280 x => line 1: M2 BadName
a 1 SOA "b" c..d 1 2 3 4 5 => line 1: M6 BadData
a..b 1 A ) 1.1.1.1 => line 1: M2 BadName
a 1 NS b..c ) => line 1: M2 BadName
a..b 1 TYPE65280 ) => line 1: M2 BadName
a 1 NS ) b..c => line 1: M7 Unclosed
) a..b 1 TYPE65280 \# 0 => line 1: M7 Unclosed
a..b 1 A \# 4097 => line 1: M2 BadName
a..b 1 TYPE65280 \# 4097 => line 1: M2 BadName
a 1 NS \# 4097 b..c => line 1: M13 Limit
a 1 TYPE65280 \# 4097 b..c => line 1: M13 Limit
a 2147483648 1h A 1.1.1.1 => line 1: M3 Number
a 2147483648 1h TYPE65280 \# 0 => line 1: M3 Number
a 1h MX ten b => line 1: M5 UnknownType
a 1h TYPE65280 \# x => line 1: M5 UnknownType
a 1 MX ten => line 1: M3 Number
a 1 A \# x 0 => line 1: M3 Number
a 1 TYPE65280 \# x 0 => line 1: M3 Number
a 1 SOA "b" c ten 2 3 4 5 => line 1: M6 BadData
a 1 TYPE65280 x \# x => line 1: M6 BadData
a 1 MX ten ) => line 1: M3 Number
a 1 TYPE65280 \# x ) => line 1: M3 Number
a 1 MX ) ten b => line 1: M7 Unclosed
a 1 A \# ) x => line 1: M7 Unclosed
a 1 TYPE65280 \# ) x => line 1: M7 Unclosed
a 1 TYPE65280 ) \# x => line 1: M7 Unclosed
a 2147483648 A \# 4097 => line 1: M3 Number
a 2147483648 TYPE65280 \# 4097 => line 1: M3 Number
a 1h A 1.1.1 => line 1: M5 UnknownType
a 1h TYPE65280 x => line 1: M5 UnknownType
a 1h A ) => line 1: M5 UnknownType
a 1h TYPE65280 ) => line 1: M5 UnknownType
a 1 ) 1h A 1.1.1.1 => line 1: M7 Unclosed
a 1 ) 1h TYPE65280 \# 0 => line 1: M7 Unclosed
a 1h A \# 4097 => line 1: M5 UnknownType
a 1h TYPE65280 \# 4097 => line 1: M5 UnknownType
a 1 A 1.1.1 ) => line 1: M6 BadData
a 1 A \# 1 0 ) => line 1: M6 BadData
a 1 TYPE65280 x ) => line 1: M6 BadData
a 1 TYPE65280 x "y => line 1: M6 BadData
a 1 TYPE65280 \# 1 0 ) => line 1: M6 BadData
a 1 A ) 1.1.1 => line 1: M7 Unclosed
a 1 A \# 1 ) 0 => line 1: M7 Unclosed
a 1 TYPE65280 ) x => line 1: M7 Unclosed
a 1 TYPE65280 "x => line 1: M7 Unclosed
a 1 TYPE65280 \# 1 ) 0 => line 1: M7 Unclosed
a 1 A x \# 4097 => line 1: M6 BadData
a 1 TYPE65280 x \# 4097 => line 1: M6 BadData
a 1 A \# 4097 0 => line 1: M13 Limit
a 1 TYPE65280 \# 4097 0 => line 1: M13 Limit
a 1 A ) \# 4097 => line 1: M7 Unclosed
a 1 TYPE65280 ) \# 4097 => line 1: M7 Unclosed
a 1 A \# 4097 ) => line 1: M13 Limit
a 1 TYPE65280 \# 4097 ) => line 1: M13 Limit
end
# where no entry can have both in an order, the first of two entries is told
faults --origin test. <<'end'
a 2147483648 TYPE65280 \# 0␊a..b 1 A 1.1.1.1 => line 1: M3 Number
a 1h TYPE65280 \# 0␊a..b 1 A 1.1.1.1 => line 1: M5 UnknownType
a 1 TYPE65280 x␊a..b 1 A 1.1.1.1 => line 1: M6 BadData
a 1 A \# 4097␊a 1 MX ten b => line 1: M13 Limit
a 1 TYPE65280 \# 4097␊a 1 TYPE65280 \# x => line 1: M13 Limit
a 1 A 1.1.1␊a 1h A 1.1.1.1 => line 1: M6 BadData
a 1 TYPE65280 x␊a 1h TYPE65280 \# 0 => line 1: M6 BadData
a 1 A \# 4097␊a 1h A 1.1.1.1 => line 1: M13 Limit
a 1 TYPE65280 \# 4097␊a 1h TYPE65280 \# 0 => line 1: M13 Limit
end

# a quote or a parenthesis where the first word of the data of a type without a form is due, on its own line
faults --origin test. <<'end'
b 5 IN TYPE65280 " => line 1: M7 Unclosed
b 5 IN TYPE65280 ) \# 1 54 => line 1: M7 Unclosed
(␊b 5 IN TYPE65280 ( \# 1 ) 54 => line 2: M7 Unclosed
b 5 IN TYPE65280 (␊"␊) => line 2: M7 Unclosed
b 5 IN TYPE65280 "\#" 0 ) => line 1: M6 BadData
end
