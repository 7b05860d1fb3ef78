# Which updates are refused, by the forms of prerequisites and of updates that RFC 2136, 2.4 and 2.5 give, on a small zone. A row is what it
# shows, the code of the reply (RFC 2136, 2.2), the entry of the zone section, the prerequisites and the updates, records of which have `; `
# between them. A record is its owner, type, class and TTL, and its data in hexadecimal. Each row is sent to the zone itself.
# shellcheck source=tests/wire.sh
source tests/wire.sh
zone=$updated_zone

# rules: rows, on standard input, over the zone; a row whose update changes it is the last of its run
rules() {
    local what code entry prerequisites updates request
    while IFS='|' read -r what code entry prerequisites updates; do
        update "$entry" "$prerequisites" "$updates"
        request=$message
        told "$code"
        expect "$what" "$request" "$message"
        [ "$code" != 0 ] || [ -z "$updates" ] || run_expected "$zone" answer --origin example.test. -
    done
    run_expected "$zone" answer --origin example.test. -
}

# what is to hold of the zone (RFC 2136, 2.4.1 to 2.4.5), and what is no prerequisite (3.2)
rules <<'text'
2.4.1: a set exists|0|@ SOA IN|web A ANY 0|
2.4.1: no set|8|@ SOA IN|web AAAA ANY 0|
2.4.1: no name|8|@ SOA IN|new A ANY 0|
2.4.1: no such type|8|@ SOA IN|web UNKNOWN ANY 0|
2.4.2: a set of these data|0|@ SOA IN|A.B A IN 0 c0000201|
2.4.2: no set of a type that nobody knows|8|@ SOA IN|web UNKNOWN IN 0 c0000201|
2.4.2: of other data|8|@ SOA IN|a.b A IN 0 c0000202|
2.4.2: of more data|8|@ SOA IN|web A IN 0 c0000201|
2.4.3: no set exists|0|@ SOA IN|web AAAA NONE 0|
2.4.3: a set does|7|@ SOA IN|WEB A NONE 0|
2.4.4: a name in use|0|@ SOA IN|web ANY ANY 0|
2.4.4: an empty non-terminal|3|@ SOA IN|b ANY ANY 0|
2.4.5: a name not in use|0|@ SOA IN|b ANY NONE 0|
2.4.5: a name in use|6|@ SOA IN|a.b ANY NONE 0|
a TTL|1|@ SOA IN|test. A ANY 1|
outside|10|@ SOA IN|test. A ANY 0 78|
ANY with data|1|@ SOA IN|web A ANY 0 c0000201|
NONE with data|1|@ SOA IN|web A NONE 0 c0000201|
another class|1|@ SOA IN|web A CH 0|
text

# sets of several records, in any order, TTLs apart, which are compared after all other prerequisites (RFC 2136, 2.4.2 and 3.2.3)
rules <<'text'
another set between|0|@ SOA IN|WEB A IN 0 c0000202; a.b A IN 0 c0000201; web A IN 0 c0000201|
a record twice|0|@ SOA IN|web A IN 0 c0000201; WEB A IN 0 c0000202; web A IN 0 c0000201|
one of two records|8|@ SOA IN|a.b A IN 0 c0000201; web A IN 0 c0000201|
one record more|8|@ SOA IN|a.b A IN 0 c0000201; a.b A IN 0 c0000202|
a set in front of another rule|6|@ SOA IN|web A IN 0 c0000201; web ANY NONE 0|
a set behind another rule|6|@ SOA IN|web ANY NONE 0; web A IN 0 c0000201|
none|0|@ SOA IN||
text

# the same of more than eight records, which are put in order before they are compared (RFC 2136, 3.2.3; own)
rules <<'text'
nine records of two sets|0|@ SOA IN|web A IN 0 c0000202; a.b A IN 0 c0000201; WEB A IN 0 c0000201; A.b A IN 0 c0000201; web A IN 0 c0000202; a.B A IN 0 c0000201; Web A IN 0 c0000202; wEb A IN 0 c0000201; a.b A IN 0 c0000201|
nine, a set in part|8|@ SOA IN|web A IN 0 c0000202; a.b A IN 0 c0000201; WEB A IN 0 c0000202; A.b A IN 0 c0000201; web A IN 0 c0000202; a.B A IN 0 c0000201; Web A IN 0 c0000202; wEb A IN 0 c0000202; a.b A IN 0 c0000201|
nine, other data|8|@ SOA IN|web A IN 0 c0000202; a.b A IN 0 c0000201; WEB A IN 0 c0000201; A.b A IN 0 c0000201; web A IN 0 c0000203; a.B A IN 0 c0000201; Web A IN 0 c0000202; wEb A IN 0 c0000201; a.b A IN 0 c0000201|
nine, another name|8|@ SOA IN|web A IN 0 c0000202; a.b A IN 0 c0000201; WEB A IN 0 c0000201; A.b A IN 0 c0000201; b A IN 0 c0000201; a.B A IN 0 c0000201; Web A IN 0 c0000202; wEb A IN 0 c0000201; a.b A IN 0 c0000201|
nine, another type|8|@ SOA IN|web A IN 0 c0000202; a.b A IN 0 c0000201; WEB A IN 0 c0000201; A.b A IN 0 c0000201; web TXT IN 0 0161; a.B A IN 0 c0000201; Web A IN 0 c0000202; wEb A IN 0 c0000201; a.b A IN 0 c0000201|
text

# which zone an update is of (RFC 2136, 2.3 and 3.1)
rules <<'text'
the zone|0|@ SOA IN||
as another spells it|0|EXAMPLE.test. SOA IN||
no SOA|1|web A CH||
a name below|9|web SOA IN||
a name above|9|test. SOA IN||
another class|9|@ SOA CH||
text

# what is to be done to the zone (RFC 2136, 2.5.1 to 2.5.4), and what is no update (3.4.1)
rules <<'text'
2.5.1: add|0|@ SOA IN||new A IN 60 c0000201
2.5.2: delete a set|0|@ SOA IN||web A ANY 0
2.5.3: delete a name|0|@ SOA IN||web ANY ANY 0
2.5.4: delete a record|0|@ SOA IN||web A NONE 0 c0000201
outside|10|@ SOA IN||test. A CH 1
add ANY|1|@ SOA IN||web ANY IN 0
add AXFR|1|@ SOA IN||web AXFR IN 0
add OPT|1|@ SOA IN||web OPT IN 0
add a type that nobody knows|0|@ SOA IN||web UNKNOWN IN 60 41
add no octets of one|0|@ SOA IN||web UNKNOWN IN 60
an NS at `*`|5|@ SOA IN||*.b NS IN 60 036e7331076578616d706c65047465737400
a text at `*`|0|@ SOA IN||*.b TXT IN 60 0178
an NS below `*`|0|@ SOA IN||a.*.b NS IN 60 036e7331076578616d706c65047465737400
ANY with a TTL|1|@ SOA IN||web A ANY 1
ANY with data|1|@ SOA IN||web A ANY 0 c0000201
delete AXFR|1|@ SOA IN||web AXFR ANY 0
NONE with a TTL|1|@ SOA IN||web A NONE 1 c0000201
NONE of type ANY|1|@ SOA IN||web ANY NONE 0
NONE of OPT|1|@ SOA IN||web OPT NONE 0
delete a set that nobody knows|0|@ SOA IN||web UNKNOWN ANY 0
delete no octets of one|0|@ SOA IN||web UNKNOWN NONE 0
another class|1|@ SOA IN||web A CH 0 c0000201
text

# the order of the rules (RFC 2136, 3)
rules <<'text'
taken|0|@ SOA IN||new A IN 0 c0000201
a prerequisite before the prescan|3|@ SOA IN|new ANY ANY 0|test. A IN 0 c0000201
the prescan|10|@ SOA IN||test. A IN 0 c0000201
the prescan of a later record|10|@ SOA IN||new A IN 60 c0000201; test. A IN 60 c0000201
text
