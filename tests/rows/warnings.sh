# Warnings of a zone's text, with `check --warn`: hosts without an address, glue or of their own name (RFC 1034, 4.2.1; RFC 2181, 10.3;
# RFC 2782), names that end with the zone's twice, and TTLs that differ in a set (RFC 2181, 5.2). The zone is printed as without it.

# warns TEXT [WORD..]: `dnsd check --warn`, over the words and $input, prints what `dnsd check` prints, and the text on the other output
warns() {
    local right=${1:+$1$'\n'} plain
    shift
    tries check "$@" -
    plain=$got$said
    tries check --warn "$@" -
    [[ $got$said == "$plain" && $got == 0 && $told == "$right" ]] || differs "as without --warn, and on errors '$right'" check --warn "$@" -
}

head='$ORIGIN example.test.
$TTL 3600
@ SOA ns1 admin 1 7200 900 1209600 300
@ NS ns1
ns1 A 192.0.2.1
'
input=$head
warns ''

# hosts in the zone: with an address of either kind, with none, an alias, without existing
input=$head'@ NS ns2
@ NS six
@ MX 10 mail
@ MX 20 note
_sip._tcp SRV 0 0 5060 gone
six AAAA 2001:db8::1
mail CNAME ns1
note TXT "no address"
b.c TXT "c has no records"
@ MX 30 c
'
warns 'line 6: warning: NS ns2.example.test. has no address in the zone
line 8: warning: MX mail.example.test. is an alias
line 9: warning: MX note.example.test. has no address in the zone
line 10: warning: SRV gone.example.test. has no address in the zone
line 15: warning: MX c.example.test. has no address in the zone'
# without the option nothing is said
tries check -
[[ $got == 0 && -z $told ]] || differs 'no warning' check -

# hosts outside the zone and the root aren't asked for (RFC 7505, 3; RFC 2782); a wildcard's records are those of a name that doesn't exist
input=$head'@ MX 10 mail.example.com.
@ NS ns.example.com.
none MX 0 .
_sip._tcp SRV 0 0 0 .
*.wild A 192.0.2.7
*.alias CNAME ns1
*.text TXT "x"
a MX 10 b.wild
b MX 10 b.alias
c MX 10 b.text
'
warns 'line 14: warning: MX b.alias.example.test. is an alias
line 15: warning: MX b.text.example.test. has no address in the zone'

# at or below a zone cut: glue, of the cut's own servers and of those of another; other hosts there aren't the zone's to say
input=$head'sub NS ns.sub
sub NS ns2.sub
sub NS sub
ns.sub A 192.0.2.2
other NS ns.sub
other NS ns3.sub
@ MX 10 mail.sub
'
warns 'line 7: warning: NS ns2.sub.example.test. has no glue in the zone
line 8: warning: NS sub.example.test. has no glue in the zone
line 11: warning: NS ns3.sub.example.test. has no glue in the zone'

# names that end with the zone's twice: owners, and names in data
input=$head'www.example.test A 192.0.2.3
ftp CNAME www.example.test
@ MX 10 mail.example.test
example.test. TXT "once"
example.testy A 192.0.2.4
EXAMPLE.TEST A 192.0.2.5
'
warns "line 6: warning: www.example.test.example.test. ends with the zone's name twice
line 7: warning: CNAME www.example.test.example.test. ends with the zone's name twice
line 8: warning: MX mail.example.test.example.test. has no address in the zone
line 8: warning: MX mail.example.test.example.test. ends with the zone's name twice
line 11: warning: example.test.example.test. ends with the zone's name twice"
# of the root's zone no name does
input='. 60 SOA a. b. 1 2 3 4 5
. 60 NS a.
a. 60 A 192.0.2.1
. 60 MX 0 .
'
warns '' --origin .
# nor where the name twice is longer than a name may be
long=$(repeat 3 "$(repeat 60 a).")
input="\$ORIGIN $long
@ 60 SOA a b 1 2 3 4 5
@ 60 NS a
a 60 A 192.0.2.1
"
warns ''

# TTLs of a set: that of its last record is served
input=$head'web 300 A 192.0.2.3
web 60 A 192.0.2.4
web 600 A 192.0.2.5
web 300 AAAA 2001:db8::5
web 600 A 192.0.2.4
'
warns 'line 6: warning: web.example.test. A has TTL 300, and its set 600
line 7: warning: web.example.test. A has TTL 60, and its set 600'

# the lines of a text: directives, remarks and records over several lines count
input=$head'; a remark

mx MX ( 10
  gone )
$ORIGIN sub.example.test.
@ MX 10 gone
'
warns 'line 8: warning: MX gone.example.test. has no address in the zone
line 11: warning: MX gone.sub.example.test. has no address in the zone'

# a text that is refused gets its fault alone
input=$head'@ MX 10 gone
@ MX 10
'
refuses 1 'line 7: M6 BadData' check --warn -
row 1 '' check --warn -
[[ $told != *warning* ]] || differs 'no warning' check --warn -
